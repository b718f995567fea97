"""The tables of docs/DIFFERENCES.md."""
import re


class Unreadable(Exception):
    """A table or a row that cannot be read."""


class Row:
    """A row of a table: the entry it stands in, its place there, its cells by column."""

    def __init__(self, entry, place, cells):
        self.entry, self.place, self.cells = entry, place, cells

    def __str__(self):
        return f"{self.entry.name} row {self.place}"


class Entry:
    """What stands under a heading: its text, and its tables' rows."""

    def __init__(self, name):
        self.name, self.text, self.rows, self.columns = name, [], [], None

    def add(self, line):
        """A line; the lines of a table one after the other."""
        if not line.startswith("|"):
            self.columns = None
            self.text.append(line)
        elif self.columns is None:
            self.columns = cells(line)
        elif not set(line) <= set("|-: "):
            self.add_row(cells(line))

    def add_row(self, values):
        if len(values) != len(self.columns):
            raise Unreadable(f"{self.name}: {len(values)} cells, {len(self.columns)} columns: {values}")
        self.rows.append(Row(self, len(self.rows) + 1, dict(zip(self.columns, values))))


def cells(line):
    return [cell.strip() for cell in line.strip().strip("|").split("|")]


def entries(text):
    """Every heading's entry, by the first word of a `### D-nn ..` and the whole of others."""
    found = [Entry("the beginning")]
    for line in text.splitlines():
        heading = re.fullmatch(r"#+ (.*)", line)
        if heading is None:
            found[-1].add(line)
        else:
            words = heading[1]
            found.append(Entry(words.split()[0] if words.startswith("D-") else words))
    return found


# Another answer of the same sort; numbers are told one higher.
OTHERS = {"accepted": "dropped", "short": "broken", "Some(true)": "Some(false)", "EINVAL": "ENOMEM",
          "error": "never", "SIGABRT": "SIGFPE", "loops": "accepted 1", "None": "Some(true)"}
OTHERS |= {"dropped": "accepted", "broken": "short", "Some(false)": "Some(true)", "never": "error",
           "SIGFPE": "SIGABRT", "kept": "dropped", "not opened": "other link", "other link": "not opened",
           "true": "false", "false": "true"}


def altered(cell):
    """Another answer in place of a cell's."""
    number = re.search(r"\d+", cell)
    if cell in OTHERS or number is None:
        return OTHERS.get(cell, cell)
    return f"{cell[:number.start()]}{int(number[0]) + 1}{cell[number.end():]}"


def code(cell):
    """What stands between the first two backquotes, and what follows them; or None and the cell."""
    match = re.match(r"`([^`]*)`\s*(.*)", cell)
    return (match[1], match[2]) if match else (None, cell)
