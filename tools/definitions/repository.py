"""The temporary repository in which antt computes the rows.

It has copies of the definitions, the crate `tables` with the tests of a row,
and crates of theorems about parts of the rows.
"""
import pathlib
import re
import shutil
import subprocess

from words import stop

HERE = pathlib.Path(__file__).resolve().parent
ROOT = HERE.parent.parent


# ── Theorems ─────────────────────────────────────────────────────────────────

PART_ROWS = 30
PART_WEIGHT = 12_000
CRATE_PARTS = 6


class Part:
    """Rows that one theorem is about: that all hold, or that none does."""

    def __init__(self, rows, hold=True):
        self.rows, self.hold = rows, hold

    def retried(self):
        """What to try where antt does not admit the theorem: the rows one by
        one, then that the row does not hold; nothing where that fails too."""
        if len(self.rows) > 1:
            return [Part([row], self.hold) for row in self.rows]
        return [Part(self.rows, hold=False)] if self.hold else []


def packed(rows, weight):
    part, total = [], 0
    for row in rows:
        if part and (len(part) == PART_ROWS or total + weight(row) > PART_WEIGHT):
            yield Part(part)
            part, total = [], 0
        part.append(row)
        total += weight(row)
    if part:
        yield Part(part)


def refused_parts(text):
    """The number of each theorem that antt did not admit."""
    return {int(number) for number in re.findall(r"specs/Table\.antt:\d+:\d+: error: `p(\d+)`", text)}


# ── Copies ───────────────────────────────────────────────────────────────────


def types_only(text):
    """A source file's types and constants, and the names that they use. The
    definitions name no function, and without its proof none would be admitted."""
    kept, uses, inside = [], [], False
    for line in text.splitlines():
        if inside:
            kept.append(line)
            inside = line[:1] not in ("}", "]", ")")
        elif re.match(r"(pub )?(enum|struct|const|type|mod) |#\[derive", line):
            kept.append(line)
            inside = line.rstrip()[-1:] not in (";", "}", "]")
        elif line.startswith("use "):
            path, names = re.fullmatch(r"use (.*)::\{?([\w, ]+)\}?;", line).groups()
            uses += [(f"use {path}::{name};", name) for name in names.split(", ")]
    body = "\n".join(kept)
    named = set(re.findall(r"\w+", body))
    return "\n".join(["#![tactic(auto)]", *(use for use, name in uses if name in named), body, ""])


def listed_crates():
    """What crates.txt says: each crate with those that it stands on."""
    crates = {}
    for line in (ROOT / "crates.txt").read_text().splitlines():
        name, colon, deps = line.partition("#")[0].partition(":")
        if colon:
            crates[name.strip()] = deps.split()
    return crates


# The crates of definitions, and in them what functions promise one another, which stands on the code's crates.
DEFINITIONS = ["error", "bpf", "vm", "ast", "direct", "codegen", "build", "capture", "count"]
PROMISES = {"build": ["Promises"], "capture": ["Promises"]}


def definition_crates():
    """The crates that rows are about, each with those that it stands on."""
    listed = listed_crates()
    return {name: [d for d in listed[name] if d in DEFINITIONS] for name in DEFINITIONS}


# ── The repository ───────────────────────────────────────────────────────────


class Repository:
    def __init__(self, folder, breaks):
        self.folder = folder
        self.crates = definition_crates()
        for crate in self.crates:
            source, copy = ROOT / "crates" / crate, folder / "crates" / crate
            shutil.copytree(source / "specs", copy / "specs")
            for module in PROMISES.get(crate, []):
                (copy / "specs" / f"{module}.antt").unlink()
                root = copy / "specs" / "Lib.antt"
                root.write_text(root.read_text().replace(f"pub mod {module}\n", ""))
            for path in (source / "src").rglob("*.rt"):
                to = copy / path.relative_to(source)
                to.parent.mkdir(parents=True, exist_ok=True)
                to.write_text(types_only(path.read_text()))
        for edit in breaks:
            self.edit(*edit)
        self.start()

    def edit(self, name, old, new):
        path = self.folder / name
        if not path.is_file():
            stop(f"--break: no {name} among the copied files")
        text = path.read_text()
        if text.count(old) != 1:
            stop(f"--break: {old!r} stands {text.count(old)} times in {name}")
        path.write_text(text.replace(old, new))

    def crate(self, name, deps, **specs):
        folder = self.folder / "crates" / name
        shutil.rmtree(folder, ignore_errors=True)
        (folder / "src").mkdir(parents=True)
        (folder / "specs").mkdir()
        (folder / "src" / "lib.rt").write_text("// No code: all is in specs/.\n#![tactic(auto)]\n")
        (folder / "specs" / "Lib.antt").write_text("".join(f"pub mod {m}\n" for m in specs))
        for module, text in specs.items():
            (folder / "specs" / f"{module}.antt").write_text(text)
        return f"{name}: {' '.join(deps)}\n"

    def tables(self):
        """The crate of the row tests: with the quick form, or without."""
        modules = ["Rows", "Quick"] if self.quick else ["Rows"]
        return self.crate("tables", self.crates, **{m: (HERE / f"{m}.antt.in").read_text() for m in modules})

    def start(self):
        """The definitions and the row tests are admitted."""
        copied = "".join(f"{name}: {' '.join(deps)}\n" for name, deps in self.crates.items())
        for self.quick in (True, False):
            self.listed = copied + self.tables()
            (self.folder / "crates.txt").write_text(self.listed)
            done, text = self.check("tables")
            if done:
                break
            if self.quick:
                print("Quick.antt.in does not fit these definitions: computed without it, which is slow")
        else:
            stop(f"the definitions are not admitted:\n{text}")
        self.unfolds = self.unfold_names()

    def unfold_names(self):
        """Every definition that a theorem may compute with."""
        names = []
        for crate in [*self.crates, "tables"]:
            for path in sorted((self.folder / "crates" / crate / "specs").glob("*.antt")):
                for name in re.findall(r"^ *unfoldable pub (\S+) :", path.read_text(), re.M):
                    # shut where the quick form is computed, so that both sides are not
                    if not (self.quick and crate == "tables" and name in ("all", "none", "holds")):
                        names.append(f"Rattle.{crate}.specs.{path.stem}.{name}")
        return " ".join(names)

    def check(self, crate):
        folder = self.folder / "crates" / crate
        done = subprocess.run(["rt", "check"], cwd=folder, capture_output=True, text=True)
        text = done.stdout + done.stderr
        return done.returncode == 0 and bool(re.search(r"^logic=proved ", text, re.M)), text

    def theorem(self, i, part):
        rows = "\n    ∷ ".join(row.text for row in part.rows)
        test, law = ("all", "all_hold") if part.hold else ("none", "none_holds")
        proof = f"{law} rows{i} tt" if self.quick else "tt"
        return (
            f"\nrows{i} : List Row\nrows{i} =\n    {rows}\n    ∷ []\n"
            f"\np{i} : T ({test} rows{i})\nunfolding rows{i} {self.unfolds}\np{i} = {proof}\n"
        )

    def table(self, parts):
        quick = "use Rattle.tables.specs.Quick.{all_hold, none_holds}\n" if self.quick else ""
        return (
            "use Rattle.std.specs.Prelude.{T, List, [], ◌∷◌}\n"
            "use Rattle.tables.specs.Rows.{Row, builds, runs, reads, counts, frames, questions, loads, onto, all, none}\n"
            + quick
            + "".join(self.theorem(i, part) for i, part in enumerate(parts))
        )

    def write(self, crate, parts):
        return self.crate(crate, [*self.crates, "tables"], Table=self.table(parts))

    def weight(self, row):
        return row.weight if self.quick else row.weight + row.weight**2 // 500

    def settle(self, rows):
        """Until antt admits theorems that say of every row whether it holds:
        those that differ, and those that could not be computed."""
        parts = list(packed(rows, self.weight))
        starts = range(0, len(parts), CRATE_PARTS)
        crates = {f"rows{i // CRATE_PARTS}": parts[i : i + CRATE_PARTS] for i in starts}
        lines = [self.write(name, parts) for name, parts in crates.items()]
        (self.folder / "crates.txt").write_text(self.listed + "".join(lines))
        given_up = []
        for name in crates:
            crates[name] = self.settled(name, crates[name], given_up)
        return [row for parts in crates.values() for p in parts if not p.hold for row in p.rows], given_up

    def settled(self, name, parts, given_up):
        """The same for the parts of a crate."""
        while True:
            done, text = self.check(name)
            if done:
                return parts
            bad = refused_parts(text)
            if not bad:
                stop(f"the tables are not admitted:\n{text}")
            tried = []
            for i, part in enumerate(parts):
                again = part.retried() if i in bad else [part]
                tried += again
                if not again:
                    given_up += part.rows
            parts = tried
            self.write(name, parts)
