#!/usr/bin/env python3
"""The tables of the typing's benchmark from what the placements measured.

tools/bench/line_table.py FILE...     (one file of the driver's lines for each placement)
"""
import sys
from statistics import median

sys.dont_write_bytecode = True
from table import mean, placements_of
from words import run

# How many of the first words tell what a line is, and how many times are measured of it.
FORMS = {"built": (6, 5), "long": (2, 3)}
# The places of a built line's times: with a buffer of the program's length and with the longest, and libpcap's two.
EXACT, FULL, WORDS = 1, 2, 3
WIDTHS = [4, 5, 5, 8, 8]
FULL_RATIO = "full/words"
HEAD = (
    f"{'row':<9} link bytes insns pcap {'type':>4} {'exact':>5} {'full':>5} {'words':>8} {'typed':>8} "
    f"{FULL_RATIO:<19} exact/words"
)
# What type and build may take of libpcap's time.
GOAL = 0.1


class Row:
    """A line of the driver: what it is of, then medians and minima."""

    def __init__(self, kind, words):
        about, count = FORMS[kind]
        self.kind, self.name, self.about = kind, words[0], list(map(int, words[1:about]))
        times = list(map(float, words[about:]))
        if len(times) != 2 * count:
            raise ValueError(f"{len(times)} times in row {self.name}")
        self.times = [times[:count], times[count:]]

    def ratios(self, which):
        times = self.times[which]
        return [times[FULL] / times[WORDS], times[EXACT] / times[WORDS]]


def read(path):
    return [Row(kind, words) for kind, *words in map(str.split, open(path))]


def of_kind(kind, placements):
    """The rows of a kind, each as the placements have it."""
    return list(zip(*([row for row in rows if row.kind == kind] for rows in placements)))


def short(ratio):
    """Two digits of a ratio."""
    return f"{ratio:.{2 if ratio >= GOAL else 3}f}"


def shown(ratios):
    """Ratios by placement: the first with its range."""
    full, exact = zip(*ratios)
    spread = f"{short(median(full))} ({short(min(full))}-{short(max(full))})"
    return f"{spread:<19} {short(median(exact))}"


def built_table(title, placements, which):
    print(title, HEAD, sep="\n")
    built = of_kind("built", placements)
    for rows in built:
        link, _, size, insns, theirs = rows[0].about
        medians = [median(row.times[which][i] for row in rows) for i in range(len(WIDTHS))]
        times = " ".join(f"{time:{width}.0f}" for time, width in zip(medians, WIDTHS))
        ratios = shown([row.ratios(which) for row in rows])
        print(f"{rows[0].name:<9} {link:4} {size:5} {insns:5} {theirs:4} {times} {ratios}")
    for count in sorted({rows[0].about[1] for rows in built}):
        chosen = zip(*([row.ratios(which) for row in rows] for rows in built if rows[0].about[1] == count))
        means = shown([[mean(column) for column in zip(*ratios)] for ratios in chosen])
        name = f"geometric mean, conditions: {count}"
        print(f"{name:<{HEAD.index(FULL_RATIO)}}{means}")


def long_table(title, placements, which):
    """Nanoseconds for a byte; a row has a line of each size."""
    print(title)
    names, long = {}, of_kind("long", placements)
    for rows in long:
        size = rows[0].about[0]
        each = median(row.times[which][0] / size for row in rows)
        names.setdefault(rows[0].name, []).append(f"{size:>9,}: {each:4.2f}")
    for name, sizes in names.items():
        print(f"{name:<8} {'  '.join(sizes)}")
    for place, words in ((1, "a link that is refused"), (2, "the clearing of 3,080 bytes")):
        print(f"{words}: {median(row.times[which][place] for rows in long for row in rows):.0f} ns")


def goal(placements, which):
    """How many rows reach the goal, and how far the others are from it."""
    ratios = [median(row.ratios(which)[0] for row in rows) for rows in of_kind("built", placements)]
    reached = sum(ratio <= GOAL for ratio in ratios)
    print(f"{FULL_RATIO} at most {GOAL} in {reached} of {len(ratios)} rows; {short(min(ratios))} to {short(max(ratios))}")


def main():
    placements = placements_of(__doc__, read)
    print(f"ns per line; {len(placements)} placements of the code: their median, and in brackets their range")
    for which, words in enumerate(("median of the rounds", "minimum of the rounds")):
        built_table(f"\n{words}", placements, which)
        goal(placements, which)
    for which, words in enumerate(("median of the rounds", "minimum of the rounds")):
        long_table(f"\npft_type, ns for a byte of a long line, by its bytes: {words}", placements, which)


if __name__ == "__main__":
    run(main)
