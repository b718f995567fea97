#!/usr/bin/env python3
"""The tables of the build's benchmark from what its processes measured.

tools/bench/build_table.py FILE...     (one file of the driver's lines for each process)

The last table is printed where the lines hold the times of an older pft_build.
"""
import sys
from statistics import median

sys.dont_write_bytecode = True
from table import mean, placements_of, spread
from words import run, stop

# A line's times are the medians of the six builders, or with an older pft_build of the seven, then their minima.
SIX, SEVEN = 2 * 6, 2 * 7
# The columns of a table: the times by name and place, and the ratios by name and the places of their times.
TIMES = [("exact", 0), ("32,768", 1), ("compile", 2), ("file", 3)]
RATIOS = [("exact/compile", 0, 2), ("exact/file", 0, 3), ("32,768/file", 1, 3)]
# The same of question and load, beside the build with a buffer of the program's length.
HALVES = [("exact", 0), ("question", 4), ("load", 5)]
HALF_RATIOS = [("question/exact", 4, 0), ("load/exact", 5, 0)]
# The same of the last table, whose second ratio is that of the minima.
CHANGES = [("before", 6), ("after", 0)]
CHANGE_RATIOS = [("after/before", 0, 6), ("of the minima", 7, 13)]


def row(line):
    """Name, records, instructions and the times."""
    name, records, insns, *times = line.split()
    if len(times) not in (SIX, SEVEN):
        raise ValueError(f"{len(times)} times in row {name}")
    return name, int(records), int(insns), list(map(float, times))


def read(path):
    return [row(line) for line in open(path)]


def joined(ratios):
    return " ".join(f"{ratio:<17}" for ratio in ratios).rstrip()


def table(title, processes, at, columns, ratios):
    """Times and ratios of the places that are counted from `at`."""
    heads = " ".join(f"{name:>8}" for name, _ in columns)
    head = f"{'row':<10} {'records':>7} {'insns':>5} {heads}   "
    print(title, head + joined(name for name, _, _ in ratios), sep="\n")
    of = lambda row: [row[3][at + a] / row[3][at + b] for _, a, b in ratios]
    for rows in zip(*processes):
        name, records, insns, _ = rows[0]
        times = " ".join(f"{median(row[3][at + i] for row in rows):8.0f}" for _, i in columns)
        print(f"{name:<10} {records:7} {insns:5} {times}   {joined(map(spread, zip(*map(of, rows))))}")
    means = [[mean(r) for r in zip(*map(of, rows))] for rows in processes]
    print("geometric mean".ljust(len(head)) + joined(map(spread, zip(*means))))


def main():
    processes = placements_of(__doc__, read)
    sizes = {len(times) for rows in processes for *_, times in rows}
    if len(sizes) != 1:
        stop("not the driver's lines: no rows, or an older pft_build in some of them alone")
    size = sizes.pop()
    print(
        f"ns per build; {len(processes)} processes, the placements of the code in turn: "
        "their median, and in brackets their range"
    )
    table("\nmedian of the rounds", processes, 0, TIMES, RATIOS)
    table("\nminimum of the rounds", processes, size // 2, TIMES, RATIOS)
    table("\nquestion and load: median of the rounds", processes, 0, HALVES, HALF_RATIOS)
    table("\nquestion and load: minimum of the rounds", processes, size // 2, HALVES, HALF_RATIOS)
    if size == SEVEN:
        table("\nbefore and after, exact: median of the rounds", processes, 0, CHANGES, CHANGE_RATIOS)


if __name__ == "__main__":
    run(main)
