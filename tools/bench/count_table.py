#!/usr/bin/env python3
"""The tables of the counting's benchmark from what the placements measured.

tools/bench/count_table.py FILE...     (one file of the driver's lines for each placement)
"""
import sys
from statistics import median

sys.dont_write_bytecode = True
from table import mean, placements_of, spread
from words import run

COUNTERS = 4
# The rows of frames of one size.
SMALL = "small"
HEAD = (
    f"{'row':<8} {'frames':>7} {'steps':>5} {'pft':>5} {'vm.rs':>5} {'memory':>6} {'file':>5} "
    f"{'pft/vm.rs':<16} {'pft/memory':<16} pft/file"
)
# How wide the four times are shown.
WIDTHS = [5, 5, 6, 5]


class Row:
    """Name, frames, accepted, steps; medians and minima of the four; opening from memory and from a file."""

    def __init__(self, words):
        self.name, self.frames, self.accepted, self.steps = words[0], int(words[1]), int(words[2]), float(words[3])
        times = list(map(float, words[4:]))
        self.times = [times[:COUNTERS], times[COUNTERS:2 * COUNTERS]]
        self.opening = times[2 * COUNTERS:]

    def ratios(self, which):
        pft, *others = self.times[which]
        return [pft / other for other in others]


def read(path):
    return [Row(line.split()) for line in open(path)]


def table(title, placements, which):
    print(title, HEAD, sep="\n")
    for rows in zip(*placements):
        row = rows[0]
        medians = [median(r.times[which][i] for r in rows) for i in range(COUNTERS)]
        times = " ".join(f"{time:{width}.1f}" for time, width in zip(medians, WIDTHS))
        spreads = " ".join(f"{spread(r):<16}" for r in zip(*(r.ratios(which) for r in rows)))
        print(f"{row.name:<8} {row.frames:7} {row.steps:5.1f} {times} {spreads}".rstrip())
    for frames in sorted({row.frames for row in placements[0] if row.name != SMALL}):
        chosen = [[row.ratios(which) for row in rows if row.frames == frames and row.name != SMALL] for rows in placements]
        spreads = " ".join(f"{spread(r):<16}" for r in zip(*([mean(r) for r in zip(*rows)] for rows in chosen)))
        print(f"{f'geometric mean, {frames} mixed':<46} {spreads}".rstrip())


def main():
    placements = placements_of(__doc__, read)
    print(f"ns per frame; {len(placements)} placements of the code: their median, and in brackets their range")
    table("\nmedian of the rounds", placements, 0)
    table("\nminimum of the rounds", placements, 1)
    memory, file = (median(row.opening[i] for rows in placements for row in rows) / 1000 for i in (0, 1))
    print(f"\nof which libpcap opens and closes: {memory:.1f} µs from memory, {file:.1f} µs from a file")


if __name__ == "__main__":
    run(main)
