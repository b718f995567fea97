#!/usr/bin/env python3
"""The benchmark's tables from what the placements measured.

tools/bench/table.py FILE...     (one file of the driver's lines for each placement)
"""
import math
import pathlib
import sys
from statistics import median

sys.dont_write_bytecode = True
sys.path.insert(0, str(pathlib.Path(__file__).resolve().parent.parent / "oracle"))
from words import Words, run, stop

HEAD = f"{'row':<12} {'steps':>6} {'pft':>8} {'vm.rs':>8} {'pcap':>8}   {'pft/vm.rs':<18} pft/bpf_filter"


def read(path):
    """Name, kind, steps and the six times of each row."""
    rows = [line.split() for line in open(path)]
    return [(name, kind, float(steps), list(map(float, times))) for name, kind, steps, *times in rows]


def spread(values):
    return f"{median(values):.2f} ({min(values):.2f}-{max(values):.2f})"


def mean(values):
    return math.exp(sum(map(math.log, values)) / len(values))


def table(title, placements, at):
    """Times at `at` and the two after it: pft, vm.rs, bpf_filter."""
    print(title, HEAD, sep="\n")
    ratios = lambda row: (row[3][at] / row[3][at + 1], row[3][at] / row[3][at + 2])
    for rows in zip(*placements):
        name, _, steps, _ = rows[0]
        times = " ".join(f"{median(row[3][i] for row in rows):8.2f}" for i in range(at, at + 3))
        vm, pcap = (spread(r) for r in zip(*map(ratios, rows)))
        print(f"{name:<12} {steps:6.1f} {times}   {vm:<18} {pcap:<18}".rstrip())
    for words, kinds in (("rows that the generator can emit", ["emitted"]), ("all rows", ["emitted", "other"])):
        chosen = [[ratios(row) for row in rows if row[1] in kinds] for rows in placements]
        vm, pcap = (spread([mean([r[i] for r in rows]) for rows in chosen]) for i in (0, 1))
        print(f"geometric mean, {words:<38} {vm:<18} {pcap:<18}".rstrip())


def placements_of(text, read):
    """What the files named by the command's words hold; the text is its help."""
    parser = Words(text)
    parser.add_argument("files", metavar="FILE", nargs="+")
    try:
        return [read(path) for path in parser.parse_args().files]
    except ValueError as problem:
        stop(f"not the driver's lines: {problem}")


def main():
    placements = placements_of(__doc__, read)
    print(f"ns per run; {len(placements)} placements of the code: their median, and in brackets their range")
    table("\nmedian of the rounds", placements, 0)
    table("\nminimum of the rounds", placements, 3)


if __name__ == "__main__":
    run(main)
