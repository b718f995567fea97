#!/usr/bin/env python3
"""The captures in which frames are counted, and the trees by which: a row to a line.

tools/bench/captures.py FOLDER

Writes the captures to FOLDER. A line is NAME, the tree file in hex, the capture, its frames and how
many rounds are timed. The same captures and lines on every machine.
"""
import pathlib
import struct
import sys

sys.dont_write_bytecode = True
from programs import TREES, frame
from trees import ETHERNET, Rng, header
from words import Words, run

ROOT = pathlib.Path(__file__).resolve().parents[2]
# How many frames differ in what a program reads.
HEADS = 1024
# Mixed sizes: 1 MB, which a processor's cache holds, and 50 MB, which it does not.
MIXED = [2000, 100000]
# One size.
SMALL = [1000, 10000, 100000, 1000000]
SMALL_SIZE = 60
# All turns of a round take up to 70 ms for 100,000 frames.
ROUNDS = {100000: 31, 1000000: 7}
MOST_ROUNDS = 61
FILE_HEADER = struct.pack("<IHHiIII", 0xA1B2C3D4, 2, 4, 0, 0, 262144, 1)
TREE_NAMES = ["ip", "web", "ports"]
LONG_NAME, TWELVE = "hosts_64", "drives"


def packet(data):
    """A frame with its header; the time is told by no program."""
    return struct.pack("<IIII", 1700000000, 0, len(data), len(data)) + data


def size(rng):
    """Of 2,000 frames 1 has 65,535 bytes and 10 have 9,000; the others 40 to 1,514, most of them small."""
    draw = rng.below(2000)
    if draw < 11:
        return 9000 if draw else 65535
    if draw < 1200:
        return rng.between(40, 120)
    return rng.between(500, 600) if draw < 1700 else rng.between(1400, 1514)


def sized(head, length):
    return head[:length].ljust(length, b"\0")


def tree_files():
    """Ethernet trees: a condition, three, thirteen, twelve conditions as a crew would join them, and 127."""
    made = {name: header(ETHERNET, len(tree)) + b"".join(tree) for name, tree in TREES.items()}
    twelve = (ROOT / "samples" / "ethernet" / f"{TWELVE}.pft").read_bytes()
    return {name: made[name] for name in TREE_NAMES} | {TWELVE: twelve, LONG_NAME: made[LONG_NAME]}


def write(path, packets):
    path.write_bytes(FILE_HEADER + b"".join(packets))


def row(name, tree, path, count):
    print(name, tree.hex(), path, count, ROUNDS.get(count, MOST_ROUNDS))


def main():
    parser = Words(__doc__)
    parser.add_argument("folder", metavar="FOLDER", type=pathlib.Path)
    folder, rng = parser.parse_args().folder, Rng(6)
    heads, trees = [frame(rng) for _ in range(HEADS)], tree_files()
    mixed = [packet(sized(rng.pick(heads), size(rng))) for _ in range(max(MIXED))]
    for count in MIXED:
        path = folder / f"mixed{count}.pcap"
        write(path, mixed[:count])
        for name, tree in trees.items():
            row(name, tree, path, count)
    packets = [packet(sized(head, SMALL_SIZE)) for head in heads]
    small = [rng.pick(packets) for _ in range(max(SMALL))]
    for count in SMALL:
        path = folder / f"small{count}.pcap"
        write(path, small[:count])
        row("small", trees["web"], path, count)


if __name__ == "__main__":
    run(main)
