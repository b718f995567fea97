#!/usr/bin/env python3
"""The lines whose typing is timed: a row to a line.

tools/bench/lines.py FOLDER

Writes the lines, and the frames on which their programs are compared, to FOLDER. A row is NAME,
link, conditions, line and frames of a line that is built; NAME, refusal and line of a long one.
The same rows on every machine.
"""
import pathlib
import sys

sys.dont_write_bytecode = True
from programs import FRAMES, frame
from trees import ETHERNET, RAWIP, SLL, Rng
from words import Words, run

LINKS = [ETHERNET, RAWIP, SLL]
ETHER_HEADER, COOKED_START = 14, bytes([0, 0, 0, 1, 0, 6])

# ── Lines that are built ─────────────────────────────────────────────────────


def host(i):
    return f"src host 10.0.0.{i}"


def hosts(count):
    return " or ".join(host(i) for i in range(count))


def ports(count):
    return " or ".join(f"dst port {50 + i}" for i in range(count))


def groups(count):
    """Six conditions in brackets, as a crew would join them; each second group wants other hosts."""
    one = "( ( tcp and dst port {0} or udp and port {0} ) and {1}( src host 10.0.0.{2} or dst host 10.0.0.{2} ) )"
    return " or ".join(one.format(80 + i, ("", "not ")[i % 2], i) for i in range(count // 6))


def mixed(count):
    """Or and and in turn: tests are seldom shared, the program is long."""
    conditions = [("tcp port {}", "host 10.0.0.{}", "udp src port {}")[i % 3].format(i) for i in range(count)]
    joins = [("or ", "and ")[i % 2] for i in range(count - 1)]
    return " ".join(join + condition for join, condition in zip([""] + joins, conditions))


def nested(count):
    """A bracket inside each bracket."""
    return " or ( ".join(host(i) for i in range(count)) + " )" * (count - 1)


LINES = [("ip", 1, "ip"), ("host", 1, host(5)), ("port", 1, "port 53")]
LINES += [(line.__name__, count, line(count)) for count in (12, 60) for line in (hosts, ports, groups, mixed, nested)]


def framed(link, ether):
    """A frame of Ethernet on another link."""
    if link == RAWIP:
        return ether[ETHER_HEADER:]
    return COOKED_START + ether[6:12] + bytes(2) + ether[12:] if link == SLL else ether


# ── Long lines ───────────────────────────────────────────────────────────────

SIZES = [1000, 10000, 100000, 1000000]
UNKNOWN_WORD, UNFINISHED, TOO_LARGE = 16, 17, 18


def repeated(part, size, end=""):
    """So often the part, then the end, that no more than so many bytes come of it."""
    return part * ((size - len(end)) // len(part)) + end


def deep(size):
    """As many brackets as go around a condition."""
    count = (size - 2) // 4
    return "( " * count + "ip" + " )" * count


# By name, the refusal and the line of a size. 1,000 bytes of each of the first five are too large.
LONG = [
    ("names", TOO_LARGE, lambda size: repeated("ip or ", size, "ip")),
    ("ports", TOO_LARGE, lambda size: repeated("port 443 or ", size, "ip")),
    ("hosts", TOO_LARGE, lambda size: repeated("not host 10.0.0.1 or ", size, "ip")),
    ("nots", TOO_LARGE, lambda size: repeated("not ", size, "ip")),
    ("brackets", TOO_LARGE, deep),
    ("opened", UNFINISHED, lambda size: repeated("( ", 2 * size)),
    ("spaces", UNFINISHED, lambda size: " " * size),
    ("letters", UNKNOWN_WORD, lambda size: "i" * size),
    ("digits", UNKNOWN_WORD, lambda size: "1" * size),
    ("dotted", UNKNOWN_WORD, lambda size: repeated("1.", size)),
]


def main():
    parser = Words(__doc__)
    parser.add_argument("folder", metavar="FOLDER", type=pathlib.Path)
    folder, rng = parser.parse_args().folder, Rng(7)
    frames = [frame(rng) for _ in range(FRAMES)]
    for link in LINKS:
        made = folder / f"frames{link}"
        made.write_text("".join(f"{framed(link, ether).hex()}\n" for ether in frames))
        for name, count, line in LINES:
            path = folder / f"{name}_{count}.line"
            path.write_text(line)
            print(f"{name}_{count}", link, count, path, made)
    for name, refusal, line in LONG:
        for size in SIZES:
            path = folder / f"{name}_{size}.line"
            path.write_text(line(size))
            print(name, refusal, path)


if __name__ == "__main__":
    run(main)
