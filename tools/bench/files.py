#!/usr/bin/env python3
"""The tree files whose builds are timed: NAME and the file in hex, a row to a line.

tools/bench/files.py
"""
import sys

sys.dont_write_bytecode = True
from programs import MULTICAST, TREES, UDP, WEB, address6, host4, host6, joined, port, protocol
from trees import AND, EITHER, ETHERNET, NOT, OR, SOURCE, header, record
from words import Words, run


def net6(last, prefix=128):
    return [record(14, EITHER, small=prefix, address=address6(last))]


def ladder(parts):
    """And and or in turn, from the left: short jumps, a long program."""
    tree = parts[0]
    for i, part in enumerate(parts[1:]):
        tree = [record((OR, AND)[i % 2])] + tree + part
    return tree


def negated(tree):
    return [record(NOT)] + tree


MIXED = [WEB, host4(SOURCE, 1), net6(1, 64), port(EITHER, UDP, 53), protocol(UDP), negated(MULTICAST)]

FILES = {
    "ip": TREES["ip"],
    "port": TREES["port"],
    "web": WEB,
    "tcp_or_udp": TREES["tcp_or_udp"],
    "hosts_7": joined(OR, [host4(EITHER, i) for i in range(4)]),
    "ports_7": joined(OR, [port(EITHER, 0, n) for n in (53, 80, 443, 22)]),
    "hosts_20": negated(joined(OR, [host4(EITHER, i) for i in range(10)])),
    "mixed_20": ladder(MIXED + [host4(EITHER, 2), port(SOURCE, 0, 80), protocol(UDP)]),
    "hosts_100": negated(joined(OR, [host4(SOURCE, i) for i in range(50)])),
    "ports_99": ladder([port(EITHER, 0, n) for n in range(50)]),
    "hosts_128": negated(joined(OR, [host4(SOURCE, i) for i in range(64)])),
    "nets6_7": joined(AND, [net6(i, 64) for i in range(4)]),
    "nets6_13": joined(OR, [net6(i) for i in range(7)]),
    "nets6_99": ladder([(net6(i), MULTICAST)[i % 2] for i in range(50)]),
    "nets6_127": ladder([(net6(i), MULTICAST)[i % 2] for i in range(64)]),
    # 25 prefixes from 0 to 116 in no order, most of which end within a segment.
    "prefix_99": ladder([(net6(i, 37 * i % 129), MULTICAST)[i % 2] for i in range(50)]),
    "hosts6_7": joined(OR, [host6(EITHER, i) for i in range(4)]),
    "hosts6_13": joined(OR, [host6(EITHER, i) for i in range(7)]),
    "hosts6_99": ladder([(host6(EITHER, i), MULTICAST)[i % 2] for i in range(50)]),
}


def main():
    Words(__doc__).parse_args()
    for name, tree in FILES.items():
        print(name, (header(ETHERNET, len(tree)) + b"".join(tree)).hex())


if __name__ == "__main__":
    run(main)
