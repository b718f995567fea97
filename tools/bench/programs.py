#!/usr/bin/env python3
"""The benchmark's programs and frames: a row to a line.

tools/bench/programs.py ORACLE

ORACLE is what tools/oracle/build makes. A line is NAME, `emitted` or `other`, the program in hex, then its frames in
hex. The emitted programs are the oracle's answers for the trees below; the
others have codes that the generator never emits. The same lines on every
machine.
"""
import pathlib
import subprocess
import sys

sys.dont_write_bytecode = True
sys.path.insert(0, str(pathlib.Path(__file__).resolve().parent.parent / "oracle"))
from trees import AND, BOTH, DESTINATION, EITHER, ETHERNET, NOT, OR, SOURCE
from trees import Rng, half, header, record
from words import Words, run, stop

FRAMES = 64
IP, TCP, UDP = 1, 5, 6

# ── Trees ────────────────────────────────────────────────────────────────────


def joined(kind, parts):
    """Conditions joined from the left."""
    tree = parts[0]
    for part in parts[1:]:
        tree = [record(kind)] + tree + part
    return tree


def protocol(p):
    return [record(10, protocol=p)]


def port(direction, p, number):
    return [record(15, direction, p, numbers=half(number))]


def host4(direction, last):
    return [record(11, direction, address=bytes([10, 0, 0, last]))]


def address6(last):
    return bytes([0x20, 0x01, 0x0D, 0xB8]) + bytes(11) + bytes([last])


def host6(direction, last):
    return [record(12, direction, address=address6(last))]


NET6 = [record(14, EITHER, small=64, address=address6(0))]
MULTICAST = [record(19)]
WEB = joined(AND, [protocol(TCP), port(DESTINATION, TCP, 80)])

TREES = {
    "ip": protocol(IP),
    "tcp_or_udp": joined(OR, [protocol(TCP), protocol(UDP)]),
    "web": WEB,
    "port": port(EITHER, 0, 53),
    "hosts": joined(OR, [host4(EITHER, i) for i in range(6)]),
    "ports": joined(OR, [port(EITHER, 0, n) for n in (53, 80, 443, 8080, 22, 25, 110)]),
    "mixed": joined(
        OR,
        [
            joined(AND, [WEB, host4(SOURCE, 1)]),
            joined(AND, [protocol(UDP), port(EITHER, UDP, 53)]),
            [record(NOT)] + MULTICAST,
        ],
    ),
    "hosts6": joined(OR, [host6(SOURCE, i) for i in range(12)]),
    "hosts6_and": joined(AND, [MULTICAST, host6(BOTH, 1), NET6]),
    "hosts_12": joined(OR, [host4(SOURCE, 100 + i) for i in range(12)]),
    "hosts_50": joined(OR, [host4(SOURCE, i) for i in range(50)]),
    "hosts_64": joined(OR, [host4(SOURCE, 100 + i) for i in range(64)]),
}

# ── Frames ───────────────────────────────────────────────────────────────────

FROM = [53, 80, 443, 1025, 3000]
TO = [53, 80, 80, 443, 8080, 22, 25, 110, 9999]


def frame(rng):
    """Of twenty frames fourteen are IPv4, five IPv6 and one ARP."""
    ether = bytes([rng.pick([0, 1, 2, 16])] + [rng.below(4) for _ in range(11)])
    kind = rng.below(20)
    ends = half(rng.pick(FROM)) + half(rng.pick(TO)) + bytes(40)
    if kind < 14:
        words = rng.pick([5, 5, 5, 6])
        fragment = rng.pick([0, 0, 0, 0, 0x4000, 0x00B9])
        head = bytes([0x40 + words, 0, 0, 60, 0, 1]) + half(fragment)
        head += bytes([64, rng.pick([6, 6, 17, 17, 1, 132]), 0, 0])
        head += bytes([10, 0, 0, rng.below(55), 10, 0, 0, rng.below(8)]) + bytes(4 * words - 20)
        return ether + half(0x0800) + head + ends
    if kind < 19:
        head = bytes([0x60, 0, 0, 0, 0, 44, rng.pick([6, 17, 58, 44]), 64])
        return ether + half(0x86DD) + head + address6(rng.below(13)) + address6(rng.below(13)) + ends
    return ether + half(0x0806) + bytes(60)


# ── Programs with other codes ────────────────────────────────────────────────


def insn(code, k=0):
    return code.to_bytes(2, "little") + bytes(2) + k.to_bytes(4, "little")


LOAD, LENGTH, TAX, TXA, RETURN_A = insn(0x20, 26), insn(0x80), insn(0x07), insn(0x87), insn(0x16)
# add sub mul or and lsh rsh xor of k; add sub or and xor of X; neg
ALU = [0x04, 0x14, 0x24, 0x44, 0x54, 0x64, 0x74, 0xA4, 0x0C, 0x1C, 0x4C, 0x5C, 0xAC, 0x84]


def alu(steps):
    rng = Rng(3)
    body = [insn(rng.pick(ALU), rng.between(1, 8)) for _ in range(steps - 4)]
    return LENGTH + TAX + LOAD + b"".join(body) + RETURN_A


def scratch(steps):
    rng = Rng(4)
    word = lambda code: insn(code, rng.below(16))
    body = [word(0x02) + word(0x61) + TXA + word(0x60) for _ in range((steps - 2) // 4)]
    return LOAD + b"".join(body) + RETURN_A


def one(code, k):
    return LOAD + insn(code, k) * 18 + RETURN_A


OTHERS = {
    "alu_10": alu(10),
    "alu_20": alu(20),
    "alu_100": alu(100),
    "scratch_10": scratch(10),
    "scratch_98": scratch(98),
    "mul_20": one(0x24, 3),
    "div_20": one(0x34, 3),
    "shift_20": one(0x64, 1),
}


def compiled(oracle, tree):
    file = header(ETHERNET, len(tree)) + b"".join(tree)
    done = subprocess.run([oracle, "build"], input=file.hex().encode(), capture_output=True)
    answer = done.stdout.decode().split()
    if done.returncode or len(answer) != 2 or answer[0] == "refused":
        stop(f"{oracle} built no program: {' '.join(answer)}{done.stderr.decode().strip()}")
    return answer[1]


def main():
    parser = Words(__doc__)
    parser.add_argument("oracle", metavar="ORACLE")
    oracle, rng = parser.parse_args().oracle, Rng(5)
    frames = [frame(rng).hex() for _ in range(FRAMES)]
    rows = [(name, "emitted", compiled(oracle, tree)) for name, tree in TREES.items()]
    rows += [(name, "other", program.hex()) for name, program in OTHERS.items()]
    for row in rows:
        print(*row, *frames)


if __name__ == "__main__":
    run(main)
