#!/usr/bin/env python3
"""Random tree files in hex, one per line; SEED fixes them all.

tools/oracle/trees.py SEED COUNT [--max-records N] [--small]

Few distinct values, so that guards, facts and hoisted tests meet often. Most
files pass checks 1 to 4; about a tenth are damaged. Of the others some hold a
condition that the link or the port cannot take (5, 6, 7, 15), and some have
jumps of about 255. --small keeps to nine records.
"""
import sys

sys.dont_write_bytecode = True
from words import Words, number, positive, run

AND, OR, NOT = 1, 2, 3
ETHERNET, RAWIP, SLL = 1, 2, 3
EITHER, SOURCE, DESTINATION, BOTH = 0, 1, 2, 3
RECORD = 24
MOST = 128
SMALL = 9


class Rng:
    """splitmix64: the same draws on every machine."""

    def __init__(self, seed):
        self.state = seed

    def draw(self):
        self.state = (self.state + 0x9E3779B97F4A7C15) % 2**64
        z = self.state
        z = (z ^ z >> 30) * 0xBF58476D1CE4E5B9 % 2**64
        z = (z ^ z >> 27) * 0x94D049BB133111EB % 2**64
        return z ^ z >> 31

    def below(self, n):
        return self.draw() % n

    def between(self, low, high):
        return low + self.below(high - low + 1)

    def one_in(self, n):
        return self.below(n) == 0

    def pick(self, items):
        return items[self.below(len(items))]

    def some(self, items, n):
        """A few draws of items, to be drawn from again."""
        return [self.pick(items) for _ in range(n)]

    def bytes(self, n):
        return bytes(self.below(256) for _ in range(n))


# ── Values ───────────────────────────────────────────────────────────────────

ETHERTYPES = [0x0800, 0x86DD, 0x0806, 0x8035, 0x8100, 0x0000, 0xFFFF]
NUMBERS = [6, 17, 132, 1, 58, 2, 0, 255]
PORTS = [53, 80, 81, 0, 65535]
PREFIXES = [0, 1, 15, 16, 17, 32, 64, 100, 112, 113, 127, 128, 129, 255]
MASKS = [0, 0xFFFFFF00, 0xFFFFFFFF, 0xFF000000, 0x00FF00FF, 0x80000001, 0x0000FFFE]
ADDRS4 = ["0a000001", "0a0000ff", "c0a80117", "e0000001", "ffffffff", "00000000"]
ADDRS6 = [
    "20010db8000000000000000000000001",
    "20010db8000100020003000400050006",
    "fe80000000000000021122fffe334455",
    "ff020000000000000000000000000001",
    "00000000000000000000000000000000",
    "ffffffffffffffffffffffffffffffff",
]
MACS = ["0200000000aa", "ffffffffffff", "01005e000001", "000000000000"]

PORT_PROTOCOLS = [0, 5, 6, 10]
BAD_PORT_PROTOCOLS = [1, 2, 3, 4, 7, 8, 9, 11, 12]

# Kinds, protocols and ethertypes that a file draws from.
FLAVOURS = {
    "all": (list(range(10, 25)), list(range(1, 13)), ETHERTYPES),
    "v4": ([10, 10, 11, 13, 15, 16, 18, 20, 21, 23], [1, 5, 6, 7, 9, 10, 11], [0x0800]),
    "v6": ([10, 10, 12, 14, 15, 16, 18, 22, 24], [2, 8, 12], [0x86DD]),
    "ports": ([10, 15, 15, 16, 18, 23, 24], [1, 2, 5, 6, 10, 11, 12], [0x0800, 0x86DD]),
    "ports6": ([10, 10, 15, 15, 16, 24], [2, 12], [0x86DD]),
    "ports4": ([10, 15, 15, 16, 23], [1, 5, 6, 10, 11], [0x0800]),
    "protocols": ([10, 10, 18, 23, 24], list(range(1, 13)), ETHERTYPES),
    "ether": ([10, 17, 17, 18, 19], [1, 2, 3, 4], ETHERTYPES),
}


def half(n):
    return n.to_bytes(2, "big")


def record(kind, direction=0, protocol=0, small=0, numbers=b"", address=b""):
    head = bytes([kind, direction, protocol, small])
    return head + numbers.ljust(4, b"\0") + address.ljust(16, b"\0")


class Values:
    """The few values that one file uses."""

    def __init__(self, rng, flavour):
        kinds, protocols, ethertypes = FLAVOURS[flavour]
        self.kinds = kinds if rng.one_in(2) else rng.some(kinds, 3)
        self.protocols = rng.some(protocols, 3)
        self.ethertypes = rng.some(ethertypes[:3], 2) + rng.some(ethertypes, 1)
        self.numbers = rng.some(NUMBERS[:3], 1) + rng.some(NUMBERS[:5], 1) + rng.some(NUMBERS, 1)
        self.ports = rng.some(PORTS[:2], 2) + rng.some(PORTS, 1)
        self.port_protocols = rng.some(PORT_PROTOCOLS, 2) + [0]
        self.directions = rng.some(range(4), 3)
        self.addrs4 = rng.some(ADDRS4, 2)
        self.addrs6 = rng.some(ADDRS6, 2)
        self.macs = rng.some(MACS, 2)
        self.masks = rng.some(MASKS, 2)
        self.prefixes = rng.some(PREFIXES, 2)
        self.senders = False
        self.pool = []

    def keep_to_senders(self, rng, link):
        """Most files of LinuxSll have of the ether conditions the sender's alone, which
        the link takes; half of these whatever their flavour."""
        self.senders = link == SLL and not rng.one_in(8)
        if self.senders and rng.one_in(2):
            self.kinds = self.kinds + [17]

    def fill_pool(self, rng, link):
        """From now on every leaf is one of a few, at times a misfit."""
        self.pool = [leaf(rng, self) for _ in range(rng.between(2, 5))]
        if rng.one_in(3 if link == RAWIP else 12):
            self.pool += [misfit(rng, link) for _ in range(rng.between(1, 3))]


# ── Leaves ───────────────────────────────────────────────────────────────────


def protocol_leaf(rng, v):
    protocol = rng.pick(v.protocols)
    small = rng.pick(v.numbers) if protocol >= 11 else 0
    return record(10, protocol=protocol, small=small)


def port_leaf(rng, v, kind):
    low = rng.pick(v.ports)
    high = rng.pick(v.ports) if rng.one_in(2) else min(low + rng.below(3), 65535)
    numbers = half(low) + half(high) if kind == 16 else half(low)
    protocol = rng.pick(v.port_protocols)
    return record(kind, rng.pick(v.directions), protocol, numbers=numbers)


def address_leaf(rng, v, kind):
    address, small = b"", 0
    if kind in (11, 13):
        address = bytes.fromhex(rng.pick(v.addrs4))
    if kind == 13:
        address += rng.pick(v.masks).to_bytes(4, "big")
    if kind in (12, 14):
        address = bytes.fromhex(rng.pick(v.addrs6))
    if kind == 14:
        small = rng.pick(v.prefixes)
    if kind == 17:
        address = bytes.fromhex(rng.pick(v.macs))
    return record(kind, rng.pick(v.directions), small=small, address=address)


def leaf(rng, v, kind=None):
    if v.pool and not kind:
        return rng.pick(v.pool)
    kind = kind or rng.pick(v.kinds)
    if v.senders and kind in ETHER:
        return record(17, SOURCE, address=bytes.fromhex(rng.pick(v.macs)))
    if kind == 10:
        return protocol_leaf(rng, v)
    if kind in (15, 16):
        return port_leaf(rng, v, kind)
    if kind in (11, 12, 13, 14, 17):
        return address_leaf(rng, v, kind)
    if kind == 18:
        return record(18, numbers=half(rng.pick(v.ethertypes)))
    if kind in (23, 24):
        return record(kind, small=rng.pick(v.numbers))
    return record(kind)


# Kinds that RawIp turns down with 5, and with 6 or 7; those that LinuxSll takes for the
# sender alone, and else turns down with 15.
RAW_FIVE = [10, 10, 12, 14, 18, 22, 24]
RAW_OTHER = [15, 16, 17, 19]
PORT_KINDS = [15, 16]
ETHER = [17, 19]
MISFITS = {ETHERNET: PORT_KINDS, RAWIP: RAW_FIVE + RAW_OTHER, SLL: PORT_KINDS + ETHER}


def misfit(rng, link, kinds=None):
    """A leaf for 6, or on RawIp for 5, 6 or 7, or on LinuxSll for 6 or 15."""
    v = Values(rng, "all")
    v.port_protocols = BAD_PORT_PROTOCOLS
    v.protocols = [2, 3, 4, 8, 12]
    v.ethertypes = ETHERTYPES[1:]
    r = leaf(rng, v, rng.pick(kinds or MISFITS[link]))
    if r[0] in PORT_KINDS and r[2] >= 11 and rng.one_in(2):
        r = put(r, 3, bytes([rng.pick(NUMBERS)]))
    if r[0] == 17 and r[1] == SOURCE and link == SLL:
        r = put(r, 1, bytes([rng.pick([EITHER, DESTINATION, BOTH])]))
    return r


# ── Trees ────────────────────────────────────────────────────────────────────


class Shape:
    """How one file's joins are laid out."""

    def __init__(self, rng):
        self.split = rng.pick(["any", "any", "left", "right", "even"])
        self.joins = rng.pick([[AND], [OR], [AND, OR], [AND, OR], [AND, AND, AND, OR]])
        self.nots = rng.pick([0, 0, 8, 3])

    def left_size(self, rng, n):
        """The left part's records, of n for both."""
        if self.split == "left":
            return n - min(rng.pick([1, 1, 1, 3]), n - 1)
        if self.split == "right":
            return min(rng.pick([1, 1, 1, 3]), n - 1)
        if self.split == "even":
            return n // 2
        return rng.between(1, n - 1)


def tree(rng, v, shape, n):
    """A tree of n records, as a list of them in prefix order."""
    if n == 1:
        return [leaf(rng, v)]
    if n == 2 or shape.nots and rng.one_in(shape.nots):
        return [record(NOT)] + tree(rng, v, shape, n - 1)
    left = shape.left_size(rng, n - 1)
    return (
        [record(rng.pick(shape.joins))]
        + tree(rng, v, shape, left)
        + tree(rng, v, shape, n - 1 - left)
    )


def size(rng, most):
    low, high = rng.pick(
        [(1, 3), (2, 9), (2, 9), (5, 20), (10, 40), (20, 60), (60, most), (most - 1, most)]
    )
    return rng.between(max(min(low, most), 1), min(high, most))


def link_and_flavour(rng):
    link = rng.pick([ETHERNET, ETHERNET, RAWIP, SLL])
    if link == RAWIP and not rng.one_in(8):
        return link, rng.pick(["v4", "ports4"])
    return link, rng.pick(list(FLAVOURS))


def plain_file(rng, most):
    link, flavour = link_and_flavour(rng)
    v = Values(rng, flavour)
    v.keep_to_senders(rng, link)
    if rng.one_in(3):
        v.fill_pool(rng, link)
    records = tree(rng, v, Shape(rng), size(rng, most))
    if rng.one_in({RAWIP: 6, SLL: 10}.get(link, 16)):
        at = rng.below(len(records))
        if records[at][0] >= 10:
            records[at] = misfit(rng, link)
    return link, records


def clash_file(rng, most):
    """RawIp or LinuxSll, an or of two conjunctions with misfits: which is met first?"""
    link = rng.pick([RAWIP, RAWIP, SLL])
    often, other = (RAW_FIVE, RAW_OTHER) if link == RAWIP else (ETHER, PORT_KINDS)
    v = Values(rng, "v4")
    one = misfit(rng, link, often)
    v.pool = [one, one, misfit(rng, link, other), leaf(rng, v)]
    shape = Shape(rng)
    shape.joins, shape.nots = [AND], 0
    sides = [tree(rng, v, shape, rng.pick([1, 3, 3])) for _ in range(2)]
    return link, [record(OR)] + sides[0] + sides[1]


# ── Trees whose jumps reach about 255 ────────────────────────────────────────

# Instructions of a leaf by direction, its kind once known from the facts.
LENGTHS = {
    11: (4, 2, 2, 4),
    12: (33, 16, 16, 32),
    13: (6, 3, 3, 6),
    17: (9, 4, 4, 8),
    19: (2,),
}
SENDER_LENGTH = 6


def length(v, r):
    return SENDER_LENGTH if v.senders and r[0] == 17 else LENGTHS[r[0]][r[1]]


def chain(rng, v, join, kinds, target, most):
    """Leaves joined from the left or the right, target instructions or a bit more."""
    leaves, total = [], 0
    while total < target and 2 * len(leaves) + 1 < most:
        leaves.append(leaf(rng, v, rng.pick(kinds)))
        total += length(v, leaves[-1]) + (join == OR)
    if rng.one_in(2):
        return [record(join)] * (len(leaves) - 1) + leaves
    joined = [r for l in leaves[:-1] for r in (record(join), l)]
    return joined + leaves[-1:]


def wrap(rng, v, link, records):
    """The chain alone, under a not, or joined to more leaves."""
    extra = misfit(rng, link) if rng.one_in(4) else leaf(rng, v)
    join = record(rng.pick([AND, OR]))
    port = leaf(rng, v, 15)
    return rng.pick(
        [
            records,
            [record(NOT)] + records,
            [join, record(NOT)] + records + [extra],
            [join, extra] + records,
            [join] + records + [extra],
            [join] + records + [extra],
            [record(OR), join, record(NOT), record(AND), port] + records + [extra, port],
        ]
    )


def far_file(rng, most):
    link, flavour = link_and_flavour(rng)
    v = Values(rng, flavour)
    v.keep_to_senders(rng, link)
    v.directions = rng.pick([[EITHER], [BOTH], [EITHER, BOTH], list(range(4))])
    raw_kinds = [[13], [11, 13, 13]]
    kinds = rng.pick(raw_kinds if link == RAWIP else raw_kinds + [[17], [17, 19], [12, 19], [12, 17]])
    target = rng.between(244, 262)
    records = chain(rng, v, rng.pick([AND, OR]), kinds, target, most - 7)
    return link, wrap(rng, v, link, records)


# Families whose guards differ, so that nothing is hoisted far ahead.
FAMILIES = [[14], [12, 14], [11, 13, 20, 21], [15, 16], [16], [17, 19]]


def ladder_file(rng, most):
    """And and or in turn, from the left: short jumps, a long program."""
    link = rng.pick([ETHERNET, SLL])
    v = Values(rng, "all")
    v.keep_to_senders(rng, link)
    v.directions = [EITHER, EITHER, rng.below(4)]
    v.prefixes = [127, rng.pick(PREFIXES)]
    joins = rng.between(most // 4, (most - 1) // 2)
    families = rng.some(FAMILIES, 2)
    rungs = [record((AND, OR)[i % 2]) for i in range(joins)]
    leaves = [leaf(rng, v, rng.pick(families[i % 2])) for i in range(joins + 1)]
    return link, rungs + leaves


# ── Damage ───────────────────────────────────────────────────────────────────


def header(link, count):
    return b"PFT" + half(1) + bytes([link]) + half(count % 65536)


def put(file, at, data):
    """The file with data written at a place, where it has that place."""
    return file[:at] + data + file[at + len(data):] if at + len(data) <= len(file) else file


def recount(file):
    return put(file, 6, half(max(len(file) - 8, 0) // RECORD % 65536))


def place(rng, file):
    """Where a record starts, or where one would."""
    return 8 + RECORD * rng.below(max((len(file) - 8) // RECORD, 1))


def bad_mark(rng, file):
    return put(file, rng.below(3), rng.pick([b"p", b"P", b"\0", b"T"]))


def bad_version(rng, file):
    return put(file, 3, half(rng.pick([0, 2, 0x0100, 0x0101, 65535])))


def bad_link(rng, file):
    return put(file, 5, bytes([rng.pick([0, 4, 5, 255])]))


def bad_count(rng, file):
    count = int.from_bytes(file[6:8], "big")
    return put(file, 6, half(rng.pick([0, 129, 256, 65535, count + 1, max(count - 1, 0)]) % 65536))


def bad_kind(rng, file):
    return put(file, place(rng, file), bytes([rng.pick([0, 4, 9, 25, 26, 128, 255])]))


def join_kind(rng, file):
    return put(file, place(rng, file), bytes([rng.pick([1, 2, 3, 19, 20, 21, 22])]))


def other_kind(rng, file):
    return put(file, place(rng, file), bytes([rng.between(10, 24)]))


def bad_direction(rng, file):
    return put(file, place(rng, file) + 1, bytes([rng.pick([1, 3, 4, 5, 255])]))


def bad_protocol(rng, file):
    return put(file, place(rng, file) + 2, bytes([rng.pick([0, 1, 12, 13, 14, 255])]))


def bad_small(rng, file):
    return put(file, place(rng, file) + 3, bytes([rng.pick([1, 6, 128])]))


def bad_spare(rng, file):
    at = place(rng, file) + rng.between(4, 23)
    return put(file, at, bytes([1 << rng.below(8)]))


def missing_record(rng, file):
    at = place(rng, file)
    return recount(file[:at] + file[at + RECORD:])


def extra_record(rng, file):
    """One more record, in the middle or after the end, at times a bad one."""
    at = len(file) if rng.one_in(2) else place(rng, file)
    extra = record(rng.pick([1, 3, 19, 20, 21, 25, 0]))
    return recount(file[:at] + extra + file[at:])


def cut_file(rng, file):
    return file[: len(file) - min(rng.pick([1, 2, 23, 24, 25]), len(file))]


def long_file(rng, file):
    return file + bytes(rng.pick([1, 23, 24, 25, 48]))


def short_file(rng, file):
    return file[: rng.below(9)]


def swapped_records(rng, file):
    a, b = place(rng, file), place(rng, file)
    one, other = file[a : a + RECORD], file[b : b + RECORD]
    return put(put(file, a, other), b, one)


def huge_file(rng, file):
    body = record(AND) * (MOST // 2) + record(20) * (MOST // 2 + 1)
    return header(file[5] if len(file) > 5 else 1, MOST + 1) + body


def empty_file(rng, file):
    return b""


def junk(rng, file):
    return rng.bytes(rng.below(80))


def junk_records(rng, file):
    n = rng.between(1, 3)
    return header(rng.between(1, 3), n) + rng.bytes(RECORD * n)


DAMAGES = [
    bad_mark, bad_version, bad_link, bad_count, bad_kind, join_kind, other_kind,
    bad_direction, bad_protocol, bad_small, bad_spare, missing_record,
    extra_record, extra_record, cut_file, long_file, short_file,
    swapped_records, huge_file, empty_file, junk, junk_records,
]  # fmt: skip


def damaged(rng, file, most):
    """One damage or two; below the full size no more than most whole records."""
    result = file
    for _ in range(rng.pick([1, 1, 2])):
        result = rng.pick(DAMAGES)(rng, result)
    if most < MOST and len(result) >= 8 + RECORD * (most + 1):
        return damaged(rng, file, most)
    return result


# ── Files ────────────────────────────────────────────────────────────────────


def tree_file(rng, most):
    maker = plain_file
    if most >= 110 and rng.one_in(8):
        maker = far_file
    elif most >= 5 and rng.one_in(16):
        maker = ladder_file
    elif most >= 7 and rng.one_in(40):
        maker = clash_file
    link, records = maker(rng, most)
    file = header(link, len(records)) + b"".join(records)
    return damaged(rng, file, most) if rng.one_in(10) else file


def main():
    parser = Words(__doc__)
    parser.add_argument("seed", metavar="SEED", type=number)
    parser.add_argument("count", metavar="COUNT", type=number)
    parser.add_argument("--max-records", metavar="N", type=positive, default=MOST)
    parser.add_argument("--small", action="store_true")
    args = parser.parse_args()
    most = min(args.max_records, SMALL if args.small else MOST)
    rng = Rng(args.seed)
    for _ in range(args.count):
        sys.stdout.write(tree_file(rng, most).hex() + "\n")


if __name__ == "__main__":
    run(main)
