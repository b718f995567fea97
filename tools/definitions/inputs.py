"""Random programs and frames for the comparison.

What they should give is never decided here: the oracle is asked. Only "short"
and "broken", which Rust has in one None, are told apart by the last
instruction that the run fetched.
"""
import struct

from trees import AND, BOTH, DESTINATION, EITHER, ETHER, ETHERNET, NOT, OR, RAWIP, SLL, SOURCE
from trees import half, header, record

# ── Files of ports and their protocols ───────────────────────────────────────

# A port's protocol, and the conditions that name the same number.
TIED = [(5, [(5, 0), (11, 6), (12, 6)]), (6, [(6, 0), (11, 17), (12, 17)]), (10, [(10, 0), (11, 132), (12, 132)])]
VERSIONS = [(1, 0), (2, 0)]
NOT_ON_RAW = (2, 12)


def port_leaf(rng, ports, protocols):
    if rng.one_in(3):
        protocol, small = rng.pick(protocols)
        return record(10, protocol=protocol, small=small)
    kind = rng.pick([15, 15, 16])
    return record(kind, rng.below(4), rng.pick(ports), numbers=half(53) + half(80) * (kind == 16))


def port_tree(rng, n, ports, protocols):
    if n == 1:
        return [port_leaf(rng, ports, protocols)]
    if n == 2 or rng.one_in(10):
        return [record(NOT)] + port_tree(rng, n - 1, ports, protocols)
    left = rng.pick([1, n - 2, rng.between(1, n - 2)])
    parts = [port_tree(rng, size, ports, protocols) for size in (left, n - 1 - left)]
    return [record(rng.pick([AND, AND, OR]))] + parts[0] + parts[1]


def port_file(rng):
    """Few protocols, so that what a test leaves known meets the next: which
    protocol, which version, for which ports X is ready."""
    link = rng.pick([ETHERNET, RAWIP, SLL])
    port, named = rng.pick(TIED)
    named = [p for p in named + VERSIONS if link != RAWIP or p[0] not in NOT_ON_RAW]
    ports = [0, port, rng.pick([0, 5, 6, 10])]
    records = port_tree(rng, rng.between(5, 21), ports, rng.some(named, 2))
    return header(link, len(records)) + b"".join(records)


# ── Files with jumps of about 255 ────────────────────────────────────────────

ADDRESS = bytes.fromhex("20010db8000100020003000400050006")
HOST4 = record(11, EITHER, address=ADDRESS[:4])
MULTICAST = record(19)
MULTICAST6 = record(22)
SENDER = record(17, SOURCE, address=ADDRESS[:6])
# A condition that knows no facts and shares no test, by link.
PLAIN = {ETHERNET: MULTICAST, SLL: SENDER}


def chain(length):
    """An and of so many instructions, the test of the ethertype among them."""
    rest = length - 2
    leaves = [record(14, SOURCE, small=8, address=ADDRESS)] * (rest % 2)
    rest -= 3 * len(leaves)
    for size, direction in ((32, BOTH), (16, SOURCE)):
        leaves += [record(12, direction, address=ADDRESS)] * (rest // size)
        rest %= size
    leaves += [MULTICAST6] * (rest // 2)
    return [record(AND)] * (len(leaves) - 1) + leaves


# The chain alone, negated, on either side of an or: its jumps by jf, by jt and
# by ja reach as far as it is long.
SHAPES = [
    lambda c, plain: c,
    lambda c, plain: [record(NOT)] + c,
    lambda c, plain: [record(OR), plain] + c,
    lambda c, plain: [record(OR), HOST4] + c,
    lambda c, plain: [record(OR)] + c + [plain],
    lambda c, plain: [record(NOT), record(OR), HOST4] + c,
    lambda c, plain: [record(AND), record(NOT)] + c + [HOST4],
    lambda c, plain: [record(OR), record(NOT), plain] + c,
]


def tree_file(link, records):
    return header(link, len(records)) + b"".join(records)


def growing(shape, link):
    """The same tree with chains of growing length."""
    return [tree_file(link, shape(chain(length), PLAIN[link])) for length in range(240, 262)]


# ── Cooked trees ─────────────────────────────────────────────────────────────

TCP = record(10, protocol=5)
PORT = record(15, EITHER, numbers=half(53))
BAD_PORT = record(15, EITHER, 7, numbers=half(53))
# What LinuxSll turns down with 15.
OTHER_SIDES = [record(17, d, address=ADDRESS[:6]) for d in (EITHER, DESTINATION, BOTH)]
NO_SENDER = [*OTHER_SIDES, MULTICAST]
FAR = 300


def is_cooked(file):
    """An ether address on LinuxSll: the second generator answers for it."""
    return file[5] == SLL and any(r[0] in ETHER for r in records_of(file))


def cooked_files():
    """Sender tests alone and joined, 15 alone, and 15 with 6 and with 8 in either order."""
    joins = (record(AND), record(OR))
    pairs = ((SENDER, TCP), (PORT, SENDER), (SENDER, SENDER))
    taken = [[SENDER], [record(NOT), SENDER]]
    taken += [[join, *pair] for join in joins for pair in pairs]
    taken += [[record(OR), record(AND), SENDER, PORT, record(AND), PORT, record(NOT), SENDER]]
    turned_down = [[leaf] for leaf in NO_SENDER]
    turned_down += [[record(OR), SENDER, leaf] for leaf in NO_SENDER]
    for i, leaf in enumerate(NO_SENDER):
        turned_down += [[joins[i % 2], *pair] for pair in ((leaf, BAD_PORT), (BAD_PORT, leaf))]
    far = [record(NOT)] + chain(FAR)
    turned_down += [[record(AND), *far, MULTICAST], [record(AND), MULTICAST, *far]]
    return [tree_file(SLL, records) for records in taken + turned_down]


# ── Programs ─────────────────────────────────────────────────────────────────

VALUES = [
    0, 1, 2, 3, 4, 5, 7, 8, 14, 15, 16, 17, 31, 32, 33, 40, 255, 256, 2048,
    0xFFFF, 0x10000, 0x12345678, 0x7FFFFFFF, 0x80000000, 0xFFFFFFFE, 0xFFFFFFFF,
]  # fmt: skip
PLACES = [0, 0, 1, 2, 15]
# Codes that document 01 knows, by class; the X bit of ALU is drawn besides.
LOADS = [0x20, 0x28, 0x30, 0x40, 0x48, 0x50, 0xB1]
SCRATCH = [0x02, 0x03, 0x60, 0x61]
NUMBERS = [0x00, 0x01, 0x80, 0x81, 0x07, 0x87]
ALU = [0x04, 0x14, 0x24, 0x34, 0x44, 0x54, 0x64, 0x74, 0x84, 0xA4]

RETURNS = {True: struct.pack("<HBBI", 0x06, 0, 0, 1), False: struct.pack("<HBBI", 0x06, 0, 0, 0)}


def insn(code, jt=0, jf=0, k=0):
    return struct.pack("<HBBI", code, jt, jf, k % 2**32)


def code_of(one):
    return struct.unpack("<H", one[:2])[0]


def is_packet_load(code):
    """LD by ABS or IND of a word, half word or byte, and LDX MSH of a byte."""
    if code & 0x07 == 0:
        return code & 0xE0 in (0x20, 0x40) and code & 0x18 != 0x18
    return code & 0xFF == 0xB1


def frame_place(rng, size):
    """Near the frame's start or its end, at times far off."""
    if rng.one_in(12):
        return rng.pick(VALUES)
    return rng.pick([0, 1, 2, rng.below(size + 1), size - 1, size - 2, size - 3, size - 4, size])


def operand(rng, code, values, size):
    """A k that suits the code's class."""
    kind, mode = code & 0x07, code & 0xE0
    if kind in (0, 1) and mode in (0x20, 0x40, 0xA0):
        return frame_place(rng, size)
    if kind in (2, 3) or kind in (0, 1) and mode == 0x60:
        return rng.pick([16, 17, 2**31, 2**32 - 1]) if rng.one_in(8) else rng.pick(PLACES)
    if kind == 5 and code & 0xF0 == 0:
        return rng.pick([7, 255, 2**31, 2**32 - 1]) if rng.one_in(10) else rng.below(3)
    return rng.pick(values)


def jumps(rng):
    return [255 if rng.one_in(24) else rng.pick([0, 0, 1, 2]) for _ in range(2)]


def any_insn(rng, code, values, size):
    jt, jf = jumps(rng)
    return insn(code, jt, jf, operand(rng, code, values, size))


def usual(rng, values, size):
    """An instruction that is rarely the last."""
    code = rng.pick(rng.pick([LOADS, SCRATCH, NUMBERS, ALU, ALU]))
    if code in ALU and rng.one_in(2):
        code += 8
    return any_insn(rng, code, values, size)


class Run:
    """A start, what of the state is looked at, and a frame. The value found
    there is compared with a number that the oracle is asked for."""

    def __init__(self, rng, code, frame, before):
        size = len(frame)
        values = rng.some(VALUES, 3) + [size]
        some = [usual(rng, values, size) for _ in range(rng.below(before + 1))]
        first = [insn(0x00, k=rng.pick(values)), insn(0x01, k=rng.pick(values))]
        after = [usual(rng, values, size) for _ in range(rng.below(3))]
        self.start = b"".join(first[rng.below(3) :] + some + [any_insn(rng, code, values, size)] + after)
        # A as it is, X, or a scratch word
        self.look = rng.pick([insn(0x05), insn(0x05), insn(0x87), insn(0x60, k=rng.pick(PLACES))])
        self.frame = frame
        self.miss = rng.pick([0, 0, 1, 2, 2**31]) if rng.one_in(2) else 0

    def ended(self, code, k):
        """Accepts when the test of the value holds, else drops."""
        return self.start + self.look + insn(code, 0, 1, k) + RETURNS[True] + RETURNS[False]

    def probes(self):
        return [self.ended(0x45, 1 << bit) for bit in range(32)]

    def program(self, answers):
        """The program whose last test is of the value itself, or of a near miss."""
        value = sum(1 << bit for bit, answer in enumerate(answers) if answer == "accepted")
        return self.ended(0x15, value ^ self.miss)


def random_frame(rng):
    few = [0, 1, 0x45, 0xFF, rng.below(256)]
    return bytes(rng.pick(few) if rng.one_in(2) else rng.below(256) for _ in range(rng.below(81)))


def random_runs(rng, count):
    """Every code of one byte in turn, some with a high byte too; the first time
    after numbers in A and X only, so that it is fetched."""
    runs = []
    for i in range(count):
        code = i % 256 + (rng.below(256) << 8 if rng.one_in(6) else 0)
        runs.append(Run(rng, code, random_frame(rng), before=0 if i < 256 else 2))
    return runs


# Bytes of programs and frames at the limits of 10 and 11.
def limits():
    accept, length = insn(0x06, k=1), insn(0x80)
    asks_length = length + insn(0x15, 0, 1, 65535) + RETURNS[True] + RETURNS[False]
    return [
        (b"", b""),
        (accept[:7], b""),
        (accept + b"\0", b""),
        (accept * 2 + accept[:4], b"\1"),
        (accept * 4096, b"\1\2"),
        (accept * 4097, b""),
        (accept * 4096 + b"\6", b""),
        (asks_length, bytes(65535)),
        (asks_length, bytes(65536)),
        (accept[:7], bytes(65536)),
    ]


# ── Frames ───────────────────────────────────────────────────────────────────

NETWORK = {ETHERNET: 14, RAWIP: 0, SLL: 16}
REACH = 64
KINDS = {1: 0x0800, 2: 0x86DD, 3: 0x0806, 4: 0x8035, 8: 0x86DD, 12: 0x86DD}
PROTOCOLS = {5: 6, 6: 17, 7: 1, 8: 58, 9: 2, 10: 132}
V4, V6 = 0x0800, 0x86DD


def records_of(file):
    return [file[i : i + 24] for i in range(8, len(file), 24)]


class Pool:
    """What a tree's conditions name, to build frames from."""

    def __init__(self, file):
        self.kinds, self.protocols, self.ports = [V4, V6], [6, 17, 0], [0, 80]
        self.addrs4, self.addrs6, self.macs = [bytes(4)], [bytes(16)], [bytes(6), b"\1" + bytes(5)]
        for r in records_of(file):
            self.add(r)

    def add(self, r):
        kind, number = r[0], r[3]
        a, b = int.from_bytes(r[4:6], "big"), int.from_bytes(r[6:8], "big")
        if kind == 10:
            self.kinds += [KINDS.get(r[2], V4)] * 2
            self.protocols += [PROTOCOLS[r[2]]] * 2 if r[2] in PROTOCOLS else [number] * (r[2] > 10)
        elif kind in (11, 13):
            self.kinds.append(V4)
            self.addrs4 += [r[8:12]] * 2 + [bytes(x & y for x, y in zip(r[8:12], r[12:16]))] * (kind == 13)
        elif kind in (12, 14):
            self.kinds.append(V6)
            self.addrs6 += [r[8:24]] * 2
        elif kind in (15, 16):
            self.kinds += [V4, V6]
            self.protocols += [PROTOCOLS.get(r[2], 6), PROTOCOLS.get(r[2], 17)] * 2
            ports = [a, a, b, b, a - 1, a + 1, (a + b) // 2, b + 1][: 2 if kind == 15 else 8]
            self.ports += [p % 65536 for p in ports]
        elif kind == 17:
            self.macs += [r[8:14]] * 3
        elif kind == 18:
            self.kinds += [a] * 2
        elif kind == 20:
            self.addrs4 += [b"\xff" * 4] * 2
        elif kind == 21:
            self.addrs4 += [b"\xe0\0\0\1", b"\xef\xff\xff\xff", b"\xf0\0\0\1"]
        elif kind == 22:
            self.kinds.append(V6)
            self.addrs6 += [b"\xff\2" + bytes(14)] * 2
        elif kind in (23, 24):
            self.kinds.append(V4 if kind == 23 else V6)
            self.protocols += [number] * 2


def near(rng, data):
    """The same bytes, or one bit of them changed."""
    if data and rng.one_in(4):
        at = rng.below(len(data))
        data = data[:at] + bytes([data[at] ^ 1 << rng.below(8)]) + data[at + 1 :]
    return data


def put(frame, at, data):
    frame[at : at + len(data)] = data


# Lengths of a cooked sender's address: an ether address's, mostly, and others.
SENDER_LENGTHS = [6, 6, 6, 6, 6, 0, 7, 8, 0x0106, 0x0506, 0x0600]


def cooked_readings():
    """Files of one ether condition on LinuxSll with frames, and what T-03 says of them: source
    and either ask for a sender's address of six bytes, and nothing else is ever true."""
    wanted, other = ADDRESS[:6], near_miss(ADDRESS[:6])
    lengths = sorted(set(SENDER_LENGTHS))
    frames = [(length, sender) for length in lengths for sender in (wanted, other)]
    for leaf in [SENDER, *NO_SENDER]:
        asks = leaf[0] == 17 and leaf[1] in (EITHER, SOURCE)
        for length, sender in frames:
            frame = b"\1\0\0\1" + half(length) + sender + bytes(4 + REACH)
            yield tree_file(SLL, [leaf]), frame, asks and (length, sender) == (6, wanted)
        # the address where an ether header has its destination, and its source
        yield tree_file(SLL, [leaf]), wanted + wanted + bytes(4 + REACH), False


def near_miss(address):
    return address[:-1] + bytes([address[-1] ^ 1])


def network4(rng, pool, body):
    words = rng.pick([5, 5, 5, 6, 15, 0, 3, 14])
    body[0] = 0x40 + words
    put(body, 6, half(rng.pick([0, 0, 0, 0x4000, 0x2000, 0xE000, 1, 0x1FFF, 0x1000])))
    body[9] = rng.pick(pool.protocols)
    put(body, 12, near(rng, rng.pick(pool.addrs4)))
    put(body, 16, near(rng, rng.pick(pool.addrs4)))
    if words >= 5 or rng.one_in(2):
        put(body, 4 * words, half(rng.pick(pool.ports)) + half(rng.pick(pool.ports)))


def network6(rng, pool, body):
    body[0] = 0x60
    body[6] = rng.pick(pool.protocols)
    put(body, 8, near(rng, rng.pick(pool.addrs6)))
    put(body, 24, near(rng, rng.pick(pool.addrs6)))
    put(body, 40, half(rng.pick(pool.ports)) + half(rng.pick(pool.ports)))


def frame_for(rng, pool, link):
    """A frame that reaches n + 64 bytes, made of what the tree names."""
    kind = V4 if link == RAWIP and not rng.one_in(6) else rng.pick(pool.kinds)
    body = bytearray(rng.bytes(REACH + rng.pick([0, 0, 1, 9])) if rng.one_in(4) else bytes(REACH))
    if kind == V4:
        network4(rng, pool, body)
    elif kind == V6:
        network6(rng, pool, body)
    if link == RAWIP:
        return bytes(body)
    head = bytearray(near(rng, rng.pick(pool.macs)) + near(rng, rng.pick(pool.macs)) + bytes(NETWORK[link] - 12))
    put(head, NETWORK[link] - 2, half(kind ^ (1 << rng.below(16) if rng.one_in(8) else 0)))
    if link == SLL:
        put(head, 4, half(rng.pick(SENDER_LENGTHS)))
    return bytes(head + body)
