#!/usr/bin/env python3
"""Stored builds for crates/build_replay: tree files, and what the Rust answers, or the
second generator of cooked trees.

tools/oracle/builds.py SEED [DIR]     writes DIR/stdin and DIR/stdout
tools/oracle/builds.py --show [DIR]   prints the cases of DIR/stdin as text

DIR is crates/build_replay when left out. It needs python3 and the oracle
(tools/oracle/build SRC). src/main.rt of the crate describes the file. Where a
group's files are drawn, a file is kept only if its program, k left aside, or
its refusal with its kinds, is new in the group. It stops if what has to be
covered is not.
"""
import collections
import itertools
import pathlib
import struct
import subprocess
import sys

sys.dont_write_bytecode = True
HERE = pathlib.Path(__file__).resolve().parent
sys.path.insert(0, str(HERE.parent / "definitions"))
import inputs
import trees
from inputs import tree_file
from trees import AND, BOTH, DESTINATION, EITHER, ETHERNET, NOT, OR, RAWIP, RECORD, SLL, SOURCE
from trees import Rng, half, header, record
from words import stop, stored

REPOSITORY = HERE.parent.parent
ORACLE = REPOSITORY / "target" / "oracle" / "oracle"
CRATE = REPOSITORY / "crates" / "build_replay"
GROUPS = ["conditions", "pairs", "ports", "random", "far jumps", "large", "damaged"]
LINKS = [ETHERNET, RAWIP, SLL]
HEAD = ">BHH"
MOST_FILE = 4096
WHOLE = 32768
JA = 0x05
COOKED_ADDRESS = 15

# A tree file with the answer: a refusal's number or 0, and the program.
Case = collections.namedtuple("Case", "file refusal program")


def ask(files):
    if not ORACLE.exists():
        stop("first build the oracle, tools/oracle/build SRC")
    lines = "".join(file.hex() + "\n" for file in files)
    done = subprocess.run([ORACLE, "build"], input=lines, capture_output=True, text=True)
    answers = [line.split() for line in done.stdout.splitlines()]
    if done.returncode or len(answers) != len(files):
        stop(f"the oracle failed: {done.stderr.strip()}")
    return [case_of(file, *answer) for file, answer in zip(files, answers)]


def case_of(file, first, second):
    if first == "refused":
        return Case(file, int(second), b"")
    program = bytes.fromhex(second)
    assert len(program) == 8 * int(first)
    return Case(file, 0, program)


def records_of(file):
    return [file[at : at + RECORD] for at in range(8, len(file), RECORD)]


def insns(program):
    return list(struct.iter_unpack("<HBBI", program))


# ── Choosing ─────────────────────────────────────────────────────────────────


def shape(case):
    """What makes a drawn file worth keeping: its program without k, or its refusal and its kinds."""
    if case.refusal:
        return case.file[5:6], case.refusal, bytes(r[0] for r in records_of(case.file))
    return case.file[5:6], b"".join(case.program[at : at + 4] for at in range(0, len(case.program), 8))


def chosen(cases, count):
    """The first so many that are new."""
    seen, kept = set(), []
    for case in cases:
        if len(kept) < count and shape(case) not in seen:
            seen.add(shape(case))
            kept.append(case)
    assert len(kept) == count, len(kept)
    return kept


# ── Every condition alone ────────────────────────────────────────────────────

PROTOCOLS = [(p, 0) for p in range(1, 11)] + [(p, n) for p in (11, 12) for n in (0, 6, 17, 58, 132, 255)]
PORT_PROTOCOLS = [(p, 0) for p in range(11)] + [(p, n) for p in (11, 12) for n in (6, 17)]
RANGES = [(80, 80), (0, 65535), (53, 80), (81, 80)]


def address(kind, direction, data, small=0):
    return record(kind, direction, small=small, address=bytes.fromhex(data))


def addresses(direction):
    """Hosts, nets and ether hosts in a direction."""
    made = [address(11, direction, a) for a in trees.ADDRS4[:2]]
    made += [address(12, direction, a) for a in trees.ADDRS6[:2]]
    made += [address(13, direction, trees.ADDRS4[2] + f"{mask:08x}") for mask in trees.MASKS]
    made += [address(14, direction, trees.ADDRS6[1], small=prefix) for prefix in trees.PREFIXES]
    return made + [address(17, direction, a) for a in trees.MACS[:2]]


def ports(direction):
    made = [record(15, direction, p, n, half(80)) for p, n in PORT_PROTOCOLS]
    ranges = zip(PORT_PROTOCOLS, itertools.cycle(RANGES))
    return made + [record(16, direction, p, n, half(low) + half(high)) for (p, n), (low, high) in ranges]


def conditions():
    made = [record(10, protocol=p, small=n) for p, n in PROTOCOLS]
    for direction in (EITHER, SOURCE, DESTINATION, BOTH):
        made += addresses(direction) + ports(direction)
    made += [record(18, numbers=half(n)) for n in trees.ETHERTYPES]
    made += [record(kind) for kind in (19, 20, 21, 22)]
    return made + [record(kind, small=n) for kind in (23, 24) for n in trees.NUMBERS]


def condition_files():
    return [tree_file(link, [leaf]) for link in LINKS for leaf in conditions()]


# ── Every two of some conditions, joined ─────────────────────────────────────

# Conditions that share guards, fill facts or ready the ports, and one of each family that does not.
FOUR = [
    [record(10, protocol=1)],
    [record(10, protocol=5)],
    [record(10, protocol=6)],
    [record(11, SOURCE, address=bytes([10, 0, 0, 1]))],
    [record(13, BOTH, address=bytes([10, 0, 0, 1, 255, 0, 0, 0]))],
    [record(15, EITHER, 0, numbers=half(53))],
    [record(15, DESTINATION, 5, numbers=half(80))],
    [record(16, SOURCE, 6, numbers=half(53) + half(80))],
    [record(21)],
    [record(23, small=6)],
    [record(NOT), record(10, protocol=5)],
]
OTHERS = [
    [record(10, protocol=2)],
    [record(10, protocol=8)],
    [record(10, protocol=12, small=17)],
    [address(12, DESTINATION, trees.ADDRS6[0])],
    [address(14, EITHER, trees.ADDRS6[0], small=33)],
    [record(15, BOTH, 10, numbers=half(80))],
    [address(17, SOURCE, trees.MACS[0])],
    [record(18, numbers=half(0x0806))],
    [record(19)],
    [record(24, small=6)],
]
# On LinuxSll the sender's address is taken, the other two are not.
COOKED = [
    [address(17, SOURCE, trees.MACS[0])],
    [address(17, EITHER, trees.MACS[0])],
    [record(19)],
]


def pair_files():
    """All of both on Ethernet; those of IPv4 on RawIp and LinuxSll too, there with cooked
    ones."""
    made = []
    for link, some in ((ETHERNET, FOUR + OTHERS), (RAWIP, FOUR), (SLL, FOUR + COOKED)):
        for join, left, right in itertools.product((AND, OR), some, some):
            made.append(tree_file(link, [record(join)] + left + right))
    return made


# ── Drawn trees ──────────────────────────────────────────────────────────────


def port_cases(rng):
    return chosen(ask([inputs.port_file(rng) for _ in range(3000)]), 400)


def small_file(rng):
    """Not damaged; one in twelve has several of 5 to 7, or of 6 and 15, waiting."""
    maker = trees.clash_file if rng.one_in(12) else trees.plain_file
    return tree_file(*maker(rng, trees.SMALL))


def random_cases(rng):
    return chosen(ask([small_file(rng) for _ in range(6000)]), 900)


# ── Jumps of 255 and 256 ─────────────────────────────────────────────────────


def far_cases(rng):
    """Of trees that grow by one instruction the last three with a count and the
    first three that are refused, and some drawn."""
    kept = []
    for link, grower in itertools.product((ETHERNET, SLL), inputs.SHAPES):
        cases = ask(inputs.growing(grower, link))
        at = [case.refusal for case in cases].index(8)
        kept += cases[at - 3 : at + 3]
    drawn = ask([tree_file(*trees.far_file(rng, trees.MOST)) for _ in range(400)])
    edge = [case for case in drawn if case.refusal == 8 or longest_jump(case) >= 254]
    return kept + chosen(edge, 30)


def longest_jump(case):
    return max((max(jt, jf, k if code == JA else 0) for code, jt, jf, k in insns(case.program)), default=0)


# ── Large trees ──────────────────────────────────────────────────────────────


def nots(n):
    return [record(NOT)] * n + [record(10, protocol=1)]


def large_cases(rng):
    """Of 127 and 128 records: nots alone, some of each answer, and the longest of many programs."""
    kept = ask([tree_file(link, nots(n)) for link in LINKS for n in (126, 127)])
    drawn = []
    while len(drawn) < 1500:
        link, records = (trees.plain_file if rng.one_in(2) else trees.ladder_file)(rng, trees.MOST)
        if len(records) >= trees.MOST - 1:
            drawn.append(tree_file(link, records))
    cases = sorted(chosen(ask(drawn), 700), key=lambda case: len(case.program))
    refused = [case for case in cases if case.refusal]
    counts = [case for case in cases if not case.refusal]
    return kept + refused[:: len(refused) // 20][:20] + counts[:: len(counts) // 16][:16] + counts[-4:]


# ── Numbers 1 to 4, and their order ──────────────────────────────────────────

GOOD = {leaf[0]: leaf for leaf in conditions()} | {kind: record(kind) for kind in (AND, OR, NOT)}
IP = record(10, protocol=1)
BAD = record(25)


def headers():
    """Every length below the header's end and around a record's, every field at
    its edges, two wrong at once."""
    whole = tree_file(ETHERNET, [IP])
    yield from (whole[:n] for n in range(len(whole)))
    yield from (whole + bytes(n) for n in (1, 8, 23, 24, 25))
    yield from (trees.put(whole, at, bytes([value])) for at in range(6) for value in (0, 1, 2, 3, 4, 0x50, 0xFF))
    for count in (0, 1, 2, 127, 128, 129, 255, 256, 257, 65535):
        yield from (header(ETHERNET, count) + IP * n for n in (0, 1, 2, 127, 128, 129))
    yield b"PFX" + header(ETHERNET, 0)[3:]
    yield trees.put(header(4, 0), 3, half(2))


def odd_records():
    """Every kind byte, every direction and protocol, and of each kind every byte that is not zero."""
    yield from (tree_file(ETHERNET, [record(kind)]) for kind in range(256))
    for leaf in GOOD.values():
        yield from (tree_file(SLL, [trees.put(leaf, 1, bytes([n]))]) for n in (1, 2, 3, 4, 255))
        yield from (tree_file(RAWIP, [trees.put(leaf, 2, bytes([n]))]) for n in (0, 1, 11, 12, 13, 255))
        yield from (tree_file(ETHERNET, [trees.put(leaf, at, bytes([leaf[at] ^ 1]))]) for at in range(3, RECORD))


def odd_trees():
    """Records that are less or more than one tree; a bad record comes first, wherever it stands."""
    some = [record(AND), record(OR), record(NOT), IP]
    for n in range(1, 4):
        yield from (tree_file(ETHERNET, list(records)) for records in itertools.product(some, repeat=n))
    waiting = [IP, BAD], [BAD, IP], [record(19), IP], [record(AND), record(19)]
    yield from (tree_file(RAWIP, records) for records in waiting)
    yield tree_file(ETHERNET, [record(AND)] * 128)
    yield tree_file(ETHERNET, [IP] * 128)
    yield header(ETHERNET, 2) + BAD


def damaged_files(rng):
    """Each damage to some small files, alone and after another."""
    for damage in trees.DAMAGES:
        for _ in range(6):
            file = damage(rng, small_file(rng))
            yield file
            yield rng.pick(trees.DAMAGES)(rng, file)


def damaged_cases(rng):
    files = [*headers(), *odd_records(), *odd_trees(), *damaged_files(rng)]
    return ask(list(dict.fromkeys(file for file in files if len(file) < MOST_FILE)))


# ── What has to be covered ───────────────────────────────────────────────────


def farthest(cases):
    """The longest jt of a test, jf of a test and k of a ja."""
    rows = [row for case in cases for row in insns(case.program)]
    tests = [row for row in rows if row[0] & 0x07 == 5 and row[0] != JA]
    return max(r[1] for r in tests), max(r[2] for r in tests), max(r[3] for r in rows if r[0] == JA)


def accepted_conditions(cases):
    """Link, kind, direction and protocol of conditions in accepted trees."""
    accepted = [case for case in cases if not case.refusal]
    return {(case.file[5], *r[:3]) for case in accepted for r in records_of(case.file) if r[0] >= 10}


def check_coverage(groups):
    cases = [case for group in groups.values() for case in group]
    answers = collections.Counter(case.refusal for case in cases)
    records = max(len(records_of(case.file)) for case in cases if not case.refusal)
    found = sorted(answers), farthest(cases), len(accepted_conditions(cases)), records
    # tools/differential/README.md: there are 189 conditions that can be accepted
    wanted = [*range(9), COOKED_ADDRESS], (255, 255, 255), 189, trees.MOST
    if found != wanted:
        stop(f"covered are {found}, not {wanted}")


# ── The file ─────────────────────────────────────────────────────────────────


def make_groups(seed):
    rng = Rng(seed)
    made = [ask(condition_files()), ask(pair_files())]
    made += [cases(rng) for cases in (port_cases, random_cases, far_cases, large_cases, damaged_cases)]
    return dict(zip(GROUPS, made))


def case_bytes(case):
    return struct.pack(HEAD, case.refusal, len(case.program) // 8, len(case.file)) + case.file + case.program


def report(groups):
    """What the program has to print. Each file is built five times, an accepted
    one twice with too few bytes."""
    lines = [f"{name}: {len(cases)} files" for name, cases in groups.items()]
    builds = collections.Counter(5 * [case.refusal for cases in groups.values() for case in cases])
    builds[9] = builds[0] // 5 * 2
    builds[0] -= builds[9]
    lines += [f"counts: {builds[0]}"]
    lines += [f"refused {number}: {builds[number]}" for number in (*range(1, 10), COOKED_ADDRESS)]
    return "\n".join(lines) + f"\n{builds.total()} compared, 0 differences\n"


def make(seed, directory):
    groups = make_groups(seed)
    check_coverage(groups)
    assert all(len(case.program) < WHOLE for group in groups.values() for case in group)
    file = b""
    for name, cases in groups.items():
        part = struct.pack(">H", len(cases)) + b"".join(map(case_bytes, cases))
        answers = collections.Counter(case.refusal for case in cases)
        some = ", ".join(f"{n} of {answer}" for answer, n in sorted(answers.items()))
        print(f"{name}: {len(cases)} files, {len(part)} bytes, {some}")
        file += part
    (directory / "stdin").write_bytes(file)
    (directory / "stdout").write_text(report(groups))
    print(f"{sum(map(len, groups.values()))} files, {len(file)} bytes")


def show(directory):
    """A line for a case: group, index, answer, file and program in hex."""
    file, at = (directory / "stdin").read_bytes(), 0
    for name in GROUPS:
        (count,) = struct.unpack_from(">H", file, at)
        at += 2
        for index in range(count):
            refusal, insn_count, length = struct.unpack_from(HEAD, file, at)
            start = at + struct.calcsize(HEAD)
            end = start + length
            at = end + 8 * insn_count
            answer = f"refused {refusal}" if refusal else f"count {insn_count}"
            print(f"{name} {index}: {answer} [{file[start:end].hex()}] [{file[end:at].hex(' ', 8)}]")


if __name__ == "__main__":
    stored(__doc__, CRATE, make, show)
