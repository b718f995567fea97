#!/usr/bin/env python3
"""Stored runs for crates/vm_replay: programs, frames, and what vm.rs says of them.

tools/oracle/runs.py SEED [DIR]     writes DIR/stdin and DIR/stdout
tools/oracle/runs.py --show [DIR]   prints the cases of DIR/stdin as text

DIR is crates/vm_replay when left out. Every run is asked of the oracle, which
has vm.rs unchanged, and of a copy of it that counts fetches and marks a packet
read that leaves the frame. The two have to agree. src/main.rt of the crate
describes the file.
"""
import collections
import pathlib
import struct
import subprocess
import sys

sys.dont_write_bytecode = True
from trees import Rng
from words import stop, stored

REPOSITORY = pathlib.Path(__file__).resolve().parent.parent.parent
ORACLE = REPOSITORY / "target" / "oracle" / "oracle"
TRACED = REPOSITORY / "target" / "oracle" / "traced"
CRATE = REPOSITORY / "crates" / "vm_replay"

GROUPS = ["hand-made", "every code", "random", "refusals"]
ANSWERS = {"refused": 0, "accepted": 1, "dropped": 2, "none": 3}
VERDICTS = {"refused": 0, "accepted": 1, "dropped": 2, "short": 3, "broken": 4}
HEAD = ">BBBBHHHH"
MOST_STORED = 512, 128
ALL = 0xFFFFFFFF


# ── The copy of vm.rs that counts ────────────────────────────────────────────

# A text that vm.rs has once, and what is put behind it: the fetch, the four
# packet reads, the return, and the function that tools/oracle/copies adds.
INSERTIONS = [
    ("let insn = *insns.get(pc)?;", " trace::fetched();"),
    ("pkt.get(off..off.checked_add(4)?)", ".or_else(trace::left)"),
    ("pkt.get(off..off.checked_add(2)?)", ".or_else(trace::left)"),
    ("Some(*pkt.get(off)", ".or_else(trace::left)"),
    ("4 * (*pkt.get(insn.k as usize)", ".or_else(trace::left)"),
    ("BPF_RET => {", " trace::returned(a, x, &scratch);"),
    ("-> Option<bool> {\n    inner(insns, pkt)", ".told()"),
]

TRACE = """
use trace::Told;

/// Added by tools/oracle/runs.py. Each run prints, before its answer, the
/// instructions fetched, whether a packet read left the frame, and A, X and
/// the scratch words as the run returned.
mod trace {
    use std::cell::{Cell, RefCell};

    thread_local! {
        static STEPS: Cell<u32> = const { Cell::new(0) };
        static LEFT: Cell<u32> = const { Cell::new(0) };
        static WORDS: RefCell<Vec<u32>> = const { RefCell::new(Vec::new()) };
    }

    pub fn fetched() {
        STEPS.set(STEPS.get() + 1);
    }

    pub fn left<T>() -> Option<T> {
        LEFT.set(1);
        None
    }

    pub fn returned(a: u32, x: u32, scratch: &[u32; 16]) {
        WORDS.set([&[a, x], &scratch[..]].concat());
    }

    pub trait Told {
        fn told(self) -> Self;
    }

    impl Told for Option<bool> {
        fn told(self) -> Self {
            print!("{} {} ", STEPS.take(), LEFT.take());
            WORDS.take().iter().for_each(|word| print!("{word} "));
            self
        }
    }
}
"""


def build_traced():
    """Builds the oracle once more, over the copy with the insertions."""
    if not ORACLE.exists():
        stop("first build the oracle, tools/oracle/build SRC")
    copies, traced = ORACLE.with_suffix(".d"), TRACED.with_suffix(".d")
    traced.mkdir(exist_ok=True)
    for path in copies.iterdir():
        (traced / path.name).write_bytes(path.read_bytes())
    text = (copies / "vm.rs").read_text()
    for found, added in INSERTIONS:
        if text.count(found) != 1:
            stop(f"vm.rs does not have this text once: {found}")
        text = text.replace(found, found + added)
    (traced / "vm.rs").write_text(text + TRACE)
    words = ["rustc", "-O", "--edition", "2021", "-o", TRACED, traced / "main.rs"]
    if subprocess.run(words).returncode:
        stop("rustc failed")


def ask(program, runs):
    """The lines that an oracle answers for pairs of a program and a frame."""
    lines = "".join(f"{p.hex() or '-'} {f.hex() or '-'}\n" for p, f in runs)
    done = subprocess.run([program, "run"], input=lines, capture_output=True, text=True)
    answers = done.stdout.splitlines()
    if done.returncode or len(answers) != len(runs):
        stop(f"{program} failed: {done.stderr.strip()}")
    return answers


# What is said of a run: the answer of vm.rs, the verdict, the steps, the
# refusal's number, and A, X and the scratch words where the run returned.
Said = collections.namedtuple("Said", "answer verdict steps refusal words")


def said(line):
    """A line of the copy that counts."""
    *numbers, answer = line.split()
    if numbers == ["refused"]:
        return Said("refused", "refused", 0, int(answer), [])
    steps, left, *words = map(int, numbers)
    assert answer == "none" or not left
    verdict = answer if answer != "none" else "short" if left else "broken"
    return Said(answer, verdict, steps, 0, words)


def ask_both(runs):
    """What the copy says, where vm.rs gives the same answer."""
    plain = ask(ORACLE, runs)
    traced = [said(line) for line in ask(TRACED, runs)]
    for run, line, t in zip(runs, plain, traced):
        if line != (f"refused {t.refusal}" if t.refusal else t.answer):
            stop(f"vm.rs and its copy differ on {run}")
    return traced


# ── Programs ─────────────────────────────────────────────────────────────────


def op(code, k=0, jt=0, jf=0):
    return struct.pack("<HBBI", code, jt, jf, k)


def ld(k):
    return op(0x00, k)


def ldx(k):
    return op(0x01, k)


# Accept, or drop if one instruction is skipped.
ENDS = op(0x06, 1) + op(0x06, 0)


def is_a(value):
    """Accept exactly when A has this value."""
    return op(0x15, value, 0, 1) + ENDS


def is_x(value):
    return op(0x87) + is_a(value)


# ── Hand-made runs: program, frame, verdict, steps ───────────────────────────

FIVE = bytes.fromhex("8a02f30445")
SIZES = [(4, 0x20, 0x40), (2, 0x28, 0x48), (1, 0x30, 0x50)]


def big(frame, at, size):
    return int.from_bytes(frame[at : at + size], "big")


def packet_loads():
    """Every place in frames of 0 to 5 bytes, and past their ends: at k, at X + k, and where X + k wraps."""
    for size, fixed, indexed in SIZES:
        for frame in (FIVE[:n] for n in range(6)):
            for at in range(len(frame) + 2):
                loads = op(fixed, at), ldx(at) + op(indexed), ldx(ALL) + op(indexed, at + 1)
                for load in loads:
                    steps = len(load) // 8
                    if at + size <= len(frame):
                        yield load + is_a(big(frame, at, size)), frame, "accepted", steps + 2
                    else:
                        yield load + ENDS, frame, "short", steps


def far_loads():
    """The load ends at 2^32 or just before; X + k is 2^31, or has no sign."""
    for size, fixed, indexed in SIZES:
        for k in (2**32 - size, 2**32 - size - 1, ALL, 2**31, 2**31 - 1, 2**16, 256):
            yield op(fixed, k) + ENDS, FIVE, "short", 1
            yield ldx(k) + op(indexed, 0) + ENDS, FIVE, "short", 2
            yield ldx(k - 3) + op(indexed, 3) + ENDS, FIVE, "short", 2
        yield ldx(2**31) + op(indexed, 2**31) + is_a(big(FIVE, 0, size)), FIVE, "accepted", 4
        yield ldx(2**31 + 1) + op(indexed, 2**31) + is_a(big(FIVE, 1, size)), FIVE, "accepted", 4
        # a load that leaves X and the scratch words
        yield ldx(9) + op(0x03, 2) + op(fixed, 0) + is_x(9), FIVE, "accepted", 6
        yield ldx(9) + op(0x03, 2) + op(fixed, 0) + op(0x60, 2) + is_a(9), FIVE, "accepted", 6


def odd_sizes():
    """Size 0x18 is broken inside the frame, at its end and past it; MSH is known with size B only."""
    for k in (0, 4, 5, 9, ALL):
        for frame in (FIVE, b""):
            yield op(0x38, k) + ENDS, frame, "broken", 1
            yield ldx(k) + op(0x58, 0) + ENDS, frame, "broken", 2
            yield op(0xB8, k) + ENDS, frame, "broken", 1
            for code in (0xA1, 0xA9, 0xB9):
                yield op(code, k) + ENDS, frame, "broken", 1
    # where no packet is read the size changes nothing
    for size in (0x08, 0x10, 0x18):
        yield op(0x00 | size, 7) + is_a(7), FIVE, "accepted", 3
        yield op(0x01 | size, 7) + is_x(7), FIVE, "accepted", 4
        yield op(0x80 | size, 9) + is_a(5), FIVE, "accepted", 3
        yield op(0x81 | size, 9) + is_x(5), FIVE, "accepted", 4
        yield ld(7) + op(0x02, 2) + op(0x60 | size, 2) + is_a(7), FIVE, "accepted", 5
        yield ld(7) + op(0x02, 2) + op(0x61 | size, 2) + is_x(7), FIVE, "accepted", 6


def other_loads():
    yield op(0x16, 7), FIVE, "dropped", 1
    yield is_a(0), FIVE, "accepted", 2
    yield is_x(0), FIVE, "accepted", 3
    for v in (0, 1, 0x01020304, 2**31, ALL):
        yield ld(v) + is_a(v), FIVE, "accepted", 3
        yield ldx(v) + is_x(v), FIVE, "accepted", 4
        yield ld(v) + ldx(9) + is_a(v), FIVE, "accepted", 4
        yield ldx(v) + ld(9) + is_x(v), FIVE, "accepted", 5
    for n in (0, 1, 5, 100):
        yield op(0x80, 9) + is_a(n), bytes(n), "accepted", 3
        yield op(0x81, 9) + is_x(n), bytes(n), "accepted", 4
    # X is four times a byte's low half, up to the frame's last byte
    for byte in (0x00, 0x01, 0x0F, 0x10, 0x45, 0x4F, 0xF0, 0xFF):
        for before in (0, 1, 4):
            frame = bytes(before) + bytes([byte])
            yield op(0xB1, before) + is_x(4 * (byte % 16)), frame, "accepted", 4
    for k in (5, 6, 2**31, ALL):
        yield op(0xB1, k) + ENDS, FIVE, "short", 1
    yield op(0xB1, 0) + ENDS, b"", "short", 1
    yield ldx(4) + op(0xB1, 4) + is_x(20), FIVE, "accepted", 5


def scratch_words():
    """Words 0 to 15 hold what was stored, the others stay; there is no word 16."""
    for k in range(16):
        other = (k + 1) % 16
        yield op(0x60, k) + is_a(0), FIVE, "accepted", 3
        yield ld(7) + op(0x02, k) + op(0x60, k) + is_a(7), FIVE, "accepted", 5
        yield ldx(9) + op(0x03, k) + op(0x61, k) + is_x(9), FIVE, "accepted", 6
        yield ld(7) + op(0x02, k) + op(0x60, other) + is_a(0), FIVE, "accepted", 5
        yield ld(7) + op(0x02, k) + op(0x03, k) + op(0x60, k) + is_a(0), FIVE, "accepted", 6
        yield ld(7) + op(0x02, other) + op(0x02, k) + op(0x60, other) + is_a(7), FIVE, "accepted", 6
    for k in (16, 17, 31, 255, 256, 2**16, 2**31, ALL):
        for code in (0x02, 0x03, 0x60, 0x61):
            yield op(code, k) + ENDS, FIVE, "broken", 1


# A, the operation with its operand in k, the operand, A afterwards or None.
SUMS = [
    (ALL, 0x04, 2, 1), (2**31, 0x04, 2**31, 0), (0, 0x04, ALL, ALL), (ALL, 0x04, ALL, ALL - 1),
    (3, 0x14, 5, ALL - 1), (5, 0x14, 3, 2), (0, 0x14, ALL, 1), (0, 0x14, 2**31, 2**31), (7, 0x14, 7, 0),
    (0x10001, 0x24, 0x10001, 0x20001), (2**31, 0x24, 2, 0), (ALL, 0x24, ALL, 1), (ALL, 0x24, 2, ALL - 1),
    (6, 0x24, 7, 42), (9, 0x24, 0, 0),
    (7, 0x34, 2, 3), (7, 0x34, 0, None), (0, 0x34, 0, None), (ALL, 0x34, 2**31, 1), (ALL, 0x34, 1, ALL),
    (3, 0x34, ALL, 0),
    (0xF0, 0x44, 0x3C, 0xFC), (2**31, 0x44, 1, 2**31 + 1),
    (0xF0, 0x54, 0x3C, 0x30), (ALL, 0x54, 2**31, 2**31),
    (0xF0, 0xA4, 0x3C, 0xCC), (ALL, 0xA4, ALL, 0),
    (3, 0x64, 0, 3), (3, 0x64, 1, 6), (3, 0x64, 31, 2**31), (3, 0x64, 32, 3), (3, 0x64, 33, 6),
    (3, 0x64, 63, 2**31), (3, 0x64, ALL, 2**31),
    (3 << 30, 0x74, 0, 3 << 30), (3 << 30, 0x74, 1, 3 << 29), (3 << 30, 0x74, 31, 1),
    (3 << 30, 0x74, 32, 3 << 30), (3 << 30, 0x74, 33, 3 << 29), (3 << 30, 0x74, 256, 3 << 30),
    (3 << 30, 0x74, ALL, 1),
    (0, 0x84, 5, 0), (1, 0x84, 5, ALL), (2**31, 0x84, 0, 2**31), (ALL, 0x84, 0, 1),
    (7, 0x94, 5, None), (7, 0x94, 0, None), (7, 0xB4, 5, None), (7, 0xF4, 5, None),
]

# A, the jump with its operand in k, the operand, whether jt is taken.
TESTS = [
    (5, 0x15, 5, True), (5, 0x15, 4, False), (4, 0x15, 5, False), (2**31, 0x15, 0, False),
    (ALL, 0x15, ALL, True),
    (2**31, 0x25, 1, True), (5, 0x25, 5, False), (4, 0x25, 5, False), (6, 0x25, 5, True), (0, 0x25, ALL, False),
    (6, 0x35, 5, True), (5, 0x35, 5, True), (4, 0x35, 5, False), (ALL, 0x35, 2**31, True),
    (1, 0x35, 2**31, False),
    (6, 0x45, 3, True), (6, 0x45, 9, False), (2**31, 0x45, 2**31, True), (0, 0x45, ALL, False),
    (ALL, 0x45, 0, False),
]


def both(a, code, operand, rest, jt=0, jf=0):
    """The operand in k with another in X, then in X with another in k."""
    other = 0 if operand else 1
    yield ld(a) + ldx(other) + op(code, operand, jt, jf) + rest
    yield ld(a) + ldx(operand) + op(code | 0x08, other, jt, jf) + rest
    # the high byte is not looked at
    yield ld(a) + ldx(operand) + op(code | 0x0108, other, jt, jf) + rest


def sums_and_tests():
    for a, code, operand, result in SUMS:
        for program in both(a, code, operand, ENDS if result is None else is_a(result)):
            yield (program, FIVE, "broken", 3) if result is None else (program, FIVE, "accepted", 5)
        if result is not None:
            yield ld(a) + ldx(operand) + op(code | 0x08, 0) + is_x(operand), FIVE, "accepted", 6
    for a, code, operand, taken in TESTS:
        for program in both(a, code, operand, ENDS, 0, 1):
            yield program, FIVE, "accepted" if taken else "dropped", 4
        for program in both(a, code, operand, ENDS, 1, 0):
            yield program, FIVE, "dropped" if taken else "accepted", 4


def jumps():
    bad = op(0x94)
    # JA goes by k, whatever jt, jf and the X bit are; what is skipped is not fetched, A and X stay
    yield op(0x05, 1, 9, 9) + ENDS, FIVE, "dropped", 2
    yield op(0x0D, 1) + ENDS, FIVE, "dropped", 2
    yield op(0x05, 0) + ENDS, FIVE, "accepted", 2
    for last, steps in ((is_a(7), 5), (is_x(9), 6)):
        yield ld(7) + ldx(9) + op(0x05, 2) + bad * 2 + last, FIVE, "accepted", steps
        yield ld(7) + ldx(9) + op(0x15, 7, 2, 0) + bad * 2 + last, FIVE, "accepted", steps
    yield op(0x15, 0, 2, 0) + bad * 2 + ENDS, FIVE, "accepted", 2
    yield op(0x15, 1, 0, 40) + bad * 40 + ENDS, FIVE, "accepted", 2
    # the counter is past the program: the fetch that fails is not counted
    yield ld(1), FIVE, "broken", 1
    yield ld(1) * 3, FIVE, "broken", 3
    for k in (2, 3, 255, 2**16, 2**29 - 1, 2**31, 2**32 - 2, ALL):
        yield op(0x05, k) + ENDS, FIVE, "broken", 1
        yield ld(1) + op(0x05, k) + ENDS, FIVE, "broken", 2
    for far in (2, 3, 254, 255):
        yield op(0x15, 0, far, 0) + ENDS, FIVE, "broken", 1
        yield op(0x15, 1, 0, far) + ENDS, FIVE, "broken", 1
    yield op(0x15, 0, 1, 0) + ENDS, FIVE, "dropped", 2


def ends_and_moves():
    # RET by k, or by A with bit 0x10; the other one is 0 where it is not
    for value in (0, 1, 2**8, 2**16, 2**31, ALL):
        other, verdict = (0, "accepted") if value else (9, "dropped")
        for code in (0x06, 0x0E, 0x26, 0xE6, 0xFF06):
            yield ld(other) + ldx(other) + op(code, value), FIVE, verdict, 3
        for code in (0x16, 0x1E, 0x36, 0xF6, 0x0116):
            yield ld(value) + op(code, other), FIVE, verdict, 2
    # TAX and TXA by bit 0x80 alone; the source stays
    for code in (0x07, 0x0F, 0x7F, 0x0107, 0xFF7F):
        yield ld(7) + op(code, 3) + ld(0) + is_x(7), FIVE, "accepted", 6
        yield ld(7) + op(code, 3) + is_a(7), FIVE, "accepted", 4
    for code in (0x87, 0x8F, 0xFF, 0x0187, 0xFFFF):
        yield ldx(9) + op(code, 3) + is_a(9), FIVE, "accepted", 4
        yield ldx(9) + op(code, 3) + ld(0) + is_x(9), FIVE, "accepted", 6
    # the high byte, and bits of a class that are not looked at
    yield op(0xFF20, 1) + is_a(0x02F30445), FIVE, "accepted", 3
    yield op(0x01B1, 2) + is_x(12), FIVE, "accepted", 4
    yield op(0x8000, 3) + is_a(3), FIVE, "accepted", 3
    yield ld(7) + op(0xFA, 2) + op(0x78, 2) + is_a(7), FIVE, "accepted", 5
    yield ldx(9) + op(0xFB, 2) + op(0x79, 2) + is_x(9), FIVE, "accepted", 6
    # an instruction is little-endian
    number = 0x01020304
    yield ld(number) + op(0x15, number, 1, 0) + op(0x06, 0) + op(0xFF06, 2**24), b"", "accepted", 3


def filters():
    """Two programs of document 01 for Ethernet: Ip; Tcp with Tcp destination port 80."""
    ip = op(0x28, 12) + op(0x15, 0x0800, 0, 1) + op(0x06, ALL) + op(0x06, 0)
    yield ip, bytes(13), "short", 1
    yield ip, bytes(12) + b"\x08\0", "accepted", 3
    yield ip, bytes(12) + b"\x08\1", "dropped", 3
    web = op(0x28, 12) + op(0x15, 0x0800, 0, 8) + op(0x30, 23) + op(0x15, 6, 0, 6)
    web += op(0x28, 20) + op(0x45, 0x1FFF, 4, 0) + op(0xB1, 14) + op(0x48, 16)
    web += op(0x15, 80, 0, 1) + op(0x06, ALL) + op(0x06, 0)
    for header, fragment, rest, verdict, steps in (
        (0x46, 0, b"\0P", "accepted", 10),
        (0x46, 0, b"P\0", "dropped", 10),
        (0x46, 0, b"\0", "short", 8),
        (0x46, 1, b"\0P", "dropped", 7),
        (0x4F, 0, b"\0P", "short", 8),
        (0x4F, 0, bytes(36) + b"\0P", "accepted", 10),
    ):
        start = bytes(12) + b"\x08\0" + bytes([header]) + bytes(6) + bytes([fragment, 0, 6])
        yield web, start + bytes(16) + rest, verdict, steps
    yield web, bytes(12) + b"\x08\0" + bytes(9), "short", 3
    yield web, bytes(12) + b"\x86\xdd" + bytes(60), "dropped", 3


def hand_made():
    loads = packet_loads, far_loads, odd_sizes, other_loads
    others = scratch_words, sums_and_tests, jumps, ends_and_moves, filters
    return [row for part in loads + others for row in part()]


# ── Every code ───────────────────────────────────────────────────────────────

EIGHT = bytes.fromhex("8a02f304459c6107")

# A and X before the instruction, and its k, jt, jf. In a frame of eight bytes
# k and X + k are inside, at the end, past it, or the sum wraps; operands are
# 0, equal to A, 31, 33; scratch words 15, 16.
STATES = [
    (0x12345678, 3, 1, 1, 0),
    (7, 0, 0, 0, 1),
    (ALL, ALL - 1, 4, 2, 1),
    (0x80000001, 33, 31, 0, 2),
    (5, 5, 5, 1, 2),
    (4, 6, ALL, 2, 0),
    (6, 15, 15, 255, 1),
    (9, 16, 16, 1, 255),
]
WORD = 0xABCD0123


def state_of(rng):
    values = [0, 1, 2, 3, 5, 7, 8, 31, 2**31, ALL, rng.below(2**32)]
    return rng.pick(values), rng.pick(values), rng.pick(values), rng.below(3), rng.below(3)


def stage(code, state):
    """A scratch word, X and A set, the instruction, and two that do nothing; and the word's place."""
    a, x, k, jt, jf = state
    place = k if k < 16 else 7
    before = ld(WORD) + op(0x02, place) + ldx(x) + ld(a)
    return before + op(code, k, jt, jf) + op(0x05) * 2, place


def observe(place, words):
    """Accept exactly when A, X and the scratch word are as the words say."""
    a, x, *scratch = words
    rest = op(0x87) + op(0x15, x, 0, 3) + op(0x60, place) + op(0x15, scratch[place], 0, 1) + ENDS
    return op(0x15, a, 0, 5) + rest


def every_code(rng):
    """Every code of a byte, in every state, and with a high byte.

    What follows the instruction looks at what the Rust makes of A, X and the scratch word.
    """
    stages = []
    for code in range(256):
        states = STATES + [state_of(rng)]
        stages += [stage(code, state) for state in states]
        for state in (states[0], states[2], state_of(rng)):
            high = rng.pick([0x01, 0x08, 0x80, 0xFF, rng.between(1, 255)])
            stages.append(stage(256 * high + code, state))
    seen = [said(line) for line in ask(TRACED, [(program + op(0x06, 1), EIGHT) for program, _ in stages])]
    words = [s.words or [0] * 18 for s in seen]
    return [(program + observe(place, w), EIGHT) for (program, place), w in zip(stages, words)]


# ── Random programs ──────────────────────────────────────────────────────────

BYTES = [0, 1, 2, 4, 5, 6, 8, 0x11, 0x45, 0x46, 0x50, 0xFF]
VALUES = [0, 1, 2, 3, 4, 5, 6, 8, 12, 16, 20, 31, 32, 33, 0x45, 0x50, 0xFF, 0x0101, 0x0800, 0xFFFF]
VALUES += [2**31 - 1, 2**31, ALL - 1, ALL]


class Draws:
    """One random run: the few values of its program, and its frame."""

    def __init__(self, rng):
        self.rng = rng
        self.count = rng.between(5, 29)
        some = rng.some(BYTES, 4)
        self.frame = bytes(rng.pick(some) for _ in range(rng.between(0, 80)))
        self.values = rng.some(VALUES, 3) + rng.some(some, 2)

    def value(self):
        return self.rng.below(2**32) if self.rng.one_in(30) else self.rng.pick(self.values)

    def place(self, size):
        """Mostly a place where so many bytes are in the frame."""
        inside = len(self.frame) - size
        if inside < 0 or self.rng.one_in(30):
            return self.rng.pick([inside + 1, inside + 2, self.value()]) % 2**32
        return self.rng.between(0, inside)

    def load(self, left):
        size, fixed, _ = self.rng.pick(SIZES)
        return op(fixed, self.place(size))

    def indexed(self, left):
        """X is set first, so that X + k is mostly inside; it may wrap."""
        size, _, code = self.rng.pick(SIZES)
        x = self.rng.pick([0, 1, 2, 4, ALL, ALL - 2])
        return ldx(x) + op(code, (self.place(size) - x) % 2**32)

    def indexed_by_header(self, left):
        size, _, code = self.rng.pick(SIZES)
        return op(0xB1, self.place(1)) + op(code, self.rng.pick([0, 1, 2, 4]))

    def number(self, left):
        return op(self.rng.pick([0x00, 0x01, 0x80, 0x81]), self.value())

    def memory(self, left):
        k = 16 if self.rng.one_in(80) else self.rng.pick([0, 1, 2, 15])
        return op(self.rng.pick([0x02, 0x02, 0x03, 0x60, 0x60, 0x61]), k)

    def sum(self, left):
        code = self.rng.pick([0x04, 0x14, 0x24, 0x34, 0x44, 0x54, 0x64, 0x74, 0x84, 0xA4])
        return op(code | 0x08 if self.rng.one_in(3) else code, self.value() or self.rng.below(3))

    def jump(self, left):
        """Mostly to a place of the program."""
        far = [self.rng.below(min(left, 6)) if left else 0 for _ in range(2)]
        if self.rng.one_in(40):
            far = [self.rng.below(256) for _ in range(2)]
        if self.rng.one_in(8):
            return op(0x05, far[0])
        code = self.rng.pick([0x15, 0x25, 0x35, 0x45])
        return op(code | 0x08 if self.rng.one_in(4) else code, self.value(), *far)

    def move(self, left):
        return op(self.rng.pick([0x07, 0x87]))

    def end(self, left):
        return op(self.rng.pick([0x06, 0x16]), self.rng.pick([0, 1, ALL]))

    def any(self, left):
        return op(self.rng.below(2**16), self.value(), self.rng.below(3), self.rng.below(3))

    def kinds(self):
        loads = [self.load] * 6 + [self.indexed] * 3 + [self.indexed_by_header]
        return loads + [self.number, self.memory] * 5 + [self.sum] * 7 + [self.jump] * 8 + [self.move] * 2

    def program(self):
        kinds, program = self.kinds(), b""
        while len(program) < 8 * (self.count - 1):
            left = self.count - len(program) // 8 - 2
            rare = self.end if self.rng.one_in(2) else self.any
            part = (rare if self.rng.one_in(40) else self.rng.pick(kinds))(left)
            # now and then a high byte
            program += part[:1] + bytes([self.rng.below(256)]) + part[2:] if self.rng.one_in(30) else part
        return program + (self.any(0) if self.rng.one_in(25) else self.end(0))


def random_runs(rng, count):
    draws = [Draws(rng) for _ in range(count)]
    return [(d.program(), d.frame) for d in draws]


# ── Refusals and their limits: program, frame, number or verdict ─────────────


def zeros_to(data, n):
    return data.ljust(n, b"\0")


def refusals():
    good = op(0x06, 1)
    length = op(0x80) + op(0x15, 65535, 0, 1) + ENDS
    longest = zeros_to(good, 32768)
    short = [0, 1, 4, 7, 9, 12, 15, 17, 20, 100, 255, 257, 511]
    programs = [(good * 64)[:n] for n in short]
    programs += [zeros_to(good, n) for n in (32767, 32769, 32772, 32775, 32776, 32784, 65535, 65536)]
    for program in programs:
        for frame in (b"", FIVE, bytes(65535), zeros_to(FIVE, 65536)):
            yield program, frame, 11
    for program in (good, length, ld(1), op(0x94), op(0x30, 65535) + good, longest):
        for n in (65536, 65537, 65540):
            yield program, zeros_to(FIVE, n), 10
    yield length, bytes(65535), "accepted"
    yield length, bytes(65534), "dropped"
    yield op(0x30, 65534) + good, bytes(65535), "accepted"
    yield op(0x30, 65535) + good, bytes(65535), "short"
    yield op(0x28, 65533) + good, bytes(65535), "accepted"
    yield op(0x28, 65534) + good, bytes(65535), "short"
    yield op(0x20, 65531) + good, bytes(65535), "accepted"
    yield op(0x20, 65532) + good, bytes(65535), "short"
    yield op(0xB1, 65535) + good, bytes(65535), "short"
    # the longest program: 4,096 steps to its end, or JA to the last instruction and past it
    yield bytes(32768), FIVE, "broken"
    yield zeros_to(op(0x05, 4094), 32768), FIVE, "broken"
    yield zeros_to(op(0x05, 4095), 32768), FIVE, "broken"
    yield longest, FIVE, "accepted"


# ── The file ─────────────────────────────────────────────────────────────────


def packed(data, most):
    """What is stored of a program or a frame, and how many zeros follow."""
    stored = data if len(data) <= most else data.rstrip(b"\0")
    assert len(stored) <= most
    return stored, len(data) - len(stored)


def case_bytes(program, frame, s):
    program, program_zeros = packed(program, MOST_STORED[0])
    frame, frame_zeros = packed(frame, MOST_STORED[1])
    words = ANSWERS[s.answer], VERDICTS[s.verdict], s.refusal
    sizes = len(frame), s.steps, len(program), program_zeros, frame_zeros
    return struct.pack(HEAD, *words, *sizes) + program + frame


def check_expected(rows, told):
    """Hand-made runs are what they are meant to be."""
    for (program, frame, *want), s in zip(rows, told):
        got = [s.verdict, s.steps] if len(want) == 2 else [s.refusal or s.verdict]
        if got != want:
            stop(f"{program.hex()} {frame[:100].hex()} is {got}, not {want}")


def group_bytes(rows):
    """A group's part of the file, and its verdicts."""
    told = ask_both([row[:2] for row in rows])
    check_expected([row for row in rows if len(row) > 2], told)
    cases = b"".join(case_bytes(*row[:2], s) for row, s in zip(rows, told))
    return struct.pack(">H", len(rows)) + cases, collections.Counter(s.verdict for s in told)


def make(seed, directory):
    build_traced()
    rng = Rng(seed)
    file, report, total = b"", "", 0
    for name, rows in zip(GROUPS, (hand_made(), every_code(rng), random_runs(rng, 2700), list(refusals()))):
        part, verdicts = group_bytes(rows)
        file += part
        total += len(rows)
        report += f"{name}: {len(rows)} runs, 0 differences\n"
        print(f"{name}: {len(rows)} runs,", ", ".join(f"{n} {v}" for v, n in sorted(verdicts.items())))
    (directory / "stdin").write_bytes(file)
    (directory / "stdout").write_text(report + f"{total} runs, 0 differences\n")
    print(f"{total} runs, {len(file)} bytes")


def show(directory):
    """A line for a case: group, index, answer, verdict, refusal, steps, program, frame."""
    file, at = (directory / "stdin").read_bytes(), 0
    for name in GROUPS:
        (count,) = struct.unpack_from(">H", file, at)
        at += 2
        for index in range(count):
            answer, verdict, refusal, f, steps, p, more_p, more_f = struct.unpack_from(HEAD, file, at)
            start = at + struct.calcsize(HEAD)
            at = start + p + f
            program = " ".join(file[i : min(i + 8, start + p)].hex() for i in range(start, start + p, 8))
            words = list(ANSWERS)[answer], list(VERDICTS)[verdict], refusal, steps
            print(f"{name} {index}:", *words, f"[{program} +{more_p}] [{file[start + p : at].hex()} +{more_f}]")


if __name__ == "__main__":
    stored(__doc__, CRATE, make, show)
