"""Small captures for the comparison, and a reader of them, written from T-01's
sentences. Verdicts on their frames are not decided here: the oracle is asked."""
import struct

import inputs

FIELDS = {1: 1, 2: 101, 3: 113}
MARKS = (0xA1B2C3D4, 0xA1B23C4D)
FILE_HEADER, FRAME_HEADER = 24, 16
LINK, CAPTURED = 20, 8
LONGEST = 65535
NO_CAPTURE, OTHER_LINK, CUT_FRAME = 12, 13, 14
FAULTS = (NO_CAPTURE, OTHER_LINK, CUT_FRAME)

# ── The reader ───────────────────────────────────────────────────────────────


def number(order, capture, at):
    return struct.unpack_from(order + "I", capture, at)[0]


def order_of(capture):
    """The byte order, as struct has it; none where a file is no capture."""
    if len(capture) < FILE_HEADER:
        return None
    return next((order for order in "><" if number(order, capture, 0) in MARKS), None)


def frame_at(capture, at):
    """Of the frame whose header stands at a place: the refusal's number, its length."""
    order = order_of(capture)
    if order is None:
        return NO_CAPTURE, 0
    behind = len(capture) - at - FRAME_HEADER
    size = number(order, capture, at + CAPTURED) if behind >= 0 else 0
    return (CUT_FRAME, 0) if size > min(behind, LONGEST) else (0, size)


def given(capture, link):
    """The refusal's number, the frames before it, and where reading stopped."""
    order = order_of(capture)
    if order is None:
        return NO_CAPTURE, [], 0
    if number(order, capture, LINK) != FIELDS[link]:
        return OTHER_LINK, [], 0
    frames, at = [], FILE_HEADER
    while at < len(capture):
        refusal, size = frame_at(capture, at)
        if refusal:
            return refusal, frames, at
        at += FRAME_HEADER + size
        frames.append(capture[at - size : at])
    return 0, frames, at


# ── Drawn captures ───────────────────────────────────────────────────────────


def mark(rng, spoiled):
    """One of the two, or one that is near to them."""
    good = rng.pick(MARKS)
    near = (good ^ 1 << rng.below(32), good >> 16 | (good & 0xFFFF) << 16, 0xA1B2CD34, 0x0A0D0D0A)
    return rng.pick(near) if spoiled else good


def field(rng, link, spoiled):
    good = FIELDS[link]
    near = (good ^ 1 << rng.below(32), good | 0x30000000, good << 24, FIELDS[link % 3 + 1])
    return rng.pick(near) if spoiled else good


def framed(rng, order, frame):
    size = len(frame)
    other = rng.pick((size, 0, size // 2, 2**32 - 1))
    return struct.pack(order + "4I", rng.below(2**32), rng.below(2**32), size, other) + frame


def cut(rng, order, capture, places):
    """A rest behind the last frame, an end too soon, or a length that no frame has."""
    kind = rng.below(3) if places else 0
    if kind == 0:
        return capture + rng.bytes(rng.between(1, FRAME_HEADER - 1))
    if kind == 1:
        return capture[: rng.between(places[-1] + 1, len(capture) - 1)]
    at = rng.pick(places)
    left = len(capture) - at - FRAME_HEADER
    length = rng.pick((left + 1, LONGEST, LONGEST + 1, 2**31, 2**32 - 1))
    return capture[: at + CAPTURED] + struct.pack(order + "I", length) + capture[at + CAPTURED + 4 :]


def drawn(rng, link, frames, faults):
    """A capture of these frames with faults of 12 to 14."""
    order = rng.pick("><")
    head = struct.pack(order + "I", mark(rng, NO_CAPTURE in faults)) + rng.bytes(LINK - 4)
    capture = head + struct.pack(order + "I", field(rng, link, OTHER_LINK in faults))
    places = []
    for frame in frames:
        places.append(len(capture))
        capture += framed(rng, order, frame)
    if CUT_FRAME in faults:
        capture = cut(rng, order, capture, places)
    if NO_CAPTURE in faults and rng.one_in(4):
        capture = capture[: rng.below(FILE_HEADER)]
    return capture


def frames_for(rng, file, good):
    """Some frames of what a good tree names; half of them whole, the others cut."""
    pool = inputs.Pool(file) if good else None
    some = range(rng.below(5))
    frames = [inputs.frame_for(rng, pool, file[5]) if good else inputs.random_frame(rng) for _ in some]
    return [f if rng.one_in(2) else f[: rng.pick((0, 1, rng.below(len(f) + 1)))] for f in frames]


def place(rng, capture):
    """The first frame's place, the end, or a place about them or anywhere."""
    end = len(capture)
    return rng.pick((FILE_HEADER, FILE_HEADER, end, end + 1, max(end - rng.below(20), 0), rng.below(end + 1)))


def longest():
    """A capture for RawIp of a frame as long as may be, and of one that is longer."""
    head = struct.pack("<4I", MARKS[0], 0, 0, 0) + struct.pack("<2I", 0, FIELDS[2])
    return [head + struct.pack("<4I", 0, 0, size, size) + bytes(size) for size in (LONGEST, LONGEST + 1)]
