#!/usr/bin/env python3
"""Tries what `bin/pft count` says of captures: files, pipes, and reads of any size.

bin/test/captures.py [SEED [COUNT]]

It needs python3, and `bin/make command` made before. COUNT random captures, in
both byte orders, with both marks, whole and cut anywhere, are read from a file
and by reads of chosen lengths; the reader and the filter below, which share
nothing with the command, say what is to come of each. Then every message, and
captures of several buffers and of over 4 GiB. The last line is
`R refused, N compared, M differences`; the status is 1 if M is not 0, or where
the command is not made.
"""
import itertools
import os
import pathlib
import random
import shutil
import socket
import struct
import subprocess
import sys
import tempfile
import threading

sys.dont_write_bytecode = True
from command import COOKED, FAR, GIGABYTE, NOBODY, ROOT, SAMPLES, SECONDS, STRANGE, WEB, Tally, run, shell, usage

USAGE = "usage: bin/test/captures.py [SEED [COUNT]]"
ALL = str(SAMPLES / "ethernet" / "all.pcap")
CUT = str(SAMPLES / "refused" / "cut_body.pcap")
OTHER = str(SAMPLES / "refused" / "other_link.pcap")
PCAPNG = str(SAMPLES / "refused" / "wireshark.pcapng")
ALL_KEPT = "kept 2 of 21 frames"
CUT_KEPT = "kept 1 of the first 2 frames"
CUT_AT = "refused 14, cut frame, at frame 3, byte 212"

FILE_HEADER, FRAME_HEADER, LONGEST = 24, 16, 65535
ETHERNET = 1
MARKS = (0xA1B2C3D4, 0xA1B23C4D)
# What the command reads at most at once; and what fits one packet of a local socket.
BUFFER, PACKET = 262144, 65536

# ── A reader of its own ──────────────────────────────────────────────────────


def is_web(frame):
    """Ethernet, IPv4, Tcp, no later fragment, to port 80."""
    if len(frame) < 24 or frame[12:14] != b"\x08\x00" or frame[23] != 6:
        return False
    if struct.unpack(">H", frame[20:22])[0] % 0x2000:
        return False
    port = 14 + frame[14] % 16 * 4 + 2
    return frame[port : port + 2] == b"\x00\x50"


def order_of(data):
    """The sign of struct for a capture's byte order, or nothing where it is no capture."""
    if len(data) < FILE_HEADER:
        return None
    return next((order for order in "<>" if struct.unpack(order + "I", data[:4])[0] in MARKS), None)


def wanted(data, name):
    """The answer, the message and the status that are to come of a file for WEB."""
    order = order_of(data)
    if not order:
        return "", f"{name}: refused 12, no capture\n", 1
    if struct.unpack(order + "I", data[20:24])[0] != ETHERNET:
        return "", f"{name}: refused 13, other link, the tree is for Ethernet (1)\n", 1
    kept, given, at = 0, 0, FILE_HEADER
    while at < len(data):
        length = struct.unpack(order + "I", data[at + 8 : at + 12])[0] if len(data) - at >= FRAME_HEADER else None
        if length is None or length > LONGEST or at + FRAME_HEADER + length > len(data):
            cut = f"{name}: refused 14, cut frame, at frame {given + 1}, byte {at}\n"
            return f"{name}: kept {kept} of the first {given} frames\n", cut, 1
        at += FRAME_HEADER
        kept += is_web(data[at : at + length])
        given += 1
        at += length
    return f"{name}: kept {kept} of {given} frames\n", "", 0


# ── Captures of its own ──────────────────────────────────────────────────────

FRAMES = [path.read_bytes() for path in sorted((SAMPLES / "ethernet").glob("*.frame"))]


def file_header(order="<", mark=MARKS[0], link=ETHERNET):
    return struct.pack(order + "IHHIIII", mark, 2, 4, 0, 0, 65535, link)


def framed(data, order="<"):
    return struct.pack(order + "IIII", 0, 0, len(data), len(data)) + data


def random_frame(draw):
    """Mostly a sample, some of them filled up or cut; now and then as long as a frame may be."""
    frame = draw.choice(FRAMES)
    how = draw.randrange(8)
    if how == 0:
        return frame.ljust(draw.choice([LONGEST, draw.randrange(LONGEST)]), b"\0")
    return frame[: draw.randrange(len(frame) + 1)] if how == 1 else frame


def random_header(draw, order):
    """Half of the others have a mark or a link that is wrong in one bit."""
    header = bytearray(file_header(order, draw.choice(MARKS)))
    if draw.randrange(8) == 0:
        header[draw.choice([0, 1, 2, 3, 20, 21, 22, 23])] ^= 1 << draw.randrange(8)
    return bytes(header)


def random_capture(draw):
    order = draw.choice("<>")
    frames = [framed(random_frame(draw), order) for _ in range(draw.randrange(12))]
    data = random_header(draw, order) + b"".join(frames)
    how = draw.randrange(6)
    if how == 0:
        return data[: draw.randrange(len(data) + 1)]
    if how == 1:
        return data[:-1]
    if how == 2:
        long = framed(bytes(LONGEST + draw.choice([1, 2, 70000])), order)
        return data + long[: draw.choice([FRAME_HEADER - 1, FRAME_HEADER, len(long)])]
    return data


def cuts(data, draw):
    """The data in pieces: each is one read."""
    most = draw.choice([1, 7, 16, 24, 100, 4096, PACKET]) if len(data) < 20000 else draw.choice([4096, PACKET])
    while data:
        n = draw.randrange(most) + 1
        yield data[:n]
        data = data[n:]


def count_reads(pieces, *words):
    """What `pft count` says of standard input that gives these pieces, one a read: a local socket keeps its packets
    apart."""
    ours, theirs = socket.socketpair(socket.AF_UNIX, socket.SOCK_SEQPACKET)
    with ours, theirs:
        child = subprocess.Popen(
            [f"{ROOT}/bin/pft", "count", WEB, *words], stdin=theirs, stdout=subprocess.PIPE, stderr=subprocess.PIPE
        )
        theirs.close()
        feeder = threading.Thread(target=feed, args=(ours, pieces))
        feeder.start()
        answers, messages = child.communicate(timeout=SECONDS)
        feeder.join()
    return answers.decode(), messages.decode(), child.returncode


def feed(ours, pieces):
    """A capture that is refused is not read to its end."""
    try:
        for piece in pieces:
            ours.sendall(piece)
        ours.shutdown(socket.SHUT_WR)
    except ConnectionError:
        pass


# ── Captures of all sorts ────────────────────────────────────────────────────


def try_random(tally, room, seed, count):
    draw = random.Random(seed)
    file = pathlib.Path(room) / "random.pcap"
    refused = 0
    for i in range(count):
        data = random_capture(draw)
        file.write_bytes(data)
        refused += wanted(data, "")[2]
        tally.expect(f"capture {i} of seed {seed}", run("count", WEB, str(file)), wanted(data, file))
        pieces = list(cuts(data, draw))
        what = f"capture {i} of seed {seed}, in {len(pieces)} reads"
        tally.expect(what, count_reads(pieces, "-"), wanted(data, "standard input"))
    return refused


def filled(size, web):
    """A capture of so many bytes, of long frames that are kept."""
    data = file_header()
    while size - len(data) > 2 * (FRAME_HEADER + LONGEST):
        data += framed(web.ljust(LONGEST, b"\0"))
    data += framed(web.ljust((size - len(data)) // 2 - FRAME_HEADER, b"\0"))
    return data + framed(web.ljust(size - len(data) - FRAME_HEADER, b"\0"))


def try_windows(tally, room):
    """Captures of several buffers, with a frame's header, its body or its end at a buffer's end; whole, and cut
    there."""
    web = next(frame for frame in FRAMES if is_web(frame))
    one = framed(web)
    for before in [BUFFER - part + near for part in (0, FRAME_HEADER, len(one)) for near in range(-2, 3)]:
        whole = filled(before, web) + one + framed(web.ljust(LONGEST, b"\0")) * 5
        assert whole[before:].startswith(one)
        files = {}
        for end in (len(whole), before + 1, before + FRAME_HEADER - 1, before + len(one) - 1):
            files[f"{room}/{end}.pcap"] = whole[:end]
            pathlib.Path(f"{room}/{end}.pcap").write_bytes(whole[:end])
        parts = zip(*(wanted(data, name) for name, data in files.items()))
        answers, messages, statuses = parts
        said = "".join(answers), "".join(messages), max(statuses)
        tally.expect(f"a frame at {before}", run("count", WEB, *files), said)


def pipe(out, pieces):
    """A capture that is refused is not read to its end."""
    try:
        with out:
            for piece in pieces:
                out.write(piece)
    except BrokenPipeError:
        pass


def try_huge(tally):
    """Over 4 GiB through a pipe, then a frame that is cut: places need more than 32 bits."""
    long, most = framed(FRAMES[0].ljust(LONGEST, b"\0")), 4 * GIGABYTE // (FRAME_HEADER + LONGEST) + 1
    web = framed(next(frame for frame in FRAMES if is_web(frame)))
    place = FILE_HEADER + len(web) + most * len(long)
    assert place > 2**32 and not is_web(long[FRAME_HEADER:])
    pieces = itertools.chain([file_header() + web], itertools.repeat(long, most), [long[:-1]])
    streams = {"stdin": subprocess.PIPE, "stdout": subprocess.PIPE, "stderr": subprocess.PIPE}
    with subprocess.Popen([f"{ROOT}/bin/pft", "count", WEB, "-"], **streams) as child:
        feeder = threading.Thread(target=pipe, args=(child.stdin, pieces))
        feeder.start()
        answers, messages = child.stdout.read().decode(), child.stderr.read().decode()
        feeder.join()
    kept = f"standard input: kept 1 of the first {1 + most} frames\n"
    message = f"standard input: refused 14, cut frame, at frame {2 + most}, byte {place}\n"
    tally.expect("over 4 GiB", (answers, messages, child.returncode), (kept, message, 1))


# ── Files and streams ────────────────────────────────────────────────────────


def try_files(tally, room):
    """What is refused or cannot be read is passed over; the largest status holds; a name may hold anything."""
    odd = f"{room}/a: kept 9 of 9 frames.pcap"
    shutil.copy(ALL, odd)
    empty = f"{room}/empty.pcap"
    open(empty, "wb").close()
    words = [ALL, f"{room}/none", room, f"{ALL}/x", "", "x" * 300, "x" * 5000, odd, empty, OTHER, CUT, PCAPNG, ALL]
    lines = [f"{ALL}: {ALL_KEPT}", f"{odd}: {ALL_KEPT}", f"{CUT}: {CUT_KEPT}", f"{ALL}: {ALL_KEPT}"]
    reasons = [
        f"{room}/none: cannot be read, no such file",
        f"{room}: cannot be read, it is a directory",
        f"{ALL}/x: cannot be read, a part of its path is not a directory",
        ": cannot be read, no such file",
        "x" * 300 + ": cannot be read, its name is too long",
        "argument 9: cannot be read, its name is too long",
        f"{empty}: refused 12, no capture",
        f"{OTHER}: refused 13, other link, the tree is for Ethernet (1)",
        f"{CUT}: {CUT_AT}",
        f"{PCAPNG}: refused 12, no capture, it is pcapng",
    ]
    answer = "\n".join(lines) + "\n", "\n".join(reasons) + "\n", 3
    tally.expect("captures of all sorts", run("count", WEB, *words), answer)
    tally.expect("a capture that is refused", run("count", WEB, OTHER, ALL)[2], 1)
    for link, number in (("rawip", 101), ("linuxsll", 113)):
        tree, name = (str(SAMPLES / link / file) for file in ("web.pft", "all.pcap"))
        says = {"rawip": "RawIp", "linuxsll": "LinuxSll"}[link]
        message = f"{ALL}: refused 13, other link, the tree is for {says} ({number})\n"
        answers, messages, status = run("count", tree, name, ALL)
        tally.expect(f"{link}, another link", (messages, status), (message, 1))
        tally.expect(f"{link}, its link", answers.startswith(f"{name}: kept 2 of "), True)


def try_tree(tally, room):
    """A tree that is refused or cannot be read: one message, and no capture is opened."""
    fifo = f"{room}/fifo"
    os.mkfifo(fifo)
    for tree, message, status in (
        (FAR, "refused 8, far jump", 1),
        (COOKED, "refused 15, cooked address", 1),
        (STRANGE, "refused 1, strange file", 1),
        (ALL, "refused 1, strange file", 1),
        (f"{room}/none", "cannot be read, no such file", 3),
    ):
        tally.expect(f"the tree {tree}", run("count", tree, fifo, f"{room}/none"), ("", f"{tree}: {message}\n", status))


def try_unreadable(tally, room):
    """Root may read every file, so nobody asks there, and of the program alone, which has to be where nobody may go."""
    secret, program = pathlib.Path(room) / "secret.pcap", pathlib.Path(room) / "command"
    shutil.copy(ALL, secret)
    secret.chmod(0)
    shutil.copy(WEB, f"{room}/web.pft")
    shutil.copy(ROOT / "target" / "bin" / "command", program)
    program.chmod(0o755)
    more = {"user": NOBODY} if os.geteuid() == 0 else {}
    answers, messages, _ = run("count", f"{room}/web.pft", str(secret), root=room, name="command", **more)
    wanted = "", f"{secret}: cannot be read, permission denied\n"
    tally.expect("an unreadable capture", (answers, messages), wanted)


def try_input(tally):
    kept = f"standard input: {ALL_KEPT}\n"
    tally.expect("count TREE - < CAPTURE", shell('bin/pft count "$1" - < "$2"', WEB, ALL), (kept, "", 0))
    tally.expect("cat CAPTURE | count TREE -", shell('cat "$2" | bin/pft count "$1" -', WEB, ALL), (kept, "", 0))
    line = 'bin/pft count - "$2" < "$1"'
    tally.expect("count - CAPTURE < TREE", shell(line, WEB, ALL), (f"{ALL}: {ALL_KEPT}\n", "", 0))
    twice = "standard input: named twice, and it can be read once\n"
    for words in (["-", "-"], [WEB, "-", ALL, "-"]):
        tally.expect("standard input twice", run("count", *words), ("", twice + usage("pft/count")[1], 2))
    for given, reason in (("< .", "it is a directory"), ("<&-", "it is not open")):
        message = f"standard input: cannot be read, {reason}\n"
        tally.expect(f"count TREE - {given}", shell(f'bin/pft count "$1" - {given}', WEB), ("", message, 3))
    nothing = "standard input: refused 12, no capture\n"
    tally.expect("count of nothing", shell('bin/pft count "$1" - < /dev/null', WEB), ("", nothing, 1))
    tally.expect("zeros without end", shell('bin/pft count "$1" - < /dev/zero', WEB), ("", nothing, 1))


def try_failing(tally):
    """A read that fails within a capture: a message, and no count. A pipe that does not wait gives what it has, then
    an error."""
    reader, writer = os.pipe()
    os.set_blocking(reader, False)
    os.write(writer, pathlib.Path(ALL).read_bytes())
    said = run("count", WEB, "-", ALL, stdin=reader)
    os.close(reader)
    os.close(writer)
    message = "standard input: cannot be read, the system reports an error\n"
    tally.expect("a read that fails", said, (f"{ALL}: {ALL_KEPT}\n", message, 3))


def try_output(tally):
    full = "standard output: cannot be written, no space is left\n"
    closed = "standard output: cannot be written, it is not open\n"
    for target, message in (("> /dev/full", full), (">&-", closed)):
        line = f'bin/pft count "$1" "$2" "$2" {target}'
        tally.expect(f"count {target}", shell(line, WEB, ALL), ("", message, 3))
        cut = f"{message}{CUT}: {CUT_AT}\n"
        tally.expect(f"count of a cut one {target}", shell(line, WEB, CUT), ("", cut, 3))
    tally.expect("count 2>&-", shell('bin/pft count "$1" "$2" 2>&-', WEB, CUT), (f"{CUT}: {CUT_KEPT}\n", "", 1))
    line = 'bin/pft count "$1" "$2" "$3" | sed "s/.*: kept \\([0-9]*\\) of .*/\\1/"'
    tally.expect("the help's sed", shell(line, WEB, ALL, CUT)[0], "2\n1\n")


def main():
    words = sys.argv[1:]
    if words == ["--help"]:
        return print(__doc__.strip())
    if len(words) > 2 or not all(word.isdecimal() for word in words) or words[1:] == ["0"]:
        print(USAGE, file=sys.stderr)
        sys.exit(2)
    seed, count = (int(word) for word in words + ["1", "200"][len(words) :])
    _, messages, status = run("count", WEB, ALL)
    if status == 2:
        sys.exit(messages.rstrip())
    tally = Tally()
    for part in (try_input, try_failing, try_output, try_huge):
        part(tally)
    with tempfile.TemporaryDirectory(prefix="pft test ") as room:
        os.chmod(room, 0o755)
        refused = try_random(tally, room, seed, count)
        for part in (try_windows, try_files, try_tree, try_unreadable):
            part(tally, room)
    print(f"{refused} refused, {tally.compared} compared, {tally.differences} differences")
    sys.exit(1 if tally.differences else 0)


if __name__ == "__main__":
    main()
