#!/usr/bin/env python3
"""Compares `pft list` with libpcap. It needs python3, libpcap and `bin/make command`.

bin/test/listings.py [SEED [COUNT]]

Of COUNT random tree files and all samples, the listings -d, -dd and the plain
one have to be what libpcap's bpf_dump prints of the program, which is what
tcpdump prints with -d, -dd and -ddd; and --bytecode has the plain one's numbers
on one line. The last line is `C codes, N compared, M differences`; the
generator emits 13 codes. The status is 1 if M is not 0.
"""
import ctypes
import ctypes.util
import pathlib
import subprocess
import sys
import tempfile

sys.dont_write_bytecode = True
ROOT = pathlib.Path(__file__).resolve().parent.parent.parent
COMMAND = ROOT / "target" / "bin" / "command"
USAGE = "usage: bin/test/listings.py [SEED [COUNT]]"

# The options of `pft list`, and what bpf_dump takes for the same.
DUMPS = {"-d": 1, "-dd": 2, "": 3}


class Insn(ctypes.Structure):
    _fields_ = [("code", ctypes.c_ushort), ("jt", ctypes.c_ubyte), ("jf", ctypes.c_ubyte), ("k", ctypes.c_uint)]


class Program(ctypes.Structure):
    _fields_ = [("count", ctypes.c_uint), ("insns", ctypes.POINTER(Insn))]


def libpcap():
    name = ctypes.util.find_library("pcap")
    if not name:
        sys.exit("no libpcap; tools/libpcap-dev installs it")
    return ctypes.CDLL(name)


# ── Listings ─────────────────────────────────────────────────────────────────


def listed(path, option):
    """What `pft list` prints, or nothing of a tree that is refused."""
    done = subprocess.run([COMMAND, "list", *option.split(), path], stdout=subprocess.PIPE, stderr=subprocess.DEVNULL)
    return done.stdout.decode()


def program_of(listing):
    rows = [tuple(map(int, line.split())) for line in listing.splitlines()[1:]]
    return Program(len(rows), (Insn * len(rows))(*rows))


def dump(paths, option):
    """Prints what libpcap says of each program, a line `.` after each."""
    pcap, c = libpcap(), ctypes.CDLL(None)
    for path in paths:
        pcap.bpf_dump(ctypes.byref(program_of(listed(path, ""))), DUMPS[option])
        c.puts(b".")
    c.fflush(None)


def dumped(paths, option):
    """The same of a process of its own, since libpcap prints to standard output."""
    words = [sys.executable, __file__, "--dump", option]
    done = subprocess.run(words, input="\n".join(paths), text=True, stdout=subprocess.PIPE, check=True)
    return done.stdout.split(".\n")[:-1]


# ── Trees ────────────────────────────────────────────────────────────────────


def random_trees(seed, count, room):
    words = [ROOT / "tools" / "oracle" / "trees.py", seed, count]
    lines = subprocess.run(words, text=True, stdout=subprocess.PIPE, check=True).stdout.splitlines()
    for i, line in enumerate(lines):
        path = pathlib.Path(room) / f"{i}.pft"
        path.write_bytes(bytes.fromhex(line))
        yield str(path)


def accepted(seed, count, room):
    paths = sorted(map(str, (ROOT / "samples").glob("*/*.pft"))) + list(random_trees(seed, count, room))
    return [path for path in paths if listed(path, "")]


def compare(paths):
    """How many listings differ."""
    differences = 0
    for option in DUMPS:
        for path, wanted in zip(paths, dumped(paths, option), strict=True):
            if listed(path, option) != wanted:
                differences += 1
                print(f"pft list {option} {path} is not what libpcap prints")
    for path in paths:
        if listed(path, "--bytecode") != listed(path, "").strip().replace("\n", ",") + "\n":
            differences += 1
            print(f"pft list --bytecode {path} has other numbers than the plain listing")
    return differences


def main():
    words = sys.argv[1:]
    if words[:1] == ["--dump"]:
        return dump(sys.stdin.read().split("\n"), words[1])
    if words == ["--help"]:
        return print(__doc__.strip())
    if len(words) > 2 or not all(word.isdecimal() for word in words):
        print(USAGE, file=sys.stderr)
        sys.exit(2)
    if not COMMAND.is_file():
        print(f"no {COMMAND}; make it with `bin/make command`", file=sys.stderr)
        sys.exit(2)
    seed, count = (words + ["1", "1000"][len(words) :])[:2]
    with tempfile.TemporaryDirectory() as room:
        paths = accepted(seed, count, room)
        differences = compare(paths)
        codes = {line.split()[0] for path in paths for line in listed(path, "").splitlines()[1:]}
    print(f"{len(codes)} codes, {4 * len(paths)} compared, {differences} differences")
    sys.exit(1 if differences else 0)


if __name__ == "__main__":
    main()
