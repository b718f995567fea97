#!/usr/bin/env python3
"""Tries what bin/pft and bin/pft-list do with files, streams and their own state.

bin/test/command.py

It needs python3, and `bin/make command` and `bin/make pft_list` made before. Answers, messages
and exit status of each try have to be the ones that stand here. The last line is
`N compared, M differences`; the status is 1 if M is not 0.
"""
import os
import pathlib
import shutil
import subprocess
import sys
import tempfile
import time

sys.dont_write_bytecode = True
ROOT = pathlib.Path(__file__).resolve().parent.parent.parent
SAMPLES = ROOT / "samples"
WEB, NOT_IP = (str(SAMPLES / "ethernet" / f"{name}.pft") for name in ("web", "not_ip"))
GOOD, SHORT = (str(SAMPLES / "ethernet" / f"{name}.frame") for name in ("tcp80", "cut_port"))
LONG, LONGEST = (str(SAMPLES / "refused" / f"{name}.frame") for name in ("long", "longest"))
FAR, STRANGE, COOKED = (str(SAMPLES / "refused" / f"{name}.pft") for name in ("far_256", "strange", "cooked_host"))
SENDER, SENT, CAPTURE = (str(SAMPLES / "linuxsll" / name) for name in ("sender.pft", "tcp80.frame", "all.pcap"))

# Document 01's example: Ethernet, not Ip.
LISTING = "5\n40 0 0 12\n21 0 1 2048\n5 0 0 1\n6 0 0 4294967295\n6 0 0 0\n"
# LinuxSll, ether source 02:00:00:00:00:01: its length, then its six bytes.
SENDER_LISTING = "8\n40 0 0 4\n21 0 5 6\n32 0 0 6\n21 0 3 33554432\n40 0 0 10\n21 0 1 1\n6 0 0 4294967295\n6 0 0 0\n"
ACCEPTED = "accepted, steps 10, direct reading true"
WEB_SIZE, NOT_IP_SIZE, SENDER_SIZE = (f"{n} instructions, {8 * n} bytes" for n in (11, 5, 8))
NOBODY = 65534
GIGABYTE = 1 << 30
SECONDS = 60


class Tally:
    compared = differences = 0

    def expect(self, what, here, wanted):
        self.compared += 1
        if here != wanted:
            self.differences += 1
            print(f"{what}: {here!r}, not {wanted!r}")


def run(*words, root=ROOT, name="bin/pft", **more):
    """Answers, messages and exit status."""
    more = {"stdin": subprocess.DEVNULL, "stdout": subprocess.PIPE, "stderr": subprocess.PIPE} | more
    done = subprocess.run([f"{root}/{name}", *words], timeout=SECONDS, **more)
    return (done.stdout or b"").decode(), (done.stderr or b"").decode(), done.returncode


def shell(line, *words):
    """The same of a line of shell, whose $1, $2, .. are words."""
    done = subprocess.run(["sh", "-c", line, "sh", *words], cwd=ROOT, capture_output=True, text=True, timeout=SECONDS)
    return done.stdout, done.stderr, done.returncode


def usage(name, reason=""):
    """What wrong usage prints."""
    text = (ROOT / "bin" / "help" / f"{name}.txt").read_text()
    return "", reason + text[: text.index("\n\n") + 1], 2


# ── Streams ──────────────────────────────────────────────────────────────────


def try_input(tally):
    """A tree from standard input: a file, `-`, a directory, nothing, a closed one."""
    tally.expect("list < TREE", shell('bin/pft list < "$1"', NOT_IP), (LISTING, "", 0))
    tally.expect("list - < TREE", shell('bin/pft list - < "$1"', NOT_IP), (LISTING, "", 0))
    tally.expect("pft-list < TREE", shell('bin/pft-list < "$1"', NOT_IP), (LISTING, "", 0))
    tally.expect("./pft-list < TREE", shell('./pft-list < "$1"', NOT_IP), (LISTING, "", 0))
    sizes = f"{WEB}: {WEB_SIZE}\nstandard input: {NOT_IP_SIZE}\n"
    tally.expect("size TREE - < TREE", shell('bin/pft size "$1" - < "$2"', WEB, NOT_IP), (sizes, "", 0))
    for command in ("bin/pft list", "bin/pft size -", "bin/pft-list"):
        directory = "standard input: cannot be read, it is a directory\n"
        closed = "standard input: cannot be read, it is not open\n"
        tally.expect(f"{command} < .", shell(f"{command} < ."), ("", directory, 3))
        tally.expect(f"{command} <&-", shell(f"{command} <&-"), ("", closed, 3))
    strange = "standard input: refused 1, strange file\n"
    tally.expect("list of nothing", shell("bin/pft list < /dev/null"), ("", strange, 1))
    tally.expect("size of nothing", shell("bin/pft size - < /dev/null"), ("", strange, 1))
    tally.expect("pft-list of nothing", shell("bin/pft-list < /dev/null"), ("refused 1\n", "", 1))
    other = ": cannot be read, its name is not UTF-8\n"
    line = 'bin/pft size "$(printf "\\377")" 2>&1 | tr -d "\\377"'
    tally.expect("size of a name that is not UTF-8", shell(line), (other, "", 0))
    frame = f"standard input: {ACCEPTED}\n"
    tally.expect("run TREE -", shell('bin/pft run "$1" - < "$2"', WEB, GOOD), (frame, "", 0))
    tally.expect("run - FRAME", shell('bin/pft run - "$2" < "$1"', WEB, GOOD), (f"{GOOD}: {ACCEPTED}\n", "", 0))
    twice = "standard input: named twice, and it can be read once\n"
    for command in ("run", "size"):
        wanted = "", twice + usage(f"pft/{command}")[1], 2
        tally.expect(f"{command} - -", run(command, "-", "-"), wanted)


def try_output(tally):
    """A full disk, a closed output, and one that nobody reads any more."""
    full = "standard output: cannot be written, no space is left\n"
    closed = "standard output: cannot be written, it is not open\n"
    tries = {
        "bin/pft list": 'bin/pft list "$1"',
        "bin/pft list -d": 'bin/pft list -d "$1"',
        "bin/pft size": 'bin/pft size "$1" "$1"',
        "bin/pft-list": 'bin/pft-list < "$1"',
        "bin/pft-list, refused": 'bin/pft-list < "$2"',
        "bin/pft run": 'bin/pft run "$1" "$3" "$3"',
    }
    words = [NOT_IP, STRANGE, GOOD]
    for what, line in tries.items():
        tally.expect(f"{what} > /dev/full", shell(f"{line} > /dev/full", *words), ("", full, 3))
        tally.expect(f"{what} >&-", shell(f"{line} >&-", *words), ("", closed, 3))
        tally.expect(f"{what} 2>&-", shell(f"{line} 2>&-", *words)[1], "")
    for words in ("pft --help", "pft list --help", "pft --version", "pft-list --help", "pft-list --version"):
        line = f"bin/{words}"
        tally.expect(f"{line} > /dev/full", shell(f"{line} 2> /dev/null > /dev/full"), ("", "", 3))
    broken = '(sleep 0.3; bin/pft list "$1"; echo $? >&2) | true'
    unread = "standard output: cannot be written, nobody reads it\n"
    tally.expect("list | true", shell(broken, NOT_IP), ("", f"{unread}3\n", 0))


def try_large(tally):
    """What tells that a file is too long is read, and no more."""
    wanted = "standard input: refused 1, strange file\n"
    began = time.monotonic()
    for words in (["list"], ["size", "-"]):
        with tempfile.TemporaryFile() as file:
            file.truncate(5 * GIGABYTE)
            tally.expect(f"{words}, 5 GB", run(*words, stdin=file), ("", wanted, 1))
            tally.expect(f"{words}, 5 GB, how much was read", os.lseek(file.fileno(), 0, os.SEEK_CUR), 4096)
    tally.expect("zeros without end", shell("bin/pft list < /dev/zero"), ("", wanted, 1))
    tally.expect("zeros by pft-list", shell("bin/pft-list < /dev/zero"), ("refused 1\n", "", 1))
    tally.expect("a pipe without end", shell("cat /dev/zero | bin/pft list"), ("", wanted, 1))
    frame = "/dev/zero: refused 10, long frame\n"
    tally.expect("a frame without end", run("run", WEB, "/dev/zero"), ("", frame, 1))
    tally.expect("within a minute", time.monotonic() - began < SECONDS, True)


# ── Files ────────────────────────────────────────────────────────────────────


def try_frames(tally, room):
    """Frames that are refused or cannot be read are passed over; the largest status holds; a name may hold anything."""
    odd = f"{room}/a: dropped, steps 1,  direct.frame"
    shutil.copy(GOOD, odd)
    words = [GOOD, f"{room}/none", room, f"{GOOD}/x", "", LONG, "x" * 300, "x" * 5000, LONGEST, odd, SHORT]
    lines = [
        f"{GOOD}: {ACCEPTED}", f"{LONGEST}: dropped, steps 3, direct reading false", f"{odd}: {ACCEPTED}",
        f"{SHORT}: short, steps 8, direct reading false",
    ]  # fmt: skip
    reasons = [
        f"{room}/none: cannot be read, no such file",
        f"{room}: cannot be read, it is a directory",
        f"{GOOD}/x: cannot be read, a part of its path is not a directory",
        ": cannot be read, no such file",
        f"{LONG}: refused 10, long frame",
        "x" * 300 + ": cannot be read, its name is too long",
        "argument 10: cannot be read, its name is too long",
    ]
    wanted = "\n".join(lines) + "\n", "\n".join(reasons) + "\n", 3
    tally.expect("frames of all sorts", run("run", WEB, *words), wanted)
    some = f"{GOOD}: {ACCEPTED}\n", f"{LONG}: refused 10, long frame\n", 1
    tally.expect("a frame that is refused", run("run", WEB, LONG, GOOD), some)
    far = f"{GOOD}: not run, direct reading false\n", f"{FAR}: refused 8, far jump\n", 1
    tally.expect("a tree with a far jump", run("run", FAR, GOOD), far)
    tally.expect("a strange tree", run("run", STRANGE, GOOD), ("", f"{STRANGE}: refused 1, strange file\n", 1))


def try_sizes(tally, room):
    """Trees that are refused or cannot be read are passed over, the first one too; the largest status holds."""
    odd = f"{room}/a: 2 instructions, 16 bytes.pft"
    shutil.copy(NOT_IP, odd)
    words = [f"{room}/none", WEB, room, f"{WEB}/x", "", FAR, "x" * 300, "x" * 5000, COOKED, STRANGE, GOOD, odd, SENDER]
    lines = [f"{WEB}: {WEB_SIZE}", f"{odd}: {NOT_IP_SIZE}", f"{SENDER}: {SENDER_SIZE}"]
    reasons = [
        f"{room}/none: cannot be read, no such file",
        f"{room}: cannot be read, it is a directory",
        f"{WEB}/x: cannot be read, a part of its path is not a directory",
        ": cannot be read, no such file",
        f"{FAR}: refused 8, far jump",
        "x" * 300 + ": cannot be read, its name is too long",
        "argument 9: cannot be read, its name is too long",
        f"{COOKED}: refused 15, cooked address",
        f"{STRANGE}: refused 1, strange file",
        f"{GOOD}: refused 1, strange file",
    ]
    wanted = "\n".join(lines) + "\n", "\n".join(reasons) + "\n", 3
    tally.expect("sizes of all sorts", run("size", *words), wanted)
    some = f"{WEB}: {WEB_SIZE}\n", f"{FAR}: refused 8, far jump\n", 1
    tally.expect("a size that is refused", run("size", FAR, WEB), some)
    cut = "awk '{ print $(NF - 3) }'"
    help = (ROOT / "bin" / "help" / "pft" / "size.txt").read_text()
    tally.expect("the help's awk", f"| {cut}\n" in help, True)
    tally.expect("counts alone", shell(f'bin/pft size "$1" "$2" | {cut}', odd, WEB), ("5\n11\n", "", 0))


def try_trees(tally, room):
    for command in (["list"], ["list", "-d"], ["size"], ["run"], ["count"]):
        frame = [GOOD] if command[0] in ("run", "count") else []
        for tree, reason in ((f"{room}/none", "no such file"), (room, "it is a directory")):
            message = f"{tree}: cannot be read, {reason}\n"
            tally.expect(f"{command} {tree}", run(*command, tree, *frame), ("", message, 3))
        long = f"argument {1 + len(command)}: cannot be read, its name is too long\n"
        tally.expect(f"{command} of a long name", run(*command, "x" * 5000, *frame), ("", long, 3))


def try_cooked(tally):
    """Ether addresses on LinuxSll: a destination is refused, and read directly all the same; a source is tested."""
    message = f"{COOKED}: refused 15, cooked address\n"
    for words in (["list", COOKED], ["list", "-d", COOKED], ["size", COOKED], ["count", COOKED, CAPTURE]):
        tally.expect(f"{words[0]} of a cooked address", run(*words), ("", message, 1))
    read = f"{SENT}: not run, direct reading true\n", message, 1
    tally.expect("run of a cooked address", run("run", COOKED, SENT), read)
    tally.expect("pft-list of a cooked address", shell('bin/pft-list < "$1"', COOKED), ("refused 15\n", "", 1))
    tally.expect("list of a sender", run("list", SENDER), (SENDER_LISTING, "", 0))
    accepted = f"{SENT}: accepted, steps 7, direct reading true\n", "", 0
    tally.expect("run of a sender", run("run", SENDER, SENT), accepted)


def try_unreadable(tally, room):
    """Root may read every file, so nobody asks there."""
    file = pathlib.Path(room) / "secret.pft"
    shutil.copy(WEB, file)
    file.chmod(0)
    more = {"user": NOBODY} if os.geteuid() == 0 else {}
    wanted = "", f"{file}: cannot be read, permission denied\n", 3
    tally.expect("an unreadable file", run("list", str(file), root=room, **more), wanted)


# ── The scripts ──────────────────────────────────────────────────────────────


def try_usage(tally):
    tries = {
        "pft": [""],
        "pft/list": ["list -x", "list a b", "list a -d"],
        "pft/size": ["size", "size -x", "size -x tree"],
        "pft/run": ["run", "run tree", "run -x frame"],
        "pft/count": ["count", "count tree", "count -x capture"],
    }
    for name, lines in tries.items():
        for words in lines:
            tally.expect(f"pft {words}", run(*words.split()), usage(name))
    for word in ("counts", "-x", "../pft"):
        tally.expect(f"pft {word}", run(word), usage("pft", f"pft: there is no command {word}\n"))
    wanted = usage("pft-list", "pft-list: it takes no words\n")
    tally.expect("pft-list tree", run("tree", name="bin/pft-list"), wanted)


def try_link(tally, room):
    """A symbolic link works from anywhere, and so does a link to it."""
    bin = pathlib.Path(room) / "bin of mine"
    bin.mkdir()
    (bin / "pft").symlink_to(ROOT / "bin" / "pft")
    (bin / "again").symlink_to("pft")
    (bin / "pft-list").symlink_to(ROOT / "pft-list")
    for name in ("pft", "again"):
        tally.expect(f"a link {name}", run("list", NOT_IP, root=bin, name=name, cwd=room), (LISTING, "", 0))
    with open(NOT_IP, "rb") as tree:
        tally.expect("a link pft-list", run(root=bin, name="pft-list", cwd=room, stdin=tree), (LISTING, "", 0))
    path = {"PATH": f"{bin}:{os.environ['PATH']}"}
    done = subprocess.run(["pft", "list", NOT_IP], env=os.environ | path, cwd=room, capture_output=True, text=True)
    tally.expect("a link by PATH", (done.stdout, done.stderr, done.returncode), (LISTING, "", 0))


def copy_sources(room):
    for part in ("bin", "crates"):
        shutil.copytree(ROOT / part, f"{room}/{part}", symlinks=True, ignore=shutil.ignore_patterns("out"))
    os.makedirs(f"{room}/lang/rust")
    for file in ("crates.txt", "lang/rust/Cargo.toml"):
        shutil.copy2(ROOT / file, f"{room}/{file}")


def copy_program(room):
    os.makedirs(f"{room}/target/bin")
    shutil.copy(ROOT / "target/bin/command", f"{room}/target/bin/command")


def try_unmade(tally, room):
    """Help and version come before the program is made."""
    for name in ("pft", "pft/type", "pft/list", "pft/size", "pft/run", "pft/count"):
        words = f"{name[4:]} --help"
        text = (ROOT / "bin" / "help" / f"{name}.txt").read_text()
        tally.expect(f"{words}, not made", run(*words.split(), root=room), (text, "", 0))
    answers, messages, status = run("--version", root=room)
    tally.expect("--version, not made", (answers.split()[0], messages, status), ("pft", "", 0))
    tally.expect("pft-list --help", run("--help", root=room, name="bin/pft-list")[2], 0)
    for name, crate in (("bin/pft", "command"), ("bin/pft-list", "pft_list")):
        words = ["list"] if name == "bin/pft" else []
        answers, messages, status = run(*words, root=room, name=name)
        says = "it is not made yet" in messages and f"`bin/make {crate}`" in messages
        tally.expect(f"{name}, not made", (answers, says, status), ("", True, 2))


def try_older(tally, room):
    """A source that is newer than the program is named, until the program is made again."""
    program = f"{room}/target/bin/command"
    tally.expect("newer than its sources", run("list", NOT_IP, root=room), (LISTING, "", 0))
    for file in ("crates.txt", "crates/emit/src/lib.rt", "crates/bpf/specs/Lib.antt", "crates/vm/proofs"):
        later = time.time() + 10
        os.utime(f"{room}/{file}", (later, later))
        wanted = f"pft: {file} is newer than target/bin/command. In {room}: `bin/make command` makes it anew\n"
        tally.expect(f"older than {file}", run("list", NOT_IP, root=room), ("", wanted, 2))
        os.utime(program, (later + 1, later + 1))
        tally.expect(f"made after {file}", run("list", NOT_IP, root=room), (LISTING, "", 0))
        os.utime(f"{room}/{file}", (1, 1))
        os.utime(program)
    other = f"{room}/crates/sheet/src/main.rt"
    os.utime(other, (time.time() + 10,) * 2)
    tally.expect("a crate that it does not stand on", run("list", NOT_IP, root=room), (LISTING, "", 0))


def try_killed(tally, room):
    """A program that leaves no status: its signal's status, or 3."""
    program = pathlib.Path(f"{room}/target/bin/command")
    for text, wanted in (("kill -9 $$", 137), ("exit 0", 3), ("exit 1", 3)):
        program.write_text(f"#!/bin/sh\n{text}\n")
        tally.expect(f"a program with {text}", run("list", root=room)[2], wanted)


def try_unproved(tally):
    """The first use makes it; each says that nothing is proved."""
    shutil.rmtree(ROOT / "target" / "unproved", ignore_errors=True)
    said = "pft: unproved: nothing of this program was proved\n"
    tally.expect("unproved, made", run("--unproved", "list", NOT_IP), (LISTING, "compiling without proofs\n" + said, 0))
    tally.expect("unproved", run("--unproved", "run", WEB, GOOD), (f"{GOOD}: {ACCEPTED}\n", said, 0))


def main():
    if sys.argv[1:] == ["--help"]:
        return print(__doc__.strip())
    if sys.argv[1:]:
        print("usage: bin/test/command.py", file=sys.stderr)
        sys.exit(2)
    tally = Tally()
    for part in (try_input, try_output, try_large, try_cooked, try_usage, try_unproved):
        part(tally)
    with tempfile.TemporaryDirectory(prefix="pft test ") as room:
        for part in (try_frames, try_sizes, try_trees, try_link):
            part(tally, room)
    with tempfile.TemporaryDirectory(prefix="pft test ") as room:
        os.chmod(room, 0o755)
        copy_sources(room)
        try_unmade(tally, room)
        copy_program(room)
        for part in (try_unreadable, try_older, try_killed):
            part(tally, room)
    print(f"{tally.compared} compared, {tally.differences} differences")
    sys.exit(1 if tally.differences else 0)


if __name__ == "__main__":
    main()
