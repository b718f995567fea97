#!/usr/bin/env python3
"""Runs `bin/pft` over every sample. It needs python3 and `bin/make command`.

samples/try.py

Every tree is run over every frame of its link. The direct reading has to be
what make.py says of the tree by hand, the verdict the same, but short on some
of the frames that end early. The captures of these frames have to keep as many
as are accepted. A tree's size has to be its listing's count. A line has to give
the file of its tree, and in that file's place the same answers. Then the trees,
lines and captures that are refused. The last line is
`N compared, M differences`; the status is 1 if M is not 0. What the command
does with files and streams is tried by bin/test/command.py, and with captures
of any size by bin/test/captures.py.
"""
import re
import subprocess
import sys

sys.dont_write_bytecode = True
import make

PFT = make.HERE.parent / "bin" / "pft"
LINE = re.compile(r"(.*): (accepted|dropped|short|broken), steps (\d+), direct reading (true|false)")
EARLY = set(make.CUTS) | {"empty"}
LINK_NAMES = {make.ETHERNET: "ethernet", make.RAWIP: "raw", make.SLL: "cooked"}
# How many characters of a line are shown.
SHOWN = 72
# What is refused with these is read directly all the same.
READ_DIRECTLY = (5, 6, 7, 8, 15)
WORDS = {
    1: "strange file", 2: "wrong count", 3: "bad record", 4: "not one tree", 5: "kind on raw", 6: "port protocol",
    7: "ether on raw", 8: "far jump", 12: "no capture", 13: "other link", 14: "cut frame", 15: "cooked address",
    16: "unknown word", 17: "unfinished", 18: "too large",
}  # fmt: skip


class Tally:
    compared = differences = 0

    def expect(self, what, here, wanted):
        self.compared += 1
        if here != wanted:
            self.differences += 1
            print(f"{what}: {here!r}, not {wanted!r}")


def run(*words):
    """Lines of answers, lines of messages, exit status. It ends where the command is not made or too old."""
    done = subprocess.run([PFT, *words], capture_output=True, text=True)
    if done.returncode == 2:
        sys.stderr.write(done.stderr)
        sys.exit(2)
    return done.stdout.splitlines(), done.stderr.splitlines(), done.returncode


def verdict_of(name, truth, verdict):
    """The verdict that is wanted; a frame that ends early may be short."""
    if name in EARLY and verdict == "short":
        return verdict
    return "accepted" if truth else "dropped"


def try_tree(tally, folder, tree, names, true_of):
    path = f"{folder}/{tree}.pft"
    lines, messages, status = run("run", path, *[f"{folder}/{name}.frame" for name in names])
    tally.expect(f"{path}, messages and status", (messages, status), ([], 0))
    tally.expect(f"{path}, lines", len(lines), len(names))
    for name, line in zip(names, lines):
        found = LINE.fullmatch(line)
        truth = name in true_of
        verdict = verdict_of(name, truth, found[2]) if found else ""
        here = found and (found[1], found[2], found[4])
        tally.expect(f"{path} on {name}", here, (f"{folder}/{name}.frame", verdict, str(truth).lower()))
    return sum(": accepted, " in line for line in lines)


def try_captures(tally, folder, tree, kept, given):
    """The frames of a folder in captures: as many are kept as `pft run` accepts one by one."""
    files = sorted(map(str, folder.glob("all*.pcap")))
    lines = [f"{file}: kept {kept} of {given} frames" for file in files]
    tally.expect(f"{folder}/{tree}.pft on captures", run("count", f"{folder}/{tree}.pft", *files), (lines, [], 0))


def try_trees(tally):
    for tree, (links, _, _) in make.TREES.items():
        for link in links:
            names = list(make.frames(link))
            wanted = make.true_of(tree, link)
            assert set(wanted) <= set(names), tree
            folder = make.HERE / make.FOLDERS[link]
            kept = try_tree(tally, folder, tree, names, wanted)
            try_captures(tally, folder, tree, kept, len(names))


def size_of(path):
    """Instructions and bytes, by the listing's first line."""
    count = int(run("list", path)[0][0])
    return f"{count} instructions, {8 * count} bytes"


def try_sizes(tally):
    """The trees of each link by one command."""
    for link, folder in make.FOLDERS.items():
        files = [f"{make.HERE / folder}/{tree}.pft" for tree, (links, _, _) in make.TREES.items() if link in links]
        lines = [f"{file}: {size_of(file)}" for file in files]
        tally.expect(f"{folder}, sizes", run("size", *files), (lines, [], 0))


def try_line(tally, name, link):
    """The file of a line, and each command with the line in the file's place."""
    folder = make.HERE / make.FOLDERS[link]
    tree, line = folder / f"{name}.pft", make.LINES[name]
    for words in ((LINK_NAMES[link], line), (str(link), line)):
        done = subprocess.run([PFT, "type", *words], capture_output=True)
        here = (done.stdout, done.stderr, done.returncode)
        tally.expect(f"pft type {words}", here, (tree.read_bytes(), b"", 0))
    frames = sorted(map(str, folder.glob("*.frame")))
    for command, files in (("list", []), ("run", frames), ("count", [str(folder / "all.pcap")])):
        typed = run(command, "--type", *words, *files)
        tally.expect(f"pft {command} --type {words}", typed, run(command, str(tree), *files))
    tally.expect(f"pft size --type {words}", run("size", "--type", *words), ([f"{line}: {size_of(tree)}"], [], 0))


def try_lines(tally):
    for name in make.LINES:
        for link in make.TREES[name][0]:
            try_line(tally, name, link)


def told(number, place, follows, line):
    """What is said of a line that is refused: a mark stands under the place, where it has one."""
    message = f"refused {number}, {WORDS[number]}"
    if place is None:
        shown = line[:SHOWN] + "..." * (len(line) > SHOWN)
        return [shown, f"{message}: over 128 records or over 128 brackets open at once"]
    return [line, " " * place + "^", f"{message}, at byte {place}; here could follow: {follows}"]


def try_refused_lines(tally):
    frame = str(make.HERE / "ethernet" / "tcp80.frame")
    for refused in make.REFUSED_LINES.values():
        wanted, line = ([], told(*refused), 1), refused[-1]
        tally.expect(f"pft type {line!r}", run("type", "ethernet", line), wanted)
        tally.expect(f"pft run --type {line!r}", run("run", "--type", "ethernet", line, frame), wanted)


def try_refused(tally):
    """Tcp80's direct reading is true of the trees that are refused with 5, 6, 7 and 15, and false of the far one."""
    for tree, (number, _) in make.REFUSED.items():
        path = str(make.HERE / "refused" / f"{tree}.pft")
        folder = {"raw": "rawip", "cooked": "linuxsll"}.get(tree.split("_")[0], "ethernet")
        frame = str(make.HERE / folder / "tcp80.frame")
        truth = "false" if number == 8 else "true"
        lines = [f"{frame}: not run, direct reading {truth}"] if number in READ_DIRECTLY else []
        message = f"{path}: refused {number}, {WORDS[number]}"
        tally.expect(path, run("run", path, frame), (lines, [message], 1))
        tally.expect(f"{path}, count", run("count", path, frame), ([], [message], 1))
        tally.expect(f"{path}, size", run("size", path), ([], [message], 1))


def try_refused_captures(tally):
    tree = str(make.HERE / "ethernet" / "web.pft")
    for name, (number, kept, given, end, _) in make.refused_captures().items():
        path = str(make.HERE / "refused" / name)
        lines = [f"{path}: kept {kept} of the first {given} frames"] if number == 14 else []
        message = f"{path}: refused {number}, {WORDS[number]}{end}"
        tally.expect(path, run("count", tree, path), (lines, [message], 1))


def main():
    if sys.argv[1:] == ["--help"]:
        return print(__doc__.strip())
    if sys.argv[1:]:
        print("usage: samples/try.py", file=sys.stderr)
        sys.exit(2)
    tally = Tally()
    for part in (try_trees, try_sizes, try_lines, try_refused, try_refused_lines, try_refused_captures):
        part(tally)
    print(f"{tally.compared} compared, {tally.differences} differences")
    sys.exit(1 if tally.differences else 0)


if __name__ == "__main__":
    main()
