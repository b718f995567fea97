#!/usr/bin/env python3
"""Tries what bin/pft does with typed lines: their trees, their faults, and `--type` in a tree file's place.

bin/test/lines.py

It needs python3, and `bin/make command` made before. Answers, messages and exit
status of each try have to be the ones that stand here. The last line is
`N compared, M differences`; the status is 1 if M is not 0.
"""
import pathlib
import sys
import tempfile

sys.dont_write_bytecode = True
from command import ACCEPTED, CAPTURE, GOOD, LISTING, NOT_IP, NOT_IP_SIZE, ROOT, SAMPLES, WEB, Tally, run, shell, usage

ALL = str(SAMPLES / "ethernet" / "all.pcap")
RAW = str(SAMPLES / "rawip" / "tcp80.frame")
# The line of the sample WEB.
WEB_LINE = "tcp and tcp dst port 80"

QUOTES = "the line is one argument: put it in quotes\n"
LINKS = "no link; the links are ethernet (1), raw (2) and cooked (3)"
LARGE = "refused 18, too large: over 128 records or over 128 brackets open at once"
WORDS = {16: "unknown word", 17: "unfinished"}
# What could follow: at a condition's start, behind one, behind one in brackets, behind tcp.
START = "ip ip6 arp rarp icmp tcp udp sctp host port src dst ( not"
BEHIND = "and or, the end"
WITHIN = ") and or"
BEHIND_TCP = "port src dst and or, the end"
# The longest argument that Linux passes.
LONGEST = 131071


def tree(link, *records):
    """A tree file; of each record the bytes up to the last that is not zero, in hex."""
    body = b"".join(bytes.fromhex(record).ljust(24, b"\0") for record in records)
    return b"PFT\0\1" + bytes([link, 0, len(records)]) + body


def typed(*words):
    """What `pft type` writes, as bytes, with messages and status."""
    with tempfile.TemporaryFile() as file:
        _, messages, status = run("type", *words, stdout=file)
        file.seek(0)
        return file.read(), messages, status


def fault(shown, mark, number, place, followers):
    """What is said of a line with a fault."""
    said = f"refused {number}, {WORDS[number]}, at byte {place}; here could follow: {followers}"
    return "", f"{shown}\n{' ' * mark}^\n{said}\n", 1


# ── Trees ────────────────────────────────────────────────────────────────────

TREES = {
    "ip": ["0a0001"],
    "ip6": ["0a0002"],
    "arp": ["0a0003"],
    "rarp": ["0a0004"],
    "tcp": ["0a0005"],
    "udp": ["0a0006"],
    "icmp": ["0a0007"],
    "sctp": ["0a000a"],
    "host 10.0.0.1": ["0b000000000000000a000001"],
    "src host 0.0.0.0": ["0b01"],
    "dst host 255.255.255.255": ["0b02000000000000ffffffff"],
    "port 0": ["0f"],
    "src port 53": ["0f0100000035"],
    "dst port 65535": ["0f020000ffff"],
    "tcp port 80": ["0f0005000050"],
    "udp src port 80": ["0f0106000050"],
    "sctp dst port 80": ["0f020a000050"],
    "tcp and port 80": ["01", "0a0005", "0f0000000050"],
    "ip or udp and port 53": ["01", "02", "0a0001", "0a0006", "0f0000000035"],
    "ip or ( udp and port 53 )": ["02", "0a0001", "01", "0a0006", "0f0000000035"],
    "not ip and tcp": ["01", "03", "0a0001", "0a0005"],
    "not ( ip and tcp )": ["03", "01", "0a0001", "0a0005"],
    "  not   not ( ( ip ) ) ": ["03", "03", "0a0001"],
}


def try_trees(tally):
    """Each line on each link, by number and by name."""
    for link, name in enumerate(("ethernet", "raw", "cooked"), 1):
        for line, records in TREES.items():
            wanted = tree(link, *records), "", 0
            tally.expect(f"type {name} {line}", typed(name, line), wanted)
        tally.expect(f"type {link}", typed(str(link), line), wanted)
    tally.expect("the sample", typed("ethernet", WEB_LINE)[0], pathlib.Path(WEB).read_bytes())
    spaces = "ip" + " " * (LONGEST - 2)
    tally.expect("the longest line", typed("ethernet", spaces), (tree(1, "0a0001"), "", 0))


def try_sizes(tally):
    """128 records and 128 brackets, and one more; no line of a fault is too large."""
    most = tree(1, *["01"] * 63, *["0a0001"] * 64)
    tally.expect("127 records", typed("1", " and ".join(["ip"] * 64)), (most, "", 0))
    most = tree(1, "03", *["01"] * 63, *["0a0001"] * 64)
    tally.expect("128 records", typed("1", "not ( " + " and ".join(["ip"] * 64) + " )"), (most, "", 0))
    tally.expect("128 brackets", typed("1", "( " * 128 + "ip" + " )" * 128), (tree(1, "0a0001"), "", 0))
    for what, line, shown in (
        ("129 records", " or ".join(["udp"] * 65), "udp or udp or udp or udp or udp or udp or udp or udp or udp or udp or ud"),
        ("129 records, nots", "not " * 128 + "ip", "not " * 18),
        ("129 brackets", "( " * 129 + "ip" + " )" * 129, "( " * 36),
        ("many of both", "( " * 900 + "ip" + " ) or ip" * 900, "( " * 36),
    ):
        tally.expect(what, run("type", "1", line), ("", f"{shown}...\n{LARGE}\n", 1))
    open_at_end = fault("..." + "( " * 35 + "ip", 75, 17, 402, WITHIN)
    tally.expect("200 brackets, not closed", run("type", "1", "( " * 200 + "ip"), open_at_end)
    long = fault("...nd " + "ip and " * 9 + "ip  xy", 73, 16, 697, BEHIND)
    tally.expect("200 records and a fault", run("type", "1", "ip and " * 99 + "ip  xy"), long)


# ── Faults ───────────────────────────────────────────────────────────────────

FAULTS = [
    ("tcp and prot 80", 16, 8, START),
    ("prot 80", 16, 0, START),
    ("TCP", 16, 0, START),
    ("(ip)", 16, 0, START),
    ("tcp and port http", 16, 13, "a port number"),
    ("port 65536", 16, 5, "a port number"),
    ("port 080", 16, 5, "a port number"),
    ("host 300.1.1.1", 16, 5, "an address"),
    ("host 10.0.0.01", 16, 5, "an address"),
    ("net 10.0.0.0/8", 16, 0, START),
    ("ip && tcp", 16, 3, BEHIND),
    ("ip and tcp port 80 ;", 16, 19, BEHIND),
    ("", 17, 0, START),
    ("   ", 17, 3, START),
    ("80", 17, 0, START),
    ("and ip", 17, 0, START),
    ("ip and", 17, 6, START),
    ("ip and  ", 17, 8, START),
    ("not", 17, 3, START),
    ("( )", 17, 2, START),
    ("( ip", 17, 4, WITHIN),
    ("( tcp", 17, 5, "port src dst ) and or"),
    ("ip )", 17, 3, BEHIND),
    ("ip tcp", 17, 3, BEHIND),
    ("icmp port 80", 17, 5, BEHIND),
    ("port 80 or 443", 17, 11, START),
    ("port 80 443", 17, 8, BEHIND),
    ("tcp 80 ", 17, 4, BEHIND_TCP),
    ("udp host 10.0.0.1", 17, 4, BEHIND_TCP),
    ("sctp dst host 10.0.0.1", 17, 9, "port"),
    ("src 10.0.0.1", 17, 4, "host port"),
    ("dst", 17, 3, "host port"),
    ("host 80", 17, 5, "an address"),
    ("host", 17, 4, "an address"),
    ("tcp dst port 10.0.0.1", 17, 13, "a port number"),
    ("port ", 17, 5, "a port number"),
]

# Bytes that a terminal would take otherwise, and what is shown of them.
BYTES = [
    (b"ip \tand", "ip ?and"),
    (b"ip \x01\x1b[31m\x7f\n", "ip ??[31m??"),
    ("ip ü€😀 and".encode(), "ip ü€😀 and"),
    ("ip \u009b31m \u00a0".encode(), "ip ?31m \u00a0"),
    (b"ip \xff \x80 \xc3", "ip ? ? ?"),
    (b"ip \xe2\x82 \xf0\x9f\x98", "ip ?? ???"),
    (b"ip \xc0\xaf \xe0\x9f\xbf \xf0\x8f\xbf\xbf", "ip ?? ??? ????"),
    (b"ip \xed\x9f\xbf \xed\xa0\x80", "ip \ud7ff ???"),
    (b"ip \xf4\x8f\xbf\xbf \xf4\x90\x80\x80 \xf5", "ip \U0010ffff ???? ?"),
]

# Long lines of one fault: its place, what is shown, and the mark's column.
LONG = [
    ("ip and " * 9 + "ip or xyz", 69, "ip and " * 9 + "ip or xyz", 69),
    ("ip and " * 9 + "ip or wxyz", 69, "...p and " + "ip and " * 8 + "ip or wxyz", 71),
    ("ip and " * 10 + "xyz", 70, "...p and " + "ip and " * 9 + "xyz", 72),
    ("xyz " + "ip and " * 20, 0, "xyz " + "ip and " * 9 + "ip an...", 0),
    ("ip and " * 20 + "xyz " + "ip and " * 20, 140, "... " + "ip and " * 5 + "xyz " + "ip and " * 4 + "ip a...", 39),
    ("ip and " * 20 + "ü" * 99, 140, "... " + "ip and " * 5 + "ü" * 36 + "...", 39),
    ("ip and " * 20 + "ü" * 36, 140, "... " + "ip and " * 5 + "ü" * 36, 39),
]


def try_faults(tally):
    for line, number, place, followers in FAULTS:
        wanted = fault(line, place, number, place, followers)
        tally.expect(f"type {line!r}", run("type", "ethernet", line), wanted)
    for line, shown in BYTES:
        tally.expect(f"type {line}", run("type", "raw", line), fault(shown, 3, 16, 3, BEHIND))
    for line, place, shown, mark in LONG:
        tally.expect(f"type {line}", run("type", "cooked", line), fault(shown, mark, 16, place, START))
    longest = "ip" + " " * (LONGEST - 6) + "prot"
    wanted = fault("..." + " " * 68 + "prot", 71, 16, LONGEST - 4, BEHIND)
    tally.expect("the longest line with a fault", run("type", "1", longest), wanted)


# ── In a tree file's place ───────────────────────────────────────────────────


def try_list(tally):
    bytecode = "5,40 0 0 12,21 0 1 2048,5 0 0 1,6 0 0 4294967295,6 0 0 0\n"
    tally.expect("list --type", run("list", "--type", "ethernet", "not ip"), (LISTING, "", 0))
    words = ["list", "--bytecode", "--type", "1", "not ip"]
    tally.expect("list --bytecode --type", run(*words), (bytecode, "", 0))
    for form in ("-d", "-dd"):
        tally.expect(f"list {form} --type", run("list", form, "--type", "1", "not ip"), run("list", form, NOT_IP))
    pipe = 'bin/pft type ethernet "$1" | bin/pft list -'
    tally.expect("type | list -", shell(pipe, "not ip"), (LISTING, "", 0))
    messages = fault("nut ip", 0, 16, 0, START)[1] + "standard input: refused 1, strange file\n"
    tally.expect("type | list - of a fault", shell(pipe, "nut ip"), ("", messages, 1))


def try_size(tally):
    tally.expect("size --type", run("size", "--type", "ethernet", "not ip"), (f"not ip: {NOT_IP_SIZE}\n", "", 0))
    pipe = 'bin/pft type ethernet "$1" | bin/pft size -'
    tally.expect("type | size -", shell(pipe, "not ip"), (f"standard input: {NOT_IP_SIZE}\n", "", 0))
    long = ["--type", "1", " or ".join(["ip"] * 13)]
    count = int(run("list", *long)[0].split()[0])
    size = "ip or " * 12 + f"...: {count} instructions, {8 * count} bytes\n"
    tally.expect("size of a longer line", run("size", *long), (size, "", 0))


def try_files(tally):
    """Frames and captures, from files and from standard input."""
    accepted, kept = f"{GOOD}: {ACCEPTED}\n", f"{ALL}: kept 2 of 21 frames\n"
    typed = ["--type", "ethernet", WEB_LINE]
    tally.expect("run --type", run("run", *typed, GOOD, GOOD), (accepted * 2, "", 0))
    tally.expect("count --type", run("count", *typed, ALL), (kept, "", 0))
    pipe = 'bin/pft type ethernet "$1" | bin/pft'
    tally.expect("type | run -", shell(f'{pipe} run - "$2"', WEB_LINE, GOOD), (accepted, "", 0))
    tally.expect("type | count -", shell(f'{pipe} count - "$2"', WEB_LINE, ALL), (kept, "", 0))
    line = 'bin/pft run --type 1 "$1" - < "$2"'
    tally.expect("run --type -", shell(line, WEB_LINE, GOOD), (f"standard input: {ACCEPTED}\n", "", 0))
    line = 'bin/pft count --type 1 "$1" "$2" - < "$2"'
    wanted = kept + "standard input: kept 2 of 21 frames\n"
    tally.expect("count --type CAPTURE -", shell(line, WEB_LINE, ALL), (wanted, "", 0))
    twice = "standard input: named twice, and it can be read once\n"
    for command in ("run", "count"):
        wanted = "", twice + usage(f"pft/{command}")[1], 2
        tally.expect(f"{command} - -", run(command, *typed, "-", "-"), wanted)
        wanted = fault("-", 0, 16, 0, START)
        tally.expect(f"{command}, a line -", run(command, "--type", "1", "-", "-"), wanted)
    other = f"{ALL}: refused 13, other link, the tree is for LinuxSll (113)\n"
    words = ["count", "--type", "cooked", "ip", ALL, CAPTURE]
    tally.expect("count of another link", run(*words), (f"{CAPTURE}: kept 18 of 25 frames\n", other, 1))


def try_refused(tally):
    """A line whose tree has no program is its name. One with a fault ends the work before any file is read."""
    raw = "arp or tcp: refused 5, kind on raw\n"
    line = ["--type", "raw", "arp or tcp"]
    tally.expect("list of arp on raw", run("list", *line), ("", raw, 1))
    tally.expect("size of arp on raw", run("size", *line), ("", raw, 1))
    tally.expect("count of arp on raw", run("count", *line, "none"), ("", raw, 1))
    read = f"{RAW}: not run, direct reading true\n"
    tally.expect("run of arp on raw", run("run", *line, RAW), (read, raw, 1))
    far = "port 80 or " * 6 + "port 8...: refused 8, far jump\n"
    for command in ("list", "size"):
        words = [command, "--type", "1", " or ".join(["port 80"] * 64)]
        tally.expect(f"{command} of a far jump", run(*words), ("", far, 1))
    wanted = fault("ip or", 5, 17, 5, START)
    for command in (["list"], ["list", "-d"], ["size"], ["run"], ["count"]):
        files = ["none"] if command[0] in ("run", "count") else []
        tally.expect(f"{command} of a fault", run(*command, "--type", "1", "ip or", *files), wanted)


# ── Usage and streams ────────────────────────────────────────────────────────


def try_usage(tally):
    for words in ("type", "type ethernet", "list --type", "list --type raw", "list -d --type raw", "size --type",
                  "size --type raw", "run --type", "run --type raw", "run --type raw ip", "count --type raw ip",
                  "list -d -dd --type raw ip"):  # fmt: skip
        tally.expect(words, run(*words.split()), usage(f"pft/{words.split()[0]}"))
    for words in ("type ethernet tcp and port 80", "list --type 1 tcp and port 80", "list --type 1 ip -d",
                  "size --type 1 tcp and port 80", "size --type 1 ip tree"):  # fmt: skip
        tally.expect(words, run(*words.split()), usage(f"pft/{words.split()[0]}", QUOTES))
    for link in ("0", "4", "01", "eth0", "Ethernet", "", "-"):
        tally.expect(f"type {link!r}", run("type", link, "ip"), usage("pft/type", f"{link}: {LINKS}\n"))
    wanted = usage("pft/run", f"tcp: {LINKS}\n")
    tally.expect("link and line exchanged", run("run", "--type", "tcp", "ethernet", GOOD), wanted)


def try_output(tally):
    full = "standard output: cannot be written, no space is left\n"
    closed = "standard output: cannot be written, it is not open\n"
    tally.expect("type > /dev/full", shell("bin/pft type 1 ip > /dev/full"), ("", full, 3))
    tally.expect("type >&-", shell("bin/pft type 1 ip >&-"), ("", closed, 3))
    tally.expect("type of a fault 2>&-", shell("bin/pft type 1 up 2>&-"), ("", "", 1))
    tally.expect("type of a fault > /dev/full", shell("bin/pft type 1 up > /dev/full")[2], 1)
    help = (ROOT / "bin" / "help" / "pft" / "type.txt").read_text()
    tally.expect("type --help", run("type", "--help"), (help, "", 0))
    for line in ("port http\n     ^\n", "refused 16, unknown word, at byte 5; here could follow: a port number\n"):
        tally.expect("the help's fault", line in help.replace("\n  ", "\n"), True)
        tally.expect("the help's fault, as said", line in run("type", "1", "port http")[1], True)


def main():
    if sys.argv[1:] == ["--help"]:
        return print(__doc__.strip())
    if sys.argv[1:]:
        print("usage: bin/test/lines.py", file=sys.stderr)
        sys.exit(2)
    tally = Tally()
    for part in (try_trees, try_sizes, try_faults, try_list, try_size, try_files, try_refused, try_usage, try_output):
        part(tally)
    print(f"{tally.compared} compared, {tally.differences} differences")
    sys.exit(1 if tally.differences else 0)


if __name__ == "__main__":
    main()
