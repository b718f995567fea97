#!/usr/bin/env python3
"""Loads `pft list --bytecode` into Linux by tc and by iptables, and counts.

bin/test/kernel.py

In a network namespace of its own, on a pair of linked devices: for each sample
tree of Ethernet a tc filter, for each of RawIp an iptables rule, then the sample
frames are sent. The packets that match have to be as many as the frames that
`pft run` accepts. Then the longest program that iptables takes: 64 instructions.
It needs root, python3, ip, unshare, tc, iptables and `bin/make command`. The last
line is `N compared, M differences`; the status is 1 if M is not 0, and 2 if
something is missing.
"""
import os
import pathlib
import re
import shutil
import socket
import subprocess
import sys
import tempfile
import time

sys.dont_write_bytecode = True
ROOT = pathlib.Path(__file__).resolve().parent.parent.parent
sys.path.insert(0, str(ROOT / "samples"))
import make

COMMAND = ROOT / "target" / "bin" / "command"
NEEDED = ["ip", "unshare", "tc", "iptables"]
SENDER, RECEIVER, NOWHERE = "pft0", "pft1", "lo"
ADDRESS = "02:00:00:00:00:01"
ETHERNET_HEADER = 14
XT_BPF_MOST = 64
INSIDE = "PFT_KERNEL_INSIDE"


class Tally:
    compared = differences = 0

    def expect(self, what, here, wanted):
        self.compared += 1
        if here != wanted:
            self.differences += 1
            print(f"{what}: {here!r}, not {wanted!r}")


def say(*words):
    return subprocess.run(words, check=True, stdout=subprocess.PIPE, text=True).stdout


def bytecode(tree):
    return say(COMMAND, "list", "--bytecode", tree).strip()


def accepted(tree, frames):
    return say(COMMAND, "run", tree, *frames).count(": accepted,")


# ── Packets ──────────────────────────────────────────────────────────────────


def devices():
    """A pair that is silent by itself: with IPv6, Linux would send packets of its own."""
    for switch in pathlib.Path("/proc/sys/net/ipv6/conf").glob("*/disable_ipv6"):
        switch.write_text("1")
    say("ip", "link", "add", SENDER, "type", "veth", "peer", "name", RECEIVER, "address", ADDRESS)
    for device in (SENDER, RECEIVER, NOWHERE):
        say("ip", "link", "set", device, "up")
    say("tc", "qdisc", "add", "dev", RECEIVER, "ingress")


def send(frames):
    with socket.socket(socket.AF_PACKET, socket.SOCK_RAW) as sender:
        sender.bind((SENDER, 0))
        for frame in frames:
            sender.send(frame)
    time.sleep(0.1)


def count_by_tc(tree, frames):
    """How many of the frames a filter of tc matches. The action that is counted needs a device to copy to."""
    where = ["dev", RECEIVER, "ingress"]
    action = ["action", "mirred", "egress", "mirror", "dev", NOWHERE]
    say("tc", "filter", "add", *where, "protocol", "all", "bpf", "bytecode", bytecode(tree), "flowid", "1:1", *action)
    send(frames)
    counts = re.search(r"Sent \d+ bytes (\d+) pkt", say("tc", "-s", "filter", "show", *where))
    say("tc", "filter", "del", *where)
    return int(counts[1])


def count_by_iptables(tree, packets):
    """The same of a rule, which sees packets from the network header on."""
    header = make.mac(ADDRESS) + bytes(6) + b"\x08\x00"
    where = ["-t", "raw"]
    say("iptables", *where, "-A", "PREROUTING", "-m", "bpf", "--bytecode", bytecode(tree))
    send([header + packet for packet in packets])
    rule = say("iptables", *where, "-nvxL", "PREROUTING").splitlines()[2]
    say("iptables", *where, "-F")
    return int(rule.split()[0])


# ── Comparisons ──────────────────────────────────────────────────────────────


def try_tc(tally):
    folder = ROOT / "samples" / "ethernet"
    paths = sorted(path for path in folder.glob("*.frame") if path.stat().st_size >= ETHERNET_HEADER)
    frames = [path.read_bytes() for path in paths]
    for tree in sorted(folder.glob("*.pft")):
        tally.expect(f"tc, {tree.name}", count_by_tc(tree, frames), accepted(tree, paths))


def try_iptables(tally):
    """Linux itself drops what is no whole IPv4 packet, so only those are sent."""
    names = [name for name, ((ethertype, _), *_) in make.PACKETS.items() if ethertype == 0x0800]
    paths = [ROOT / "samples" / "rawip" / f"{name}.frame" for name in names]
    for tree in sorted((ROOT / "samples" / "rawip").glob("*.pft")):
        here = count_by_iptables(tree, [path.read_bytes() for path in paths])
        tally.expect(f"iptables, {tree.name}", here, accepted(tree, paths))


def try_longest(tally, room):
    """Hosts joined by or: 5 instructions more for each."""
    for hosts in range(10, 15):
        tree = pathlib.Path(room) / "hosts.pft"
        tree.write_bytes(make.tree_file(make.RAWIP, make.any_of(*[make.host(f"10.0.{i}.1") for i in range(hosts)])))
        line = bytecode(tree)
        count = int(line.split(",")[0])
        words = ["iptables", "-t", "raw", "-A", "PREROUTING", "-m", "bpf", "--bytecode", line]
        taken = subprocess.run(words, stderr=subprocess.DEVNULL).returncode == 0
        tally.expect(f"iptables, {count} instructions", taken, count <= XT_BPF_MOST)


def missing():
    """What is needed and not there."""
    if os.geteuid() != 0:
        return "it has to be root"
    for name in NEEDED:
        if not shutil.which(name):
            return f"there is no {name}"
    return None if COMMAND.is_file() else f"there is no {COMMAND}; `bin/make command` makes it"


def main():
    if sys.argv[1:] == ["--help"]:
        return print(__doc__.strip())
    lack = "usage: bin/test/kernel.py" if sys.argv[1:] else missing()
    if lack:
        print(lack, file=sys.stderr)
        sys.exit(2)
    if INSIDE not in os.environ:
        os.execvpe("unshare", ["unshare", "-n", sys.executable, __file__], os.environ | {INSIDE: "1"})
    tally = Tally()
    try:
        devices()
        try_tc(tally)
        try_iptables(tally)
        with tempfile.TemporaryDirectory() as room:
            try_longest(tally, room)
    except subprocess.CalledProcessError as error:
        print(f"this kernel does not take `{' '.join(map(str, error.cmd[:6]))} ..`", file=sys.stderr)
        sys.exit(2)
    print(f"{tally.compared} compared, {tally.differences} differences")
    sys.exit(1 if tally.differences else 0)


if __name__ == "__main__":
    main()
