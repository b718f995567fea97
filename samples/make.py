#!/usr/bin/env python3
"""Makes the sample lines, tree files, frames and captures of this folder. It needs python3.

samples/make.py           writes them, and the copies that the test programs use
samples/make.py --check   compares what is there; ends with 1 if a file differs

Below, a tree is said by constructors and a frame is put together from its
headers. Beside each tree stand the frames of which it is true, by hand, beside
some the line that is typed for it, and beside each line or capture that is
refused how far it is read: samples/try.py asks bin/pft.
"""
import ipaddress
import pathlib
import sys

sys.dont_write_bytecode = True
HERE = pathlib.Path(__file__).resolve().parent
sys.path.insert(0, str(HERE.parent / "tools" / "oracle"))
from trees import AND, BOTH, DESTINATION, EITHER, ETHERNET, NOT, OR, RAWIP, SLL, SOURCE
from trees import half, header, record

IP, IP6, ARP, TCP, UDP, ICMP, ICMP6, IGMP, SCTP, NUM = 1, 2, 3, 5, 6, 7, 8, 9, 10, 11
FOLDERS = {ETHERNET: "ethernet", RAWIP: "rawip", SLL: "linuxsll"}
NETWORK_START = {ETHERNET: 14, RAWIP: 0, SLL: 16}

# ── Trees: lists of records in prefix order ──────────────────────────────────


def joined(kind, first, *rest):
    """First and the others, from the left."""
    tree = first
    for part in rest:
        tree = [record(kind)] + tree + part
    return tree


def all_of(*parts):
    return joined(AND, *parts)


def any_of(*parts):
    return joined(OR, *parts)


def no(part):
    return [record(NOT)] + part


def protocol(p, number=0):
    return [record(10, protocol=p, small=number)]


def packed(address):
    return ipaddress.ip_address(address).packed


def host(address, direction=EITHER):
    data = packed(address)
    return [record(11 if len(data) == 4 else 12, direction, address=data)]


def net4(net, direction=EITHER):
    n = ipaddress.IPv4Network(net)
    return [record(13, direction, address=n.network_address.packed + n.netmask.packed)]


def net6(net, direction=EITHER):
    n = ipaddress.IPv6Network(net)
    return [record(14, direction, small=n.prefixlen, address=n.network_address.packed)]


def port(number, direction=EITHER, protocol=0):
    return [record(15, direction, protocol, numbers=half(number))]


def ports(low, high, direction=EITHER, protocol=0):
    return [record(16, direction, protocol, numbers=half(low) + half(high))]


def ether_host(address, direction=EITHER):
    return [record(17, direction, address=mac(address))]


def ether_protocol(number):
    return [record(18, numbers=half(number))]


ETHER_MULTICAST, IP_BROADCAST, IP_MULTICAST, IP6_MULTICAST = ([record(kind)] for kind in (19, 20, 21, 22))


def chain4(number):
    return [record(23, small=number)]


def chain6(number):
    return [record(24, small=number)]


def tree_file(link, tree):
    return header(link, len(tree)) + b"".join(tree)


# ── Frames ───────────────────────────────────────────────────────────────────

STATION, DRIVE = "02:00:00:00:00:01", "02:00:00:00:00:05"
# Linux's numbers for kinds of devices.
ETHERNET_DEVICE, FIREWIRE_DEVICE, LOOPBACK_DEVICE, GRE_DEVICE, BARE_DEVICE = 1, 24, 772, 778, 65534


def mac(text):
    return bytes.fromhex(text.replace(":", ""))


def padded(data):
    """Filled up, so that every frame reaches 64 bytes past its network start."""
    return data.ljust(64, b"\0")


def checksum(data):
    total = sum(int.from_bytes(data[i : i + 2], "big") for i in range(0, len(data), 2))
    while total > 0xFFFF:
        total = total % 0x10000 + total // 0x10000
    return half(0xFFFF - total)


def ipv4(number, source, destination, data, options=b"", offset=0):
    """The offset is in units of eight bytes."""
    length = 20 + len(options)
    front = bytes([0x40 + length // 4, 0]) + half(length + len(data))
    front += half(1) + half(offset) + bytes([64, number])
    back = packed(source) + packed(destination) + options
    return 0x0800, padded(front + checksum(front + back) + back + data)


def ipv6(number, source, destination, data):
    front = bytes([0x60, 0, 0, 0]) + half(len(data)) + bytes([number, 64])
    return 0x86DD, padded(front + packed(source) + packed(destination) + data)


# The checksums of what IP carries are left zero.
def tcp(source, destination):
    return half(source) + half(destination) + bytes(8) + bytes([0x50, 0x02]) + half(65535) + bytes(4)


def udp(source, destination, data=b"data"):
    return half(source) + half(destination) + half(8 + len(data)) + half(0) + data


def arp(source, destination):
    sides = mac(STATION) + packed(source) + bytes(6) + packed(destination)
    return 0x0806, padded(half(1) + half(0x0800) + bytes([6, 4]) + half(1) + sides)


def cooked(packet, device, address):
    """A packet with Linux's cooked header, which has the sender alone: kind of packet
    (to us), kind of device, length of the address, the address in eight bytes."""
    ethertype, data = packet
    return half(0) + half(device) + half(len(address)) + address.ljust(8, b"\0") + half(ethertype) + data


def framed(link, packet, to=DRIVE):
    """A packet with the header of its link."""
    ethertype, data = packet
    if link == ETHERNET:
        return mac(to) + mac(STATION) + half(ethertype) + data
    return cooked(packet, ETHERNET_DEVICE, mac(STATION)) if link == SLL else data


A, B, DNS = "10.0.0.1", "10.20.0.5", "10.20.0.53"
A6, B6, DNS6 = "2001:db8::1", "2001:db8:0:1::5", "2001:db8::53"
WEB = ipv4(6, A, B, tcp(40000, 80))

# Name: packet, and where it goes to on Ethernet.
PACKETS = {
    "tcp80": (WEB, DRIVE),
    "tcp80_options": (ipv4(6, A, B, tcp(40000, 80), options=bytes(8)), DRIVE),
    "tcp80_fragment": (ipv4(6, A, B, tcp(40000, 80), offset=185), DRIVE),
    "tcp6_80": (ipv6(6, A6, B6, tcp(40000, 80)), DRIVE),
    "udp53": (ipv4(17, A, DNS, udp(53000, 53)), DRIVE),
    "udp6_53": (ipv6(17, A6, DNS6, udp(53000, 53)), DRIVE),
    "drive": (ipv4(17, "10.20.3.7", "10.20.0.2", udp(5001, 5001)), DRIVE),
    "drive_service": (ipv4(17, "10.20.0.99", "10.20.0.2", udp(5001, 5001)), DRIVE),
    "drive6": (ipv6(17, "2001:db8:3::7", "2001:db8::2", udp(5009, 5000)), DRIVE),
    "modbus": (ipv4(6, A, B, tcp(40001, 502)), DRIVE),
    "sctp": (ipv4(132, A, B, half(2905) + half(2905) + bytes(8)), DRIVE),
    "icmp": (ipv4(1, A, B, bytes([8, 0]) + bytes(6)), DRIVE),
    "icmp6": (ipv6(58, "fe80::1", "ff02::1", bytes([134, 0]) + bytes(14)), "33:33:00:00:00:01"),
    "igmp": (ipv4(2, A, "224.0.0.22", bytes([0x22, 0]) + bytes(6)), "01:00:5e:00:00:16"),
    "mdns": (ipv4(17, A, "224.0.0.251", udp(5353, 5353)), "01:00:5e:00:00:fb"),
    "broadcast": (ipv4(17, "0.0.0.0", "255.255.255.255", udp(68, 67)), "ff:ff:ff:ff:ff:ff"),
    "arp": (arp(A, B), "ff:ff:ff:ff:ff:ff"),
    "lldp": ((0x88CC, padded(bytes([2, 7, 4]) + mac(STATION))), "01:80:c2:00:00:0e"),
}

# The packet of icmp from devices that only cooked captures have, with the sender's address: of six
# bytes, of none, of four, and one of eight that begins as STATION does.
COOKED = {
    "loopback": (LOOPBACK_DEVICE, bytes(6)),
    "tun": (BARE_DEVICE, b""),
    "gre": (GRE_DEVICE, packed(A)),
    "firewire": (FIREWIRE_DEVICE, mac(STATION) + bytes([0, 5])),
}

# Frames that end early: tcp80 before the network header's end, and before its second port byte.
CUTS = {"cut_header": 9, "cut_port": 23}


def frames(link):
    """The frames of a link. RawIp has IP packets alone."""
    made = {name: framed(link, packet, to) for name, (packet, to) in PACKETS.items()}
    if link == RAWIP:
        del made["arp"], made["lldp"]
    if link == SLL:
        icmp, _ = PACKETS["icmp"]
        made |= {name: cooked(icmp, device, address) for name, (device, address) in COOKED.items()}
    for name, length in CUTS.items():
        made[name] = made["tcp80"][: NETWORK_START[link] + length]
    made["empty"] = b""
    return made


# ── The trees, and of which frames each is true ──────────────────────────────

EVERY = (ETHERNET, SLL, RAWIP)
TYPED = (ETHERNET, SLL)
TO_B = f"tcp80 tcp80_options tcp80_fragment modbus sctp icmp cut_port {' '.join(COOKED)}"
TO_DRIVE = "tcp80 tcp80_options tcp80_fragment tcp6_80 udp53 udp6_53 drive drive_service drive6 modbus sctp icmp"
TO_DRIVE += " cut_header cut_port"
FROM_STATION = TO_DRIVE + " icmp6 igmp mdns broadcast arp lldp"
MULTICASTS = any_of(ETHER_MULTICAST, IP_MULTICAST, IP6_MULTICAST)
WEB_TREE = all_of(protocol(TCP), port(80, DESTINATION, TCP))
DRIVES = any_of(
    all_of(
        net4("10.20.0.0/16", BOTH),
        protocol(UDP),
        ports(5000, 5009, BOTH, UDP),
        no(host("10.20.0.99")),
        no(IP_BROADCAST),
    ),
    all_of(net6("2001:db8::/32", BOTH), ports(5000, 5009, BOTH, UDP), no(IP6_MULTICAST)),
    all_of(protocol(TCP), port(502, DESTINATION, TCP)),
    all_of(protocol(ARP), no(ether_host(DRIVE, SOURCE))),
)


def far(last):
    """The commissioning sheet's tree whose first jump goes 255 instructions far, or 256."""
    hosts = [host("::", BOTH)] * 6 + [host("::", last)]
    return all_of(*[ETHER_MULTICAST] * 7, host("::", SOURCE), *hosts)


CREW = all_of(
    no(host("10.20.0.99")), any_of(port(5001, EITHER, UDP), port(502, DESTINATION, TCP), protocol(ICMP))
)

# Name: links, tree, the frames of which it is true.
TREES = {
    "web": (EVERY, WEB_TREE, "tcp80 tcp80_options"),
    "dns": (EVERY, port(53), "udp53 udp6_53"),
    "not_ip": (TYPED, no(protocol(IP)), "tcp6_80 udp6_53 drive6 icmp6 arp lldp empty"),
    "host": (EVERY, host(B, DESTINATION), TO_B),
    "host6": (TYPED, host(A6, SOURCE), "tcp6_80 udp6_53"),
    "net": (EVERY, net4("10.20.0.0/16", BOTH), "drive drive_service"),
    "net6": (TYPED, net6("2001:db8::/32"), "tcp6_80 udp6_53 drive6"),
    "ports": (EVERY, ports(5000, 5009, DESTINATION, UDP), "drive drive_service drive6"),
    "drives": (TYPED, DRIVES, "drive drive6 modbus arp"),
    "station": ((ETHERNET,), ether_host(DRIVE, DESTINATION), TO_DRIVE),
    "sender": (TYPED, ether_host(STATION, SOURCE), FROM_STATION),
    "multicast": ((ETHERNET,), MULTICASTS, "icmp6 igmp mdns broadcast arp lldp"),
    "ip_multicast": (EVERY, IP_MULTICAST, "igmp mdns"),
    "broadcast": (EVERY, IP_BROADCAST, "broadcast"),
    "arp_lldp": (TYPED, any_of(protocol(ARP), ether_protocol(0x88CC)), "arp lldp"),
    "ping": (TYPED, any_of(protocol(ICMP), protocol(ICMP6)), f"icmp icmp6 {' '.join(COOKED)}"),
    "chains": (TYPED, any_of(chain4(2), chain6(58)), "igmp icmp6"),
    "sctp": (EVERY, all_of(protocol(NUM, 132), port(2905, BOTH, SCTP)), "sctp"),
    "far_255": ((ETHERNET,), far(BOTH), ""),
    "crew": (TYPED, CREW, f"drive modbus icmp {' '.join(COOKED)}"),
    "from_left": (TYPED, all_of(any_of(protocol(ARP), protocol(UDP)), port(53)), "udp53"),
    "brackets": (TYPED, any_of(protocol(ARP), all_of(protocol(UDP), port(53))), "arp udp53"),
}

# The trees that can be typed, each with its line.
LINES = {
    "web": "tcp and tcp dst port 80",
    "dns": "port 53",
    "not_ip": "not ip",
    "host": "dst host 10.20.0.5",
    "crew": "not host 10.20.0.99 and ( udp port 5001 or tcp dst port 502 or icmp )",
    "from_left": "arp or udp and port 53",
    "brackets": "arp or ( udp and port 53 )",
}


def true_of(tree, link):
    """The frames of a link of which a tree is true. RawIp takes every frame for
    IPv4, and these trees are true of no IPv6 one there."""
    names = [name for name in TREES[tree][2].split() if link == SLL or name not in COOKED]
    if link != RAWIP:
        return names
    return [name for name in names if name in CUTS or PACKETS[name][0][0] == 0x0800]


# Trees that are refused, each with its number.
REFUSED = {
    "strange": (1, b"PFX" + tree_file(ETHERNET, protocol(IP))[3:]),
    "count": (2, header(ETHERNET, 2) + protocol(IP)[0]),
    "long": (2, header(ETHERNET, 128) + protocol(IP)[0] * 200),
    "record": (3, tree_file(ETHERNET, [record(25)])),
    "two_trees": (4, tree_file(ETHERNET, protocol(IP) + protocol(IP))),
    "raw_ip6": (5, tree_file(RAWIP, any_of(protocol(IP6), protocol(TCP)))),
    "icmp_port": (6, tree_file(ETHERNET, any_of(port(53, EITHER, ICMP), protocol(TCP)))),
    "raw_ether": (7, tree_file(RAWIP, any_of(ETHER_MULTICAST, protocol(TCP)))),
    "far_256": (8, tree_file(ETHERNET, far(EITHER))),
    "cooked_host": (15, tree_file(SLL, any_of(ether_host(DRIVE, DESTINATION), protocol(TCP)))),
    "cooked_multicast": (15, tree_file(SLL, any_of(ETHER_MULTICAST, protocol(TCP)))),
}

# What could follow where a condition is to stand.
CONDITION = "ip ip6 arp rarp icmp tcp udp sctp host port src dst ( not"

# Lines that are refused: number, place or none, what could follow there, line.
REFUSED_LINES = {
    "prot": (16, 8, CONDITION, "tcp and prot 80"),
    "no_spaces": (16, 4, CONDITION, "not (tcp or udp)"),
    "zero": (16, 5, "a port number", "port 080"),
    "symbols": (16, 4, "and or, the end", "arp && udp"),
    "two_ports": (17, 11, CONDITION, "port 80 or 443"),
    "tcp_host": (17, 4, "port src dst and or, the end", "tcp host 10.20.0.5"),
    "number": (17, 9, "an address", "src host 80"),
    "open": (17, 12, "port src dst ) and or", "( arp or udp"),
    "nothing": (17, 0, CONDITION, ""),
    "nots": (18, None, None, "not " * 128 + "ip"),
    "deep": (18, None, None, "( " * 129 + "ip" + " )" * 129),
}

# The longest frame that is run, and one byte more: 10.
LONG_FRAMES = {"longest": 65535, "long": 65536}

# ── Captures ─────────────────────────────────────────────────────────────────

MICROSECONDS, NANOSECONDS = 0xA1B2C3D4, 0xA1B23C4D
LINK_FIELDS = {ETHERNET: 1, RAWIP: 101, SLL: 113}
SLL2_FIELD = 276
SNAP_LENGTH = 262144
BEGAN = 1_700_000_000
LONGEST_FRAME = 65535


class Pcap:
    """What a classic capture file is made of, in a byte order and with a mark."""

    def __init__(self, order="little", mark=MICROSECONDS):
        self.order, self.mark = order, mark

    def number(self, n, size=4):
        return n.to_bytes(size, self.order)

    def header(self, field):
        version = self.number(2, 2) + self.number(4, 2)
        return self.number(self.mark) + version + bytes(8) + self.number(SNAP_LENGTH) + self.number(field)

    def frame(self, data, second=0):
        length = self.number(len(data))
        return self.number(BEGAN + second) + self.number(0) + length + length + data

    def file(self, field, frames):
        return self.header(field) + b"".join(self.frame(data, i) for i, data in enumerate(frames))


# The same frames, all of a folder, in both byte orders and with both marks.
VARIANTS = {
    "all": Pcap(),
    "all_nano": Pcap(mark=NANOSECONDS),
    "all_big": Pcap("big"),
    "all_big_nano": Pcap("big", NANOSECONDS),
}
NO_FRAMES = Pcap().header(LINK_FIELDS[ETHERNET])


def large():
    """A capture that is longer than the buffer of `pft count`: every second frame is a packet for `web`, as long as
    a frame may be."""
    some = frames(ETHERNET)
    long = [some["tcp80"].ljust(LONGEST_FRAME, b"\0"), some["udp53"]] * 5
    return Pcap().file(LINK_FIELDS[ETHERNET], long)


def captures():
    """Every capture that is read to its end, by its path in this folder."""
    made = {f"ethernet/{name}.pcap": pcap.file(1, frames(ETHERNET).values()) for name, pcap in VARIANTS.items()}
    for link in (RAWIP, SLL):
        made[f"{FOLDERS[link]}/all.pcap"] = Pcap().file(LINK_FIELDS[link], frames(link).values())
    return made | {"ethernet/no_frames.pcap": NO_FRAMES, "ethernet/large.pcap": large()}


def refused_captures():
    """Captures that are refused: number, of how many frames before it `web` keeps how many, the message's end, bytes."""
    some = frames(ETHERNET)
    three = [some[name] for name in ("tcp80", "udp53", "tcp80_options")]
    pcap, field = Pcap(), LINK_FIELDS[ETHERNET]
    good = pcap.file(field, three)
    last = len(good) - len(pcap.frame(three[-1]))
    section = bytes.fromhex("0a0d0d0a 1c000000 4d3c2b1a 01000000") + bytes([255] * 8) + pcap.number(28)
    return {
        "cut_header.pcap": (14, 2, 3, f", at frame 4, byte {len(good)}", good + pcap.frame(three[0])[:15]),
        "cut_body.pcap": (14, 1, 2, f", at frame 3, byte {last}", good[:-1]),
        "over_65535.pcap": (14, 2, 3, f", at frame 4, byte {len(good)}", good + pcap.frame(bytes(LONGEST_FRAME + 1))),
        "other_link.pcap": (13, 0, 0, ", the tree is for Ethernet (1)", pcap.file(SLL2_FIELD, three)),
        "short_header.pcap": (12, 0, 0, "", NO_FRAMES[:-1]),
        "other_mark.pcap": (12, 0, 0, "", bytes(4) + good[4:]),
        "wireshark.pcapng": (12, 0, 0, ", it is pcapng", section),
    }


# ── Files ────────────────────────────────────────────────────────────────────

# What the test programs are run on: which samples go to which crate.
COPIES = {
    "command": ["ethernet/web.pft", "ethernet/tcp80.frame", "ethernet/udp53.frame", "ethernet/cut_port.frame"],
    "command_cases": [f"ethernet/{name}.pft" for name in ("drives", "web", "ports", "net", "dns")]
    + [f"ethernet/{name}.frame" for name in ("tcp80", "drive", "drive6", "arp", "cut_header", "cut_port", "empty")]
    + ["refused/longest.frame", "refused/long.frame"]
    + [f"refused/{name}.pft" for name in REFUSED]
    + [f"ethernet/{name}.pcap" for name in (*VARIANTS, "no_frames", "large")]
    + [f"refused/{name}" for name in refused_captures()],
}


def line_file(line):
    """A line and its end, which a shell's "$(cat FILE)" leaves out."""
    return line.encode() + b"\n"


def samples():
    """Every file's path in this folder, and its bytes."""
    made = {}
    for link, folder in FOLDERS.items():
        made |= {f"{folder}/{name}.frame": data for name, data in frames(link).items()}
    for name, (links, tree, _) in TREES.items():
        made |= {f"{FOLDERS[link]}/{name}.pft": tree_file(link, tree) for link in links}
    made |= {f"lines/{name}.line": line_file(line) for name, line in LINES.items()}
    made |= {f"refused/{name}.pft": data for name, (_, data) in REFUSED.items()}
    made |= {f"refused/{name}.line": line_file(line) for name, (*_, line) in REFUSED_LINES.items()}
    made |= {f"refused/{name}.frame": bytes(length) for name, length in LONG_FRAMES.items()}
    made |= {f"refused/{name}": data for name, (*_, data) in refused_captures().items()}
    return made | captures()


def files():
    """The samples and their copies, by full path."""
    made = samples()
    whole = {HERE / path: data for path, data in made.items()}
    for crate, paths in COPIES.items():
        data = HERE.parent / "crates" / crate / "data"
        whole |= {data / pathlib.PurePath(path).name: made[path] for path in paths}
    return whole


def strays(wanted):
    """Files that stand where samples do, and are none."""
    folders = {path.parent for path in wanted}
    return sorted(path for folder in folders if folder.is_dir() for path in folder.iterdir() if path not in wanted)


def check(wanted):
    wrong = [path for path, data in wanted.items() if not path.is_file() or path.read_bytes() != data]
    wrong += strays(wanted)
    for path in wrong:
        print(f"{path.relative_to(HERE.parent)} is not what samples/make.py makes")
    print(f"{len(wanted)} files, {len(wrong)} differ")
    return 1 if wrong else 0


def write(wanted):
    for path, data in wanted.items():
        path.parent.mkdir(parents=True, exist_ok=True)
        path.write_bytes(data)
    return 0


def main():
    if sys.argv[1:] == ["--help"]:
        return print(__doc__.strip())
    if sys.argv[1:] not in ([], ["--check"]):
        print("usage: samples/make.py [--check]", file=sys.stderr)
        sys.exit(2)
    sys.exit(check(files()) if sys.argv[1:] else write(files()))


if __name__ == "__main__":
    main()
