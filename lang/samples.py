#!/usr/bin/env python3
"""Writes the tree files, frames and captures that the examples are run on.

lang/samples.py FOLDER

Needs nothing but python3.
"""
import pathlib
import sys

ETHERNET, RAW_IP, LINUX_SLL = 1, 2, 3
AND, PROTOCOL, PORT, ETHER_MULTICAST = 1, 10, 15, 19
DESTINATION = 2
IP6, TCP = 2, 5
UDP_NUMBER, TCP_NUMBER = 17, 6


def record(kind, direction=0, protocol=0, a=0):
    return bytes([kind, direction, protocol, 0]) + a.to_bytes(2, "big") + bytes(18)


def tree(link, *records):
    header = b"PFT" + (1).to_bytes(2, "big") + bytes([link]) + len(records).to_bytes(2, "big")
    return header + b"".join(records)


def ethernet(ethertype, packet):
    return bytes.fromhex("020000000001 020000000002") + ethertype.to_bytes(2, "big") + packet


def ipv4(protocol, payload):
    length = (20 + len(payload)).to_bytes(2, "big")
    addresses = bytes([10, 0, 0, 1, 10, 0, 0, 2])
    return b"\x45\0" + length + bytes(4) + b"\x40" + bytes([protocol]) + bytes(2) + addresses + payload


def ports(source, destination, size):
    """The start of a TCP or UDP header, and zeros."""
    return source.to_bytes(2, "big") + destination.to_bytes(2, "big") + bytes(size - 4)


def capture(frames, order="little", mark=0xA1B2C3D4, link=1):
    """A classic pcap file; times and original lengths are those of no importance."""
    fields = [mark, 0x00040002 if order == "little" else 0x00020004, 0, 0, 65535, link]
    parts = [field.to_bytes(4, order) for field in fields]
    for frame in frames:
        parts += [field.to_bytes(4, order) for field in (0, 0, len(frame), len(frame))] + [frame]
    return b"".join(parts)


WEB = ethernet(0x0800, ipv4(TCP_NUMBER, ports(1024, 80, 60)))

SSH = ethernet(0x0800, ipv4(TCP_NUMBER, ports(1024, 22, 60)))
LONGEST, LONG = (WEB + bytes(length - len(WEB)) for length in (65535, 65536))
DAY = [WEB, SSH, WEB[:36], b"", LONGEST, WEB]

FILES = {
    "web.pft": tree(ETHERNET, record(AND), record(PROTOCOL, protocol=TCP), record(PORT, DESTINATION, TCP, 80)),
    "raw6.pft": tree(RAW_IP, record(PROTOCOL, protocol=IP6)),
    "cooked.pft": tree(LINUX_SLL, record(ETHER_MULTICAST)),
    "web.frame": WEB,
    "ssh.frame": SSH,
    "dns.frame": ethernet(0x0800, ipv4(UDP_NUMBER, ports(1024, 53, 60))),
    "arp.frame": ethernet(0x0806, bytes(46)),
    "cut.frame": WEB[:36],
    "empty.frame": b"",
    "longest.frame": LONGEST,
    "long.frame": LONG,
    "day.pcap": capture(DAY),
    "day_big_endian.pcap": capture(DAY, order="big", mark=0xA1B23C4D),
    "no_frames.pcap": capture([]),
    "cut.pcap": capture(DAY)[:-1],
    "cut_header.pcap": capture(DAY[:2]) + bytes(15),
    "long.pcap": capture([WEB, LONG, WEB]),
    "raw_ip.pcap": capture([WEB[14:]], link=101),
    "next_generation.pcap": bytes.fromhex("0a0d0d0a") + bytes(24),
}


def main():
    folder = pathlib.Path(sys.argv[1])
    folder.mkdir(parents=True, exist_ok=True)
    for name, data in FILES.items():
        (folder / name).write_bytes(data)


if __name__ == "__main__":
    main()
