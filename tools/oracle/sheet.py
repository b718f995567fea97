#!/usr/bin/env python3
"""Asks the oracle every line of document 01's commissioning sheet, and what T-03 says of
cooked trees.

tools/oracle/sheet.py [ORACLE]     (target/oracle/oracle when left out)

Prints each line with its outcome; ends with 1 if one differs, with 2 if the oracle
cannot be asked. Step counts are not asked: `inner` does not tell them, and its
None is the sheet's short.
"""
import pathlib
import subprocess
import sys

sys.dont_write_bytecode = True
from trees import AND, BOTH, DESTINATION, EITHER, ETHERNET, NOT, OR, RAWIP, SLL, SOURCE
from trees import half, header, record
from words import Words, run as run_command, stop

HERE = pathlib.Path(__file__).resolve().parent
DEFAULT = HERE.parent.parent / "target" / "oracle" / "oracle"

IP, IP6, TCP, UDP, ICMP, ICMP6 = 1, 2, 5, 6, 7, 8
RET_ALL, RET_NONE = (6, 0, 0, 0xFFFFFFFF), (6, 0, 0, 0)


def proto(p):
    return [record(10, protocol=p)]


def port(number, direction, protocol=0):
    return [record(15, direction, protocol, numbers=half(number))]


def join(kind, left, right):
    return [record(kind)] + left + right


def from_left(leaves):
    """Leaves joined by and, the first two innermost."""
    return [record(AND)] * (len(leaves) - 1) + leaves


def ether_host(direction):
    return [record(17, direction, address=bytes(range(6)))]


def host6(direction):
    return record(12, direction, address=bytes(range(16)))


def far(last):
    return from_left([record(19)] * 7 + [host6(SOURCE)] + [host6(BOTH)] * 6 + [host6(last)])


def ask(oracle, command, text):
    done = subprocess.run([oracle, command], input=text, capture_output=True)
    if done.returncode:
        stop(done.stderr.decode().strip() or f"{oracle} failed")
    return done.stdout.decode()


def build(oracle, link, records):
    """The instructions as (code, jt, jf, k), or the refusal's words."""
    file = header(link, len(records)) + b"".join(records)
    first, *rest = ask(oracle, "listing", file).splitlines()
    if first.startswith("refused"):
        return first
    rows = [tuple(map(int, row.split())) for row in rest]
    assert len(rows) == int(first)
    assert ask(oracle, "build", file.hex().encode()) == f"{first} {code_of(rows)}\n"
    return rows


def code_of(rows):
    little = lambda n, size: n.to_bytes(size, "little").hex()
    return "".join(little(c, 2) + little(jt, 1) + little(jf, 1) + little(k, 4) for c, jt, jf, k in rows)


def run(oracle, rows, frame):
    return ask(oracle, "run", f"{code_of(rows)} {frame.hex() or '-'}".encode()).strip()


def column(rows, name, *places):
    return [rows[i][("code", "jt", "jf", "k").index(name)] for i in places]


def lines(oracle):
    """The sheet, as pairs of words and outcome."""
    p = build(oracle, RAWIP, proto(IP))
    yield "RawIp, Ip: two returns", p == [RET_ALL, RET_NONE]

    p = build(oracle, ETHERNET, proto(IP))
    yield "Ip: four, jf 1 at 1", len(p) == 4 and p[1][2] == 1
    yield "Ip on 13 bytes: none", run(oracle, p, bytes(13)) == "none"
    yield "Ip on 14 bytes ending 08 00: accepted", run(oracle, p, bytes(12) + b"\x08\0") == "accepted"

    p = build(oracle, ETHERNET, [record(NOT)] + proto(IP))
    want = [(40, 0, 0, 12), (21, 0, 1, 2048), (5, 0, 0, 1), RET_ALL, RET_NONE]
    yield "not Ip: the printed listing", p == want

    p = build(oracle, ETHERNET, join(OR, proto(TCP), proto(UDP)))
    yield "Tcp or Udp: nine", len(p) == 9
    yield "  jf 6, 1, 1 at 1, 3, 6", column(p, "jf", 1, 3, 6) == [6, 1, 1]
    yield "  ja 2 at 4", p[4] == (5, 0, 0, 2)

    p = build(oracle, ETHERNET, join(AND, proto(TCP), port(80, DESTINATION, TCP)))
    yield "Tcp and Tcp destination port 80: eleven", len(p) == 11
    yield "  jf 8, 6, 1 at 1, 3, 8", column(p, "jf", 1, 3, 8) == [8, 6, 1]
    yield "  jt 4 at 5", p[5][1] == 4

    p = build(oracle, ETHERNET, port(53, EITHER))
    yield "Port 53: twenty, jt 8 at 1", len(p) == 20 and p[1][1] == 8

    p = build(oracle, ETHERNET, [record(14, EITHER)])
    yield "IPv6 net, prefix 0, either: five", len(p) == 5

    bad_port = port(53, EITHER, ICMP)
    mixed = join(OR, join(AND, bad_port, proto(ICMP6)), proto(ICMP6))
    yield "RawIp, Ip6: 5", build(oracle, RAWIP, proto(IP6)) == "refused 5"
    yield "Port with Icmp: 6", build(oracle, ETHERNET, bad_port) == "refused 6"
    yield "RawIp, (port with Icmp and Icmp6) or Icmp6: 5", build(oracle, RAWIP, mixed) == "refused 5"
    yield "RawIp, ether multicast: 7", build(oracle, RAWIP, [record(19)]) == "refused 7"

    p = build(oracle, ETHERNET, far(BOTH))
    yield "Seven multicasts and eight hosts: distance 255", p[1][2] == 255 and len(p) == 258
    yield "The last host with either: 8", build(oracle, ETHERNET, far(EITHER)) == "refused 8"


def cooked_lines(oracle):
    """T-03, as pairs of words and outcome."""
    multicast, bad_port = [record(19)], port(53, EITHER, ICMP)
    cooked = lambda records: build(oracle, SLL, records)
    p = cooked(ether_host(SOURCE))
    length = [(40, 0, 0, 4), (21, 0, 5, 6)]
    yield "LinuxSll, ether source: eight, the length at 4 first", len(p) == 8 and p[:2] == length
    yield "  then the address at 6", column(p, "k", 2, 3, 4, 5) == [6, 0x00010203, 10, 0x0405]
    yield "  jf 5, 3, 1 at 1, 3, 5", column(p, "jf", 1, 3, 5) == [5, 3, 1]
    header = bytes(4) + b"\0\6" + bytes(range(6)) + bytes(4)
    yield "  on a sender of six bytes: accepted", run(oracle, p, header) == "accepted"
    other = header[:5] + b"\10" + header[6:]
    yield "  on one of eight: dropped", run(oracle, p, other) == "dropped"
    for words, direction in (("either", EITHER), ("destination", DESTINATION), ("both", BOTH)):
        yield f"LinuxSll, ether host, {words}: 15", cooked(ether_host(direction)) == "refused 15"
    yield "LinuxSll, ether multicast: 15", cooked(multicast) == "refused 15"
    first, last = join(AND, bad_port, multicast), join(OR, multicast, bad_port)
    yield "LinuxSll, port with Icmp and ether multicast: 6", cooked(first) == "refused 6"
    yield "LinuxSll, ether multicast or port with Icmp: 15", cooked(last) == "refused 15"
    p = build(oracle, ETHERNET, ether_host(SOURCE))
    yield "Ethernet, ether source: six, no length", len(p) == 6 and p[0] == (32, 0, 0, 6)


def main():
    parser = Words(__doc__)
    parser.add_argument("oracle", metavar="ORACLE", nargs="?", default=str(DEFAULT))
    oracle = parser.parse_args().oracle
    wrong = 0
    for words, good in [*lines(oracle), *cooked_lines(oracle)]:
        print("ok  " if good else "BAD ", words)
        wrong += not good
    return 1 if wrong else 0


if __name__ == "__main__":
    run_command(main)
