"""Trees that docs/DIFFERENCES.md says in prose, and their words for libpcap."""
import re

from notation import tree_file

ETHERNET, SLL = 1, 3
OR, AND, IP, ICMP_PORT, ETHER_MULTICAST = "02", "01", "0a0001", "0f0007000001", "13"
JOINS = {"and": AND, "or": OR}
NUMBERS = {"seven": 7, "eight": 8}


def joined(join, leaves):
    """All joined from the left."""
    return tree_file(ETHERNET, [join] * (len(leaves) - 1) + leaves)


def ether_hosts(count):
    """Ip or one of so many sources."""
    numbers = range(1, count + 1)
    leaves = [IP] + [f"1101000000000000 0200000000{n:02x}" for n in numbers]
    words = ["ip"] + [f"ether src 02:00:00:00:00:{n:02x}" for n in numbers]
    return joined(OR, leaves), " or ".join(words)


def ip6_host(direction, number):
    return f"0c{direction:02x}000000000000" + f"{number:032x}"


def ip6_hosts(count):
    """One of so many hosts, ::1 and on, on either side."""
    numbers = range(1, count + 1)
    words = " or ".join(f"ip6 host ::{n:x}" for n in numbers)
    return joined(OR, [ip6_host(0, n) for n in numbers]), words


# Twenty times ::1 in both, joined by and.
X20 = [AND] * 19 + [ip6_host(3, 1)] * 20


def x20(join):
    """X20, then a port with Icmp."""
    return tree_file(ETHERNET, [JOINS[join], *X20, ICMP_PORT]), None


def x20_cooked(join):
    """X20, then an ether multicast."""
    return tree_file(SLL, [JOINS[join], *X20, ETHER_MULTICAST]), None


def cooked_x20(join):
    """An ether multicast, then X20."""
    return tree_file(SLL, [JOINS[join], ETHER_MULTICAST, *X20]), None


# A pattern, and what makes the tree from its first group.
SAID = [
    (r'Ethernet, Ip, then (\d+) times "or ether host, source", all different.*', ether_hosts),
    (r"Ethernet, (\w+) IPv6 hosts, either, joined by or", ip6_hosts),
    (r"Ethernet, X20 (and|or) port with Icmp", x20),
    (r"LinuxSll, X20 (and|or) ether multicast", x20_cooked),
    (r"LinuxSll, ether multicast (and|or) X20", cooked_x20),
]


def count_or_word(text):
    return int(text) if text.isdigit() else NUMBERS.get(text, text)


class Prose:
    """Reads one table's trees; `the same with ..` is the row before with another number."""

    def __init__(self):
        self.last = None

    def tree(self, cell):
        """The tree file and its words, or None."""
        for pattern, make in SAID:
            match = re.fullmatch(pattern, cell)
            if match:
                self.last = make
                return make(count_or_word(match[1]))
        match = re.match(r"the same with (\w+)", cell)
        if match and self.last:
            return self.last(count_or_word(match[1]))
        return None
