"""The exports of libpft.a, and the sockets that Linux attaches a program to."""
import ctypes
import os
import pathlib
import socket
import struct
import subprocess
import sys

ROOT = pathlib.Path(__file__).resolve().parents[2]
CLONE_NEWNET = 0x40000000
SO_ATTACH_FILTER = 26
ETH_P_ALL = 3
VERDICTS = {1: "accepted", 2: "dropped", 3: "short", 4: "broken"}
MOST = 31568
LONGEST = 1 << 17
FILE_HEADER, FRAME_HEADER = 24, 16


def fail(words):
    print(f"{pathlib.Path(sys.argv[0]).name}: {words}", file=sys.stderr)
    sys.exit(2)


# ---- the library

class Library:
    """libpft.a, made anew and linked as a shared library into a folder."""

    def __init__(self, folder):
        folder.mkdir(parents=True, exist_ok=True)
        if subprocess.run([ROOT / "tools" / "library"]).returncode != 0:
            fail("no libpft.a")
        shared = folder / "libpft.so"
        archive = ROOT / "target" / "staticlib" / "libpft.a"
        words = ["-Wl,--whole-archive", archive, "-Wl,--no-whole-archive"]
        subprocess.run(["cc", "-shared", "-o", shared, *words], check=True)
        self.c = ctypes.CDLL(str(shared))
        for name in ("pft_build", "pft_run", "pft_direct"):
            function = getattr(self.c, name)
            function.restype = ctypes.c_uint32
            function.argtypes = [ctypes.c_char_p, ctypes.c_size_t] * 2
        self.c.pft_count.restype = self.c.pft_frame.restype = ctypes.c_uint64
        self.c.pft_count.argtypes = [ctypes.c_char_p, ctypes.c_size_t] * 3
        self.c.pft_frame.argtypes = [ctypes.c_char_p, ctypes.c_size_t, ctypes.c_size_t]

    def build(self, tree):
        """The program, or the number of its refusal."""
        buffer = ctypes.create_string_buffer(MOST)
        answer = self.c.pft_build(tree, len(tree), buffer, MOST)
        return answer >> 16 or buffer.raw[:8 * answer]

    def run(self, program, frame):
        """The verdict or the refusal in words, and the steps."""
        answer = self.c.pft_run(program, len(program), frame, len(frame))
        high = answer >> 16
        return f"refused {high - 256}" if high > 256 else VERDICTS[high], answer & 0xffff

    def direct(self, tree, frame):
        """Whether the tree is true of the frame, or the refusal in words."""
        answer = self.c.pft_direct(tree, len(tree), frame, len(frame))
        return f"refused {answer - 256}" if answer > 256 else answer == 1

    def count(self, tree, capture):
        """The number of the refusal, or 0, and the accepted frames."""
        buffer = ctypes.create_string_buffer(MOST)
        return divmod(self.c.pft_count(tree, len(tree), buffer, MOST, capture, len(capture)), 1 << 32)

    def first_frame(self, capture):
        """The frame behind the file header, or None."""
        refused, length = divmod(self.c.pft_frame(capture, len(capture), FILE_HEADER), 1 << 32)
        start = FILE_HEADER + FRAME_HEADER
        return None if refused else capture[start:start + length]


# ---- sockets

def attach(sock, program):
    buffer = ctypes.create_string_buffer(program, max(len(program), 1))
    value = struct.pack("HxxxxxxP", len(program) // 8, ctypes.addressof(buffer))
    sock.setsockopt(socket.SOL_SOCKET, SO_ATTACH_FILTER, value)


def at_hand(sock):
    """What was received, or None."""
    try:
        return sock.recv(LONGEST, socket.MSG_DONTWAIT)
    except BlockingIOError:
        return None


def local(program, frame):
    """A local datagram: its filter runs before send returns."""
    sender, receiver = socket.socketpair(socket.AF_UNIX, socket.SOCK_DGRAM)
    with sender, receiver:
        attach(receiver, program)
        sender.send(frame)
        return at_hand(receiver)


def packet(kind):
    """A packet socket; one without a filter, opened before it, tells when the frame is there."""
    def ask(program, frame):
        sockets = [socket.socket(socket.AF_PACKET, k, socket.htons(ETH_P_ALL)) for k in (socket.SOCK_RAW, kind)]
        witness, receiver = sockets
        with witness, receiver, socket.socket(socket.AF_PACKET, socket.SOCK_RAW) as sender:
            for sock in sockets:
                sock.bind(("peer1", ETH_P_ALL))
            attach(receiver, program)
            sender.bind(("peer0", 0))
            sender.send(frame)
            witness.settimeout(5)
            witness.recv(LONGEST)
            return at_hand(receiver)
    return ask


# What the filter of a UDP socket takes as Ethernet and Ip: the last datagram is one.
TYPE_AT_4 = bytes(4) + b"\x08\0" + bytes(58)


def udp(program, payload):
    """A UDP datagram; a second one, which a filter for Ip takes, tells when the first is there."""
    with socket.socket(socket.AF_INET, socket.SOCK_DGRAM) as receiver:
        receiver.bind(("127.0.0.1", 0))
        attach(receiver, program)
        with socket.socket(socket.AF_INET, socket.SOCK_DGRAM) as sender:
            last = TYPE_AT_4 + b"last"
            for data in (payload, last):
                sender.sendto(data, receiver.getsockname())
        receiver.settimeout(5)
        first = receiver.recv(LONGEST)
        return None if first == last else first


RAW, DGRAM = packet(socket.SOCK_RAW), packet(socket.SOCK_DGRAM)


def namespace():
    """A network namespace of its own with two joined interfaces. Needs root and ip."""
    library = ctypes.CDLL(None, use_errno=True)
    if library.unshare(CLONE_NEWNET) != 0:
        raise OSError(ctypes.get_errno(), f"no network namespace: {os.strerror(ctypes.get_errno())}")
    # Without IPv6 the interfaces send nothing of their own.
    pathlib.Path("/proc/sys/net/ipv6/conf/default/disable_ipv6").write_text("1")
    for command in ("add name peer0 type veth peer name peer1", "set lo up", "set peer0 up", "set peer1 up"):
        subprocess.run(["ip", "link", *command.split()], check=True)
