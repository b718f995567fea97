"""Those whose answers stand in the tables: the Rust, libpcap, Linux."""
import ctypes
import errno
import os
import select
import shutil
import signal
import subprocess

from sending import ROOT, fail, local

NETMASK_UNKNOWN = 0xffffffff
SNAPSHOT = 262144
# What a link byte is to libpcap, unless the row names another.
LINKS = {1: "EN10MB", 2: "RAW", 3: "LINUX_SLL"}
# What pcap_next_ex answers at the end of a file.
END_OF_FILE = -2
ERROR_SIZE = 256
# A program that runs longer loops.
SECONDS = 2


def shell(words, **options):
    done = subprocess.run(words, capture_output=True, text=True, **options)
    if done.returncode != 0:
        fail(f"{words[0]}: {(done.stdout + done.stderr).strip()}")
    return done.stdout.strip()


# ---- the Rust

class Rust:
    """The unchanged Rust: its generator and its machine by verdict.rs."""

    def __init__(self, source, folder):
        copies, program = folder / "rust", str(folder / "verdict")
        shell([str(ROOT / "tools" / "oracle" / "copies"), source, str(copies)])
        shutil.copy(ROOT / "tools" / "differences" / "verdict.rs", copies)
        options = ["-O", "--edition", "2021", "-A", "dead_code", "-o", program]
        shell(["rustc", *options, str(copies / "verdict.rs")])
        self.process = subprocess.Popen([program], stdin=subprocess.PIPE, stdout=subprocess.PIPE, text=True)

    def ask(self, *words):
        self.process.stdin.write(" ".join(words) + "\n")
        self.process.stdin.flush()
        return self.process.stdout.readline().strip() or fail("the Rust gave no answer")

    def build(self, tree):
        """The program, or `refused N`."""
        answer = self.ask("build", tree.hex())
        return answer if answer.startswith("refused") else bytes.fromhex(answer)

    def run(self, program, frame):
        return self.ask("run", program.hex() or "-", frame.hex() or "-")


# ---- libpcap

class Code(ctypes.Structure):
    _fields_ = [("count", ctypes.c_uint), ("first", ctypes.c_void_p)]


class Header(ctypes.Structure):
    """`struct pcap_pkthdr`."""
    _fields_ = [("seconds", ctypes.c_long), ("parts", ctypes.c_long), ("at_hand", ctypes.c_uint32),
                ("on_the_wire", ctypes.c_uint32)]


class Capture:
    """A capture that libpcap opened: its link's name, its frames, and whether an error ended them."""

    def __init__(self, c, pcap):
        self.link = (c.pcap_datalink_val_to_name(c.pcap_datalink(pcap)) or b"").decode()
        self.frames, header, data = [], ctypes.POINTER(Header)(), ctypes.c_void_p()
        while (said := c.pcap_next_ex(pcap, ctypes.byref(header), ctypes.byref(data))) == 1:
            self.frames.append(ctypes.string_at(data, header.contents.at_hand))
        self.cut = said != END_OF_FILE
        c.pcap_close(pcap)


def library():
    shell([str(ROOT / "tools" / "libpcap-dev")])
    c = ctypes.CDLL(shell(["cc", "-print-file-name=libpcap.so"]))
    c.pcap_open_dead.restype = ctypes.c_void_p
    c.pcap_close.argtypes = [ctypes.c_void_p]
    c.pcap_geterr.restype = c.pcap_lib_version.restype = ctypes.c_char_p
    c.pcap_geterr.argtypes = [ctypes.c_void_p]
    c.pcap_compile.argtypes = [ctypes.c_void_p, ctypes.POINTER(Code), ctypes.c_char_p, ctypes.c_int, ctypes.c_uint]
    c.pcap_freecode.argtypes = [ctypes.POINTER(Code)]
    c.bpf_filter.restype = ctypes.c_uint
    c.bpf_filter.argtypes = [ctypes.c_char_p, ctypes.c_char_p, ctypes.c_uint, ctypes.c_uint]
    c.pcap_open_offline.restype = ctypes.c_void_p
    c.pcap_datalink_val_to_name.restype = ctypes.c_char_p
    c.pcap_datalink.argtypes = [ctypes.c_void_p]
    pointers = [ctypes.POINTER(ctypes.POINTER(Header)), ctypes.POINTER(ctypes.c_void_p)]
    c.pcap_next_ex.argtypes = [ctypes.c_void_p, *pointers]
    return c


def apart(function):
    """What a function answers in a process of its own, or the signal that ends it, or `loops`."""
    reader, writer = os.pipe()
    child = os.fork()
    if child == 0:
        os.write(writer, function().encode())
        os._exit(0)
    os.close(writer)
    ready, _, _ = select.select([reader], [], [], SECONDS)
    if not ready:
        os.kill(child, signal.SIGKILL)
    answer = os.read(reader, 100).decode() if ready else "loops"
    os.close(reader)
    _, status = os.waitpid(child, 0)
    return answer or signal.Signals(os.WTERMSIG(status)).name


class Pcap:
    def __init__(self):
        self.c = library()
        self.version = self.c.pcap_lib_version().decode()

    def compile(self, words, link, optimize, netmask=NETMASK_UNKNOWN):
        """The program for words on a named link; `error`, or `never` where none is accepted."""
        pcap = self.c.pcap_open_dead(self.c.pcap_datalink_name_to_val(link.encode()), SNAPSHOT)
        code = Code()
        try:
            if self.c.pcap_compile(pcap, ctypes.byref(code), words.encode(), optimize, netmask) != 0:
                said = self.c.pcap_geterr(pcap).decode()
                return "never" if said == "expression rejects all packets" else "error"
            program = ctypes.string_at(code.first, 8 * code.count)
            self.c.pcap_freecode(ctypes.byref(code))
            return program
        finally:
            self.c.pcap_close(pcap)

    def filter(self, program, frame):
        """`accepted N` or `dropped`; no program at all is a null pointer."""
        def answer():
            kept = self.c.bpf_filter(program or None, frame, len(frame), len(frame))
            return f"accepted {kept}" if kept else "dropped"
        return apart(answer)

    def capture(self, path):
        """What it makes of a capture, or None where it does not open it."""
        pcap = self.c.pcap_open_offline(str(path).encode(), ctypes.create_string_buffer(ERROR_SIZE))
        return Capture(self.c, pcap) if pcap else None

    def kept(self, capture, program):
        """How many frames of a capture a program of ours accepts."""
        return sum(self.c.bpf_filter(program, f, len(f), len(f)) != 0 for f in capture.frames)


# ---- Linux

def linux(program, frame, send=local):
    """`kept N`, `dropped`, or the name of the error with which the program is turned down."""
    try:
        received = send(program, frame)
    except OSError as error:
        return errno.errorcode[error.errno]
    return "dropped" if received is None else f"kept {len(received)}"
