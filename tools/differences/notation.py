"""The notation of docs/DIFFERENCES.md: trees, lines, frames and programs as bytes."""
import re

RECORD = 24
INSTRUCTION = re.compile(r"([0-9a-f]+):([0-9a-f]+)(?:\((\d+),(\d+)\))?(?:\*(\d+))?")


def tree_file(link, records):
    """Records are hex; zeros at the end of one are left out."""
    filled = [bytes.fromhex(r).ljust(RECORD, b"\0") for r in records]
    return b"PFT\0\1" + bytes([link]) + len(filled).to_bytes(2, "big") + b"".join(filled)


def tree(text):
    """`1: 03 0a0001`: link, colon, records."""
    link, records = text.split(":")
    return tree_file(int(link), records.split())


def line(text):
    """`1: not ip`: link, colon, a space, the line."""
    link, words = text.split(": ", 1)
    return int(link), words.encode()


def frame(text):
    """Hex; `00*12` is twelve zero bytes, `-` no byte."""
    if text == "-":
        return b""
    parts = (part.partition("*") for part in text.split())
    return b"".join(bytes.fromhex(data) * int(times or 1) for data, _, times in parts)


def instruction(text):
    """`code:k` in hex, `(jt,jf)` in decimal if not both zero; `*4096` repeats."""
    match = INSTRUCTION.fullmatch(text)
    if match is None:
        raise ValueError(f"no instruction: {text}")
    code, k, jt, jf, times = match.groups()
    one = int(code, 16).to_bytes(2, "little") + bytes([int(jt or 0), int(jf or 0)])
    return (one + int(k, 16).to_bytes(4, "little")) * int(times or 1)


def program(text):
    return b"" if text == "-" else b"".join(map(instruction, text.split()))
