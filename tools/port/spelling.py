#!/usr/bin/env python3
"""Brings the definitions and lemmas of this repository to one spelling, snake case, after port.py.

usage: spelling.py [--table] (at the top; once)

A name that specs/ or proofs/ declare in camel case or with dashes gets underscores: `programBytes` becomes
`program_bytes`, `here-and` becomes `here_and`. Types, modules and theorems that begin with a capital stay, and so do
the labels that the checker makes in proofs/F/ and every name of src/. Where two names would fall together, or a name
would meet another that one of its files has already, it gets a suffix: `_lem` for a lemma, the row of CHOSEN else.
--table only prints the old and new names.
"""
import glob
import os
import re
import sys

NAME = re.compile(r'[^\s(){}.;,@"«»\[\]`:]+')
DECLARED = re.compile(r"(?m)^( *)((?:(?:pub|abbrev|unfoldable|opaque)\s+)*)([^\s(){}.;,@\"]+)(?: \{[^{}\n]*\})* :(?= )")
FILES = ("Proof.antt", "Answers.antt", "Invariants.antt")
# Lemmas that port.py already spelled like a definition: crate, name, new name.
LEMMAS = [
    ("records", "is_join", "is_join_lem"),
    ("count", "is_true", "is_true_lem"),
    ("codegen", "of_two", "of_two_lem"),
    ("nets", "mask_at", "mask_at_lem"),
    ("reader", "node_at", "node_at_lem"),
    ("type_line", "operand_prefix", "operand_prefix_lem"),
]


def spelled(name):
    words = re.sub(r"(?<=[a-z0-9])[A-Z]+", lambda m: "_" + m[0].lower(), name)
    words = words.replace("-", "_")
    return words[0] + words[1:].lower() if words[0].islower() else words


def texts():
    here = glob.glob("crates/*/specs/**/*.antt", recursive=True) + glob.glob("crates/*/proofs/**/*.antt", recursive=True)
    return sorted(here), sorted(glob.glob("crates/*/src/**/*.rt", recursive=True))


def code_of(text):
    return re.sub(r"--.*", "", text)


def table_of(antt):
    """Returns old -> new for each declared name, and what fell together."""
    declared, where, seen = {}, {}, {}
    for path in antt:
        code = code_of(open(path).read())
        seen[path] = set(NAME.findall(code))
        if os.path.basename(path) in FILES:
            continue
        for indent, words, name in DECLARED.findall(code):
            if not name[0].isalpha():
                continue
            is_definition = "abbrev" in words or "unfoldable" in words or "/specs/" in path or "-" not in name
            declared[name] = declared.get(name, False) or bool(is_definition)
            where.setdefault(name, set()).add(path)
    table, taken, met = {}, set(declared), []
    for name in sorted(declared, key=lambda it: (not declared[it], it)):
        if name[0].isupper() or not ("-" in name or re.search(r"[a-z0-9][A-Z]", name)):
            continue
        new = spelled(name)
        rivals = new in taken
        files = [path for path, names in seen.items() if name in names and new in names and not path.endswith(FILES)]
        if rivals or files:
            new = new if declared[name] else new + "_lem"
            met.append((name, new, rivals, files, declared[name]))
        table[name] = new
        taken.add(new)
    return table, met, where


def turned(table, text, labels):
    def put(m):
        name = m[0]
        return table[name] if name in table and name not in labels else name
    return NAME.sub(put, text)


def turn_antt(path, table):
    text = open(path).read()
    labels = set()
    if os.path.basename(path) in FILES:
        labels = {name for _, _, name in DECLARED.findall(code_of(text))}
    lines = []
    for line in text.split("\n"):
        code, dash, comment = line.partition("--")
        if path.endswith(FILES):
            code = turn_proof(code, table, labels)
        else:
            code = turned(table, code, labels)
        comment = re.sub(r"`[^`]*`", lambda m: turned(table, m[0], ()), comment)
        lines.append(code + dash + comment)
    return text, "\n".join(lines)


def turn_proof(code, table, labels):
    """In a function's proof a name behind c. is the checker's, unless it is a field of a clause."""
    def put(m):
        name, before = m[0], code[: m.start()]
        if name not in table or name in labels:
            return name
        if before.endswith(".") and re.search(r"\bc(\.[^\s(){};,@]*)?\.$", before):
            head = before[before.rfind("c.") :]
            if not re.search(r"(ensures|requires|invariant|invariant-\w+)\.([^\s]*)$", head):
                return name
        return table[name]
    return NAME.sub(put, code)


def turn_rt(path, table):
    text = open(path).read()
    lines, inside = [], False
    for line in text.split("\n"):
        bare = line.strip()
        if re.match(r"(pub )?ghost |requires\b|ensures\b", bare):
            inside = True
        if inside and not bare.startswith("//"):
            line = turned(table, line, ())
        if inside and (bare.endswith(("}", ";")) or bare == "{"):
            inside = False
        lines.append(line)
    return text, "\n".join(lines)


def spell_lemmas(antt):
    for crate, name, new in LEMMAS:
        for path in antt:
            if path.startswith(f"crates/{crate}/proofs/") and not path.endswith(FILES):
                text = open(path).read()
                turned_text = re.sub(rf"(?<![\w-]){name}(?![\w-])", new, text)
                if turned_text != text:
                    open(path, "w").write(turned_text)


def main():
    antt, rt = texts()
    spell_lemmas(antt)
    table, met, where = table_of(antt)
    for name, new, rivals, files, is_definition in met:
        print("met:", name, new, "declared" if rivals else "", "definition" if is_definition else "lemma", files[:3])
    if "--table" in sys.argv:
        for old, new in sorted(table.items()):
            print(old, new)
        return
    with open("tools/port/spelling.tsv", "w") as out:
        out.writelines(f"{old}\t{new}\n" for old, new in sorted(table.items()))
    for path in antt + rt:
        old, new = turn_rt(path, table) if path.endswith(".rt") else turn_antt(path, table)
        if old != new:
            open(path, "w").write(new)


main()
