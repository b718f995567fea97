#!/usr/bin/env python3
"""Gives names that a file imports from the library their spelling back, where spelling.py turned them with ours.

usage: imported.py (at the top, after spelling.py)
"""
import glob
import os
import re

NAME = r'[^\s(){}.;,@"«»\[\]`:]+'
back = {}
for line in open("tools/port/spelling.tsv"):
    old, new = line.split()
    back[new] = old
ours = {os.path.basename(path) for path in glob.glob("crates/*")}
for path in glob.glob("crates/*/specs/**/*.antt", recursive=True) + glob.glob("crates/*/proofs/**/*.antt", recursive=True):
    text = open(path).read()
    names = set()
    for module, items in re.findall(r"(?m)^use ([^\s{]+)\.\{([^}]*)\}", text):
        steps = module.split(".")
        if steps[0] == "Rattle" and steps[1] in ours:
            continue
        names |= {it for it in re.findall(NAME, items) if it in back}
    if names:
        print(path, sorted(names))
        for name in names:
            text = re.sub(rf'(?<![^\s(){{}}.;,@"«»\[\]`:]){re.escape(name)}(?![^\s(){{}}.;,@"«»\[\]`:])', back[name], text)
        open(path, "w").write(text)
