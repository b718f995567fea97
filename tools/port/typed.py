#!/usr/bin/env python3
"""In Answers files, cites what is known of a slice's numbers by the slice's name.

usage: typed.py NAMES CRATE (in the crate's folder)
"""
import json
import os
import re
import sys

table = json.load(open(sys.argv[1]))
for folder, _, files in os.walk("proofs"):
    if "Answers.antt" not in files:
        continue
    text = open(f"{folder}/Answers.antt").read()
    key = f"Rattle-{sys.argv[2]}-proofs.{folder[7:].replace('/', '.')}.Lts"
    if "slice_known" not in text or key not in table:
        continue
    names = table[key]
    steps = {}
    for place in names["typed"]:
        for variable, step in place:
            for it in names["places"]:
                if it[2][0].replace("-", "_") == step.replace("-", "_"):
                    steps[it[2][1]] = variable
    def put(m):
        return f"c.type_inv.{steps[m[1]]}" if m[1] in steps else m[0]
    new = re.sub(r"c\.((?:shared_)?slice_known[^\s.(){},]*)\.given", put, text)
    if new != text:
        open(f"{folder}/Answers.antt", "w").write(new)
        print("typed", folder)
