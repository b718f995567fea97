#!/usr/bin/env python3
"""Turns the old proof of a cycle of calls into Answers.

usage: cycle.py OLD_PROOF NAMES CRATE CYCLE GOAL.. (in the crate's folder)
"""
import json
import re
import sys
import os

sys.path.insert(0, os.path.dirname(os.path.realpath(__file__)))
import answers

old, names, crate, cycle, *goals = sys.argv[1:]
table = json.load(open(names))
head, blocks = answers.blocks(open(old).read())
members = [key.split("Lts-")[1] for key in table if f".+{cycle}.Lts-" in key]
texts, left = [], []
helpers = [body for name, body in blocks if not re.search(r"-lts\.Need|Measures|In \d|statement", body)]
for goal in goals:
    member = max((it for it in members if goal.startswith(it + "-")), key=len)
    it = answers.Function.__new__(answers.Function)
    it.crate, it.function = crate, member
    it.names = table[f"Rattle-{crate}-proofs.+{cycle}.Lts-{member}"]
    new = goal[len(member) + 1 :]
    olds = {b: answers.plain(a) for a, b in it.names["needs"]}
    found = None
    for name, body in blocks:
        m = re.search(rf"{member.replace('_', '-')}-lts\.Need-(\S+)", body)
        if m and re.sub("^overflow_", "", answers.plain(m[1])) == olds[new]:
            found = (name, body)
    if not found:
        left.append(goal)
        continue
    name, body = found
    lines = body.split("\n")
    at = next(k for k, line in enumerate(lines) if k and line.startswith(name + " "))
    unfolds = [line for line in lines[1:at] if line.startswith("unfolding")]
    right = "\n".join(lines[at:]).partition(" =")[2]
    right = it.turned(right)
    right = re.sub(r"\bc\.requires\.1(?=\W)", "c.requires", right).replace("c.requires.0.here", "c.requires.0.here")
    texts.append("\n".join([f"pub {goal} : goal.{goal}", *unfolds, f"{goal} t c ={right}"]))
imports = [line for line in head if line.startswith("use ") and not re.search(r"\.(Reads|Kinds|Tie)\b|Lts-|borrow\.Fn|\{statement\}|Author.Rules", line)]
imports.insert(0, "use borrow.Author.Rules.{rules}")
imports.append(f"use Rattle.{crate}.proofs.+{cycle}.Goals as goal")
open(f"proofs/+{cycle}/Answers.antt", "w").write("\n".join(imports) + "\n\n" + "\n\n".join(helpers + texts) + "\n")
print("left", left)
