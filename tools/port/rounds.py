#!/usr/bin/env python3
"""Runs checks of a crate and turns old answers for the goals that are left, until nothing new is found.

usage: rounds.py OLD_REPOSITORY CRATE (in the crate's folder; the proofs/F/Proof.antt that fall are moved away)
"""
import json
import os
import re
import subprocess
import sys
import tempfile

HERE = os.path.dirname(os.path.realpath(__file__))
sys.path.insert(0, HERE)
import answers


def check(*more):
    run = subprocess.run(["rt", "check", *more], stdout=subprocess.PIPE, stderr=subprocess.STDOUT, text=True)
    return run.stdout


def main():
    repository, crate = sys.argv[1:3]
    old = f"{repository}/crates/{crate}/proofs"
    for folder, _, files in os.walk("proofs"):
        if "Proof.antt" in files and "tie" in open(f"{folder}/Proof.antt").read():
            os.remove(f"{folder}/Proof.antt")
    done, started = set(), set()
    for turn in range(12):
        names = tempfile.mkdtemp()
        check("--generated", names, "--old-names")
        table = json.load(open(f"{names}/names.json")) if os.path.exists(f"{names}/names.json") else {}
        text = check()
        progress = False
        for line in text.split("\n"):
            m = re.match(rf"fn {crate}::(\S+): no proof: (.*)", line)
            if not m:
                continue
            function = m[1]
            it = answers.Function(old, table, crate, function)
            if not it.has_old or it.names is None:
                continue
            if "Invariants.antt" in m[2] and ("invariant", function) not in started:
                started.add(("invariant", function))
                it.invariants()
                progress = True
            goals = re.search(r"`search` did not prove ((?:`[^`]+`(?:, | and )?)+)", m[2])
            goals = re.findall(r"`([^`]+)`", goals[1]) if goals else []
            goals = [g for g in goals if (function, g) not in done]
            if goals and os.path.exists("/".join(["proofs", *function.split("::"), "Invariants.antt"])) | (not it.names["loops"]):
                done.update((function, g) for g in goals)
                it.answers(goals)
                progress = True
        if not progress:
            break
    for line in text.split("\n"):
        if re.match(r"fn .*(no proof|not proved|hole|could not)", line) or re.search(r"(Proof|Answers|Invariants).antt:\d+:\d+: error", line) or "logic=" in line or re.search(r"^\./proofs/.*error", line):
            print(line[:400])


main()
