#!/usr/bin/env python3
"""Turns proofs that walk the code by `tie` into Invariants and Answers.

usage: answers.py OLD_PROOFS NAMES CRATE invariants|answers FUNCTION [GOAL..]

OLD_PROOFS is the crate's old proofs/ folder, NAMES the file that `rt check --generated DIR --old-names` writes.
`invariants` writes proofs/F/Invariants.antt from the loops of the old proof; `answers` adds to proofs/F/Answers.antt the
old answers to the goals that are named.
"""
import json
import os
import re
import sys

HEAD = re.compile(r"(?m)^(?:(?:abbrev|pub|unfoldable) )*(\S+) : ")
STEP = re.compile(r'(?<![^\s(){},;\[\]=→])c((?:\.before)*)((?:\.[^\s(){}.,;\[\]]+)*)')
DROPPED = re.compile(r"proofs\.[^\s]*\.(Statement|Tie|Needs|Goals|Given)\b|borrow\.Author\.Rules")


def blocks(text):
    """Returns the top-level declarations of a file: its head lines and each block's name and text."""
    lines = text.split("\n")
    starts = [k for k, line in enumerate(lines) if HEAD.match(line)]
    head, found = lines[: starts[0]] if starts else lines, []
    # A comment stands with the declaration below it.
    for n, k in enumerate(starts):
        end = starts[n + 1] if n + 1 < len(starts) else len(lines)
        body = lines[k:end]
        while body and (not body[-1].strip() or body[-1].startswith("--")):
            body.pop()
        found.append((HEAD.match(lines[k])[1], "\n".join(body)))
    while head and head[-1].startswith("--"):
        head.pop()
    return head, found


def plain(name):
    return name.replace("-", "_")


class Function:
    def __init__(self, old, names, crate, function):
        self.crate, self.function = crate, function
        path = "/".join([old, *function.split("::"), "Proof.antt"])
        self.has_old = os.path.exists(path)
        self.head, self.blocks = blocks(open(path).read()) if self.has_old else ([], [])
        key = f"Rattle-{crate}-proofs.{function.replace('::', '.')}.Lts"
        self.names = names.get(key)

    # ---- names

    def goals(self):
        """Returns old name -> new name of the goals."""
        return {plain(old): new for old, new in self.names["needs"]}

    def steps(self):
        """Returns old step -> the new steps that it may be, each with its renamed fields."""
        found = {}
        arms = {}
        for place, arm in zip(self.names["places"], self.names["arms"]):
            old, new = place[2]
            found.setdefault(plain(old), []).append((new, {a: b for a, b in place[4]}))
            if arm:
                for field, step, path in arm[2]:
                    arms.setdefault(plain(step), []).append((path, arm[0], field))
        return found, arms

    def step(self, m):
        befores, path = m[1], [it for it in m[2].split(".") if it]
        if not path:
            return "c"
        found, arms = self.steps()
        first = plain(path[0])
        typed = {plain(step): variable for place in self.names["typed"] for variable, step in place}
        if first in typed and path[1:2] == ["given"]:
            return ".".join(["c", "type_inv", typed[first], *path[2:]])
        if first in found and path[0] not in ("args", "requires"):
            news = found[first]
            held = [it for it in arms.get(first, []) if path[1 : 1 + len(it[0])] == it[0]]
            held = [it for it in held if it[0] or path[1:2] == ["rest"] or first != "match"]
            if held:
                long, arm, field = max(held, key=lambda it: len(it[0]))
                if not long and "default" not in arm and any("default" in it[1] for it in held):
                    long, arm, field = next(it for it in held if "default" in it[1])
                return ".".join(["c", arm, field, *path[1 + len(long) :]])
            new, fields = news[0]
            rest = path[1:]
            if rest and rest[0] in fields:
                rest = [fields[rest[0]], *rest[1:]]
            elif rest and any(rest[0] in f for _, f in news):
                rest = [next(f[rest[0]] for _, f in news if rest[0] in f), *rest[1:]]
            return ".".join(["c", new, *rest])
        if first == "args" and len(path) > 1:
            path[1] = self.parameter(path[1])
        return ".".join(["c", first if "-" in path[0] else path[0], *path[1:]])

    def parameter(self, name):
        """A parameter that the old checker numbered, by its name."""
        if not re.fullmatch(r"t\d+", name):
            return plain(name)
        last = self.function.split("::")[-1]
        for folder, _, files in os.walk("src"):
            for file in files:
                m = re.search(rf"\bfn {last}\(([^)]*)\)", open(f"{folder}/{file}").read())
                names = [it.split(":")[0].strip() for it in m[1].split(",") if ":" in it] if m else []
                if int(name[1:]) <= len(names):
                    return names[int(name[1:]) - 1]
        return name

    def turned(self, body):
        body = STEP.sub(self.step, body)
        body = re.sub(r"(resolve_all[^\s(){},.]*\.new)\.0\b", r"\1.insns", body)
        # A name that was given to a place is read as the place.
        body = re.sub(r"(c\.wrapping_[a-z]+_u32[^\s(){},.]*\.ensures)(?![.\w])", r"\1.value", body)
        for alias in re.findall(r"let (\w+) = c in", body):
            path = re.compile(rf'(?<![^\s(){{}},;\[\]=→]){alias}((?:\.before)*)((?:\.[^\s(){{}}.,;\[\]]+)+)')
            body = path.sub(lambda m: alias + self.step(m)[1:], body)
        return body

    # ---- files

    def imports(self):
        kept = []
        for line in self.head:
            if line.startswith("use ") and not DROPPED.search(line):
                kept.append(line)
        return kept

    def write(self, file, texts, wanted):
        folder = "/".join(["proofs", *self.function.split("::")])
        os.makedirs(folder, exist_ok=True)
        path = f"{folder}/{file}"
        module = {"Answers.antt": "Goals", "Invariants.antt": "Given"}[file]
        if os.path.exists(path):
            text = open(path).read().rstrip("\n")
        else:
            lines = self.imports()
            if "rules" in " ".join(re.findall(r"[\w-]+", "\n".join(texts))).split():
                lines.insert(0, "use borrow.Author.Rules.{rules}")
            lines.append(f"use Rattle.{self.crate}.proofs.{self.function.replace('::', '.')}.{module} as goal")
            text = "\n".join(lines)
        open(path, "w").write(text + "\n\n" + "\n\n".join(texts) + "\n")

    def inline(self):
        """Returns old goal -> the answer that stands in the list of the old proof."""
        text = self.blocks[-1][1] if self.blocks else ""
        if "tie.spec" not in text:
            return {}
        after = text[text.index("tie.spec") + 8 :]
        items, depth, word = [], 0, ""
        for ch in after:
            if ch == "(":
                depth += 1
            if ch == ")":
                depth -= 1
                if depth < 0:
                    break
            if ch.isspace() and depth == 0:
                if word:
                    items.append(word)
                word = ""
            else:
                word += ch
        if word:
            items.append(word)
        loops = sum(1 for name, body in self.blocks if re.search(r": tie\.(invariant|decreases)-", body))
        items = [it for it in items if not re.match(r"(invariant|decreases)-", it)]
        needs = [plain(old) for old, _ in self.names["needs"]]
        if len(items) != len(needs):
            return {}
        return {need: it[1:-1] for need, it in zip(needs, items) if it.startswith("(") and "search rules" not in it}

    def invariants(self):
        texts = []
        loops = {plain(old): (new, variables) for (old, new), variables in self.names["loops"]}
        changed = {plain(it[0][0]): flags for it, flags in zip(self.names["loops"], self.names["changed"])}
        for name, body in self.blocks:
            m = re.search(r": tie\.(invariant|decreases)-(\S+)", body)
            if not m:
                continue
            kind, loop = m[1], plain(m[2])
            if loop not in loops:
                print("no loop", self.function, loop, list(loops))
                continue
            new, variables = loops[loop]
            flags = changed[loop]
            lines = body.split("\n")
            at = next(k for k, line in enumerate(lines) if line.startswith(name + " ") and ":" not in line.split("=")[0])
            unfolds = [line for line in lines[1:at] if line.startswith("unfolding")]
            definition = "\n".join(lines[at:])
            left, _, right = definition.partition(" =")
            params = left.split()[1:]
            wanted = []
            for variable, flag in zip(variables, flags):
                wanted.append(f"l.initial.{variable}" if flag else f"l.{variable}")
            wanted += [f"l.{variable}" for variable, flag in zip(variables, flags) if flag]
            if len(params) != len(wanted):
                print("params differ", self.function, params, wanted)
            table = dict(zip(params, wanted))
            right = re.sub(r"(?<![^\s(){},;\[\].])([^\s(){}.,;\[\]]+)", lambda t: table.get(t[1], t[1]) if right[t.start() - 1 : t.start()] != "." else t[1], right)
            label = f"{kind}-{new}"
            texts.append("\n".join([f"abbrev pub {label} : goal.{label}", *unfolds, f"{label} l ={right}"]))
        if texts:
            self.write("Invariants.antt", texts, None)
            print("wrote invariants of", self.function)

    def answers(self, wanted):
        goals = self.goals()
        back = {new: old for old, new in goals.items()}
        by_goal, helpers, wrote = {}, [], []
        for name, body in self.blocks[:-1]:
            m = re.search(r": tie\.Need-(\S+)", body)
            if m:
                old = plain(m[1])
                old = old if old in goals else re.sub(r"^overflow_", "", old)
                by_goal[old] = (name, body)
            elif not re.search(r": tie\.", body):
                helpers.append(body)
        inline = self.inline()
        texts, left = [], []
        for goal in wanted:
            old = back.get(goal)
            if old in by_goal:
                name, body = by_goal[old]
                lines = body.split("\n")
                at = next(k for k, line in enumerate(lines) if k and line.startswith(name + " "))
                unfolds = lines[1:at]
                definition = "\n".join(lines[at:])
                left_side, _, right = definition.partition(" =")
                texts.append("\n".join([f"pub {goal} : goal.{goal}", *unfolds, f"{goal} c ={self.turned(right)}"]))
                wrote.append(goal)
            elif old in inline and inline[old].startswith("λ c"):
                right = inline[old].partition(".")[2]
                texts.append(f"pub {goal} : goal.{goal}\n{goal} c ={self.turned(right)}")
                wrote.append(goal)
            else:
                left.append(goal)
        folder = "/".join(["proofs", *self.function.split("::")])
        if texts:
            if not os.path.exists(f"{folder}/Answers.antt"):
                texts = helpers + texts
            self.write("Answers.antt", texts, None)
        print("answers", self.function, "wrote", wrote, "left", left)


def main():
    old, names, crate, what, function, *goals = sys.argv[1:]
    it = Function(old, json.load(open(names)), crate, function)
    if not it.has_old:
        print("no old proof:", function, goals)
        return
    if it.names is None:
        print("no names:", function)
        return
    it.invariants() if what == "invariants" else it.answers(goals)


if __name__ == "__main__":
    main()
