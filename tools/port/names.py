#!/usr/bin/env python3
"""Turns the names that a crate's whole proofs cite of a function's steps, which were numbers in the older Rattle, to today's, and the ways back
from a step to an earlier one, by what `rt check --generated` writes. For a crate whose source the check reads and whose lower crates are
proved. It runs once: a second run would take names of today for older ones.

usage: names.py CRATE_FOLDER [FUNCTION..]
"""
import json
import re
import subprocess
import sys
import tempfile
from pathlib import Path

WORD = r"[\w'₀₁₂₃’-]+"


def generated(crate):
    """The list of names, and of each function its steps' modules."""
    with tempfile.TemporaryDirectory() as folder:
        for flags in ([folder + "/names", "--old-names"], [folder + "/all"]):
            subprocess.run(["rt", "check", "--generated", *flags], cwd=crate, capture_output=True, text=True)
        names = json.loads(next(Path(folder, "names").rglob("names.json")).read_text(encoding="utf-8"))
        steps = {}
        for path in Path(folder, "all").rglob("Lts.antt"):
            steps[str(path.parent).split("-proofs/", 1)[-1]] = path.read_text(encoding="utf-8")
    return names, steps


def plain(name):
    """A name with its underscores as dashes, which older names had."""
    return name.replace("_", "-")


def add(table, old, new):
    if old and new:
        table.setdefault(plain(old), new)


class Steps:
    """What is known of a function's steps: today's names of its needs, places and steps; each place's parent; each need's place."""

    def __init__(self, entry, lts):
        self.needs, self.places, self.steps, self.loops = {}, {}, {}, [pair for pair, _ in entry["loops"]]
        for old, new in entry["needs"]:
            add(self.needs, old, new)
        for old, new in entry["asked_at"]:
            add(self.places, old, new)
        for (old, *_), new in zip(entry["places"], entry["places_by_name"]):
            add(self.places, old, new)
        for _, _, (old, new), *_ in entry["places"]:
            add(self.steps, old, new)
        for old, new in self.loops:
            add(self.steps, old, new)
        # what an arm's steps found stands at the arm now, by its name in the pattern
        self.found = {}
        for arm in filter(None, entry["arms"]):
            for field, step, path in arm[2]:
                if path:
                    self.found[(plain(step), *path)] = [arm[0], field]
        for old, new in self.places.items():
            base = re.sub(r"-\d+$", "", new)
            if base.startswith("In-") and base in entry["places_by_name"]:
                self.places[old] = base
        self.parent = {}
        for name, body in re.findall(r"pub record (\S+)[^\n]* : Type 0 where\n\s+pub before : (\S+)", lts):
            self.parent[name] = body
        self.at = dict(re.findall(r"Need-(\S+) =\s+\(c : ([^\s()]+)", lts))
        self.order = [new for _, new in entry["needs"]]
        # the older chain of places: each with its parent, and today's place that stands for it
        self.chain = [(old, parent) for old, parent, *_ in entry["places"]]
        self.now = []
        for new in entry["places_by_name"]:
            base = re.sub(r"-\d+$", "", new)
            self.now.append(base if base.startswith("In") and base in entry["places_by_name"] else new)

    def up(self, start, count):
        """Today's place that so many older steps lead back to."""
        at = max((i for i, new in enumerate(self.now) if new == start), default=None)
        for _ in range(count):
            if at is None:
                return None
            parent = self.chain[at][1]
            at = max((i for i, (old, _) in enumerate(self.chain[:at]) if old == parent), default=None)
        return self.now[at] if at is not None else None

    def need(self, name):
        for start in ("", "overflow-", "bounds-"):
            if name.startswith(start) and plain(name[len(start):]) in self.needs:
                return self.needs[plain(name[len(start):])]
        return name

    def path(self, dotted):
        """A path of fields, respelled."""
        parts, out = dotted[1:].split("."), []
        while parts:
            for length in range(len(parts), 1, -1):
                key = (plain(parts[0]), *parts[1:length])
                if key in self.found:
                    out += self.found[key]
                    parts = parts[length:]
                    break
            else:
                is_own = bool({"args", "ranges", "new", "result"} & set(out))
                older = {"inv": "invariant", "pre": "requires"}
                out.append(parts[0] if is_own else older.get(parts[0]) or self.steps.get(plain(parts[0]), parts[0]))
                parts = parts[1:]
        return "." + ".".join(out)

    def hops(self, start, end):
        """How often `before` leads from one place to another; None where it doesn't."""
        count = 0
        while start and start != end:
            start, count = self.parent.get(start), count + 1
        return count if start else None


def chain(var, count):
    return var + ".before" * count


def turned(text, steps):
    for old, new in steps.loops:
        for word in ("invariant", "decreases"):
            text = re.sub(rf"(?<![\w'-])tie\.{word}-{re.escape(old)}(?![\w'-])", f"tie.{word}-{new}", text)

    def turn_tie(found):
        name = found[1]
        if name.startswith("Need-"):
            return "tie.Need-" + steps.need(name[5:])
        return "tie." + steps.places.get(plain(name), name)

    # what is bound to a step's arguments has their fields
    own = set(re.findall(r"let (\w+) = [^\n]*\.args in", text))
    lines = []
    for line in text.split("\n"):
        if not line.lstrip().startswith(("use ", "--")):
            line = re.sub(rf"(?<![\w'.-])tie\.([\w'-]+)", turn_tie, line)
            line = re.sub(r"([\w'’₀₁₂₃)]+)((?:\.[\w'-]+)+)", lambda m: m[1] + (m[2] if m[1] in own else steps.path(m[2])), line)
            # a step's fields are those of each later one too
            line = re.sub(rf"({WORD})(?:\.before)+\.(?!before)(?=[\w'])", r"\1.", line)
        lines.append(line)
    return "\n".join(lines)


def led(text, steps):
    """The ways back, counted anew: in a typed let, and where a lemma about a place is given an earlier one of the step at hand."""
    takes = dict(re.findall(rf"(?m)^(?:abbrev )?({WORD}) : (?:\(\w+ : )?tie\.({WORD})", text))
    takes = {name: place for name, place in takes.items() if not place.startswith(("Need-", "invariant-", "decreases-"))}
    alias = dict(re.findall(rf"(?m)^abbrev ({WORD}) : Type 0\n{WORD} = tie\.({WORD})", text))
    for name, place in re.findall(rf"(?m)^(?:abbrev |pub )?({WORD}) : (?:\(\w+ : )?(?:tie\.)?({WORD})\)?(?= )", text):
        if place in alias:
            takes.setdefault(name, alias[place])
    out, place = [], None
    known = {}

    def given(line):
        """The ways back in what lemmas about a place are given."""
        for name, to in takes.items():
            for var, here in known.items():
                hops = steps.hops(here, to)
                if hops is not None:
                    cited = rf"(?<![\w'.-]){re.escape(name)} {re.escape(var)}(?:\.before)+(?![\w'.-])"
                    line = re.sub(cited, f"{name} {chain(var, hops)}", line)
        return line

    for line in text.split("\n"):
        head = re.match(rf"(?:abbrev |pub )?({WORD}) : (.*)", line)
        if head:
            need = re.search(rf"tie\.Need-({WORD})", head[2])
            place = steps.at.get(need[1]) if need else takes.get(head[1])
            known = {}
            target = re.search(rf"→ (?:tie\.)?({WORD})(?: {WORD})*$", line)
            back = alias.get(target[1], target[1]) if target else None
            name = head[1]
        if place:
            bound = re.match(rf"{WORD} (\w+)(?: κs)? =", line)
            if bound and head is None:
                known = {bound[1]: place}
                if back:
                    hops = steps.hops(place, back)
                    if hops is not None:
                        line = f"{name} {bound[1]} = {chain(bound[1], hops)}"
            typed = re.search(rf"let (\w+) : (?:tie\.)?({WORD})[^=]*= (\w+)(?:\.before)* in", line)
            if typed and typed[3] in known:
                to = alias.get(typed[2], typed[2])
                hops = steps.hops(known[typed[3]], to)
                if hops is not None:
                    line = re.sub(rf"= {typed[3]}(?:\.before)* in", f"= {chain(typed[3], hops)} in", line)
                known[typed[1]] = to
            free = re.search(rf"let (\w+) = (\w+)((?:\.before)+) in", line)
            if free and free[2] in known:
                to = steps.up(known[free[2]], free[3].count(".before"))
                hops = steps.hops(known[free[2]], to) if to else None
                if hops is not None:
                    line = line.replace(free[0], f"let {free[1]} = {chain(free[2], hops)} in")
                    known[free[1]] = to
        if head:
            binder = re.search(rf"\((\w+) : (?:tie\.)?({WORD})", head[2])
            if binder and (binder[2] in alias or binder[2] in steps.parent):
                known = {binder[1]: alias.get(binder[2], binder[2])}
                place = place or known[binder[1]]
        out.append(given(line) if place or known else line)
    start = next((i for i, line in enumerate(out) if line.strip() == "(tie.spec"), None)
    if start is not None:
        answers = [i for i in range(start + 1, len(out)) if out[i].strip()]
        for i, need in zip(answers[-len(steps.order):] if len(answers) >= len(steps.order) else [], steps.order):
            bound = re.match(r"\s*\(λ (\w+)", out[i])
            if bound and steps.at.get(need):
                known = {bound[1]: steps.at[need]}
                out[i] = given(out[i])
    return "\n".join(out)


def main():
    crate = Path(sys.argv[1])
    wanted = sys.argv[2:]
    names, all_steps = generated(crate)
    for key, entry in names.items():
        if "-proofs." not in key or not key.endswith(".Lts"):
            continue
        path = key.split("-proofs.", 1)[1].removesuffix(".Lts").replace(".", "/")
        if wanted and path not in wanted:
            continue
        proof = crate / "proofs" / path / "Proof.antt"
        if proof.is_file():
            old = proof.read_text(encoding="utf-8")
            steps = Steps(entry, all_steps[path])
            new = led(turned(old, steps), steps)
            function = path.rsplit("/", 1)[-1]
            new = re.sub(rf"(?<![\w'-]){re.escape(function.replace('_', '-'))}-spec(?![\w'-])", f"{function}_spec", new)
            if new != old:
                proof.write_text(new, encoding="utf-8")
                print("turned", proof)


if __name__ == "__main__":
    main()
