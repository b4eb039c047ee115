#!/usr/bin/env python3
"""Turns whole proofs of functions without loops, whose names are today's, to answers: of each goal that the proof says more of than
`search rules`. The check finds the others.

usage: answers.py CRATE_FOLDER FUNCTION..     FUNCTION as a path below proofs/
"""
import re
import sys
from pathlib import Path

from names import Steps, generated

TRIVIAL = {"search rules", "search (rules)", "search needs"}


def parts(text):
    """The imports and comments at the head, the definitions, and the arguments of the last one."""
    lines = text.rstrip("\n").split("\n")
    head = next(i for i, line in enumerate(lines) if line and not line.startswith(("--", "use ")))
    blocks, block = [], []
    for line in lines[head:]:
        if not line:
            if block:
                blocks.append(block)
            block = []
        else:
            block.append(line)
    blocks.append(block)
    return lines[:head], blocks[:-1], blocks[-1]


def arguments(block):
    """What `tie.spec` is given."""
    body = "\n".join(block)
    inner = body[body.index("tie.spec") + len("tie.spec") :].strip()
    found, depth, word = [], 0, ""
    for letter in inner:
        if depth == 0 and letter in " \n":
            if word:
                found.append(word)
            word = ""
            continue
        if letter in "([{":
            depth += 1
        if letter in ")]}":
            depth -= 1
            if depth < 0:
                break
        word += letter
    if word:
        found.append(word)
    return found


def answered(path, steps, crate):
    head, blocks, last = parts(path.read_text(encoding="utf-8"))
    module = f"Rattle.{crate.name}.proofs." + ".".join(path.parent.relative_to(crate / "proofs").parts)
    unfolding = [line for line in last if line.startswith("unfolding ")]
    given = arguments(last)
    needs = dict(zip(steps.order, given)) if len(given) == len(steps.order) else {}
    if not needs:
        print(f"{path}: {len(given)} arguments, {len(steps.order)} goals: those of no name are left out")
    named = {}
    for block in blocks:
        found = re.match(r"(?:pub )?(\S+) : tie\.Need-(\S+)", next(line for line in block if not line.startswith("--")))
        if found:
            named[found[1]] = found[2]
    out = [line for line in head if not re.search(r"\.(Statement\.\{statement\}|Tie as tie)$", line)]
    while out and not out[-1]:
        out.pop()
    out.append(f"use {module}.Goals as goal")
    if any("tie." in line and "tie.Need-" not in line for block in blocks for line in block):
        out.append(f"use {module}.Tie as tie")
    for block in blocks:
        text = "\n".join(block)
        for old, new in named.items():
            text = re.sub(rf"(?m)^(?:pub )?{re.escape(old)} : tie\.Need-{re.escape(new)}(?= |$)", f"pub {new} : goal.{new}", text)
            text = re.sub(rf"(?m)^{re.escape(old)} (?=\w+.* =)", f"{new} ", text)
        out += ["", text]
    for need, term in needs.items():
        bound = re.fullmatch(r"\(λ ([^.]+)\. (.*)\)", term, re.S)
        if not bound or bound[2].strip() in TRIVIAL:
            continue
        out += ["", f"pub {need} : goal.{need}", *unfolding, f"{need} {bound[1]} = {bound[2]}"]
    return "\n".join(out) + "\n"


def main():
    crate = Path(sys.argv[1]).resolve()
    names, all_steps = generated(crate)
    for key, entry in names.items():
        if "-proofs." not in key or not key.endswith(".Lts"):
            continue
        path = key.split("-proofs.", 1)[1].removesuffix(".Lts").replace(".", "/")
        proof = crate / "proofs" / path / "Proof.antt"
        if path in sys.argv[2:] and proof.is_file():
            text = answered(proof, Steps(entry, all_steps[path]), crate.resolve())
            proof.with_name("Answers.antt").write_text(text, encoding="utf-8")
            proof.unlink()


if __name__ == "__main__":
    main()
