#!/usr/bin/env python3
"""Takes the choice `if b then x else y` from the library in place of this repository's own: `rt ci` lets no crate have one of its own under that name.
Both compute alike. The library's binds tighter and doesn't nest to the right, so a choice behind `else` is put in parentheses.

usage: choice.py CRATES_FOLDER
"""
import re
import sys
from pathlib import Path

NAME = "if◌then◌else◌"
OWN = "Rattle.terms.specs.Terms"
STD = "Rattle.std.specs.Prelude"
PART = re.compile(r"--[^\n]*|\"[^\"\n]*\"|[^\s(){}\[\],;]+|[(){}\[\],;]|\n")
ENDS = {")", "]", "}", ",", ";", "in", "|", "→", "≡", "×", "↔"}


def nested(text):
    """Parentheses round each choice that stands behind `else`."""
    parts = [(found.start(), found.group()) for found in PART.finditer(text)]
    opened, closed = {}, {}
    brackets = 0
    for number, (at, part) in enumerate(parts):
        if part == "\n" and number + 1 < len(parts) and parts[number + 1][1] != "\n" and text[at + 1 : at + 2] not in (" ", ""):
            brackets = 0
        brackets += part in "([{" and len(part) == 1
        brackets -= part in ")]}" and len(part) == 1
        if part != "if" or not behind_else(parts, number):
            continue
        end = end_of(text, parts, number, brackets > 0)
        opened[at] = opened.get(at, 0) + 1
        closed[end] = closed.get(end, 0) + 1
    out, last = [], 0
    for at in sorted(opened.keys() | closed.keys()):
        out += [text[last:at], ")" * closed.get(at, 0), "(" * opened.get(at, 0)]
        last = at
    return "".join(out) + text[last:]


def behind_else(parts, number):
    number -= 1
    while number >= 0 and parts[number][1] == "\n":
        number -= 1
    return number >= 0 and parts[number][1] == "else"


def end_of(text, parts, number, in_brackets):
    """Where the choice ends that begins at this part: behind its last part."""
    depth = waiting = 0
    last = number
    start = text.rfind("\n", 0, parts[number][0]) + 1
    indent = len(text[start:]) - len(text[start:].lstrip(" "))
    for here in range(number, len(parts)):
        at, part = parts[here]
        if part.startswith("--"):
            continue
        if part == "\n":
            follows = text[at + 1 :].split("\n", 1)[0]
            if not in_brackets and not depth and not follows.lstrip().startswith(("else", "then")):
                if len(follows) - len(follows.lstrip(" ")) <= indent:
                    break
            continue
        if not depth and part == "if":
            waiting += 1
        elif not depth and part == "else":
            if not waiting:
                break
            waiting -= 1
        elif not depth and part in ENDS and not waiting:
            break
        depth += part in ("(", "[", "{")
        depth -= part in (")", "]", "}")
        last = here
    return parts[last][0] + len(parts[last][1])


def imported(text, rust):
    """The name taken from the library, in what a file brings in."""
    start, end = ("ghost use ", ";") if rust else ("use ", "")
    own = re.compile(rf"(?m)^({start}{re.escape(OWN)}\.\{{)([^}}]*)\}}{end}\n")

    def without(found):
        names = [name.strip() for name in found[2].split(",") if name.strip() and name.strip() != NAME]
        return f"{found[1]}{', '.join(names)}}}{end}\n" if names else ""

    if not any(NAME in found[2] for found in own.finditer(text)):
        return text
    text = own.sub(without, text)
    std = re.compile(rf"(?m)^({start}{re.escape(STD)}\.\{{[^}}]*)\}}{end}$")
    if std.search(text):
        return std.sub(lambda found: f"{found[1].rstrip().rstrip(',')}, {NAME}}}{end}", text, count=1)
    line = f"{start}{STD}.{{{NAME}}}{end}\n"
    first = re.search(rf"(?m)^{start}", text)
    if not first:
        first = re.search(r"(?m)^(?!--|//|#!|\n)", text)
    return text[: first.start()] + line + text[first.start() :]


def main():
    crates = Path(sys.argv[1])
    for path in sorted([*crates.glob("*/specs/**/*.antt"), *crates.glob("*/proofs/**/*.antt"), *crates.glob("*/src/**/*.rt")]):
        old = path.read_text(encoding="utf-8")
        rust = path.suffix == ".rt"
        if path.match("terms/specs/Terms.antt"):
            new = re.sub(rf"(?m)^infixr 3 {NAME}\n(?:--[^\n]*\n)*abbrev pub {NAME} :[^\n]*\n(?:if (?:true|false) then[^\n]*\n)+\n", "", old)
            if new != old:
                new = new.replace("written in: a choice, a range,", "written in: a range,")
                new = re.sub(rf"(?m)^(use {re.escape(STD)}\.\{{[^}}]*)\}}$", rf"\1, {NAME}}}", new, count=1)
        else:
            new = imported(old, rust)
        if not rust:
            new = nested(new)
        if new != old:
            path.write_text(new, encoding="utf-8")
            print("turned", path)
    # a line of a chain, in an edit: the chain's last line keeps its text before the parentheses
    for path in sorted([*crates.glob("*/must-fail/*.edit"), *crates.parent.glob("tools/compare/wrong/*.edit")]):
        old = path.read_text(encoding="utf-8")
        new = re.sub(r"(?m)^((?:old|new): +else )if (?=.* then )", r"\1(if ", old)
        if new != old:
            path.write_text(new, encoding="utf-8")
            print("turned", path)


main()
