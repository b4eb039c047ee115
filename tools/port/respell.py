#!/usr/bin/env python3
"""Brings this repository's own definitions and lemmas to the spelling of today's Rattle: words in snake case, types and modules in upper camel
case. Run once, at the top of the repository, behind the kit's port.py (tools/port/run does both).

The words are those that specs/ and the lemma files of proofs/ declare; what a proof of one function declares for itself keeps its name, since
the check names most of that. Functions of src/, exported names, strings and comments' sentences are left alone. A lemma that would have the
name of a definition gets `_lem`. Each crate's root gets the line `#![tactic(auto)]`.
"""
import re
import sys
from pathlib import Path

CRATES = Path(sys.argv[1] if len(sys.argv) > 1 else ".") / "crates"
NAME = r"[^\s(){};:,.«»\"\[\]|]+"
# A definition: its name or names, then a colon; and the head of a record or a data type.
DECLARED = re.compile(rf"^ *(?:(?:abbrev|unfoldable|pub) )*({NAME}(?: {NAME})*) : ")
TOKEN = re.compile(rf"(?<![^\s(){{}};:,.«»\"\[\]|@!])({NAME})")
# Lemmas that fall together with a definition, as they are spelled behind port.py.
LEMMAS = {
    "in_map": ("answers/proofs", "in_map_lem"),
    "ill-at": ("", "ill_at_lem"),
    "run_end": ("runs/proofs", "run_end_lem"),
    "ascii-at": ("", "ascii_at_lem"),
    "keylike-end": ("", "keylike_end_lem"),
    "placed-of": ("", "placed_of_lem"),
    "of_length": ("kinds/proofs", "of_length_lem"),
    "at-fault": ("", "at_fault_lem"),
    "tables-verdict": ("", "tables_verdict_lem"),
    "refused-count": ("", "refused_count_lem"),
}


def snake(name):
    return re.sub(r"(?<=[a-z0-9])([A-Z])", lambda m: "_" + m[1].lower(), name).replace("-", "_")


def is_shared(path):
    """A file of specs/, or a lemma file: not one of a function's folder."""
    parts = path.relative_to(CRATES).parts
    return parts[1] == "specs" or parts[1] == "proofs" and len(parts) == 3


def declared():
    for path in sorted(CRATES.glob("*/*/**/*.antt")):
        if is_shared(path):
            for line in path.read_text(encoding="utf-8").splitlines():
                found = DECLARED.match(line)
                if found and not line.lstrip().startswith(("--", "use ", "mod ", "pub mod", "let ", "open ")):
                    yield from found[1].split()


def words():
    """Each own name that is spelled otherwise, with today's spelling."""
    found = {name: snake(name) for name in declared() if re.match(r"[a-z].*(?:[A-Z]|-)", name) and "◌" not in name}
    return {name: new for name, new in found.items() if name != new and name not in LEMMAS}


def turned(text, names, path):
    def turn(found):
        name = found[1]
        where = str(path.relative_to(CRATES))
        is_path = found.start() > 0 and text[found.start() - 1] == "."
        if name in LEMMAS and where.startswith(LEMMAS[name][0]) and not is_path:
            return LEMMAS[name][1]
        if name in names:
            return names[name]
        return name

    return TOKEN.sub(turn, text)


def antt(path, names):
    """A file of antt: its code, and in its comments only the words between backquotes or in camel case."""
    lines = []
    for line in path.read_text(encoding="utf-8").split("\n"):
        code, mark, comment = line.partition("--") if re.match(r"\s*--|.* -- ", line) else (line, "", "")
        lines.append(turned(code, names, path) + mark + camel(comment, names))
    return "\n".join(lines)


def camel(text, names):
    return re.sub(r"(?<![\w'-])[a-z]+[A-Z]\w*(?![\w'-])", lambda m: names.get(m[0], m[0]), text)


def rust(path, names):
    """A file of code: its imports of ghosts and its clauses, which may go over several lines."""
    lines, deep = [], 0
    for line in path.read_text(encoding="utf-8").split("\n"):
        if deep or re.match(r"ghost use |\s+(?:ensures|requires)\b", line):
            deep += line.count("{") - line.count("}")
            lines.append(turned(line, names, path))
        else:
            lines.append(camel(line, names) if line.lstrip().startswith("//") else line)
    return "\n".join(lines)


def edit(path, names):
    """A wrong edit: the texts of definitions and clauses."""
    lines, file = [], ""
    for line in path.read_text(encoding="utf-8").split("\n"):
        file = line[6:] if line.startswith("file: ") else file
        is_text = line.startswith(("old: ", "new: "))
        is_ghost = file.endswith(".antt") or re.match(r"(old|new): *(ensures|requires|ghost use)", line)
        lines.append(line[:5] + turned(line[5:], names, path) if is_text and is_ghost else camel(line, names))
    return "\n".join(lines)


def with_tactic(text):
    """A root file with the line that asks for tactics, behind its opening comment."""
    if "#![tactic(auto)]" in text:
        return text
    lines = text.split("\n")
    head = next(i for i, line in enumerate(lines) if not line.startswith("//!"))
    gap = [] if not lines[head].strip() else [""]
    return "\n".join(lines[:head] + ["#![tactic(auto)]"] + gap + lines[head:])


def main():
    names = words()
    for path in sorted(CRATES.glob("*/*/**/*")):
        if not path.is_file() or "out" in path.relative_to(CRATES).parts:
            continue
        old = path.read_text(encoding="utf-8")
        new = old
        if path.suffix == ".antt":
            new = antt(path, names)
        elif path.suffix == ".rt":
            new = rust(path, names)
            if path.name in ("lib.rt", "main.rt") and path.parent.name == "src":
                new = with_tactic(new)
        elif path.suffix == ".edit":
            new = edit(path, names)
        if new != old:
            path.write_text(new, encoding="utf-8")
    print(f"respell: {len(names)} names")


main()
