#!/usr/bin/env python3
"""Each public function has at least two wrong edits that its contract rules out, and each edit fits; each function of a host has at least
two wrong answers in the table of the room `review`, and a theorem there that its contract bars them. Prints what is missing; exit 1 then.

An edit of crates/NAME/must-fail counts for a function if it changes that function, one of the same crate that it calls, or a definition of
the same crate that one of their contracts cites. The functions that docs/EXCEPTIONS.md names, whose contracts are no equations, are left
out. With -v it prints each function with its edits, or its number of wrong answers.
"""
import re
import sys

from repository import CRATES, TOP, changes, is_library, misfits, public

FEWEST = 2
TABLE = CRATES / "review/proofs/Wrong.antt"
THEOREMS = CRATES / "review/proofs/Barred.antt"

CODE = re.compile(r"^( *)(?:pub(?:\(crate\))? )?(?:extern \"C\" )?(?:fn|const) (\w+)")
DEFINITION = re.compile(r"^()(?:(?:unfoldable|abbrev) )?pub (?:record |data )?(\S+)")
CALL = re.compile(r"(?:(\w+)::)?(\w+)\(|\b([A-Z][A-Z_]+)\b")


class Piece:
    """A function, constant or definition: its name, with its type's where it has one, and the lines from its first on."""

    def __init__(self, path, name, whole, first, lines):
        self.path, self.name, self.whole, self.first = path, name, whole, first
        self.code = path.suffix == ".rt"
        aside = ("//", "#[") if self.code else ("--",)
        self.lines = [line for line in lines if not line.strip().startswith(aside)]

    def names(self, modules):
        """The names that it reaches, each with whether it is one of code or of a definition. A clause may go over several lines."""
        deep = 0
        for line in self.lines:
            if not self.code or deep or re.match(r" *(ensures|requires)\b", line):
                deep = deep + line.count("{") - line.count("}") if self.code else 0
                yield from ((word, False) for word in re.split(r"[^\w'-]+", line))
            else:
                for module, function, constant in CALL.findall(re.sub(r"\bfn \w+", "", line)):
                    if not module or module in modules:
                        yield function or constant, True
                    elif function:
                        yield f"{module}::{function}", True


def pieces(path):
    starts = CODE if path.suffix == ".rt" else DEFINITION
    lines = path.read_text(encoding="utf-8").splitlines()
    found, owner = [], ""
    for number, line in enumerate(lines):
        block = re.match(r"impl(?:<[^>]*>)? (?:.* for )?(\w+)", line)
        owner = block[1] + "::" if block else "" if line.startswith("}") else owner
        start = starts.match(line)
        if start and len(start[1]) == (4 if owner else 0):
            found.append((number, start[2], owner + start[2]))
    ends = [number for number, _, _ in found[1:]] + [len(lines)]
    return [Piece(path, name, whole, first, lines[first:end]) for (first, name, whole), end in zip(found, ends)]


def changed(crate, edits, parts):
    """The pieces that edits change, with the edits of each."""
    found = {}
    for edit in edits:
        for file, old in changes(edit):
            text = (crate / file).read_text(encoding="utf-8")
            line = text[: text.index(old)].count("\n")
            for piece in [piece for piece in parts if piece.path == crate / file and piece.first <= line][-1:]:
                found.setdefault(piece, set()).add(edit.stem)
    return found


def counts(crate, edits):
    """Of each public function of a crate the edits that count for it."""
    parts = [piece for path in [*sorted(crate.glob("src/**/*.rt")), *sorted(crate.glob("specs/**/*.antt"))] for piece in pieces(path)]
    modules = {"crate", "self"} | {path.stem for path in crate.glob("src/**/*.rt")}
    wrong = changed(crate, edits, parts)
    for function in public(crate):
        reached = [piece for piece in parts if piece.code and piece.whole == function]
        for piece in reached:
            names = set(piece.names(modules))
            reached.extend(other for other in parts if {(other.name, other.code), (other.whole, other.code)} & names and other not in reached)
        yield function, sorted(set().union(*(wrong.get(piece, set()) for piece in reached)))


def edited(verbose):
    """What is missing of the edits, and how many functions have theirs."""
    aside = (TOP / "docs/EXCEPTIONS.md").read_text(encoding="utf-8")
    functions, bad = 0, []
    for crate in sorted(CRATES.iterdir()):
        edits = sorted(crate.glob("must-fail/*.edit"))
        unfit = [line for edit in edits for line in misfits(edit, crate)]
        bad += unfit
        if unfit or not is_library(crate):
            continue
        for function, ruled_out in counts(crate, edits):
            owner = function.rpartition("::")[0]
            if f"`{crate.name}::{function}`" in aside or owner and f"`{crate.name}::{owner}`" in aside:
                continue
            functions += 1
            if len(ruled_out) < FEWEST:
                bad.append(f"{crate.name}::{function} has {len(ruled_out)} wrong edits: {', '.join(ruled_out) or 'none'}")
            if verbose:
                print(f"{crate.name}::{function}: {', '.join(ruled_out)}")
    return bad, functions


def answered(verbose):
    """What is missing of the wrong answers, and how many there are. A row of the table starts with the call: a host's function without
    `witbox_`; `opening` stands for `open`, a word that antt reserves."""
    rows = re.findall(r"^ +(?:∷ )?\(([a-z_]+) .* never ", TABLE.read_text(encoding="utf-8"), re.M)
    theorems = re.findall(r"^  pub ([a-z_]+)_bars : Bars (\w+)\.ended", THEOREMS.read_text(encoding="utf-8"), re.M)
    bad = []
    for function in public(CRATES / "witbox"):
        name = function.removeprefix("witbox_")
        found = rows.count("opening" if name == "open" else name)
        if found < FEWEST:
            bad.append(f"{TABLE.relative_to(TOP)} has {found} wrong answers of {function}")
        if (name, function) not in theorems:
            bad.append(f"{THEOREMS.relative_to(TOP)} has no theorem {name}_bars of {function}")
        if verbose:
            print(f"{function}: {found} wrong answers")
    return bad, len(rows)


def main():
    verbose = "-v" in sys.argv
    without_edits, functions = edited(verbose)
    without_answers, answers = answered(verbose)
    bad = without_edits + without_answers
    good = f"must-fail: each of {functions} public functions has at least {FEWEST} wrong edits; {answers} wrong answers of hosts' functions are barred"
    print("\n".join(bad) or good)
    sys.exit(bool(bad))


main()
