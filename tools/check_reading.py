#!/usr/bin/env python3
"""docs/READING.md names every public function of the libraries and every definition file, its links lead somewhere, and the definitions
stay short, with a sentence above each. Prints what is missing; exit 1 then."""
import re
import sys

from repository import CRATES, TOP, is_library, public

MOST_LINES = 600 + 20  # of definitions that a reviewer reads: the base, and requests §3 and §6
WRITTEN = ("XidStart.antt", "XidContinue.antt")  # by tools/unicode/ranges.py, which checks them: not counted


def lines_of(spec):
    """The lines of a definition file without blanks, comments, imports and signatures."""
    plain = (line.strip() for line in spec.read_text(encoding="utf-8").splitlines())
    return sum(bool(line) and not re.match(r"--|use |infix|((unfoldable|abbrev) )?pub \S+ :", line) for line in plain)


def unsaid(spec):
    """The definitions of a file that have no sentence above them."""
    above = ""
    for line in spec.read_text(encoding="utf-8").splitlines():
        named = re.match(r"(?:unfoldable pub|abbrev pub|pub record|pub data) (\S+)", line)
        if named and not above.startswith("--"):
            yield named[1]
        if not line.startswith("infix"):
            above = line


def main():
    page = (TOP / "docs/READING.md").read_text(encoding="utf-8")
    missing = []
    lines = 0
    for crate in sorted(CRATES.iterdir()):
        if is_library(crate):
            for name in public(crate):
                if f"`{name}`" not in page and f"`{crate.name}::{name}`" not in page:
                    missing.append(f"public function {crate.name}::{name}")
        for spec in sorted(crate.glob("specs/*.antt")):
            if spec.stem in ("Lib", "inner"):
                continue
            lines += lines_of(spec) if spec.name not in WRITTEN else 0
            if f"../crates/{crate.name}/specs/{spec.name}" not in page:
                missing.append(f"definition file {spec.relative_to(TOP)}")
        for spec in sorted(crate.glob("specs/**/*.antt")):
            missing.extend(f"a sentence above {name} in {spec.relative_to(TOP)}" for name in unsaid(spec))
    if lines >= MOST_LINES:
        missing.append(f"shorter definitions: they have {lines} lines, and should have under {MOST_LINES}")
    for page_path in (TOP / "docs").glob("*.md"):
        for link in re.findall(r"\]\((?!http)([^)#]+)", page_path.read_text(encoding="utf-8")):
            if not (page_path.parent / link).exists():
                missing.append(f"link {link} of {page_path.relative_to(TOP)}")
    for link in re.findall(r"\]\((?!http)([^)#]+)", (TOP / "README.md").read_text(encoding="utf-8")):
        if not (TOP / link).exists():
            missing.append(f"link {link} of README.md")
    for edit in re.findall(r"`(\w+/must-fail/[\w.]+)`", page):
        if not (CRATES / edit).is_file():
            missing.append(f"wrong edit {edit}")
    print("\n".join(f"docs/READING.md lacks: {what}" for what in missing) or f"docs/READING.md: every public function and definition file is there; {lines} lines of definitions")
    sys.exit(bool(missing))


main()
