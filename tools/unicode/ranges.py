#!/usr/bin/env python3
"""Writes the ranges of XID_Start and XID_Continue to crates/classes: src/tables.rt, specs/XidStart.antt, specs/XidContinue.antt, and how
many there are to proofs/Counts.antt.

    tools/unicode/ranges.py DERIVED_CORE_PROPERTIES DERIVED_AGE VERSION [--check]

The first two are files of the Unicode Character Database. A code point that DERIVED_AGE dates later than VERSION (14.0, say) is left out,
so files of a later version serve too. Prints how many ranges and code points each property has. With --check nothing is written: exit 1
where a file is not what would be written.
"""
import argparse
import pathlib
import re
import sys
import textwrap

CRATE = pathlib.Path(__file__).resolve().parent.parent.parent / "crates/classes"
WIDTH = 99  # of a line of an array
ROW = re.compile(r"([0-9A-F]{4,6})(?:\.\.([0-9A-F]{4,6}))?\s*;\s*([^\s;]+)\s*(?:;.*)?")


def fail(message):
    sys.exit(f"ranges.py: {message}")


def version_of(text, where):
    """A version as two numbers, which is how DerivedAge.txt dates."""
    found = re.fullmatch(r"(\d+)\.(\d+)(?:\.0)?", text)
    if not found:
        fail(f"{where}: {text} is no version of Unicode; 14.0 is one")
    return int(found[1]), int(found[2])


def rows(path):
    """The rows of a file of the database: the code points, and what is said of them."""
    try:
        lines = pathlib.Path(path).read_text(encoding="utf-8").splitlines()
    except (OSError, UnicodeDecodeError) as problem:
        fail(f"cannot read {path}: {problem}")
    for number, line in enumerate(lines, 1):
        row = line.split("#")[0].strip()
        if row:
            found = ROW.fullmatch(row)
            if not found:
                fail(f"{path}, line {number} is no row of the Unicode Character Database: {line}")
            yield range(int(found[1], 16), int(found[2] or found[1], 16) + 1), found[3]


def later(path, version):
    """The code points that are dated later than the version."""
    dated = [(points, version_of(age, path)) for points, age in rows(path)]
    if version not in {age for _, age in dated}:
        fail(f"{path} dates nothing {version[0]}.{version[1]}: is it DerivedAge.txt, of that version or a later one?")
    return {c for points, age in dated if age > version for c in points}


def having(path, wanted):
    """The code points that have a property."""
    found = {c for points, name in rows(path) if name == wanted for c in points}
    if not found:
        fail(f"{path} has no row of {wanted}: is it DerivedCoreProperties.txt?")
    return found


def ranges(points):
    """The same as ranges that ascend, with a gap between each two."""
    found = []
    for c in sorted(points):
        if found and found[-1][1] + 1 == c:
            found[-1][1] = c
        else:
            found.append([c, c])
    return found


def array(name, found):
    """A static array with as many pairs in a line as fit, where rt fmt would give each a line."""
    pairs = " ".join(f"(0x{first:X},~0x{last:X})," for first, last in found)
    body = textwrap.fill(pairs, WIDTH, initial_indent="    ", subsequent_indent="    ").replace("~", " ")
    return f"#[rattlefmt::skip]\npub(crate) static {name}: [(u32, u32); {len(found)}] = [\n{body}\n];\n"


def tables(made, lists):
    return (
        "//! The ranges of XID_Start and of XID_Continue: the first and the last code point of each.\n"
        f"//! {made}\n" + "\n".join(array(name, found) for name, found in lists)
    )


def definition(made, title, name, found):
    pairs = [f"(0x{first:X}, 0x{last:X})" for first, last in found]
    lines = [" ∷ ".join(pairs[k : k + 8]) for k in range(0, len(pairs), 8)]
    return (
        f"-- {made}\n"
        "use Rattle.std.specs.Prelude.{ℕ, List, [], ◌∷◌}\n\n"
        f"-- {title}: the first and the last code point of each range.\n"
        f"unfoldable pub {name} : List (ℕ × ℕ)\n{name} =\n    " + "\n    ∷ ".join(lines) + " ∷ []\n"
    )


def size(found):
    """How many code points the ranges have."""
    return sum(last - first + 1 for first, last in found)


def count(name, said, number, unfolded):
    return f"\n{name} : {said} ≡ {number}\nunfolding {unfolded}\n{name} = refl\n"


def counts(made, starts, continues):
    text = (
        f"-- How many ranges and code points each list has.\n-- {made}\n"
        "use Prim.Native.Nat.{ℕ, ◌+◌, ◌-◌}\nuse mathlib.Core.Path.{◌≡◌, refl}\nuse mathlib.Core.List.{List, [], ◌∷◌}\nuse lib.ListN.{length}\n"
        "use Rattle.classes.specs.XidStart.{xid_starts}\nuse Rattle.classes.specs.XidContinue.{xid_continues}\n\n"
        "-- how many code points ranges have that do not overlap\n"
        "unfoldable size : List (ℕ × ℕ) → ℕ\nsize [] = 0\nsize (r ∷ rs) = r.1 + 1 - r.0 + size rs\n"
    )
    for title, name, found in (("starts", "xid_starts", starts), ("continues", "xid_continues", continues)):
        text += count(f"{title}_ranges", f"length {name}", len(found), name)
        text += count(f"{title}_points", f"size {name}", size(found), f"{name} size")
    return text


def written(arguments):
    """The files to write, by name."""
    new = later(arguments.age, version_of(arguments.version, "VERSION"))
    starts, continues = (ranges(having(arguments.properties, title) - new) for title in ("XID_Start", "XID_Continue"))
    for title, found in (("XID_Start", starts), ("XID_Continue", continues)):
        print(f"{title}, Unicode {arguments.version}: {len(found)} ranges, {size(found)} code points")
    names = [pathlib.Path(path).name for path in (arguments.properties, arguments.age)]
    made = f"Unicode {arguments.version}, written by `tools/unicode/ranges.py {names[0]} {names[1]} {arguments.version}`; not to be changed by hand."
    return {
        "src/tables.rt": tables(made, [("STARTS", starts), ("CONTINUES", continues)]),
        "specs/XidStart.antt": definition(made, "XID_Start", "xid_starts", starts),
        "specs/XidContinue.antt": definition(made, "XID_Continue", "xid_continues", continues),
        "proofs/Counts.antt": counts(made, starts, continues),
    }


def main():
    parser = argparse.ArgumentParser(description=__doc__, formatter_class=argparse.RawDescriptionHelpFormatter)
    parser.add_argument("properties", metavar="DERIVED_CORE_PROPERTIES")
    parser.add_argument("age", metavar="DERIVED_AGE")
    parser.add_argument("version", metavar="VERSION")
    parser.add_argument("--check", action="store_true", help="write nothing; exit 1 where a file is not what would be written")
    arguments = parser.parse_args()
    other = []
    for name, text in written(arguments).items():
        path = CRATE / name
        if not arguments.check:
            path.write_text(text, encoding="utf-8")
        elif not path.is_file() or path.read_text(encoding="utf-8") != text:
            other.append(name)
    if other:
        fail(f"not what these files give: {', '.join(other)} in crates/classes")
    print("crates/classes: the files are what these give" if arguments.check else "crates/classes: written")


if __name__ == "__main__":
    main()
