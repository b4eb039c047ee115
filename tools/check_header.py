#!/usr/bin/env python3
"""The numbers of include/witbox.h are the definitions': every refusal, every kind and every cap. Its functions are those that `witbox_c`
exports, and each of these is a function of `witbox` with its parameters and its clauses. Prints what differs; exit 1 then."""
import re
import sys

from repository import TOP


def text(path):
    return (TOP / path).read_text(encoding="utf-8")


def words(name):
    """A name of the definitions, in the header's spelling."""
    name = name.strip("«»").rstrip("_").replace("RArrow", "R_Arrow")
    return re.sub(r"(?<=[a-z])(?=[A-Z])", "_", name).upper()


def number(path, name):
    return re.search(rf"^{name} = (\d+)$", text(path), re.M).group(1)


def wanted():
    refusals = re.findall(r"^told \(?Refusal\.(\w+)[^=]*= row (\d+) ", text("crates/answers/specs/Refusals.antt"), re.M)
    kinds = re.findall(r"^kind_of Token\.(\S+) = (\d+)$", text("crates/kinds/specs/Kinds.antt"), re.M)
    yield "WITBOX_ACCEPTED", "0"
    yield from ((f"WITBOX_{words(name)}", n) for name, n in refusals)
    yield from ((f"WITBOX_KIND_{words(name)}", n) for name, n in kinds)
    yield "WITBOX_KIND_END", "67"
    yield "WITBOX_TEXT_CAP", number("crates/answers/specs/Caps.antt", "cap")
    yield "WITBOX_MAP_CAP", number("crates/answers/specs/Caps.antt", "map_end")
    yield "WITBOX_ROW_CAP", number("crates/listing/specs/Listings.antt", "row_cap")
    yield "WITBOX_ROW_WORDS", number("crates/listing/specs/Rows.antt", "row_words")
    counts = re.search(r"leb \(items ws\) (\d+) && leb \(listed ws\) (\d+)", text("crates/sheets/specs/Checks.antt"))
    yield "WITBOX_ITEM_CAP", counts.group(1)
    yield "WITBOX_DEPENDENCY_CAP", counts.group(2)


def functions(crate):
    """The C functions of a crate: of each name its parameters, its result and its clauses."""
    heads = re.findall(r"^pub extern \"C\" fn (\w+)(\(.*?)^\{", text(f"crates/{crate}/src/lib.rt"), re.M | re.S)
    return {name: " ".join(rest.split()) for name, rest in heads}


def unlike(header):
    """What differs of the functions."""
    ours, exported = functions("witbox"), functions("witbox_c")
    for name in sorted(ours.keys() | exported.keys()):
        if ours.get(name) != exported.get(name):
            yield f"{name}: crates/witbox_c does not export it as crates/witbox has it"
    declared = set(re.findall(r"^struct witbox_\w+ (witbox_\w+)\(", header, re.M))
    yield from (f"{name}: only one of include/witbox.h and crates/witbox_c has it" for name in sorted(declared ^ exported.keys()))


def main():
    header = text("include/witbox.h")
    found = dict(re.findall(r"^\s*(WITBOX_\w+) = (\d+)", header, re.M))
    found |= dict(re.findall(r"^#define (WITBOX_\w+) (\d+)u", header, re.M))
    want = dict(wanted())
    differ = [f"{name}: the definitions say {want.get(name)}, the header {found.get(name)}" for name in sorted(want.keys() | found.keys()) if want.get(name) != found.get(name)]
    differ += unlike(header)
    print("\n".join(differ) or f"include/witbox.h: {len(want)} numbers as in the definitions, {len(functions('witbox_c'))} functions as exported")
    sys.exit(bool(differ))


main()
