#!/usr/bin/env python3
"""The lines that crates/utf8_runs prints, from Python's own UTF-8 decoder and from the lists of 01, "Characters".

The program's expected output is this script's: `tools/utf8_counts.py > crates/utf8_runs/stdout`, and the gate compares the two.
"""

EDGES = [0x00, 0x7F, 0x80, 0x8F, 0x90, 0x9F, 0xA0, 0xBF, 0xC0, 0xFF]
DEPRECATED = {0x149, 0x673, 0xF77, 0xF79, 0x17A3, 0x17A4, 0x17B4, 0x17B5}
FORBIDDEN = set(range(0x202A, 0x202F)) | set(range(0x2066, 0x206A))


def first(text):
    """The first character of a text with the place behind it, or None where none stands there."""
    for size in range(1, 5):
        try:
            return ord(text[:size].decode("utf-8")), size
        except (UnicodeDecodeError, TypeError):
            continue
    return None


def tally(label, texts):
    found = [first(text) for text in texts]
    good = [f for f in found if f]
    print(
        f"{label}: characters {len(good)}, ill-formed {len(found) - len(good)}, ends 0, "
        f"sum {sum(c for c, _ in good)}, next places {sum(n for _, n in good)}"
    )


def offence(c):
    if (c < 0x20 and c not in (9, 10, 13)) or 0x7F <= c <= 0x9F:
        return 4
    if c in DEPRECATED:
        return 5
    return 6 if c in FORBIDDEN else 0


def main():
    tally("one byte", [bytes([a]) for a in range(256)])
    tally("two bytes", [bytes([a, b]) for a in range(256) for b in range(256)])
    tally("three bytes", [bytes([a, b, c]) for a in range(256) for b in EDGES for c in EDGES])
    tally("four bytes", [bytes([a, b, c, d]) for a in range(256) for b in EDGES for c in EDGES for d in EDGES])
    scalars = [c for c in range(0x110000) if not 0xD800 <= c < 0xE000]
    kinds = [offence(c) for c in scalars]
    print(
        f"scalars: none {0x110000 - len(scalars)}, read back {len(scalars)}, not 0, pass screening {kinds.count(0)}, "
        f"refused by 4 {kinds.count(4)}, by 5 {kinds.count(5)}, by 6 {kinds.count(6)}"
    )


main()
