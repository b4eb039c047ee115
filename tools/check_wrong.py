#!/usr/bin/env python3
"""Each edit of tools/compare/wrong fits: the lines that it changes stand in their file once. Prints what does not fit; exit 1 then.

`tools/compare/run wrong` builds these; that takes too long for the gate, but a definition that moves away from an edit is seen here.
"""
import sys

from repository import TOP, misfits


def main():
    edits = sorted((TOP / "tools/compare/wrong").glob("*.edit"))
    bad = [line for edit in edits for line in misfits(edit, TOP)]
    print("\n".join(bad) or f"tools/compare/wrong: {len(edits)} edits fit")
    sys.exit(bool(bad))


main()
