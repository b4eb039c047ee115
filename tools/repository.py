"""What the checks of this folder share: where the crates are, their public functions, and the edits of must-fail/ and compare/wrong/."""
import pathlib
import re

TOP = pathlib.Path(__file__).resolve().parent.parent
CRATES = TOP / "crates"


def is_library(crate):
    """Whether other crates can stand on it: not a program, and not a static library, whose exports are another crate's functions again."""
    is_static = re.search(rf"^{crate.name} staticlib\b", (TOP / "crates.txt").read_text(encoding="utf-8"), re.M)
    return (crate / "src/lib.rt").is_file() and not is_static


def public(crate):
    """The functions that another crate can call, as docs/READING.md names them: `pub fn` in lib.rt or in an `impl` there, or one that lib.rt
    hands on with `pub use`."""
    lib = (crate / "src/lib.rt").read_text(encoding="utf-8")
    yield from re.findall(r"^pub (?:extern \"C\" )?fn (\w+)", lib, re.M)
    for kind, body in re.findall(r"^impl (\w+) \{(.*?)^\}", lib, re.M | re.S):
        yield from (f"{kind}::{name}" for name in re.findall(r"^    pub fn (\w+)", body, re.M))
    for names in re.findall(r"^pub use \w+::(\w+|\{[^}]*\});", lib, re.M):
        yield from re.findall(r"\b[a-z]\w*", names)


def changes(edit):
    """Of each change of an edit its file and the text that it replaces. Lines of one word in a row belong together."""
    file, last, found = None, None, []
    for line in edit.read_text(encoding="utf-8").splitlines():
        word, _, rest = line.partition(":")
        if word == "file":
            file = rest.strip()
        elif word == "old" and last == "old":
            found[-1] = (file, found[-1][1] + "\n" + rest[1:])
        elif word == "old":
            found.append((file, rest[1:]))
        last = word
    return found


def misfits(edit, folder):
    """What does not fit of an edit: each text that it replaces stands once in its file, below this folder."""
    for file, text in changes(edit):
        path = folder / file
        times = path.read_text(encoding="utf-8").count(text) if path.is_file() else 0
        if times != 1:
            yield f"{edit.relative_to(TOP)}: {file} has this {times} times: {text}"
