#!/usr/bin/env python3
"""The table of docs/DECISIONS.md that says what `pub` functions below the public ones ask of their callers.

It is made from the sources: --write puts it into the document; else each difference is printed, with exit status 1.
"""
import re
import sys

import crates
from crates import ROOT

DOCUMENT = ROOT / "docs/DECISIONS.md"
HEAD = "| function | asks |\n|---|---|\n"

# the crates whose functions are public
FACES = (
    "store", "inspect", "forecast", "archive_write", "archive_read", "compare", "inspect_report", "room_report",
    "planning_model",
)


# an `impl` or a `trait` at the margin, and the type or trait that it is of
OWNER = re.compile(r"^(?:pub )?(impl|trait)\b(?:<[^{]*?>)? (?:[\w:<>', ]+ for )?(\w+).*\{$")
# a function at the margin or within one of these, up to its body, or to the end of its declaration
FUNCTION = re.compile(r"^((?: {4})?)((?:pub |final )?)fn (\w+)(.*?)(?:^\1\{|;$|\{$)", re.M | re.S)


def functions(text):
    """The functions that others can call: the type or trait that each belongs to, or none, its name and contract."""
    owners = [(m.start(), *OWNER.match(m[0]).groups()) for m in re.finditer(r"^(?:pub )?(?:impl|trait)\b.*$", text, re.M)
              if OWNER.match(m[0])]
    for m in FUNCTION.finditer(text):
        kind, owner = None, None
        if m[1]:
            kind, owner = max((o for o in owners if o[0] < m.start()), default=(0, None, None))[1:]
        if m[2] == "pub " or kind == "trait":
            yield owner, m[3], m[4]


def asking(crate):
    """The crate's functions with a `requires` that others can call, those of types and traits too: module, path and what
    they ask, `x.now` and `x.old` written x."""
    source = ROOT / "crates" / crate / "src"
    for path in sorted(source.rglob("*.rt")):
        module = [word for word in path.relative_to(source).with_suffix("").parts if word != "lib"]
        for owner, name, contract in functions(path.read_text()):
            asked = re.findall(r"requires(?: \w+)? \{ (.*?) \}\n", contract, re.S)
            if asked:
                words = " ".join(re.sub(r"\s+", " ", "; ".join(asked)).split())
                words = re.sub(r"\b(\w+)\.(?:now|old)\b", r"\1", words).replace(" ;", ";")
                yield module, "::".join([crate, *module, *([owner] if owner else []), name]), words


def found():
    """What is asked, by the function's path, in the order of crates.txt."""
    below = {crate for face in FACES for crate in crates.needed(face)}
    return {path: asked for crate in crates.listed() if crate in below for _, path, asked in asking(crate)}


def made():
    return HEAD + "".join(f"| `{path}` | {asked} |\n" for path, asked in found().items())


def standing(text):
    """Where the document's table begins and ends."""
    start = text.index(HEAD)
    return start, start + re.match(r"(?:\|.*\n)+", text[start:]).end()


def differences():
    text = DOCUMENT.read_text()
    start, end = standing(text)
    if text[start:end] != made():
        yield "docs/DECISIONS.md: the table of what functions ask is not that of the sources (make docs writes it)"
    for crate in FACES:
        for module, path, _ in asking(crate):
            if crate in ("store", "inspect") or not module:
                yield f"{path}: a public function that asks something"


def main():
    if sys.argv[1:] == ["--write"]:
        text = DOCUMENT.read_text()
        start, end = standing(text)
        DOCUMENT.write_text(text[:start] + made() + text[end:])
        return 0
    told = list(differences())
    print("\n".join(told) if told else "the table of what functions ask is that of the sources")
    return 1 if told else 0


if __name__ == "__main__":
    sys.exit(main())
