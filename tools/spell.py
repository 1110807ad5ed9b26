#!/usr/bin/env python3
"""Brings the names of definitions and lemmas from camel case to snake case, in crates/ and in the wrong edits.

usage: tools/spell.py [ROOT]    after port.py, once

Types and modules keep upper camel case; strings, Rust code and C names have no camel case and stay. Where the new name
was taken already, in the same module or file, the name gets another word (TAKEN).
"""
import os
import re
import sys

CAMEL = re.compile(r"(?<![A-Za-z0-9_'])[a-z][a-z0-9_]*[A-Z][A-Za-z0-9_]*")
TEXT = re.compile(r'b?"(?:[^"\\\n]|\\.)*"')
TAKEN = {
    "byBytes": "by_byte_sum",
    "goesOn": "still_goes_on",
    "headRows": "heading_rows",
    "oneLeft": "state_one_left",
    "runIndex": "indexed_run",
    "sameBytes": "equal_bytes",
    "sameKind": "kind_matches",
    "samePlace": "equal_place",
    "writeDone": "write_outcome",
}


def snake(word):
    if word in TAKEN:
        return TAKEN[word]
    word = re.sub(r"([a-z0-9])([A-Z])", r"\1_\2", word)
    return re.sub(r"([A-Z]+)([A-Z][a-z])", r"\1_\2", word).lower()


def turned(text):
    return CAMEL.sub(lambda m: snake(m.group()), text)


def respelled(path, text):
    if not path.endswith(".rt"):
        return turned(text)
    parts, at = [], 0
    for m in TEXT.finditer(text):
        parts += [turned(text[at : m.start()]), m.group()]
        at = m.end()
    return "".join(parts) + turned(text[at:])


def files(root):
    for top in ("crates", "tests/edits"):
        for folder, below, names in os.walk(os.path.join(root, top)):
            below[:] = [b for b in below if b != "out"]
            yield from (os.path.join(folder, n) for n in names if n.endswith((".rt", ".antt", ".edit")))


def main(root):
    for path in sorted(files(root)):
        with open(path, encoding="utf-8") as f:
            text = f.read()
        new = respelled(path, text)
        if new != text:
            with open(path, "w", encoding="utf-8") as f:
                f.write(new)


if __name__ == "__main__":
    main(sys.argv[1] if len(sys.argv) > 1 else ".")
