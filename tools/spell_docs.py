#!/usr/bin/env python3
"""Brings the names of definitions and lemmas in the documents and tools to snake case, as tools/spell.py did in crates/.

usage: tools/spell_docs.py COMMIT FILE..    COMMIT: the last one before the port; only names that its sources had are turned
"""
import re
import subprocess
import sys

from spell import CAMEL, snake


def known(commit):
    """The camel-case names in the sources of a commit."""
    files = subprocess.run(["git", "ls-tree", "-r", "--name-only", commit, "crates"], capture_output=True, text=True, check=True).stdout
    words = set()
    for path in files.split("\n"):
        if path.endswith((".antt", ".rt")):
            text = subprocess.run(["git", "show", f"{commit}:{path}"], capture_output=True, text=True, check=True).stdout
            words |= set(CAMEL.findall(text))
    return words


def main(commit, paths):
    words = known(commit)
    for path in paths:
        with open(path, encoding="utf-8") as f:
            text = f.read()
        new = CAMEL.sub(lambda m: snake(m.group()) if m.group() in words else m.group(), text)
        if new != text:
            with open(path, "w", encoding="utf-8") as f:
                f.write(new)
            print(path)


if __name__ == "__main__":
    main(sys.argv[1], sys.argv[2:])
