#!/usr/bin/env python3
"""Writes crates/cases/specs/Opened.antt: every `unfoldable` definition of the crates that `cases` depends on.

    python3 tools/opened.py           writes the file anew
    python3 tools/opened.py --check   says whether it is as it would be written; exit status 1 where it is not
"""
import re
import sys
import textwrap

from crates import ROOT, needed

WIDTH = 120
OPENED = ROOT / "crates/cases/specs/Opened.antt"
HEAD = """\
-- Every definition that stays shut until it is named, opened by one name: a declaration that says `unfolding opened`
-- computes with all of them. Made by tools/opened.py.
"""
DECLARED = re.compile(r"^unfoldable pub (\S+)", re.M)


def definitions():
    """Crate, file and names of the `unfoldable` definitions, for each file that has some."""
    for crate in needed("cases"):
        for path in sorted((ROOT / "crates" / crate / "specs").glob("*.antt")):
            names = [] if crate == "cases" else DECLARED.findall(path.read_text())
            if names:
                yield crate, path.stem, names


def filled(front, names, between, back):
    """The names on lines that begin and end with these texts and are not wide."""
    room = WIDTH - len(front) - len(back)
    return [front + line + back for line in textwrap.wrap(between.join(names), room, break_long_words=False)]


def uses(crate, file, names):
    """`use` lines; a wrapped one ends with a comma that goes."""
    return [line.replace(",}", "}") for line in filled(f"use Rattle.{crate}.specs.{file}.{{", names, ", ", "}")]


def text():
    found = list(definitions())
    lines = [line for crate, file, names in found for line in uses(crate, file, names)]
    opened = filled("    ", [name for _, _, names in found for name in names], " ", "")
    return HEAD + "\n".join([*lines, "", "unfoldable pub opened : Unit {0}", "unfolding", *opened, "opened = tt", ""])


def faults():
    """What is wrong with the file as it stands: a line, or none."""
    if OPENED.read_text() != text():
        yield f"{OPENED.relative_to(ROOT)} is not as tools/opened.py writes it"


def main():
    if sys.argv[1:] not in ([], ["--check"]):
        sys.exit(__doc__)
    if sys.argv[1:] == []:
        OPENED.write_text(text())
    found = list(faults())
    print("\n".join(found), end="\n" if found else "")
    return 1 if found else 0


if __name__ == "__main__":
    sys.exit(main())
