"""What crates.txt says: the crates of this repository and what each depends on."""
from pathlib import Path

ROOT = Path(__file__).resolve().parent.parent


# the crates of definitions, whose files have names of their own
DEFINITIONS = ("model", "reports", "planning", "upkeep_policy")


def definitions(root=ROOT):
    """Every file of definitions, by its name."""
    files = (path for crate in DEFINITIONS for path in (root / "crates" / crate / "specs").glob("*.antt"))
    return {path.stem: path for path in files if path.stem != "Lib"}


def listed():
    """Every crate with its dependencies, in the order of crates.txt."""
    lines = {}
    for line in (ROOT / "crates.txt").read_text().splitlines():
        name, colon, deps = line.partition("#")[0].partition(":")
        if colon:
            lines[name.split()[0]] = deps.split()
    return lines


def needed(crate):
    """A crate and all that it depends on in this repository, in the order of crates.txt, each with its dependencies."""
    lines, todo, done = listed(), [crate], []
    while todo:
        name = todo.pop()
        if name in lines and name not in done:
            done.append(name)
            todo += lines[name]
    return {name: lines[name] for name in lines if name in done}
