#!/usr/bin/env python3
"""Runs docs/C.md's story of examples/ward.c word by word, in a folder of its own, and compares all that is printed.

A line of the story that starts with '$ ' is a command, the lines below it are what it prints. Where the text is
not what the commands do, the difference is shown and the exit status is 1.
"""
import difflib
import pathlib
import subprocess
import sys
import tempfile

ROOT = pathlib.Path(__file__).resolve().parent.parent
NEEDED = ["include", "lib", "examples", "target"]
FIRST = "-o ward"


def story():
    """The lines of the block of docs/C.md that builds ward, without their indent."""
    blocks = (ROOT / "docs/C.md").read_text().split("\n\n")
    found = [block for block in blocks if block.startswith("    $ ") and FIRST in block.split("\n")[0]]
    if len(found) != 1:
        sys.exit(f"docs/C.md has {len(found)} stories of ward")
    return [line.removeprefix("    ") for line in found[0].splitlines()]


def script(commands):
    """All commands in one shell, each told before it is run."""
    lines = ["set -u"]
    for command in commands:
        lines += [f"printf '%s\\n' {shell_quoted('$ ' + command)}", "{ " + command + "\n} 2>&1"]
    return "\n".join(lines)


def shell_quoted(text):
    return "'" + text.replace("'", "'\\''") + "'"


def run(commands):
    with tempfile.TemporaryDirectory() as folder:
        for name in NEEDED:
            (pathlib.Path(folder) / name).symlink_to(ROOT / name)
        done = subprocess.run(["bash", "-c", script(commands)], cwd=folder, capture_output=True, text=True, timeout=120)
    return done.stdout.splitlines()


def main():
    told = story()
    came = run([line.removeprefix("$ ") for line in told if line.startswith("$ ")])
    if came == told:
        print(f"docs/C.md's story of ward: {sum(line.startswith('$ ') for line in told)} commands, as it says")
        return 0
    print(*difflib.unified_diff(told, came, "docs/C.md", "what the commands print", lineterm=""), sep="\n")
    return 1


if __name__ == "__main__":
    sys.exit(main())
