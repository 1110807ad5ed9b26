#!/usr/bin/env python3
"""Proves a crate and all that it needs, and brings what is built of it to target/.

    python3 tools/prove.py check NAME       a library, or a program: target/bin/NAME
    python3 tools/prove.py staticlib NAME   a library for C: target/staticlib/libNAME.a, of the crate NAME_c, or of NAME

All that the prover prints goes to target/prove-NAME.log; where it fails, that log's first errors and its end are shown.
What is proved and unchanged is not proved again. Exit status: that of `rt`.
"""
import re
import shutil
import subprocess
import sys

from crates import ROOT, needed

# what `rt` says of a crate that it begins, and of one that is proved
BEGUN = re.compile(r"rt: chose --jobs \d+ for (\w+)")
ERRORS, END = 5, 12


def command(how, crate):
    """The command of `rt` in the crate's folder, and what it builds there and where that goes, or none."""
    folder = ROOT / "crates" / crate
    if how == "staticlib":
        archive = f"lib{crate}.a"
        return "lib", folder / "out" / archive, ROOT / "target/staticlib" / f"lib{crate.removesuffix('_c')}.a"
    if (folder / "src/main.rt").is_file():
        return "run", folder / "out" / crate, ROOT / "target/bin" / crate
    return "check", None, None


def current(crate, made):
    """What was made is there, and newer than every file of the crates that it needs (edits that must fail aside)."""
    folders = [ROOT / "crates" / name / part for name in needed(crate) for part in ("src", "specs", "proofs")]
    files = [ROOT / "crates.txt", ROOT / "rattle-kit", *(f for folder in folders for f in folder.rglob("*") if f.is_file())]
    return made is not None and made.is_file() and max(f.stat().st_mtime for f in files) < made.stat().st_mtime


def prove(word, crate, log_name):
    """Runs `rt` in the crate's folder, its output into the log; gives its exit status."""
    with open(ROOT / log_name, "w") as log:
        run = subprocess.Popen(
            ["rt", word], cwd=ROOT / "crates" / crate, stdin=subprocess.DEVNULL, stdout=subprocess.PIPE,
            stderr=subprocess.STDOUT, text=True, errors="replace",
        )
        for line in run.stdout:
            log.write(line)
            begun = BEGUN.match(line)
            if begun:
                print(f"{begun[1]} ..", flush=True)
        return run.wait()


def extract(log_name):
    """The first errors of the log, then its end."""
    lines = (ROOT / log_name).read_text(errors="replace").splitlines()
    errors = [line for line in lines[:-END] if ": error: " in line]
    return errors[:ERRORS] + [".."] + lines[-END:]


def main():
    if len(sys.argv) != 3 or sys.argv[1] not in ("check", "staticlib"):
        sys.exit(__doc__)
    how, name = sys.argv[1:]
    crate = f"{name}_c" if how == "staticlib" and needed(f"{name}_c") else name
    if not needed(crate):
        sys.exit(__doc__)
    log_name = f"target/prove-{name}.log"
    (ROOT / "target").mkdir(exist_ok=True)
    word, built, made = command(how, crate)
    if current(crate, made):
        print(f"{crate} proved (unchanged): {made.relative_to(ROOT)}", flush=True)
        return 0
    print(f"Proving {crate} and what it needs (some minutes the first time); all that rt says: {log_name}", flush=True)
    try:
        status = prove(word, crate, log_name)
    except OSError as error:
        sys.exit(f"rt: {error}: the Rattle kit is needed (rt on the path)")
    if status != 0:
        print(f"rt {word} of {crate} failed (exit status {status}). From {log_name}:", *extract(log_name), sep="\n")
        return status
    if made:
        made.parent.mkdir(parents=True, exist_ok=True)
        shutil.copy2(built, made)
        made.touch()
        print(f"{crate} proved: {made.relative_to(ROOT)}", flush=True)
    return 0


if __name__ == "__main__":
    sys.exit(main())
