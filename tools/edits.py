#!/usr/bin/env python3
"""Tries the must-fail edits that are not in the gate: tests/edits/CRATE/LABEL.edit, each of which the prover must refuse.

    python3 tools/edits.py [--gate] [--jobs N] [CRATE ...]      those of the crates named, or all (long)

--gate tries the gate's edits too, which stand in the crates' folders must-fail.

It works on copies in target/edits, one for each job; what this machine has proved is not proved again. Each edit is
tried by `rt check` in the crate's folder, which checks again only what the edit reaches. A first error that is a name
that cannot be named there, or a list of another length, shows nothing of a fact: it is reported, and fails.
Exit status: 0 where every edit is refused by a fact.
"""
import argparse
import os
import re
import shutil
import subprocess
import sys
from concurrent.futures import ThreadPoolExecutor

from crates import ROOT, listed

COPIES = ROOT / "target/edits"
EDITS = ROOT / "tests/edits"
# what antt says where the code asks for other needs than the proof lists: a name, or the list, that no longer fits
UNFIT = re.compile(r"can be named (?:from )?here|has no field|not in scope|-spec`: expected type")


def lay_out(copy):
    """A copy of the crates without the gate's edits and without what is built."""
    copy.mkdir(parents=True)
    shutil.copy(ROOT / "crates.txt", copy)
    shutil.copytree(ROOT / "crates", copy / "crates", ignore=shutil.ignore_patterns("must-fail", "out"))


def replacements(edit):
    """The edit's file, old and new text, one for each pair; what is neither is passed over, as `rt` does."""
    file = old = ""
    for line in edit.read_text().splitlines():
        word, _, rest = line.partition(": ")
        if word == "file":
            file = rest
        elif word == "old":
            old = rest
        elif word == "new" or line == "new:":
            yield file, old, rest


def apply(folder, edit):
    """Writes the edit; gives back the texts that undo it, and what makes it no edit, if anything does."""
    before = {}
    for file, old, new in replacements(edit):
        path = folder / file
        text = path.read_text() if path.is_file() else ""
        before.setdefault(path, text)
        if old == "" or text.count(old) != 1:
            return before, f"its old text stands {text.count(old)} times in {file}"
        path.write_text(text.replace(old, new))
    return before, "" if before else "it has no old and new text"


def verdict(copy, crate):
    """What the prover says of the crate as it stands: refused by a fact, or the words that say what else."""
    folder = copy / "crates" / crate
    run = subprocess.run(["rt", "check"], cwd=folder, capture_output=True, text=True, errors="replace")
    lines = (run.stdout + run.stderr).splitlines()
    errors = [line for line in lines if ": error: " in line]
    if run.returncode == 0:
        return "TAKEN"
    if run.returncode != 1 or not any(line.startswith("logic=not-proved") for line in lines):
        return "BAD EDIT: it did not reach the prover: " + " ".join(lines[-1:])
    if errors and UNFIT.search(errors[0]):
        return "UNFIT: it only makes the proof unfit for the code, and shows nothing"
    return "refused"


def edits_of(crate, gate):
    """The crate's edits: those outside the gate, and the gate's where they are asked for."""
    inside = (ROOT / "crates" / crate / "must-fail").glob("*.edit") if gate else []
    return sorted([*(EDITS / crate).glob("*.edit"), *inside])


def try_crate(copy, crate, edits):
    """Tries a crate's edits; gives the number that are not refused by a fact."""
    failed = 0
    for edit in edits:
        before, bad = apply(copy / "crates" / crate, edit)
        words = f"BAD EDIT: {bad}" if bad else verdict(copy, crate)
        for path, text in before.items():
            path.write_text(text)
        failed += words != "refused"
        print(f"{crate}/{edit.stem}: {words}", flush=True)
    return failed


def main():
    words = argparse.ArgumentParser()
    words.add_argument("--gate", action="store_true")
    words.add_argument("--jobs", type=int, default=os.cpu_count() or 1)
    words.add_argument("crates", nargs="*")
    given = words.parse_args()
    edits = {crate: edits_of(crate, given.gate) for crate in listed()}
    there = [crate for crate in edits if edits[crate]]
    wanted = given.crates or there
    unknown = [crate for crate in wanted if crate not in there]
    unknown += [folder.name for folder in EDITS.iterdir() if folder.name not in edits]
    if unknown:
        sys.exit(f"tests/edits: no edits of a listed crate: {' '.join(unknown)}")
    shutil.rmtree(COPIES, ignore_errors=True)
    # the crates with most edits first, each to the copy that is free next
    free = [COPIES / str(job) for job in range(given.jobs)]
    for copy in free:
        lay_out(copy)

    def work(crate):
        copy = free.pop()
        try:
            return try_crate(copy, crate, edits[crate])
        finally:
            free.append(copy)

    with ThreadPoolExecutor(given.jobs) as pool:
        failed = sum(pool.map(work, sorted(wanted, key=lambda crate: -len(edits[crate]))))
    tried = sum(len(edits[crate]) for crate in wanted)
    print(f"edits: {tried} tried, {failed} not refused by a fact")
    return 1 if failed else 0


if __name__ == "__main__":
    sys.exit(main())
