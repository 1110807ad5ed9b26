#!/usr/bin/env python3
"""Tries wrong edits of the definitions (tools/mutants.txt): each must make a computed case or a proof fail.

An edit is applied to a copy of the crates that it needs, in a temporary folder. For `cases` the one theorem about all
rows is replaced by one declaration for each row or history that the edit names, so that a failure says which caught it;
the check must fail there, by a computed test that is now false, and nowhere else. For `history`, `reports_theory` and
`planning_theory` the check must fail in a proof of theirs or of the laws below, for `instances`, `bounds` and
`cases_neighbours` (a claim that says less, which its proofs still give) also in one of their own, and not for a name
that is missing or a text that is not read. The definitions for C (`file face/NAME`, `file called/NAME`) are tried
against `numbers`, `face_numbers`, `face_step`, `capi` or `called`, whose proofs must fail. What is proved of
the crates below an edit is not proved again.

    python3 tools/mutants.py [--only WORD] [--file NAME] [--part WORD] [--search] [--jobs N] [--texts]
                             [--crate NAME]

--only tries the edits whose name holds WORD, --file those of one definition file, --part those under the headings of
the list that hold WORD; each may be given more than once, and an edit is tried if it meets one of each option given.
--search tries each edit against every row and history, and prints all that catch it. --jobs tries N at a time, else as
many as there are cores. --texts proves nothing: it only looks whether the text that each edit replaces stands once in
its file, whether that file has the names of the text in its place, and whether there are the rows and histories that
the edits name.
Exit status 0 if every edit is caught, else 1.
"""
import argparse
import os
import re
import shutil
import subprocess
import sys
import tempfile
from concurrent.futures import ThreadPoolExecutor
from pathlib import Path

from crates import ROOT, definitions, needed
from probes import write_probe

ROW_CRATES = ("cases", "upkeep_cases")
PROOF_CRATES = ("history", "reports_theory", "planning_theory", "instances", "bounds", "cases_neighbours")
# what a wrong definition for C is tried against
C_CRATES = ("numbers", "face_numbers", "face_step", "capi", "called")
# the error of a test that computes to false; a long name puts the types on a line of their own
FALSE = r"`caught-(\d+)`: (?:expected type|.*type mismatch|.*the two types are `(?:Prim\.)?⊥` \(expected\))"
# the proofs that an edit may break
BROKEN = re.compile(rf"/crates/(laws|reports_laws|{'|'.join(PROOF_CRATES + C_CRATES)})/proofs/")
# errors that say that an edit is no definition, and nothing of what it means
NOT_READ = re.compile(
    r"Parse|cannot be named|not in scope|unknown name|was not admitted|cannot be unfolded|has no `|components"
    r"|needs a type"
)

# a name of a definition's text, and the names that it binds itself: a binding's, a record's field, a field that is read
NAME = re.compile(r"[^\s(){}\[\],;.]+")
LOCAL = re.compile(r"[^\s(){}\[\],;.]+(?= =)|(?<=[\w)]\.)[^\s(){}\[\],;.]+")


def read_edits(text):
    """The edits of the list: blocks of '== name', 'file F', 'crates C..', 'caught NAME', 'use ..' (an import more), '- old' and '+ new' lines under '# ---- part'."""
    edits, part = [], ""
    for line in text.splitlines():
        word, _, rest = line.partition(" ")
        if rest.startswith("---- ") and word == "#":
            part = rest[5:]
        elif word == "==":
            edits.append({"name": rest, "part": part, "file": "", "crates": ["cases"], "caught": [], "use": [], "old": [], "new": []})
        elif word == "file":
            edits[-1]["file"] = rest + ".antt"
        elif word == "crates":
            edits[-1]["crates"] = rest.split()
        elif word == "caught":
            edits[-1]["caught"].append(rest)
        elif word == "use":
            edits[-1]["use"].append(line)
        elif word == "-":
            edits[-1]["old"].append(rest)
        elif word == "+":
            edits[-1]["new"].append(rest)
        elif line.strip() and word != "#":
            sys.exit(f"mutants.txt: cannot read: {line}")
    return edits


def table():
    """The names of the rows and of the histories, as the specs write them."""
    rows, histories = [], []
    for path in sorted(path for crate in ROW_CRATES for path in (ROOT / "crates" / crate / "specs").glob("*.antt")):
        text = path.read_text()
        rows += re.findall(r'\brow\s+"([^"]+)"', text)
        histories += re.findall(r'\bname = "([^"]+)"', text)
    return rows, histories


def definition(folder, edit):
    """The file that the edit changes: one of the crates of definitions, or of the crate that it names."""
    crate, _, name = edit["file"].rpartition("/")
    named = folder / "crates" / crate / "specs" / name
    return named if crate else definitions(folder).get(name.removesuffix(".antt"), folder / name)


def copy(crate, to):
    """The crate and what it needs. What this machine has proved of them is not proved again: `rt check` begins with it."""
    lines = needed(crate)
    for name in lines:
        shutil.copytree(ROOT / "crates" / name, to / "crates" / name, ignore=shutil.ignore_patterns("out", "must-fail"))
    (to / "crates.txt").write_text("".join(f"{name}: {' '.join(deps)}".rstrip() + "\n" for name, deps in lines.items()))
    if crate in ROW_CRATES:
        shutil.rmtree(to / "crates/cases/proofs")
        shutil.rmtree(to / "crates" / crate / "proofs", ignore_errors=True)
        (to / "crates" / crate / "proofs").mkdir()
        (to / "crates" / crate / "proofs/Lib.antt").write_text("pub mod Probe\n")


def check(crate, to):
    """Exit status, errors (file and text) and output of the check; one that ends with neither verdict nor error is run
    again. `rt` names a file from its crate's folder, after the line that says which crate it is at."""
    for _ in range(2):
        run = subprocess.run(["rt", "check"], cwd=to / "crates" / crate, capture_output=True, text=True)
        out = run.stdout + run.stderr
        errors, at = [], crate
        for part in re.split(r"(?m)^(?=rt: chose --jobs \d+ for )", out):
            begun = re.match(r"rt: chose --jobs \d+ for (\w+)", part)
            at = begun[1] if begun else at
            found = re.findall(r"^\./(\S+?):\d+:\d+: error: (.*(?:\n  .*)*)", part, re.M)
            errors += [(f"/crates/{at}/{path}", text) for path, text in found]
        if run.returncode == 0 or errors:
            break
    return run.returncode, errors, out


def try_cases(crate, to, rows, names):
    """Which of the names catch the edit; None where it is no definition or there is no verdict."""
    write_probe(crate, to, rows, names)
    status, errors, out = check(crate, to)
    caught = []
    for path, text in errors:
        hit = re.match(FALSE, text, re.S)
        if path.endswith("/Probe.antt") and hit and "step limit" not in text:
            caught.append(names[int(hit.group(1))])
        elif "step limit" not in text:
            return None, f"{path}: {text}"
    if status not in (0, 1) or (status == 1 and not errors):
        return None, f"exit status {status} {out[-400:]}"
    return caught, ""


def try_proofs(crate, to):
    """The first proof that the edit breaks, or none; None where it is no definition."""
    status, errors, out = check(crate, to)
    if status == 0:
        return [], ""
    for path, text in errors:
        # what follows the first line is advice, which may say of a name that it is not in scope there
        if BROKEN.search(path) and not NOT_READ.search(text.split("\n")[0]):
            proof = Path(path)
            return [f"{proof.parts[proof.parts.index('proofs') - 1]}: {proof.stem} {text.split(':')[0]}"], ""
        return None, f"{path}: {text}"
    return None, f"exit status {status} {out[-400:]}"


def times(folder, edit):
    """How often the text that the edit replaces stands in its file; 0 where there is no such file."""
    path = definition(folder, edit)
    return path.read_text().count("\n".join(edit["old"])) if path.is_file() else 0


def apply(to, edit):
    """Writes the edit; gives back what undoes it."""
    path = definition(to, edit)
    if times(to, edit) != 1:
        sys.exit(f"mutants.txt: {edit['name']}: the old text stands {times(to, edit)} times in {edit['file']}")
    before = path.read_text()
    after = before.replace("\n".join(edit["old"]), "\n".join(edit["new"]))
    path.write_text(after.replace("\nuse ", "".join(f"\n{line}" for line in edit["use"]) + "\nuse ", 1))
    return lambda: path.write_text(before)


def judge(crate, to, edit, rows, wanted):
    """Whether the edit is caught, and the words that say by what."""
    undo = apply(to, edit)
    caught, why = try_cases(crate, to, rows, wanted) if crate in ROW_CRATES else try_proofs(crate, to)
    undo()
    if caught is None:
        return False, "no verdict: " + why
    if not caught:
        return False, "SURVIVES"
    missed = [name for name in edit["caught"] if crate in ROW_CRATES and name not in caught]
    return not missed, "caught by " + "; ".join(caught) + ("; NOT by " + "; ".join(missed) if missed else "")


def run(crate, edits, search):
    """Tries edits in a copy of their own; gives the number that are not caught."""
    rows, histories = table()
    failed = 0
    with tempfile.TemporaryDirectory() as folder:
        to = Path(folder)
        copy(crate, to)
        for edit in edits:
            caught, words = judge(crate, to, edit, rows, rows + histories if search else edit["caught"])
            failed += not caught
            verdict = "ok" if caught else "NOT CAUGHT"
            print(f"{crate}: {verdict}: {edit['file'][:-5]}: {edit['name']}: {words}", flush=True)
    return failed


def names(edits):
    """The rows and histories that the edits name, and which of them are not there."""
    rows, histories = table()
    named = list(dict.fromkeys(name for edit in edits for name in edit["caught"]))
    return rows, named, [name for name in named if name not in rows + histories]


def unknown(edit):
    """The names in the edit's new text that its file neither imports nor defines, and the edit does not bind itself."""
    read = "\n".join([definition(ROOT, edit).read_text(), *edit["use"]])
    known = set(NAME.findall(read)) | set(LOCAL.findall("\n".join(edit["new"])))
    known |= {part for name in known for part in re.split("[_◌]", name)}
    words = [word for line in edit["new"] for word in NAME.findall(line)]
    return sorted({word for word in words if word not in known and not re.fullmatch(r"0x[0-9a-f]+|[0-9]+", word)})


def texts(edits):
    """What makes an edit of the list mean nothing, a line each."""
    found = [f"mutants.txt: no such row or history: {name}" for name in names(edits)[2]]
    for edit in edits:
        if times(ROOT, edit) != 1:
            found.append(f"mutants.txt: {edit['name']}: the old text stands {times(ROOT, edit)} times in {edit['file']}")
        elif unknown(edit):
            found.append(f"mutants.txt: {edit['name']}: not named in {edit['file']}: {' '.join(unknown(edit))}")
    return found


def sound(crate, edits):
    """The rows and histories that the edits name are there, and hold of the definitions as they are."""
    rows, named, lost = names(edits)
    if lost:
        print(f"{crate}: no such row or history: " + "; ".join(lost))
        return False
    with tempfile.TemporaryDirectory() as folder:
        copy(crate, Path(folder))
        caught, why = try_cases(crate, Path(folder), rows, named)
    if caught or caught is None:
        print(f"{crate}: the definitions as they are: {'; '.join(caught or [why])}")
    return caught == []


def chosen(edit, given):
    """Whether the edit meets one of each option given."""
    return (
        (not given.only or any(word in edit["name"] for word in given.only))
        and (not given.file or edit["file"][:-5] in given.file)
        and (not given.part or any(word in edit["part"] for word in given.part))
    )


def main():
    words = argparse.ArgumentParser()
    words.add_argument("--only", action="append")
    words.add_argument("--file", action="append")
    words.add_argument("--part", action="append")
    words.add_argument("--crate", choices=[*ROW_CRATES, *PROOF_CRATES, *C_CRATES])
    words.add_argument("--search", action="store_true")
    words.add_argument("--jobs", type=int, default=os.cpu_count() or 1)
    words.add_argument("--texts", action="store_true")
    given = words.parse_args()
    edits = [e for e in read_edits((ROOT / "tools/mutants.txt").read_text()) if chosen(e, given)]
    if not edits:
        sys.exit("mutants: no edit is chosen")
    if given.texts:
        found = texts(edits)
        print("\n".join(found or [f"the {len(edits)} edits of mutants.txt find their texts"]))
        return 1 if found else 0
    failed = 0
    for crate in [given.crate] if given.crate else [*ROW_CRATES, *PROOF_CRATES, *C_CRATES]:
        mine = [e for e in edits if crate in e["crates"]]
        if not needed(crate):
            print(f"{crate}: there is no such crate yet; {len(mine)} edits wait for it")
        elif crate in ROW_CRATES and not sound(crate, mine):
            failed += 1
        else:
            with ThreadPoolExecutor(given.jobs) as pool:
                failed += sum(pool.map(lambda i: run(crate, mine[i :: given.jobs], given.search), range(given.jobs)))
    print(f"mutants: {'all caught' if not failed else str(failed) + ' not caught'}")
    return 1 if failed else 0


if __name__ == "__main__":
    sys.exit(main())
