#!/usr/bin/env python3
"""Holds the proved store against the second implementation on random scripts.

    tools/fuzz.py [--seconds N] [--seed N]

A script is a list of cells of 64 bytes, each a call with its arguments, or a change of the volume, the memory, the state
or a length behind the store's back. Both drivers print a line for each cell: the answer, and a hash of the volume,
the memory, the lent buffer and the state. The lines must be the same. At the first difference the script is saved under
target/fuzz/ and the run ends with status 1. It also does if a generator fails, if some kind of script was not played at
all, or if a run of a minute or more leaves out a kind of answer, or a case that the scripts of some kind are for.
"""
import argparse
import collections
import glob
import itertools
import os
import re
import struct
import subprocess
import sys
import time

ROOT = os.path.dirname(os.path.dirname(os.path.abspath(__file__)))
REFERENCE = os.path.join(ROOT, "reference", "target", "release")
DRIVERS = {"proved": os.path.join(ROOT, "target", "bin", "drive"), "reference": os.path.join(REFERENCE, "drive")}
SAVED = os.path.join(ROOT, "target", "fuzz")

# What a run asks for now: scripts of each kind, answers of each sort. A request that adds an operation or an answer adds it here.
KINDS = ["history", "ring", "arbitrary", "reading", "mirror", "rehearse", "carrying", "upkeep"]  # written in an instant, played in turn
AIMED = ["reading", "mirror", "rehearse", "carrying", "upkeep"]  # of these, the kinds with a list of cases that all their scripts together have to reach
ONCE = ["full"]  # a large one of each at the start
SEARCHED = ["mixed", "turning"]  # searched for until every answer is reached; made beside the others
EXPECTED = [f"REFUSED {n}" for n in range(1, 26)] + ["NOTHING", "OK"]
EXPECTED += ["GOOD", "BEHIND", "STALE", "FAILED", "AHEAD"] + ["OWN", "BACKUP", "FORMAT"]
EXPECTED += ["FORECAST", "LENGTH", "PAGES 0", "PAGES"] + ["AGREE", "FIRST", "SECOND", "DIFFERS"] + ["REHEARSED"]
EXPECTED += ["ADVISE", "IDLE", "STUCK"]

CELL = 64
CELLS = 2000  # of a script that is written in an instant
CELLS_AIMED = 4000  # of one of the kinds with a list of cases
CELLS_SEARCHED = 4096  # at most; a searched script is as long as it takes to reach every answer
BEFORE = 4  # cells shown before the one that differs
COVERED_FROM = 60  # seconds of a run that has to reach every answer
TRIES = 3  # searches of one kind, one after the other, of which each may end without having reached everything
MORE = 10  # scripts that such a run adds at most to a kind that has not reached its cases


# ---- cells

def decode(cell):
    """What a cell asks for, in words."""
    op, kind, page, other, offset, length, fill = struct.unpack_from("<BBHHHBB", cell)
    a, = struct.unpack_from("<I", cell, 12)
    b, = struct.unpack_from("<I", cell, 60)
    payload = cell[16:60]
    counts = struct.unpack_from("<4I", cell, 16)
    change = {1: f"format fill {fill}", 2: f"put {length} bytes at {offset}", 3: f"slide {length} bytes at {offset}"}
    poke = f"{min(length, 44)} bytes at {a}: {payload[:min(length, 44)].hex()}"
    words = {
        1: "make P {} B {} L {} N {}".format(*counts),
        2: "restart",
        3: f"begin page {page} frame {other} fill {fill}",
        4: f"load page {page} frame {other}",
        5: f"change page {page}: {change.get(kind, f'unknown kind {kind}')}, payload {payload.hex()}",
        6: "force",
        7: f"write page {page}",
        8: f"backup page {page} slot {other}",
        9: "note",
        10: f"inspect page {page}",
        11: f"sizes volume {a} memory {b} buffer {counts[0]}",
        12: f"poke the volume, {poke}",
        13: f"poke the memory, {poke}",
        14: f"set number {a} of the state to {b}",
        15: "lose memory and state",
        16: f"fill buffer {a} with {kind}",
        17: f"release page {page}",
        18: "start",
        19: "restamp",
        20: "finish",
        21: "make with the first heading, P {} B {} L {} N {}".format(*counts),
        22: "forecast",
        23: "length of the archive",
        24: "archive into the lent buffer",
        25: "archive in the second buffer read into the lent buffer",
        26: "compare the volume with the one in the second buffer",
        27: {0: "the volume goes to the second buffer", 1: "the lent buffer goes to the second buffer",
             2: f"size of the second buffer {a}"}.get(kind, f"unknown second {kind}"),
        28: f"poke the second buffer, {poke}",
        29: "pages of the archive in the second buffer",
        31: f"advise, frame {other} left to upkeep",
        30: f"rehearse with {page} frames, a backup after {a}, victims {['written', 'let go'][kind] if kind < 2 else kind}",
    }
    return words.get(op, f"unknown op {op}")


# ---- running

def stale(program):
    """The program is missing, or a source of the repository is newer."""
    if not os.path.exists(program):
        return True
    sources = glob.glob(os.path.join(ROOT, "crates", "*", "src", "**", "*.rt"), recursive=True)
    return max(map(os.path.getmtime, sources)) > os.path.getmtime(program)


def build():
    """Builds the second implementation, and the proved driver where it is not up to date."""
    subprocess.run(["cargo", "build", "--release", "--offline", "--quiet"], cwd=os.path.join(ROOT, "reference"), check=True)
    if stale(DRIVERS["proved"]):
        subprocess.run([sys.executable, os.path.join(ROOT, "tools/prove.py"), "check", "drive"], check=True)


def generator(kind, seed, path):
    """Starts to write a script to a file."""
    cells = CELLS_SEARCHED if kind in SEARCHED else CELLS_AIMED if kind in AIMED else CELLS
    command = [os.path.join(REFERENCE, "gen"), "--seed", str(seed), "--kind", kind, "--cells", str(cells)]
    with open(path, "wb") as script:
        return subprocess.Popen(command, stdout=script)


def drive(path):
    """The lines that each driver prints for a script, the two run side by side."""
    running = {}
    for name, program in DRIVERS.items():
        with open(path, "rb") as script, open(output(name), "wb") as lines:
            running[name] = subprocess.Popen([program], stdin=script, stdout=lines)
    return lines_of("proved", running), lines_of("reference", running)


def output(name):
    return os.path.join(SAVED, f"{name}.out")


def lines_of(name, running):
    status = running[name].wait()
    with open(output(name), encoding="ascii", errors="replace") as text:
        lines = text.read().splitlines()
    return lines if status == 0 else lines + [f"(the program ended with status {status})"]


def show_difference(path, kind, seed, proved, reference):
    at = next(i for i, (x, y) in enumerate(itertools.zip_longest(proved, reference)) if x != y)
    kept = os.path.join(SAVED, f"{kind}-{seed}.script")
    os.replace(path, kept)
    with open(kept, "rb") as script:
        script = script.read()
    cells = [script[i:i + CELL] for i in range(0, len(script) - CELL + 1, CELL)]
    print(f"DIFFERENT: kind {kind}, seed {seed}, cell {at + 1} of {len(cells)}; the script is {os.path.relpath(kept, ROOT)}")
    for i in range(max(0, at - BEFORE), min(at, len(cells))):
        print(f"  {i + 1}: {decode(cells[i])}\n      {'both':10}{reference[i]}")
    print(f"  {at + 1}: {decode(cells[at]) if at < len(cells) else '(no such cell)'}")
    for name, lines in (("proved", proved), ("reference", reference)):
        print(f"      {name:10}{lines[at] if at < len(lines) else '(no line)'}")


def count(lines, reached):
    for line in lines:
        answer = line.split(" v=")[0]
        with_number = answer.startswith("REFUSED") or answer == "PAGES 0"
        for name in [answer] if with_number else re.findall("[A-Z]+", answer):
            reached[name] += 1


def left_out(kind, path):
    """The cases that scripts of this kind are for and this one, just played, does not reach."""
    command = [os.path.join(REFERENCE, "coverage"), "--kind", kind, "--script", path]
    with open(output("reference"), "rb") as lines:
        told = subprocess.run(command, stdin=lines, capture_output=True, text=True, check=True).stdout
    return set(re.findall(r"^ *missing (.*)$", told, re.MULTILINE))


class Run:
    """A run over scripts with running seeds. Searched scripts take long to find: one is made beside the others."""

    def __init__(self, seed, covered):
        self.covered = covered
        self.seeds = itertools.count(seed)
        self.scripts = collections.Counter()
        self.cells = 0
        self.reached = collections.Counter()
        self.left_out = {}
        self.searched_kinds = itertools.cycle(SEARCHED)
        self.in_vain = 0
        self.start_search(next(self.searched_kinds))

    def path(self, kind):
        return os.path.join(SAVED, f"{kind}.script")

    def start_search(self, kind):
        self.search_kind = kind
        self.search_seed = next(self.seeds)
        self.search = generator(self.search_kind, self.search_seed, self.path(self.search_kind))

    def script(self, kind, seed):
        """Plays one script; False at a difference."""
        proved, reference = drive(self.path(kind))
        if proved != reference:
            show_difference(self.path(kind), kind, seed, proved, reference)
            return False
        self.scripts[kind] += 1
        self.cells += len(proved)
        count(proved, self.reached)
        if kind in AIMED:
            missed = left_out(kind, self.path(kind))
            self.left_out[kind] = self.left_out.get(kind, missed) & missed
        return True

    def written(self, process, kind, seed):
        """Waits for a generator. One that reaches less than everything fails too, and says what is missing."""
        if process.wait() != 0:
            raise SystemExit(f"the generator failed: kind {kind}, seed {seed}")

    def play_searched(self):
        """Plays the searched script once it is written, and starts to search for the next; one that was searched for in
        vain is searched for again, from another seed."""
        kind, seed = self.search_kind, self.search_seed
        if self.search.wait() != 0 and self.in_vain + 1 < TRIES:
            self.in_vain += 1
            print(f"kind {kind}, seed {seed}: searched in vain; searched again", flush=True)
            self.start_search(kind)
            return True
        self.written(self.search, kind, seed)
        self.in_vain = 0
        same = self.script(kind, seed)
        if same:
            self.start_search(next(self.searched_kinds))
        return same

    def play(self, kind):
        seed = next(self.seeds)
        self.written(generator(kind, seed, self.path(kind)), kind, seed)
        return self.script(kind, seed)

    def until(self, end):
        if not all(map(self.play, ONCE)):
            return False
        for kind in itertools.cycle(KINDS):
            if time.monotonic() >= end and self.scripts[kind]:
                break
            if not self.play(kind):
                return False
            if self.search.poll() is not None and not self.play_searched():
                return False
        return self.play_more() and self.play_all_searched()

    def play_more(self):
        """A slow machine may not have played enough of a kind with a list of cases."""
        for kind in AIMED if self.covered else []:
            for _ in range(MORE):
                if self.left_out[kind] and not self.play(kind):
                    return False
        return True

    def play_all_searched(self):
        """A short run plays each searched kind too."""
        while not all(self.scripts[kind] for kind in SEARCHED):
            if not self.play_searched():
                return False
        return True

    def stop(self):
        if self.search.poll() is None:
            self.search.kill()
        self.search.wait()


def main():
    parser = argparse.ArgumentParser(description=__doc__.split("\n")[0])
    parser.add_argument("--seconds", type=float, default=60)
    parser.add_argument("--seed", type=int, default=None)
    options = parser.parse_args()
    seed = int(time.time()) if options.seed is None else options.seed
    build()
    os.makedirs(SAVED, exist_ok=True)
    print(f"fuzz: seed {seed}, {options.seconds:g} s", flush=True)
    covered = options.seconds >= COVERED_FROM
    run = Run(seed, covered)
    try:
        same = run.until(time.monotonic() + options.seconds)
    finally:
        run.stop()
    if not same:
        return 1
    asked = KINDS + ONCE + SEARCHED
    kinds = ", ".join(f"{run.scripts[kind]} {kind}" for kind in sorted(asked))
    print(f"{sum(run.scripts.values())} scripts ({kinds}), {run.cells} cells, every line the same")
    print("reached: " + ", ".join(f"{name} {run.reached[name]}" for name in EXPECTED))
    absent = [kind for kind in asked if not run.scripts[kind]]
    if absent:
        print("no script of kind: " + ", ".join(absent))
    missing = [name for name in EXPECTED if not run.reached[name]]
    missing += [f"{case} ({kind})" for kind in AIMED for case in sorted(run.left_out.get(kind, []))]
    if missing:
        print("not reached: " + ", ".join(missing))
    return 1 if absent or (missing and covered) else 0


if __name__ == "__main__":
    sys.exit(main())
