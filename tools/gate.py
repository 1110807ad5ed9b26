#!/usr/bin/env python3
"""The merge gate: two quick checks, `rt ci` over every crate, then the further checks, each a make target.

The last line is 'N passed, M failed' and counts all; the exit status is 0 only where M is 0. `rt ci` refuses files that
are not laid out, so that there is no check of the layout.
"""
import re
import subprocess
import sys

from crates import ROOT


def make(*words):
    return ["make", "--no-print-directory", *words]


# What it is, and the command that must exit with 0; in order, before and after `rt ci`.
BEFORE = [
    ("a Rattle kit is at hand", make("kit-check")),
    ("the documents against the sources", make("docs-check")),
]
AFTER = [
    ("the programs on the sample volumes and lists", make("demo-check", "rehearse-check")),
    ("the programs of docs/C.md", make("example-check", "guide-check")),
    ("the C functions: cases, refusals, full volumes, stack, sanitizers", make("c-test")),
    ("the store in a file: killed, cut and damaged, failing calls of the system, planted faults", make("torture-check")),
    ("docs/C.md's story of the ward, word by word", make("ward-check")),
    ("the tool: every command, mutated files, the stored pictures", make("tool-check")),
    ("the lesson and the bundle: built twice, unpacked and used by itself", make("dist-check")),
    ("the second implementation: tests and abstract log", make("reference-test")),
    ("the C functions against the second implementation", make("against")),
    ("the sums by products are vectors in the library", make("vectors-check")),
    ("what the proved functions for C need from outside", make("needs-check")),
    ("inspection and cycles of calls against the peers in C", make("bench-check")),
    ("scripts through both implementations, 20 seconds", make("fuzz", "FUZZ_SECONDS=20", "FUZZ_SEED=1")),
]


def stream(command):
    """Runs a command, shows its output as it comes, and returns its status and its lines."""
    lines = []
    try:
        process = subprocess.Popen(
            command, cwd=ROOT, stdout=subprocess.PIPE, stderr=subprocess.STDOUT, text=True, errors="replace"
        )
    except OSError as error:
        print(f"{command[0]}: {error}", flush=True)
        return 127, lines
    for line in process.stdout:
        print(line, end="", flush=True)
        lines.append(line.rstrip())
    return process.wait(), lines


def run(checks):
    """The names of the checks that fail."""
    failed = []
    for name, command in checks:
        print(f"== {name}", flush=True)
        status, _ = stream(command)
        print(f"{'ok' if status == 0 else 'FAILED'}: {name}", flush=True)
        failed += [name] if status != 0 else []
    return failed


def prove():
    """How many crates, edits and programs `rt ci` passed and failed. An edit that is no edit is reported as bad by its
    line `rt: ok`, and fails here."""
    print("== rt ci: every crate proved, every must-fail edit refused, every program run", flush=True)
    status, lines = stream(["rt", "ci"])
    counted = next((m for m in map(re.compile(r"(\d+) passed, (\d+) failed").match, reversed(lines)) if m), None)
    passed, failed = (int(counted[1]), int(counted[2])) if counted else (0, 1)
    bad = [line for line in lines if line.startswith("rt: ok") and re.search(r", [1-9]\d* bad", line)]
    if bad:
        print("FAILED: rt ci:", *bad, flush=True)
    return passed, failed if status == 0 and not bad else max(failed, 1)


def main():
    lost = run(BEFORE)
    passed, failed = prove()
    lost += run(AFTER)
    for name in lost:
        print(f"FAILED: {name}")
    passed, failed = passed + len(BEFORE + AFTER) - len(lost), failed + len(lost)
    print(f"{passed} passed, {failed} failed", flush=True)
    return 0 if failed == 0 else 1


if __name__ == "__main__":
    sys.exit(main())
