#!/usr/bin/env python3
"""The tests of the file layer are tested: each fault below is planted in a copy of lib/pagestore_file.c, and is seen.

    python3 tests/planted_faults.py FOLDER COMPILER WORD...   where files go; the compiler, its words, the library last

Seen means that a test ends by its own verdict (lost, wrong, failed), not that it breaks. The first five must be seen by
the torture itself, in the gate's rounds; the others by it or by the test of the file layer's own rules.
"""
import pathlib
import re
import shutil
import subprocess
import sys
import tempfile

ROOT = pathlib.Path(__file__).resolve().parent.parent
SOURCE = ROOT / "lib/pagestore_file.c"
FOLDER = ROOT / "target/c/planted"
HELPERS = ["tests/c/disk.c", "tests/c/volume.c"]
PROGRAMS = {
    "torture": (["tests/c/torture.c", "tests/c/caller.c", "tests/c/abstract_log.c", "tests/c/harm.c"], ["300", "1"]),
    "file_test": (["tests/c/file_test.c", "tests/c/file_faults.c", "tests/c/file_upkeep.c"], []),
}

SYNC = "if (error == 0 && fdatasync(file->fd) != 0) error = -errno;"
WRITE = "write_all(file->fd, file->volume + offset, length, offset)"
FAULTS = [
    ("the sync before the acknowledgement left out", SYNC, ""),
    ("a wrong offset", WRITE, WRITE.replace(", offset)", ", offset + 16)")),
    ("a retry after a failed sync", SYNC, SYNC.replace("== 0 &&", "== 0 && fdatasync(file->fd) != 0 &&")),
    ("the lock left out", "if (flock(file->fd, LOCK_EX | LOCK_NB) != 0) return -errno;", ""),
    ("one byte too few written", WRITE, WRITE.replace("length,", "length - 1,")),
    # beyond the five
    ("the handle lives on after a failed store", "file->dead = error != 0;", ""),
    ("the sync before the bytes are written", "int error = " + WRITE + ";\n    " + SYNC,
     "int error = fdatasync(file->fd) == 0 ? 0 : -errno;\n    if (error == 0) error = " + WRITE + ";"),
    ("a short write taken for a whole one", "bytes += n;\n        offset += (size_t)n;\n        count -= (size_t)n;",
     "return 0;"),
    ("a write not taken up where it was interrupted",
     "ssize_t n = pwrite(fd, bytes, count, (off_t)offset);\n        if (n < 0 && errno == EINTR) continue;",
     "ssize_t n = pwrite(fd, bytes, count, (off_t)offset);"),
    ("open without its sync", "if (fdatasync(file->fd) != 0) return -errno;", ""),
    ("open by what the cache holds", "posix_fadvise(file->fd, 0, 0, POSIX_FADV_DONTNEED)", "0"),
    ("a new file that replaces one", "link(temporary, path)", "rename(temporary, path)"),
    ("a new file that is not synced", "if (error == 0 && fsync(fd) != 0) error = -errno;\n    if (close", "if (close"),
    ("a new file whose directory is not synced", "sync_directory(dirname(temporary)) : error", "0 : error"),
    ("a commit that forces once", "while (answer == 0);", "while (0);"),
    ("upkeep that makes one call", "calls <= 8 * counts[PAGESTORE_COUNTS_PAGES]", "calls < 1"),
    ("upkeep that is stuck and says that it is at rest", "UPKEEP_STUCK: return PAGESTORE_PAGE_LOST",
     "UPKEEP_STUCK: return PAGESTORE_NOTHING"),
]
NEEDED = 5
VERDICT = re.compile(r"torture: .* (\d+) lost, (\d+) wrong|the store in a file: \d+ checks, (\d+) failed")


def plant(number, old, new):
    """The file layer's text with the fault in it, as a file of its own."""
    text = SOURCE.read_text()
    if text.count(old) != 1:
        sys.exit(f"the text of fault {number} is not there once: {old}")
    path = FOLDER / f"fault_{number}.c"
    path.write_text(text.replace(old, new))
    return path


def built(words, sources, binary):
    """Compiles (a fault may leave something unused: no warning) and links; the library comes last."""
    objects = []
    for source in map(str, sources):
        target = FOLDER / (pathlib.Path(source).stem + ".o")
        if not source.startswith("tests/") or not target.exists():
            subprocess.run([*words[:-1], "-w", "-c", source, "-o", target], cwd=ROOT, check=True)
        objects.append(target)
    subprocess.run([*words[:-1], *objects, words[-1], "-o", binary], cwd=ROOT, check=True)


def seen(room, words, program, source):
    """What the program's verdict says of the fault; none where it says that all is well."""
    sources, arguments = PROGRAMS[program]
    built(words, [*sources, *HELPERS, source], FOLDER / program)
    with tempfile.TemporaryDirectory(dir=room) as own:
        run = subprocess.run([FOLDER / program, *arguments, own], capture_output=True, text=True, timeout=300)
    last = (run.stdout.splitlines() or [""])[-1]
    verdict = VERDICT.fullmatch(last)
    return last if verdict and any(int(n) for n in verdict.groups() if n) and run.returncode == 1 else None


def main():
    room, words, missed = sys.argv[1], sys.argv[2:], 0
    shutil.rmtree(FOLDER, ignore_errors=True)
    FOLDER.mkdir(parents=True)
    for number, (label, old, new) in enumerate(FAULTS, 1):
        source = plant(number, old, new)
        told = {program: seen(room, words, program, source) for program in PROGRAMS}
        ok = told["torture"] or (number > NEEDED and told["file_test"])
        missed += not ok
        print(f"{'seen' if ok else 'MISSED'}: {label}: " + "; ".join(filter(None, told.values())), flush=True)
    print(f"{len(FAULTS)} planted faults, {missed} missed")
    return 1 if missed else 0


if __name__ == "__main__":
    sys.exit(main())
