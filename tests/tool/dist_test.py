#!/usr/bin/env python3
"""The bundle as an engineer gets it: unpacked where neither the kit nor the sources are on the path.

    python3 tests/tool/dist_test.py BUNDLE.tar.gz
"""
import hashlib
import os
import pathlib
import struct
import subprocess
import sys
import tarfile
import tempfile

# what a box has: a compiler and pkg-config, and no Rattle kit
BARE = {"PATH": "/usr/bin:/bin", "HOME": "/", "LC_ALL": "C"}


def run(folder, *words, status=0, **more):
    done = subprocess.run(words, cwd=folder, env=BARE | more, capture_output=True, text=True)
    if done.returncode != status:
        sys.exit(f"{' '.join(words)}: exit status {done.returncode}\n{done.stdout}{done.stderr}")
    return done.stdout


def check_sums(root):
    for line in (root / "SHA256SUMS").read_text().splitlines():
        wanted, _, name = line.partition("  ")
        if hashlib.sha256((root / name).read_bytes()).hexdigest() != wanted:
            sys.exit(f"{name}: its sum is another")


def asks_for_a_loader(program):
    """An ELF program header of type 3: the program is not static."""
    at, size, count = struct.unpack_from("<Q", program, 32)[0], *struct.unpack_from("<HH", program, 54)
    return any(struct.unpack_from("<I", program, at + size * i)[0] == 3 for i in range(count))


def check_tool(root):
    tool, sample = str(root / "bin/pagestore"), str(root / "share/doc/pagestore/samples/demo.vol")
    if asks_for_a_loader((root / "bin/pagestore").read_bytes()):
        sys.exit("bin/pagestore is not static")
    if run(root, tool, "--version") != f"pagestore {(root / 'VERSION').read_text()}":
        sys.exit("bin/pagestore is of another version")
    run(root, tool, "scan", sample, status=1)
    drawn = run(root, tool, "map", sample, "-o", "-")
    if drawn != (root / "share/doc/pagestore/samples/demo.svg").read_text():
        sys.exit("bin/pagestore draws another picture")
    run(root, tool, "repair", sample, "-o", "mended.vol")
    if "disk: nothing to mend" not in run(root, tool, "scan", "mended.vol", status=1):  # 1: its notes are full now
        sys.exit("a mended volume is not mended")


def check_manuals(root):
    for page in ("share/man/man1/pagestore.1", "share/man/man3/pagestore.3"):
        if not (root / page).read_text().startswith(".TH PAGESTORE"):
            sys.exit(f"{page} is no manual page")


def check_example(root):
    flags = run(root, "pkg-config", "--cflags", "--libs", "libpagestore", PKG_CONFIG_PATH=str(root / "lib/pkgconfig"))
    run(root, "gcc", "-std=c11", "share/doc/pagestore/examples/ward.c", "-o", "ward", *flags.split())
    run(root, "./ward", "ward.vol", "new")
    run(root, "./ward", "ward.vol", "say", "1", "06:10 bed 4 moved to 7")
    if "06:10 bed 4 moved to 7" not in run(root, "./ward", "ward.vol", "read", "1"):
        sys.exit("the line that was said is not read back")


def main():
    with tempfile.TemporaryDirectory() as name:
        with tarfile.open(os.path.abspath(sys.argv[1])) as tar:
            tar.extractall(name)
        (root,) = pathlib.Path(name).iterdir()
        check_sums(root)
        check_tool(root)
        check_manuals(root)
        check_example(root)
    print("the bundle works by itself")


if __name__ == "__main__":
    main()
