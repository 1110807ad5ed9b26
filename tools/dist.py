#!/usr/bin/env python3
"""The bundle for a closed network, and the same tree installed under a prefix.

    python3 tools/dist.py bundle OUT.tar.gz      the same input gives the same bytes
    python3 tools/dist.py install PREFIX         what the bundle holds, under PREFIX (DESTDIR before it, if set)
    python3 tools/dist.py uninstall PREFIX

It takes what `make library`, `make tool` and `make lesson` wrote; it builds nothing.
"""
import gzip
import hashlib
import io
import os
import pathlib
import sys
import tarfile

from crates import ROOT

VERSION = (ROOT / "VERSION").read_text().strip()
NAME = f"pagestore-{VERSION}-x86_64-linux"
DOCS = "FIELD.md C.md FORMAT.md CHANGES.md lesson.html".split()


def read(name):
    return (ROOT / name).read_bytes()


def files():
    """Every file below the prefix, with its bytes and its mode."""
    tree = {
        "bin/pagestore": (read("target/bin/pagestore"), 0o755),
        "lib/libpagestore.a": (read("target/libpagestore.a"), 0o644),
        "lib/pkgconfig/libpagestore.pc": (read("lib/libpagestore.pc.in").replace(b"@VERSION@", VERSION.encode()), 0o644),
        "share/man/man1/pagestore.1": (read("man/pagestore.1"), 0o644),
        "share/man/man3/pagestore.3": (read("man/pagestore.3"), 0o644),
    }
    tree |= {f"include/{p.name}": (p.read_bytes(), 0o644) for p in (ROOT / "include/pagestore.h", ROOT / "lib/pagestore_file.h")}
    tree |= {f"share/doc/pagestore/{name}": (read(f"docs/{name}"), 0o644) for name in DOCS}
    tree |= {f"share/doc/pagestore/examples/{p.name}": (p.read_bytes(), 0o644) for p in (ROOT / "examples").glob("*.c")}
    samples = [p for p in (ROOT / "samples").iterdir() if p.suffix in (".vol", ".svg")]
    tree |= {f"share/doc/pagestore/samples/{p.name}": (p.read_bytes(), 0o644) for p in samples}
    return tree


def bundled():
    """What the bundle holds beside the installed tree: its version, and a sum for every file."""
    tree = files() | {"VERSION": (VERSION.encode() + b"\n", 0o644)}
    sums = "".join(f"{hashlib.sha256(data).hexdigest()}  {name}\n" for name, (data, _) in sorted(tree.items()))
    return tree | {"SHA256SUMS": (sums.encode(), 0o644)}


def bundle(out):
    packed = io.BytesIO()
    with tarfile.open(fileobj=packed, mode="w", format=tarfile.USTAR_FORMAT) as tar:
        for name, (data, mode) in sorted(bundled().items()):
            entry = tarfile.TarInfo(f"{NAME}/{name}")
            entry.size, entry.mode, entry.mtime = len(data), mode, 0
            tar.addfile(entry, io.BytesIO(data))
    with open(out, "wb") as file, gzip.GzipFile("", "wb", 9, file, mtime=0) as zipped:
        zipped.write(packed.getvalue())


def placed(prefix):
    """Where each file goes."""
    root = pathlib.Path(os.environ.get("DESTDIR", "") + os.path.abspath(prefix))
    return {root / name: made for name, made in sorted(files().items())}


def install(prefix):
    for path, (data, mode) in placed(prefix).items():
        path.parent.mkdir(parents=True, exist_ok=True)
        path.write_bytes(data)
        path.chmod(mode)


def uninstall(prefix):
    for path in placed(prefix):
        path.unlink(missing_ok=True)
        for folder in path.parents:  # what is ours alone goes too, once it is empty
            if "pagestore" in folder.relative_to(folder.anchor).parts[-2:] and folder.is_dir() and not any(folder.iterdir()):
                folder.rmdir()


def main():
    does = {"bundle": bundle, "install": install, "uninstall": uninstall}
    if len(sys.argv) != 3 or sys.argv[1] not in does:
        sys.exit(__doc__)
    does[sys.argv[1]](sys.argv[2])


if __name__ == "__main__":
    main()
