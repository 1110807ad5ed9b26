"""What the documents name, held against the sources; each check gives its differences as lines.

Functions are written `crate::module::name`, must-fail edits `crate/label`, theorems and values `name` (crate), or
crate: `name`, `name`; behind a theorem, field `name` is one of its claim. The trace's column of definitions has
File.name. Any other word in backquotes that has the shape of a Rattle name (a-b, a_b, Ab) is declared somewhere.
"""
import functools
import re

import crates
from crates import ROOT

# crates whose definitions the trace may name by their file alone
DEFINING = (*crates.DEFINITIONS, "face", "called", "history")
# words in backquotes with the shape of a Rattle name that are none: folders, commands, the kit's and the system's words
OTHERS = {"must-fail", "rattle-kit", "libsqlite3-dev", "Store", "Minus", "Refusal", "sqlite3_blob_write"}
NAMES = r"`[\w-]+`(?:(?:, | and )`[\w-]+`)*"
CRATE = "(" + "|".join(crates.listed()) + ")"


def plain(names):
    return re.findall(r"`([\w-]+)`", names)


@functools.cache
def sources(crate, folder):
    """The text of every file in a folder of a crate, by path."""
    paths = sorted((ROOT / "crates" / crate / folder).rglob("*.antt" if folder != "src" else "*.rt"))
    return {path: path.read_text() for path in paths}


def declarations(text, indent=" *"):
    """What a file of definitions or proofs declares; with an indent also what stands inside, as fields of records."""
    words = r"(?:(?:abbrev|unfoldable|pub|record|data) )*"
    return set(re.findall(rf"^{indent}{words}([\w-]+)(?: :| \(.* : .*where$)", text, re.M))


@functools.cache
def declared(crate, indent=""):
    """What a crate's definitions and proofs declare, their files, the claims of its theorems, its code's types,
    functions and modules."""
    rattle = {**sources(crate, "specs"), **sources(crate, "proofs")}
    claims = (re.findall(r"^pub [\w-]+ : (\w+)$", text, re.M) for text in rattle.values())
    types = re.findall(r"\b(?:struct|enum|trait|fn|mod) (\w+)|^    ([A-Z]\w*)[,({]", "".join(sources(crate, "src").values()), re.M)
    names = (declarations(text, indent) for text in rattle.values())
    return {path.stem for path in rattle}.union(*names, *claims, *types)


@functools.cache
def fields(claim):
    """The fields of a claim, none where there is no such record."""
    for crate in crates.listed():
        for text in sources(crate, "specs").values():
            block = re.search(rf"^pub record {claim}\b.*\n((?: .*\n|\n(?= ))*)", text, re.M)
            if block:
                return set(re.findall(r"^  pub ([\w-]+) :", block[1], re.M))
    return set()


def claim_of(theorem, crate):
    """The claim whose value a theorem is, by its type."""
    found = (re.search(rf"^(?:pub )?{theorem} : (\w+)$", text, re.M) for text in sources(crate, "proofs").values())
    return next((match[1] for match in found if match), None)


# ---- functions, edits, files


def named_functions(text):
    """Paths such as `codec::field::{byte, u16_at}`, one for each name in braces."""
    for path in re.findall(r"`((?:[a-z_0-9]+::)+(?:\{[^}`]*\}|[A-Za-z_0-9*]+))", text):
        front, _, last = path.rpartition("::")
        yield from ((path, front.split("::"), name) for name in last.strip("{}").split(", "))


def check_functions(document, text):
    for path, front, name in named_functions(text):
        files = sources(front[0], "src")
        inside = [text for p, text in files.items() if p.stem == front[-1]] if len(front) > 1 else list(files.values())
        word = re.compile(rf"\b(?:fn|struct|enum|trait|const|mod) {name}\b")
        if files and not (name == "*" and inside) and not any(map(word.search, inside or files.values())):
            yield f"{document}: `{path}`: there is no {name} in crates/{front[0]}/src"


def check_edits(document, text):
    """Must-fail edits are written `crate/label`, or `crate/*`."""
    for crate, label in re.findall(r"`([a-z_]+)/([a-z_0-9]+|\*)`", text):
        folders = ROOT / "crates" / crate / "must-fail", ROOT / "tests/edits" / crate
        if folders[0].parent.is_dir() and not any(list(folder.glob(label + ".edit")) for folder in folders):
            yield f"{document}: there is no must-fail edit {crate}/{label}"


def check_c(document, text):
    """Names of the header and of the layer for files; `_name` is short for them."""
    headers = "".join((ROOT / name).read_text() for name in ("include/pagestore.h", "lib/pagestore_file.h"))
    for name in re.findall(r"`((?:pagestore|PAGESTORE)_\w+|_[a-z]\w+)", text):
        whole = name if name[0] != "_" else r"pagestore\w*" + name
        if not re.search(rf"\b{whole}" + (r"\b" if name[-1] != "_" else ""), headers):
            yield f"{document}: there is no {name} in the headers"


def check_files(document, text):
    for name in re.findall(r"`((?:docs|include|examples|samples|tests|tools|crates|reference)/[\w./-]+)`", text):
        if "target/" not in name and not (ROOT / name).exists():
            yield f"{document}: there is no {name}"
    here = (ROOT / document).parent
    for name in re.findall(r"\]\(([^)#:]+)(?:#[^)]*)?\)", text):
        if not (here / name).exists():
            yield f"{document}: there is no {name}"


# ---- definitions, theorems, fields


def check_cited(document, text):
    """`name` (crate), with the fields of its claim behind it; crate: `name`."""
    cited = re.findall(rf"({NAMES}) \({CRATE}\)", text)
    cited += [(names, crate) for crate, names in re.findall(rf"\b{CRATE}: ({NAMES})", text)]
    for names, crate in cited:
        for name in plain(names):
            if name not in declared(crate):
                yield f"{document}: there is no {name} in crates/{crate}"
    for theorem, crate, names in re.findall(rf"`([\w-]+)` \({CRATE}\), fields? ({NAMES})", text):
        claim = claim_of(theorem, crate)
        for name in plain(names):
            if name not in fields(claim):
                yield f"{document}: {claim}, of `{theorem}` ({crate}), has no field {name}"


def check_rattle(document, text):
    """Words in backquotes with the shape of a Rattle name, also in front of arguments: declared somewhere."""
    known = OTHERS.union(crates.listed(), *(declared(crate, " *") for crate in crates.listed()))
    shape = r"[a-z]\w*(?:-\w+)+|(?!pagestore_)[a-z][a-z0-9]*(?:_[a-z0-9]+)+|[A-Z]\w*[a-z]\w*"
    for word, part in re.findall(rf"`({shape})(?:\.({shape}|[a-z]+))?(?: [^`:\n]*)?`", text):
        missing = [name for name in (word, part) if name and name not in known]
        if missing and part not in ("antt", "c", "py"):
            yield f"{document}: nothing declares {missing[0]}"


def check_specs(document, rows):
    """Rows of a crate, empty where it is that of the row before, and files of its definitions."""
    crate = None
    for row in rows:
        crate = row[0].strip("`") or crate
        for name in plain(row[1]):
            if name not in {path.stem for path in sources(crate, "specs")}:
                yield f"{document}: there is no file {name} in crates/{crate}/specs"


def named_definitions(cell):
    """Pairs of file and name: in `Scan.linked, noteFits; Index.settled` a name alone is of the file before it."""
    file = None
    for piece in re.split(r"[,;] ", re.sub(r"\(.*?\)", "", cell)):
        dotted = re.search(r"(?<!/)\b([A-Z]\w+)\.(\w+)\s*$", piece)
        file = dotted[1] if dotted else file
        if dotted or re.fullmatch(r"\s*\w+\s*", piece):
            yield (file, dotted[2]) if dotted else (file, piece.strip())


def check_definitions(document, cell):
    """Names in the definitions' column of the trace; a file's name alone is the whole of it."""
    files = {}
    for path, text in (item for crate in DEFINING for item in sources(crate, "specs").items()):
        files.setdefault(path.stem, set()).update(declarations(text))
    for file, name in named_definitions(cell):
        if name not in files and name not in files.get(file, ()):
            yield f"{document}: there is no definition {file}.{name}"


def check_evidence(document, cell):
    """In the trace every name in backquotes is a crate or stands in one of the forms that are looked up."""
    for name in plain(re.sub(rf"{NAMES} \({CRATE}\)(?:, fields? {NAMES})?|\b{CRATE}: {NAMES}", "", cell)):
        if name not in crates.listed():
            yield f"{document}: which crate has {name}?"


def check_claims(document, rows):
    """A claim, or one of its fields, its theorem and what uses it."""
    for claims, theorem, used in rows:
        yield from (fault for cell in (theorem, used) for fault in check_evidence(document, cell))
        for claim, field in re.findall(r"(\w+) \((\w+)\)", claims):
            if field not in fields(claim):
                yield f"{document}: {claim} has no field {field}"
        yield from check_rattle(document, re.sub(r"(\w+)(?: \(\w+\))?", r"`\1`", claims))
