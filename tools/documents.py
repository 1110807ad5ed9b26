#!/usr/bin/env python3
"""Holds the documents against the sources; prints each difference, and exits with 1 where there is one.

The refusals stand in docs/FORMAT.md, chapter 6. The constants of include/pagestore.h and the order of the rows in the
definitions (Reading, Refusals, Examine, Forecast, Archive, Mirror, Rehearsal) and crates/face/specs (Slots) must be the
same. docs/C.md quotes examples/show.c. crates/README.md has a line for every crate of crates.txt and allows what each
depends on. Every function, definition, theorem, field of a claim, must-fail edit and file that the documents name is
there (tools/names.py).
crates/cases/specs/Opened.antt and the table of what functions ask are as their tools write them. README has at most 150
lines; no line has more than 120 columns, but for rows of the trace and of that table.
"""
import itertools
import re
import sys

import crates
import names
import opened
import requirements
from crates import ROOT

WIDTH = 120
README_LINES = 150
DOCUMENTS = ["README.md", "CONTRIBUTING.md", "CHANGELOG.md", "crates/README.md"]
DOCUMENTS += sorted(str(p.relative_to(ROOT)) for p in (ROOT / "docs").glob("*.md"))
TRACE = "docs/TRACE.md"
# of the past, where a name may be no more: what its definitions and theorems were called stays
PAST = ("docs/LANDINGS.md", "docs/PORT.md", "docs/DESIGN-PASS.md", "docs/LOOK-BACK.md", "CHANGELOG.md")
# whose table of functions that went is the list of those that the past may name
WENT = "docs/DESIGN-PASS.md"
CHECKS = (names.check_functions, names.check_edits, names.check_files, names.check_c, names.check_cited,
          names.check_rattle)
# documents whose tables have one row an entry, however long
LONG_ROWS = ("docs/TRACE.md", "docs/DECISIONS.md", "docs/READING.md", "docs/PORT.md", "docs/DESIGN-PASS.md")
NARROW = ["include/*.h", "lib/*", "examples/*.c", "tests/c/*", "bench/sqlite/*"]


def read(name):
    return (ROOT / name).read_text()


def cells(line):
    return [cell.strip() for cell in line.strip().strip("|").split("|")]


def table(text, heading):
    """The rows, as lists of cells, of the table whose first row is this one; none where there is no such table."""
    lines = iter(text.splitlines())
    found = any(line.startswith("|") and cells(line) == heading for line in lines)
    rows = [cells(line) for line in itertools.takewhile(lambda line: line.startswith("|"), lines)]
    return rows[1:] if found else []


# ---- the refusals


def refusals():
    """FORMAT's first table of chapter 6: number, its short words, its name in C or none."""
    rows = table(read("docs/FORMAT.md"), ["no.", "in short", "when", "in C"])
    return {int(number): (short, name.strip("`")) for number, short, _, name in rows}


def orders():
    """FORMAT's second table of chapter 6: for each call the numbers of its rows, in order."""
    rows = table(read("docs/FORMAT.md"), ["call", "its rows, in order"])
    return {call: [int(n) for n in re.findall(r"\d+", row)] for names, row in rows for call in names.split(", ")}


# rows that calls share, before or behind their own
SHARED = ("state", "log", "image", "either", "later")

# definitions that bear another name than their call
CALLED = {
    "scan": "forecast",
    "tell": "forecastfigures",
    "whole": "archivelength",
    "read": "readarchive",
    "mirror": "compare",
    "compare": "comparereport",
    "slot": "record",
}

def defined_orders():
    """What the definitions have for each call: the numbers of its rows, each once. A tail is part of a list."""
    names = ("Reading", "Refusals", "Examine", "Forecast", "Archive", "Mirror", "Rehearsal")
    paths = [*(crates.definitions()[name] for name in names), ROOT / "crates/face/specs/Slots.antt"]
    text = re.sub(r"--.*", "", "".join(path.read_text() for path in paths))
    bodies = dict(re.findall(r"^(\w+_(?:rows|tail))(?! :)(.*(?:\n .*)*)", text, re.M))

    def numbers(body):
        words = re.findall(r"\b(\w+_(?:rows|tail))\b|, (\d+)\)", body)
        return list(itertools.chain(*(numbers(bodies[other]) if other else [int(n)] for other, n in words)))

    calls = {name.removesuffix("_rows"): body for name, body in bodies.items() if name.endswith("_rows")}
    own = {CALLED.get(name, name.replace("_", "")): body for name, body in calls.items() if name not in SHARED}
    return {name: list(dict.fromkeys(numbers(body))) for name, body in own.items()}


def check_refusals():
    known, order, defined = refusals(), orders(), defined_orders()
    if list(known) != sorted(set(known)) or list(known)[:19] != list(range(1, 20)):
        yield "docs/FORMAT.md, chapter 6: the numbers are not 1 to 19 and rising ones"
    for call in sorted({call.lower() for call in order} ^ set(defined)):
        yield f"refusals of {call}: only in one of docs/FORMAT.md and the definitions"
    for call, rows in order.items():
        if defined.get(call.lower(), rows) != rows:
            yield f"refusals of {call}: docs/FORMAT.md has {rows}, the definitions {defined[call.lower()]}"
    answers = read("include/pagestore.h").partition("/* ---- answers")[2].partition("/* ---- the volume")[0]
    constants = {int(n): name for name, n in re.findall(r"#define (\w+) (\d+)u", answers)}
    wanted = {0: "PAGESTORE_OK", 256: "PAGESTORE_NOTHING"} | {n: name for n, (_, name) in known.items()}
    if constants != wanted:
        yield f"include/pagestore.h has the answers {constants}, docs/FORMAT.md {wanted}"


# ---- the trace


def traced(text):
    """The rows of the trace's two tables."""
    tables = (table(text, ["no.", "obligation", "definition", last]) for last in ("shown by", "what shows it"))
    return list(itertools.chain(*tables))


def check_trace():
    text = read(TRACE)
    rows = traced(text)
    numbers = [row[0] for row in rows if "." not in row[0]]
    if numbers != [str(n) for n in range(1, len(numbers) + 1)] or not numbers:
        yield f"{TRACE}: the numbers of document 01's obligations are not 1, 2, 3 .."
    for row in rows:
        if len(row) != 4 or not all(row):
            yield f"{TRACE}: an empty cell: {row}"
        else:
            yield from (*names.check_definitions(TRACE, row[2]), *names.check_evidence(TRACE, row[3]))
    yield from names.check_claims(TRACE, table(text, ["claim", "theorem", "used at its edge by"]))


def check_reading():
    text = read("docs/READING.md")
    rows = table(text, ["file", "what it defines", "in document 01"])
    rows += table(text, ["file", "what it says", "where it is asked"])
    rows = [("model", row[0]) for row in rows] + table(text, ["crate", "file", "what it defines", "where it is asked"])
    yield from names.check_specs("docs/READING.md", rows)


# ---- all


def crate_map():
    """What crates/README.md says: what a wing and a layer may depend on, and of every crate its wing and layer."""
    text = read("crates/README.md")
    rules = [table(text, [kind, "may depend on"]) for kind in ("wing", "layer")]
    rules = [{name: may.split(", ") for name, may in rows} for rows in rules]
    places = {}
    for wing in rules[0]:
        part = text.partition(f"\n## {wing}\n")[2].partition("\n## ")[0]
        places |= {row[0].strip("`"): (wing, row[1]) for row in table(part, ["crate", "layer", "what it is"])}
    return rules, places


def check_map():
    rules, places = crate_map()
    listed = crates.listed()
    yield from (f"crates/README.md: there is no line for {crate}" for crate in listed if crate not in places)
    yield from (f"crates/README.md: there is no crate {crate}" for crate in places if crate not in listed)
    for crate, dep in ((crate, dep) for crate in listed for dep in listed[crate] if {crate, dep} <= set(places)):
        for rule, own, other in zip(rules, places[crate], places[dep]):
            if other not in rule.get(own, []):
                yield f"crates.txt: {crate} ({own}) depends on {dep} ({other}), which crates/README.md does not allow"


def check_example():
    code = re.findall(r"^```c\n(.*?)^```", read("docs/C.md"), re.M | re.S)
    if read("examples/show.c") not in code:
        yield "docs/C.md does not quote examples/show.c as it is"


def check_width():
    for path in [ROOT / d for d in DOCUMENTS] + [p for glob in NARROW for p in sorted(ROOT.glob(glob))]:
        for number, line in enumerate(path.read_text().splitlines(), 1):
            row = line.startswith("|") and str(path.relative_to(ROOT)) in LONG_ROWS
            if len(line) > WIDTH and not row:
                yield f"{path.relative_to(ROOT)}:{number}: {len(line)} columns"


def check_edit_lines():
    """An edit replaces whole lines one by one: what stood below `old:` or `new:` would be passed over."""
    for path in sorted([*ROOT.glob("crates/*/must-fail/*.edit"), *ROOT.glob("tests/edits/*/*.edit")]):
        words = [line.split(":")[0] for line in path.read_text().splitlines() if not line.startswith("#")]
        if words != ["file", *["old", "new"] * (len(words) // 2)] or len(words) < 3:
            yield f"{path.relative_to(ROOT)}: not a file, then an old line and a new one for each change"


def check_readme():
    lines = len(read("README.md").splitlines())
    if lines > README_LINES:
        yield f"README.md has {lines} lines, at most {README_LINES}"


def went():
    """What the design pass took away: a document of the past may still name it."""
    return re.findall(r"`([a-z_]+(?:::\w+)+)`", read(WENT).partition("# Functions that went")[2].partition("\n# ")[0])


def main():
    gone = [f": `{name}" for name in went()]
    found = [*check_refusals(), *requirements.differences(), *opened.faults(), *check_trace(), *check_reading()]
    found += [*check_map(), *check_example(), *check_width(), *check_readme(), *check_edit_lines()]
    for document in DOCUMENTS:
        text = read(document)
        for check in CHECKS if document not in PAST else CHECKS[:4]:
            faults = check(document, text)
            found += [f for f in faults if document not in PAST or not any(name in f for name in gone)]
    print("\n".join(found) if found else "the documents agree with the sources")
    return 1 if found else 0


if __name__ == "__main__":
    sys.exit(main())
