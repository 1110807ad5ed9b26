#!/usr/bin/env python3
"""Counts, in crates/*/src and crates/*/proofs, the places that docs/DESIGN-PASS.md speaks of, point by point.

    python3 tools/design.py [FOLDER]       the counts, of this tree or of another checkout
    python3 tools/design.py -v [FOLDER]    each place too

It goes by the text: it finds what has the shape, and the page says of each place what became of it.
"""
import re
import sys
from collections import defaultdict
from pathlib import Path

INTEGERS = r"\b(?:u8|u16|u32|u64|usize|i16|i32|i64)\b"
FN = re.compile(r"(?m)^( *)(?:pub(?:\(\w+\))? )?(?:unsafe )?(?:extern \"C\" )?fn (\w+)")
BOOL_FLAG = re.compile(r"(?m)^    pub (?:known|clean|skipped|refusal|some|valid|found): (?:bool|u32)")
COUNTED = re.compile(r"\b(\w+) (?:\+=|-=) (?:1|\d+|\w+);|\b(\w+) = \2 [+-] \d+;")
HAND = re.compile(r"\b(?:say|number|phrase|counted|word)\(rt\b|\bsay\(\s*rt\b|\bphrase\(\s*rt\b")
CASTS = re.compile(r"\b(?:u8_u16|u8_u32|u8_u64|u16_u32|u16_u64|u32_u64|i16_i32|one8|one32|one64|least|smaller)\(")
COPIES = re.compile(r"\b(?:part::(?:copy|fill|starts)|numbers::copy)\(")
ROWS = re.compile(r"\brows::first\(")
CODES = re.compile(r"\bno: u32\b|\bif \w+ != 0 \{\s*return (?:\w+;|Reply)|\breturn \d+;|Answer::Refused\(\d+\)|refused\(\d+\)")


def closing(text, at):
    """The place of the brace that closes the one at a place; strings and comments are passed over."""
    depth = 0
    while True:
        if text.startswith("//", at):
            at = text.index("\n", at)
        elif text[at] == '"':
            at += 1
            while text[at] != '"':
                at += 2 if text[at] == "\\" else 1
        depth += (text[at] == "{") - (text[at] == "}")
        if depth == 0:
            return at
        at += 1


def functions(text):
    """Name, head (parameters and clauses) and body of each function of a file."""
    for begun in FN.finditer(text):
        at, depth = begun.end(), 0
        while not (depth == 0 and (text[at] in "{;" or re.match(r"\b(?:requires|ensures)\b", text[at:at + 9]))):
            depth += (text[at] in "([") - (text[at] in ")]")
            at += 1
        while text[at] not in "{;":
            at = closing(text, text.index("{", at)) + 1
            at += len(text[at:]) - len(text[at:].lstrip())
        if text[at] == "{":
            yield begun[2], text[begun.start():at], text[at:closing(text, at) + 1]


def shape(body):
    """The body with its numbers, integer types and names taken away: what twins have alike."""
    names = {}
    body = re.sub(r"//.*", "", body)
    body = re.sub(INTEGERS, "T", body)
    body = re.sub(r"\b\d+\b", "N", body)
    return re.sub(r"\b[a-z_]\w*\b", lambda m: names.setdefault(m[0], f"v{len(names)}"), " ".join(body.split()))


def clauses(head, word):
    """The clauses of a kind of a function, without their names."""
    for begun in re.finditer(rf"\b{word}\b[^{{]*{{", head):
        at = begun.end() - 1
        yield " ".join(head[at + 1:closing(head, at)].split())


def read(tree):
    """Every function of the tree's crates: crate/file, name, head, body."""
    for file in sorted(tree.glob("crates/*/src/**/*.rt")):
        where = "/".join(file.relative_to(tree / "crates").parts).replace("/src", "")
        for name, head, body in functions(file.read_text()):
            yield where, name, head, body


def own_enums(tree):
    """1: enums of two cases of which one, or both, hold a value."""
    for file in sorted(tree.glob("crates/*/src/**/*.rt")):
        text = file.read_text()
        for begun in re.finditer(r"\benum (\w+) \{", text):
            inside = text[begun.end():closing(text, begun.end() - 1)]
            cases = re.findall(r"(?m)^    (\w+)( ?[({])?", inside)
            if len(cases) == 2 and any(held for _, held in cases):
                yield f"{file.parts[-3]}: enum {begun[1]}"


def flags(tree):
    """1: structs with a flag, or a refusal's number, beside the value that it is of."""
    for file in sorted(tree.glob("crates/*/src/**/*.rt")):
        text = file.read_text()
        for begun in re.finditer(r"\bstruct (\w+)(?:<[^>]*>)? \{", text):
            if BOOL_FLAG.search(text[begun.end():closing(text, begun.end() - 1)]):
                yield f"{file.parts[-3]}: struct {begun[1]}"


def found(pattern, part):
    """The functions in whose body, or head, the pattern stands, once for each time."""
    def search(tree):
        for where, name, head, body in read(tree):
            for _ in pattern.finditer({"body": body, "both": head + body}[part]):
                yield f"{where}: {name}"
    return search


def twins(tree):
    """2: functions of one shape, of three lines or more, or of one expression in a group of three."""
    groups = defaultdict(list)
    for where, name, _, body in read(tree):
        groups[shape(body)].append((f"{where}: {name}", body.count("\n")))
    for group in groups.values():
        if len(group) > 1 and (group[0][1] > 3 or len(group) > 2):
            yield from (f"{place} ({len(group)} alike)" for place, _ in group)


def counted_loops(tree):
    """3: `while` loops that move a number by hand."""
    for where, name, _, body in read(tree):
        for begun in re.finditer(r"\bwhile\b[^{]*\{", body):
            inside = body[begun.end():closing(body, begun.end() - 1)]
            if COUNTED.search(inside):
                yield f"{where}: {name}"


def listed_cases(tree):
    """4: functions that are one match, each case of which gives a literal: a comparison or a conversion by hand."""
    arm = r"\s*[\w:]+(?:\([^)]*\)|\s*\{[^}]*\})? => (?:true|false|\d+|Start::\w+|say\(rt, b\"[^\"]*\"\)),?"
    for where, name, _, body in read(tree):
        if re.fullmatch(rf"\{{\s*match \w+ \{{(?:{arm}){{2,}}\s*\}}\s*\}}", body):
            yield f"{where}: {name}"


def repeated_facts(tree):
    """5: facts that stand in a `requires` of three functions or more, once for each function."""
    stand = defaultdict(set)
    for where, name, head, _ in read(tree):
        for clause in clauses(head, "requires"):
            for fact in re.split(r" × (?![^(]*\))", clause):
                stand[fact.strip("() ")].add(f"{where}: {name}")
    for fact, places in sorted(stand.items()):
        if len(places) > 2:
            yield from (f"{place}: {fact}" for place in sorted(places))


def parallel(tree):
    """6: functions with two or more slices of numbers beside one another that they write, and buffers with a length."""
    for where, name, head, _ in read(tree):
        if len(re.findall(r": &mut \[(?:u8|u32|usize)\]", head)) > 1 and "state: &mut" not in head:
            yield f"{where}: {name}"
    for file in sorted(tree.glob("crates/*/src/**/*.rt")):
        for begun in re.finditer(r"\[\w+; \d+\],\s*pub len: usize", file.read_text()):
            yield f"{file.parts[-3]}: a buffer with a length"


def steps(tree):
    """7: parameters that say which step to run, function pointers and dyn."""
    for where, name, head, _ in read(tree):
        if re.search(r"\bwhat: u\d+|: fn\(|\bdyn\b", head):
            yield f"{where}: {name}"


def aliases(tree):
    """8: answers with a name for what has one."""
    for file in sorted(tree.glob("crates/*/proofs/**/Answers.antt")):
        for _ in re.finditer(r"(?m)^\s+let \w+ = \w+ in$", file.read_text()):
            yield "/".join(file.relative_to(tree / "crates").parts[:-1])


def answers(tree):
    """8: answers, whether the check would find them alone or not."""
    for file in sorted(tree.glob("crates/*/proofs/**/Answers.antt")):
        for line in re.finditer(r"(?m)^pub ([\w'-]+) :", file.read_text()):
            yield "/".join(file.relative_to(tree / "crates").parts[:-1]) + f": {line[1]}"


POINTS = [
    ("1 own enums of two cases", own_enums),
    ("1 flags and numbers beside a value", flags),
    ("1 rows of a table by `rows::first`", found(ROWS, "body")),
    ("1 refusals as numbers", found(CODES, "both")),
    ("2 functions of one shape", twins),
    ("3 loops that count by hand", counted_loops),
    ("4 matches that list every case", listed_cases),
    ("4 casts and choices as functions", found(CASTS, "body")),
    ("4 copies by hand", found(COPIES, "body")),
    ("4 prints by hand", found(HAND, "body")),
    ("5 facts of three functions", repeated_facts),
    ("6 parallel arrays, buffers with a length", parallel),
    ("7 steps by number", steps),
    ("8 answers", answers),
    ("8 aliases in answers", aliases),
]


def main():
    words = [word for word in sys.argv[1:] if word != "-v"]
    tree = Path(words[0]) if words else Path(__file__).resolve().parent.parent
    for title, places in POINTS:
        listed = list(places(tree))
        print(f"{len(listed):5}  {title}")
        if "-v" in sys.argv:
            for place in listed:
                print(f"         {place}")


if __name__ == "__main__":
    main()
