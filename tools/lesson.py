#!/usr/bin/env python3
"""Makes the trainer's page: the four checks, with pictures before and after the damage, from the real calls and tool.

    python3 tools/lesson.py CHECKS TOOL OUT     the program lesson/checks.c, the tool `pagestore`, and the page to write

Nothing of what a check shows is typed in here: the steps are what CHECKS did, the lines and pictures what TOOL printed.
"""
import html
import itertools
import pathlib
import re
import subprocess
import sys
import tempfile

STYLE = """body{font-family:sans-serif;max-width:80em;margin:2em auto;padding:0 1em;color:#111}
pre{background:#f4f4f4;border-left:4px solid #999;padding:.5em 1em;overflow-x:auto}
svg{max-width:100%;height:auto;border:1px solid #ccc}
.damage{border:2px solid #000;padding:.5em 1em}
@media print{h2{page-break-before:always}}
.card{page-break-before:always;border:3px double #000;padding:1em}"""


def said(tool, *words):
    """What the tool printed; a refusal is a line too."""
    done = subprocess.run([tool, *map(str, words)], capture_output=True, text=True, check=False)
    return done.stdout or done.stderr


def picture(tool, volume, number):
    """The map of a volume, its names told from those of the page's other pictures."""
    drawn = said(tool, "map", volume, "-o", "-")
    drawn = re.sub(r'id="(title|desc|torn)"', rf'id="\g<1>{number}"', drawn).replace("url(#torn)", f"url(#torn{number})")
    return drawn.replace("title desc", f"title{number} desc{number}").replace(".torn{", f"#picture{number} .torn{{")


def shown(tool, volume, number):
    """A volume: its picture, what scan says of it, what the reader sees."""
    scan = said(tool, "scan", volume)
    pages = [line.split()[0] for line in scan.splitlines() if line[:1].isdigit() and "BLANK" not in line]
    texts = "".join(f"page {page}\n{said(tool, 'show', volume, page)}\n" for page in pages)
    return (
        f'<div id="picture{number}">{picture(tool, volume, number)}</div>\n'
        f"<p>What <code>pagestore scan</code> says:</p>\n<pre>{html.escape(scan)}</pre>\n"
        f"<p>What the reader sees:</p>\n<pre>{html.escape(texts)}</pre>\n"
    )


def parts(tool, folder, lines):
    """The page's parts, from the lines of the checks: check, do, damage, volume."""
    number, open_list, pictures = 0, False, itertools.count(1)
    for line in lines:
        word, _, rest = line.partition(" ")
        if open_list and word != "do":
            yield "</ol>\n"
            open_list = False
        if word == "check":
            number += 1
            yield f"<h2>Check {number}. {html.escape(rest)}</h2>\n"
        elif word == "do":
            yield ("" if open_list else "<p>What is done:</p>\n<ol>\n") + f"<li>{html.escape(rest)}</li>\n"
            open_list = True
        elif word == "damage":
            yield f'<p class="damage"><b>Damage.</b> {html.escape(rest)}</p>\n'
        else:
            yield shown(tool, folder / rest, next(pictures))


def card():
    """The card for the bag: the words of docs/FIELD.md, as they stand there."""
    text = (pathlib.Path(__file__).resolve().parent.parent / "docs/FIELD.md").read_text()
    return f'<div class="card"><h2>The card</h2>\n<pre>{html.escape(text.partition("## The card")[2].strip(chr(10)))}</pre></div>\n'


def main():
    if len(sys.argv) != 4:
        sys.exit(__doc__)
    checks, tool, out = sys.argv[1:]
    with tempfile.TemporaryDirectory() as name:
        folder = pathlib.Path(name)
        lines = subprocess.run([checks, name], capture_output=True, text=True, check=True).stdout.splitlines()
        body = "".join(parts(tool, folder, lines))
    page = (
        f'<!DOCTYPE html>\n<html lang="en"><head><meta charset="utf-8"><title>Four checks of a page store</title>\n'
        f"<style>{STYLE}</style></head><body>\n<h1>Four checks of a page store</h1>\n"
        "<p>Each check is played with the store's own calls; the damage is done in place of the disk. Whatever the disk "
        "does, the reader sees every line that was told as kept.</p>\n"
        f"{body}{card()}</body></html>\n"
    )
    pathlib.Path(out).write_text(page)


if __name__ == "__main__":
    main()
