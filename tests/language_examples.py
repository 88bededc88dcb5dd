#!/usr/bin/env python3
"""Checks the sources and runs in docs/LANGUAGE.md and README.md.

    language_examples.py             judges and runs them by the references
    language_examples.py PROGRAM     judges and runs them by PROGRAM

A source stands in a block that is marked `campl`. It is accepted, or what is printed stands in the next lines, indented:
`campl: E41 LeftOver at 4:9: channel b`. A table of changes and answers that follows says what becomes of it with one change each:
`line 4 is X`, in which the line keeps its indentation, `line 4 is left out`, `lines 4 to 6 are left out`, or `none`.

Indented lines of which the first is `$ campl` or `$ ./campl` with words are what is printed for these words. A file of the repository
is that file; any other FILE is the source above, and any other script the one above, in a block that is marked `script`.
"""

import os
import re
import subprocess
import sys
import tempfile

from grammar import text_of
from names import HERE
from processes import answer
from program import REFUSED, answer_of
from run import STEPS, generated, ran
from scripts import migrated

TOP = os.path.join(HERE, "..")
PAGES = ("docs/LANGUAGE.md", "README.md")
ROW = re.compile(r"\| ((?:none|lines? \d).*?) \| (.*?) \|")
CHANGES = re.compile(r"none|line (?P<only>\d+) is left out|lines (?P<first>\d+) to (?P<last>\d+) are left out|line (?P<at>\d+) is `(?P<text>.*)`")
ORDER = re.compile(r"\$ (?:\./)?campl (.*)\n")
INDENT = "    "


def parts_of(page):
    """The parts of a page: each with a word for what it is, which is that of a block, `indented`, `row` or `other`."""
    lines = iter(page.splitlines(keepends=True))
    indented = []
    for line in lines:
        if line.startswith(INDENT):
            indented.append(line[len(INDENT) :])
            continue
        if indented:
            yield "indented", "".join(indented)
            indented = []
        if line.startswith("```"):
            yield line[3:].strip() or "block", "".join(iter(lambda: next(lines), "```\n"))
        elif ROW.fullmatch(line.strip().replace(r"\|", "\0")):
            yield "row", line.strip()
        elif line.strip():
            yield "heading" if line.startswith("#") else "other", line


def changed(source, change):
    """The source with a change that is told in words."""
    told = CHANGES.fullmatch(change)
    assert told, change
    lines = source.splitlines()
    if told["at"]:
        at = int(told["at"]) - 1
        lines[at] = re.match(" *", lines[at]).group() + told["text"]
    elif change != "none":
        first = int(told["only"] or told["first"])
        del lines[first - 1 : int(told["only"] or told["last"])]
    return "\n".join(lines) + "\n"


def examples(page):
    """Each source with what is wanted of it."""
    source = wanted = None
    for kind, text in [*parts_of(page), ("heading", "")]:
        if source and kind == "indented" and text.startswith(REFUSED):
            wanted = text.strip().removeprefix(REFUSED)
        if source and kind == "row":
            change, told = (part.replace("\0", "|") for part in ROW.fullmatch(text.replace(r"\|", "\0")).groups())
            yield changed(source, change), told.replace("`", "")
            wanted = told if change == "none" else wanted
        if kind not in ("indented", "row", "other"):
            if source:
                yield source, wanted or "accepted"
            source, wanted = (text if kind == "campl" else None), None


def orders(page):
    """Each order with the source and script above it, and what is printed."""
    above = {"campl": None, "script": None}
    for kind, text in parts_of(page):
        if kind in above:
            above[kind] = text
        order = ORDER.match(text)
        if kind == "indented" and order:
            yield order[1].split(), above["campl"], above["script"], text[order.end() :]


def file_at(path, above):
    """The content of a file of the repository, or what stands above."""
    path = os.path.join(TOP, path)
    return text_of(path) if os.path.exists(path) else above


def printed_by_reference(words, source, script):
    """What the references print, or None where there is none."""
    options = dict(zip(words[2::2], words[3::2]))
    if words[0] == "run":
        lines = file_at(options["--script"], script) if "--script" in options else ""
        return "".join(ran(file_at(words[1], source), lines, int(options.get("--steps", STEPS)))[1:])
    if words[0] == "check":
        told = answer(file_at(words[1], source))
        return "accepted\n" if told == "accepted" else REFUSED + told + "\n"
    if words[0] == "generate":
        stages = int(words[1])
        return "generated %d stages\n%s" % (stages, ran(generated(stages), "", 60 * stages + 200)[1])
    return migrated(file_at(words[1], script)) if words[0] == "migrate" else None


def printed_by(program, words, source, script):
    """What the program prints."""
    with tempfile.TemporaryDirectory() as folder:
        for at, word in enumerate(words[1:], 1):
            above = script if words[at - 1] in ("--script", "migrate") else source
            if re.search(r"\.(campl|script)\Z", word):
                os.makedirs(os.path.dirname(os.path.join(folder, word)), exist_ok=True)
                with open(os.path.join(folder, word), "w", encoding="utf-8", newline="") as file:
                    file.write(file_at(word, above))
        ended = subprocess.run([os.path.abspath(program), *words], cwd=folder, capture_output=True, text=True, check=False)
    return ended.stdout + ended.stderr


def compared(page, program):
    """What each example is about, what is told of it, and what is wanted."""
    for source, wanted in examples(page):
        yield source, answer_of(program, source) if program else answer(source), wanted
    for words, source, script, wanted in orders(page):
        told = printed_by(program, words, source, script) if program else printed_by_reference(words, source, script)
        if told is not None:
            yield "$ campl " + " ".join(words), told, wanted


def main(words):
    number = wrong = 0
    for path in PAGES:
        for name, told, wanted in compared(text_of(os.path.join(TOP, path)), words[0] if words else None):
            number += 1
            if told != wanted:
                wrong += 1
                print("%s\ntold %s\nwanted %s\n" % (name, told, wanted))
    print("%d of %d examples as wanted" % (number - wrong, number))
    return 1 if wrong or not number else 0


if __name__ == "__main__":
    sys.setrecursionlimit(1_000_000)
    sys.exit(main(sys.argv[1:]))
