#!/usr/bin/env python3
"""Runs that were worked by hand: a source, its script and its budget, with the status and what is told.

    run_rows.py PROGRAM   does these, the orders worked by hand and the cases of run_cases.py by the built program,
                          each with one worker and with four, and compares every byte
"""

import os
import subprocess
import sys
import tempfile
import time
from typing import NamedTuple, Optional

from grammar import HELLO
from names import HERE
from run import STEPS, generated, ran, text_at

SOURCES = os.path.join(HERE, "../crates/typed_sources/data")
FAULT = "campl: "


class Row(NamedTuple):
    """A run: its source, its script and budget where they are given, the status, and the output or the line of a refusal."""

    name: str
    source: str
    script: Optional[str]
    steps: Optional[int]
    status: int
    told: str


def source(name, *changes):
    """A source that is typed by proof, with changes."""
    text = text_at(os.path.join(SOURCES, name + ".campl"))
    for old, new in changes:
        assert old in text, old
        text = text.replace(old, new)
    return text


def nested(levels):
    """A call in a call, each with a hundred additions."""
    expression = "0"
    for _ in range(levels):
        expression = "g(" + expression + " + 1" * 100 + ")"
    return expression


def one_console(records, ended):
    return "channel console\n" + records + ended + "\n"


RACE_SCRIPT = "t1: A\nt2: B\n"
BANK_SCRIPT = "left: 5\n" * 18 + "left: balance\nleft: quit\n" + "right: 12\n" * 18 + "right: balance\nright: quit\n"
BANK = (
    "channel bank\n> total 306\nclosed\nchannel left\n" + "< 5\n" * 18 + "< balance\n> 90\n< quit\nclosed\nchannel right\n"
    + "< 12\n" * 18 + "< balance\n> 216\n< quit\nclosed\nfinished after 575 steps\n"
)
HELLO_RUN = one_console("> Hello\nclosed\n", "finished after 7 steps")
ASKED = source("reads_a_line")
ASKED_RUN = one_console("< hi\nclosed\n", "finished after 7 steps")
RACED = one_console("> AB\nclosed\n", "channel t1\n< A\nclosed\nchannel t2\n< B\nclosed\nfinished after 23 steps")
AHEAD = one_console("> ahead\nclosed\n", "channel term\nawaiting term after 12 steps")
BROKEN = one_console("", "broken after 4099 steps")


def hello_rows():
    lines = HELLO.splitlines(keepends=True)
    for steps in (None, 7, STEPS):
        yield Row("hello, %s steps" % (steps or "the usual"), HELLO, None, steps, 0, HELLO_RUN)
    yield Row("hello, 6 steps", HELLO, None, 6, 11, one_console("> Hello\n", "out of steps after 6 steps"))
    yield Row("hello, no step", HELLO, None, 0, 11, one_console("", "out of steps after 0 steps"))
    yield Row("halts at once", source("halts_at_once"), None, None, 0, "finished after 1 steps\n")
    for number, told in ((197, None), (198, "E11 TooDeep at 4:211")):
        text = HELLO.replace('"Hello"', "(" * number + '"Hello"' + ")" * number)
        yield Row("hello in %d pairs of parentheses" % number, text, None, None, *answered(HELLO_RUN, told))
    for number, told in ((197, None), (198, "E11 TooDeep at 4:1206")):
        text = HELLO.replace('"Hello"', '"Hello"' + ' ++ ""' * number)
        yield Row("hello and %d empty texts" % number, text, None, None, *answered(HELLO_RUN, told))
    for name, text, told in (
        ("a text that is open", HELLO[: HELLO.index('"Hello"')] + '"Hel', "E02 OpenString at 4:13"),
        ("a block without lines", lines[0] + lines[1], "E07 BadColumn at 3:1"),
        ("a tab", lines[0] + lines[1] + "\t" + "".join(lines[2:]), "E06 Tab at 3:1"),
        ("a heading without ::", "proc run | => where\n    | => -> halt", "E10 Unexpected at 1:10"),
        ("a heading alone", "proc run | => where", "E07 BadColumn at 1:20"),
        ("no escape", HELLO.replace("Hello", "He\\qllo"), "E03 BadEscape at 4:16"),
        ("no source", "", "E23 NoRun at 1:1"),
    ):
        yield Row(name, text, None, None, *answered("", told))


def answered(output, told):
    """The status, and what is told of an output or a fault."""
    return (0, output) if told is None else (3, FAULT + told + "\n")


def process_rows():
    two = "proc run :: | Console, Console => where\n    | a, b => -> do\n        hput ConsoleClose on a\n        halt a\n"
    twice = "proc run :: | Console => where\n    | a => -> do\n        hput ConsoleClose on a\n        close a\n        halt a\n"
    put = 'proc run :: | => StringTerminal where\n    | => t -> do\n        hput StringTerminalGet on t\n        put "x" on t\n        halt t\n'
    for name, text, told in (
        ("two channels between two parts", source("no_tree/shares_two_channels"), "E44 PlugCycle at 2:31: link d"),
        ("a part apart", source("no_tree/leaves_a_part_apart"), "E45 PlugApart at 5:9: part 3"),
        ("a channel that is left", two, "E41 LeftOver at 4:9: channel b"),
        ("a channel that was closed", twice, "E40 NotHeld at 5:14: channel a"),
        (
            "a put where a get is due",
            put,
            "E42 WrongAction at 4:9: channel t has Get([Char] | StringTerminal) on the output side",
        ),
        ("a pattern that is missing", source("refused/misses_a_colour"), "E32 NotExhaustive at 5:1: missing Green"),
        ("a box without its argument", source("gives_a_box", ("Box([Char]) of", "Box of")), "E25 TypeArguments at 13:31: found 0, wanted 1"),
    ):
        yield Row(name, text, None, None, *answered("", told))


def script_rows():
    yield Row("asked without a script", ASKED, None, None, 10, one_console("", "awaiting console after 2 steps"))
    for name, script in (
        ("a line", "console: hi"),
        ("a line with carriage return", "console: hi\r\n"),
        ("a line without a space", "console:hi"),
        ("a line too many", "console: hi\nconsole: more\n"),
    ):
        yield Row("asked, " + name, ASKED, script, None, 0, ASKED_RUN)
    yield Row("asked, another channel", ASKED, "printer: x", None, 4, FAULT + "script line 1: unknown channel\n")
    yield Row("asked, no colon", ASKED, "console hi", None, 4, FAULT + "script line 1: no colon\n")
    shown = ASKED_RUN.replace("hi", "a\\tb\\\\")
    yield Row("asked, version 2", ASKED, "campl script 2\nconsole: a\\tb\\\\\n", None, 0, shown)
    yield Row("asked, a bad escape", ASKED, "campl script 2\nconsole: \\q\n", None, 4, FAULT + "script line 2: bad escape\n")
    yield Row("asked, a line too long", ASKED, "console: " + "x" * 1_016, None, 4, FAULT + "script line 1: too long\n")
    yield Row("asked, too many lines", ASKED, "console: x\n" * 100_001, None, 4, FAULT + "script line 100001: too many lines\n")


def message_rows():
    yield Row("a sender runs ahead", source("sends_ahead"), None, None, 10, AHEAD)
    ends = "channel k1\n> left\nclosed\nchannel k2\n> right\nclosed\nfinished after 25 steps\n"
    yield Row("ends travel", source("ends_travel"), None, None, 0, ends)
    joined = one_console("> onetwo\nclosed\n", "finished after 16 steps")
    yield Row("an identity behind a send", source("links_behind_a_send"), None, None, 0, joined)
    negated = one_console("> through neg\nclosed\n", "finished after 18 steps")
    yield Row("three identities", source("links_through_neg"), None, None, 0, negated)
    yield Row("a race of two terminals", source("races_two_terminals"), RACE_SCRIPT, None, 0, RACED)
    waiting = one_console("", "channel t1\nchannel t2\n< B\nawaiting t1 after 7 steps")
    yield Row("a race with one line", source("races_two_terminals"), "t2: B", None, 10, waiting)
    yield Row("a race of any receipt", source("races_a_door"), None, None, 0, one_console("> door\nclosed\n", "finished after 20 steps"))
    yield Row("a bank", source("bank"), BANK_SCRIPT, None, 0, BANK)


def value_rows():
    never, fills, colours = source("never_returns"), source("fills_a_text"), source("first_row_wins")
    endless = HELLO.replace("proc run", "fun f :: -> Int where\n    -> f()\nproc run").replace('"Hello"', "[char(f())]")
    twice = HELLO.replace("proc run", "fun g :: Int -> Int where\n    n -> n\nproc run")
    named = HELLO.replace('"Hello"', "name(Red)")
    yield Row("a function that never returns", never, None, 1_000, 11, one_console("", "out of steps after 1000 steps"))
    yield Row("a function that calls itself", endless, None, None, 11, one_console("", "out of steps after 100000 steps"))
    filled = one_console("> " + "x" * 4_095 + "\nclosed\n", "finished after 4103 steps")
    yield Row("the deepest value", fills, None, None, 0, filled)
    yield Row("a value too deep", fills.replace("4095", "4096"), None, None, 12, BROKEN)
    text = twice.replace('"Hello"', "[char(%s mod 10 + 48)]" % nested(90))
    yield Row("9,000 additions", text, None, None, 0, one_console("> 0\nclosed\n", "finished after 97 steps"))
    text = colours[: colours.index("proc run")] + named
    yield Row("the first row that matches", text, None, None, 0, one_console("> any\nclosed\n", "finished after 8 steps"))
    for name, found in (("first_of_texts", "one"), ("first_of_none", "none")):
        yield Row(name.replace("_", " "), source(name), None, None, 0, one_console("> %s\nclosed\n" % found, "finished after 14 steps"))
    yield Row("gives a box", source("gives_a_box"), None, None, 0, one_console("> one\nclosed\n", "finished after 16 steps"))


def rows():
    """All that is worked by hand."""
    for some in (hello_rows, process_rows, script_rows, message_rows, value_rows):
        yield from some()


# ---- Pipelines


def generated_run(stages):
    """What `generate N` prints of a run: each stage adds one to ten numbers."""
    total = str(55 + 10 * stages)
    return one_console("> sum %s\nclosed\n" % total, "finished after %d steps" % (58 * stages + 89 + len(total)))


def check():
    number = 0
    for row in rows():
        status, output, refusal = ran(row.source, row.script or "", STEPS if row.steps is None else row.steps)
        assert (status, output + refusal) == (row.status, row.told), (row.name, status, output + refusal, row.told)
        number += 1
    for stages in (1, 3, 100, 1_000):
        assert ran(generated(stages), "", 60 * stages + 200) == (0, generated_run(stages), ""), stages
        number += 1
    print("%d rows" % number)


# ---- The program


class Asked(NamedTuple):
    """An order over files in a folder, with the status and the bytes that are wanted of both streams."""

    name: str
    files: dict
    words: list
    status: int
    out: str
    err: str


WORKERS = ("1", "4")
NO_ORDER = ([], ["run"], ["run", "a", "--steps", "1000001"], ["run", "a", "--workers", "0"], ["run", "a", "--steps", "5", "--steps", "5"])


def options_of(row):
    """The words of a row behind its file."""
    words = [] if row.script is None else ["--script", "script"]
    return words + ([] if row.steps is None else ["--steps", str(row.steps)])


def asked_of_rows():
    for row in rows():
        out, err = ("", row.told) if row.status in (3, 4) else (row.told, "")
        files = {"source": row.source} if row.script is None else {"source": row.source, "script": row.script}
        for workers in WORKERS:
            words = ["run", "source", *options_of(row), "--workers", workers]
            yield Asked(row.name, files, words, row.status, out, err)


def asked_of_orders():
    """Orders of another kind."""
    for words in (*NO_ORDER, ["generate", "0"], ["generate", "10001"], ["check"]):
        yield Asked("no order", {"a": HELLO}, words, 2, "", FAULT + "bad command line\n")
    yield Asked("check", {"source": HELLO}, ["check", "source"], 0, "accepted\n", "")
    yield Asked("check of what isn't there", {}, ["check", "source"], 5, "", FAULT + "read fault\n")
    listing = "process run 0 0 0\n  0 halt\n"
    yield Asked("code", {"source": source("halts_at_once")}, ["code", "source"], 0, listing, "")
    migrated = "campl script 2\nconsole: a\\\\tb\n"
    yield Asked("migrate", {"script": "console: a\\tb\n"}, ["migrate", "script"], 0, migrated, "")
    for stages, workers in ((1, "1"), (1, "4"), (3, "4"), (1_000, "1"), (1_000, "8"), (10_000, "4")):
        out = "generated %d stages\n%s" % (stages, generated_run(stages))
        yield Asked("generate", {}, ["generate", str(stages), "--workers", workers], 0, out, "")


class Program:
    """A built program, in a folder of its own, and the seconds that its runs took."""

    def __init__(self, path, folder):
        self.path, self.folder, self.seconds = os.path.abspath(path), folder, 0.0

    def run(self, words, given=b""):
        """What it answers and writes."""
        begun = time.monotonic()
        ended = subprocess.run([self.path, *words], cwd=self.folder, input=given, capture_output=True, check=False)
        self.seconds += time.monotonic() - begun
        return ended.returncode, ended.stdout.decode(), ended.stderr.decode()

    def run_over(self, files, words):
        """The same over files."""
        for name in os.listdir(self.folder):
            os.remove(os.path.join(self.folder, name))
        for name, content in files.items():
            with open(os.path.join(self.folder, name), "wb") as file:
                file.write(content if isinstance(content, bytes) else content.encode())
        return self.run(words)


def compared(program):
    """Each order with what is told and what is wanted."""
    from run_cases import asked_of_cases

    for some in (asked_of_rows, asked_of_orders, asked_of_cases):
        for asked in some():
            yield asked.name, asked.words, program.run_over(asked.files, asked.words), (asked.status, asked.out, asked.err)
    words = ["run", "/dev/stdin"]
    yield "a source through a pipe", words, program.run(words, HELLO.encode()), (0, HELLO_RUN, "")


def main(path):
    passed = failed = 0
    with tempfile.TemporaryDirectory() as folder:
        program = Program(path, folder)
        for name, words, told, wanted in compared(program):
            passed += told == wanted
            failed += told != wanted
            if told != wanted:
                print("%s: %s\ntold   %.300r\nwanted %.300r" % (name, " ".join(words), told, wanted))
    print("%d rows passed, %d failed, in %.1f s" % (passed, failed, program.seconds))
    return 1 if failed or not passed else 0


if __name__ == "__main__":
    sys.setrecursionlimit(1_000_000)
    sys.exit(main(sys.argv[1]))
