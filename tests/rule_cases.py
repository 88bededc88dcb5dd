#!/usr/bin/env python3
"""The cases of code of crates/code_cases: each instruction, and each rule kept and broken.

    rule_cases.py    checks this reference by rows that were worked by hand

A row is a name, code, and the block and place of its first fault, worked by hand, or None. The reference of `code_rules.py` has to
find the same.
"""

import os
import sys
from random import Random

from code_rules import MOST_NUMBERS, fault_of
from listings import code_of, listing_of

HALT = "process p 0 0 0\n  0 halt\n"
ONE_ROW = "decision 0 rows 1\n  takes 1\n  binds 1\n  row 0 0\n"


def block(heading, instructions):
    return heading + "\n" + "".join("  %d %s\n" % (n, one) for n, one in enumerate(instructions.split("; ") if instructions else []))


def process(instructions, behind="", heading="process p 0 0 0"):
    """One process, with decisions behind it."""
    return block(heading, instructions) + behind


def function(instructions, behind="", heading="function f 1"):
    """One function before a process."""
    return block(heading, instructions) + HALT + behind


# ---- Each instruction

CONSTANTS = [
    "int 0", "int -1", "int 9223372036854775807", "int -9223372036854775808", "char 0", "char 34", "char 1114111", "bool True", "bool False",
    "nil", 'text ""', r'text "a \"b\" \\ c\n\r\t\u{0}\u{1b}\u{7f}"', 'text "\u00e9\u2028\U0010ffff"', "load 0", "load %d" % (MOST_NUMBERS - 1),
]
OPERATIONS = [
    ("int 1; int 2", "op " + name) for name in ("add", "sub", "mul", "div", "mod", "eq", "ne", "lt", "le", "gt", "ge", "append")
] + [("int 1", "op " + name) for name in ("neg", "code", "char")]
MAKERS = [("int 1; nil", "cons"), ("int 1; nil", "pair"), ("int 1; nil", "build 0 2"), ("int 1", "build 4294967295 1"), ("nil", "build 7 0; cons")]

KEPT = (
    [("the function of " + one, function(one + "; return"), None) for one in CONSTANTS]
    + [("the process of " + one, process(one + "; put 0; halt"), None) for one in CONSTANTS]
    + [("%s of %s" % (op.replace(";", ","), before.replace(";", ",")), function("%s; %s; return" % (before, op)), None) for before, op in OPERATIONS + MAKERS]
    + [
        ("jumps onward", function("jump 2; return; nil; return"), None),
        ("a jump to itself", process("jump 0"), None),
        ("a jump back", process("close 0; jump 0"), None),
        ("both ways of a test", function("bool True; unless 4; int 1; return; int 2; return"), None),
        ("a call without arguments", function("call 1; return", block("function g 0", "nil; return")).replace(HALT, "") + HALT, None),
        ("a call of itself", function("load 0; call 0; return"), None),
        ("a match", function("load 0; match 0 5 2,4; nil; return; load 5; return", "decision 0 rows 2\n  takes 1\n  binds 0,1\n  test 0 nil 0 1\n  row 0 -\n  row 1 0\n"), None),
        ("a match of nothing", function("match 0 0 1; nil; return", "decision 0 rows 1\n  takes 0\n  binds 0\n  row 0 -\n"), None),
        ("a match without rows", function("load 0; match 0 0 -", "decision 0 rows 0\n  takes 1\n  binds -\n  fail\n"), None),
        ("a decision without nodes", function("load 0; match 0 0 -", "decision 0 rows 0\n  takes 1\n  binds -\n"), None),
        ("a case", process("nil; case 0 0 2; halt", ONE_ROW), None),
        ("each head", process(
            "nil; case 0 0 2,2,2,2,2,2,2; halt",
            "decision 0 rows 7\n  takes 1\n  binds 0,0,0,0,0,0,0\n" + "".join(
                "  test 0.1 %s 0 1\n  row %d -\n" % (head, n) for n, head in enumerate(["int:3", "char:97", "bool:True", "nil", "cell", "pair", "built:3:2"]))), None),
        ("put and get", process("int 1; put 0; get 1 0; load 0; put 0; halt 1"), None),
        ("pick, offer and split", process("pick 0 4294967295; offer 1 2,3; halt; split 0 1 2; halt"), None),
        ("offer without rows", process("offer 0 -"), None),
        ("fork", process("fork 0 1 2 2; halt 1; halt 2"), None),
        ("close and halt", process("close 0; close %d; halt %d" % (MOST_NUMBERS - 1, MOST_NUMBERS - 1)), None),
        ("link", process("link 0 %d" % (MOST_NUMBERS - 1)), None),
        ("linkneg", process("linkneg %d 0" % (MOST_NUMBERS - 1)), None),
        ("peel", process("peel 0 in 2; halt 0; peel 1 out 2; halt 1"), None),
        ("race", process("race 1,2,3; get 0 0; offer 0 4; split 0 1 2; halt"), None),
        ("race without branches", process("race -"), None),
        ("go", process("int 1; int 2; go 0 0,1,0", heading="process p 2 2 1"), None),
        ("go without channels", process("go 0 -"), None),
        ("a name of 64 letters", process("halt", heading="process %s 0 0 0" % ("long_name" * 8)[:64]), None),
        ("no code at all", "", None),
        ("functions alone", block("function f 0", "nil; return"), None),
        ("what is never come to breaks no rule of the stack", process("halt; cons; halt"), None),
    ]
)

# ---- Each rule broken


def out_of_range(before, instruction, behind):
    """An instruction with one number at its limit, named `#`."""
    good, bad = (instruction.replace("#", str(n)) for n in (MOST_NUMBERS - 1, MOST_NUMBERS))
    place = before.count(";") + 1 if before else 0
    parts = [part for part in (before, "%s", behind) if part]
    whole = "; ".join(parts)
    return [
        ("below the limit: " + good, process(whole % good), None),
        ("at the limit: " + bad, process(whole % bad), (0, place)),
    ]


RANGES = [
    ("", "load #", "put 0; halt"), ("nil", "put #", "halt"), ("", "get # 0", "halt"), ("", "get 0 #", "halt"), ("", "pick # 0", "halt"),
    ("", "split # 0 1", "halt"), ("", "split 0 # 1", "halt"), ("", "split 0 1 #", "halt"), ("", "close #", "halt"), ("", "offer # 1", "halt"),
    ("", "fork # 0 1 1", "halt"), ("", "fork 0 # 1 1", "halt"), ("", "fork 0 1 # 1", "halt"), ("", "halt #", ""), ("", "link # 0", ""),
    ("", "link 0 #", ""), ("", "linkneg # 0", ""), ("", "linkneg 0 #", ""), ("", "peel # in 1", "halt"), ("", "peel # out 1", "halt"),
]

ROWS_OF = "decision 0 rows %d\n  takes 1\n  binds %s\n  %s\n"

BROKEN = [row for one in RANGES for row in out_of_range(*one)] + [
    ("a match at the greatest number", process("nil; case 0 %d 2; halt" % (MOST_NUMBERS - 1), ONE_ROW), None),
    ("a match behind the greatest number", process("nil; case 0 %d 2; halt" % MOST_NUMBERS, ROWS_OF % (1, "0", "row 0 -")), (0, 1)),
    ("a row that sets the greatest number and one more", process("nil; case 0 %d 2; halt" % (MOST_NUMBERS - 1), ROWS_OF % (1, "2", "fail")), (0, 1)),
    ("a channel of go", process("go 0 %d" % (MOST_NUMBERS - 1), heading="process p 0 1 0"), None),
    ("a channel of go at the limit", process("go 0 %d" % MOST_NUMBERS, heading="process p 0 1 0"), (0, 0)),
    ("a function that isn't there", process("call 0; put 0; halt"), (0, 0)),
    ("a process that isn't there", process("go 1 -"), (0, 0)),
    ("a decision that isn't there", process("nil; case 0 0 -"), (0, 1)),
    ("a decision that isn't there, in a function", function("load 0; match 1 0 -", ROWS_OF % (0, "-", "fail")), (0, 1)),
    ("a jump out of the block", process("jump 1"), (0, 0)),
    ("a test that leads out of the block", process("bool True; unless 3; halt"), (0, 1)),
    ("a row out of the block", process("nil; case 0 0 3; halt", ONE_ROW), (0, 1)),
    ("an offered place out of the block", process("offer 0 1,2; halt"), (0, 0)),
    ("a raced place out of the block", process("race 1,3; get 0 0; halt"), (0, 0)),
    ("a fork's child out of the block", process("fork 0 1 2 2; halt"), (0, 0)),
    ("a peel's child out of the block", process("peel 0 in 2; halt"), (0, 0)),
    ("a place too few for the rows", process("nil; case 0 0 2; halt", ROWS_OF % (2, "0,0", "row 0 -")), (0, 1)),
    ("a place too many for the rows", process("nil; case 0 0 2,2; halt", ROWS_OF % (1, "0", "row 0 -")), (0, 1)),
    ("a row that isn't there", process("nil; case 0 0 2; halt", ROWS_OF % (1, "0", "row 1 -")), (0, 1)),
    ("too few variables for a row", process("nil; case 0 0 2; halt", ROWS_OF % (1, "1", "row 0 -")), (0, 1)),
    ("too many variables for a row", process("nil; case 0 0 2; halt", ROWS_OF % (1, "1", "row 0 0,0.1")), (0, 1)),
    ("a bad row behind a test", process("nil; case 0 0 2; halt", ROWS_OF % (1, "0", "test 0 nil 0 1\n  row 0 -\n  row 1 -")), (0, 1)),
    ("a bad row that no test leads to", process("nil; case 0 0 2; halt", ROWS_OF % (1, "0", "test 0 nil 0 2\n  row 0 -\n  row 1 -\n  fail")), None),
    ("a test that leads to no node", process("nil; case 0 0 2; halt", ROWS_OF % (1, "0", "test 0 nil 0 4294967295\n  row 0 -")), None),
    ("a decision that nobody names may be bad", process("halt", ROWS_OF % (1, "0", "row 1 -")), None),
    ("a channel too few", process("go 0 0", heading="process p 0 1 1"), (0, 0)),
    ("a channel too many", process("go 0 0"), (0, 0)),
    ("a branch that isn't a receipt", process("race 1,3; get 0 0; halt; close 1; halt"), (0, 0)),
    ("a branch that jumps to a receipt", process("race 1; jump 2; get 0 0; halt"), (0, 0)),
    ("return in a process", process("nil; return"), (0, 1)),
] + [
    ("%s in a function" % one.split("; ")[-1].split(" ")[0], function("%s; nil; return" % one, ONE_ROW), (0, one.count(";")))
    for one in ("nil; case 0 0 2", "nil; put 0", "get 0 0", "pick 0 0", "offer 0 1", "split 0 1 2", "fork 0 1 2 1", "close 0", "halt", "link 0 1", "linkneg 0 1",
                "peel 0 in 1", "race -", "go 0 -")
] + [
    ("a block that ends with %s" % one.split("; ")[-1], process(one, ONE_ROW), (0, one.count(";")))
    for one in ("nil", "int 1", "char 1", "bool True", 'text "a"', "load 0", "nil; nil; cons", "nil; nil; pair", "build 0 0", "int 1; op neg", "bool True; unless 0",
                "nil; put 0", "get 0 0", "pick 0 0", "split 0 1 2", "fork 0 1 2 0", "close 0", "peel 0 in 0")
] + [
    ("a function that ends with a call", function("load 0; call 0"), (0, 1)),
    ("an empty process", process(""), (0, 0)),
    ("an empty function", function(""), (0, 0)),
] + [
    ("a value too few for " + one, process("%s; put 0; halt" % one if one.split(" ")[0] in ("cons", "pair", "build", "op") else "%s; halt" % one), (0, 0))
    for one in ("cons", "pair", "build 0 1", "op add", "op eq", "op append", "op neg", "op code", "op char", "unless 1", "put 0")
] + [
    ("one value for two of cons", process("nil; cons; put 0; halt"), (0, 1)),
    ("one value for two of op", process("int 1; op mul; put 0; halt"), (0, 1)),
    ("no value for return", function("return"), (0, 0)),
    ("a value too few for a call", function("call 0; return"), (0, 0)),
    ("a value too few for match", function("match 0 0 1; nil; return", ONE_ROW), (0, 0)),
    ("a value too few for case", process("case 0 0 1; halt", ONE_ROW), (0, 0)),
    ("a value too few for go", process("go 0 -", heading="process p 1 0 0"), (0, 0)),
    ("a value too many for a function's instruction", function("nil; load 0; return"), None),
] + [
    ("a value too many for " + one.split("; ")[-1], process("nil; %s; halt" % one, ONE_ROW), (0, one.count(";") + 1))
    for one in ("nil; case 0 0 3", "nil; put 0", "get 0 0", "pick 0 0", "offer 0 2", "split 0 1 2", "fork 0 1 2 2", "close 0", "halt", "halt 0", "link 0 1", "linkneg 0 1",
                "peel 0 out 2", "race -", "go 0 -")
] + [
    ("two values left at the end", process("int 1; load 0; halt"), (0, 2)),
    ("two ways with different numbers of values", process("bool True; unless 3; nil; halt"), (0, 3)),
    ("two ways with as many", process("bool True; unless 4; nil; jump 5; int 1; put 0; halt"), None),
    ("a child's place with a value", process("fork 0 1 2 2; nil; put 0; halt"), (0, 2)),
    ("a way back with a value more", process("nil; jump 0"), (0, 0)),
    ("the first of two that hand on tells the number", process("bool True; unless 3; jump 3; nil; put 0; halt"), None),
    ("a place that is given its number in a later round", process("bool True; unless 4; nil; jump 5; nil; jump 6; put 0; halt"), None),
    ("three ways, of which the last differs", process("bool True; unless 5; bool True; unless 5; jump 6; nil; halt"), (0, 6)),
    ("the first fault of two", process("load %d; close %d; halt" % (MOST_NUMBERS, MOST_NUMBERS)), (0, 0)),
    ("a fault of a process behind functions", function("load 0; return") .replace(HALT, "") + block("function g 0", "nil; return") + HALT + process("nil; halt", heading="process q 0 0 0"), (3, 1)),
    ("a fault of a function is told before one of a process", process("nil; halt") .join([block("function f 0", "nil; nil; return") + block("function g 0", "return"), ""]), (1, 0)),
]


# ---- Chance


def by_chance(random, count):
    """Blocks of instructions by chance, which seldom keep the rules."""
    words = ["nil", "int 1", "bool True", "load 0", "cons", "pair", "op add", "op neg", "build 0 2", "jump %d", "unless %d", "call 0", "put 0", "get 0 1", "close 0",
             "pick 0 1", "halt", "halt 0", "link 0 1", "go 0 0", "offer 0 %d,%d", "fork 0 1 2 %d", "peel 3 in %d", "race %d,%d", "case 0 0 %d", "split 0 1 2"]
    for number in range(count):
        size = random.randint(1, 9)
        code = []
        for _ in range(size):
            one = random.choice(words)
            code.append(one % tuple(random.randint(0, size - 1) for _ in range(one.count("%d"))))
        code[-1] = random.choice(["halt", "halt", "jump 0", "go 0 0", "link 0 1"])
        rest = ONE_ROW
        yield "by chance %d" % number, block("function f 2", "load 0; load 1; cons; return") + process("; ".join(code), rest, "process p 0 1 0")


def rows():
    return KEPT + BROKEN


def answer(text):
    code = code_of(text)
    fault = fault_of(code)
    told = "keeps the rules" if fault is None else "block %d breaks a rule at %d" % fault
    return told + "\n" + listing_of(code)


def check():
    for name, text, wanted in rows():
        found = fault_of(code_of(text))
        assert found == wanted, (name, text, found, wanted)
    print("%d rows worked by hand" % len(rows()))


def tables():
    """The file of cases, and what has to be printed of them."""
    check()
    cases = [(name, text) for name, text, _ in rows()] + list(by_chance(Random(5), 600))
    assert len({name for name, _ in cases}) == len(cases), [name for name, _ in cases if [n for n, _ in cases].count(name) > 1]
    answers = [(name, answer(text)) for name, text in cases]
    print("%d cases of code, of which %d keep the rules" % (len(cases), sum("keeps the rules" in told for _, told in answers)))
    return "".join("== %s\n%s" % case for case in cases), "".join("== %s\n%s" % told for told in answers)


if __name__ == "__main__":
    check()
