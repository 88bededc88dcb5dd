#!/usr/bin/env python3
"""The language's tokens, layout and grammar, a second time and in another way than the program's: the tests' reference.

    grammar.py FILE           prints `tree`, or the fault as the program prints it: `E10 Unexpected at 1:10`
    grammar.py --answers FILE prints the answer for each case of a file of cases, as crates/source_cases does
    grammar.py --check        checks this reference by rows that were worked by hand

The grammar is data (RULES). A source is read by keeping every derivation that its words so far can begin; the first word
that leaves none is Unexpected. Each derivation carries the nesting of what it still wants, so that each word's nesting is
known when it is read: one for each bracket, block, `if` and unary minus that is open at the word, and for each chain of
operators of one level and each list with commas that is open at it, one for each operator or comma before the word. A
bracket is still open at its closing one. The first word nested deeper than NESTING is TooDeep, unless it is Unexpected.
"""

import sys

from tokens import RESERVED, SYMBOLS, Fault, layout_of

NESTING = 200

CLASSES = {"LOWER", "UPPER", "NUMBER", "CHARACTER", "TEXT", "_", "{", "}", ";"}


class Word:
    """One word of the rules; each place in the rules has a Word of its own, so that it can be told which were read."""

    def __init__(self, kind, rule):
        assert kind in CLASSES or kind in RESERVED or kind in SYMBOLS, kind
        self.kind, self.rule = kind, rule


def seq(*parts):
    return ("seq", parts)


def alt(*parts):
    return ("alt", parts)


def opt(*parts):
    return ("opt", (seq(*parts),))


def star(*parts):
    return ("star", (seq(*parts),))


def deeper(*parts):
    """These parts, nested one deeper than what stands round them."""
    return ("deeper", (seq(*parts),))


def brackets(left, *parts):
    """Parts in brackets; the closing one still stands in them."""
    return seq(left, deeper(*parts, {"(": ")", "[": "]"}[left]))


def block(part):
    """One or more parts in a block, with semicolons."""
    return seq("{", deeper(part, star(";", part), "}"))


def chain(part, *operators):
    """Parts with operators of one level between them, each part one deeper than the one before."""
    return ("chain", (part, alt(*operators)))


def commas(part):
    """One or more parts with commas between them, each one deeper than the one before."""
    return ("chain", (part, ","))


RULES = {
    "program": seq("{", deeper(opt("declaration", star(";", "declaration")), "}")),
    "declaration": alt(
        seq("data", "UPPER", "parameters", "where", block("constructor")),
        seq("protocol", "UPPER", "parameters", "=>", "UPPER", "where", block("protocol_line")),
        seq("coprotocol", "UPPER", "=>", "UPPER", "parameters", "where", block("coprotocol_line")),
        seq("fun", "LOWER", "::", opt(commas("type")), "->", "type", "where", block("row")),
        seq("proc", "LOWER", "::", opt(commas("type")), "|", opt(commas("channel_type")), "=>",
            opt(commas("channel_type")), "where", "{", deeper("process_row", "}")),
    ),
    "parameters": opt(brackets("(", commas("LOWER"))),
    "constructor": seq("UPPER", opt(brackets("(", commas("type")))),
    "protocol_line": seq("UPPER", "::", "channel_type", "=>", "UPPER"),
    "coprotocol_line": seq("UPPER", "::", "UPPER", "=>", "channel_type"),
    "row": seq(opt(commas("pattern")), "->", "expression"),
    "process_row": seq(opt(commas("variable")), "|", "names", "=>", "names", "->", "body"),
    "variable": alt("LOWER", "_"),
    "names": opt(commas("LOWER")),
    "type": alt("Int", "Char", "Bool", brackets("[", "type"), "LOWER",
                seq("UPPER", opt(brackets("(", commas("type")))),
                brackets("(", "type", opt(",", deeper("type")))),
    # At most one operator.
    "channel_type": seq("channel_atom", opt(alt("(*)", "(+)"), deeper("channel_atom"))),
    "channel_atom": alt(
        seq(alt("Put", "Get"), brackets("(", "type", "|", "channel_type")),
        seq("Neg", brackets("(", "channel_type")),
        "TopBot",
        seq("UPPER", opt(brackets("(", commas("type")))),
        brackets("(", "channel_type"),
    ),
    "body": alt(seq("do", "{", deeper(star("action", ";"), "last", "}")), "last"),
    "action": alt(
        seq("put", "expression", "on", "LOWER"),
        seq("get", "variable", "on", "LOWER"),
        seq("hput", "UPPER", "on", "LOWER"),
        # This comma is no list's.
        seq("split", "LOWER", "into", "LOWER", ",", "LOWER"),
        seq("close", "LOWER"),
    ),
    "last": alt(
        seq("halt", opt("LOWER")),
        seq("hcase", "LOWER", "of", block(seq("UPPER", "->", "body"))),
        seq("fork", "LOWER", "as", "{", deeper("LOWER", "->", "body", ";", "LOWER", "->", "body", "}")),
        seq("plug", commas("link"), "of", block("part")),
        seq("race", block(seq("LOWER", "->", "body"))),
        seq("case", "expression", "of", block(seq("pattern", "->", "body"))),
        seq("LOWER", "|=|", opt("neg"), "LOWER"),
        seq("LOWER", brackets("(", opt(commas("expression")), "|", "names", "=>", "names")),
    ),
    "link": seq("LOWER", "::", "channel_type"),
    "part": seq("names", "=>", "names", "->", "body"),
    "pattern": chain("pattern_atom", ":"),
    # The minus of a number in a pattern nests nothing.
    "pattern_atom": alt("_", "LOWER", "NUMBER", seq("-", "NUMBER"), "CHARACTER", "TEXT", "True", "False",
                        seq("UPPER", opt(brackets("(", commas("pattern")))),
                        brackets("[", opt(commas("pattern"))),
                        brackets("(", "pattern", opt(",", deeper("pattern")))),
    "expression": alt(
        seq("if", deeper("expression", "then", "expression", "else", "expression")),
        seq("case", "expression", "of", block(seq("pattern", "->", "expression"))),
        "disjunction",
    ),
    "disjunction": chain("conjunction", "||"),
    "conjunction": chain("comparison", "&&"),
    # At most one operator.
    "comparison": seq("list", opt(alt("==", "/=", "<", "<=", ">", ">="), deeper("list"))),
    "list": chain("sum", ":", "++"),
    "sum": chain("product", "+", "-"),
    "product": chain("unary", "*", "div", "mod"),
    "unary": alt(seq("-", deeper("unary")), "atom"),
    "atom": alt("NUMBER", "CHARACTER", "TEXT", "True", "False",
                seq("LOWER", opt(brackets("(", opt(commas("expression"))))),
                seq(alt("code", "char"), brackets("(", "expression")),
                seq("UPPER", opt(brackets("(", commas("expression")))),
                brackets("[", opt(commas("expression"))),
                brackets("(", "expression", opt(",", deeper("expression")))),
}


def compiled(part, rule, words):
    """A part in which each word that is no rule's name is a Word."""
    if isinstance(part, tuple):
        return (part[0], tuple(compiled(inner, rule, words) for inner in part[1]))
    if part in RULES:
        return ("rule", part)
    words.append(Word(part, rule))
    return words[-1]


WORDS = []
GRAMMAR = {rule: compiled(part, rule, WORDS) for rule, part in RULES.items()}


# ---- Derivations
#
# What a derivation still wants is a stack of parts with their nesting, as a chain of (part, nesting, rest), and at its end
# None. Its trail are the Words that were read.


def replaced(part, nesting, rest):
    """The stacks by which a part on a stack can be replaced."""
    form, inner = part
    if form == "rule":
        return [(GRAMMAR[inner], nesting, rest)]
    if form == "alt":
        return [(one, nesting, rest) for one in inner]
    if form == "opt":
        return [rest, (inner[0], nesting, rest)]
    if form == "star":
        return [rest, (inner[0], nesting, (part, nesting, rest))]
    if form == "deeper":
        return [(inner[0], nesting + 1, rest)]
    if form == "chain":
        more = ("more", (inner[1], part))
        return [(inner[0], nesting, (more, nesting, rest))]
    if form == "more":
        return [rest, (inner[0], nesting, (inner[1], nesting + 1, rest))]
    for one in reversed(inner):
        rest = (one, nesting, rest)
    return [rest]


def after(derivations, kind):
    """The derivations that go on with a word of this kind, each with the word's nesting."""
    found, open_ones = [], list(derivations)
    while open_ones:
        stack, trail = open_ones.pop()
        if stack is None:
            continue
        part, nesting, rest = stack
        if isinstance(part, Word):
            if part.kind == kind:
                found.append((rest, (part, trail), nesting))
        else:
            open_ones.extend((next_one, trail) for next_one in replaced(part, nesting, rest))
    return found


def read(text):
    """The Words of the rules that a source's words are read as; or its first fault."""
    derivations = [((("rule", "program"), 0, None), None)]
    for token in layout_of(text):
        found = after(derivations, token.kind)
        if not found:
            raise Fault("E10", token.place)
        nestings = {nesting for _, _, nesting in found}
        assert len(nestings) == 1, (text, token.place)
        if nestings.pop() > NESTING:
            raise Fault("E11", token.place)
        derivations = [(rest, trail) for rest, trail, _ in found]
    ended = [trail for rest, trail in derivations if rest is None]
    assert len(ended) == 1, text
    words, trail = [], ended[0]
    while trail is not None:
        words.append(trail[0])
        trail = trail[1]
    return words


def answer(text):
    try:
        read(text)
    except Fault as fault:
        return str(fault)
    return "tree"


# ---- Rows worked by hand

HELLO = """proc run :: | Console => where
    | console => -> do
        hput ConsolePut on console
        put "Hello" on console
        hput ConsoleClose on console
        halt console
"""


def hello_with(expression):
    return HELLO.replace('"Hello"', expression)


def rows_worked_by_hand():
    lines = HELLO.splitlines(keepends=True)
    return [
        (HELLO, "tree"),
        (HELLO[: HELLO.index('"Hello"')] + '"Hel', "E02 OpenString at 4:13"),
        (lines[0] + lines[1], "E07 BadColumn at 3:1"),
        (lines[0] + lines[1] + "\t" + "".join(lines[2:]), "E06 Tab at 3:1"),
        ("proc run | => where\n    | => -> halt", "E10 Unexpected at 1:10"),
        ("proc run | => where", "E07 BadColumn at 1:20"),
        (hello_with('"He\\qllo"'), "E03 BadEscape at 4:16"),
        (hello_with("(" * 197 + '"Hello"' + ")" * 197), "tree"),
        (hello_with("(" * 198 + '"Hello"' + ")" * 198), "E11 TooDeep at 4:211"),
        (hello_with('"Hello"' + ' ++ ""' * 197), "tree"),
        (hello_with('"Hello"' + ' ++ ""' * 198), "E11 TooDeep at 4:1206"),
        ("", "tree"),
        ("(", "E10 Unexpected at 1:1"),
    ]


def cases_of(content):
    """The names and texts of a file of cases, whose last line feed belongs to no text."""
    cases, lines = [], []
    for line in content[:-1].split("\n"):
        if line.startswith("== "):
            lines = []
            cases.append((line[3:], lines))
        else:
            lines.append(line)
    return [(name, "\n".join(lines)) for name, lines in cases]


def text_of(path):
    with open(path, encoding="utf-8", newline="") as file:
        return file.read()


def check_rows(rows, answer):
    """Judges rows of a source and the answer that is meant."""
    for text, wanted in rows:
        assert answer(text) == wanted, (text[:200], answer(text), wanted)
    print("%d rows" % len(rows))


def run(words, rows, answer):
    """What a reference does with its words; `rows` makes the rows worked by hand."""
    if words[:1] == ["--check"]:
        check_rows(rows(), answer)
    elif words[:1] == ["--answers"]:
        for name, text in cases_of(text_of(words[1])):
            print("%s: %s" % (name, answer(text)))
    else:
        print(answer(text_of(words[0]).removeprefix("\ufeff")))


if __name__ == "__main__":
    run(sys.argv[1:], rows_worked_by_hand, answer)
