"""The cases for names, as a name, how their answer begins, and their source.

Each form of name_forms.py is filled with names that are meant there; then, for each of its places, with unknown names from
that place on, and with one name that is known and not meant there. To them come names that are declared twice, numbers of
arguments, two faults in one source, the rows of name_rows.py, and worked sources. `all_cases` asserts that the reference
answers each as it is meant.
"""

import glob
import os
import re
from collections import Counter
from itertools import product

from grammar import answer as answer_of_grammar, text_of
from name_forms import FORMS, PLACES, WORLD
from name_rows import LATER, LOCALS, OK, RUNS, SCOPES, TYPE_VARIABLES
from names import answer

HERE = os.path.dirname(os.path.abspath(__file__))
PLACE = re.compile(r"@(\w+)")

RUN = "proc run :: | => where\n | => -> halt\n"
KINDS = {
    "data type": "data {type} where\n {line}\n",
    "protocol": "protocol {type} => S where\n {line} :: TopBot => S\n",
    "coprotocol": "coprotocol S => {type} where\n {line} :: S => TopBot\n",
}
CALLABLES = {
    "function": "fun {name} :: Int -> Int where\n x -> x\n",
    "process": "proc {name} :: Int | => where\n x | => -> halt\n",
}
PRELUDE_TYPES = ["Console", "StringTerminal"]
PRELUDE_LINES = [kind + line for kind in PRELUDE_TYPES for line in ("Put", "Get", "Close")]


# ---- Forms


def filled(form, words):
    """The form with a word in each of its places, and where each of them stands as line and column."""
    texts, places = PLACE.split(form)[::2], []
    told = texts[0]
    for word, text in zip(words, texts[1:]):
        places.append((told.count("\n") + 1, len(told) - (told.rfind("\n") + 1) + 1))
        told += word + text
    return told, places


class Turns:
    """Takes what may stand in the places of a kind by turns."""

    def __init__(self):
        self.taken = Counter()

    def next_of(self, kind, choices):
        self.taken[kind, len(choices)] += 1
        return choices[(self.taken[kind, len(choices)] - 1) % len(choices)]


def unknown_from(form, kinds, right, first):
    """The form with unknown names from a place on; the first of them is the fault."""
    words = right[:first] + [PLACES[kind][1] for kind in kinds[first:]]
    text, places = filled(form, words)
    return "E21 Unknown at %d:%d: name %s" % (*places[first], words[first]), text


def form_cases():
    turns = Turns()
    for name, form in FORMS.items():
        kinds = PLACE.findall(form)
        right = [turns.next_of(kind, PLACES[kind][0]) for kind in kinds]
        yield name, OK, filled(form, right)[0] + WORLD
        for number, kind in enumerate(kinds):
            wanted, text = unknown_from(form, kinds, right, number)
            yield "%s, unknown from %d on" % (name, number + 1), wanted, text + WORLD
            told, word = turns.next_of(kind, list(PLACES[kind][2].items()))
            text, _ = filled(form, right[:number] + [word] + right[number + 1 :])
            yield "%s, %s at %d" % (name, told, number + 1), "E2", text + WORLD


# ---- Names that are declared twice


def declared(kind, type_name, line):
    return KINDS[kind].format(type=type_name, line=line)


def twice_across():
    for first, second in product(KINDS, KINDS):
        one, two = declared(first, "T", "One"), declared(second, "T", "Two")
        yield "a %s and a %s of one name" % (first, second), "E20", one + two + RUN
        two = declared(second, "U", "One")
        yield "a constructor of a %s and of a %s" % (first, second), "E20", one + two + RUN
        two = declared(second, "One", "T")
        yield "a constructor of a %s named as a %s, and the other way round" % (first, second), OK, one + two + RUN
    for first, second in product(CALLABLES, CALLABLES):
        text = CALLABLES[first].format(name="one") + CALLABLES[second].format(name="one")
        yield "a %s and a %s of one name" % (first, second), "E20", text + RUN
        yield "a %s and a %s run" % (first, second), "E20", text.replace("one", "run")


def twice_in_the_prelude():
    for kind in KINDS:
        for name in PRELUDE_TYPES:
            yield "a %s %s" % (kind, name), "E20", declared(kind, name, "One") + RUN
            yield "a constructor %s of a %s" % (name, kind), OK, declared(kind, "T", name) + RUN
        for name in PRELUDE_LINES:
            yield "a constructor %s of a %s" % (name, kind), "E20", declared(kind, "T", name) + RUN
            yield "a %s %s" % (kind, name), OK, declared(kind, name, "One") + RUN
        yield "a %s S" % kind, OK, declared(kind, "S", "One") + RUN
        yield "a constructor S of a %s" % kind, OK, declared(kind, "T", "S") + RUN


HEADINGS = {
    "data type": "data T({}) where\n One\n Two\n {}\n",
    "protocol": "protocol T({}) => S where\n One :: S => S\n Two :: S => S\n {} :: S => S\n",
    "coprotocol": "coprotocol S => T({}) where\n One :: S => S\n Two :: S => S\n {} :: S => S\n",
}


def twice_within():
    for kind, form in HEADINGS.items():
        yield "three lines of a " + kind, OK, form.format("a, b, c", "Three") + RUN
        for line in ("One", "Two"):
            yield "%s twice in a %s" % (line, kind), "E20", form.format("a", line) + RUN
        for parameters in ("a, a", "a, b, a", "b, a, a", "a, a, a", "a, b, b, a"):
            yield "the parameters %s of a %s" % (parameters, kind), "E20", form.format(parameters, "Three") + RUN
        yield "a parameter before a line of a " + kind, "E20", form.format("a, a", "One") + RUN
        yield "a name before a parameter of a " + kind, "E20", form.format("a, a", "One").replace("T(", "Console(") + RUN
        other = form.replace("T(", "U(").replace("One", "Four").replace("Two", "Five").format("a", "Six")
        yield "the same parameter of two of " + kind, OK, form.format("a", "Three") + other + RUN


TWICE = [
    ("a type three times", "E20", "data T where\n One\ndata T where\n Two\ndata T where\n Three\n"),
    (
        "one name in all spaces",
        OK,
        "data T(t) where\n T(t)\nfun t :: t -> T(t) where\n t -> T(t)\nproc p :: Int | => where\n"
        " t | t => t -> p(t | t => t)\n",
    ),
    ("a parameter of a function's name", OK, "data T(f) where\n One(f)\nfun f :: Int -> Int where\n f -> f(f)\n"),
    ("a parameter of a type's first name", OK, "protocol T(t) => S where\n T :: Put(t | S) => S\n"),
    ("a declared name at a line before a type", "E20", "data T where\n One\n One\ndata T where\n Two\n"),
    (
        "a constructor twice before a function",
        "E20",
        "fun f :: Int -> Int where\n x -> x\ndata T where\n One\n One\nproc f :: Int | => where\n x | => -> halt\n",
    ),
]


def twice_cases():
    yield from twice_across()
    yield from twice_in_the_prelude()
    yield from twice_within()
    for name, wanted, text in TWICE:
        yield name, wanted, text + RUN


# ---- Numbers of arguments


PARAMETERS = {0: "", 1: "(a)", 2: "(a, b)"}
USES = {
    "data type": "fun t :: {} -> Int where\n x -> 1\n",
    "protocol": "proc t :: | {} => where\n | c => -> halt\n",
    "coprotocol": "proc t :: | => {} where\n | => c -> halt\n",
}
NESTED = [
    ("a number before an unknown argument", "E25", "data", "Maybe(Nobody, Int)"),
    ("an argument of a wrong number", "E25", "data", "Maybe(Maybe)"),
    ("an unknown argument before a wrong number", "E21", "data", "Both(Nobody, Maybe)"),
    ("a wrong number before an unknown argument", "E25", "data", "Both(Maybe, Nobody)"),
    ("the second argument of a wrong number", "E25", "data", "Both(Maybe(Int), Colour(Int))"),
    ("an unknown type with arguments", "E21", "data", "Nobody(Maybe, Console)"),
    ("a kind before a number", "E22", "data", "Stream"),
    ("a kind before an unknown argument", "E22", "data", "Stream(Nobody)"),
    ("arguments in pairs and lists", "E25", "data", "[(Int, [Maybe])]"),
    ("deep arguments", OK, "data", "Maybe(Both([Maybe(Int)], (Colour, Maybe(Char))))"),
    ("a channel type's unknown argument", "E21", "channel", "Stream(Nobody)"),
    ("a channel type's number before its argument", "E25", "channel", "Stream(Nobody, Int)"),
    ("a channel type's argument of a wrong number", "E25", "channel", "Stream(Maybe(Maybe(Int, Int)))"),
    ("a channel type's argument that is a channel type", "E22", "channel", "Stream(Stream(Int))"),
    ("a channel type's kind before its number", "E22", "channel", "Maybe"),
    ("a console with an argument", "E25", "channel", "Console(Int)"),
    ("a terminal with an argument", "E25", "channel", "StringTerminal(Nobody)"),
    ("a number before what is left", "E25", "channel", "Put(Maybe | Nobody)"),
    ("the left before the right", "E25", "channel", "Stream (*) Nobody"),
    ("the right behind the left", "E25", "channel", "Clock (+) Neg(Clock(Int))"),
]


def argument_cases():
    for kind, found, wanted in product(KINDS, range(4), PARAMETERS):
        named = "T" + ("(%s)" % ", ".join(["Int"] * found) if found else "")
        text = USES[kind].format(named) + declared(kind, "T" + PARAMETERS[wanted], "One") + RUN
        beginning = OK if found == wanted else "E25"
        yield "%d for %d arguments of a %s" % (found, wanted, kind), beginning, text
    for name, wanted, kind, spelled in NESTED:
        form = USES["data type" if kind == "data" else "protocol"]
        yield name, wanted, form.format(spelled) + WORLD


# ---- Two faults in one source


FAULTS = {
    "a type twice": ("E20", "data T where\n One\ndata T where\n Two\n"),
    "a constructor twice": ("E20", "coprotocol S => U where\n Three :: S => S\n Three :: S => S\n"),
    "a function twice": ("E20", CALLABLES["function"].format(name="one") * 2),
    "an unknown type": ("E21", "fun two :: Nobody -> Int where\n _ -> 1\n"),
    "an unknown variable": ("E21", "proc three :: | => where\n | => c -> do\n  put y on c\n  halt c\n"),
    "a kind of a type": ("E22", "proc four :: Console | => where\n _ | => -> halt\n"),
    "a kind of a constructor": ("E22", "fun five :: -> Int where\n -> ConsolePut(1)\n"),
    "a number of arguments": ("E25", "protocol V => S where\n Four :: Console(Int) => S\n"),
}
NO_RUN, WRONG_RUN = "", "proc run :: Int | => where\n _ | => -> halt\n"
RUN_FAULTS = {"run": RUN, "no run": NO_RUN, "a wrong run": WRONG_RUN}


def order_cases():
    for number, (first, second) in enumerate(product(FAULTS, FAULTS)):
        (one, text), (two, more) = FAULTS[first], FAULTS[second]
        if first != second:
            run = list(RUN_FAULTS)[number % 3]
            wanted = two if two == "E20" and one != "E20" else one
            yield "%s, %s, %s" % (first, second, run), wanted, text + more + RUN_FAULTS[run]
    for fault, (wanted, text) in FAULTS.items():
        for run, spelled in RUN_FAULTS.items():
            yield "%s and %s" % (fault, run), wanted, text + spelled
            yield "%s behind %s" % (fault, run), wanted, spelled + text
    yield "run twice and wrong", "E20", WRONG_RUN + WRONG_RUN


# ---- The process run


def run_of(inputs, outputs):
    consoles, terminals = ", ".join(["Console"] * inputs), ", ".join(["StringTerminal"] * outputs)
    return "proc run :: | %s => %s where\n | => -> halt\n" % (consoles, terminals)


def run_cases():
    yield from RUNS
    for inputs, outputs in ((16, 0), (0, 16), (8, 8), (15, 1), (1, 15), (17, 0), (0, 17), (16, 1), (1, 16), (9, 8), (20, 20)):
        wanted = OK if inputs + outputs <= 16 else "E24"
        yield "%d consoles and %d terminals" % (inputs, outputs), wanted, run_of(inputs, outputs)


# ---- Many names, and scopes deep inside one another


MANY, DEEP, LONG = 200, 150, "x" * 63


def function(name, called):
    return "fun %s :: Int -> Int where\n x -> %s(x)\n" % (name, called)


def cases_in_cases(value):
    """Cases in one another, each with a variable of its own, and a value in the innermost."""
    rows = "".join("case x%d of x%d -> " % (level, level + 1) for level in range(DEEP))
    return "fun f :: Int -> Int where\n x0 -> %s%s\n" % (rows, value) + RUN


def large_cases():
    functions = "".join(function("f%d" % number, "f%d" % (number * 7 % MANY)) for number in range(MANY))
    yield "many functions", OK, functions + RUN
    yield "many functions and an unknown one", "E21", functions + function("g", "f%d" % MANY) + RUN
    yield "many functions and the first again", "E20", functions + function("f0", "f0") + RUN
    lines = "data T where\n" + "".join(" C%d\n" % number for number in range(MANY))
    yield "many constructors and the last again", "E20", lines + " C%d\n" % (MANY - 1) + RUN
    yield "an unknown one of many constructors", "E21", lines + "fun f :: -> T where\n -> C%d\n" % MANY + RUN
    parameters = ["a%d" % number for number in range(12)]
    heading = "data T(%s) where\n C(%s)\n" % (", ".join(parameters), ", ".join(reversed(parameters)))
    for found, wanted in ((12, OK), (11, "E25"), (13, "E25")):
        named = "fun f :: T(%s) -> Int where\n _ -> 1\n" % ", ".join(["Int"] * found)
        yield "%d for 12 arguments" % found, wanted, heading + named + RUN
    yield "the outermost variable in the innermost case", OK, cases_in_cases("x0")
    yield "the innermost variable", OK, cases_in_cases("x%d" % DEEP)
    yield "an unknown variable in the innermost case", "E21", cases_in_cases("x%d" % (DEEP + 1))
    for name, value, wanted in (("it", LONG + "x", OK), ("another", LONG + "y", "E21"), ("its front", LONG, "E21")):
        yield "the longest name and " + name, wanted, "fun f :: Int -> Int where\n %sx -> %s\n" % (LONG, value) + RUN


# ---- All


def worked_cases():
    """Whole sources, those of the crate typed_sources among them, whose names are all in order."""
    for folder in (".", "../examples", "../crates/typed_sources/data", "../crates/typed_sources/data/no_tree", "../crates/typed_sources/data/refused"):
        for path in sorted(glob.glob(os.path.join(HERE, folder, "*.campl"))):
            yield os.path.splitext(os.path.basename(path))[0].replace("_", " "), OK, text_of(path)


def groups():
    yield "form", form_cases()
    yield "twice", twice_cases()
    yield "arguments", argument_cases()
    yield "order", order_cases()
    yield "run", run_cases()
    yield "large", large_cases()
    for group, rows in (("scope", SCOPES), ("local", LOCALS), ("type variable", TYPE_VARIABLES), ("later", LATER)):
        yield group, [(name, wanted, text + WORLD) for name, wanted, text in rows]
    yield "worked", worked_cases()


def all_cases():
    """Each case with its name and its source, no two of one source."""
    cases, seen = [], set()
    for group, rows in groups():
        for name, wanted, text in rows:
            assert answer_of_grammar(text) == "tree", (name, answer_of_grammar(text), text)
            assert answer(text).startswith(wanted), (name, wanted, answer(text), text)
            if text not in seen:
                seen.add(text)
                cases.append(("%s: %s" % (group, name), text))
    return cases
