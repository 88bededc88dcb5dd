#!/usr/bin/env python3
"""The reference for generated code: reads what `campl code` prints of a source again, and judges it by the source.

    generated.py --check           judges listings that were worked by hand, and refuses each of their mutants that differs in what it does
    generated.py FOLDER            judges FOLDER/stdout, which crates/code_cases printed of the cases in FOLDER/data
    generated.py PROGRAM FILE      judges what PROGRAM code prints of each accepted source of a file of cases

Code is fine where it keeps the rules (`code_rules.py`); where from each place on the instructions do what the source says there,
which is found by walking down both, with the numbers that variables and channels have by then; and where functions give the same as
the source does (`evaluation.py`, `machine.py`), on arguments by chance and with few calls and many. How code is generated isn't
known here: other numbers and places would do as well.
"""

import os
import subprocess
import sys
import tempfile
from random import Random

import trees as t
from code_rules import fault_of
from evaluation import Declared, arguments_by_chance, bound_in, called
from grammar import cases_of, text_of
from listings import Decision, code_of
from machine import Machine
from names import PRELUDE
from processes import answer, free_in
from trees import tree_of

COMPARISONS = {"==": "eq", "/=": "ne", "<": "lt", "<=": "le", ">": "gt", ">=": "ge"}
CALCULATIONS = {"+": "add", "-": "sub", "*": "mul", "div": "div", "mod": "mod"}
RETURNED = "a return"


class Differs(Exception):
    """Code that isn't that of its source."""


# ---- The rows for which decisions stand, in their order


def rows_in_all(expressions):
    return [rows for e in expressions for rows in rows_in(e)]


def parts_of(e):
    """An expression's own expressions, from left to right."""
    if isinstance(e, t.List):
        return e.items
    if isinstance(e, t.Constructor):
        return e.parts
    if isinstance(e, t.FunctionCall):
        return e.arguments
    if isinstance(e, t.CaseOf):
        return [e.value] + [inner for _, inner in e.rows]
    return [one for name, one in zip(e._fields, e) if name not in ("place", "operator", "name") and isinstance(one, tuple)]


def rows_in(e):
    """The rows of each `case` of an expression: those of what it looks at, its own, those in its rows."""
    if isinstance(e, t.CaseOf):
        return rows_in(e.value) + [[[pattern] for pattern, _ in e.rows]] + rows_in_all(inner for _, inner in e.rows)
    return rows_in_all(parts_of(e))


def rows_in_body(body):
    found = [rows for action in body.actions if isinstance(action, t.Put) for rows in rows_in(action.value)]
    last = body.last
    if isinstance(last, t.Case):
        found += rows_in(last.value) + [[[pattern] for pattern, _ in last.rows]]
    if isinstance(last, t.ProcessCall):
        found += rows_in_all(last.arguments)
    return found + [rows for inner in bodies_of(last) for rows in rows_in_body(inner)]


def bodies_of(last):
    """The bodies in a command, in order; of a plug in the breadth-first order of its parts."""
    if isinstance(last, (t.Case, t.Hcase, t.Race)):
        return [body for _, body in last.rows]
    if isinstance(last, t.Fork):
        return [last.first[1], last.second[1]]
    if isinstance(last, t.Plug):
        return [part.body for part in breadth_first(last)]
    return []


def names_of(part):
    return {one.name for one in part.inputs + part.outputs}


def breadth_first(plug):
    """A plug's parts in breadth-first order from the first."""
    links = {link.name.name for link in plug.links}
    order, left = [plug.parts[0]], list(plug.parts[1:])
    for part in order:
        near = [other for other in left if names_of(other) & names_of(part) & links]
        order += near
        left = [other for other in left if other not in near]
    assert not left
    return order


def all_rows(known):
    found = []
    for function in known.functions.values():
        found.append([row.patterns for row in function.rows])
        found += rows_in_all(row.value for row in function.rows)
    return found + [rows for process in known.processes.values() for rows in rows_in_body(process.row.body)]


# ---- Walking down source and code


class Walk:
    """One block, and the source of it."""

    def __init__(self, known, rows, block):
        self.known, self.rows, self.code = known, rows, block.code
        self.matched = []

    def fail(self, place, wanted):
        raise Differs("%s at %s, wanted %s" % (self.code[place] if isinstance(place, int) and place < len(self.code) else "nothing", place, wanted))

    def want(self, place, *instruction):
        """The place behind this instruction."""
        place = self.onward(place)
        if place == RETURNED or self.code[place] != instruction:
            self.fail(place, instruction)
        return place + 1

    def operands(self, place, word):
        place = self.onward(place)
        if place == RETURNED or self.code[place][0] != word:
            self.fail(place, word)
        return place + 1, self.code[place][1:]

    def onward(self, place):
        """Where jumps lead; all returns are one place."""
        while place != RETURNED and place < len(self.code) and self.code[place][0] == "jump":
            place = self.code[place][1]
        return RETURNED if place == RETURNED or (place < len(self.code) and self.code[place] == ("return",)) else place

    def both(self, one, other):
        one, other = self.onward(one), self.onward(other)
        if one != other:
            self.fail(one, "to end as the other way does, at %s" % other)
        return one

    # Expressions: the place that is come to with the value

    def values(self, place, expressions, numbers):
        for e in expressions:
            place = self.value(place, e, numbers)
        return place

    def value(self, place, e, numbers):
        if isinstance(e, t.Number):
            return self.want(place, "int", e.value)
        if isinstance(e, t.Character):
            return self.want(place, "char", ord(e.value))
        if isinstance(e, t.Truth):
            return self.want(place, "bool", str(e.value))
        if isinstance(e, t.Text):
            return self.want(place, "text", e.value)
        if isinstance(e, t.Variable):
            return self.want(place, "load", numbers[e.name])
        if isinstance(e, (t.If, t.And, t.Or)):
            return self.choice(place, e, numbers)
        if isinstance(e, t.CaseOf):
            return self.case(place, e, numbers)
        place = self.values(place, parts_of(e), numbers)
        if isinstance(e, t.List):
            place = self.want(place, "nil")
            for _ in e.items:
                place = self.want(place, "cons")
            return place
        if isinstance(e, t.Constructor):
            return self.want(place, "build", self.known.numbers[e.name], len(e.parts))
        if isinstance(e, t.FunctionCall):
            return self.want(place, "call", list(self.known.functions).index(e.name))
        if isinstance(e, (t.Cons, t.Pair)):
            return self.want(place, "cons" if isinstance(e, t.Cons) else "pair")
        if isinstance(e, (t.Calculate, t.Compare)):
            return self.want(place, "op", {**COMPARISONS, **CALCULATIONS}[e.operator])
        return self.want(place, "op", {t.Append: "append", t.Negate: "neg", t.CodeOf: "code", t.CharOf: "char"}[type(e)])

    def choice(self, place, e, numbers):
        place = self.value(place, e.condition if isinstance(e, t.If) else e.left, numbers)
        yes, (no,) = self.operands(place, "unless")
        if isinstance(e, t.If):
            return self.both(self.value(yes, e.yes, numbers), self.value(no, e.no, numbers))
        if isinstance(e, t.And):
            return self.tested(self.value(yes, e.right, numbers), no)
        short = self.want(yes, "bool", "True")
        second, (false,) = self.operands(self.value(no, e.right, numbers), "unless")
        return self.both(short, self.both(self.want(second, "bool", "True"), self.want(false, "bool", "False")))

    def tested(self, place, false):
        """A truth is tested and comes out again; False goes where the left side did, too."""
        true, (no,) = self.operands(place, "unless")
        if no != false:
            self.fail(place, "to go to %d" % false)
        return self.both(self.want(true, "bool", "True"), self.want(no, "bool", "False"))

    def case(self, place, e, numbers):
        rows = [([pattern], inner) for pattern, inner in e.rows]
        ends = [self.value(to, inner, bound) for to, inner, bound in self.chosen(self.value(place, e.value, numbers), "match", rows, numbers)]
        for end in ends[1:]:
            self.both(ends[0], end)
        return ends[0]

    def chosen(self, place, word, rows, numbers):
        """For each row its place, what stands there, and the numbers of its variables."""
        _, (number, first, places) = self.operands(place, word)
        if number >= len(self.rows) or self.rows[number] != [patterns for patterns, _ in rows] or number in self.matched:
            self.fail(place, "another decision")
        self.matched.append(number)
        for to, (patterns, inner) in zip(places, rows, strict=True):
            names = [x for pattern in patterns for x in bound_in(pattern)]
            self.spare(place, range(first, first + len(names)), numbers)
            yield to, inner, {**numbers, **dict(zip(names, range(first, first + len(names))))}

    def spare(self, place, taken, numbers):
        if set(taken) & set(numbers.values()):
            self.fail(place, "numbers that no name has")

    # Functions

    def function(self, f):
        place = 0
        for n in range(len(f.parameters)):
            place = self.want(place, "load", n)
        rows = [(row.patterns, row.value) for row in f.rows]
        for to, e, numbers in self.chosen(place, "match", rows, {}):
            if self.onward(self.value(to, e, numbers)) != RETURNED:
                self.fail(to, "to end with a return")

    # Processes. Bodies end; nothing is behind them.

    def process(self, p):
        row = p.row
        numbers = {one.name: n for n, one in enumerate(row.variables) if isinstance(one, t.Variable)}
        channels = {one.name: n for n, one in enumerate(row.inputs + row.outputs)}
        self.body(0, row.body, numbers, channels)

    def body(self, place, body, numbers, channels):
        for action in body.actions:
            channel = channels[action.channel.name]
            if isinstance(action, t.Put):
                place = self.want(self.value(place, action.value, numbers), "put", channel)
            elif isinstance(action, t.Get):
                place, (found, variable) = self.operands(place, "get")
                self.same(place, found, channel)
                self.spare(place, [variable], numbers)
                if isinstance(action.binder, t.Variable):
                    numbers = {**numbers, action.binder.name: variable}
            elif isinstance(action, t.Hput):
                place = self.want(place, "pick", channel, self.known.numbers[action.constructor.name])
            elif isinstance(action, t.Split):
                place, (found, *new) = self.operands(place, "split")
                self.same(place, found, channel)
                channels = self.with_new(place, {x: n for x, n in channels.items() if x != action.channel.name}, [action.first, action.second], new)
            else:
                place = self.want(place, "close", channel)
                channels = {x: n for x, n in channels.items() if x != action.channel.name}
        self.last(place, body.last, numbers, channels)

    def same(self, place, found, wanted):
        if found != wanted:
            self.fail(place, "channel %d" % wanted)

    def with_new(self, place, channels, idents, new):
        self.spare(place, new, channels)
        if len(set(new)) < len(new):
            self.fail(place, "different channels")
        return {**channels, **{one.name: n for one, n in zip(idents, new)}}

    def last(self, place, last, numbers, channels):
        if isinstance(last, t.Halt):
            self.want(place, "halt", *([channels[last.channel.name]] if last.channel else []))
        elif isinstance(last, t.Identity):
            self.want(place, "linkneg" if last.negated else "link", channels[last.left], channels[last.right.name])
        elif isinstance(last, t.ProcessCall):
            held = [channels[one.name] for one in last.inputs + last.outputs]
            self.want(self.values(place, last.arguments, numbers), "go", list(self.known.processes).index(last.name), held)
        elif isinstance(last, t.Case):
            rows = [([pattern], body) for pattern, body in last.rows]
            for to, body, bound in self.chosen(self.value(place, last.value, numbers), "case", rows, numbers):
                self.body(to, body, bound, channels)
        elif isinstance(last, t.Hcase):
            self.offer(place, last, numbers, channels)
        elif isinstance(last, t.Race):
            _, (places,) = self.operands(place, "race")
            for to, (_, body) in zip(places, last.rows, strict=True):
                self.body(to, body, numbers, channels)
        elif isinstance(last, t.Fork):
            self.fork(place, last, numbers, channels)
        else:
            self.plug(place, list(reversed(breadth_first(last))), last, numbers, channels)

    def offer(self, place, last, numbers, channels):
        _, (found, places) = self.operands(place, "offer")
        self.same(place, found, channels[last.channel.name])
        if len(places) != self.known.siblings[last.rows[0][0].name]:
            self.fail(place, "a place for each constructor")
        for constructor, body in last.rows:
            self.body(places[self.known.numbers[constructor.name]], body, numbers, channels)

    def fork(self, place, last, numbers, channels):
        behind, (found, own, its, child) = self.operands(place, "fork")
        self.same(place, found, channels[last.channel.name])
        kept = {x: n for x, n in channels.items() if x != last.channel.name}
        free = free_in(last.first[1]) - {last.first[0].name}
        for to, (x, body), new, goes in ((behind, last.first, own, lambda c: c in free), (child, last.second, its, lambda c: c not in free)):
            self.body(to, body, numbers, self.with_new(place, {c: n for c, n in kept.items() if goes(c)}, [x], [new]))

    def plug(self, place, parts, last, numbers, channels):
        """The parts that are left, the last of the breadth-first order first."""
        if len(parts) == 1:
            return self.body(place, parts[0].body, numbers, channels)
        part, left = parts[0], parts[1:]
        (link,) = [x.name for x in last.links if x.name.name in names_of(part) and any(x.name.name in names_of(other) for other in left)]
        behind, (new, side, child) = self.operands(place, "peel")
        if side != ("out" if link.name in {one.name for one in part.outputs} else "in"):
            self.fail(place, "the other side")
        own = {c: n for c, n in channels.items() if c in names_of(part)}
        rest = {c: n for c, n in channels.items() if c not in names_of(part)}
        self.body(child, part.body, numbers, self.with_new(place, own, [link], [new]))
        return self.plug(behind, left, last, numbers, self.with_new(place, rest, [link], [new]))


# ---- Whole sources


def judge(source, listing, random):
    """Raises Differs where the listing isn't code of the source."""
    own = tree_of(source)
    known = Declared(tree_of(PRELUDE) + own)
    rows = all_rows(known)
    decisions = [Decision(len(one[0]), [sum(len(bound_in(pattern)) for pattern in patterns) for patterns in one], None) for one in rows]
    code = code_of(listing, decisions)
    fault = fault_of(code)
    if fault is not None:
        raise Differs("block %d breaks a rule at %d" % fault)
    matched = []
    for blocks, declared, walk in ((code.functions, known.functions, Walk.function), (code.processes, known.processes, Walk.process)):
        for block, (name, one) in zip(blocks, declared.items(), strict=True):
            counts = (len(one.parameters), 0, 0) if isinstance(one, t.Function) else tuple(map(len, (one.row.variables, one.row.inputs, one.row.outputs)))
            if block[:4] != (name, *counts):
                raise Differs("%s, wanted %s" % (block[:4], (name, *counts)))
            one_walk = Walk(known, rows, block)
            walk(one_walk, one)
            matched += one_walk.matched
    if sorted(matched) != list(range(len(rows))):
        raise Differs("decisions %s of %d" % (matched, len(rows)))
    compare(known, Machine(known, code, rows), random)
    return len(code.functions), len(code.processes)


def compare(known, machine, random):
    """Whether functions give the same by their code as by the source."""
    for number, name in enumerate(known.functions):
        for calls in (1, 2, 3, 5, 30, 30, 200):
            arguments = arguments_by_chance(known, random, name)
            if arguments is None:
                break
            wanted, told = called(known, name, arguments, calls), machine.run(number, arguments, calls)
            if wanted != told:
                raise Differs("%s%s gives %s, wanted %s" % (name, arguments, told, wanted))


# ---- Listings worked by hand

WORKED = [
    ("""fun double :: Int -> Int where
    x -> 2 * x
fun is_one :: Int -> Bool where
    1 -> True
    _ -> False
proc run :: | => where
    | => -> halt
""", """function double 1
  0 load 0
  1 match 0 0 2
  2 int 2
  3 load 0
  4 op mul
  5 return
function is_one 1
  0 load 0
  1 match 1 0 2,4
  2 bool True
  3 return
  4 bool False
  5 return
process run 0 0 0
  0 halt
decision 0 rows 1
decision 1 rows 2
"""),
    ("""proc run :: | Console, Console => where
    | a, b => -> plug l :: Put([Char] | TopBot) of
        a => l -> do
            put "Hi" on l
            hput ConsoleClose on a
            close a
            halt l
        l, b => -> do
            get x on l
            close l
            hput ConsolePut on b
            put x on b
            hput ConsoleClose on b
            halt b
""", """process run 0 2 0
  0 peel 2 in 6
  1 text "Hi"
  2 put 2
  3 pick 0 2
  4 close 0
  5 halt 2
  6 get 2 0
  7 close 2
  8 pick 1 0
  9 load 0
  10 put 1
  11 pick 1 2
  12 halt 1
"""),
]


def mutants(listing, random):
    """Listings with one number changed, or two neighbouring instructions."""
    lines = listing.split("\n")
    for at, line in enumerate(lines):
        words = line.strip().split(" ")
        first = 1 if line.startswith("  ") else 2
        for n in range(first, len(words)):
            if words[n].isdigit():
                changed = words[:n] + [str(int(words[n]) + 1)] + words[n + 1 :]
                yield "\n".join(lines[:at] + [("  " if line.startswith("  ") else "") + " ".join(changed)] + lines[at + 1 :])


def check():
    refused = kept = 0
    for source, listing in WORKED:
        judge(source, listing, Random(1))
        for mutant in mutants(listing, Random(1)):
            try:
                judge(source, mutant, Random(1))
                kept += 1
            except (Differs, AssertionError, ValueError, IndexError):
                refused += 1
    print("%d listings worked by hand, %d mutants refused, %d do the same" % (len(WORKED), refused, kept))


def judge_all(pairs):
    """Judges sources with what was printed of each; the exit status."""
    wrong = count = functions = processes = 0
    for name, source, listing in pairs:
        count += 1
        try:
            found = judge(source, listing, Random(count))
            functions, processes = functions + found[0], processes + found[1]
        except (Differs, AssertionError, ValueError, IndexError) as fault:
            wrong += 1
            print("%s: %s\n%s\n%s" % (name, repr(fault), source, listing))
    print("%d sources with %d functions and %d processes, %d wrong" % (count, functions, processes, wrong))
    return 1 if wrong or not count else 0


def code_by(program, source):
    with tempfile.TemporaryDirectory() as folder:
        path = os.path.join(folder, "source.campl")
        with open(path, "w", encoding="utf-8", newline="") as file:
            file.write(source)
        ended = subprocess.run([program, "code", path], capture_output=True, check=False)
    assert (ended.returncode, ended.stderr) == (0, b""), ended
    return ended.stdout.decode()


def printed_pairs(folder):
    """The accepted sources of a folder's cases, with what is printed of them in its file stdout."""
    printed = dict(cases_of(text_of(os.path.join(folder, "stdout"))))
    for name, source in cases_of(text_of(os.path.join(folder, "data", "sources.txt"))):
        told, _, listing = (printed[name] + "\n").partition("\n")
        assert told == ("keeps the rules" if answer(source) == "accepted" else answer(source)), (name, told)
        if listing:
            yield name, source, listing


def main(words):
    if words == ["--check"]:
        return check()
    if len(words) == 1:
        return judge_all(printed_pairs(words[0]))
    program, path = words
    return judge_all((name, source, code_by(program, source)) for name, source in cases_of(text_of(path)) if answer(source) == "accepted")


if __name__ == "__main__":
    sys.setrecursionlimit(1_000_000)
    sys.exit(main(sys.argv[1:]))
