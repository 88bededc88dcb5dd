#!/usr/bin/env python3
"""The cases of crates/code_cases: rows (`match_cases.py`), code (`rule_cases.py`), and accepted sources of all tables with the code that
is generated for each.

    code_cases.py FOLDER     writes FOLDER/data/rows.txt, code.txt and sources.txt, and FOLDER/stdout

The code of a source is made here as `campl_code/specs/Generated` and `campl_code_bodies/specs` define it, and each listing is judged by
`generated.py`, which knows nothing of how code is made.
"""

import glob
import os
import sys
from random import Random

import function_cases
import match_cases
import process_cases
import rule_cases
import trees as t
from evaluation import Declared, bound_in
from generated import COMPARISONS, CALCULATIONS, all_rows, breadth_first, judge, names_of
from grammar import text_of
from language_examples import PAGES, TOP, examples
from listings import Block, Code, Decision, listing_of
from names import HERE, PRELUDE
from processes import answer, free_in
from trees import tree_of


class Maker:
    """The block that is made, and the number of the next decision."""

    def __init__(self, known, decision):
        self.known, self.code, self.decision = known, [], decision

    def put(self, *instruction):
        self.code.append(instruction)
        return len(self.code) - 1

    def change(self, place, *instruction):
        self.code[place] = instruction

    @property
    def here(self):
        return len(self.code)

    def next_decision(self):
        self.decision += 1
        return self.decision - 1

    # Expressions; with `tail` their code ends by a return. Jumps from the ends of branches are set when the end is known.

    def leave(self, tail, ends):
        """How a branch's value goes on."""
        if tail:
            self.put("return")
        else:
            ends.append(self.put("jump", None))

    def past(self, tail, ends):
        """The same behind an expression's code, which has returned where it had to."""
        if not tail:
            ends.append(self.put("jump", None))

    def end(self, ends):
        for place in ends:
            self.change(place, "jump", self.here)

    def last(self, tail):
        if tail:
            self.put("return")

    def all(self, expressions, free, numbers):
        for e in expressions:
            self.value(False, e, free, numbers)

    def value(self, tail, e, free, numbers):
        if isinstance(e, (t.If, t.And, t.Or, t.CaseOf)):
            return {t.If: self.choice, t.And: self.both, t.Or: self.either, t.CaseOf: self.case}[type(e)](tail, e, free, numbers)
        if isinstance(e, t.Number):
            self.put("int", e.value)
        elif isinstance(e, t.Character):
            self.put("char", ord(e.value))
        elif isinstance(e, t.Text):
            self.put("text", e.value)
        elif isinstance(e, t.Truth):
            self.put("bool", str(e.value))
        elif isinstance(e, t.Variable):
            self.put("load", numbers[e.name])
        elif isinstance(e, t.List):
            self.all(e.items, free, numbers)
            self.put("nil")
            for _ in e.items:
                self.put("cons")
        elif isinstance(e, t.FunctionCall):
            self.all(e.arguments, free, numbers)
            self.put("call", list(self.known.functions).index(e.name))
        elif isinstance(e, t.Constructor):
            self.all(e.parts, free, numbers)
            self.put("build", self.known.numbers[e.name], len(e.parts))
        elif isinstance(e, (t.Negate, t.CodeOf, t.CharOf)):
            self.value(False, e.value, free, numbers)
            self.put("op", {t.Negate: "neg", t.CodeOf: "code", t.CharOf: "char"}[type(e)])
        else:
            two = (e.head, e.tail) if isinstance(e, t.Cons) else (e.first, e.second) if isinstance(e, t.Pair) else (e.left, e.right)
            self.all(two, free, numbers)
            if isinstance(e, (t.Cons, t.Pair)):
                self.put("cons" if isinstance(e, t.Cons) else "pair")
            else:
                self.put("op", "append" if isinstance(e, t.Append) else {**COMPARISONS, **CALCULATIONS}[e.operator])
        self.last(tail)

    def choice(self, tail, e, free, numbers):
        self.value(False, e.condition, free, numbers)
        test, ends = self.put("unless", None), []
        self.value(tail, e.yes, free, numbers)
        self.past(tail, ends)
        self.change(test, "unless", self.here)
        self.value(tail, e.no, free, numbers)
        self.end(ends)

    def tested(self, tail, ends):
        test = self.put("unless", None)
        self.put("bool", "True")
        self.leave(tail, ends)
        self.change(test, "unless", self.here)
        false = self.put("bool", "False")
        self.last(tail)
        return false

    def both(self, tail, e, free, numbers):
        self.value(False, e.left, free, numbers)
        test, ends = self.put("unless", None), []
        self.value(False, e.right, free, numbers)
        self.change(test, "unless", self.tested(tail, ends))
        self.end(ends)

    def either(self, tail, e, free, numbers):
        self.value(False, e.left, free, numbers)
        test, ends = self.put("unless", None), []
        self.put("bool", "True")
        self.leave(tail, ends)
        self.change(test, "unless", self.here)
        self.value(False, e.right, free, numbers)
        self.tested(tail, ends)
        self.end(ends)

    def case(self, tail, e, free, numbers):
        self.value(False, e.value, free, numbers)
        decision, places, ends = self.next_decision(), [], []
        self.put("match", decision, free, places)
        for pattern, inner in e.rows:
            places.append(self.here)
            self.value(tail, inner, *self.bound(free, [pattern], numbers))
            self.past(tail, ends)
        self.end(ends)

    def bound(self, free, patterns, numbers):
        names = [x for pattern in patterns for x in bound_in(pattern)]
        return free + len(names), {**numbers, **dict(zip(names, range(free, free + len(names))))}

    def function(self, f):
        for n in range(len(f.parameters)):
            self.put("load", n)
        places = []
        self.put("match", self.next_decision(), 0, places)
        for row in f.rows:
            places.append(self.here)
            self.value(True, row.value, *self.bound(0, row.patterns, {}))

    # Bodies

    def body(self, body, free, numbers, next_channel, channels):
        for action in body.actions:
            channel = channels[action.channel.name]
            if isinstance(action, t.Put):
                self.value(False, action.value, free, numbers)
                self.put("put", channel)
            elif isinstance(action, t.Get):
                self.put("get", channel, free)
                if isinstance(action.binder, t.Variable):
                    numbers = {**numbers, action.binder.name: free}
                free += 1
            elif isinstance(action, t.Hput):
                self.put("pick", channel, self.known.numbers[action.constructor.name])
            elif isinstance(action, t.Split):
                self.put("split", channel, next_channel, next_channel + 1)
                channels = {**without(channels, action.channel), action.first.name: next_channel, action.second.name: next_channel + 1}
                next_channel += 2
            else:
                self.put("close", channel)
                channels = without(channels, action.channel)
        self.ending(body.last, free, numbers, next_channel, channels)

    def ending(self, last, free, numbers, next_channel, channels):
        if isinstance(last, t.Halt):
            self.put("halt", *([channels[last.channel.name]] if last.channel else []))
        elif isinstance(last, t.Identity):
            self.put("linkneg" if last.negated else "link", channels[last.left], channels[last.right.name])
        elif isinstance(last, t.ProcessCall):
            self.all(last.arguments, free, numbers)
            self.put("go", list(self.known.processes).index(last.name), [channels[one.name] for one in last.inputs + last.outputs])
        elif isinstance(last, t.Case):
            self.value(False, last.value, free, numbers)
            places = []
            self.put("case", self.next_decision(), free, places)
            for pattern, body in last.rows:
                places.append(self.here)
                self.body(body, *self.bound(free, [pattern], numbers), next_channel, channels)
        elif isinstance(last, t.Hcase):
            places = [0] * (1 + max(self.known.numbers[one.name] for one, _ in last.rows))
            self.put("offer", channels[last.channel.name], places)
            for one, body in last.rows:
                places[self.known.numbers[one.name]] = self.here
                self.body(body, free, numbers, next_channel, channels)
        elif isinstance(last, t.Race):
            places = []
            self.put("race", places)
            for _, body in last.rows:
                places.append(self.here)
                self.body(body, free, numbers, next_channel, channels)
        elif isinstance(last, t.Fork):
            self.fork(last, free, numbers, next_channel, channels)
        else:
            self.plug(list(reversed(breadth_first(last))), last, free, numbers, next_channel, channels)

    def fork(self, last, free, numbers, next_channel, channels):
        (x, left), (y, right) = last.first, last.second
        place = self.put("fork")
        kept, names = without(channels, last.channel), free_in(left)
        self.body(left, free, numbers, next_channel + 2, {**{c: n for c, n in kept.items() if c in names}, x.name: next_channel})
        self.change(place, "fork", channels[last.channel.name], next_channel, next_channel + 1, self.here)
        self.body(right, free, numbers, next_channel + 2, {**{c: n for c, n in kept.items() if c not in names}, y.name: next_channel + 1})

    def plug(self, parts, last, free, numbers, next_channel, channels):
        if len(parts) == 1:
            return self.body(parts[0].body, free, numbers, next_channel, channels)
        part, left = parts[0], parts[1:]
        (link,) = [x.name.name for x in last.links if x.name.name in names_of(part) and any(x.name.name in names_of(other) for other in left)]
        place = self.put("peel")
        rest = {c: n for c, n in channels.items() if c not in names_of(part)}
        self.plug(left, last, free, numbers, next_channel + 1, {**rest, link: next_channel})
        self.change(place, "peel", next_channel, "out" if link in {one.name for one in part.outputs} else "in", self.here)
        own = {c: n for c, n in channels.items() if c in names_of(part)}
        return self.body(part.body, free, numbers, next_channel + 1, {**own, link: next_channel})


def without(channels, ident):
    return {c: n for c, n in channels.items() if c != ident.name}


def made(source):
    """The code that is generated for an accepted source."""
    known = Declared(tree_of(PRELUDE) + tree_of(source))
    decision, functions, processes = 0, [], []
    for name, f in known.functions.items():
        maker = Maker(known, decision)
        maker.function(f)
        decision = maker.decision
        functions.append(Block(name, len(f.parameters), 0, 0, maker.code))
    for name, p in known.processes.items():
        maker, row = Maker(known, decision), p.row
        numbers = {one.name: n for n, one in enumerate(row.variables) if isinstance(one, t.Variable)}
        channels = {one.name: n for n, one in enumerate(row.inputs + row.outputs)}
        maker.body(row.body, len(row.variables), numbers, len(channels), channels)
        decision = maker.decision
        processes.append(Block(name, len(row.variables), len(row.inputs), len(row.outputs), maker.code))
    rows = all_rows(known)
    assert len(rows) == decision
    return Code(functions, processes, [Decision(len(one[0]), [sum(len(bound_in(p)) for p in patterns) for patterns in one], None) for one in rows])


# ---- Sources


def sources_of_files(pattern):
    for path in sorted(glob.glob(os.path.join(HERE, pattern))):
        yield os.path.basename(path), text_of(path)


def all_sources():
    """Names and sources, accepted or not."""
    yield from sources_of_files("../examples/*.campl")
    yield from sources_of_files("../crates/typed_sources/data/*.campl")
    yield from sources_of_files("one_of_each.campl")
    for n, (source, _) in enumerate(examples(text_of(os.path.join(TOP, PAGES[0])))):
        yield "example %d of the language" % n, source
    for name, source in function_cases.all_cases():
        yield "functions: " + name, source
    for name, source in process_cases.all_cases():
        yield "processes: " + name, source


def shape_of(listing):
    """The words of a listing without numbers and texts, to tell whether another one is like it."""
    return "\n".join(line.strip().split(" ")[1] if line.startswith("  ") else line.split(" ")[0] for line in listing.split("\n") if line)


def cases():
    """Accepted sources, but of those with code alike only the first."""
    seen = set()
    for name, source in all_sources():
        if answer(source) != "accepted":
            continue
        listing = listing_of(made(source))
        shape = shape_of(listing)
        if shape not in seen:
            seen.add(shape)
            yield name, source, listing


def tables():
    """The file of sources, and what has to be printed of their code."""
    found = list(cases())
    assert len({name for name, _, _ in found}) == len(found)
    totals = [judge(source, listing, Random(n)) for n, (_, source, listing) in enumerate(found)]
    print("%d sources with %d functions and %d processes" % (len(found), sum(f for f, _ in totals), sum(p for _, p in totals)))
    sources = "".join("== %s\n%s\n" % (name, source) for name, source, _ in found)
    return sources, "".join("== %s\nkeeps the rules\n%s" % (name, listing) for name, _, listing in found)


def write(path, text):
    with open(path, "w", encoding="utf-8", newline="") as file:
        file.write(text)


def main(words):
    folder, printed = words[0], ""
    os.makedirs(os.path.join(folder, "data"), exist_ok=True)
    for name, (cases, answers) in (("rows", match_cases.tables()), ("code", rule_cases.tables()), ("sources", tables())):
        write(os.path.join(folder, "data", name + ".txt"), cases)
        printed += answers
    write(os.path.join(folder, "stdout"), printed)


if __name__ == "__main__":
    sys.setrecursionlimit(1_000_000)
    main(sys.argv[1:])
