#!/usr/bin/env python3
"""What decisions find, worked from the rules of matching alone, and the cases of rows of crates/code_cases.

    match_cases.py    checks this reference by rows that were worked by hand

A row is tried by going down its patterns and the values together; no decision is made for that. The number of nodes comes
from the rule that the first test of the first row is made, that rows which want another head there go where it holds, and
those which want this one where it doesn't.
"""

import os
import sys

import trees as t

RUN = "proc run :: | => where\n    | => -> halt\n"
SHAPES = """data Shape where
    Dot
    Disc(Int)
    Box(Int, Int)
    Group(Shape, Shape)
"""


def constructors_of(declarations):
    numbers = {}
    for declaration in declarations:
        if isinstance(declaration, t.Data):
            for number, line in enumerate(declaration.constructors):
                numbers[line.name.name] = number
    return numbers


def plain(pattern, numbers):
    """A pattern as a head with its parts: (head, parts), "x" for a variable and "_" for anything."""
    if isinstance(pattern, t.Wildcard):
        return "_"
    if isinstance(pattern, t.Variable):
        return "x"
    if isinstance(pattern, t.Number):
        return ("int", pattern.value), []
    if isinstance(pattern, t.Negative):
        return ("int", -pattern.value), []
    if isinstance(pattern, t.Character):
        return ("char", pattern.value), []
    if isinstance(pattern, t.Truth):
        return ("truth", pattern.value), []
    if isinstance(pattern, t.Text):
        return listed([(("char", c), []) for c in pattern.value])
    if isinstance(pattern, t.List):
        return listed([plain(p, numbers) for p in pattern.items])
    if isinstance(pattern, t.Cons):
        return "cell", [plain(pattern.head, numbers), plain(pattern.tail, numbers)]
    if isinstance(pattern, t.Pair):
        return "pair", [plain(pattern.first, numbers), plain(pattern.second, numbers)]
    assert isinstance(pattern, t.Constructor), pattern
    parts = [plain(p, numbers) for p in pattern.parts]
    return ("built", numbers[pattern.name], len(parts)), parts


def listed(items):
    whole = "nil", []
    for item in reversed(items):
        whole = "cell", [item, whole]
    return whole


def matches(pattern, value):
    if pattern in ("x", "_"):
        return True
    return pattern[0] == value[0] and all(matches(p, v) for p, v in zip(pattern[1], value[1]))


def places(pattern, place):
    if pattern == "x":
        return [place]
    if pattern == "_":
        return []
    return [found for i, part in enumerate(pattern[1]) for found in places(part, place + (i,))]


def found(rows, values):
    for number, row in enumerate(rows):
        if len(row) == len(values) and all(matches(p, v) for p, v in zip(row, values)):
            spots = [spot for i, p in enumerate(row) for spot in places(p, (i,))]
            return "row %d" % number + "".join(" " + ".".join(map(str, spot)) for spot in spots)
    return "no row"


def asked(pattern, place, tests):
    if pattern not in ("x", "_"):
        tests[place] = pattern[0]
        for i, part in enumerate(pattern[1]):
            asked(part, place + (i,), tests)
    return tests


def tests_of(row, width):
    """The tests of a row in order, at most one for each place."""
    if len(row) != width:
        return {(): "never"}
    tests = {}
    for i, pattern in enumerate(row):
        asked(pattern, (i,), tests)
    return tests


def count_nodes(rows):
    count, waiting = 0, [rows]
    while waiting:
        rows = waiting.pop()
        count += 1
        if rows and rows[0]:
            place, head = next(iter(rows[0].items()))
            waiting.append([without(row, place) for row in rows if row.get(place, head) == head])
            waiting.append([row for row in rows if row.get(place) != head])
    return count


def without(row, place):
    return {other: head for other, head in row.items() if other != place}


def answer(source):
    declarations = t.tree_of(source)
    numbers = constructors_of(declarations)
    functions = {d.name.name if hasattr(d.name, "name") else d.name: d for d in declarations if isinstance(d, t.Function)}
    width = len(functions["rows"].parameters)
    rows = [[plain(p, numbers) for p in row.patterns] for row in functions["rows"].rows]
    lines = ["%d nodes" % count_nodes([tests_of(row, width) for row in rows])]
    for row in functions["values"].rows:
        values = [plain(p, numbers) for p in row.patterns]
        # A decision is asked for as many values as it is for.
        assert len(values) == width
        lines.append(found(rows, values))
    return "".join(line + "\n" for line in lines)


# Cases


def source(types, rows, values, data=""):
    """Rows and values, each as the text of its patterns."""
    head = " :: %s -> Int where\n" % ", ".join(types)
    return data + "".join("fun %s%s%s" % (name, head, "".join("    %s\n" % (r + " -> 0").lstrip() for r in patterns)) for name, patterns in (("rows", rows), ("values", values))) + RUN


def columns(count, asked, other="_"):
    return ", ".join(asked.get(i, other) for i in range(count))


WORKED = [
    ("one row of anything", source(["Int"], ["_"], ["1"]), "1 nodes\nrow 0\n"),
    ("two literals", source(["Int"], ["1", "x"], ["1", "2"]), "3 nodes\nrow 0\nrow 1 0\n"),
    ("the first of two rows that match", source(["Int", "Int"], ["1, x", "y, 2"], ["1, 2", "3, 2", "3, 4"]), "5 nodes\nrow 0 1\nrow 1 0\nno row\n"),
    ("a cell's parts", source(["[Int]"], ["[]", "x : xs"], ["[]", "[1, 2]", "True"]), "5 nodes\nrow 0\nrow 1 0.0 0.1\nno row\n"),
]


def all_cases():
    cases = [(name, text) for name, text, _ in WORKED]
    cases += [
        ("overlapping rows", source(["Int", "Int", "Int"], ["1, 2, _", "1, _, 3", "_, 2, 3", "x, y, z"],
                                    ["1, 2, 3", "1, 2, 9", "1, 9, 3", "9, 2, 3", "1, 9, 9", "9, 9, 9"])),
        ("a row that is never chosen", source(["Int"], ["_", "1", "x"], ["1", "2"])),
        ("the same row twice", source(["Int", "Bool"], ["1, True", "1, True", "_, b"], ["1, True", "1, False", "2, True"])),
        ("literals", source(["Int"], ["0", "-1", "9223372036854775807", "-9223372036854775807", "1"],
                            ["0", "-0", "-1", "1", "9223372036854775807", "-9223372036854775807", "9223372036854775806"])),
        ("characters and truths", source(["Char", "Bool"], ["'a', True", "'b', False", "'\\u{10FFFF}', b", "c, True"],
                                         ["'a', True", "'a', False", "'b', False", "'\\u{10FFFF}', False", "'z', True", "'z', False"])),
        ("texts", source(["[Char]"], ['""', '"a"', '"ab"', '"b"', '\'a\' : more', '[c, \'x\']', "text"],
                         ['""', "[]", '"a"', "['a']", '"ab"', '"abc"', '"b"', '"cx"', '"cy"', "'c' : \"x\"", '"bx"'])),
        ("texts with one beginning", source(["[Char]"], ['"console"', '"consider"', '"con"', "_"],
                                            ['"console"', '"consider"', '"con"', '"conso"', '"consoles"', '"Console"'])),
        ("a long text", source(["[Char]"], ['"%s"' % ("ab" * 100), '"%sc"' % ("ab" * 99 + "a"), "_"],
                               ['"%s"' % ("ab" * 100), '"%sc"' % ("ab" * 99 + "a"), '"%s"' % ("ab" * 99)])),
        ("constructors", source(["Shape"], ["Dot", "Disc(0)", "Disc(r)", "Box(w, 0)", "Box(0, h)", "Group(Dot, s)", "Group(s, Dot)", "other"],
                                ["Dot", "Disc(0)", "Disc(5)", "Box(0, 0)", "Box(0, 1)", "Box(1, 1)", "Group(Dot, Dot)", "Group(Disc(1), Dot)", "Group(Disc(1), Disc(2))"], SHAPES)),
        ("nested constructors", source(["Shape"], ["Group(Group(Disc(1), a), Group(b, Box(2, 3)))", "Group(Group(Disc(n), Dot), c)", "Group(d, Group(Dot, e))", "f"],
                                       ["Group(Group(Disc(1), Dot), Group(Dot, Box(2, 3)))", "Group(Group(Disc(1), Dot), Group(Dot, Box(2, 4)))", "Group(Group(Disc(1), Disc(1)), Group(Dot, Dot))",
                                        "Group(Dot, Group(Dot, Disc(7)))", "Group(Dot, Dot)", "Dot"], SHAPES)),
        ("all constructors are tested", source(["Shape"], ["Dot", "Disc(_)", "Box(_, _)", "Group(_, _)"],
                                               ["Dot", "Group(Dot, Dot)", "Box(1, 2)", "1", "[]", "Disc(True)"], SHAPES)),
        ("values of other kinds", source(["Int"], ["1", "True", "'a'", "[]", "_ : _", "(_, 2)", "Disc(x)"],
                                         ["True", "False", "'a'", "'b'", "[]", '"a"', "(1, 2)", "(1, 3)", "Disc(1)", "Dot", "2"], SHAPES)),
        ("other numbers of parts", source(["Shape"], ["Disc(1, 2)", "Box(x)", "Dot(y)", "Disc(z)"],
                                          ["Disc(1, 2)", "Disc(1)", "Box(1, 2)", "Box(3)", "Dot", "Dot(4)"], SHAPES)),
        ("lists", source(["[[Int]]"], ["[]", "[[]]", "[[x]]", "[[1, 2], y]", "[_, [3], z : zs]", "a : b : c"],
                         ["[]", "[[]]", "[[5]]", "[[1, 2], [9]]", "[[1], [3], [4, 5]]", "[[1], [3], []]", "[[7, 8]]", "[[], []]"])),
        ("pairs", source(["((Int, Bool), (Char, [Int]))"], ["((1, True), ('a', []))", "((x, False), (_, 2 : y))", "((_, b), z)"],
                         ["((1, True), ('a', []))", "((1, True), ('a', [1]))", "((4, False), ('c', [2, 3]))", "((4, False), ('c', []))"])),
        ("no columns", source([], ["", ""], [""])),
        ("rows with too few and too many patterns", source(["Int", "Int"], ["1", "1, 2, 3", "", "x, y"], ["1, 2", "3, 4"])),
        ("64 columns, one row", source(["Int"] * 64, [columns(64, {i: str(i) for i in range(64)}), columns(64, {})],
                                       [columns(64, {i: str(i) for i in range(64)}), columns(64, {i: str(i) for i in range(63)}, "9"), columns(64, {}, "7")])),
        ("64 columns, a row each", source(["Int"] * 64, [columns(64, {i: "1", 63 - i: "x"}) if i != 63 - i else columns(64, {i: "1"}) for i in range(64)] + [columns(64, {63: "last"})],
                                          [columns(64, {i: "1"}, "0") for i in (0, 1, 31, 32, 62, 63)] + [columns(64, {}, "0"), columns(64, {}, "1")])),
        ("rows that ask at different places", source(["Bool"] * 8, [columns(8, {i: "True", i + 1: "False"}) for i in range(7)] + [columns(8, {0: "x", 7: "y"})],
                                                     [columns(8, {i: "True"}, "False") for i in range(8)] + [columns(8, {}, "True"), columns(8, {}, "False")])),
        ("1,000 rows of literals", source(["Int"], [str(7 * i % 1000) for i in range(1000)] + ["x"], ["0", "1", "7", "500", "993", "999", "1000", "-1"])),
        ("1,000 rows of texts", source(["[Char]"], ['"%03d"' % i for i in range(1000)] + ["x"], ['"000"', '"001"', '"090"', '"500"', '"999"', '"1000"', '"99"', '""'])),
    ]
    return cases


def check():
    for name, text, wanted in WORKED:
        assert answer(text) == wanted, (name, answer(text), wanted)
    print("%d rows worked by hand" % len(WORKED))


def tables():
    """The file of cases, and what has to be printed of them."""
    check()
    cases = all_cases()
    assert len({name for name, _ in cases}) == len(cases)
    return "".join("== %s\n%s" % case for case in cases), "".join("== %s\n%s" % (name, answer(text)) for name, text in cases)


if __name__ == "__main__":
    check()
