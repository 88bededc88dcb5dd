#!/usr/bin/env python3
"""The reference for functions: the first fault of a source, of any phase up to functions, or `typed`.

    functions.py FILE            prints the answer for a source
    functions.py --answers FILE  prints the answer for each case of a file of cases, as crates/source_cases does
    functions.py --check         judges the rows worked by hand

An expression is found to have a type, or checked against one, by two functions that follow the rules as they are told to
users; a fault ends the judging. Types are tuples without places: ("Int",), ("list", item), ("pair", first, second),
("data", name, arguments), ("variable", name).
"""

import sys

import trees as t
from grammar import HELLO, run
from names import answer as answer_of_names, worked
from trees import tree_of

INT, CHAR, BOOL = ("Int",), ("Char",), ("Bool",)
TEXT = ("list", CHAR)
COMPARED = (INT, CHAR, BOOL, TEXT)
ANYTHING = ("_",)


class Fault(Exception):
    """The first fault of functions, as its line has it."""


def refuse(what, place, detail=None):
    raise Fault("%s at %d:%d%s" % (what, *place, "" if detail is None else ": " + detail))


def differs(place, found, wanted):
    refuse("E30 TypeDiffers", place, "found %s, wanted %s" % (found, wanted))


def counts(place, found, wanted):
    if found != wanted:
        refuse("E33 ArgumentCount", place, "found %d, wanted %d" % (found, wanted))


# ---- Types


def type_of(node):
    """A type of the tree, without places."""
    if isinstance(node, t.Basic):
        return (node.name,)
    if isinstance(node, t.ListType):
        return ("list", type_of(node.item))
    if isinstance(node, t.PairType):
        return ("pair", type_of(node.first), type_of(node.second))
    if isinstance(node, t.Named):
        return ("data", node.name, tuple(map(type_of, node.arguments)))
    return ("variable", node.name)


def shown(a, bound=None):
    """As it is written; a parameter, where `bound` tells what they stand for, as that, or `_`."""
    kind = a[0]
    if kind == "list":
        return "[%s]" % shown(a[1], bound)
    if kind == "pair":
        return "(%s, %s)" % (shown(a[1], bound), shown(a[2], bound))
    if kind == "data":
        return a[1] + ("(%s)" % ", ".join(shown(one, bound) for one in a[2]) if a[2] else "")
    if kind == "variable":
        return a[1] if bound is None else shown(bound[a[1]]) if a[1] in bound else "_"
    return kind


def parameters_in(a):
    if a[0] == "variable":
        return {a[1]}
    parts = a[2] if a[0] == "data" else a[1:]
    return set().union(*map(parameters_in, parts))


def put_in(a, bound):
    """The type with each parameter replaced."""
    if a[0] == "variable":
        return bound.get(a[1], a)
    if a[0] == "data":
        return ("data", a[1], tuple(put_in(one, bound) for one in a[2]))
    return (a[0], *(put_in(one, bound) for one in a[1:]))


def match(declared, given, bound):
    """What parameters stand for once the declared type is the given one, or None. `bound` stays as it is."""
    if declared[0] == "variable":
        if declared[1] in bound:
            return bound if bound[declared[1]] == given else None
        return {**bound, declared[1]: given}
    if declared[0] != given[0] or (declared[0] == "data" and declared[1] != given[1]):
        return None
    inner = zip(declared[2], given[2]) if declared[0] == "data" else zip(declared[1:], given[1:])
    for one, other in inner:
        bound = match(one, other, bound)
        if bound is None:
            return None
    return bound


# ---- What is declared


class Known:
    def __init__(self, declarations):
        self.functions = {}
        self.constructors = {}
        self.data = {}
        for one in declarations:
            if isinstance(one, t.Function):
                self.functions[one.name.name] = ([type_of(a) for a in one.parameters], type_of(one.result))
            if isinstance(one, t.Data):
                whole = ("data", one.name.name, tuple(("variable", a.name) for a in one.parameters))
                lines = [(line.name.name, [type_of(a) for a in line.parts]) for line in one.constructors]
                self.data[one.name.name] = (whole, lines)
                for name, parts in lines:
                    self.constructors[name] = (parts, whole)


# ---- Patterns


def fit(known, pattern, wanted, names):
    """The variables that a pattern binds, behind those of the patterns to its left."""
    at = pattern.place
    if isinstance(pattern, t.Wildcard):
        return names
    if isinstance(pattern, t.Variable):
        if pattern.name in names:
            refuse("E34 NameTwiceInPattern", at, "name " + pattern.name)
        return {**names, pattern.name: wanted}
    own = {t.Number: INT, t.Negative: INT, t.Character: CHAR, t.Text: TEXT, t.Truth: BOOL}.get(type(pattern))
    if own is not None:
        if own != wanted:
            differs(at, shown(own), shown(wanted))
        return names
    if isinstance(pattern, (t.List, t.Cons)):
        if wanted[0] != "list":
            differs(at, "[_]", shown(wanted))
        parts = [(one, wanted[1]) for one in pattern.items] if isinstance(pattern, t.List) else [(pattern.head, wanted[1]), (pattern.tail, wanted)]
    elif isinstance(pattern, t.Pair):
        if wanted[0] != "pair":
            differs(at, "(_, _)", shown(wanted))
        parts = [(pattern.first, wanted[1]), (pattern.second, wanted[2])]
    else:
        types, whole = known.constructors[pattern.name]
        counts(at, len(pattern.parts), len(types))
        bound = match(whole, wanted, {})
        if bound is None:
            differs(at, shown(whole, {}), shown(wanted))
        parts = [(one, put_in(a, bound)) for one, a in zip(pattern.parts, types)]
    for one, a in parts:
        names = fit(known, one, a, names)
    return names


# ---- The missing pattern. A pattern is ANYTHING or a head with its parts: (head, parts).


def plain(pattern):
    if isinstance(pattern, (t.Wildcard, t.Variable)):
        return ANYTHING
    if isinstance(pattern, t.Number):
        return (("number", pattern.value), ())
    if isinstance(pattern, t.Negative):
        return (("number", -pattern.value), ())
    if isinstance(pattern, t.Character):
        return (("character", pattern.value), ())
    if isinstance(pattern, t.Truth):
        return (("truth", pattern.value), ())
    if isinstance(pattern, t.Text):
        return chain([(("character", c), ()) for c in pattern.value])
    if isinstance(pattern, t.List):
        return chain(list(map(plain, pattern.items)))
    if isinstance(pattern, t.Cons):
        return (("cons",), (plain(pattern.head), plain(pattern.tail)))
    if isinstance(pattern, t.Pair):
        return (("pair",), (plain(pattern.first), plain(pattern.second)))
    return (("built", pattern.name), tuple(map(plain, pattern.parts)))


def chain(items):
    whole = (("nil",), ())
    for one in reversed(items):
        whole = (("cons",), (one, whole))
    return whole


def heads_of(known, a, column):
    """The heads that are tried at a type, in order, each with the types of its parts; `other` is any value that no pattern of the column names."""
    if a == BOOL:
        return [(("truth", True), ()), (("truth", False), ())]
    if a[0] == "list":
        return [(("nil",), ()), (("cons",), (a[1], a))]
    if a[0] == "pair":
        return [(("pair",), (a[1], a[2]))]
    if a[0] == "data":
        whole, lines = known.data[a[1]]
        bound = match(whole, a, {})
        return [(("built", name), tuple(put_in(one, bound) for one in parts)) for name, parts in lines]
    literals = list(dict.fromkeys(one[0] for one in column if one != ANYTHING))
    return [(one, ()) for one in literals] + [("other", ())]


def missing(known, rows, types):
    """The first list of patterns, in the order of trials, that no row covers; None where there is none."""
    if not types:
        return None if rows else []
    if not rows:
        return [ANYTHING] * len(types)
    column = [row[0] for row in rows]
    if all(one == ANYTHING for one in column):
        rest = missing(known, [row[1:] for row in rows], types[1:])
        return None if rest is None else [ANYTHING] + rest
    for head, parts in heads_of(known, types[0], column):
        left = []
        for first, *others in rows:
            if first == ANYTHING:
                left.append([ANYTHING] * len(parts) + others)
            elif first[0] == head:
                left.append(list(first[1]) + others)
        found = missing(known, left, list(parts) + types[1:])
        if found is not None:
            here = ANYTHING if head == "other" else (head, tuple(found[: len(parts)]))
            return [here] + found[len(parts) :]
    return None


ESCAPED = {"\\": "\\\\", "\n": "\\n", "\r": "\\r", "\t": "\\t", "'": "\\'"}


def character_shown(c):
    if c in ESCAPED:
        return ESCAPED[c]
    return "\\u{%x}" % ord(c) if ord(c) < 32 or ord(c) == 127 else c


def pattern_shown(pattern, before_cons=False):
    if pattern == ANYTHING:
        return "_"
    (kind, *what), parts = pattern
    if kind == "number":
        return str(what[0])
    if kind == "character":
        return "'%s'" % character_shown(what[0])
    if kind == "truth":
        return str(what[0])
    if kind == "nil":
        return "[]"
    if kind == "cons":
        whole = "%s : %s" % (pattern_shown(parts[0], True), pattern_shown(parts[1]))
        return "(%s)" % whole if before_cons else whole
    inside = ", ".join(map(pattern_shown, parts))
    if kind == "pair":
        return "(%s)" % inside
    return what[0] + ("(%s)" % inside if parts else "")


def exhaustive(known, rows, types, place):
    left = missing(known, [list(map(plain, row)) for row in rows], types)
    if left is not None:
        refuse("E32 NotExhaustive", place, "missing " + ", ".join(map(pattern_shown, left)))


# ---- Expressions


def judge_parts(known, names, arguments, types, bound):
    for one, a in zip(arguments, types):
        if parameters_in(a) <= set(bound):
            check(known, names, one, put_in(a, bound))
            continue
        found = find(known, names, one)
        matched = match(a, found, bound)
        if matched is None:
            differs(one.place, shown(found), shown(a, bound))
        bound = matched
    return bound


def declared_of(known, node):
    """The types of the parts and of the whole of what is called or built, its arguments, and its type parameters."""
    if isinstance(node, t.FunctionCall):
        types, result = known.functions[node.name]
        arguments = node.arguments
    else:
        types, result = known.constructors[node.name]
        arguments = node.parts
    return types, result, arguments, set().union(*map(parameters_in, [*types, result]))


def found_call(known, names, node):
    types, result, arguments, parameters = declared_of(known, node)
    counts(node.place, len(arguments), len(types))
    bound = judge_parts(known, names, arguments, types, {})
    if not parameters <= set(bound):
        refuse("E31 NeedsType", node.place)
    return put_in(result, bound)


def checked_call(known, names, node, wanted):
    types, result, arguments, parameters = declared_of(known, node)
    counts(node.place, len(arguments), len(types))
    bound = match(result, wanted, {})
    if bound is None:
        differs(node.place, shown(result, {}), shown(wanted))
    judge_parts(known, names, arguments, types, bound)


def is_parametric(known, node):
    return isinstance(node, (t.FunctionCall, t.Constructor)) and bool(declared_of(known, node)[3])


def fitted(known, node, scrutinee):
    """The variables of each row of a `case`."""
    bound = [fit(known, pattern, scrutinee, {}) for pattern, _ in node.rows]
    exhaustive(known, [[pattern] for pattern, _ in node.rows], [scrutinee], node.place)
    return bound


OPERATIONS = {t.Or: (BOOL, BOOL), t.And: (BOOL, BOOL), t.Calculate: (INT, INT)}
CONVERSIONS = {t.Negate: (INT, INT), t.CodeOf: (CHAR, INT), t.CharOf: (INT, CHAR)}
LITERALS = {t.Number: INT, t.Character: CHAR, t.Text: TEXT, t.Truth: BOOL}


def find(known, names, node):
    kind = type(node)
    if kind in LITERALS:
        return LITERALS[kind]
    if kind is t.Variable:
        return names[node.name]
    if kind in (t.FunctionCall, t.Constructor):
        return found_call(known, names, node)
    if kind in OPERATIONS:
        of, gives = OPERATIONS[kind]
        check(known, names, node.left, of)
        check(known, names, node.right, of)
        return gives
    if kind in CONVERSIONS:
        of, gives = CONVERSIONS[kind]
        check(known, names, node.value, of)
        return gives
    if kind is t.Compare:
        left = find(known, names, node.left)
        if left not in COMPARED:
            differs(node.left.place, shown(left), "Int, Char, Bool or [Char]")
        check(known, names, node.right, left)
        return BOOL
    if kind is t.List:
        if not node.items:
            refuse("E31 NeedsType", node.place)
        item = find(known, names, node.items[0])
        for one in node.items[1:]:
            check(known, names, one, item)
        return ("list", item)
    if kind is t.Cons:
        item = find(known, names, node.head)
        check(known, names, node.tail, ("list", item))
        return ("list", item)
    if kind is t.Append:
        left = find(known, names, node.left)
        if left[0] != "list":
            differs(node.left.place, shown(left), "[_]")
        check(known, names, node.right, left)
        return left
    if kind is t.Pair:
        return ("pair", find(known, names, node.first), find(known, names, node.second))
    if kind is t.If:
        check(known, names, node.condition, BOOL)
        found = find(known, names, node.yes)
        check(known, names, node.no, found)
        return found
    bound = fitted(known, node, scrutinee := find(known, names, node.value))
    found = find(known, {**names, **bound[0]}, node.rows[0][1])
    for more, (_, value) in zip(bound[1:], node.rows[1:]):
        check(known, {**names, **more}, value, found)
    return found


def check(known, names, node, wanted):
    kind = type(node)
    if kind in (t.List, t.Cons, t.Append):
        if wanted[0] != "list":
            differs(node.place, "[_]", shown(wanted))
        if kind is t.List:
            parts = [(one, wanted[1]) for one in node.items]
        elif kind is t.Cons:
            parts = [(node.head, wanted[1]), (node.tail, wanted)]
        else:
            parts = [(node.left, wanted), (node.right, wanted)]
        for one, a in parts:
            check(known, names, one, a)
    elif kind is t.Pair:
        if wanted[0] != "pair":
            differs(node.place, "(_, _)", shown(wanted))
        check(known, names, node.first, wanted[1])
        check(known, names, node.second, wanted[2])
    elif kind is t.If:
        check(known, names, node.condition, BOOL)
        check(known, names, node.yes, wanted)
        check(known, names, node.no, wanted)
    elif kind is t.CaseOf:
        bound = fitted(known, node, find(known, names, node.value))
        for more, (_, value) in zip(bound, node.rows):
            check(known, {**names, **more}, value, wanted)
    elif is_parametric(known, node):
        checked_call(known, names, node, wanted)
    else:
        found = find(known, names, node)
        if found != wanted:
            differs(node.place, shown(found), shown(wanted))


# ---- Functions


def judge_function(known, function):
    types, result = known.functions[function.name.name]
    for row in function.rows:
        counts(row.place, len(row.patterns), len(types))
        names = {}
        for pattern, a in zip(row.patterns, types):
            names = fit(known, pattern, a, names)
        check(known, names, row.value, result)
    exhaustive(known, [row.patterns for row in function.rows], types, function.place)


def answer(text):
    earlier = answer_of_names(text)
    if earlier != "well declared":
        return earlier
    declarations = tree_of(text)
    known = Known(declarations)
    try:
        for one in declarations:
            if isinstance(one, t.Function):
                judge_function(known, one)
    except Fault as fault:
        return str(fault)
    return "typed"


# ---- Rows worked by hand

END = "proc run :: | => where\n    | => -> halt\n"

COLOURS = "data Colour where\n    Red\n    Green\n    Blue\nfun name :: Colour -> [Char] where\n    %s\n    %s\n" + END

SIZES = "fun size :: [a] -> Int where\n    _ -> 0\nfun bad :: -> Int where\n    -> size(%s)\n" + END

PAIRS = "fun left :: (a, Int), a -> a where\n    (x, _), _ -> x\nfun bad :: -> Char where\n    -> %s\n" + END


def rows_worked_by_hand():
    return [
        (HELLO, "typed"),
        (COLOURS % ('Red -> "red"', 'Blue -> "blue"'), "E32 NotExhaustive at 5:1: missing Green"),
        (COLOURS % ('_ -> "any"', 'Red -> "red"'), "typed"),
        (SIZES % "[]", "E31 NeedsType at 4:13"),
        (SIZES % "[1]", "typed"),
        (SIZES % "1", "E30 TypeDiffers at 4:13: found Int, wanted [_]"),
        (SIZES % "[1], 2", "E33 ArgumentCount at 4:8: found 2, wanted 1"),
        (PAIRS % "left(('a', 'b'), 'c')", "E30 TypeDiffers at 4:19: found Char, wanted Int"),
        (PAIRS % "left((1, 2), 'c')", "E30 TypeDiffers at 4:14: found Int, wanted Char"),
        (PAIRS % "char(code(left(('a', 'b'), 'c')))", "E30 TypeDiffers at 4:29: found Char, wanted Int"),
        (PAIRS % "if left(('a', 'b'), 'c') == 'd' then 'e' else 'f'", "E30 TypeDiffers at 4:16: found (Char, Char), wanted (_, Int)"),
        (PAIRS % "if left(('a', 1), 2) == 'd' then 'e' else 'f'", "E30 TypeDiffers at 4:26: found Int, wanted Char"),
        (PAIRS % "code('a')", "E30 TypeDiffers at 4:8: found Int, wanted Char"),
        ("fun f :: Int, Int -> Int where\n    x, x -> x\n" + END, "E34 NameTwiceInPattern at 2:8: name x"),
        ("fun f :: Int, Int -> Int where\n    x -> x\n" + END, "E33 ArgumentCount at 2:5: found 1, wanted 2"),
        ("fun f :: [Int] -> Int where\n    [] -> 0\n    [x] -> x\n" + END, "E32 NotExhaustive at 1:1: missing _ : _ : _"),
        ("fun f :: [[Int]] -> Int where\n    [] -> 0\n    [] : _ -> 1\n" + END, "E32 NotExhaustive at 1:1: missing (_ : _) : _"),
        ("fun f :: Int -> Int where\n    -0 -> 0\n    3 -> 1\n" + END, "E32 NotExhaustive at 1:1: missing _"),
        ("fun f :: Int -> Bool where\n    x -> (x, x) == (x, x)\n" + END, "E30 TypeDiffers at 2:10: found (Int, Int), wanted Int, Char, Bool or [Char]"),
        (worked("uses_all_expressions"), "typed"),
        (worked("bank"), "typed"),
    ]


if __name__ == "__main__":
    sys.setrecursionlimit(1_000_000)
    run(sys.argv[1:], rows_worked_by_hand, answer)
