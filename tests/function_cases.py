"""The cases for functions, as a name and their source.

Every expression of a list stands once in every place of another list, so that each form meets each type that is wanted of it, and
none; so do patterns and types. Rows of patterns come by themselves, for what they leave uncovered, and sources with two faults,
for which comes first. `all_cases` asserts that each fault of functions comes often.
"""

from collections import Counter

from functions import answer
from names import worked

DECLARED = """data Maybe(a) where
 None
 Just(a)
data Both(a, b) where
 Both(a, b)
data Colour where
 Red
 Mix(Int)
fun id :: a -> a where
 x -> x
fun pick :: a, a -> a where
 x, _ -> x
fun left :: (a, Int), b -> a where
 (x, _), _ -> x
fun none :: Int -> Maybe(a) where
 _ -> None
fun size :: [a] -> Int where
 _ -> 0
fun add :: Int, Int -> Int where
 x, y -> x + y
"""
RUN = "proc run :: | => where\n | => -> halt\n"

TYPES = ["Int", "Char", "Bool", "[Int]", "[Char]", "(Int, Char)", "Maybe(Int)", "Both(Int, [Char])", "Colour", "c"]

EXPRESSIONS = [
    "1", "'c'", '"text"', "True", "v", "c", "[]", "[1]", "[1, 'c']", "['c', 'd']", "[[], [1]]", "[[1], []]",
    "1 : []", "1 : [2]", "'c' : [1]", "[] : []", '"a" ++ "b"', "[] ++ [1]", "[1] ++ []", "1 ++ [2]", "[1] ++ ['c']",
    "(1, 'c')", "(1, [])", "([], 'c')", "if True then 1 else 2", "if 1 then 'c' else 1", "if True then [1] else []",
    "if True then [] else [1]", "if True then 1 else 'c'", "case 1 of\n   0 -> 'c'\n   _ -> 'd'", "case 1 of\n   0 -> 'c'",
    "case [] of\n   _ -> 1", "case v of\n   'c' -> 1\n   _ -> 2", "case (1, 'c') of\n   (x, y) -> y",
    "case [v] of\n   [] -> []\n   x : _ -> [x]", "case True of\n   True -> 1\n   False -> 'c'", "1 == 2", "1 == 'c'", "[1] < [2]",
    '"a" <= "b"', "(1, 2) /= (1, 2)", "[] == []", "v > c", "True || 1", "1 && True", "1 + 2 * 3", "1 + 'c'", "'c' div 1", "-1", "-'c'",
    "code('c')", "code(1)", "char(1)", "char('c')", "id(1)", "id([])", "id(id('c'))", "pick(1, 'c')", "pick([], [1])", "pick([1], [])",
    "left((1, 2), 3)", "left(('c', 'd'), 3)", "left(1, 2)", "left(([], 2), 'c')", "none(1)", "none('c')", "size([])", "size([1])",
    "size(1)", "add(1, 2)", "add(1)", "add(1, 'c')", "add(1, 2, 3)", "None", "Just(1)", "Just([])", "Just(Just('c'))", "Just(1, 2)",
    'Both(1, "b")', "Both([], 1)", "Both(1, None)", "Red", "Mix(1)", "Mix('c')", "Mix", "Red(1)",
]

# one of each type that is found, and of each way to have none
FOUND = [
    "1", "'c'", "[]", "[1]", "[[], [1]]", "1 : []", "[] ++ [1]", "(1, [])", "(1, 'c')", "if True then [1] else []",
    "if True then [] else [1]", "id([])", "id(1)", "pick(1, 'c')", "left((1, 2), 3)", "left(([], 2), 'c')", "none(1)", "size([])",
    "None", "Just(1)", "Just([])", "Both(1, None)", "Red", "Mix('c')", "v", "c", "add(1, 'c')",
]

# where nothing is wanted of an expression, and where something is that another part tells
PLACES = [
    "case @ of\n   _ -> 1", "id(@)", "pick(@, 1)", "pick('c', @)", "(@) == 1", "1 == (@)", "(@) ++ [1]", "[1] ++ (@)", "[@, 1]", "[1, @]",
    "(@) : []", "1 : (@)", "size(@)", "left((@), 1)", "left((@, 1), 2)", "Just(@)", "Both(@, @)", "(@) + 1", "if @ then 1 else 2",
    "if True then @ else 1", "case 1 of\n   0 -> 1\n   _ -> @", "(@, @)",
]

PATTERNS = [
    "_", "v", "1", "-1", "'c'", '"text"', '""', "True", "False", "[]", "[x]", "[x, x]", "[1, 'c']", "x : y", "x : x", "1 : []", "'c' : _", "(x, y)", "(x, x)",
    "(1, 'c')", "([], _)", "None", "Just(x)", "Just(1)", "Just(Just(_))", "Just", "None(1)", "Both(x, y)", "Both(x, x)", "Both(1, \"b\")", "Both(x)", "Red", "Mix(n)",
    "Mix('c')", "Mix(1, 2)",
]

ROWS = [
    ("Bool", ["True"], ["False"]),
    ("Bool", ["False"]),
    ("Bool, Bool", ["True", "_"], ["_", "True"]),
    ("Bool, Bool", ["_", "True"], ["True", "_"], ["False", "False"]),
    ("Int", ["1"], ["-2"]),
    ("Int", ["0"], ["x"]),
    ("Int, Int", ["1", "2"], ["2", "_"], ["_", "1"]),
    ("Int, Int", ["2", "1"], ["1", "2"], ["_", "3"]),
    ("Int, Int", ["-0", "1"], ["0", "_"]),
    ("Char", ["'a'"], ["'\\''"]),
    ("Char, Bool", ["'\\n'", "True"], ["_", "_"]),
    ("Char, Bool", ["'\\''", "True"], ["_", "False"], ["'a'", "_"]),
    ("Char, Bool", ["'\\n'", "True"], ["'a'", "_"], ["_", "True"]),
    ("Char, Bool", ["'\\u{7}'", "True"], ["'\\\\'", "_"], ["_", "True"]),
    ("[Int]", ["[]"]),
    ("[Int]", ["x : y"]),
    ("[Int]", ["[]"], ["[x]"]),
    ("[Int]", ["[]"], ["[1]"], ["x : y : z"]),
    ("[Int]", ["[]"], ["[x, y]"], ["x : y : z : r"]),
    ("[[Int]]", ["[]"], ["[] : _"]),
    ("[[Int]]", ["[]"], ["[] : _"], ["(x : []) : _"]),
    ("[Char]", ['"ab"'], ['""']),
    ("[Char]", ['"a"'], ['"b"'], ["_"]),
    ("[Char]", ['""'], ["'a' : _"], ["'b' : _"]),
    ("(Int, Bool)", ["(1, True)"], ["(_, False)"]),
    ("(Int, Bool), Bool", ["(1, True)", "_"], ["(_, False)", "True"]),
    ("Maybe(Bool)", ["None"], ["Just(True)"]),
    ("Maybe(Bool)", ["Just(_)"]),
    ("Maybe(Maybe(Int))", ["None"], ["Just(None)"], ["Just(Just(3))"]),
    ("Maybe([Int])", ["None"], ["Just([])"]),
    ("Both(Bool, Colour)", ["Both(True, _)"], ["Both(_, Red)"]),
    ("Both(Bool, Colour)", ["Both(_, Mix(1))"], ["Both(True, Red)"], ["Both(_, Mix(_))"]),
    ("Colour, Colour", ["Red", "Red"], ["Mix(_)", "_"]),
    ("Colour, Colour", ["_", "Red"], ["Mix(0)", "Mix(_)"]),
    ("a", ["_"]),
    ("a, Bool", ["x", "True"], ["y", "False"]),
    ("a, Bool", ["x", "True"]),
    ("Int, [a], Maybe(a)", ["1", "[]", "_"], ["_", "x : _", "None"], ["_", "_", "Just(_)"]),
    ("Int, [a], Maybe(a)", ["_", "[]", "_"], ["_", "x : _", "None"], ["_", "_", "Just(_)"]),
    ("Int", ["1", "2"]),
    ("Int, Int", ["1"]),
    ("Int, Bool", ["x", "True"], ["x"]),
    ("Int, Bool", ["x", "x"]),
    ("Int, [Int]", ["x", "y : x"]),
]

TWO_FAULTS = [
    ("the number of patterns before the patterns", "Int", "'c', 1 -> 2"),
    ("a pattern before the number of the next row's", "Int", "'c' -> 2\n 1, 2 -> 3"),
    ("a pattern before the value", "Int", "'c' -> 'd'"),
    ("a type before a name twice", "(Int, [Int]), Int", "('c', x), x -> 1"),
    ("a name twice before a type", "(Int, Int), Int", "(x, x), 'c' -> 1"),
    ("a value before the next row", "Int", "1 -> 'c'\n 'd' -> 2"),
    ("a value before what is missing", "Int", "1 -> 'c'"),
    ("a row's number before what is missing", "Int", "1 -> 2\n 1, 2 -> 3"),
    ("a constructor's number before its type", "Int", "Just(1, 2) -> 1"),
    ("a constructor's type before its parts", "Int", "Just(Red(1)) -> 1"),
    ("the scrutinee before the patterns", "Int", "_ -> case 1 + 'c' of\n  'd' -> 1"),
    ("patterns before what is missing", "Int", "_ -> case 1 of\n  1 -> 1\n  'd' -> 1"),
    ("what is missing before the values", "Int", "_ -> case 1 of\n  1 -> 'c'"),
    ("the number before the arguments", "Int", "_ -> add('c')"),
    ("the first argument before the second", "Int", "_ -> add('c', True)"),
    ("a result before the arguments, with parameters", "Int", "_ -> left(([], 'c'), 1) + left(('c', 1), 2)"),
    ("the arguments before the result, without parameters", "Char", "_ -> add('c', 1)"),
    ("the parts before the whole, without parameters", "Char", "_ -> Mix('c')"),
    ("the whole before the parts, with parameters", "Char", "_ -> Just(1 + 'c')"),
    ("a comparison's left side before its right", "Int", "_ -> if (1, 2) == 1 + 'c' then 1 else 2"),
    ("a comparison's right side before its type", "Int", "_ -> 1 == 'c'"),
    ("a list before its elements", "Int", "_ -> [1 + 'c']"),
    ("a pair before its parts", "Int", "_ -> (1 + 'c', 2)"),
    ("a condition before the branches", "Int", "_ -> if 1 then 'c' else 'd'"),
    ("the first branch before the second", "Int", "_ -> if True then 'c' else True"),
    ("an outer `++` before an inner one", "Int", "_ -> [1] ++ [2] ++ ['c']"),
]


def function(parameters, rows, result="Int"):
    return DECLARED + "fun bad :: %s -> %s where\n %s\n" % (parameters, result, rows) + RUN


def checked_cases():
    for wanted in TYPES:
        for expression in EXPRESSIONS:
            yield "%s wanted of %s" % (wanted, expression), function("Char, c", "v, c -> " + expression, wanted)


def found_cases():
    for place in PLACES:
        for expression in FOUND:
            yield "%s for @ in %s" % (expression, place), function("Char, c", "v, c -> " + place.replace("@", expression))


def pattern_cases():
    for wanted in TYPES:
        for pattern in PATTERNS:
            yield "pattern %s at %s" % (pattern, wanted), function(wanted + ", Int", "%s, x -> 1\n _, _ -> 2" % pattern)


def row_cases():
    for types, *rows in ROWS:
        told = "; ".join(", ".join(row) for row in rows)
        yield "rows %s at %s" % (told, types), function(types, "\n ".join(", ".join(row) + " -> 1" for row in rows))
        if len(rows[0]) == 1:
            case = "case v of\n" + "\n".join("  %s -> 1" % row[0] for row in rows)
            yield "case of %s at %s" % (told, types), function(types, "v -> " + case)


def two_fault_cases():
    for name, types, rows in TWO_FAULTS:
        yield name, function(types, rows, "Char" if types == "Char" else "Int")
    yield "the first function before the second", function("Int", "_ -> 'c'").replace(RUN, "fun worse :: -> Int where\n -> 'd'\n" + RUN)


def nested(depth, operators):
    """A sum under so many calls."""
    return "id(" * depth + " + ".join(["1"] * (operators + 1)) + ")" * depth


def whole_cases():
    pair = "fun pair :: a, (b, a) -> Int where\n _, _ -> 0\n"
    lists = "data Pair(a, b) where\n Pair(a, b)\nfun lists :: [Pair(a, b)] -> Int where\n _ -> 0\n"
    yield "a function without parameters", "fun f :: -> Int where\n -> 1 + True\n" + RUN
    yield "a sum under many calls", function("Int", "_ -> " + nested(40, 60))
    yield "a character in a sum under many calls", function("Int", "_ -> " + nested(40, 60).replace("1)", "'c')", 1))
    for arguments in ["1, (True, 'c')", "1, (True, 2)", "1, 2", "[], (1, 1)", "1, ([], 1)"]:
        yield "pair(%s)" % arguments, pair + "fun bad :: -> Int where\n -> pair(%s)\n" % arguments + RUN
    for argument in ["[]", "[Pair(1, 'c')]", "[Pair([], 1)]", "1"]:
        yield "lists(%s)" % argument, lists + "fun bad :: -> Int where\n -> lists(%s)\n" % argument + RUN


def worked_cases():
    for name in ["uses_all_expressions", "bank", "chain_of_stages", "first_row_wins", "fills_a_text", "first_of_texts"]:
        yield "worked: " + name, worked(name)


def named_once(cases):
    """The cases with line ends left out of their names."""
    return [(" ".join(name.split()), text) for name, text in cases]


def all_cases():
    cases = named_once(
        [*checked_cases(), *found_cases(), *pattern_cases(), *row_cases(), *two_fault_cases(), *whole_cases(), *worked_cases()]
    )
    counts = Counter(answer(text).split(" at ")[0] for _, text in cases)
    for fault in ("E30 TypeDiffers", "E31 NeedsType", "E32 NotExhaustive", "E33 ArgumentCount", "E34 NameTwiceInPattern", "typed"):
        assert counts[fault] >= 15, (fault, counts)
    assert set(counts) <= {"E30 TypeDiffers", "E31 NeedsType", "E32 NotExhaustive", "E33 ArgumentCount", "E34 NameTwiceInPattern", "typed"}, counts
    return cases
