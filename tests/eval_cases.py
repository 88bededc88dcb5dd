#!/usr/bin/env python3
"""The cases of crates/eval_cases: sources, and what the evaluator gives for their functions without parameters.

    eval_cases.py FOLDER               writes FOLDER/data/cases.txt and FOLDER/stdout
    eval_cases.py --chance N FOLDER    the same with N sources by chance, each judged to have no fault

Values are worked from the tree by `evaluation.py`, which knows nothing of code.
"""

import os
import sys
import threading
from random import Random

from evaluation import Declared, called
from functions import answer
from trees import tree_of

CALLS = 100_000_000
WORDS = 10_000
GREATEST = "9223372036854775807"
LEAST = "(-9223372036854775807 - 1)"

# ---- Values as the program prints them


def words_of(value):
    words, parts = [], [value]
    while parts and len(words) < WORDS:
        one = parts.pop()
        kind = one.kind
        if kind[0] == "int":
            words.append(str(kind[1]))
        elif kind[0] == "char":
            words.append(f"'{ord(kind[1])}")
        elif kind[0] == "truth":
            words.append(str(kind[1]))
        elif kind[0] == "built":
            words.append(f"#{kind[1]}/{len(one.parts)}")
        else:
            words.append({"nil": "[]", "cell": ":", "pair": ","}[kind[0]])
        parts += reversed(one.parts)
    return " ".join(words) + (" .." if parts else "")


def lines_of(source):
    """A line for each function without parameters."""
    known = Declared(tree_of(source))
    for name, function in known.functions.items():
        if not function.parameters:
            value, left = called(known, name, [], CALLS)
            end = {"deep": "too deep", "more": "more"}.get(value) if isinstance(value, str) else words_of(value)
            yield f"{name} {end} {CALLS - left}"


# ---- Cases by hand


def functions(type_of_all, values):
    return "".join(f"fun f{n} :: -> {type_of_all} where\n    -> {value}\n" for n, value in enumerate(values))


NUMBERS = ["0", "1", "-1", "2", "-2", "7", "-7", GREATEST, LEAST]
CODES = ["-1", "0", "97", "55295", "55296", "57343", "57344", "1114111", "1114112", "4294967393", GREATEST, LEAST]
COMPARED = [
    ("0", "0"), ("-1", "1"), (LEAST, GREATEST), (GREATEST, LEAST), ("'a'", "'b'"), ("'b'", "'a'"), ("char(1114111)", "char(55295)"), ("'x'", "'x'"), ("False", "True"),
    ("True", "False"), ("True", "True"), ('""', '""'), ('""', '"a"'), ('"a"', '""'), ('"ab"', '"ab"'), ('"ab"', '"abc"'), ('"abd"', '"abc"'), ('"a" ++ "b"', "'a' : \"b\""),
]

LISTS = """fun size :: [a] -> Int where
    [] -> 0
    _ : t -> 1 + size(t)
fun size_onto :: [a], Int -> Int where
    [], n -> n
    _ : t, n -> size_onto(t, n + 1)
fun sum_onto :: [Int], Int -> Int where
    [], n -> n
    h : t, n -> sum_onto(t, n + h)
fun build :: Int, [Int] -> [Int] where
    n, l -> if n < 1 then l else build(n - 1, n : l)
fun letters :: Int, [Char] -> [Char] where
    n, l -> if n < 1 then l else letters(n - 1, 'x' : l)
fun turned :: [a], [a] -> [a] where
    [], l -> l
    h : t, l -> turned(t, h : l)
"""

NESTS = """data Nest where
    Leaf
    Nest(Nest)
data Pairs where
    End
    Pairs((Int, Pairs))
fun nest :: Int, Nest -> Nest where
    n, x -> if n < 1 then x else nest(n - 1, Nest(x))
fun levels :: Nest, Int -> Int where
    Leaf, n -> n
    Nest(x), n -> levels(x, n + 1)
fun pairs :: Int, Pairs -> Pairs where
    n, x -> if n < 1 then x else pairs(n - 1, Pairs((n, x)))
fun pair_levels :: Pairs, Int -> Int where
    End, n -> n
    Pairs((_, x)), n -> pair_levels(x, n + 1)
"""


def constructors():
    names = [f"C{n}" for n in range(30)]
    data = "data Many where\n" + "".join(f"    {name}\n" if n % 3 else f"    {name}(Int, Many)\n" for n, name in enumerate(names))
    rows = "".join(f"    {name}{'' if n % 3 else '(x, _)'} -> {n}{'' if n % 3 else ' + x'}\n" for n, name in enumerate(names))
    told = "fun told :: Many -> Int where\n" + rows
    next_of = "fun next :: Many -> Many where\n" + "".join(f"    {name}{'' if n % 3 else '(_, _)'} -> {names[(n + 1) % 30]}{'' if (n + 1) % 3 else f'({n}, C1)'}\n" for n, name in enumerate(names))
    turns = "fun turns :: Int, Many, Int -> Int where\n    n, m, total -> if n < 1 then total else turns(n - 1, next(m), total + told(m))\n"
    return data + told + next_of + turns + functions("Int", ["turns(0, C1, 0)", "turns(1, C1, 0)", "turns(31, C29, 0)", "turns(300, C5, 0)"])


ROWS = """data Maybe(a) where
    None
    Just(a)
fun which :: Int, [Char], (Bool, Maybe(Int)) -> Int where
    0, _, _ -> 0
    -1, "", _ -> 1
    -1, "ab", (True, _) -> 2
    n, 'a' : _, (_, Just(3)) -> n + 3
    n, _ : _ : [], (False, Just(m)) -> n + m
    n, [], (_, None) -> n * 10
    n, text, (b, Just(m)) -> case (b, m) of
        (True, 7) -> 7
        (False, _) -> m
        (_, k) -> n - k + size(text)
    _, text, _ -> 100 + size(text)
fun size :: [a] -> Int where
    [] -> 0
    _ : t -> 1 + size(t)
"""
WHICH = [
    f"which({n}, {text}, ({truth}, {maybe}))"
    for n in ("0", "-1", "5") for text in ('""', '"ab"', '"a"', '"xy"', '"xyz"') for truth in ("True", "False") for maybe in ("None", "Just(3)", "Just(7)", "Just(-2)")
]

# what a branch that isn't taken would give is too deep
SHORT = """fun deep :: -> Int where
    -> size_onto(build(5000, []), 0)
fun says :: -> Bool where
    -> deep() == 0
"""


def by_hand():
    pairs = [(a, b) for a in NUMBERS for b in NUMBERS]
    for operator in ("+", "-", "*", "div", "mod"):
        yield f"numbers {operator}", functions("Int", [f"{a} {operator} {b}" for a, b in pairs])
    yield "numbers negated", functions("Int", [f"-{a}" for a in NUMBERS if a[0] != "-"] + [f"-({a})" for a in NUMBERS])
    for operator in ("==", "/=", "<", "<=", ">", ">="):
        yield f"compared {operator}", functions("Bool", [f"{a} {operator} {b}" for a, b in COMPARED])
    yield "codes", functions("Char", [f"char({n})" for n in CODES]) + "fun code_of :: -> Int where\n    -> code('x') + code(char(1114111)) + code(char(-5))\n"
    yield "truths", functions("Bool", [f"{a} {operator} {b}" for operator in ("&&", "||") for a in ("True", "False") for b in ("True", "False")])
    yield "not taken", LISTS + SHORT + functions("Bool", ["False && says()", "True || says()", "True && says()", "False || says()", "if True then True else says()", "if False then says() else False"])
    yield "deep lists", LISTS + functions("Int", [f"size_onto(build({n}, []), 0)" for n in (0, 1, 4094, 4095, 4096)] + [f"size_onto(letters({n}, \"yz\"), 0)" for n in (4093, 4094)])
    yield "deep nests", NESTS + functions("Int", [f"levels(nest({n}, Leaf), 0)" for n in (0, 4095, 4096)] + [f"pair_levels(pairs({n}, End), 0)" for n in (0, 2047, 2048)])
    yield "texts", LISTS + functions("Int", [f"size_onto(\"{'t' * n}\", 0)" for n in (0, 1, 1023, 1024)])
    yield "deep appends", LISTS + functions("Int", [f"size_onto(build({n}, []) ++ build({m}, []), 0)" for n, m in ((0, 0), (0, 4095), (4095, 0), (2000, 2095), (2000, 2096), (4095, 4095))]
        + [f"size_onto(letters({n}, []) ++ letters({m}, []), 0)" for n, m in ((1000, 3095), (1000, 3096))])
    yield "constructors", constructors()
    yield "rows", ROWS + functions("Int", WHICH)
    yield "calls", LISTS + functions("Int", ["sum_onto(build(4000, []), 0)", "size(build(1000, []))", "sum_onto(turned(build(100, []), []), 0)", "fib(15)", "even_odd(1001)"]) + """fun fib :: Int -> Int where
    n -> if n < 2 then n else fib(n - 1) + fib(n - 2)
fun even_odd :: Int -> Int where
    n -> if even(n) then 1 else 0
fun even :: Int -> Bool where
    0 -> True
    n -> odd(n - 1)
fun odd :: Int -> Bool where
    0 -> False
    n -> even(n - 1)
"""


# ---- Cases by chance

LIBRARY = ROWS.split("fun which")[0] + LISTS + """fun upto :: Int -> [Int] where
    n -> build(n mod 20, [])
fun some :: Maybe(Int), Int -> Int where
    None, n -> n
    Just(m), _ -> m
fun swapped :: (Int, Char) -> (Int, Char) where
    (n, c) -> (code(c), char(n))
fun start :: [Char], Char -> Char where
    [], c -> c
    c : _, _ -> c
fun doubled :: [a] -> [a] where
    l -> l ++ l
"""
TYPES = ["Int", "Bool", "Char", "[Int]", "[Char]", "(Int, Char)", "Maybe(Int)"]


class Maker:
    def __init__(self, random):
        self.random, self.callable = random, []

    def leaf(self, a, names):
        fitting = [name for name, b in names if b == a]
        if fitting and self.random.random() < 0.6:
            return self.random.choice(fitting)
        choice = self.random.choice
        return {
            "Int": lambda: choice(["0", "1", "2", "3", "10", "-1", GREATEST, LEAST, "55296", str(self.random.randrange(10**6))]),
            "Bool": lambda: choice(["True", "False"]),
            "Char": lambda: choice(["'a'", "'b'", "'z'", "'0'"]),
            "[Int]": lambda: choice(["[]", "[1]", "[2, 3]", "[-1, 0, 1]"]),
            "[Char]": lambda: choice(['""', '"a"', '"ab"', '"xyz"']),
            "(Int, Char)": lambda: choice(["(1, 'a')", "(-7, 'z')"]),
            "Maybe(Int)": lambda: choice(["None", "Just(5)"]),
        }[a]()

    def value(self, a, names, depth):
        if depth < 1:
            return self.leaf(a, names)
        of = lambda b: self.value(b, names, depth - 1)
        item = {"[Int]": "Int", "[Char]": "Char"}.get(a)
        ways = [lambda: self.leaf(a, names), lambda: f"(if {of('Bool')} then {of(a)} else {of(a)})"]
        for name, wanted, given in self.callable:
            if given == a:
                ways += [lambda name=name, wanted=wanted: f"{name}({', '.join(of(b) for b in wanted)})"]
        if a == "Int":
            ways += [lambda: f"({of('Int')} {self.random.choice(['+', '-', '*', 'div', 'mod'])} {of('Int')})"] * 4
            ways += [lambda: f"-({of('Int')})", lambda: f"code({of('Char')})", lambda: f"some({of('Maybe(Int)')}, {of('Int')})", lambda: f"size({of('[Char]')})", lambda: f"sum_onto({of('[Int]')}, {of('Int')})"]
        elif a == "Bool":
            ways += [lambda b=b: f"({of(b)} {self.random.choice(['==', '/=', '<', '<=', '>', '>='])} {of(b)})" for b in ("Int", "Char", "Bool", "[Char]")]
            ways += [lambda: f"({of('Bool')} {self.random.choice(['&&', '||'])} {of('Bool')})"]
        elif a == "Char":
            ways += [lambda: f"char({of('Int')})", lambda: f"start({of('[Char]')}, {of('Char')})"]
        elif item:
            ways += [lambda: f"({of(item)} : {of(a)})", lambda: f"({of(a)} ++ {of(a)})", lambda: f"[{of(item)}, {of(item)}]", lambda: f"turned({of(a)}, {of(a)})", lambda: f"doubled({of(a)})"]
            ways += [lambda: f"upto({of('Int')})"] if item == "Int" else [lambda: f"letters({of('Int')} mod 9, {of(a)})"]
        elif a == "(Int, Char)":
            ways += [lambda: f"({of('Int')}, {of('Char')})", lambda: f"swapped({of(a)})"]
        else:
            ways += [lambda: f"Just({of('Int')})"]
        return self.random.choice(ways)()

    def function(self, n):
        """A function with two rows of patterns for its first parameter, which later ones may call."""
        wanted = [self.random.choice(TYPES) for _ in range(self.random.randint(1, 2))]
        given = self.random.choice(TYPES)
        first = {
            "Int": ["0", "-1", "x"], "Bool": ["True", "False"], "Char": ["'a'", "x"], "[Int]": ["[]", "x : xs"], "[Char]": ['"ab"', "[]", "x : xs"],
            "(Int, Char)": ["(1, x)", "(x, y)"], "Maybe(Int)": ["Just(0)", "Just(x)", "None"],
        }[wanted[0]]
        bound = {"x : xs": {"[Int]": [("x", "Int"), ("xs", "[Int]")], "[Char]": [("x", "Char"), ("xs", "[Char]")]}.get(wanted[0]), "(1, x)": [("x", "Char")], "(x, y)": [("x", "Int"), ("y", "Char")], "Just(x)": [("x", "Int")], "x": [("x", wanted[0])]}
        rest = [(f"p{m}", b) for m, b in enumerate(wanted[1:])]
        rows = [f"    {', '.join([pattern] + [name for name, _ in rest])} -> {self.value(given, (bound.get(pattern) or []) + rest, 3)}\n" for pattern in first]
        self.callable.append((f"g{n}", wanted, given))
        return f"fun g{n} :: {', '.join(wanted)} -> {given} where\n" + "".join(rows)


def by_chance(seed):
    maker = Maker(Random(seed))
    made = "".join(maker.function(n) for n in range(maker.random.randint(0, 3)))
    for n in range(3):
        a = maker.random.choice(TYPES)
        made += f"fun f{n} :: -> {a} where\n    -> {maker.value(a, [], maker.random.randint(1, 5))}\n"
    return LIBRARY + made


RUN = "proc run :: | => where\n    | => -> halt\n"


def main(words):
    chance = int(words[1]) if words[0] == "--chance" else 0
    folder = words[-1]
    cases = [(f"chance {seed}", by_chance(seed)) for seed in range(chance)] if chance else list(by_hand())
    os.makedirs(f"{folder}/data", exist_ok=True)
    with open(f"{folder}/data/cases.txt", "w", encoding="utf-8") as data, open(f"{folder}/stdout", "w", encoding="utf-8") as out:
        for name, source in cases:
            source += RUN
            told = answer(source)
            assert told == "typed", (name, told, source[:2000])
            data.write(f"== {name}\n{source}")
            out.write(f"== {name}\n" + "".join(f"{line}\n" for line in lines_of(source)))


if __name__ == "__main__":
    sys.setrecursionlimit(1_000_000)
    threading.stack_size(1 << 30)
    thread = threading.Thread(target=main, args=(sys.argv[1:],))
    thread.start()
    thread.join()
