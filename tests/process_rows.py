"""The cases for each command but `plug`, as a name and their source.

A table has for each part of a command what may stand there, right or wrong, and a case for each choice of all parts; so each two
faults of a command meet.
"""

from itertools import product

from process_forms import RUN, block, do, process, source, source_of

VALUES = {
    "an Int": "1",
    "a Char": "'c'",
    "an empty list": "[]",
    "a call without an argument": "add(1)",
    "a comparison of pairs": "if (1, 2) == (1, 2) then 1 else 2",
    "a comparison of empty lists": "if [] == [] then 1 else 2",
    "a value without a row": "(case 1 of 0 -> 1)",
}

TYPES = [
    "Put(Int | TopBot)", "Get(Int | TopBot)", "TopBot (*) TopBot", "TopBot (+) TopBot", "Stream(Int)", "Door", "TopBot", "Neg(TopBot)",
    "Console", "StringTerminal",
]

# Types as they are told in E42.
TOLD = [
    "Put([Char] | Get((Int, Bool) | Neg(TopBot)))", "(TopBot (*) Door) (+) TopBot", "TopBot (*) (Door (+) (TopBot (*) TopBot))",
    "Neg(TopBot (*) TopBot)",
    "Stream(Maybe((Int, [Char])))", "Put(Int | TopBot (+) TopBot)", "((Put(Maybe([Int]) | (TopBot))))",
    "Get(Int | Put(Char | Stream([Bool]))) (*) Stream(Int)", "Pair(Maybe(Int), (Int, Int))",
]

# Each command on `c`, and what follows so that it is well typed where the command is.
COMMANDS = {
    "put": do("put 1 on c", "halt c"),
    "get": do("get x on c", "halt c"),
    "hput Item": do("hput Item on c", "put 1 on c", "hput Done on c", "halt c"),
    "hput Open": do("hput Open on c", "put 1 on c", "hput Shut on c", "halt c"),
    "hput ConsoleClose": do("hput ConsoleClose on c", "halt c"),
    "hput StringTerminalClose": do("hput StringTerminalClose on c", "halt c"),
    "split": do("split c into a, b", "close b", "halt a"),
    "fork": block("fork c as", "a -> halt a", "b -> halt b"),
    "close": do("close c", "halt"),
    "halt": "halt c",
    "hcase of a stream": block("hcase c of", "Done -> halt c", "Item -> " + do("get x on c", "p( | c => )")),
    "hcase of a door": block("hcase c of", "Shut -> halt c", "Open -> " + do("get x on c", "p( | => c)")),
}

ENDS = {"get": "Put(Int | TopBot)", "hcase": "Stream(Int)", "split": "TopBot (*) TopBot"}


def table(name, make, **parts):
    """A case for each choice of all parts, each a dictionary from how it is told to what it is."""
    for picked in product(*(part.items() for part in parts.values())):
        told = ["%s %s" % (part, what) if part else what for part, (what, _) in zip(parts, picked)]
        yield name + " with " + ", ".join(told), make(*(value for _, value in picked))


# ---- Every command at every type


def type_cases():
    for a in TYPES:
        for side in ("input", "output"):
            held = ["c :: " + a]
            for name, body in COMMANDS.items():
                yield "%s at %s, %s" % (name, a, side), source_of(body, *((held, []) if side == "input" else ([], held)))
    for a in TOLD:
        yield "close at %s" % a, source_of(do("close c", "halt"), ["c :: " + a])
        yield "get and halt at %s" % a, source_of(do("get _ on c", "halt c"), [], ["c :: Get(Int | %s)" % a])


# ---- Actions


CHANNELS = {"held": "c", "never held": "z", "given up": "g", "of another type": "e"}


def action(command):
    return lambda channel, *rest: source_of(
        do("close g", command(channel, *rest), "close e", "halt c"),
        ["c :: Get(Int | TopBot)", "e :: TopBot", "g :: TopBot"],
    )


def put_cases():
    yield from table("put", action("put {1} on {0}".format), channel=CHANNELS, value=VALUES)


def get_cases():
    def make(channel, binder, value):
        return source_of(
            do("close g", "get %s on %s" % (binder, channel), "put %s on d" % value, "close e", "close c", "halt d"),
            ["c :: Put(Int | TopBot)", "e :: TopBot", "g :: TopBot"],
            ["d :: Put(Int | TopBot)"],
            ["n :: Char"],
        )

    values = {"the new one": "n + 0", "a Char": "'c'", "the old one": "code(n)"}
    yield from table("get", make, channel=CHANNELS, binder={"n": "n", "nothing": "_"}, value=values)


def hput_cases():
    def make(channel, constructor):
        return source_of(
            do("close g", "hput %s on %s" % (constructor, channel), "close e", "halt c"),
            ["e :: TopBot", "g :: TopBot"],
            ["c :: Stream(Int)"],
        )

    constructors = {
        "of the type": "Done", "of the type, not yet at its end": "Item", "of another protocol": "StringTerminalClose",
        "of a coprotocol": "Shut",
    }
    yield from table("hput", make, channel=CHANNELS, constructor=constructors)


def split_cases():
    def make(channel, first, second):
        return source_of(
            do("close g", "split %s into %s, %s" % (channel, first, second), "close " + first, "close e", "halt " + second),
            ["c :: TopBot (*) TopBot", "e :: TopBot", "g :: TopBot"],
        )

    firsts = {"new": "a", "held": "e", "its own name": "c", "a name given up": "g"}
    seconds = {"new": "b", "that of the first": "a", "held": "e", "its own name": "c"}
    yield from table("split", make, channel=CHANNELS, first=firsts, second=seconds)


# ---- Ends: halt, identity, calls


LEFT = {
    "nothing left": ([], []),
    "an input left": (["l :: Console"], []),
    "an output left": ([], ["m :: TopBot"]),
    "two left": (["l :: Console"], ["m :: TopBot"]),
}


def halt_cases():
    def make(command, left):
        inputs, outputs = left
        return source_of(do("close g", command), [*inputs, "g :: TopBot", "c :: TopBot"], [*outputs, "e :: Put(Int | TopBot)"])

    def alone(command, left):
        inputs, outputs = left
        return source_of(command, inputs, [*outputs, "c :: TopBot"])

    commands = {"halt": "halt", **{"halt of one " + told: "halt " + x for told, x in CHANNELS.items()}}
    yield from table("", make, **{"": commands, "and": LEFT})
    yield from table("one channel,", alone, **{"": {"halt": "halt", "halt of it": "halt c", "halt of none": "halt z"}, "and": LEFT})


IDENTITIES = {
    "one type, both sides": (["c :: Door"], ["d :: Door"]),
    "one type, one side": (["c :: Door", "d :: Door"], []),
    "two types, both sides": (["c :: Stream(Int)"], ["d :: Stream(Char)"]),
    "two types, one side": ([], ["c :: TopBot", "d :: Put(Int | TopBot)"]),
    "Neg and its type, one side": (["c :: Neg(Door)", "d :: Door"], []),
    "Neg and its type, outputs": ([], ["d :: TopBot (+) Door", "c :: Neg(TopBot (+) Door)"]),
    "Neg and its type, both sides": (["c :: Neg(Door)"], ["d :: Door"]),
    "a type and its Neg": (["c :: Door", "d :: Neg(Door)"], []),
    "Neg and Neg, both sides": (["c :: Neg(Door)"], ["d :: Neg(Door)"]),
    "Neg of Neg and Neg": ([], ["c :: Neg(Neg(Door))", "d :: Neg(Door)"]),
    "Neg of another type": (["c :: Neg(Door)", "d :: Console"], []),
    "types that differ inside": (["c :: Pair(Int, [Char])"], ["d :: Pair(Int, Char)"]),
    "types with parentheses": (["c :: ((Put((Int) | (TopBot))))"], ["d :: Put(Int | TopBot)"]),
}


def identity_cases():
    def make(types, words):
        return source_of(words, *types)

    def names(x, y, left, negated):
        inputs, outputs = left
        return source_of("%s |=| %s%s" % (x, negated, y), ["c :: Door", *inputs], [*outputs, "d :: Door"])

    spelled = {"straight": "c |=| d", "by neg": "c |=| neg d", "turned": "d |=| c", "turned and by neg": "d |=| neg c"}
    yield from table("identity of", make, **{"": IDENTITIES, "and": spelled})
    firsts, seconds = {"held": "c", "not held": "z"}, {"held": "d", "not held": "y", "the same": "c"}
    yield from table("identity", names, first=firsts, second=seconds, **{"and": LEFT, "": {"straight": "", "by neg": "neg "}})
    yield "identity of one that isn't held twice", source_of("z |=| z", ["c :: Door"])
    yield "identity of a closed one", source_of(do("close c", "c |=| d"), ["c :: TopBot"], ["d :: TopBot"])


CALLED = process(do("close a", "close b", "halt c"), ["a :: TopBot", "b :: TopBot"], ["c :: TopBot"], ["n :: Int", "t :: [Char]"], "q")

HANDED = {"right": "xy", "not held": "z", "of the other side": "o", "of another type": "k", "given up": "g"}


def call_of(words, left=([], [])):
    inputs = ["x :: TopBot", "y :: TopBot", *left[0]]
    return source(
        CALLED,
        process(do("close g", words), [*inputs, "k :: Stream(Int)", "g :: TopBot"], ["w :: TopBot", *left[1], "o :: TopBot"], [], "p"),
    )


def small_call(words, left=([], [])):
    return source(CALLED, process(words, ["x :: TopBot", "y :: TopBot", *left[0]], ["w :: TopBot", *left[1]], [], "p"))


def call_cases():
    arguments = {
        "right": '1, "t"',
        "one": "1",
        "none": "",
        "three": "1, 2, 3",
        "a Char first": "'c', 1",
        "a Char last": "1, 'c'",
        "a call last": '1, add(1, 2)',
        "[] first": "[], add(1)",
    }
    channels = {
        "right": "x, y => w", "an input less": "x => w", "an input more": "x, y, z => w", "no output": "x, y => ", "one moved": "x => y, w",
        "not held": "x, z => w", "turned": "y, x => w",
    }
    yield from table("call", lambda a, c: small_call("q(%s | %s)" % (a, c)), arguments=arguments, channels=channels)
    for (one, first), (two, second) in product(HANDED.items(), HANDED.items()):
        words = "q(1, [] | %s, %s => w)" % (first.replace("xy", "x"), second.replace("xy", "y"))
        yield "call with the first input %s and the second %s" % (one, two), call_of(words)
    for (one, first), (two, last) in product(HANDED.items(), {**HANDED, "an input": "y"}.items()):
        words = "q(1, [] | x, %s => %s)" % (first.replace("xy", "y"), last.replace("xy", "w").replace("o", "x"))
        yield "call with an input %s and the output %s" % (one, two), call_of(words)
    twice = {
        "an input twice": "x, x => w", "an input as output": "x, y => x", "in order": "x, y => w", "one of another side": "w, y => x",
        "an unknown one twice": "z, z => z",
    }
    yield from table("call", lambda c, left: small_call("q(1, [] | %s)" % c, left), **{"": twice, "and": LEFT})
    other = process("halt x", ["x :: TopBot"], [], [], "q")
    yield "call without arguments", source(other, process("q( | x => )", ["x :: TopBot"]))
    yield "call with an argument for none", source(other, process("q(1 | x => )", ["x :: TopBot"]))
    yield "call of itself with another type", source_of("p('c' | => )", [], [], ["n :: Int"])


# ---- hcase


OFFERED = {
    "in order": ["Item", "Done"],
    "turned": ["Done", "Item"],
    "the first missing": ["Done"],
    "the last missing": ["Item"],
    "one twice": ["Item", "Done", "Item"],
    "one twice, one missing": ["Done", "Done"],
    "a foreign one first": ["Open", "Item", "Done"],
    "a foreign one last": ["Item", "Done", "Open"],
    "a foreign one alone": ["Shut"],
    "one twice before a foreign one": ["Done", "Done", "Open"],
    "a foreign one before one twice": ["Open", "Done", "Done"],
    "a foreign one twice": ["Open", "Open"],
}

OFFER_BODIES = {
    "right": {"Item": do("get x on c", "p( | c => )"), "Done": "halt c"},
    "wrong at Item": {"Item": "halt", "Done": "halt c"},
    "wrong at both": {"Item": "halt c", "Done": "halt"},
}


def letters(name, constructors):
    """A protocol whose constructors have a letter each."""
    return "protocol %s => S where\n" % name + "".join(" %s :: TopBot => S\n" % one for one in constructors)


def hcase_cases():
    def make(channel, rows, bodies):
        spelled = [row + " -> " + bodies.get(row, "halt c") for row in rows]
        return source_of(block("hcase %s of" % channel, *spelled), ["c :: Stream(Int)"])

    yield from table("hcase", make, channel={"held": "c", "not held": "z"}, rows=OFFERED, bodies=OFFER_BODIES)
    for side in ("input", "output"):
        for name, rows in OFFERED.items():
            held = ["c :: Door"], []
            text = source_of(block("hcase c of", *(row + " -> halt c" for row in rows)), *(held if side == "input" else held[::-1]))
            yield "hcase of a door as %s, %s" % (side, name), text
    for first, second in product("ABCD", "ABCD"):
        rows = [one + " -> halt c" for one in "A" + first + second]
        yield "hcase of three with A, %s and %s" % (first, second), source(
            letters("Three", "ABC"),
            letters("Other", "D"),
            process(block("hcase c of", *rows), ["c :: Three"]),
        )
    for rows in ("A", "B", "C", "AB", "CB", "CA"):
        text = source(letters("Three", "ABC"), process(block("hcase c of", *(one + " -> halt c" for one in rows)), ["c :: Three"]))
        yield "hcase of three with %s alone" % rows, text
    left = [row + " -> " + body for row, body in OFFER_BODIES["right"].items()]
    yield "hcase with another channel left in each row", source_of(block("hcase c of", *left[::-1]), ["c :: Stream(Int)", "d :: TopBot"])
    yield "hcase with another channel for each row", source_of(
        block("hcase c of", "Done -> " + do("close d", "halt c"), "Item -> halt d"),
        ["c :: Stream(Int)", "d :: TopBot"],
    )
    seven = letters("Week", "ABCDEFG")
    for day in "ABCDEFG":
        rows = [one + " -> halt c" for one in "GFEDCBA" if one != day]
        yield "hcase without %s of seven" % day, source(seven, process(block("hcase c of", *rows), ["c :: Week"]))


# ---- case


SCRUTINEES = {"Int": "n", "[]": "[]", "a sum with a Char": "n + 'c'", "a Bool": "n > 0"}
PATTERNS = {
    "all": ["0", "x"],
    "not all": ["0", "1"],
    "a Char last": ["x", "'c'"],
    "a Char first, not all": ["'c'", "0"],
    "a name twice": ["_", "[x, x]"],
    "a constructor with too many parts": ["0", "Just(1, 2)"],
    "Bools": ["True", "False"],
}


MISSING = [
    ("n > 0", ["True"]),
    ("[n]", ["[]", "[_]"]),
    ("[n]", ["x : y : z", "[]"]),
    ("(n, 'c')", ["(0, _)", "(_, 'c')"]),
    ("Just(n)", ["Just(0)", "None"]),
    ("Just(n > 0)", ["None", "Just(True)"]),
    ('"text"', ['"text"', '""']),
    ("(n == 0, n > 0)", ["(True, x)", "(_, True)"]),
    ("(n == 0, n > 0)", ["(True, x)", "(_, True)", "(False, False)"]),
    ("Just([n])", ["None", "Just([])", "Just([x, y])"]),
]


def case_cases():
    def make(value, patterns, bodies):
        return source_of(block("case %s of" % value, *map(" -> ".join, zip(patterns, bodies))), ["c :: TopBot", "d :: TopBot"], [], ["n :: Int"])

    right = do("close c", "halt d")
    bodies = {"right": [right, right], "with the first wrong": ["halt c", "halt e"], "with the last wrong": [right, "halt d"]}
    yield from table("case", make, **{"of": SCRUTINEES, "with": PATTERNS, "bodies": bodies})
    for value, patterns in MISSING:
        yield "case of %s with %s" % (value, ", ".join(patterns)), source_of(
            block("case %s of" % value, *(one + " -> halt c" for one in patterns)),
            ["c :: TopBot"],
            [],
            ["n :: Int"],
        )
    using = block("case (n, 'c') of", "(0, x) -> " + do("put x on c", "halt c"), "(x, _) -> " + do("put x on c", "halt c"))
    hiding = block("case 'c' of", "n -> " + do("put n on c", "halt c"))
    yield "case with a variable that hides another", source_of(hiding, [], ["c :: Put(Char | TopBot)"], ["n :: Int"])
    yield "case with a variable that hides another, used as that", source_of(hiding, [], ["c :: Put(Int | TopBot)"], ["n :: Int"])
    yield "case with a variable of two types", source_of(using, [], ["c :: Put(Char | TopBot)"], ["n :: Int"])


# ---- Rows of processes, and several declarations


def row_cases():
    def make(variables, inputs, outputs):
        row = ("%s |%s =>%s -> " % (variables, inputs, outputs)).lstrip()
        body = do("close a", "close b", "halt c").replace("\n", "\n ")
        return "proc p :: Int, Char | TopBot, TopBot => TopBot where\n " + row + body + "\n" + RUN

    variables = {
        "right": "x, y", "one": "x", "none": "", "three": "x, y, z", "one twice": "x, x", "_ twice": "_, _",
        "_, and one of a channel": "_, a",
    }
    inputs = {"right": " a, b", "one": " a", "none": "", "three": " a, b, d", "one twice": " a, a", "one of a variable": " x, b"}
    outputs = {"right": " c", "none": "", "two": " c, d", "one of an input": " b"}
    yield from table("row", make, variables=variables, inputs=inputs, outputs=outputs)


def order_cases():
    wrong = {"E41": "halt", "E40": "halt d", "E30": do("put 'c' on c", "halt c"), "E42": "halt c"}
    for (one, first), (two, second) in product(wrong.items(), wrong.items()):
        held = ["c :: Get(Int | TopBot)"]
        yield "%s before %s" % (one, two), source(process(first, held, name="p"), process(second, held, name="q"))
        if one != two:
            yield "%s before %s in one body" % (one, two), source_of(block("case n of", "0 -> " + first, "_ -> " + second), held, [], ["n :: Int"])
    bad = process("halt", ["c :: TopBot"])
    yield "a process before a function", source(bad, "fun f :: Int -> Int where\n _ -> 'c'\n")
    yield "a process before a function's missing row", source(bad, "fun f :: Int -> Int where\n 0 -> 1\n")
    services = do("hput ConsoleClose on c", "hput StringTerminalPut on t", "halt c")
    yield "run itself", process(services, ["c :: Console"], ["t :: StringTerminal"], name="run")
    yield "run before another", RUN.replace("-> halt", "-> halt c") + bad


# ---- What is left, in the order of what is held


LEFT_BEHIND = {
    "get": do("get _ on b", "halt"),
    "split of the first": do("split a into x, y", "halt"),
    "split and the rest closed": do("split a into x, y", "get _ on b", "close b", "close c", "halt"),
    "split, one of two closed": do("split a into x, y", "get _ on b", "close b", "close c", "halt x"),
    "split, the names turned": do("split a into y, x", "get _ on b", "close b", "halt c"),
    "split into its own name": do("split a into x, a", "get _ on b", "close b", "halt c"),
    "an identity": "a |=| c",
    "a call": "q( | c => )",
    "a call with the first": "q( | a => )",
    "a case": block("case 1 of", "_ -> halt c"),
}

# The first channel keeps its place, whatever becomes of its type.
CHANGING = {
    "put": ("Get(Int | TopBot)", ["put 1 on a"]),
    "get": ("Put(Int | TopBot)", ["get _ on a"]),
    "hput": ("Door", ["hput Open on a"]),
    "hput and put": ("Door", ["hput Open on a", "put 1 on a"]),
}


def left_cases():
    for name, body in LEFT_BEHIND.items():
        called = process("halt c", ["c :: TopBot"], [], [], "q") if "q(" in body else ""
        text = source(process(body, ["a :: TopBot (*) TopBot", "b :: Put(Int | TopBot)"], ["c :: TopBot"]), called)
        yield "left behind " + name, text
    for name, (a, actions) in CHANGING.items():
        yield "left behind %s on the first" % name, source_of(do(*actions, "halt"), ["a :: " + a, "b :: TopBot"], ["c :: TopBot"])
        yield "left behind %s on the last" % name, source_of(do(*actions, "halt b"), ["b :: TopBot", "c :: TopBot", "a :: " + a])
    offering = block("hcase a of", "Done -> halt b", "Item -> halt")
    yield "left in a row of hcase", source_of(offering, ["a :: Stream(Int)", "b :: TopBot"], ["c :: TopBot"])


def row_groups():
    """All of this file, by what is judged."""
    yield "type", type_cases()
    yield "action", [*put_cases(), *get_cases(), *hput_cases(), *split_cases()]
    yield "end", [*halt_cases(), *identity_cases(), *call_cases()]
    yield "rows", [*hcase_cases(), *case_cases()]
    yield "row", row_cases()
    yield "order", [*order_cases(), *left_cases()]
