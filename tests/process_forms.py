"""How the cases for processes are written, and accepted sources with every command on both sides, from which mutants are made."""

import re

RUN = "proc run :: | => where\n | => -> halt\n"

# What a source may use, with the names that show that it does.
DECLARED = [
    (r"Maybe|None|Just", "data Maybe(a) where\n None\n Just(a)\n"),
    (r"Stream|Item|Done", "protocol Stream(a) => S where\n Item :: Put(a | S) => S\n Done :: TopBot => S\n"),
    (r"Door|Open|Shut", "coprotocol S => Door where\n Open :: S => Get(Int | S)\n Shut :: S => TopBot\n"),
    (r"Pair|Two", "protocol Pair(a, b) => Own where\n Two :: Put(a | TopBot) (*) Get(b | Own) => Own\n"),
    (r"\badd\b", "fun add :: Int, Int -> Int where\n x, y -> x + y\n"),
]


def block(head, *rows):
    """A command with a block of rows, each further right than what it stands in."""
    return head + "".join("\n " + row.replace("\n", "\n ") for row in rows)


def names_of(held):
    return " " + ", ".join(one.split(" :: ")[0] for one in held) if held else ""


def types_of(held):
    return " " + ", ".join(one.split(" :: ")[1] for one in held) if held else ""


def process(body, inputs=(), outputs=(), variables=(), name="p"):
    """A process; what it has is written `c :: TopBot`."""
    heading = "proc %s ::%s |%s =>%s where\n" % (name, *map(types_of, (variables, inputs, outputs)))
    row = "%s |%s =>%s -> " % tuple(map(names_of, (variables, inputs, outputs)))
    return heading + " " + row.lstrip() + body.replace("\n", "\n ") + "\n"


def source(*declarations):
    """A source with what its declarations use and with a process `run`."""
    text = "".join(declarations)
    return "".join(spelled for names, spelled in DECLARED if re.search(names, text)) + text + RUN


def source_of(body, inputs=(), outputs=(), variables=()):
    return source(process(body, inputs, outputs, variables))


def do(*commands):
    return block("do", *commands)


ECHO = process(
    block(
        "hcase i of",
        "Item -> " + do("get x on i", "hput Item on o", "put x on o", "echo( | i => o)"),
        "Done -> " + do("hput Done on o", "close o", "halt i"),
    ),
    ["i :: Stream(Int)"],
    ["o :: Stream(Int)"],
    name="echo",
)

TREE_OF_FIVE = block(
    "plug a :: TopBot, b :: Put(Int | TopBot), c :: Door, d :: Stream(Int) of",
    "=> a, b -> " + do("put 1 on b", "close a", "halt b"),
    "a, k => -> " + do("hput ConsoleClose on k", "close k", "halt a"),
    "b => c -> " + do("get n on b", "close b", block("hcase c of", "Shut -> halt c", "Open -> " + do("get _ on c", "shut( | => c)"))),
    "c => d -> " + do("hput Shut on c", "close c", "hput Item on d", "put 7 on d", "hput Done on d", "halt d"),
    "d => -> " + block("hcase d of", "Done -> halt d", "Item -> " + do("get _ on d", "drain( | d => )")),
)

DRAIN = process(block("hcase d of", "Item -> " + do("get _ on d", "drain( | d => )"), "Done -> halt d"), ["d :: Stream(Int)"], name="drain")
SHUT = process(block("hcase c of", "Open -> " + do("get _ on c", "shut( | => c)"), "Shut -> halt c"), (), ["c :: Door"], name="shut")

RACE_OF_THREE = block(
    "race",
    "a -> " + do(
        "get n on a",
        "close a",
        block(
            "hcase b of",
            "Shut -> " + do("close b", "split c into p, q", "close p", "halt q"),
            "Open -> " + do("get n on b", "two( | => b, c)"),
        ),
    ),
    "b -> " + block(
        "hcase b of",
        "Open -> " + do("get x on b", "get _ on a", "close a", "two( | => b, c)"),
        "Shut -> " + do("get _ on a", "close a", "close b", "split c into p, q", "close q", "halt p"),
    ),
    "c -> " + do("split c into p, q", "close p", "close q", "get n on a", "close a", "one( | => b)"),
)

ONE = process(block("hcase b of", "Open -> " + do("get _ on b", "one( | => b)"), "Shut -> halt b"), (), ["b :: Door"], name="one")
TWO = process(do("split c into x, y", "close y", "close x", "one( | => b)"), (), ["b :: Door", "c :: TopBot (+) TopBot"], name="two")

FORKS = block(
    "fork c as",
    "a -> " + block("fork a as", "x -> " + do("put n on x", "close d", "halt x"), "y -> " + do("get _ on e", "close e", "halt y")),
    "b -> " + do("get m on b", "put m + n on f", "close b", "halt f"),
)

GOOD = {
    "sends and takes": source_of(
        do("get x on c", "put x + 1 on d", "get y on e", "put (x, y) on f", "close c", "close d", "close e", "halt f"),
        ["c :: Put(Int | TopBot)", "d :: Get(Int | TopBot)"],
        ["e :: Get(Bool | TopBot)", "f :: Put((Int, Bool) | TopBot)"],
    ),
    "picks": source_of(
        do("hput Open on c", "put 3 on c", "hput Shut on c", "close c", "hput Item on d", "put [] on d", "hput Done on d", "halt d"),
        ["c :: Door"],
        ["d :: Stream([Int])"],
    ),
    "offers": source(ECHO, SHUT),
    "splits": source_of(
        do("split c into a, b", "get x on b", "close a", "split d into e, f", "put x on f", "close b", "close f", "halt e"),
        ["c :: TopBot (*) Put(Int | TopBot)"],
        ["d :: TopBot (+) Put(Int | TopBot)"],
    ),
    "forks": source_of(
        FORKS,
        ["d :: TopBot", "f :: Get(Int | TopBot)"],
        ["c :: (Put(Int | TopBot) (*) TopBot) (*) Get(Int | TopBot)", "e :: Get(Int | TopBot)"],
        ["n :: Int"],
    ),
    "plugs": source(process(TREE_OF_FIVE, ["k :: Console"], ()), DRAIN, SHUT),
    "races": source(process(RACE_OF_THREE, ["a :: Put(Int | TopBot)"], ["b :: Door", "c :: TopBot (+) TopBot"]), ONE, TWO),
    "cases": source_of(
        block(
            "case (m, n > 1) of",
            "(None, True) -> " + do("put 'a' on c", "halt c"),
            "(Just(x), _) -> " + block("case x of", "0 -> " + do("put 'b' on c", "halt c"), "y -> " + do("put char(y + n) on c", "halt c")),
            "(_, False) -> p(n - 1, m | => c)",
        ),
        (),
        ["c :: Put(Char | TopBot)"],
        ["n :: Int", "m :: Maybe(Int)"],
    ),
    "identities": source(
        process("c |=| d", ["c :: Stream(Int)"], ["d :: Stream(Int)"], name="same"),
        process("d |=| c", ["c :: Pair(Int, Char)"], ["d :: Pair(Int, Char)"], name="turned"),
        process("c |=| neg d", ["c :: Neg(Door)", "d :: Door"], name="inner"),
        process("c |=| neg d", (), ["c :: Neg(TopBot (+) Door)", "d :: TopBot (+) Door"], name="outer"),
    ),
    "calls": source(
        process(
            do("put n on c", "close c", "close x", "put t on d", "halt d"),
            ["x :: TopBot", "d :: Get([Char] | TopBot)"],
            ["c :: Put(Int | TopBot)"],
            ["n :: Int", "t :: [Char]"],
            "q",
        ),
        process('q(add(1, 2), "a" ++ s | y, f => g)', ["f :: Get([Char] | TopBot)", "y :: TopBot"], ["g :: Put(Int | TopBot)"], ["s :: [Char]"]),
        process(block("plug z :: TopBot of", "=> z -> w( | => z)", "z => -> halt z"), name="v"),
        process("halt z", (), ["z :: TopBot"], name="w"),
    ),
    "names again": source_of(
        do(
            "split c into d, c",
            "split c into e, c",
            "get d on c",
            block("fork d as", "d -> " + do("close e", "halt d"), "f -> " + do("close f", "halt c")),
        ),
        ["c :: (TopBot (+) TopBot) (*) (TopBot (*) Put(Int | TopBot))"],
    ),
    "hands over ends": source_of(
        do(
            "hput Two on c",
            block(
                "fork c as",
                "a -> " + do("put 1 on a", "halt a"),
                "b -> " + do(
                    "get x on b",
                    "put x on k",
                    block("plug r :: Pair(Int, Char) of", "r => -> s( | r => )", "k => r, b -> t( | k => r, b)"),
                ),
            ),
        ),
        ["k :: Get(Char | TopBot)"],
        ["c :: Pair(Int, Char)"],
    ).replace(
        RUN,
        process(
            block("hcase r of", "Two -> " + do("split r into u, v", "get _ on u", "close u", "put 'x' on v", "s( | v => )")),
            ["r :: Pair(Int, Char)"],
            name="s",
        )
        + process(do("close k", "r( | => u, v)"), ["k :: TopBot"], ["u :: Pair(Int, Char)", "v :: Pair(Int, Char)"], name="t")
        + process("r( | => u, v)", (), ["u :: Pair(Int, Char)", "v :: Pair(Int, Char)"], name="r")
        + RUN,
    ),
}
