"""The cases for `fork` and `race`, as a name and their source."""

from itertools import product

from process_forms import block, do, process, source, source_of
from process_rows import CHANNELS, TYPES, table

PAIR, TWIN, RACERS = "TopBot (+) TopBot", "TopBot (*) TopBot", "Put(Int | TopBot) (*) Put(Int | TopBot)"


# ---- fork


def fork_cases():
    def make(channel, first, second):
        body = block("fork %s as" % channel, first + " -> halt " + first, second + " -> " + do("close e", "halt " + second))
        return source_of(do("close g", body), ["c :: " + PAIR, "e :: TopBot", "g :: TopBot"])

    firsts = {"new": "a", "held": "e", "its own name": "c", "a name given up": "g"}
    seconds = {"new": "b", "that of the first": "a", "held": "e", "its own name": "c"}
    yield from table("fork", make, channel=CHANNELS, first=firsts, second=seconds)
    bodies = {"right": "halt @", "wrong": "halt", "wrong in its middle": do("close @", "close @", "halt"), "wrong by the forked one": "halt c"}
    both = lambda left, right: source_of(block("fork c as", "a -> " + left.replace("@", "a"), "b -> " + right.replace("@", "b")), ["c :: " + PAIR])
    yield from table("fork", both, left=bodies, right=bodies)


# How a body uses a channel `d` beside its own `@`: the type of `d` as an input, and the body.
USES = {
    "put": ("Get(Int | TopBot)", do("put 1 on d", "close d", "halt @")),
    "get": ("Put(Int | TopBot)", do("get _ on d", "close d", "halt @")),
    "hput": ("Door", do("hput Shut on d", "close d", "halt @")),
    "split": ("TopBot (*) TopBot", do("split d into x, y", "close x", "close y", "halt @")),
    "a split into its own name": ("TopBot (*) TopBot", do("split d into d, y", "close d", "close y", "halt @")),
    "close": ("TopBot", do("close d", "halt @")),
    "halt": ("TopBot", do("close @", "halt d")),
    "hcase": ("Stream(Int)", do("close @", block("hcase d of", "Item -> " + do("get _ on d", "drain( | d => )"), "Done -> halt d"))),
    "a row of hcase": (
        "TopBot",
        block(
            "plug s :: Stream(Int) of",
            "=> s -> " + do("hput Done on s", "halt s"),
            "s, d, @ => -> " + block(
                "hcase s of",
                "Done -> " + do("close d", "close @", "halt s"),
                "Item -> " + do("close d", "close @", "get _ on s", "drain( | s => )"),
            ),
        ),
    ),
    "two rows of case": ("TopBot", block("case 1 of", "0 -> " + do("close @", "halt d"), "_ -> " + do("close d", "halt @"))),
    "the last row of case": ("TopBot", block("case 1 of", "0 -> halt @", "_ -> " + do("close d", "halt @"))),
    "fork": (PAIR, block("fork d as", "x -> " + do("close @", "halt x"), "y -> halt y")),
    "a fork into its own name": (PAIR, block("fork d as", "d -> " + do("close @", "halt d"), "y -> halt y")),
    "the header of a part": ("TopBot", block("plug l :: TopBot of", "d => l -> " + do("close d", "halt l"), "l, @ => -> " + do("close l", "halt @"))),
    "a race": ("Put(Int | TopBot)", block("race", "d -> " + do("get _ on d", "close d", "halt @"), "@ -> halt @")),
    "a call": ("TopBot", "both( | d, @ => )"),
    "a call's second": ("TopBot", "both( | @, d => )"),
    "nothing": ("TopBot", "halt @"),
}

# The same with `d` as an output.
USES_OF_OUTPUT = {
    "an identity's left side": ("TopBot", "d |=| @"),
    "an identity's right side": ("TopBot", "@ |=| d"),
    "a call's output": ("TopBot", "over( | @ => d)"),
    "a part's output": ("TopBot", block("plug l :: TopBot of", "=> d, l -> " + do("close d", "halt l"), "l, @ => -> " + do("close l", "halt @"))),
}

BOTH = process(do("close x", "halt y"), ["x :: TopBot", "y :: TopBot"], name="both")
OVER = process("x |=| y", ["x :: TopBot"], ["y :: TopBot"], name="over")
DRAIN = process(block("hcase d of", "Item -> " + do("get _ on d", "drain( | d => )"), "Done -> halt d"), ["d :: Stream(Int)"], name="drain")

# The last commands of a body whose own channel has a type.
ENDINGS = {
    "TopBot": ["halt @"],
    PAIR: [block("fork @ as", "x -> halt x", "y -> halt y")],
    TWIN: ["split @ into x, y", "close x", "halt y"],
    RACERS: ["split @ into x, y", "get _ on x", "get _ on y", "close x", "halt y"],
    "Stream(Int)": ["drain( | @ => )"],
}

# Bodies with a channel of another type, in which `d` stands or is hidden: the type and the body.
STANDING = {
    "in the rows of hcase": (
        "Stream(Int)",
        block("hcase @ of", "Done -> " + do("close d", "halt @"), "Item -> " + do("close d", "get _ on @", "drain( | @ => )")),
    ),
    "in the last row of hcase": ("Stream(Int)", block("hcase @ of", "Done -> halt @", "Item -> " + do("close d", "get _ on @", "drain( | @ => )"))),
    "in the bodies of a race": (
        RACERS,
        do(
            "split @ into x, y",
            block(
                "race",
                "x -> " + do("get _ on x", "get _ on y", "close x", "close d", "halt y"),
                "y -> " + do("get _ on y", "get _ on x", "close y", "close d", "halt x"),
            ),
        ),
    ),
    "at a row of a race alone": (RACERS, do("split @ into x, y", block("race", "d -> halt x", "x -> " + do("get _ on x", "halt x")))),
    "hidden by a split": (TWIN, do("split @ into d, x", "close d", "halt x")),
    "hidden by the second name of a split": (TWIN, do("split @ into x, d", "close x", "halt d")),
    "hidden by a split, behind a use": (TWIN, do("close d", "split @ into d, x", "close d", "halt x")),
    "hidden by a fork": (PAIR, block("fork @ as", "d -> halt d", "x -> halt x")),
    "hidden by the second name of a fork": (PAIR, block("fork @ as", "x -> halt x", "d -> halt d")),
    "hidden by a fork, and the other body names it": (PAIR, block("fork @ as", "d -> halt d", "x -> " + do("close d", "halt x"))),
    "hidden by a link": ("TopBot", block("plug d :: TopBot of", "@ => d -> " + do("close @", "halt d"), "d => -> halt d")),
    "in a header of a plug": ("TopBot", block("plug l :: TopBot of", "@, d => l -> " + do("close @", "close d", "halt l"), "l => -> halt l")),
    "in no header of a plug": ("TopBot", block("plug l :: TopBot of", "@ => l -> " + do("close @", "close d", "halt l"), "l => -> halt l")),
    "hidden by a link of an inner plug": (
        "TopBot",
        block(
            "plug l :: TopBot of",
            "@ => l -> " + block("plug d :: TopBot of", "@ => d -> " + do("close @", "halt d"), "d => l -> " + do("close d", "halt l")),
            "l => -> halt l",
        ),
    ),
}


def forked(own, d, left, right):
    """A fork into channels of one type, beside `d`, which is written `d :: TopBot` or, as an output, `=> d :: TopBot`."""
    called = "".join(one for name, one in (("drain(", DRAIN), ("both(", BOTH), ("over(", OVER)) if name in left + right)
    body = block("fork c as", "a -> " + left.replace("@", "a"), "b -> " + right.replace("@", "b"))
    forking = "c :: (%s) (+) (%s)" % (own, own)
    if d.startswith("=> "):
        return source(called, process(body, [forking], [d[3:]]))
    return source(called, process(body, [forking, d]))


def division_cases():
    uses = [(name, "d :: " + a, body) for name, (a, body) in USES.items()]
    uses += [(name, "=> d :: " + a, body) for name, (a, body) in USES_OF_OUTPUT.items()]
    for name, d, body in uses:
        yield "fork, the first body with " + name, forked("TopBot", d, body, "halt @")
        yield "fork, the second body with " + name, forked("TopBot", d, "halt @", body)
        yield "fork, both bodies with " + name, forked("TopBot", d, body, body)
        yield "fork, the first body with %s, and the second closes it" % name, forked("TopBot", d, body, do("close d", "halt @"))
    for name, (own, body) in STANDING.items():
        closing = do("close d", *ENDINGS[own])
        yield "fork, d %s, and the second closes it" % name, forked(own, "d :: TopBot", body, closing)
        yield "fork, d %s, and the second hasn't it" % name, forked(own, "d :: TopBot", body, do(*ENDINGS[own]))
        yield "fork, the first closes d, and in the second it stands %s" % name, forked(own, "d :: TopBot", closing, body)
        yield "fork, the first hasn't d, and in the second it stands %s" % name, forked(own, "d :: TopBot", do(*ENDINGS[own]), body)


def deep_fork_cases():
    """Forks in forks, with a channel that several bodies name."""
    for named in product((False, True), repeat=4):
        w, x, y, z = ("%s -> " % name + (do("close d", "halt " + name) if there else "halt " + name) for name, there in zip("wxyz", named))
        told = ", ".join(name for name, there in zip("wxyz", named) if there) or "none"
        yield "fork in both bodies, d named at " + told, forked(PAIR, "d :: TopBot", block("fork @ as", w, x), block("fork @ as", y, z))


# ---- race

# What the process holds, and rows of its race: the channel and the body.
RACING = ["a :: Put(Int | TopBot)", "c :: Put(Int | TopBot)", "e :: Get(Int | TopBot)", "f :: TopBot"]

RACED = {
    "right": ("@", do("get _ on @", "ends( | @, #, e, f => b)")),
    "not held": ("z", "halt z"),
    "not held, with its get": ("z", do("get _ on z", "halt z")),
    "at a put": ("e", do("put 1 on e", "halt e")),
    "at its end": ("f", "halt f"),
    "in an earlier row": ("a", do("get _ on a", "ends( | a, c, e, f => b)")),
    "with another command": ("@", "halt f"),
    "with a get of another": ("@", do("get _ on #", "get _ on @", "halt @")),
    "with another receipt": ("@", do("split @ into x, y", "halt x")),
    "with its get behind another command": ("@", do("close f", "get _ on @", "halt @")),
    "with a wrong body": ("@", do("get _ on @", "halt @")),
}

ENDING = process(
    do("close x", "get _ on y", "close y", "put 1 on e", "close e", "close f", "one( | => b)"),
    ["x :: TopBot", "y :: Put(Int | TopBot)", "e :: Get(Int | TopBot)", "f :: TopBot"],
    ["b :: Door"],
    name="ends",
)
ONE = process(block("hcase b of", "Open -> " + do("get _ on b", "one( | => b)"), "Shut -> halt b"), (), ["b :: Door"], name="one")


def raced(*rows):
    spelled = []
    for (channel, body), (own, other) in zip(rows, [("a", "c"), ("c", "a")]):
        spelled.append("%s -> %s" % (channel.replace("@", own), body.replace("@", own).replace("#", other)))
    return source(ENDING, ONE, process(block("race", *spelled), RACING, ["b :: Door"]))


def race_cases():
    for (one, first), (two, second) in product(RACED.items(), RACED.items()):
        yield "race, the first row %s, the second %s" % (one, two), raced(first, second)
    for one, first in RACED.items():
        yield "race of one row " + one, raced(first)


# A row of `c`, where its type is the one that the receipt takes, with all that is left of `c` and `e`.
LAST_OF_E = ["get _ on e", "close e"]
FIRST = {
    "get": do("get _ on c", *LAST_OF_E, "halt c"),
    "hcase of a stream": block("hcase c of", "Done -> " + do(*LAST_OF_E, "halt c"), "Item -> " + do(*LAST_OF_E, "get _ on c", "ends(c)")),
    "hcase of a door": block("hcase c of", "Shut -> " + do(*LAST_OF_E, "halt c"), "Open -> " + do(*LAST_OF_E, "get _ on c", "ends(c)")),
    "split": do("split c into x, y", *LAST_OF_E, "close x", "halt y"),
    "put": do("put 1 on c", *LAST_OF_E, "halt c"),
    "halt": "halt c",
}


def race_type_cases():
    """A race over `c` and `e`, of which the second row goes on with a process that has no end."""
    for a, (name, body), side in product(TYPES, FIRST.items(), ("input", "output")):
        held = (["c :: " + a], []) if side == "input" else ([], ["c :: " + a])
        call = "ends( | c => )" if side == "input" else "ends( | => c)"
        rows = ["c -> " + body.replace("ends(c)", call), "e -> " + do(*LAST_OF_E, call)]
        if name not in ("put", "halt") or a.startswith(("Get", "Put", "TopBot")):
            ends = process(call, *held, name="ends")
            yield "race by %s at %s, %s" % (name, a, side), source(ends, process(block("race", *rows), ["e :: Put(Int | TopBot)", *held[0]], held[1]))


# ---- Large races. After each receipt a channel comes back to its type by one more command.

LOOPS = "protocol Loop => S where\n Again :: Put(Int | S) => S\nprotocol Twig => S where\n Grow :: TopBot (*) S => S\n"
LARGE = {
    "get": ("Put(Int | Loop)", do("get _ on @", block("hcase @ of", "Again -> p( | # => )"))),
    "hcase": ("Loop", block("hcase @ of", "Again -> " + do("get _ on @", "p( | # => )"))),
    "split": ("TopBot (*) Twig", do("split @ into x, @", "close x", block("hcase @ of", "Grow -> p( | # => )"))),
}


def large_race(kinds, wrong=None, at=0):
    names = ["c%d" % number for number in range(len(kinds))]
    rows = ["%s -> %s" % (x, LARGE[kind][1].replace("@", x)) for x, kind in zip(names, kinds)]
    if wrong:
        rows[at] = wrong.replace("@", names[at])
    held = ["%s :: %s" % (x, LARGE[kind][0]) for x, kind in zip(names, kinds)]
    return source(LOOPS, process(block("race", *rows).replace("#", ", ".join(names)), held))


def large_race_cases():
    for kind in LARGE:
        for size in (2, 16, 17):
            yield "race of %d, each a %s" % (size, kind), large_race([kind] * size)
        yield "race of 1, a " + kind, large_race([kind])
        yield "race of 16, each a %s, the last not" % kind, large_race([kind] * 16, "@ -> p( | # => )", 15)
    mixed = (["get", "hcase", "split"] * 6)[:17]
    yield "race of 16, of all kinds", large_race(mixed[:16])
    yield "race of 17, of all kinds", large_race(mixed)
    yield "race of 16, of all kinds, the tenth that of the first", large_race(mixed[:16], "c0 -> " + LARGE["get"][1].replace("@", "c0"), 9)
    yield "race of 17, the first not held", large_race(mixed, "z -> halt z", 0)
    yield "race of 16, the last not held", large_race(mixed[:16], "z -> halt z", 15)
    yield "race of 3, the second's body wrong", large_race(mixed[:3], "@ -> " + block("hcase @ of", "Again -> p( | # => )"), 1)


def branch_groups():
    yield "fork", [*fork_cases(), *division_cases(), *deep_fork_cases()]
    yield "race", [*race_cases(), *race_type_cases()]
    yield "large race", large_race_cases()
