"""The cases for `plug`, as a name and their source.

A form says the links, the channels held and the header of each part; each body closes what its header names, so that a form is
at fault exactly where its headers are. Changes make one fault each, and each two of them meet; forms by chance follow.
"""

from copy import deepcopy
from itertools import combinations, permutations
from random import Random

from process_forms import block, do, process, source

# What is held, with its side and how it is closed.
HELD = {
    "k": ("input", "Console", ["hput ConsoleClose on k", "close k"]),
    "t": ("output", "StringTerminal", ["hput StringTerminalClose on t", "close t"]),
    "h": ("input", "TopBot", ["close h"]),
}


def body_of(inputs, outputs):
    return do(*(command for name in dict.fromkeys(inputs + outputs) for command in HELD.get(name, ("", "", ["close " + name]))[2]), "halt")


def plug_of(form):
    """The command of a form."""
    parts = []
    for number, (inputs, outputs) in enumerate(form["parts"]):
        header = "%s => %s" % (", ".join(inputs), ", ".join(outputs))
        parts.append("%s -> %s" % (header.strip(), form["bodies"].get(number) or body_of(inputs, outputs)))
    return block("plug %s of" % ", ".join("%s :: TopBot" % link for link in form["links"]), *parts)


def form_source(form):
    held = {"input": [], "output": []}
    for name, (side, a, _) in HELD.items():
        if name in form["held"]:
            held[side].append("%s :: %s" % (name, a))
    return source(process(plug_of(form), held["input"], held["output"]))


def form_of(links, parts, held=""):
    """A form from words: a part is written `k > a b`."""
    sides = [[side.split() for side in part.split(">")] for part in parts]
    return {"links": links.split(), "parts": sides, "held": held.split(), "bodies": {}}


BASE = form_of("a b c", ["k > a", "a > b", "b > c t", "c >"], "k t")


# ---- Changes, each of which makes a fault


def add(number, side, *names):
    return lambda form: form["parts"][min(number, len(form["parts"]) - 1)][side].extend(names)


def remove(number, side, name):
    def change(form):
        if len(form["parts"]) > number and name in form["parts"][number][side]:
            form["parts"][number][side].remove(name)

    return change


def link(*names):
    return lambda form: form["links"].extend(names)


def links_first(name):
    return lambda form: form["links"].insert(0, name)


def cut_to(number):
    def change(form):
        del form["parts"][number:]

    return change


def longer(form):
    while len(form["parts"]) < 65:
        form["parts"].append([[], []])


def wrong_body(number):
    return lambda form: form["bodies"].update({number: "halt w"})


def all_of(*changes):
    def change(form):
        for one in changes:
            one(form)

    return change


CHANGES = {
    "one part": cut_to(1),
    "65 parts": longer,
    "a link of a held name": links_first("t"),
    "a link twice": link("a"),
    "a name that isn't held": add(1, 0, "z"),
    "a held one on its other side": all_of(remove(0, 0, "k"), add(0, 1, "k")),
    "a held one in a second part": add(3, 0, "k"),
    "a held one twice in one part": add(2, 1, "t"),
    "a link's third use": add(3, 1, "a"),
    "a link twice on one side": all_of(remove(1, 0, "a"), add(1, 1, "a")),
    "a link twice in one part": all_of(link("d"), add(2, 0, "d"), add(2, 1, "d")),
    "a link used once": all_of(link("e"), add(1, 1, "e")),
    "a link without use": links_first("f"),
    "a held one in no part": remove(2, 1, "t"),
    "the first held in no part": remove(0, 0, "k"),
    "a cycle": all_of(links_first("g"), add(0, 1, "g"), add(2, 0, "g")),
    "two parts that share two links": all_of(link("i"), add(2, 1, "i"), add(3, 0, "i")),
    "a part apart": lambda form: form["parts"].append([[], []]),
    "the first part wrong": wrong_body(0),
    "the last part wrong": wrong_body(3),
}


def change_cases():
    yield "plug of four parts", form_source(BASE)
    for links in ("a b c a t", "t a b c a", "a t b c a", "a a t b b c"):
        yield "plug with the links " + ", ".join(links.split()), form_source({**BASE, "links": links.split()})
    for name, change in CHANGES.items():
        form = deepcopy(BASE)
        change(form)
        yield "plug with " + name, form_source(form)
    for (one, first), (two, second) in combinations(CHANGES.items(), 2):
        form = deepcopy(BASE)
        first(form)
        second(form)
        yield "plug with %s and %s" % (one, two), form_source(form)


HEADERS = {
    "two unknown names": (["z > a", "a, y >"], ""),
    "an unknown output before an unknown input of the next": (["> a z", "y a >"], ""),
    "an unknown input before an unknown output": (["z > a y", "a >"], ""),
    "an output that is also an input": (["a > a", "a >"], ""),
    "a held one on both sides": (["h > a h", "a >"], "h"),
    "a held one on both sides of two parts": (["h > a", "a > h"], "h"),
    "a held one on its other side first": (["> a h", "a h >"], "h"),
    "a held output as input": (["t > a", "a >"], "t"),
    "a held output as input, then as output": (["t > a", "a > t"], "t"),
    "a link four times": (["> a", "a >", "> a", "a >"], ""),
    "a link three times as input": (["a >", "a >", "a >"], ""),
    "a link twice in a list": (["a a >", "> a"], ""),
    "a link twice in a list of outputs": (["> a a", "a >"], ""),
    "two parts without names": (["> a", ">", ">", "a >"], ""),
    "no part first": ([">", "> a", "a >"], ""),
    "inputs alone": (["a >", "a >"], ""),
    "outputs alone": (["> a", "> a"], ""),
    "the link turned": (["a >", "> a"], ""),
    "all held in one part": (["k h > a t", "a >"], "k h t"),
    "all held in the last part": (["> a", "a h k > t"], "k h t"),
    "an unknown one behind a held one on its other side": (["> a h z", "a >"], "h"),
    "a held one on its other side behind an unknown one": (["> z h a", "a >"], "h"),
}


def header_cases():
    for name, (parts, held) in HEADERS.items():
        yield "headers with " + name, form_source(form_of("a", [part.replace(",", " ") for part in parts], held))


# ---- Trees, cycles and parts apart


def graph_form(parts, joined, turned=lambda number: False):
    """A plug of so many parts, numbered from 0, with a link for each two that are joined."""
    form = {"links": [], "parts": [[[], []] for _ in range(parts)], "held": [], "bodies": {}}
    for number, (one, other) in enumerate(joined):
        name = "l%d" % number
        form["links"].append(name)
        if turned(number):
            one, other = other, one
        form["parts"][one][1].append(name)
        form["parts"][other][0].append(name)
    return form


def chain(parts):
    return [(number, number + 1) for number in range(parts - 1)]


def shape_cases():
    for parts in (2, 3, 8, 63, 64, 65):
        yield "chain of %d parts" % parts, form_source(graph_form(parts, chain(parts)))
    yield "star of 64 parts", form_source(graph_form(64, [(0, number) for number in range(1, 64)]))
    yield "star of 64 parts round the last", form_source(graph_form(64, [(63, number) for number in range(63)], lambda number: number % 2))
    yield "tree of 64 parts", form_source(graph_form(64, [((number - 1) // 2, number) for number in range(1, 64)], lambda number: number % 3 == 0))
    yield "tree of 64 parts, its links turned", form_source(graph_form(64, [((number - 1) // 2, number) for number in range(63, 0, -1)]))
    yield "ring of 64 parts", form_source(graph_form(64, [*chain(64), (63, 0)]))
    yield "ring of 64 parts, its last link first", form_source(graph_form(64, [(63, 0), *chain(64)]))
    yield "chain of 63 parts and one apart", form_source(graph_form(64, chain(63)))
    yield "chain of 64 parts without its middle link", form_source(graph_form(64, chain(32) + [(number, number + 1) for number in range(32, 63)]))
    yield "ring of 65 parts", form_source(graph_form(65, [*chain(65), (64, 0)]))
    for parts in (3, 4, 5):
        for place in range(parts):
            joined = chain(parts)
            joined.insert(place, (parts - 1, 0))
            yield "ring of %d parts, its closing link at %d" % (parts, place), form_source(graph_form(parts, joined))
            joined = [one for one in chain(parts) if one[0] != place] or [(0, 1)]
            yield "chain of %d parts without link %d" % (parts, place), form_source(graph_form(parts, joined))


def chance_cases():
    chance = Random(44)
    for number in range(90):
        parts = chance.randint(2, 8)
        joined = [(chance.randrange(one), one) for one in range(1, parts)]
        if number % 3 == 1:
            joined.insert(chance.randrange(len(joined) + 1), tuple(chance.sample(range(parts), 2)))
        if number % 3 == 2:
            joined.remove(chance.choice(joined))
            joined += [tuple(chance.sample(range(parts), 2)) for _ in range(chance.randint(0, 2) or not joined)]
        chance.shuffle(joined)
        order = chance.sample(range(parts), parts)
        joined = [(order[one], order[other]) for one, other in joined]
        yield "parts joined by chance, %d" % number, form_source(graph_form(parts, joined, lambda _: chance.random() < 0.5))


def messy_cases():
    """Headers with up to three changes by chance."""
    chance = Random(43)
    for number in range(110):
        form = deepcopy(BASE)
        for _ in range(chance.randint(1, 3)):
            part, side = chance.choice(form["parts"]), chance.randrange(2)
            way = chance.randrange(4)
            if way == 0 and part[side]:
                part[side].remove(chance.choice(part[side]))
            elif way == 1 and part[side]:
                name = chance.choice(part[side])
                part[side].remove(name)
                chance.choice(form["parts"])[chance.choice((side, 1 - side))].append(name)
            elif way == 2:
                form["parts"].insert(chance.randrange(5), form["parts"].pop())
            else:
                part[side].insert(0, chance.choice("abcktz"))
        yield "headers changed by chance, %d" % number, form_source(form)


# ---- Plugs in plugs, and the order of what a part holds


def within(body):
    """The body stands in a part that holds `a`, `h` and `b`."""
    last = do("close b", *HELD["k"][2], "halt")
    plug = block("plug a :: TopBot, b :: TopBot of", "=> a -> halt a", "a, h => b -> " + body, "b, k => -> " + last)
    return source(process(plug, ["h :: TopBot", "k :: Console"]))


def nested_cases():
    names = {
        "x": "a new link", "a": "a link of the part", "b": "another link of the part", "h": "a channel of the part",
        "k": "a channel of another part",
    }
    for name, told in names.items():
        parts = ["h => %s -> " % name + do("close " + name, "halt h"), "%s => -> halt %s" % (name, name)]
        yield "a plug in a part that has closed its links, with " + told, within(
            do("close a", "close b", block("plug %s :: TopBot of" % name, *parts))
        )
        parts = ["h => %s -> " % name + do("close " + name, "halt h"), "a, %s => b -> " % name + do("close a", "close b", "halt " + name)]
        yield "a plug in a part, with " + told, within(block("plug %s :: TopBot of" % name, *parts))


def share_cases():
    """The first channel left is told by when it came, not by where the header names it."""
    for names in [*permutations("hba"), *permutations("ab")]:
        others = "k" if "h" in names else "k h"
        form = form_of("a b", ["%s > t" % " ".join(names), "%s > a" % others, "> b"], "k h t")
        form["bodies"][0] = "halt"
        yield "left of a part that names " + ", ".join(names), form_source(form)
    for names in permutations("hka"):
        form = form_of("a b", ["%s > t" % " ".join(names), "b > a", "> b"], "k h t")
        form["bodies"][0] = do("close h", "halt a") if names[0] == "h" else "halt"
        yield "left of a part that names all, " + ", ".join(names), form_source(form)
    for closed in combinations("khtab", 3):
        form = form_of("a b", ["k h > t b a", "a >", "b >"], "k h t")
        form["bodies"][0] = body_of(list(closed), [])
        yield "left of a part that closes " + ", ".join(closed), form_source(form)


def plug_groups():
    yield "plug", [*change_cases(), *header_cases()]
    yield "plug tree", [*shape_cases(), *chance_cases()]
    yield "plug by chance", messy_cases()
    yield "plug within", [*nested_cases(), *share_cases()]
