#!/usr/bin/env python3
"""The reference for processes: the first fault of a source, of any phase, or `accepted`.

    processes.py FILE            prints the answer for a source
    processes.py --answers FILE  prints the answer for each case of a file of cases, as crates/source_cases does
    processes.py --check         judges the rows worked by hand

It walks through the commands in the order in which they are written, with the channels held as a dictionary, which keeps the
order in which they came, and ends at the first fault. Which parts of a plug are joined is told by sets of parts.
"""

import os
import sys
from collections import namedtuple
from functools import cache

import trees as t
from channel_types import channel_type_of, channel_type_shown, put_in_line
from functions import Fault, Known, answer as answer_of_functions, check, counts, find, fitted, refuse, type_of
from grammar import HELLO, run, text_of
from names import HERE, PRELUDE, worked
from trees import tree_of

MOST_PARTS, MOST_BRANCHES = 64, 16
OTHER = {"input": "output", "output": "input"}

# What is done with a type on its output side, and on its input side.
DEEDS = {
    "Put": ("put", "get"),
    "Get": ("get", "put"),
    "(*)": ("fork", "split"),
    "(+)": ("split", "fork"),
    "protocol": ("hput", "hcase"),
    "coprotocol": ("hcase", "hput"),
    "TopBot": ("end", "end"),
    "Neg": ("link", "link"),
}

# The commands that take what the other side sends.
RECEIPTS = {"get": t.Get, "hcase": t.Hcase, "split": t.Split}

Channel = namedtuple("Channel", "side type")


# ---- What is declared


class World(Known):
    """What is known beside functions and data types: processes, and protocols of both kinds."""

    def __init__(self, declarations):
        super().__init__(declarations)
        self.processes, self.protocols = {}, {}
        for one in tree_of(PRELUDE) + declarations:
            if isinstance(one, t.Process):
                self.processes[one.name.name] = one
            if isinstance(one, (t.Protocol, t.Coprotocol)):
                self.protocols[one.name.name] = one

    def lines(self, a):
        """What remains after each constructor of a named type, as declared."""
        heading = self.protocols[a[1]]
        bound = dict(zip([one.name for one in heading.parameters], a[2]))
        local = heading.local.name
        return {line.name.name: put_in_line(channel_type_of(line.channel_type), local, a, bound) for line in heading.lines}

    def deed(self, channel):
        kind = channel.type[0]
        if kind == "named":
            kind = "protocol" if isinstance(self.protocols[channel.type[1]], t.Protocol) else "coprotocol"
        return DEEDS[kind][0 if channel.side == "output" else 1]


# ---- Free channels


def free_in(body):
    """The channels that a body names and that no command of its own round that place binds."""
    free = free_in_last(body.last)
    for action in reversed(body.actions):
        if isinstance(action, t.Split):
            free = free - {action.first.name, action.second.name}
        free = free | {action.channel.name}
    return free


def free_in_all(bodies):
    return set().union(*map(free_in, bodies))


def named_in(idents):
    return {one.name for one in idents}


def free_in_last(last):
    if isinstance(last, t.Halt):
        return named_in([last.channel] if last.channel else [])
    if isinstance(last, t.Case):
        return free_in_all(body for _, body in last.rows)
    if isinstance(last, t.Hcase):
        return {last.channel.name} | free_in_all(body for _, body in last.rows)
    if isinstance(last, t.Race):
        return named_in(x for x, _ in last.rows) | free_in_all(body for _, body in last.rows)
    if isinstance(last, t.Fork):
        bodies = [free_in(body) - {x.name} for x, body in (last.first, last.second)]
        return {last.channel.name}.union(*bodies)
    if isinstance(last, t.Plug):
        headers = named_in(x for part in last.parts for x in part.inputs + part.outputs)
        return (headers | free_in_all(part.body for part in last.parts)) - {link.name.name for link in last.links}
    if isinstance(last, t.Identity):
        return {last.left, last.right.name}
    return named_in(last.inputs + last.outputs)


# ---- Faults


def not_held(place, name):
    refuse("E40 NotHeld", place, "channel " + name)


def left_over(place, name):
    refuse("E41 LeftOver", place, "channel " + name)


def wrong_action(place, name, channel):
    refuse("E42 WrongAction", place, "channel %s has %s on the %s side" % (name, channel_type_shown(channel.type), channel.side))


def wrong_use(ident):
    refuse("E43 PlugUse", ident.place, "channel " + ident.name)


# ---- What a command asks of channels


def look_up(held, name, place):
    if name not in held:
        not_held(place, name)
    return held[name]


def at_deed(world, held, node, deed):
    """The channel that a command names, which is held and at this deed."""
    name = node.channel.name
    channel = look_up(held, name, node.channel.place)
    if world.deed(channel) != deed:
        wrong_action(node.place, name, channel)
    return channel


def without(held, *names):
    return {name: channel for name, channel in held.items() if name not in names}


def none_left(held, place):
    for name in held:
        left_over(place, name)


def two_new(held, first, second):
    for ident, others in ((first, set(held)), (second, {*held, first.name})):
        if ident.name in others:
            left_over(ident.place, ident.name)


# ---- Actions. Each gives the variables and the channels behind it.


def act(world, variables, held, action):
    if isinstance(action, t.Close):
        at_deed(world, held, action, "end")
        return variables, without(held, action.channel.name)
    if isinstance(action, t.Split):
        return variables, split(world, held, action)
    if isinstance(action, t.Hput):
        return variables, pick(world, held, action)
    name = action.channel.name
    channel = at_deed(world, held, action, "put" if isinstance(action, t.Put) else "get")
    _, value, rest = channel.type
    if isinstance(action, t.Put):
        check(world, variables, action.value, value)
    elif isinstance(action.binder, t.Variable):
        variables = {**variables, action.binder.name: value}
    return variables, {**held, name: channel._replace(type=rest)}


def split(world, held, action):
    side, (_, first, second) = at_deed(world, held, action, "split")
    rest = without(held, action.channel.name)
    two_new(rest, action.first, action.second)
    return {**rest, action.first.name: Channel(side, first), action.second.name: Channel(side, second)}


def pick(world, held, action):
    name = action.channel.name
    channel = at_deed(world, held, action, "hput")
    lines = world.lines(channel.type)
    if action.constructor.name not in lines:
        wrong_action(action.place, name, channel)
    return {**held, name: channel._replace(type=lines[action.constructor.name])}


# ---- Last commands


def judge_body(world, variables, held, body):
    for action in body.actions:
        variables, held = act(world, variables, held, action)
    LASTS[type(body.last)](world, variables, held, body.last)


def halt(world, variables, held, last):
    if last.channel:
        at_deed(world, held, last, "end")
        held = without(held, last.channel.name)
    none_left(held, last.place)


def hcase(world, variables, held, last):
    name = last.channel.name
    channel = at_deed(world, held, last, "hcase")
    lines, seen = world.lines(channel.type), set()
    for constructor, _ in last.rows:
        if constructor.name not in lines:
            wrong_action(constructor.place, name, channel)
        if constructor.name in seen:
            refuse("E47 CaseTwice", constructor.place, "constructor " + constructor.name)
        seen.add(constructor.name)
    for constructor in lines:
        if constructor not in seen:
            refuse("E46 CaseMissing", last.place, "constructor " + constructor)
    for constructor, body in last.rows:
        judge_body(world, variables, {**held, name: channel._replace(type=lines[constructor.name])}, body)


def fork(world, variables, held, last):
    side, (_, first, second) = at_deed(world, held, last, "fork")
    (a, left), (b, right) = last.first, last.second
    rest = without(held, last.channel.name)
    two_new(rest, a, b)
    wanted = free_in(left)
    judge_body(world, variables, {**without(rest, *(set(rest) - wanted)), a.name: Channel(side, first)}, left)
    judge_body(world, variables, {**without(rest, *wanted), b.name: Channel(side, second)}, right)


def begins_with(body, receipt, name):
    first = [*body.actions, body.last][0]
    return isinstance(first, receipt) and first.channel.name == name


def race(world, variables, held, last):
    if not 2 <= len(last.rows) <= MOST_BRANCHES:
        refuse("E48 RaceForm", last.place)
    seen = set()
    for x, body in last.rows:
        receipt = RECEIPTS.get(world.deed(look_up(held, x.name, x.place)))
        if receipt is None or x.name in seen or not begins_with(body, receipt, x.name):
            refuse("E48 RaceForm", x.place)
        seen.add(x.name)
    for _, body in last.rows:
        judge_body(world, variables, held, body)


def case(world, variables, held, last):
    bound = fitted(world, last, find(world, variables, last.value))
    for more, (_, body) in zip(bound, last.rows):
        judge_body(world, {**variables, **more}, held, body)


def identity(world, variables, held, last):
    x, y = last.left, last.right.name
    left, right = look_up(held, x, last.place), look_up(held, y, last.right.place)
    none_left(without(held, x, y), last.place)
    if last.negated:
        fits = left == Channel(right.side, ("Neg", right.type))
    else:
        fits = left == Channel(OTHER[right.side], right.type)
    if not fits or x == y:
        refuse("E49 IdentityType", last.place)


def call(world, variables, held, last):
    process = world.processes[last.name]
    counts(last.place, len(last.arguments), len(process.parameters))
    for argument, a in zip(last.arguments, process.parameters):
        check(world, variables, argument, type_of(a))
    if (len(last.inputs), len(last.outputs)) != (len(process.inputs), len(process.outputs)):
        refuse("E50 CallChannels", last.place)
    wanted = [Channel("input", channel_type_of(a)) for a in process.inputs]
    wanted += [Channel("output", channel_type_of(a)) for a in process.outputs]
    for x, channel in zip(last.inputs + last.outputs, wanted):
        if look_up(held, x.name, x.place) != channel:
            refuse("E50 CallChannels", x.place, "channel " + x.name)
        held = without(held, x.name)
    none_left(held, last.place)


# ---- A plug


def plug(world, variables, held, last):
    if not 2 <= len(last.parts) <= MOST_PARTS:
        refuse("E51 PartCount", last.place)
    links = {}
    for link in last.links:
        if link.name.name in held:
            left_over(link.name.place, link.name.name)
        if link.name.name in links:
            wrong_use(link.name)
        links[link.name.name] = channel_type_of(link.channel_type)
    uses = uses_in_headers(links, held, last.parts)
    for link in last.links:
        if len(uses[link.name.name]) < 2:
            wrong_use(link.name)
    none_left({name: channel for name, channel in held.items() if not uses[name]}, last.place)
    judge_tree(last, uses)
    for part in last.parts:
        judge_body(world, variables, share(links, held, part), part.body)


def uses_in_headers(links, held, parts):
    """For each link and each held channel the sides and parts of its uses."""
    uses = {name: [] for name in (*held, *links)}
    for number, part in enumerate(parts, 1):
        for side, idents in (("input", part.inputs), ("output", part.outputs)):
            for x in idents:
                if x.name not in uses:
                    not_held(x.place, x.name)
                before = uses[x.name]
                if x.name in held and (before or held[x.name].side != side):
                    wrong_use(x)
                if len(before) > 1 or any(side == other or number == there for other, there in before):
                    wrong_use(x)
                before.append((side, number))
    return uses


def judge_tree(last, uses):
    """No link joins parts that those before it join already, and all parts are joined."""
    groups = {number: {number} for number in range(1, len(last.parts) + 1)}
    for link in last.links:
        (_, one), (_, other) = uses[link.name.name]
        if other in groups[one]:
            refuse("E44 PlugCycle", link.name.place, "link " + link.name.name)
        joined = groups[one] | groups[other]
        groups.update((number, joined) for number in joined)
    for number, part in enumerate(last.parts, 1):
        if number not in groups[1]:
            refuse("E45 PlugApart", part.place, "part %d" % number)


def share(links, held, part):
    """What a part holds: channels from before the plug in their old order, then links as they are listed."""
    sides = {x.name: "input" for x in part.inputs} | {x.name: "output" for x in part.outputs}
    kept = {name: channel for name, channel in held.items() if name in sides}
    return kept | {name: Channel(sides[name], a) for name, a in links.items() if name in sides}


LASTS = {
    t.Halt: halt,
    t.Hcase: hcase,
    t.Fork: fork,
    t.Plug: plug,
    t.Race: race,
    t.Case: case,
    t.Identity: identity,
    t.ProcessCall: call,
}


# ---- Processes


def judge_process(world, process):
    row = process.row
    bound = [one for one in row.variables if isinstance(one, t.Variable)]
    seen = set()
    for one in bound + row.inputs + row.outputs:
        if one.name in seen:
            refuse("E34 NameTwiceInPattern", one.place, "name " + one.name)
        seen.add(one.name)
    counts(row.place, len(row.variables), len(process.parameters))
    if (len(row.inputs), len(row.outputs)) != (len(process.inputs), len(process.outputs)):
        refuse("E50 CallChannels", row.place)
    variables = {one.name: type_of(a) for one, a in zip(row.variables, process.parameters) if one in bound}
    held = {x.name: Channel("input", channel_type_of(a)) for x, a in zip(row.inputs, process.inputs)}
    held |= {x.name: Channel("output", channel_type_of(a)) for x, a in zip(row.outputs, process.outputs)}
    judge_body(world, variables, held, row.body)


@cache
def answer(text):
    """A source is judged once, though cases are counted and written."""
    earlier = answer_of_functions(text)
    if earlier != "typed":
        return earlier
    declarations = tree_of(text)
    world = World(declarations)
    try:
        for one in declarations:
            if isinstance(one, t.Process):
                judge_process(world, one)
    except Fault as fault:
        return str(fault)
    return "accepted"


# ---- Rows worked by hand

TWO_CONSOLES = """proc run :: | Console, Console => where
    | a, b => -> do
        hput ConsoleClose on a
        halt a
"""

CLOSED_TWICE = """proc run :: | Console => where
    | a => -> do
        hput ConsoleClose on a
        close a
        halt a
"""

TERMINAL = """proc run :: | => StringTerminal where
    | => t -> do
        hput StringTerminalGet on t
        put "x" on t
        halt t
"""

LEFT_AND_RIGHT = """proc p :: | TopBot (+) TopBot, TopBot => where
    | c, d => -> fork c as
        %s
        %s
proc run :: | => where
    | => -> halt
"""


def beside(name):
    return text_of(os.path.join(HERE, "../crates/typed_sources/data", name + ".campl"))


def rows_worked_by_hand():
    return [
        (HELLO, "accepted"),
        (TWO_CONSOLES, "E41 LeftOver at 4:9: channel b"),
        (CLOSED_TWICE, "E40 NotHeld at 5:14: channel a"),
        (TERMINAL, "E42 WrongAction at 4:9: channel t has Get([Char] | StringTerminal) on the output side"),
        (LEFT_AND_RIGHT % ("d -> halt d", "e -> halt e"), "E41 LeftOver at 3:9: channel d"),
        (LEFT_AND_RIGHT % ("a -> halt a", "a -> halt a"), "E41 LeftOver at 4:9: channel a"),
        (LEFT_AND_RIGHT % ("a -> halt a", "b -> halt b"), "E41 LeftOver at 4:14: channel d"),
        (beside("no_tree/shares_two_channels"), "E44 PlugCycle at 2:31: link d"),
        (beside("no_tree/leaves_a_part_apart"), "E45 PlugApart at 5:9: part 3"),
        *((worked(name), "accepted") for name in ("uses_all_commands", "bank", "ends_travel", "links_through_neg", "races_a_door")),
    ]


if __name__ == "__main__":
    sys.setrecursionlimit(1_000_000)
    run(sys.argv[1:], rows_worked_by_hand, answer)
