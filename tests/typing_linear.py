"""Derivations of linear typing, in the commands of typed_sources' proofs/Actions.antt and Lasts.antt.

It follows what each channel is held as: a name leads to a side, "Input" or "Output", and a type.
"""

import trees as t
from antt_trees import plain_list, text
from typing_sequential import Typing, binds, expect, filled, nested, same, shown

OTHER = {"Input": "Output", "Output": "Input"}

# what is done with a form of type on its output side; the other side does what faces it
ON_OUTPUT = {t.PutType: "puts", t.GetType: "gets", t.Tensor: "forks", t.Par: "splits", t.TopBot: "ends"}
FACING = {"puts": "gets", "gets": "puts", "forks": "splits", "splits": "forks", "picks": "offers", "offers": "picks"}


def same_chan(a, b):
    match a, b:
        case (t.PutType(x, u), t.PutType(y, v)) | (t.GetType(x, u), t.GetType(y, v)):
            return same(x, y) and same_chan(u, v)
        case (t.Tensor(x, u), t.Tensor(y, v)) | (t.Par(x, u), t.Par(y, v)):
            return same_chan(x, y) and same_chan(u, v)
        case t.Neg(x), t.Neg(y):
            return same_chan(x, y)
        case t.NamedChannel(_, x, xs), t.NamedChannel(_, y, ys):
            return x == y and all(map(same, xs, ys))
    return a == b


def at_whole(local, whole, fill, node):
    """A line's type, where the heading's own name stands for the whole."""
    match node:
        case t.PutType(value, rest):
            return t.PutType(filled(fill, value), at_whole(local, whole, fill, rest))
        case t.GetType(value, rest):
            return t.GetType(filled(fill, value), at_whole(local, whole, fill, rest))
        case t.Tensor(left, right):
            return t.Tensor(at_whole(local, whole, fill, left), at_whole(local, whole, fill, right))
        case t.Par(left, right):
            return t.Par(at_whole(local, whole, fill, left), at_whole(local, whole, fill, right))
        case t.Neg(inner):
            return t.Neg(at_whole(local, whole, fill, inner))
        case t.NamedChannel(at, name, arguments):
            return whole if name == local else t.NamedChannel(at, name, [filled(fill, a) for a in arguments])
    return node


def names_in(body):
    """The channels that a body names and doesn't bind itself."""
    names, bound = set(), set()
    for action in body.actions:
        names |= {action.channel.name} - bound
        if isinstance(action, t.Split):
            bound |= {action.first.name, action.second.name}
    return names | (names_at_end(body.last) - bound)


def names_at_end(last):
    match last:
        case t.Halt(_, channel):
            return {channel.name} if channel else set()
        case t.Hcase(_, channel, rows):
            return {channel.name}.union(*(names_in(body) for _, body in rows))
        case t.Case(_, _, rows):
            return set().union(*(names_in(body) for _, body in rows))
        case t.Race(_, rows):
            return set().union(*({x.name} | names_in(body) for x, body in rows))
        case t.Fork(_, channel, (x, left), (y, right)):
            return {channel.name} | (names_in(left) - {x.name}) | (names_in(right) - {y.name})
        case t.Plug(_, links, parts):
            heads = {x.name for part in parts for x in part.inputs + part.outputs}
            return heads - {link.name.name for link in links}
        case t.Identity(_, left, _, right):
            return {left, right.name}
        case t.ProcessCall(_, _, _, inputs, outputs):
            return {x.name for x in inputs + outputs}
    raise ValueError(last)


class Process:
    """Derivations in a world, under variables, holding these channels."""

    def __init__(self, world, variables, held):
        self.world, self.typing, self.held = world, Typing(world, variables), held

    def holding(self, held):
        return Process(self.world, self.typing.variables, held)

    def binding(self, bound):
        return Process(self.world, self.typing.variables | dict(bound), self.held)

    def turned(self, name, kind):
        """The same with another type under a name that is held."""
        return self.holding(self.held | {name: (self.held[name][0], kind)})

    def without(self, *names):
        return {x: c for x, c in self.held.items() if x not in names}

    # What may be done

    def choices(self, kind):
        """The constructors of a protocol at its arguments, with what remains."""
        declaration = self.world.protocols[kind.name]
        fill = dict(zip([p.name for p in declaration.parameters], kind.arguments))
        return {line.name.name: at_whole(declaration.local.name, kind, fill, line.channel_type) for line in declaration.lines}

    def deed(self, side, kind):
        if isinstance(kind, t.NamedChannel):
            deed = "picks" if isinstance(self.world.protocols[kind.name], t.Protocol) else "offers"
        else:
            deed = ON_OUTPUT.get(type(kind), "is linked")
        return deed if side == "Output" else FACING.get(deed, deed)

    def wanting(self, channel, deed):
        """The type of a held channel, at which this may be done."""
        expect(channel.name in self.held, "not held", channel)
        side, kind = self.held[channel.name]
        expect(self.deed(side, kind) == deed, deed, channel, side, kind)
        return kind

    def new(self, channel, first, second):
        others = self.without(channel.name)
        expect(first.name not in others and second.name not in others and first.name != second.name, first, second)

    # Bodies

    def body(self, node):
        return self.actions(node.actions, node.last)

    def actions(self, actions, last):
        if not actions:
            return self.last(last)
        action, rest = actions[0], actions[1:]
        match action:
            case t.Put(_, value, x):
                kind = self.wanting(x, "puts")
                return f"put refl refl {self.typing.check(value, kind.value)}\n({self.turned(x.name, kind.rest).actions(rest, last)})"
            case t.Get(_, binder, x):
                kind = self.wanting(x, "gets")
                then = self.turned(x.name, kind.rest).binding(binds(self.world, binder, kind.value))
                return f"get refl refl\n({then.actions(rest, last)})"
            case t.Hput(_, constructor, x):
                choices = self.choices(self.wanting(x, "picks"))
                return f"hput refl refl refl\n({self.turned(x.name, choices[constructor.name]).actions(rest, last)})"
            case t.Split(_, x, y, z):
                kind, side = self.wanting(x, "splits"), self.held[x.name][0]
                self.new(x, y, z)
                then = self.without(x.name) | {y.name: (side, kind.left), z.name: (side, kind.right)}
                return f"split refl refl (refl, refl, refl)\n({self.holding(then).actions(rest, last)})"
            case t.Close(_, x):
                self.wanting(x, "ends")
                return f"close refl refl\n({self.holding(self.without(x.name)).actions(rest, last)})"
        raise ValueError(action)

    def alone(self, *names):
        expect(not self.without(*names), "left over", self.without(*names))

    def last(self, node):
        match node:
            case t.Halt(_, None):
                self.alone()
                return "halt-alone refl"
            case t.Halt(_, x):
                self.wanting(x, "ends")
                self.alone(x.name)
                return "halt refl refl refl"
            case t.Hcase():
                return self.hcase(node)
            case t.Fork():
                return self.fork(node)
            case t.Plug():
                return self.plug(node)
            case t.Race():
                return self.race(node)
            case t.Case():
                return self.case(node)
            case t.Identity(_, x, negated, y):
                self.joined(x, negated, y)
                return "join refl refl refl (refl, refl) refl"
            case t.ProcessCall():
                return self.call(node)
        raise ValueError(node)

    def hcase(self, node):
        choices = self.choices(self.wanting(node.channel, "offers"))
        expect(sorted(choices) == sorted(name.name for name, _ in node.rows), node)
        told = "no-rows"
        for name, body in reversed(node.rows):
            told = f"(row refl\n({self.turned(node.channel.name, choices[name.name]).body(body)})\n{told})"
        return f"hcase refl refl (refl, refl)\n{told}"

    def fork(self, node):
        (y, left), (z, right) = node.first, node.second
        kind, side = self.wanting(node.channel, "forks"), self.held[node.channel.name][0]
        self.new(node.channel, y, z)
        others, wanted = self.without(node.channel.name), names_in(left) - {y.name}
        first = {x: c for x, c in others.items() if x in wanted} | {y.name: (side, kind.left)}
        second = {x: c for x, c in others.items() if x not in wanted} | {z.name: (side, kind.right)}
        keeps = plain_list([text(x) for x in others if x in wanted])
        return f"fork {keeps} refl refl (refl, refl, refl)\n({self.holding(first).body(left)})\n({self.holding(second).body(right)})"

    def plug(self, node):
        links = {link.name.name: link.channel_type for link in node.links}
        expect(len(links) == len(node.links) and not set(links) & set(self.held), node.links)
        told, used = "no-parts", []
        for part in reversed(node.parts):
            share = {x.name: self.half(links, x.name, "Input") for x in part.inputs}
            share |= {x.name: self.half(links, x.name, "Output") for x in part.outputs}
            used += [(x.name, "Input") for x in part.inputs] + [(x.name, "Output") for x in part.outputs]
            told = f"(part\n({self.holding(share).body(part.body)})\n{told})"
        wanted = [(x, side) for x in links for side in OTHER] + [(x, side) for x, (side, _) in self.held.items()]
        expect(sorted(used) == sorted(wanted), used, wanted)
        return f"plug refl refl refl\n{told}"

    def half(self, links, name, side):
        """What a header's name stands for on this side."""
        held = (side, links[name]) if name in links else self.held.get(name)
        expect(held and held[0] == side, name, side)
        return held

    def race(self, node):
        told = "no-branches"
        for _, body in reversed(node.rows):
            told = f"(branch refl\n({self.body(body)})\n{told})"
        return f"race refl refl\n{told}"

    def case(self, node):
        kind, found = self.typing.find(node.value)
        told = "no-cases"
        for pattern, body in reversed(node.rows):
            told = f"(when refl refl\n({self.binding(binds(self.world, pattern, kind)).body(body)})\n{told})"
        return f"match {shown(kind)} {found}\n{told}\nrefl"

    def joined(self, x, negated, y):
        expect(x in self.held and y.name in self.held and x != y.name, x, y)
        (side, kind), (other, facing) = self.held[x], self.held[y.name]
        expect(same_chan(kind, t.Neg(facing)) and side == other if negated else same_chan(kind, facing) and side != other, x, y)
        self.alone(x, y.name)

    def call(self, node):
        process = self.world.processes[node.name]
        arguments = [self.typing.check(a, kind) for a, kind in zip(node.arguments, process.parameters, strict=True)]
        inputs = [self.handed(x, "Input", kind) for x, kind in zip(node.inputs, process.inputs, strict=True)]
        outputs = [self.handed(x, "Output", kind) for x, kind in zip(node.outputs, process.outputs, strict=True)]
        self.alone(*(x.name for x in node.inputs + node.outputs))
        return f"call refl {nested(arguments)} {handed(inputs)} {handed(outputs)} refl refl"

    def handed(self, channel, side, kind):
        held = self.held.get(channel.name)
        expect(held and held[0] == side and same_chan(held[1], kind), channel, held, kind)
        return channel


def handed(channels):
    told = "tt"
    for _ in channels:
        told = f"(_, refl, refl, {told})"
    return told


def process_term(world, process, name):
    """The derivation of `ProcessIsTyped`."""
    row = process.row
    held = {x.name: ("Input", kind) for x, kind in zip(row.inputs, process.inputs, strict=True)}
    held |= {x.name: ("Output", kind) for x, kind in zip(row.outputs, process.outputs, strict=True)}
    bound = [x for v, kind in zip(row.variables, process.parameters, strict=True) for x in binds(world, v, kind)]
    return f"process w {name} refl refl refl refl refl\n({Process(world, dict(bound), held).body(row.body)})"
