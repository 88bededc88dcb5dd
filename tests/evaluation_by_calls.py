"""Values, and the evaluation of expressions one call at a time: a part of the reference for runs.

An Int is an int, a Char a str of length one, a Bool a bool; every other value is a tuple (kind, depth, ...): ("nil", 1),
("cell", depth, head, tail), ("pair", depth, first, second), ("built", depth, constructor, parts). An evaluation keeps the tasks
that are left, the next one last, and the values that were found, so that it can stand before each call.
"""

import trees as t

DEPTH = 4_096
LEAST, WORD = -(2**63), 2**64
REPLACEMENT = "\ufffd"
NIL = ("nil", 1)


class TooDeep(Exception):
    """A value of a depth above DEPTH would be built."""


# ---- Values


def depth(value):
    return value[1] if isinstance(value, tuple) else 1


def made(kind, parts, *what):
    deepest = 1 + max(map(depth, parts), default=0)
    if deepest > DEPTH:
        raise TooDeep()
    return (kind, deepest, *what)


def cell(head, tail):
    return made("cell", (head, tail), head, tail)


def pair(first, second):
    return made("pair", (first, second), first, second)


def built(name, parts):
    return made("built", parts, name, tuple(parts))


def listed(items, tail=NIL):
    for item in reversed(items):
        tail = cell(item, tail)
    return tail


def items_of(value):
    items = []
    while value[0] == "cell":
        items.append(value[2])
        value = value[3]
    return items


def text_of(value):
    """The characters of a text."""
    return "".join(items_of(value))


# ---- Operators


def wrapped(n):
    return (n - LEAST) % WORD + LEAST


def divided(x, y):
    """Towards zero; 0 where y is 0."""
    if y == 0:
        return 0
    quotient = abs(x) // abs(y)
    return quotient if (x < 0) == (y < 0) else -quotient


def calculated(x, operator, y):
    if operator == "+":
        return wrapped(x + y)
    if operator == "-":
        return wrapped(x - y)
    if operator == "*":
        return wrapped(x * y)
    if operator == "div":
        return wrapped(divided(x, y))
    return x if y == 0 else wrapped(x - y * divided(x, y))


def key(value):
    """What is compared: numbers, truth values and characters by themselves, texts by their characters' numbers."""
    if isinstance(value, tuple):
        return [ord(c) for c in items_of(value)]
    return ord(value) if isinstance(value, str) else int(value)


def compared(x, operator, y):
    x, y = key(x), key(y)
    return {"==": x == y, "/=": x != y, "<": x < y, "<=": x <= y, ">": x > y, ">=": x >= y}[operator]


def character_of(n):
    return chr(n) if 0 <= n <= 0x10FFFF and not 0xD800 <= n <= 0xDFFF else REPLACEMENT


# ---- Patterns


def matched(pattern, value, names):
    """What the variables of a pattern stand for, beside `names`, or None where the value doesn't match."""
    kind = type(pattern)
    if kind is t.Wildcard:
        return names
    if kind is t.Variable:
        return {**names, pattern.name: value}
    if kind in (t.Number, t.Character, t.Truth):
        return names if value == pattern.value else None
    if kind is t.Negative:
        return names if value == -pattern.value else None
    if kind is t.Text:
        return names if text_of(value) == pattern.value else None
    if kind is t.Cons:
        return all_matched([pattern.head, pattern.tail], value[2:], names) if value[0] == "cell" else None
    if kind is t.List:
        items = items_of(value)
        return all_matched(pattern.items, items, names) if len(items) == len(pattern.items) else None
    if kind is t.Pair:
        return all_matched([pattern.first, pattern.second], value[2:], names)
    return all_matched(pattern.parts, value[3], names) if value[2] == pattern.name else None


def all_matched(patterns, values, names):
    for pattern, value in zip(patterns, values):
        names = matched(pattern, value, names)
        if names is None:
            return None
    return names


def chosen(rows, values, names):
    """The first row whose patterns match: what is behind them, and what its names stand for. Rows are (patterns, anything)."""
    for patterns, behind in rows:
        found = all_matched(patterns, values, names)
        if found is not None:
            return behind, found
    raise AssertionError("no row matches")


# ---- Evaluation


class Evaluation:
    """The evaluation of some expressions, from left to right, which stands before a call or at its end."""

    def __init__(self, functions, expressions, names):
        self.functions, self.values, self.calls = functions, [], 0
        self.tasks = [("find", one, names) for one in reversed(expressions)]
        self.broken = False
        self.go_on()

    @property
    def done(self):
        return not self.tasks and not self.broken

    def go_on(self):
        """Does all that is left before the next call."""
        try:
            while self.tasks and self.tasks[-1][0] != "call":
                what, *rest = self.tasks.pop()
                getattr(self, what)(*rest)
        except TooDeep:
            self.broken = True

    def call(self):
        """Makes the call that it stands before. The row that is chosen takes the call's place."""
        _, name, count = self.tasks.pop()
        rows = [(row.patterns, row.value) for row in self.functions[name].rows]
        value, names = chosen(rows, self.taken(count), {})
        self.tasks.append(("find", value, names))
        self.calls += 1
        self.go_on()

    def taken(self, count):
        """The last values, which are no longer there."""
        at = len(self.values) - count
        taken = self.values[at:]
        del self.values[at:]
        return taken

    # Tasks

    def apply(self, function, count):
        self.values.append(function(*self.taken(count)))

    def decide(self, stops, other, names):
        """Of `&&` and `||`: the right side, unless the left side is `stops` already."""
        if self.values[-1] is not stops:
            self.values.pop()
            self.tasks.append(("find", other, names))

    def branch(self, yes, no, names):
        self.tasks.append(("find", yes if self.values.pop() else no, names))

    def rows(self, rows, names):
        value, found = chosen([([pattern], value) for pattern, value in rows], [self.values.pop()], names)
        self.tasks.append(("find", value, found))

    def find(self, node, names):
        kind = type(node)
        if kind in (t.Number, t.Character, t.Truth):
            self.values.append(node.value)
        elif kind is t.Text:
            self.values.append(listed(node.value))
        elif kind is t.Variable:
            self.values.append(names[node.name])
        elif kind is t.If:
            self.do(("branch", node.yes, node.no, names), [node.condition], names)
        elif kind is t.CaseOf:
            self.do(("rows", node.rows, names), [node.value], names)
        elif kind in (t.And, t.Or):
            self.do(("decide", kind is t.Or, node.right, names), [node.left], names)
        elif kind is t.FunctionCall:
            self.do(("call", node.name, len(node.arguments)), node.arguments, names)
        else:
            function, parts = operation(node)
            self.do(("apply", function, len(parts)), parts, names)

    def do(self, task, parts, names):
        """The parts from left to right, and then the task."""
        self.tasks.append(task)
        self.tasks.extend(("find", one, names) for one in reversed(parts))


def operation(node):
    """What is made of the parts' values, and the parts."""
    kind = type(node)
    if kind is t.Calculate:
        return (lambda x, y: calculated(x, node.operator, y)), [node.left, node.right]
    if kind is t.Compare:
        return (lambda x, y: compared(x, node.operator, y)), [node.left, node.right]
    if kind is t.Negate:
        return (lambda x: wrapped(-x)), [node.value]
    if kind is t.CodeOf:
        return ord, [node.value]
    if kind is t.CharOf:
        return character_of, [node.value]
    if kind is t.Cons:
        return cell, [node.head, node.tail]
    if kind is t.Append:
        return (lambda x, y: listed(items_of(x), y)), [node.left, node.right]
    if kind is t.Pair:
        return pair, [node.first, node.second]
    if kind is t.List:
        return (lambda *items: listed(items)), node.items
    return (lambda *parts: built(node.name, parts)), node.parts
