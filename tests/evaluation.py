"""Values of expressions, worked from the tree by the rules of docs/LANGUAGE.md under "Evaluation", and values by chance.

A value has its depth, its kind and its parts: ("int", 3), ("char", "a"), ("truth", True), ("nil",), ("cell",), ("pair",), ("built", k).
"""

from collections import namedtuple

import trees as t
from functions import match, put_in, type_of

MOST_DEPTH = 4096
WORD = 1 << 64
Value = namedtuple("Value", "depth kind parts")


class Stop(Exception):
    """An evaluation that gives no value: `deep`, or `more` where its calls are spent."""


# ---- Values


def constant(*kind):
    return Value(1, kind, ())


NIL = constant("nil")


def made(kind, parts):
    depth = 1 + max([part.depth for part in parts], default=0)
    if depth > MOST_DEPTH:
        raise Stop("deep")
    return Value(depth, kind, tuple(parts))


def cell(head, tail):
    return made(("cell",), (head, tail))


def pair(first, second):
    return made(("pair",), (first, second))


def built(number, parts):
    return made(("built", number), parts)


def list_of(items, end=NIL):
    for one in reversed(items):
        end = cell(one, end)
    return end


def items_of(value):
    items = []
    while value.kind == ("cell",):
        items.append(value.parts[0])
        value = value.parts[1]
    assert value == NIL
    return items


def text(characters):
    return list_of([constant("char", c) for c in characters])


def truth(value):
    return constant("truth", value)


def number(n):
    """The number, which wraps at 64 bits."""
    return constant("int", (n + WORD // 2) % WORD - WORD // 2)


def int_in(value):
    assert value.kind[0] == "int", value
    return value.kind[1]


# ---- Operators


def toward_zero(x, y):
    return abs(x) // abs(y) * (1 if (x < 0) == (y < 0) else -1)


CALCULATED = {
    "+": lambda x, y: x + y,
    "-": lambda x, y: x - y,
    "*": lambda x, y: x * y,
    "div": lambda x, y: toward_zero(x, y) if y else 0,
    "mod": lambda x, y: x - y * toward_zero(x, y) if y else x,
}
HOLDS = {
    "==": lambda x, y: x == y,
    "/=": lambda x, y: x != y,
    "<": lambda x, y: x < y,
    "<=": lambda x, y: x <= y,
    ">": lambda x, y: x > y,
    ">=": lambda x, y: x >= y,
}


def calculated(operator, v, u):
    return number(CALCULATED[operator](int_in(v), int_in(u)))


def compared(operator, v, u):
    keys = [[part.kind[1] for part in items_of(one)] if one.kind in (("nil",), ("cell",)) else one.kind[1] for one in (v, u)]
    assert type(keys[0]) is type(keys[1]), (v, u)
    return truth(HOLDS[operator](*keys))


def negated(v):
    return number(-int_in(v))


def code_of_character(v):
    assert v.kind[0] == "char", v
    return number(ord(v.kind[1]))


def character_of_code(v):
    n = int_in(v)
    return constant("char", chr(n) if 0 <= n <= 0x10FFFF and not 0xD800 <= n <= 0xDFFF else "\ufffd")


def appended(v, u):
    return list_of(items_of(v), u)


# ---- What is declared


class Declared:
    """Functions, processes, and numbers of constructors, by their names."""

    def __init__(self, declarations):
        self.functions = {one.name.name: one for one in declarations if isinstance(one, t.Function)}
        self.processes = {one.name.name: one for one in declarations if isinstance(one, t.Process)}
        self.data, self.numbers, self.siblings = {}, {}, {}
        for one in declarations:
            lines = one.constructors if isinstance(one, t.Data) else one.lines if isinstance(one, (t.Protocol, t.Coprotocol)) else []
            for n, line in enumerate(lines):
                self.numbers[line.name.name] = n
                self.siblings[line.name.name] = len(lines)
            if isinstance(one, t.Data):
                self.data[one.name.name] = one


# ---- Patterns


def bound_in(pattern):
    """The variables of a pattern, from left to right."""
    if isinstance(pattern, t.Variable):
        return [pattern.name]
    if isinstance(pattern, (t.Wildcard, t.Number, t.Negative, t.Character, t.Text, t.Truth)):
        return []
    parts = {t.List: lambda: pattern.items, t.Constructor: lambda: pattern.parts, t.Pair: lambda: [pattern.first, pattern.second], t.Cons: lambda: [pattern.head, pattern.tail]}
    return [name for part in parts[type(pattern)]() for name in bound_in(part)]


def matched(known, pattern, value):
    """What a pattern's variables stand for, in order, or None where it doesn't match."""
    if isinstance(pattern, t.Wildcard):
        return []
    if isinstance(pattern, t.Variable):
        return [value]
    if isinstance(pattern, (t.Number, t.Negative)):
        n = pattern.value if isinstance(pattern, t.Number) else -pattern.value
        return [] if value == number(n) else None
    if isinstance(pattern, t.Character):
        return [] if value == constant("char", pattern.value) else None
    if isinstance(pattern, t.Truth):
        return [] if value == truth(pattern.value) else None
    if isinstance(pattern, t.Text):
        return [] if value == text(pattern.value) else None
    if isinstance(pattern, t.List):
        items = pattern.items
        if not items:
            return [] if value == NIL else None
        return parts_matched(known, [items[0], pattern._replace(items=items[1:])], value) if value.kind == ("cell",) else None
    if isinstance(pattern, t.Cons):
        return parts_matched(known, [pattern.head, pattern.tail], value) if value.kind == ("cell",) else None
    if isinstance(pattern, t.Pair):
        return parts_matched(known, [pattern.first, pattern.second], value) if value.kind == ("pair",) else None
    return parts_matched(known, pattern.parts, value) if value.kind == ("built", known.numbers[pattern.name]) else None


def parts_matched(known, patterns, value):
    return all_matched(known, patterns, value.parts)


def all_matched(known, patterns, values):
    assert len(patterns) == len(values)
    found = []
    for pattern, value in zip(patterns, values):
        one = matched(known, pattern, value)
        if one is None:
            return None
        found += one
    return found


def first_match(known, rows, values):
    """The number of the first row that matches, and what its variables stand for."""
    for n, patterns in enumerate(rows):
        found = all_matched(known, patterns, values)
        if found is not None:
            return n, found
    raise AssertionError("no row matches")


# ---- Evaluation


class Evaluation:
    """An evaluation with so many calls."""

    def __init__(self, known, calls):
        self.known, self.calls = known, calls

    def call(self, name, arguments):
        if not self.calls:
            raise Stop("more")
        self.calls -= 1
        rows = self.known.functions[name].rows
        n, found = first_match(self.known, [row.patterns for row in rows], arguments)
        names = [x for pattern in rows[n].patterns for x in bound_in(pattern)]
        return self.value(rows[n].value, dict(zip(names, found)))

    def value(self, e, names):
        of = lambda inner: self.value(inner, names)
        if isinstance(e, t.Number):
            return number(e.value)
        if isinstance(e, t.Character):
            return constant("char", e.value)
        if isinstance(e, t.Text):
            return text(e.value)
        if isinstance(e, t.Truth):
            return truth(e.value)
        if isinstance(e, t.Variable):
            return names[e.name]
        if isinstance(e, t.List):
            return list_of([of(one) for one in e.items])
        if isinstance(e, t.Pair):
            return pair(of(e.first), of(e.second))
        if isinstance(e, t.Cons):
            return cell(of(e.head), of(e.tail))
        if isinstance(e, t.Append):
            return appended(of(e.left), of(e.right))
        if isinstance(e, t.Constructor):
            return built(self.known.numbers[e.name], [of(one) for one in e.parts])
        if isinstance(e, t.If):
            return of(e.yes if of(e.condition).kind[1] else e.no)
        if isinstance(e, t.And):
            return of(e.right) if of(e.left).kind[1] else truth(False)
        if isinstance(e, t.Or):
            return truth(True) if of(e.left).kind[1] else of(e.right)
        if isinstance(e, t.Compare):
            left = of(e.left)
            return compared(e.operator, left, of(e.right))
        if isinstance(e, t.Calculate):
            left = of(e.left)
            return calculated(e.operator, left, of(e.right))
        if isinstance(e, t.Negate):
            return negated(of(e.value))
        if isinstance(e, t.CodeOf):
            return code_of_character(of(e.value))
        if isinstance(e, t.CharOf):
            return character_of_code(of(e.value))
        if isinstance(e, t.FunctionCall):
            return self.call(e.name, [of(one) for one in e.arguments])
        assert isinstance(e, t.CaseOf), e
        n, found = first_match(self.known, [[pattern] for pattern, _ in e.rows], [of(e.value)])
        pattern, inner = e.rows[n]
        return self.value(inner, {**names, **dict(zip(bound_in(pattern), found))})


def called(known, name, arguments, calls):
    """What a function gives, with the calls that are left: a value, `deep` or `more`."""
    evaluation = Evaluation(known, calls)
    try:
        return evaluation.call(name, arguments), evaluation.calls
    except Stop as stop:
        return str(stop), evaluation.calls if str(stop) == "deep" else 0


# ---- Values by chance


class NoValue(Exception):
    """A type of which no value is found."""


def chosen(known, random, a, left):
    """A value of a type, not much deeper than `left`; a type parameter stands for `Int`."""
    if a == ("Int",) or a[0] == "variable":
        return number(random.choice([0, 1, 2, 3, -1, 10, 100, random.randint(-WORD // 2, WORD // 2 - 1)]))
    if a == ("Char",):
        return constant("char", random.choice("abz0 \n\u00e9\U0010ffff"))
    if a == ("Bool",):
        return truth(random.random() < 0.5)
    if a[0] == "pair":
        return pair(chosen(known, random, a[1], left - 1), chosen(known, random, a[2], left - 1))
    if a[0] == "list":
        return list_of([chosen(known, random, a[1], left - 1) for _ in range(random.randint(0, 3) if left > 0 else 0)])
    if left < -3:
        raise NoValue
    declared = known.data[a[1]]
    whole = ("data", a[1], tuple(("variable", one.name) for one in declared.parameters))
    bound = match(whole, a, {})
    lines = [line for line in declared.constructors if left > 0 or not line.parts] or declared.constructors
    line = random.choice(lines)
    parts = [chosen(known, random, put_in(type_of(part), bound), left - 1) for part in line.parts]
    return built(known.numbers[line.name.name], parts)


def arguments_by_chance(known, random, name):
    """Arguments for a function, or None where none are found."""
    try:
        return [chosen(known, random, type_of(a), 3) for a in known.functions[name].parameters]
    except NoValue:
        return None
