"""Derivations of sequential typing: for an expression its type, and the term that shows that it has it.

A term follows `HasType` of campl_types' specs/Sequential.antt: a tuple with the types that antt can't find, `_` for those
that it can, and `refl` where both sides compute to the same. The prover judges each term, so nothing here is trusted.
"""

from dataclasses import dataclass

import trees as t
from antt_trees import plain_list, text

INT, CHAR, BOOL = t.Basic("Int"), t.Basic("Char"), t.Basic("Bool")
LETTERS = t.ListType(CHAR)

LITERALS = {t.Number: INT, t.Character: CHAR, t.Text: LETTERS, t.Truth: BOOL}

# the type of what is computed, and that of what it is computed from
OPERATIONS = {
    t.Or: (BOOL, BOOL),
    t.And: (BOOL, BOOL),
    t.Calculate: (INT, INT),
    t.Negate: (INT, INT),
    t.CodeOf: (INT, CHAR),
    t.CharOf: (CHAR, INT),
}


class Refused(Exception):
    """The source has no derivation, as far as this can tell."""


@dataclass
class World:
    """What is declared, by name."""

    data: dict  # constructors: (declaration, constructor)
    functions: dict
    protocols: dict  # by name
    processes: dict


def expect(holds, *what):
    if not holds:
        raise Refused(*what)


# Types


def same(a, b):
    """The same type, places aside."""
    match a, b:
        case t.Named(_, x, xs), t.Named(_, y, ys):
            return x == y and len(xs) == len(ys) and all(map(same, xs, ys))
        case t.TypeVariable(_, x), t.TypeVariable(_, y):
            return x == y
        case t.ListType(x), t.ListType(y):
            return same(x, y)
        case t.PairType(x, u), t.PairType(y, v):
            return same(x, y) and same(u, v)
    return a == b


def filled(fill, node):
    match node:
        case t.TypeVariable(_, name):
            return fill.get(name, node)
        case t.ListType(item):
            return t.ListType(filled(fill, item))
        case t.PairType(first, second):
            return t.PairType(filled(fill, first), filled(fill, second))
        case t.Named(at, name, arguments):
            return t.Named(at, name, [filled(fill, a) for a in arguments])
    return node


def variables_of(node):
    match node:
        case t.TypeVariable(_, name):
            return [name]
        case t.ListType(item):
            return variables_of(item)
        case t.PairType(first, second):
            return variables_of(first) + variables_of(second)
        case t.Named(_, _, arguments):
            return [x for a in arguments for x in variables_of(a)]
    return []


def matched(declared, found, fill):
    """Fills the parameters of a declared type so that it is the found one."""
    match declared, found:
        case t.TypeVariable(_, name), _:
            expect(same(fill.setdefault(name, found), found), declared, found)
        case t.ListType(x), t.ListType(y):
            matched(x, y, fill)
        case t.PairType(x, u), t.PairType(y, v):
            matched(x, y, fill)
            matched(u, v, fill)
        case t.Named(_, x, xs), t.Named(_, y, ys):
            expect(x == y and len(xs) == len(ys), declared, found)
            for a, b in zip(xs, ys):
                matched(a, b, fill)
        case _:
            expect(declared == found, declared, found)


def shown(node):
    """A type as an antt term, without places."""
    match node:
        case t.Basic(name):
            return f"s.{name}"
        case t.ListType(t.Basic("Char")):
            return "letters"
        case t.ListType(item):
            return f"(s.List {shown(item)})"
        case t.PairType(first, second):
            return f"(s.Pair {shown(first)} {shown(second)})"
        case t.TypeVariable(_, name):
            return f"(s.Variable nowhere {text(name)})"
        case t.Named(_, name, arguments):
            inner = "s.no_types"
            for a in reversed(arguments):
                inner = f"(s.type_then {shown(a)} {inner})"
            return f"(s.Named nowhere {text(name)} {inner})"
    raise ValueError(node)


# Patterns


def binds(world, pattern, kind):
    """The variables of a pattern with their types, from left to right."""
    match pattern, kind:
        case t.Wildcard(), _:
            return []
        case t.Variable(_, name), _:
            return [(name, kind)]
        case (t.Number() | t.Negative()), t.Basic("Int"):
            return []
        case t.Character(), t.Basic("Char"):
            return []
        case t.Truth(), t.Basic("Bool"):
            return []
        case t.Text(), t.ListType(t.Basic("Char")):
            return []
        case t.List(_, items), t.ListType(item):
            return [x for p in items for x in binds(world, p, item)]
        case t.Cons(_, head, tail), t.ListType(item):
            return binds(world, head, item) + binds(world, tail, kind)
        case t.Pair(_, first, second), t.PairType(a, b):
            return binds(world, first, a) + binds(world, second, b)
        case t.Constructor(_, name, parts), t.Named(_, of, arguments):
            declaration, constructor = world.data[name]
            expect(declaration.name.name == of and len(parts) == len(constructor.parts), pattern, kind)
            fill = dict(zip([p.name for p in declaration.parameters], arguments))
            return [x for p, u in zip(parts, constructor.parts) for x in binds(world, p, filled(fill, u))]
    raise Refused(pattern, kind)


# Expressions


def item_of(kind):
    expect(isinstance(kind, t.ListType), kind)
    return kind.item


class Typing:
    """Derivations in a world, under variables with their types."""

    def __init__(self, world, variables):
        self.world, self.variables = world, variables

    def under(self, bound):
        return Typing(self.world, self.variables | dict(bound))

    def check(self, node, wanted):
        """The term that shows that the expression may be checked against the type."""
        found, term = self.judge(node, wanted)
        expect(same(found, wanted), node, found, wanted)
        return term

    def find(self, node):
        """The type that the expression is found to have, and the term that shows it."""
        return self.judge(node, None)

    def either(self, node, wanted):
        return self.find(node) if wanted is None else (wanted, self.check(node, wanted))

    def judge(self, node, wanted):
        if type(node) in LITERALS:
            return LITERALS[type(node)], "refl"
        if type(node) in OPERATIONS:
            return self.operation(node)
        match node:
            case t.Variable(_, name):
                return self.variables[name], "(_, refl, refl)"
            case t.List(_, []):
                expect(wanted is not None, node)
                return wanted, f"({shown(item_of(wanted))}, refl)"
            case t.List() | t.Cons() | t.Append() | t.Pair():
                return self.joined(node, wanted)
            case t.If(_, condition, yes, no):
                return self.chosen(condition, yes, no, wanted)
            case t.CaseOf(_, value, rows):
                return self.cases(value, rows, wanted)
            case t.Compare(_, left, _, right):
                kind, term = self.find(left)
                return BOOL, f"({shown(kind)}, tt, refl, {term}, {self.check(right, kind)})"
            case t.FunctionCall(_, name, arguments):
                function = self.world.functions[name]
                kind, term = self.called(function.parameters, function.result, arguments, wanted, once_in(function))
                return kind, f"(_, refl, {term})"
            case t.Constructor(_, name, parts):
                declaration, constructor = self.world.data[name]
                names = [p.name for p in declaration.parameters]
                whole = t.Named(None, declaration.name.name, [t.TypeVariable(None, x) for x in names])
                kind, term = self.called(constructor.parts, whole, parts, wanted, names)
                return kind, f"(_, _, _, refl, {term})"
        raise ValueError(node)

    def operation(self, node):
        result, operand = OPERATIONS[type(node)]
        parts = [part for part in node[1:] if isinstance(part, tuple)]
        return result, f"(refl, {', '.join(self.check(part, operand) for part in parts)})"

    def joined(self, node, wanted):
        """A list or pair, whose parts are judged in the same way."""
        if isinstance(node, t.Pair):
            first, a = self.either(node.first, wanted and wanted.first)
            second, b = self.either(node.second, wanted and wanted.second)
            return t.PairType(first, second), f"({shown(first)}, {shown(second)}, refl, {a}, {b})"
        item = wanted and item_of(wanted)
        match node:
            case t.List(_, [first, *rest]):
                item, a = self.either(first, item)
                b = nested([self.check(other, item) for other in rest])
            case t.Cons(_, head, tail):
                item, a = self.either(head, item)
                b = self.check(tail, t.ListType(item))
            case t.Append(_, left, right):
                kind, a = self.either(left, wanted)
                item, b = item_of(kind), self.check(right, kind)
        return t.ListType(item), f"({shown(item)}, refl, {a}, {b})"

    def chosen(self, condition, yes, no, wanted):
        tested = self.check(condition, BOOL)
        kind, first = self.either(yes, wanted)
        return kind, f"({tested}, {first}, {self.check(no, kind)})"

    def cases(self, value, rows, wanted):
        scrutinee, found = self.find(value)
        terms, kind = [], wanted
        for pattern, result in rows:
            kind, term = self.under(binds(self.world, pattern, scrutinee)).either(result, kind)
            terms.append(term)
        told = "tt"
        for term in reversed(terms):
            told = f"(_, refl, refl, {term}, {told})"
        return kind, f"({shown(scrutinee)}, {found}, {told}, refl)"

    def called(self, types, result, arguments, wanted, parameters):
        """The call of what has these type parameters, with its type."""
        expect(len(types) == len(arguments), types, arguments)
        fill, known = {}, []
        if wanted is not None:
            matched(result, wanted, fill)
            known += variables_of(result)
        terms = []
        for declared, argument in zip(types, arguments):
            if all(x in known for x in variables_of(declared)):
                terms.append(self.check(argument, filled(fill, declared)))
            else:
                kind, term = self.find(argument)
                matched(declared, kind, fill)
                terms.append(term)
            known += variables_of(declared)
        expect(all(x in fill for x in parameters), parameters)
        told = plain_list([shown(fill[x]) for x in parameters])
        return filled(fill, result), f"({told}, refl, refl, {nested(terms)}, {'refl' if wanted is None else 'tt'})"


def once_in(function):
    """The type parameters of a function, each once."""
    return list(dict.fromkeys(x for kind in [*function.parameters, function.result] for x in variables_of(kind)))


def nested(terms, between=" "):
    """One term for each, in pairs that end with the unit."""
    told = "tt"
    for term in reversed(terms):
        told = f"({term},{between}{told})"
    return told


def function_term(world, function):
    """The derivation of `FunctionIsTyped`."""
    rows = []
    for row in function.rows:
        bound = [x for p, kind in zip(row.patterns, function.parameters, strict=True) for x in binds(world, p, kind)]
        rows.append(f"(_, refl, refl, {Typing(world, dict(bound)).check(row.value, function.result)})")
    told = nested(rows, "\n")
    return f"({told},\nrefl)"
