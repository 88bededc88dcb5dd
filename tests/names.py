#!/usr/bin/env python3
"""The reference for names: the first fault of a source, of any phase up to names, or `well declared`.

    names.py FILE            prints the answer for a source
    names.py --answers FILE  prints the answer for each case of a file of cases, as crates/source_cases does
    names.py --check         judges the rows worked by hand

It collects what a source declares, in any order, and every use of a name with what its place wants and what is known there.
Each declaration and each use is judged by itself, and the first of all faults is that of the least phase, and then of the
least place.
"""

import os
import sys
from collections import namedtuple

import trees
from grammar import HELLO, answer as answer_of_grammar, run, text_of
from trees import Coprotocol, Data, Function, Process, Protocol, tree_of

HERE = os.path.dirname(os.path.abspath(__file__))
MOST_CHANNELS = 16
START = (1, 1)

PRELUDE = """coprotocol S => Console where
    ConsolePut :: S => Get([Char] | S)
    ConsoleGet :: S => Put([Char] | S)
    ConsoleClose :: S => TopBot
protocol StringTerminal => S where
    StringTerminalGet :: Get([Char] | S) => S
    StringTerminalPut :: Put([Char] | S) => S
    StringTerminalClose :: TopBot => S
"""

# A fault; of one phase the first by place and then by rank is the first in the order of judging.
Fault = namedtuple("Fault", "phase place rank text")
TWICE, USE, RUN, SERVICE = range(4)

# A declared name: kind is data, protocol, coprotocol, function, process or parameter, or that of the declaration whose
# constructor it is; arguments is how many a named type takes.
Declared = namedtuple("Declared", "space kind name place arguments")

# A use: the space where its name is looked up, the kinds that its place wants, and the number of arguments of a named type.
Use = namedtuple("Use", "space kinds name place arguments")

# What is known at a place beside declared names: variables, type variables, and the name behind or before the `=>` of a
# protocol's heading.
Scope = namedtuple("Scope", "variables types local")

CHANNEL_KINDS = {"protocol", "coprotocol"}


# ---- Declared names


def declared_of(declaration):
    """The names that a declaration declares. Its parameters have a space of their own, named by the heading's place."""
    kind, name = type(declaration).__name__.lower(), declaration.name
    if isinstance(declaration, (Function, Process)):
        return [Declared("callables", kind, name.name, name.place, None)]
    lines = declaration.constructors if isinstance(declaration, Data) else declaration.lines
    return (
        [Declared("types", kind, name.name, name.place, len(declaration.parameters))]
        + [Declared(name.place, "parameter", one.name, one.place, None) for one in declaration.parameters]
        + [Declared("constructors", kind, line.name.name, line.name.place, None) for line in lines]
    )


def all_declared(declarations):
    return [declared for declaration in declarations for declared in declared_of(declaration)]


PRELUDE_NAMES = [one._replace(place=START) for one in all_declared(tree_of(PRELUDE))]


def twice(names):
    """A fault for each name that stands in its space already, in the prelude or before it."""
    seen = {(name.space, name.name) for name in PRELUDE_NAMES}
    for name in sorted(names, key=lambda name: name.place):
        if (name.space, name.name) in seen:
            yield Fault(TWICE, name.place, 0, "E20 Twice at %d:%d: name %s" % (*name.place, name.name))
        seen.add((name.space, name.name))


# ---- Uses, and what is known where they stand


def variables_in(pattern):
    """The variables of a pattern, or of several."""
    if isinstance(pattern, trees.Variable):
        return {pattern.name}
    if isinstance(pattern, (tuple, list)):
        return set().union(*map(variables_in, pattern))
    return set()


def type_variables_in(node):
    if isinstance(node, trees.TypeVariable):
        return {node.name}
    if isinstance(node, (tuple, list)):
        return set().union(*map(type_variables_in, node))
    return set()


def names_of(idents):
    return {ident.name for ident in idents}


def knowing(scope, variables):
    return scope._replace(variables=scope.variables | variables)


def within(scope, children):
    return [(child, scope) for child in children]


def scope_of_lines(declaration):
    """What is known in the lines of a data type, protocol or coprotocol."""
    local = None if isinstance(declaration, Data) else declaration.local.name
    return Scope(set(), names_of(declaration.parameters), local)


def children_of_body(body, scope):
    """A variable of `get` is known from its own binder on."""
    for action in body.actions:
        if isinstance(action, trees.Get):
            scope = knowing(scope, variables_in(action.binder))
        yield action, scope
    yield body.last, scope


def children(node, scope):
    """The parts of a node, each with the scope in which it stands.

    A pattern stands in the scope that it makes, where its own variables are known; so all that is found there is a use.
    """
    if isinstance(node, Data):
        return within(scope_of_lines(node), node.constructors)
    if isinstance(node, (Protocol, Coprotocol)):
        return within(scope_of_lines(node), node.lines)
    if isinstance(node, Function):
        return within(scope._replace(types=type_variables_in((node.parameters, node.result))), node)
    if isinstance(node, trees.Row):
        return within(knowing(scope, variables_in(node.patterns)), node)
    if isinstance(node, trees.ProcessRow):
        return within(knowing(scope, variables_in(node.variables)), node)
    if isinstance(node, (trees.CaseOf, trees.Case)):
        return [(node.value, scope)] + [(row, knowing(scope, variables_in(row[0]))) for row in node.rows]
    if isinstance(node, trees.Body):
        return children_of_body(node, scope)
    return within(scope, node) if isinstance(node, (tuple, list)) else []


def named(space, kinds, node, arguments=None):
    return Use(space, kinds, node.name, node.place, arguments)


def uses_at(node):
    """The uses that stand right in a node, apart from its parts."""
    if isinstance(node, trees.Named):
        return [named("types", {"data"}, node, len(node.arguments))]
    if isinstance(node, trees.NamedChannel):
        return [named("types", CHANNEL_KINDS, node, len(node.arguments))]
    if isinstance(node, trees.TypeVariable):
        return [named("type variables", set(), node)]
    if isinstance(node, (trees.ProtocolLine, trees.CoprotocolLine)):
        return [named("locals", set(), node.local)]
    if isinstance(node, trees.Constructor):
        return [named("constructors", {"data"}, node)]
    if isinstance(node, trees.Hput):
        return [named("constructors", CHANNEL_KINDS, node.constructor)]
    if isinstance(node, trees.Hcase):
        return [named("constructors", CHANNEL_KINDS, constructor) for constructor, _ in node.rows]
    if isinstance(node, trees.Variable):
        return [named("variables", set(), node)]
    if isinstance(node, trees.FunctionCall):
        return [named("callables", {"function"}, node)]
    if isinstance(node, trees.ProcessCall):
        return [named("callables", {"process"}, node)]
    return []


def uses(node, scope):
    """Every use in a node, each with its scope."""
    for use in uses_at(node):
        yield use, scope
    for child, inner in children(node, scope):
        yield from uses(child, inner)


# ---- Faults


def fault(rank, text, use, detail):
    return Fault(USE, use.place, rank, "%s at %d:%d: %s" % (text, *use.place, detail))


def unknown(use):
    return fault(0, "E21 Unknown", use, "name " + use.name)


def wrong_kind(use):
    return fault(0, "E22 WrongKind", use, "name " + use.name)


def type_arguments(use, wanted):
    return fault(1, "E25 TypeArguments", use, "found %d, wanted %d" % (use.arguments, wanted))


def faults_of_local(use):
    """Of the name of a protocol's heading, which stands within its lines for the protocol."""
    if use.kinds != CHANNEL_KINDS:
        yield wrong_kind(use)
    elif use.arguments != 0:
        yield type_arguments(use, 0)


def faults_of_declared(use, known):
    declared = known.get((use.space, use.name))
    if declared is None:
        yield unknown(use)
        return
    if declared.kind not in use.kinds:
        yield wrong_kind(use)
    if declared.arguments is not None and declared.arguments != use.arguments:
        yield type_arguments(use, declared.arguments)


def faults_of_use(use, scope, known):
    if use.space == "locals":
        return [] if use.name == scope.local else [wrong_kind(use)]
    if use.space == "variables":
        return [] if use.name in scope.variables else [unknown(use)]
    if use.space == "type variables":
        return [] if use.name in scope.types else [unknown(use)]
    if use.space == "types" and use.name == scope.local:
        return faults_of_local(use)
    return faults_of_declared(use, known)


def is_service(channel_type, name):
    return isinstance(channel_type, trees.NamedChannel) and channel_type.name == name


def is_startable(run):
    """Whether a program can begin with this process, by its heading alone."""
    return (
        not run.parameters
        and all(is_service(one, "Console") for one in run.inputs)
        and all(is_service(one, "StringTerminal") for one in run.outputs)
        and len(run.inputs) + len(run.outputs) <= MOST_CHANNELS
    )


def faults_of_run(declarations):
    runs = [one for one in declarations if isinstance(one, Process) and one.name.name == "run"]
    if not runs:
        yield Fault(RUN, START, 0, "E23 NoRun at 1:1")
    for run in runs:
        if not is_startable(run):
            yield Fault(SERVICE, run.name.place, 0, "E24 RunNotService at %d:%d" % run.name.place)


def faults(declarations):
    """All faults of the names of a tree, in no order."""
    names = all_declared(declarations)
    known = {(name.space, name.name): name for name in names + PRELUDE_NAMES}
    yield from twice(names)
    for use, scope in uses(declarations, Scope(set(), set(), None)):
        yield from faults_of_use(use, scope, known)
    yield from faults_of_run(declarations)


def answer(text):
    grammar = answer_of_grammar(text)
    if grammar != "tree":
        return grammar
    first = min(faults(tree_of(text)), default=None)
    return "well declared" if first is None else first.text


# ---- Rows worked by hand

FIRST = """data Maybe(a) where
    None
    Just(a)
fun first :: [a] -> Maybe(a) where
    [] -> None
    x : _ -> Just(x)
"""

CHANNELS = "proc run :: | %s => %s where\n    | => -> halt\n"


def changed(text, line, old, new):
    """The text with one line changed, counted from 1, in which the old spelling stands once."""
    lines = text.splitlines(keepends=True)
    assert lines[line - 1].count(old) == 1, (line, old)
    lines[line - 1] = lines[line - 1].replace(old, new)
    return "".join(lines)


def worked(name):
    return text_of(os.path.join(HERE, "../crates/typed_sources/data", name + ".campl"))


def rows_worked_by_hand():
    maybe, box = worked("first_of_texts"), worked("gives_a_box")
    return [
        ("", "E23 NoRun at 1:1"),
        (" " * 1000, "E23 NoRun at 1:1"),
        (HELLO, "well declared"),
        (changed(HELLO, 1, "run", "walk"), "E23 NoRun at 1:1"),
        (changed(HELLO, 1, ":: |", ":: Int |"), "E24 RunNotService at 1:6"),
        (changed(HELLO, 3, "ConsolePut", "Consoleput"), "E21 Unknown at 3:14: name Consoleput"),
        (changed(HELLO, 6, "halt console", "halt"), "well declared"),
        ("proc run | => where", "E07 BadColumn at 1:20"),
        (FIRST, "E23 NoRun at 1:1"),
        (changed(FIRST, 1, "(a)", "(a, a)"), "E20 Twice at 1:15: name a"),
        (changed(FIRST, 1, "Maybe", "Console"), "E20 Twice at 1:6: name Console"),
        (changed(FIRST, 3, "Just", "None"), "E20 Twice at 3:5: name None"),
        (changed(FIRST, 3, "(a)", "(b)"), "E21 Unknown at 3:10: name b"),
        (changed(FIRST, 4, "Maybe(a)", "Maybe"), "E25 TypeArguments at 4:21: found 0, wanted 1"),
        (changed(FIRST, 4, "Maybe(a)", "Console"), "E22 WrongKind at 4:21: name Console"),
        (changed(FIRST, 6, "Just(x)", "Just(y)"), "E21 Unknown at 6:19: name y"),
        (changed(FIRST, 6, "Just", "ConsolePut"), "E22 WrongKind at 6:14: name ConsolePut"),
        (maybe, "well declared"),
        (changed(maybe, 11, "Maybe([Char])", "Maybe"), "E25 TypeArguments at 11:35: found 0, wanted 1"),
        (box, "well declared"),
        (changed(box, 13, "Box([Char])", "Box"), "E25 TypeArguments at 13:31: found 0, wanted 1"),
        (CHANNELS % (", ".join(["Console"] * 9), ", ".join(["StringTerminal"] * 7)), "well declared"),
        (CHANNELS % (", ".join(["Console"] * 9), ", ".join(["StringTerminal"] * 8)), "E24 RunNotService at 1:6"),
        ("protocol P => S where\n    C :: Put(S | S) => T\n", "E22 WrongKind at 2:14: name S"),
        ("protocol P => S where\n    C :: TopBot => T\n", "E22 WrongKind at 2:20: name T"),
        ("coprotocol S => P where\n    C :: P => X\n", "E22 WrongKind at 2:10: name P"),
        ("protocol P(a) => S where\n    C :: S(a) => S\n", "E25 TypeArguments at 2:10: found 1, wanted 0"),
        ("fun f :: -> Int where\n    -> f\n", "E21 Unknown at 2:8: name f"),
        ("fun f :: Int -> Int where\n    x -> x(1)\n", "E21 Unknown at 2:10: name x"),
        ("proc p :: | => where\n    | => -> q( | => )\nfun q :: -> Int where\n    -> p()\n", "E22 WrongKind at 2:13: name q"),
    ]


if __name__ == "__main__":
    run(sys.argv[1:], rows_worked_by_hand, answer)
