#!/usr/bin/env python3
"""Writes the trees of typed sources, and derivations of their typing, for the crate typed_sources:

    derivations.py crates/typed_sources    for each data/NAME.campl its tree in specs/ and its derivation in proofs/, for each
                                           data/no_tree/NAME.campl, which is typed and has a plug that is no tree, the same,
                                           for each data/refused/NAME.campl its tree, and the laws in src/ with their answers

The prover judges what is written: a wrong type, derivation or fault is refused. That a source whose fault is one of processes
has no derivation is proved by hand.
"""

import pathlib
import re
import sys

import trees as t
from antt_trees import bare, binder, body, chan_type, expr, ident, idents, patterns, place, plain_list, seq_type
from functions import answer
from names import PRELUDE
from trees import tree_of
from typing_linear import process_term
from typing_sequential import World, function_term

TREE, TYPES, SOURCES = "Rattle.campl_tree.specs", "Rattle.campl_types.specs", "Rattle.typed_sources"
KINDS = {t.Data: "data", t.Protocol: "protocol", t.Coprotocol: "coprotocol", t.Function: "function", t.Process: "process"}

# what a file may use: a module, and as what it is named
MODULES = [
    (f"{TREE}.declared.process.Binder.TheVariants", "binder"),
    (f"{TREE}.declared.expr.Comparison.TheVariants", "compare"),
    (f"{TREE}.declared.expr.Arithmetic.TheVariants", "calculate"),
    (f"{TREE}.Plain.SeqType", "s"),
    (f"{TREE}.Plain.ChanType", "c"),
    (f"{TREE}.Plain.Pattern", "p"),
    (f"{TREE}.Plain.Expr", "e"),
    (f"{TREE}.Plain.Process", "b"),
    (f"{TREE}.Plain.Decl", "d"),
]

# the lemmas, in their order
LEMMAS = ["Within", "Divided", "Actions", "Lasts", "Undone", "Faulted"]

COMMANDS = ["put", "get", "hput", "split", "close", "halt", "halt-alone"]
LASTS = ["hcase", "row", "no-rows", "fork", "plug", "part", "no-parts", "race", "branch", "no-branches"]
LASTS += ["match", "when", "no-cases", "join", "call", "process"]

# from each module the words that a file takes where it has them
WORDS_OF_TREES = [
    ("Rattle.std.specs.Prelude", ["[]", "◌∷◌", "Some", "None", "pos", "codes", "true", "false"]),
    (f"{TREE}.Plain.Decl", ["Program"]),
    (f"{SOURCES}.specs.Trees", ["place", "ident", "header", "link", "function_row", "◌⨾◌"]),
]
WORDS_OF_PROOFS = [
    ("Rattle.std.proofs.Common", ["refl", "[]", "◌∷◌", "codes"]),
    (f"{TYPES}.SameType", ["nowhere"]),
    (f"{TYPES}.Prelude", ["letters"]),
    (f"{TYPES}.World", ["World", "world_of"]),
    (f"{TYPES}.Sequential", ["FunctionIsTyped"]),
    (f"{TYPES}.Linear", ["ProcessIsTyped"]),
    (f"{TYPES}.Typed", ["IsTyped"]),
    (f"{SOURCES}.proofs.Actions", COMMANDS),
    (f"{SOURCES}.proofs.Lasts", LASTS),
]


def camel(name):
    return "".join(word.capitalize() for word in name.split("_"))


def definition(name, kind, term):
    """A definition whose lines rt fmt can lay out, since each stands to the right."""
    told = term.replace("\n", "\n    ")
    start = "\n    " if "\n" in term else " "
    return f"{name} : {kind}\n{name.removeprefix('abbrev ').removeprefix('pub ')} ={start}{told}"


def declared_as(declaration):
    return f"{declaration.name.name.lower()}_{KINDS[type(declaration)]}"


def used(words, text):
    """The words that stand in the text; an operator by its sign."""
    names = set(re.findall(r"[^\s(){}.,;]+", text))
    return [w for w in words if w.strip("◌") in names]


def imports(words, text):
    lines = [f"use {module}.{{{', '.join(found)}}}" for module, listed in words if (found := used(listed, text))]
    lines += [f"use {module} as {name}" for module, name in MODULES if re.search(rf"(?<![\w.]){name}\.", text)]
    return "\n".join(lines)


# Trees


def line(**fields):
    """A record on one line."""
    return "record { " + "; ".join(f"{name} = {bare(value)}" for name, value in fields.items()) + " }"


def record(**fields):
    return "record {\n" + ";\n".join(f"{name} = {bare(value)}" for name, value in fields.items()) + "; }"


def declaration_term(node):
    at, name = place(node.place), ident(node.name)
    match node:
        case t.Data(_, _, parameters, constructors):
            lines = [line(name=ident(k.name), parts=plain_list([seq_type(u) for u in k.parts])) for k in constructors]
            return "DataDecl", record(place=at, name=name, parameters=idents(parameters), constructors=plain_list(lines, "\n"))
        case t.Protocol(_, _, parameters, local, lines):
            told = [line(name=ident(k.name), channel_type=chan_type(k.channel_type), local=ident(k.local)) for k in lines]
            fields = {"parameters": idents(parameters), "local": ident(local), "constructors": plain_list(told, "\n")}
            return "ProtocolDecl", record(place=at, name=name, **fields)
        case t.Coprotocol(_, local, _, parameters, lines):
            told = [line(name=ident(k.name), local=ident(k.local), channel_type=chan_type(k.channel_type)) for k in lines]
            fields = {"parameters": idents(parameters), "constructors": plain_list(told, "\n")}
            return "CoprotocolDecl", record(place=at, local=ident(local), name=name, **fields)
        case t.Function(_, _, parameters, result, rows):
            types = plain_list([seq_type(u) for u in parameters])
            told = [f"function_row {place(r.place)} {patterns(r.patterns)} {expr(r.value)}" for r in rows]
            return "FunctionDecl", record(place=at, name=name, parameters=types, result=seq_type(result), rows=plain_list(told, "\n"))
        case t.Process(_, _, parameters, inputs, outputs, row):
            variables = plain_list([binder(v) for v in row.variables])
            names = {"variables": variables, "inputs": idents(row.inputs), "outputs": idents(row.outputs)}
            told = record(place=place(row.place), **names, body=body(row.body))
            types = {"parameters": plain_list([seq_type(u) for u in parameters])}
            types |= {"inputs": plain_list([chan_type(u) for u in inputs]), "outputs": plain_list([chan_type(u) for u in outputs])}
            return "ProcessDecl", record(place=at, name=name, **types, row=told)
    raise ValueError(node)


def tree_file(name, source, declarations):
    parts = []
    for node in declarations:
        kind, term = declaration_term(node)
        parts.append(definition(f"abbrev pub {declared_as(node)}", f"d.{kind}", term))
    whole = bare(plain_list([f"d.{KINDS[type(node)].capitalize()} {declared_as(node)}" for node in declarations]))
    parts.append(definition(f"abbrev pub {name}", "Program", whole))
    text = "\n\n".join(parts)
    comment = "\n".join(f"--     {line}".rstrip() for line in source.rstrip("\n").split("\n"))
    return f"-- The tree of this source:\n--\n{comment}\n{imports(WORDS_OF_TREES, text)}\n\n{text}\n"


# Derivations


def world_of(declarations):
    prelude = tree_of(PRELUDE)
    world = World({}, {}, {}, {})
    for node in prelude + declarations:
        match node:
            case t.Data():
                world.data |= {k.name.name: (node, k) for k in node.constructors}
            case t.Function():
                world.functions[node.name.name] = node
            case t.Process():
                world.processes[node.name.name] = node
            case _:
                world.protocols[node.name.name] = node
    return world


def judged(declarations, kind):
    """One fact for each declaration, where this is said of its kind alone."""
    told = "tt"
    for node in reversed(declarations):
        told = f"({f'{declared_as(node)}-typed' if isinstance(node, kind) else 'tt'}, {told})"
    return told


def proof_file(name, declarations):
    world, parts = world_of(declarations), [definition("abbrev w", "World", f"world_of {name}")]
    for node in declarations:
        its = declared_as(node)
        if isinstance(node, t.Function):
            parts.append(definition(f"{its}-typed", f"FunctionIsTyped w {its}", function_term(world, node)))
        if isinstance(node, t.Process):
            parts.append(definition(f"{its}-typed", f"ProcessIsTyped w {its}", process_term(world, node, its)))
    whole = record(declared="refl", functions=judged(declarations, t.Function), processes=judged(declarations, t.Process))
    parts.append(definition("pub typed", f"IsTyped {name}", whole))
    text = "\n\n".join(parts)
    trees = [declared_as(node) for node in declarations if isinstance(node, (t.Function, t.Process))]
    own = f"use {SOURCES}.specs.{camel(name)}.{{{', '.join([*trees, name])}}}"
    return f"-- The derivation of its typing.\n{imports(WORDS_OF_PROOFS, text)}\n{own}\n\n{text}\n"


# The crate


def write(path, text):
    path.parent.mkdir(parents=True, exist_ok=True)
    path.write_text(text, encoding="utf-8")


def told(fault):
    """What judging a source's functions answers, as a term: a fault by its line, which the reference in functions.py gives."""
    if fault == "typed":
        return "Is fine"
    name, line, column, rest = re.fullmatch(r"E\d\d (\w+) at (\d+):(\d+)(?:: (.*))?", fault).groups()
    details = re.fullmatch({
        "TypeDiffers": r"found (.*), wanted (.*)",
        "NeedsType": r"",
        "NotExhaustive": r"missing (.*)",
        "ArgumentCount": r"found (\d+), wanted (\d+)",
        "NameTwiceInPattern": r"name (.*)",
    }[name], rest or "").groups()
    words = details if name == "ArgumentCount" else [f'(codes "{x}")' for x in details]
    return f"Fails ({' '.join([name, f'(place {line} {column})', *words])})"


def law(folder, name, source):
    """The law's name, and its text."""
    path = f"`{folder}/{name}.campl`"
    if folder != "data/refused":
        doc = f"{path} is typed" + (", though its plug is no tree." if folder == "data/no_tree" else ".")
        return f"law_{name}", f"/// {doc}\npub fn law_{name}()\n    ensures {{ IsTyped {name} }}\n{{}}"
    fault = answer(source)
    why = "its functions are fine, and its processes aren't" if fault == "typed" else fault
    own = f"law_{name}_is_refused"
    return own, f"/// {path} is ill-typed: {why}.\npub fn {own}()\n    ensures {{ IsIllTyped {name} ({told(fault)}) }}\n{{}}"


FAULTS = "Rattle.campl_seqcheck.specs.declared.fault.SeqFault.TheVariants.{TypeDiffers, NeedsType, NotExhaustive, ArgumentCount, NameTwiceInPattern}"


def write_laws(crate, file, about, words, sources):
    uses = [f"ghost use {x};" for x in [*words, *(f"{SOURCES}.specs.{camel(name)}.{{{name}}}" for _, name, _, _ in sorted(sources, key=lambda x: x[1]))]]
    laws = [law(folder, name, source) for folder, name, source, _ in sources]
    write(crate / f"src/{file}.rt", "\n".join([about, *uses]) + "\n\n" + "\n\n".join(x[1] for x in laws) + "\n")
    for (folder, name, source, _), (own, _) in zip(sources, laws):
        write_answer(crate, name, f"{file}.{own}", folder == "data/refused", folder == "data/refused" and answer(source) != "typed")


def write_answer(crate, name, own, refused, faulted):
    uses = "use Rattle.std.proofs.Common.{refl}\n" if refused else ""
    if faulted:
        uses += f"use {SOURCES}.specs.{camel(name)}.{{{name}}}\nuse {SOURCES}.proofs.Faulted.{{ill-typed}}\n"
        term = f"ill-typed {name} _ refl refl"
    else:
        word, term = ("refused", "(refl, refused, refl)") if refused else ("typed", "typed")
        uses += f"use {SOURCES}.proofs.{camel(name)}.{{{word}}}\n"
    uses += f"use {SOURCES}.proofs.{own}.Goals as goal\n"
    write(crate / f"proofs/{own.replace('.', '/')}/Answers.antt", f"{uses}\npub returns : goal.returns\nreturns c = {term}\n")


def read(crate, folder):
    """The sources of a folder, each with its name and its declarations."""
    for path in sorted((crate / folder).glob("*.campl")):
        source = path.read_text(encoding="utf-8")
        yield folder, path.stem, source, tree_of(source)


def main(words):
    crate = pathlib.Path(words[0])
    typed = [*read(crate, "data"), *read(crate, "data/no_tree")]
    refused = [*read(crate, "data/refused")]
    for _, name, source, declarations in typed + refused:
        write(crate / f"specs/{camel(name)}.antt", tree_file(name, source, declarations))
    for _, name, _, declarations in typed:
        write(crate / f"proofs/{camel(name)}.antt", proof_file(name, declarations))
    about = "//! The laws of {} sources, functions with nothing to do, whose contracts they are."
    write_laws(crate, "laws", about.format("typed"), [f"{TYPES}.Typed.{{IsTyped}}"], typed)
    judged = ["Rattle.std.specs.Prelude.{codes}", "Rattle.campl_seqcheck.specs.Judged.{Is, Fails, fine}", FAULTS]
    write_laws(crate, "refusals", about.format("refused"), [*judged, f"{SOURCES}.specs.IllTyped.{{IsIllTyped}}", f"{SOURCES}.specs.Trees.{{place}}"], refused)
    trees = [camel(x[1]) for x in typed + refused]
    proofs = [camel(x[1]) for x in typed] + [camel(name) for _, name, source, _ in refused if answer(source) == "typed"]
    write(crate / "specs/Lib.antt", "".join(f"pub mod {x}\n" for x in ["Trees", "IllTyped", *trees]))
    write(crate / "proofs/Lib.antt", "".join(f"pub mod {x}\n" for x in [*LEMMAS, *proofs]))


if __name__ == "__main__":
    main(sys.argv[1:])
