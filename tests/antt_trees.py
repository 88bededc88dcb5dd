"""A source's tree as an antt term: a plain tree of campl_tree, with the short ways of typed_sources' specs/Trees.antt."""

import trees as t

COMPARISONS = {"==": "Equal", "/=": "Different", "<": "Less", "<=": "AtMost", ">": "Greater", ">=": "AtLeast"}
ARITHMETIC = {"+": "Add", "-": "Subtract", "*": "Multiply", "div": "Divide", "mod": "Remainder"}
ESCAPES = {"\\": "\\\\", '"': '\\"', "\n": "\\n", "\t": "\\t"}


def text(spelled):
    return "(codes \"" + "".join(ESCAPES.get(c, c) for c in spelled) + "\")"


def place(at):
    return f"(place {at[0]} {at[1]})"


def ident(name):
    return f"(ident {name.place[0]} {name.place[1]} {text(name.name)})"


def bare(term):
    """The term without brackets round the whole of it; a tuple keeps them."""
    depth = 0
    for at, sign in enumerate(term):
        depth += (sign == "(") - (sign == ")")
        if depth == 0:
            return term[1:-1] if at == len(term) - 1 and sign == ")" else term
        if depth == 1 and sign == ",":
            return term
    return term


def plain_list(items, between=" "):
    """A list of antt's own."""
    return "[]" if not items else "(" + f"{between}∷ ".join([*map(bare, items), "[]"]) + ")"


def chained(link, end, items, between=" "):
    """A list of the trees' own: each item in brackets, one inside the other."""
    for item in reversed(items):
        end = f"({link} {item}{between}{end})"
    return end


# Types


def seq_type(node):
    match node:
        case t.Basic(name):
            return f"s.{name}"
        case t.ListType(item):
            return f"(s.List {seq_type(item)})"
        case t.PairType(first, second):
            return f"(s.Pair {seq_type(first)} {seq_type(second)})"
        case t.Named(at, name, arguments):
            return f"(s.Named {place(at)} {text(name)} {seq_types(arguments)})"
        case t.TypeVariable(at, name):
            return f"(s.Variable {place(at)} {text(name)})"
    raise ValueError(node)


def seq_types(arguments):
    return chained("s.type_then", "s.no_types", [seq_type(a) for a in arguments])


def chan_type(node):
    match node:
        case t.PutType(value, rest):
            return f"(c.Put {seq_type(value)} {chan_type(rest)})"
        case t.GetType(value, rest):
            return f"(c.Get {seq_type(value)} {chan_type(rest)})"
        case t.Tensor(left, right):
            return f"(c.Tensor {chan_type(left)} {chan_type(right)})"
        case t.Par(left, right):
            return f"(c.Par {chan_type(left)} {chan_type(right)})"
        case t.TopBot():
            return "c.TopBot"
        case t.Neg(inner):
            return f"(c.Neg {chan_type(inner)})"
        case t.NamedChannel(at, name, arguments):
            return f"(c.Named {place(at)} {text(name)} {seq_types(arguments)})"
    raise ValueError(node)


# Patterns and expressions


def pattern(node):
    at = place(node.place)
    match node:
        case t.Wildcard():
            return f"(p.Wildcard {at})"
        case t.Variable(_, name):
            return f"(p.Variable {at} {text(name)})"
        case t.Number(_, value):
            return f"(p.Number {at} (pos {value}))"
        case t.Negative(_, value):
            return f"(p.Negative {at} (pos {value}))"
        case t.Character(_, value):
            return f"(p.Character {at} {ord(value)})"
        case t.Text(_, value):
            return f"(p.Text {at} {text(value)})"
        case t.Truth(_, value):
            return f"(p.{value} {at})"
        case t.Constructor(_, name, parts):
            return f"(p.Constructor {at} {text(name)} {patterns(parts)})"
        case t.List(_, items):
            return f"(p.List {at} {patterns(items)})"
        case t.Pair(_, first, second):
            return f"(p.Pair {at} {pattern(first)} {pattern(second)})"
        case t.Cons(_, head, tail):
            return f"(p.Cons {at} {pattern(head)} {pattern(tail)})"
    raise ValueError(node)


def patterns(nodes):
    return chained("p.pattern_then", "p.no_patterns", [pattern(n) for n in nodes])


def exprs(nodes):
    return chained("e.expr_then", "e.no_exprs", [expr(n) for n in nodes])


def expr_rows(rows):
    return "\n" + chained("e.expr_row_then", "e.no_expr_rows", [f"{pattern(p)} {expr(v)}" for p, v in rows], "\n")


def expr(node):
    at = place(node.place)
    match node:
        case t.Number(_, value):
            return f"(e.Number {at} (pos {value}))"
        case t.Character(_, value):
            return f"(e.Character {at} {ord(value)})"
        case t.Text(_, value):
            return f"(e.Text {at} {text(value)})"
        case t.Truth(_, value):
            return f"(e.{value} {at})"
        case t.Variable(_, name):
            return f"(e.Variable {at} {text(name)})"
        case t.FunctionCall(_, name, arguments):
            return f"(e.Call {at} {text(name)} {exprs(arguments)})"
        case t.Constructor(_, name, parts):
            return f"(e.Constructor {at} {text(name)} {exprs(parts)})"
        case t.List(_, items):
            return f"(e.List {at} {exprs(items)})"
        case t.CaseOf(_, value, rows):
            return f"(e.Case {at} {expr(value)}{expr_rows(rows)})"
        case t.Compare(_, left, operator, right):
            return f"(e.Compare {at} {expr(left)} compare.{COMPARISONS[operator]} {expr(right)})"
        case t.Calculate(_, left, operator, right):
            return f"(e.Calculate {at} {expr(left)} calculate.{ARITHMETIC[operator]} {expr(right)})"
    # the other forms have their parts in the trees' order
    form = type(node).__name__
    return f"(e.{form} {at} {' '.join(expr(part) for part in node[1:])})"


# Bodies


def binder(node):
    match node:
        case t.Wildcard(at):
            return f"(binder.Wildcard {place(at)})"
        case t.Variable(at, name):
            return f"(binder.Variable {place(at)} {text(name)})"
    raise ValueError(node)


def action(node):
    at = place(node.place)
    match node:
        case t.Put(_, value, channel):
            return f"b.Put {at} {expr(value)} {ident(channel)}"
        case t.Get(_, variable, channel):
            return f"b.Get {at} {binder(variable)} {ident(channel)}"
        case t.Hput(_, constructor, channel):
            return f"b.Hput {at} {ident(constructor)} {ident(channel)}"
        case t.Split(_, channel, first, second):
            return f"b.Split {at} {ident(channel)} {ident(first)} {ident(second)}"
        case t.Close(_, channel):
            return f"b.Close {at} {ident(channel)}"
    raise ValueError(node)


def body(node):
    """A line for each command; rt fmt indents them."""
    return "(" + " ⨾\n".join([action(a) for a in node.actions] + [last(node.last)]) + ")"


def bodies(link, end, rows):
    """Rows with bodies: the head of each as a term, and its body, on lines of their own."""
    return "\n" + chained(link, end, [f"{head}\n{body(inner)}" for head, inner in rows], "\n")


def named_bodies(link, end, rows):
    return bodies(link, end, [(ident(name), inner) for name, inner in rows])


def idents(names):
    return plain_list([ident(n) for n in names])


def part(node):
    return f"(header {place(node.place)} {idents(node.inputs)} {idents(node.outputs)})", node.body


def last(node):
    at = place(node.place)
    match node:
        case t.Halt(_, None):
            return f"b.Halt {at} None"
        case t.Halt(_, channel):
            return f"b.Halt {at} (Some {ident(channel)})"
        case t.Hcase(_, channel, rows):
            return f"b.Hcase {at} {ident(channel)}{named_bodies('b.hcase_row_then', 'b.no_hcase_rows', rows)}"
        case t.Race(_, rows):
            return f"b.Race {at}{named_bodies('b.branch_then', 'b.no_branches', rows)}"
        case t.Fork(_, channel, (left, left_body), (right, right_body)):
            return f"b.Fork {at} {ident(channel)}\n{ident(left)}\n{body(left_body)}\n{ident(right)}\n{body(right_body)}"
        case t.Plug(_, links, parts):
            made = plain_list([f"link {ident(l.name)} {chan_type(l.channel_type)}" for l in links])
            return f"b.Plug {at}\n{made}{bodies('b.part_then', 'b.no_parts', [part(p) for p in parts])}"
        case t.Case(_, value, rows):
            told = bodies("b.case_row_then", "b.no_case_rows", [(pattern(p), inner) for p, inner in rows])
            return f"b.Case {at} {expr(value)}{told}"
        case t.Identity(_, left, negated, right):
            return f"b.Identity {at} {text(left)} {str(negated).lower()} {ident(right)}"
        case t.ProcessCall(_, name, arguments, inputs, outputs):
            return f"b.Call {at} {text(name)} {exprs(arguments)} {idents(inputs)} {idents(outputs)}"
    raise ValueError(node)
