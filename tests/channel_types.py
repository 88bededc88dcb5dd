"""Channel types for the references that judge them, as tuples without places.

They are ("Put", value, rest), ("Get", value, rest), ("(*)", left, right), ("(+)", left, right), ("Neg", inner), ("TopBot",) and
("named", name, arguments); types of values are those of functions.py.
"""

import trees as t
from functions import put_in, shown, type_of


def channel_type_of(node):
    """A channel type of the tree, without places."""
    if isinstance(node, (t.PutType, t.GetType)):
        return ("Put" if isinstance(node, t.PutType) else "Get", type_of(node.value), channel_type_of(node.rest))
    if isinstance(node, (t.Tensor, t.Par)):
        return ("(*)" if isinstance(node, t.Tensor) else "(+)", channel_type_of(node.left), channel_type_of(node.right))
    if isinstance(node, t.Neg):
        return ("Neg", channel_type_of(node.inner))
    if isinstance(node, t.NamedChannel):
        return ("named", node.name, tuple(map(type_of, node.arguments)))
    return ("TopBot",)


def channel_type_shown(a):
    kind = a[0]
    if kind in ("Put", "Get"):
        return "%s(%s | %s)" % (kind, shown(a[1]), channel_type_shown(a[2]))
    if kind in ("(*)", "(+)"):
        return "%s %s %s" % (operand_shown(a[1]), kind, operand_shown(a[2]))
    if kind == "Neg":
        return "Neg(%s)" % channel_type_shown(a[1])
    if kind == "named":
        return a[1] + ("(%s)" % ", ".join(map(shown, a[2])) if a[2] else "")
    return kind


def operand_shown(a):
    return "(%s)" % channel_type_shown(a) if a[0] in ("(*)", "(+)") else channel_type_shown(a)


def put_in_line(a, local, whole, bound):
    """A line's type where its heading's own name stands for the whole type and each parameter for what is bound."""
    kind = a[0]
    if kind in ("Put", "Get"):
        return (kind, put_in(a[1], bound), put_in_line(a[2], local, whole, bound))
    if kind == "named":
        return whole if a[1] == local else (kind, a[1], tuple(put_in(one, bound) for one in a[2]))
    return (kind, *(put_in_line(one, local, whole, bound) for one in a[1:]))
