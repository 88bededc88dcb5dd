#!/usr/bin/env python3
"""The tree of a source, for the references that judge trees: by recursive descent over the words that layout leaves.

    trees.py FILE    prints the tree

It wants a source that grammar.py accepts. A node is a named tuple with its parts in the order of the language's trees; it has
the place of its first token, where parentheses round the whole node don't count. In types only names have a place.
"""

import sys
from collections import namedtuple

from tokens import layout_of

Ident = namedtuple("Ident", "place name")

# Types
Basic = namedtuple("Basic", "name")  # Int, Char, Bool
ListType = namedtuple("ListType", "item")
PairType = namedtuple("PairType", "first second")
Named = namedtuple("Named", "place name arguments")
TypeVariable = namedtuple("TypeVariable", "place name")
PutType = namedtuple("PutType", "value rest")
GetType = namedtuple("GetType", "value rest")
Tensor = namedtuple("Tensor", "left right")
Par = namedtuple("Par", "left right")
TopBot = namedtuple("TopBot", "")
Neg = namedtuple("Neg", "inner")
NamedChannel = namedtuple("NamedChannel", "place name arguments")

# Patterns and expressions; those of both are told apart by where they stand
Wildcard = namedtuple("Wildcard", "place")
Variable = namedtuple("Variable", "place name")
Number = namedtuple("Number", "place value")
Negative = namedtuple("Negative", "place value")
Character = namedtuple("Character", "place value")
Text = namedtuple("Text", "place value")
Truth = namedtuple("Truth", "place value")
Constructor = namedtuple("Constructor", "place name parts")
List = namedtuple("List", "place items")
Pair = namedtuple("Pair", "place first second")
Cons = namedtuple("Cons", "place head tail")
If = namedtuple("If", "place condition yes no")
CaseOf = namedtuple("CaseOf", "place value rows")  # rows: (pattern, expression)
Or = namedtuple("Or", "place left right")
And = namedtuple("And", "place left right")
Compare = namedtuple("Compare", "place left operator right")
Append = namedtuple("Append", "place left right")
Calculate = namedtuple("Calculate", "place left operator right")
Negate = namedtuple("Negate", "place value")
FunctionCall = namedtuple("FunctionCall", "place name arguments")
CodeOf = namedtuple("CodeOf", "place value")
CharOf = namedtuple("CharOf", "place value")

# Commands
Put = namedtuple("Put", "place value channel")
Get = namedtuple("Get", "place binder channel")  # binder: a Variable or a Wildcard
Hput = namedtuple("Hput", "place constructor channel")
Split = namedtuple("Split", "place channel first second")
Close = namedtuple("Close", "place channel")
Body = namedtuple("Body", "actions last")
Halt = namedtuple("Halt", "place channel")  # channel: an Ident or None
Hcase = namedtuple("Hcase", "place channel rows")  # rows: (Ident, Body)
Fork = namedtuple("Fork", "place channel first second")  # each: (Ident, Body)
Plug = namedtuple("Plug", "place links parts")
Link = namedtuple("Link", "name channel_type")
Part = namedtuple("Part", "place inputs outputs body")
Race = namedtuple("Race", "place rows")  # rows: (Ident, Body)
Case = namedtuple("Case", "place value rows")  # rows: (pattern, Body)
Identity = namedtuple("Identity", "place left negated right")
ProcessCall = namedtuple("ProcessCall", "place name arguments inputs outputs")

# Declarations
Data = namedtuple("Data", "place name parameters constructors")
DataConstructor = namedtuple("DataConstructor", "name parts")
Protocol = namedtuple("Protocol", "place name parameters local lines")
Coprotocol = namedtuple("Coprotocol", "place local name parameters lines")
ProtocolLine = namedtuple("ProtocolLine", "name channel_type local")
CoprotocolLine = namedtuple("CoprotocolLine", "name local channel_type")
Function = namedtuple("Function", "place name parameters result rows")
Row = namedtuple("Row", "place patterns value")
Process = namedtuple("Process", "place name parameters inputs outputs row")
ProcessRow = namedtuple("ProcessRow", "place variables inputs outputs body")

LITERALS = {"NUMBER", "CHARACTER", "TEXT", "True", "False"}
ESCAPES = {"n": "\n", "r": "\r", "t": "\t", "\\": "\\", '"': '"', "'": "'"}


def unescaped(text):
    """What the inside of a literal spells."""
    spelled, at = "", 0
    while at < len(text):
        if text[at] != "\\":
            spelled, at = spelled + text[at], at + 1
        elif text[at + 1] == "u":
            end = text.index("}", at)
            spelled, at = spelled + chr(int(text[at + 3 : end], 16)), end + 1
        else:
            spelled, at = spelled + ESCAPES[text[at + 1]], at + 2
    return spelled


class Reader:
    """The words of a source, and how many of them were read."""

    def __init__(self, text):
        self.text, self.words, self.at = text, layout_of(text), 0

    # Words

    @property
    def kind(self):
        return self.words[self.at].kind

    @property
    def place(self):
        return self.words[self.at].place

    def take(self, kind):
        word = self.words[self.at]
        assert word.kind == kind, (kind, word.kind, word.place)
        self.at += 1
        return self.text[word.start : word.end]

    def took(self, kind):
        """Takes a word of this kind where one stands."""
        if self.kind != kind:
            return False
        self.take(kind)
        return True

    def ident(self, kind):
        place = self.place
        return Ident(place, self.take(kind))

    # Lists

    def commas(self, item):
        items = [item()]
        while self.took(","):
            items.append(item())
        return items

    def unless(self, ends, item):
        """A list with commas, or none where one of these ends stands."""
        return [] if self.kind in ends else self.commas(item)

    def in_brackets(self, item):
        """A list in round brackets, or none."""
        if not self.took("("):
            return []
        items = self.unless({")"}, item)
        self.take(")")
        return items

    def block(self, item):
        self.take("{")
        items = [item()]
        while self.took(";"):
            items.append(item())
        self.take("}")
        return items

    def lowers(self, ends):
        return self.unless(ends, lambda: self.ident("LOWER"))

    # Declarations

    def program(self):
        self.take("{")
        declarations = []
        while self.kind != "}":
            declarations.append(self.declaration())
            self.took(";")
        self.take("}")
        return declarations

    def declaration(self):
        forms = {"data": self.data, "protocol": self.protocol, "coprotocol": self.coprotocol, "fun": self.function, "proc": self.process}
        place, kind = self.place, self.kind
        self.take(kind)
        return forms[kind](place)

    def parameters(self):
        return self.in_brackets(lambda: self.ident("LOWER"))

    def data(self, place):
        name, parameters = self.ident("UPPER"), self.parameters()
        self.take("where")
        return Data(place, name, parameters, self.block(lambda: DataConstructor(self.ident("UPPER"), self.in_brackets(self.type))))

    def protocol(self, place):
        name, parameters = self.ident("UPPER"), self.parameters()
        self.take("=>")
        local = self.ident("UPPER")
        self.take("where")
        return Protocol(place, name, parameters, local, self.block(self.protocol_line))

    def protocol_line(self):
        name = self.ident("UPPER")
        self.take("::")
        channel_type = self.channel_type()
        self.take("=>")
        return ProtocolLine(name, channel_type, self.ident("UPPER"))

    def coprotocol(self, place):
        local = self.ident("UPPER")
        self.take("=>")
        name, parameters = self.ident("UPPER"), self.parameters()
        self.take("where")
        return Coprotocol(place, local, name, parameters, self.block(self.coprotocol_line))

    def coprotocol_line(self):
        name = self.ident("UPPER")
        self.take("::")
        local = self.ident("UPPER")
        self.take("=>")
        return CoprotocolLine(name, local, self.channel_type())

    def function(self, place):
        name = self.ident("LOWER")
        self.take("::")
        parameters = self.unless({"->"}, self.type)
        self.take("->")
        result = self.type()
        self.take("where")
        return Function(place, name, parameters, result, self.block(self.row))

    def row(self):
        place, patterns = self.place, self.unless({"->"}, self.pattern)
        self.take("->")
        return Row(place, patterns, self.expression())

    def process(self, place):
        name = self.ident("LOWER")
        self.take("::")
        parameters = self.unless({"|"}, self.type)
        self.take("|")
        inputs = self.unless({"=>"}, self.channel_type)
        self.take("=>")
        outputs = self.unless({"where"}, self.channel_type)
        self.take("where")
        return Process(place, name, parameters, inputs, outputs, self.block(self.process_row)[0])

    def process_row(self):
        place, variables = self.place, self.unless({"|"}, self.binder)
        self.take("|")
        inputs = self.lowers({"=>"})
        self.take("=>")
        outputs = self.lowers({"->"})
        self.take("->")
        return ProcessRow(place, variables, inputs, outputs, self.body())

    def binder(self):
        place = self.place
        return Wildcard(place) if self.took("_") else Variable(place, self.take("LOWER"))

    # Types

    def type(self):
        place, kind = self.place, self.kind
        if kind in ("Int", "Char", "Bool"):
            return Basic(self.take(kind))
        if kind == "LOWER":
            return TypeVariable(place, self.take("LOWER"))
        if kind == "UPPER":
            return Named(place, self.take("UPPER"), self.in_brackets(self.type))
        if self.took("["):
            item = self.type()
            self.take("]")
            return ListType(item)
        self.take("(")
        first = self.type()
        second = self.type() if self.took(",") else None
        self.take(")")
        return first if second is None else PairType(first, second)

    def channel_type(self):
        left = self.channel_atom()
        if self.took("(*)"):
            return Tensor(left, self.channel_atom())
        if self.took("(+)"):
            return Par(left, self.channel_atom())
        return left

    def channel_atom(self):
        place, kind = self.place, self.kind
        if kind == "UPPER":
            return NamedChannel(place, self.take("UPPER"), self.in_brackets(self.type))
        self.take(kind)
        if kind == "TopBot":
            return TopBot()
        if kind == "(":
            inner = self.channel_type()
        elif kind == "Neg":
            self.take("(")
            inner = Neg(self.channel_type())
        else:
            self.take("(")
            value = self.type()
            self.take("|")
            inner = {"Put": PutType, "Get": GetType}[kind](value, self.channel_type())
        self.take(")")
        return inner

    # Patterns

    def pattern(self):
        place, head = self.place, self.pattern_atom()
        return Cons(place, head, self.pattern()) if self.took(":") else head

    def pattern_atom(self):
        place, kind = self.place, self.kind
        if kind == "_":
            return self.binder()
        if kind == "LOWER":
            return Variable(place, self.take("LOWER"))
        if self.took("-"):
            return Negative(place, int(self.take("NUMBER")))
        if kind in LITERALS:
            return self.literal()
        return self.compound(self.pattern)

    # What patterns and expressions share

    def literal(self):
        place, kind = self.place, self.kind
        text = self.take(kind)
        if kind == "NUMBER":
            return Number(place, int(text))
        if kind in ("True", "False"):
            return Truth(place, kind == "True")
        return (Text if kind == "TEXT" else Character)(place, unescaped(text[1:-1]))

    def compound(self, inner):
        """A constructor, a list, a pair, or something in parentheses."""
        place = self.place
        if self.kind == "UPPER":
            return Constructor(place, self.take("UPPER"), self.in_brackets(inner))
        if self.took("["):
            items = self.unless({"]"}, inner)
            self.take("]")
            return List(place, items)
        self.take("(")
        first = inner()
        second = inner() if self.took(",") else None
        self.take(")")
        return first if second is None else Pair(place, first, second)

    # Expressions

    def expression(self):
        place = self.place
        if self.took("if"):
            condition = self.expression()
            self.take("then")
            yes = self.expression()
            self.take("else")
            return If(place, condition, yes, self.expression())
        if self.took("case"):
            value = self.expression()
            self.take("of")
            return CaseOf(place, value, self.block(lambda: self.ruled(self.pattern, self.expression)))
        return self.disjunction()

    def ruled(self, left, right):
        """`LEFT -> RIGHT`"""
        first = left()
        self.take("->")
        return first, right()

    def disjunction(self):
        place, left = self.place, self.conjunction()
        return Or(place, left, self.disjunction()) if self.took("||") else left

    def conjunction(self):
        place, left = self.place, self.comparison()
        return And(place, left, self.conjunction()) if self.took("&&") else left

    def comparison(self):
        place, left, operator = self.place, self.joined(), self.kind
        if operator not in ("==", "/=", "<", "<=", ">", ">="):
            return left
        self.take(operator)
        return Compare(place, left, operator, self.joined())

    def joined(self):
        place, left = self.place, self.sum()
        if self.took(":"):
            return Cons(place, left, self.joined())
        return Append(place, left, self.joined()) if self.took("++") else left

    def to_the_left(self, operators, part):
        place, left = self.place, part()
        while self.kind in operators:
            operator = self.kind
            self.take(operator)
            left = Calculate(place, left, operator, part())
        return left

    def sum(self):
        return self.to_the_left(("+", "-"), self.product)

    def product(self):
        return self.to_the_left(("*", "div", "mod"), self.unary)

    def unary(self):
        place = self.place
        return Negate(place, self.unary()) if self.took("-") else self.atom()

    def atom(self):
        place, kind = self.place, self.kind
        if kind in LITERALS:
            return self.literal()
        if kind == "LOWER":
            name, called = self.take("LOWER"), self.kind == "("
            arguments = self.in_brackets(self.expression)
            return FunctionCall(place, name, arguments) if called else Variable(place, name)
        if kind in ("code", "char"):
            self.take(kind)
            self.take("(")
            value = self.expression()
            self.take(")")
            return (CodeOf if kind == "code" else CharOf)(place, value)
        return self.compound(self.expression)

    # Processes

    def body(self):
        if not self.took("do"):
            return Body([], self.last())
        self.take("{")
        actions = []
        while self.kind in ("put", "get", "hput", "split", "close"):
            actions.append(self.action())
            self.take(";")
        last = self.last()
        self.take("}")
        return Body(actions, last)

    def action(self):
        place, kind = self.place, self.kind
        self.take(kind)
        if kind == "close":
            return Close(place, self.ident("LOWER"))
        if kind == "split":
            channel = self.ident("LOWER")
            self.take("into")
            first = self.ident("LOWER")
            self.take(",")
            return Split(place, channel, first, self.ident("LOWER"))
        sent = {"put": self.expression, "get": self.binder, "hput": lambda: self.ident("UPPER")}[kind]()
        self.take("on")
        return {"put": Put, "get": Get, "hput": Hput}[kind](place, sent, self.ident("LOWER"))

    def last(self):
        place, kind = self.place, self.kind
        if kind == "LOWER":
            return self.identity_or_call(place)
        self.take(kind)
        if kind == "halt":
            return Halt(place, self.ident("LOWER") if self.kind == "LOWER" else None)
        if kind == "race":
            return Race(place, self.block(self.branch))
        if kind == "plug":
            links = self.commas(self.link)
            self.take("of")
            return Plug(place, links, self.block(self.part))
        if kind == "case":
            value = self.expression()
            self.take("of")
            return Case(place, value, self.block(lambda: self.ruled(self.pattern, self.body)))
        channel = self.ident("LOWER")
        if kind == "fork":
            self.take("as")
            return Fork(place, channel, *self.block(self.branch))
        self.take("of")
        return Hcase(place, channel, self.block(lambda: self.ruled(lambda: self.ident("UPPER"), self.body)))

    def branch(self):
        return self.ruled(lambda: self.ident("LOWER"), self.body)

    def link(self):
        name = self.ident("LOWER")
        self.take("::")
        return Link(name, self.channel_type())

    def part(self):
        place, inputs = self.place, self.lowers({"=>"})
        self.take("=>")
        outputs = self.lowers({"->"})
        self.take("->")
        return Part(place, inputs, outputs, self.body())

    def identity_or_call(self, place):
        name = self.take("LOWER")
        if self.took("|=|"):
            negated = self.took("neg")
            return Identity(place, name, negated, self.ident("LOWER"))
        self.take("(")
        arguments = self.unless({"|"}, self.expression)
        self.take("|")
        inputs = self.lowers({"=>"})
        self.take("=>")
        outputs = self.lowers({")"})
        self.take(")")
        return ProcessCall(place, name, arguments, inputs, outputs)


def tree_of(text):
    return Reader(text).program()


def main(words):
    with open(words[0], encoding="utf-8", newline="") as file:
        for declaration in tree_of(file.read().removeprefix("\ufeff")):
            print(declaration)


if __name__ == "__main__":
    main(sys.argv[1:])
