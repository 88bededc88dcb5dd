"""The cases for the grammar, as a name and a source.

From each accepted source come the source cut before each of its words, and the source with that word changed into another
kind. To them come each kind of nesting at its limit and one past it, and faults of tokens and of layout. The answers are
those of grammar.py.
"""

from grammar import NESTING, WORDS, answer, read
from tokens import layout_of, tokens_of

FUN = "fun f :: -> Int where\n -> "
PROC = "proc p :: | => where\n | => -> "


def row(patterns):
    return "fun f :: -> Int where\n " + patterns + " -> 1"


# For each form of the grammar an accepted source.
ACCEPTED = {
    "nothing": "",
    "data": "data D where\n A",
    "data of two": "data D where\n A\n B(Int, Char)\ndata E where\n C([D])\n",
    "data with parameters": "data D(a, b) where\n A\n B(a, [b], D(a, b))",
    "protocol": "protocol P => S where\n A :: Put(Int | S) => S\n B :: TopBot => S",
    "protocol with parameters": "protocol P(a, b) => S where\n A :: Get((a, b) | S) => S",
    "coprotocol": "coprotocol S => Q where\n A :: S => Neg(S)\n B :: S => TopBot",
    "coprotocol with parameters": "coprotocol S => Q(a, b) where\n A :: S => Put(a | Get(b | S))",
    "function": "fun f :: Int, Char -> Bool where\n 1, _ -> True\n x, 'c' -> False",
    "function with parameters": "fun f :: [a], (b, Bool), (Int) -> D([a], b) where\n x, y, z -> f(x, y, z)",
    "process": "proc p :: Int, a | D, Q(a, [b]) => TopBot, E where\n x, _ | a, b => c, d -> halt",
    "tensor": "proc p :: | (A (*) B) (*) Neg(C (*) D) => where\n | a => -> halt a",
    "par": "proc p :: | => Put(Int | A) (+) ((B) (+) C) where\n | => a -> halt a",
    "declarations": "data D where\n A\nprotocol P => S where\n A :: S => S\nfun f :: -> D where\n -> A\n" + PROC + "halt\n",
    "actions": PROC + "do\n  put 1 on a\n  get x on b\n  get _ on b\n  hput C on c\n  split d into e, f\n  close g\n  halt h",
    "do alone": PROC + "do halt",
    "hcase": PROC + "hcase a of\n  A -> halt\n  B -> do\n   close a\n   halt",
    "fork": PROC + "fork a as\n  b -> halt b\n  c -> do\n   halt c",
    "plug": PROC + "plug a :: TopBot, b :: D (*) E of\n  => a -> halt\n  a => b, c -> halt\n  b, d => -> halt",
    "race": PROC + "race\n  a -> do\n   get x on a\n   halt\n  b -> halt",
    "case of a process": PROC + "case x of\n  1 -> halt\n  _ -> p(| => )",
    "identity": PROC + "a |=| b",
    "identity with neg": PROC + "a |=| neg b",
    "process call": PROC + "q(1, x | a, b => c, d)",
    "process call without": PROC + "q( | => )",
    "pattern atoms": row("_, x, 1, -2, 'c', \"t\", True, False, (a), (b, c)"),
    "constructor patterns": row("A, B(x), C(_, A)"),
    "list patterns": row("[], [x], [1, y]"),
    "pattern chain": row("x : [y] : z, (1 : _, 'a' : _)"),
    "if": FUN + "if a then b else if c then d else e",
    "case": FUN + "case x of\n  A -> 1\n  y : _ -> case y of 1 -> 2",
    "or": FUN + "a || b || c",
    "and": FUN + "a && b && c || d && e",
    "equal": FUN + "a == b",
    "differs": FUN + "a /= b && c /= d",
    "less": FUN + "a < b || c <= d",
    "greater": FUN + "a > b && c >= d",
    "list chain": FUN + "a : b ++ c : d",
    "sum": FUN + "a + b - c + d",
    "product": FUN + "a * b div c mod d * e",
    "minus": FUN + "-a - - -b * -1",
    "levels": FUN + "a * b + c : d == e ++ f && g || -h",
    "atoms": FUN + "[1, 'c', \"t\", True, False, x, A]",
    "calls": FUN + "f(g(), h(1), k(x, y))",
    "code and char": FUN + "code(char(65))",
    "constructors": FUN + "A(B, C(1), D(x, y))",
    "lists": FUN + "[[], [a], [b, c]]",
    "brackets": FUN + "((a), (b, c))",
    "if in brackets": FUN + "(if a then b else c) + f(case x of y -> y)",
    "blocks in brackets": FUN + "[case x of\n  A -> 1\n  B -> 2\n , 3]",
    "escapes": FUN + "\"\\n\\r\\t\\\\\\\"\\'\\u{41}\" : ['\\'', '\\u{10FFFF}', '\"']",
    "comments": "-- first\nfun f :: -> Int where -- second\n\n  -- third\n -> 1 -- fourth",
    "names": FUN + "_a + b' + a_b'1 + iff + é + Case + Ox'",
}

# Words that are put in the place of others, with one of each kind.
WRONG = (
    "where x ) X , -> 7 => ( :: | of \"t\" + : if halt [ 'c' = ] - case (*) _ then on True do == Int && put "
    "data |=| div as not neg else Put || proc ++ race"
).split()

# Each kind of nesting: what stands before, what stands again and again, what stands in the middle, what stands behind for
# each time, and the end.
NESTED = {
    "brackets": (FUN, "(", "1", ")", ""),
    "lists": (FUN, "[", "1", "]", ""),
    "empty list": (FUN, "[", "[]", "]", ""),
    "empty call": (FUN, "(", "f()", ")", ""),
    "calls": (FUN, "f(", "1", ")", ""),
    "constructors": (FUN, "A(", "1", ")", ""),
    "code": (FUN, "code(", "1", ")", ""),
    "char": (FUN, "char(", "1", ")", ""),
    "first of pairs": (FUN, "(", "1", ", 2)", ""),
    "second of pairs": (FUN, "(1, ", "2", ")", ""),
    "minus": (FUN, "- ", "1", "", ""),
    "minus in brackets": (FUN, "-(", "1", ")", ""),
    "if": (FUN, "if a then b else ", "c", "", ""),
    "condition of if": (FUN, "if ", "a", " then b else c", ""),
    "then of if": (FUN, "if a then ", "b", " else c", ""),
    "case": (FUN, "case x of y -> ", "1", "", ""),
    "case in brackets": (FUN, "(case x of y -> ", "1", ")", ""),
    "scrutinee in brackets": (FUN, "case (", "1", ") of y -> 1", ""),
    "case of a process": (PROC, "case x of y -> ", "halt", "", ""),
    "hcase": (PROC, "hcase a of A -> ", "halt", "", ""),
    "race": (PROC, "race a -> ", "halt", "", ""),
    "plug": (PROC, "plug a :: D of => a -> ", "halt", "", ""),
    "do": (PROC, "hcase a of A -> do ", "halt", "", ""),
    "list patterns": ("fun f :: -> Int where\n ", "[", "1", "]", " -> 1"),
    "empty list pattern": ("fun f :: -> Int where\n ", "[", "[]", "]", " -> 1"),
    "constructor patterns": ("fun f :: -> Int where\n ", "A(", "x", ")", " -> 1"),
    "brackets of patterns": ("fun f :: -> Int where\n ", "(", "x", ")", " -> 1"),
    "pairs of patterns": ("fun f :: -> Int where\n ", "(1, ", "x", ")", " -> 1"),
    "list types": ("fun f :: ", "[", "Int", "]", " -> Int where\n x -> 1"),
    "pair types": ("fun f :: ", "(Int, ", "Int", ")", " -> Int where\n x -> 1"),
    "brackets of types": ("fun f :: ", "(", "Int", ")", " -> Int where\n x -> 1"),
    "named types": ("fun f :: -> ", "D(", "a", ")", " where\n -> 1"),
    "put types": ("proc p :: | ", "Put(Int | ", "D", ")", " => where\n | a => -> halt"),
    "get types": ("proc p :: | ", "Get(Int | ", "D", ")", " => where\n | a => -> halt"),
    "neg types": ("proc p :: | ", "Neg(", "D", ")", " => where\n | a => -> halt"),
    "brackets of channel types": ("proc p :: | => ", "(", "D", ")", " where\n | a => -> halt"),
    "tensors": ("proc p :: | => ", "A (*) (", "D", ")", " where\n | a => -> halt"),
    "left tensors": ("proc p :: | => ", "(", "D", ") (*) A", " where\n | a => -> halt"),
}

# Each chain and each list with commas: what stands before, the first part, what is added again and again, and the end.
CHAINS = {
    "or": (FUN, "a", " || b", ""),
    "and": (FUN, "a", " && b", ""),
    "cons": (FUN, "a", " : b", ""),
    "append": (FUN, "a", " ++ b", ""),
    "sum": (FUN, "a", " + b", ""),
    "difference": (FUN, "a", " - b", ""),
    "product": (FUN, "a", " * b", ""),
    "div": (FUN, "a", " div b", ""),
    "mod": (FUN, "a", " mod b", ""),
    "chain of the limit": (FUN, "a", " + 1", " * 2"),
    "minus in a chain": (FUN, "a", " * b", " * -c"),
    "comparison of chains": (FUN, "a", " + b", " == c"),
    "cons patterns": ("fun f :: -> Int where\n ", "x", " : y", " -> 1"),
    "patterns of a row": ("fun f :: -> Int where\n ", "x", ", y", " -> 1"),
    "number patterns": ("fun f :: -> Int where\n ", "1", ", -2", " -> 1"),
    "parameter types": ("fun f :: ", "Int", ", Int", " -> Int where\n -> 1"),
    "parts of a list": (FUN + "[", "a", ", b", "]"),
    "parts of a list pattern": ("fun f :: -> Int where\n [", "a", ", b", "] -> 1"),
    "arguments": (FUN + "f(", "a", ", b", ")"),
    "arguments of a constructor": (FUN + "A(", "a", ", b", ")"),
    "parts of a pattern": ("fun f :: -> Int where\n A(", "a", ", b", ") -> 1"),
    "parts of a constructor": ("data D where\n A(", "Int", ", Int", ")"),
    "arguments of a type": ("data D where\n A(D(", "Int", ", Int", "))"),
    "parameters of a data type": ("data D(", "a", ", a", ") where\n A"),
    "parameters of a protocol": ("protocol P(", "a", ", a", ") => S where\n A :: S => S"),
    "parameters of a coprotocol": ("coprotocol S => P(", "a", ", a", ") where\n A :: S => S"),
    "arguments of a channel type": ("proc p :: | D(", "Int", ", Int", ") => where\n | => -> halt"),
    "types of a process": ("proc p :: ", "Int", ", Int", " | => where\n | => -> halt"),
    "inputs of a process": ("proc p :: | ", "D", ", D", " => where\n | => -> halt"),
    "outputs of a process": ("proc p :: | => ", "D", ", D", " where\n | => -> halt"),
    "variables of a row": ("proc p :: | => where\n ", "x", ", _", " | => -> halt"),
    "inputs of a row": ("proc p :: | => where\n | ", "a", ", b", " => -> halt"),
    "outputs of a row": ("proc p :: | => where\n | => ", "a", ", b", " -> halt"),
    "links": (PROC + "plug ", "a :: D", ", b :: D", " of => -> halt"),
    "inputs of a part": (PROC + "plug a :: D of ", "a", ", b", " => -> halt"),
    "outputs of a part": (PROC + "plug a :: D of => ", "a", ", b", " -> halt"),
    "arguments of a process": (PROC + "p(", "x", ", x", " | => )"),
    "inputs of a call": (PROC + "p( | ", "a", ", b", " => )"),
    "outputs of a call": (PROC + "p( | => ", "a", ", b", ")"),
    "put of a chain": (PROC + "do\n  put ", "a", " : b", " on c\n  halt"),
}


def fork_of(times):
    """Forks, each in the second row of the one before, in blocks of growing columns."""
    lines = []
    for level in range(times):
        pad = " " * (level + 2)
        lines += ["fork a as\n" + pad + "b -> halt\n" + pad + "c -> "]
    return PROC + "".join(lines) + "halt"


LONG = "x" * 64

# Faults of tokens, and texts that come near to one.
TOKENS = {
    "at sign": FUN + "a @ b",
    "one ampersand": FUN + "a & b",
    "slash": FUN + "a / b",
    "semicolon": FUN + "a ; b",
    "brace": FUN + "{a}",
    "backslash": FUN + "\\n",
    "point": FUN + "1.5",
    "CR in a line": FUN + "a\rb",
    "CR before LF": "fun f :: -> Int where\r\n -> 1\r\n",
    "two CR": "fun f :: -> Int where\r\r\n -> 1",
    "CR at the end": FUN + "1\r",
    "CR in a comment": FUN + "1 -- a\rb\n",
    "CR in a text": FUN + "\"a\rb\"",
    "control character": FUN + "a \x01",
    "no-break space": FUN + "a\u00a0b",
    "sign of multiplication": FUN + "a × b",
    "letter": FUN + "é",
    "accent behind a letter": FUN + "e\u0301",
    "accent alone": FUN + "\u0301",
    "mark in the middle": FUN + "\ufeff1",
    "quote in a name": FUN + "a'b'c'",
    "wildcard and quote": FUN + "_'",
    "capital letter É": FUN + "É",
    "open text": FUN + "\"abc",
    "open text before LF": FUN + "\"abc\n -> 2",
    "open character": FUN + "'a",
    "quote alone": FUN + "'",
    "empty character": FUN + "''",
    "two characters": FUN + "'ab'",
    "two escapes": FUN + "'\\n\\n'",
    "escape as a character": FUN + "'\\u{e9}'",
    "wrong escape": FUN + "\"ab\\qcd\"",
    "wrong escape in an open text": FUN + "\"ab\\qcd",
    "escape at the end of a line": FUN + "\"ab\\\n\"",
    "escape at the end": FUN + "\"ab\\",
    "escape without digits": FUN + "\"\\u{}\"",
    "escape with seven digits": FUN + "\"\\u{0000041}\"",
    "escape with six digits": FUN + "\"\\u{000041}\"",
    "escape without a brace": FUN + "\"\\u41\"",
    "open escape": FUN + "\"\\u{41\"",
    "escape with a letter": FUN + "\"\\u{4g}\"",
    "escape of a surrogate": FUN + "\"\\u{D800}\"",
    "escape of the last surrogate": FUN + "\"\\u{dfff}\"",
    "escape behind the surrogates": FUN + "\"\\u{E000}\"",
    "escape of the last character": FUN + "\"\\u{10ffff}\"",
    "escape above all characters": FUN + "\"\\u{110000}\"",
    "capital escape": FUN + "\"\\N\"",
    "greatest number": FUN + "9223372036854775807",
    "number too large": FUN + "9223372036854775808",
    "number of twenty digits": FUN + "12345678901234567890",
    "zeros before a number": FUN + "000000000000000000000000000000001",
    "zeros before a large number": FUN + "00009223372036854775808",
    "number before a name": FUN + "1a",
    "longest name": FUN + LONG,
    "name too long": FUN + LONG + "y",
    "longest name of two bytes": FUN + "é" * 64,
    "name too long of two bytes": FUN + "é" * 65,
    "longest text": FUN + "\"" + "x" * 1024 + "\"",
    "text too long": FUN + "\"" + "x" * 1025 + "\"",
    "longest text with escapes": FUN + "\"" + "\\n" * 1024 + "\"",
    "text too long with escapes": FUN + "\"" + "\\u{41}" * 1025 + "\"",
    "open text too long": FUN + "\"" + "x" * 1025,
    "long character": FUN + "'" + "x" * 1025 + "'",
    "Tab": FUN + "a\t+ b",
    "Tab first": "\tfun",
    "Tab in a text": FUN + "\"a\tb\"",
    "Tab in an open text": FUN + "\"a\tb",
    "Tab in a character": FUN + "'\t'",
    "Tab in a comment": FUN + "a -- \t\n",
    "Tab behind a wrong escape": FUN + "\"\\q\t\"",
    "wrong escape behind a Tab": FUN + "\"\t\\q\"",
    "first of two faults": FUN + "\"a @ 9223372036854775808",
    "comment of three dashes": FUN + "1 ---",
    "comment in a text": FUN + "\"--\"",
    "comment behind an arrow": "fun f :: -> Int where\n --> 1",
    "text of signs": FUN + "\"\t",
    "longest symbols": "proc p :: | => where\n | => -> a|=|b",
    "star in brackets": FUN + "a(*)b",
    "plus in brackets": FUN + "f(+)",
    "three equals": FUN + "a === b",
    "three colons": "fun f ::: -> Int where\n -> 1",
    "fault of a token behind one of layout": " fun @",
    "fault of a token behind one of words": ") @",
}

# Faults of layout, and layouts that come near to one.
LAYOUTS = {
    "first token in column 2": " data D where\n  A",
    "first token in column 2 of line 2": "\n data D where\n  A",
    "comment before the first token": "-- c\ndata D where\n A",
    "block in column 1": "data D where\nA",
    "no block": "data D where",
    "no block before LF": "data D where\n",
    "no block before a comment": "data D where -- A",
    "block on the line": "data D where A",
    "second line of a block": "data D where A\n             B",
    "second line to the left": "data D where A\n       B",
    "second line to the right": "data D where A\n               B",
    "inner block as its outer": PROC + "do\n close a\n halt",
    "inner block to the left": PROC + "hcase a of\n   A -> do\n  halt",
    "block closed and between": PROC + "hcase a of\n    A -> do\n     close a\n   B -> halt",
    "blocks closed at once": PROC + "hcase a of\n  A -> hcase a of\n   B -> do\n    close a\n    halt\n  C -> halt",
    "line goes on": FUN + "a\n  + b",
    "line doesn't go on": FUN + "a\n + b",
    "line in column 1": FUN + "a\n+ b",
    "line goes on in brackets": FUN + "(a\n+ b)",
    "bracket in column 1": FUN + "(a\n)",
    "bracket closes blocks": FUN + "(case a of b -> case c of d -> e)",
    "bracket before a block's column": FUN + "(case a of\n   b -> c\n  )",
    "line in brackets to the left of a block": FUN + "(case a of\n     b -> c\n  , d)",
    "line in brackets between": FUN + "(case a of\n     case b of\n         c -> d\n       e)",
    "comma in a block in brackets": FUN + "[case x of\n  A -> 1\n  B -> 2, 3]",
    "bracket without its other": FUN + "a)",
    "bracket without its other in a line": FUN + "a\n )",
    "bracket without its other in column 1": FUN + "a\n)",
    "brackets that differ": FUN + "(a]",
    "block before a bracket": FUN + "(case a of)",
    "block before a bracket alone": "data D where )",
    "block before a bracket in column 1": "data D where\n)",
    "open bracket at the end": FUN + "(a",
    "open bracket before a line": FUN + "(a\n -> b",
    "block in an open bracket": FUN + "(case a of\n b",
    "block in brackets beyond their column": FUN + "(case a of\nb)",
    "opener behind an opener": PROC + "case a of do",
    "opener at the end": PROC + "case a of do\n",
    "race alone": PROC + "race",
    "as alone": PROC + "fork a as\n\n",
    "two programs": PROC + "halt\n" + PROC + "halt",
    "declaration on a line": "data D where A data",
    "declaration in column 2": "data D where\n  A\n data E where\n  B",
    "only a comment": "-- nothing",
    "only white space": "  \n  \n",
    "token in column 2 alone": " x",
    "empty lines": "data D where\n\n\n A\n\n B\n\n",
    "block in a block's column behind brackets": "data D where\n A(\n Int\n )\n B",
    "row under its block": "fun f :: -> Int where\n -> case a of\n  b -> c\n  d -> e\n -> f",
    "word behind the program": "data D where\n A\nx",
}


def unique(cases, seen, name, text):
    """Adds a case, where no earlier one has this text."""
    if text not in seen:
        seen.add(text)
        cases.append((name, text))


def cuts(name, text, told):
    """The text cut before each of its tokens, where that has a fault and no earlier source begins so."""
    for number, token in enumerate(tokens_of(text), 1):
        cut = text[: token.start]
        if cut not in told and answer(cut) != "tree":
            told.add(cut)
            yield "%s, cut at %d" % (name, number), cut


def kind_of(spelling):
    return tokens_of(spelling)[0].kind


def with_word(text, token, spelling):
    """The text with another word in a token's place, apart from its neighbours."""
    before, behind = text[: token.start], text[token.end :]
    left = "" if before[-1:] in ("", " ", "\n") else " "
    right = "" if behind[:1] in ("", " ", "\n") else " "
    return before + left + spelling + right + behind


def changes(name, text, told, turn):
    """The text with each of its tokens changed: into the next word of WRONG that gives a fault. Tokens are left out that an
    earlier source has at the same place of the rules behind the same place of the rules."""
    in_rules = read(text)
    tokens = [(token, pair) for token, *pair in zip(layout_of(text)[1:], in_rules, in_rules[1:]) if token.end > 0]
    for number, (token, pair) in enumerate(tokens, 1):
        if tuple(pair) in told:
            continue
        told.add(tuple(pair))
        for _ in WRONG:
            spelling = WRONG[turn[0] % len(WRONG)]
            turn[0] += 1
            changed = with_word(text, token, spelling)
            if kind_of(spelling) != token.kind and answer(changed) != "tree":
                yield "%s, changed at %d" % (name, number), changed
                break


def limit_of(source):
    """The most times for which a source is accepted; once more is too deep."""
    most, past = 1, NESTING + 1
    while most + 1 < past:
        times = (most + past) // 2
        most, past = (times, past) if answer(source(times)) == "tree" else (most, times)
    assert answer(source(past)).startswith("E11"), source(past)[:80]
    return most


def deep_sources():
    for name, (head, piece, middle, behind, end) in NESTED.items():
        yield name, lambda n, h=head, p=piece, m=middle, b=behind, e=end: h + p * n + m + b * n + e
    for name, (head, first, more, end) in CHAINS.items():
        yield name, lambda n, h=head, f=first, m=more, e=end: h + f + m * n + e
    yield "fork", fork_of
    yield "operators in calls", lambda n: FUN + "f(" * 90 + "a" + " + b" * n + ")" * 90
    yield "minus on both sides", lambda n: FUN + "- " * n + "a + " + "- " * (n - 1) + "b"
    yield "levels of operators", lambda n: FUN + "a + b : " * n + "c"


def all_cases():
    cases, seen, told_cuts, told_pairs, turn, read_words = [], set(), set(), set(), [0], set()
    for name, text in ACCEPTED.items():
        read_words.update(read(text))
        unique(cases, seen, name, text)
        for made in [*cuts(name, text, told_cuts), *changes(name, text, told_pairs, turn)]:
            unique(cases, seen, *made)
    missing = [(word.rule, word.kind) for word in WORDS if word not in read_words]
    assert not missing, missing
    for name, source in deep_sources():
        most = limit_of(source)
        unique(cases, seen, name + ", at the limit", source(most))
        unique(cases, seen, name + ", past the limit", source(most + 1))
    for group in (TOKENS, LAYOUTS):
        for name, text in group.items():
            unique(cases, seen, name, text)
    return cases
