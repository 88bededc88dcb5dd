"""Listings of code, read again by what docs/LANGUAGE.md says of them under "Listings" and "Instructions".

An instruction is its word with its operands: ("get", 0, 3). A decision's line has only its number of rows; what else there is to
know of a decision stands in `Decision`.
"""

import re
from collections import namedtuple

from trees import ESCAPES

Block = namedtuple("Block", "name variables inputs outputs code")
# takes: the number of values; binds: each row's number of variables; tree: ("row", number, spots), ("test", spot, head, yes, no) or None
Decision = namedtuple("Decision", "takes binds tree")
Code = namedtuple("Code", "functions processes decisions")

OPERATIONS = "add sub mul div mod neg eq ne lt le gt ge append code char".split()

# The operands of each instruction, a letter for each: n a number, i one that may be negative, b a truth, t a text, o an operation,
# s a side, v a variable, e a channel, l a place, f a function, m a decision, p a process, L a list of places, E of channels.
OPERANDS = {
    "int": "i", "char": "n", "bool": "b", "nil": "", "text": "t", "load": "v", "cons": "", "pair": "", "build": "nn", "op": "o",
    "jump": "l", "unless": "l", "call": "f", "match": "mvL", "return": "",
    "case": "mvL", "put": "e", "get": "ev", "pick": "en", "offer": "eL", "split": "eee", "fork": "eeel", "close": "e", "halt": "e",
    "link": "ee", "linkneg": "ee", "peel": "esl", "race": "L", "go": "pE",
}
COMMANDS = set("case put get pick offer split fork close halt link linkneg peel race go".split())
NUMBER = re.compile("0|[1-9][0-9]*")
SIGNED = re.compile("0|-?[1-9][0-9]*")
QUOTED = re.compile(r'(?:[^"\\]|\\(?:[nrt\\"]|u\{[0-9a-f]+\}))*')


def number(word):
    assert NUMBER.fullmatch(word), word
    return int(word)


def numbers(word):
    return [] if word == "-" else list(map(number, word.split(",")))


def signed(word):
    assert SIGNED.fullmatch(word), word
    return int(word)


def one_of(words):
    def read(word):
        assert word in words, word
        return word

    return read


def quoted(word):
    assert word[0] == word[-1] == '"' and len(word) > 1 and QUOTED.fullmatch(word[1:-1]), word
    spelled = re.sub(r"\\(u\{([0-9a-f]+)\}|.)", lambda m: chr(int(m[2], 16)) if m[2] else ESCAPES[m[1]], word[1:-1])
    assert shown(spelled) == word, word
    return spelled


def shown(text):
    """A text in quotes, with its escapes."""
    escapes = {"\\": "\\\\", '"': '\\"', "\n": "\\n", "\r": "\\r", "\t": "\\t"}
    return '"%s"' % "".join(escapes.get(c) or ("\\u{%x}" % ord(c) if c < " " or c == "\x7f" else c) for c in text)


READERS = {"i": signed, "b": one_of(["True", "False"]), "t": quoted, "o": one_of(OPERATIONS), "s": one_of(["in", "out"]), "L": numbers, "E": numbers}


def instruction_of(line):
    word, space, rest = line.partition(" ")
    letters = OPERANDS[word]
    operands = [rest] if word == "text" else rest.split(" ") if space else []
    assert len(operands) == len(letters) or (word == "halt" and not operands), line
    return (word, *(READERS.get(letter, number)(operand) for letter, operand in zip(letters, operands)))


def instruction_text(instruction):
    word, *operands = instruction
    texts = [shown(one) if word == "text" else (",".join(map(str, one)) or "-") if isinstance(one, list) else str(one) for one in operands]
    return " ".join([word, *texts])


# ---- Decisions, where a table tells all of them


def spot_of(word):
    return tuple(map(number, word.split(".")))


def node_of(line, behind):
    """A node's tree, over those of the nodes behind it; one that isn't there is no row."""
    word, *rest = line.split(" ")
    if word == "fail":
        return None
    if word == "row":
        return ("row", number(rest[0]), [] if rest[1] == "-" else list(map(spot_of, rest[1].split(","))))
    assert word == "test", line
    yes, no = ((behind[n] if n < len(behind) else None) for n in map(number, rest[2:]))
    return ("test", spot_of(rest[0]), rest[1], yes, no)


def decision_of(lines):
    """A decision of the lines `takes N`, `binds LIST` and one for each node."""
    told = dict(line.split(" ") for line in lines[:2])
    behind = []
    for line in reversed(lines[2:]):
        behind.insert(0, node_of(line, behind))
    return Decision(number(told["takes"]), numbers(told["binds"]), behind[0] if behind else None)


# ---- Whole listings


def code_of(text, decisions=None):
    """The code of a listing; what decisions are beside their numbers of rows is told by these, or by further lines."""
    functions, processes, found = [], [], []
    assert not text or text.endswith("\n"), text[-80:]
    for part in filter(None, re.split(r"^(?! )", text, flags=re.MULTILINE)):
        heading, *lines = part[:-1].split("\n")
        assert all(line.startswith("  ") for line in lines), part
        lines = [line[2:] for line in lines]
        word, *operands = heading.split(" ")
        if word == "decision":
            assert len(operands) == 3 and operands[1] == "rows" and number(operands[0]) == len(found), heading
            decision = decisions[len(found)] if decisions is not None else decision_of(lines)
            assert number(operands[2]) == len(decision.binds), heading
            found.append(decision)
            continue
        # Functions, then processes, then decisions.
        assert not found and not (word == "function" and processes), heading
        places = [line.partition(" ") for line in lines]
        assert [place for place, _, _ in places] == list(map(str, range(len(lines)))), heading
        code = [instruction_of(line) for _, _, line in places]
        if word == "function":
            name, variables = operands
            functions.append(Block(name, number(variables), 0, 0, code))
        else:
            assert word == "process", heading
            processes.append(Block(operands[0], *map(number, operands[1:]), code))
    assert decisions is None or len(decisions) == len(found)
    return Code(functions, processes, found)


def listing_of(code):
    """The listing of code."""
    lines = []
    for kind, blocks in (("function", code.functions), ("process", code.processes)):
        for block in blocks:
            counts = block[1:2] if kind == "function" else block[1:4]
            lines.append(" ".join([kind, block.name, *map(str, counts)]))
            lines += ["  %d %s" % (place, instruction_text(one)) for place, one in enumerate(block.code)]
    lines += ["decision %d rows %d" % (n, len(decision.binds)) for n, decision in enumerate(code.decisions)]
    return "".join(line + "\n" for line in lines)
