"""The tokens of a source and their layout: the first half of the tests' reference."""

NAME_CHARACTERS = 64
TEXT_CHARACTERS = 1_024
NUMBER = 9_223_372_036_854_775_807

RESERVED = set(
    "data protocol coprotocol fun proc where of do as race plug put get hput hcase split into fork close halt on neg "
    "case if then else div mod code char Int Char Bool True False Put Get Neg TopBot".split()
)
SYMBOLS = ":: => -> |=| (*) (+) == /= <= >= && || ++ ( ) [ ] , | = < > + - * :".split()
LONGEST_FIRST = sorted(SYMBOLS, key=len, reverse=True)
OPENERS = {"where", "of", "do", "as", "race"}
ESCAPES = set("nrt\\\"'")
HEXADECIMAL = set("0123456789abcdefABCDEF")

FAULTS = {
    "E01": "BadCharacter",
    "E02": "OpenString",
    "E03": "BadEscape",
    "E04": "NumberTooLarge",
    "E05": "NameTooLong",
    "E06": "Tab",
    "E07": "BadColumn",
    "E08": "TextTooLong",
    "E10": "Unexpected",
    "E11": "TooDeep",
}


class Fault(Exception):
    """A fault's number and its place."""

    def __init__(self, number, place):
        self.number = number
        self.place = place

    def __str__(self):
        return "%s %s at %d:%d" % (self.number, FAULTS[self.number], *self.place)


class Token:
    """A word of a source: its kind, its place, where it stands in the text, and whether it is the first of its line."""

    def __init__(self, kind, place, start, end, first):
        self.kind, self.place, self.start, self.end, self.first = kind, place, start, end, first


def places_of(text):
    """The place of each character and, last, that of the end: lines are ended by LF, columns count characters."""
    places, line, column = [], 1, 1
    for character in text:
        places.append((line, column))
        line, column = (line + 1, 1) if character == "\n" else (line, column + 1)
    places.append((line, column))
    return places


def begins_name(character):
    return character.isidentifier()


def goes_on(character):
    return character == "'" or ("a" + character).isidentifier()


def escape_end(text, at):
    """The end of the escape whose backslash stands here, or None where it is none."""
    rest = text[at + 1 : at + 10]
    if rest[:1] in ESCAPES and rest:
        return at + 2
    if rest.startswith("u{") and "}" in rest:
        digits = rest[2 : rest.index("}")]
        if 1 <= len(digits) <= 6 and set(digits) <= HEXADECIMAL:
            value = int(digits, 16)
            if value <= 0x10FFFF and not 0xD800 <= value <= 0xDFFF:
                return at + 1 + rest.index("}") + 1
    return None


def literal(text, at, places):
    """The kind and the end of the literal whose quote stands here. A literal without an end reaches to the end of its line,
    so that a Tab and a wrong escape behind its quote come before the missing quote."""
    quote, here, characters = text[at], at + 1, 0
    while here < len(text) and text[here] not in (quote, "\n"):
        if text[here] == "\t":
            raise Fault("E06", places[here])
        if text[here] == "\\":
            end = escape_end(text, here)
            if end is None:
                raise Fault("E03", places[here])
            here = end
        else:
            here += 1
        characters += 1
    if here == len(text) or text[here] == "\n" or (quote == "'" and characters != 1):
        raise Fault("E02", places[at])
    if characters > TEXT_CHARACTERS:
        raise Fault("E08", places[at])
    return ("TEXT" if quote == '"' else "CHARACTER"), here + 1


def name(text, at, places):
    end = at + 1
    while end < len(text) and goes_on(text[end]):
        end += 1
    spelling = text[at:end]
    if len(spelling) > NAME_CHARACTERS:
        raise Fault("E05", places[at])
    if spelling == "_" or spelling in RESERVED:
        return spelling, end
    return ("UPPER" if "A" <= spelling[0] <= "Z" else "LOWER"), end


def number(text, at, places):
    end = at
    while end < len(text) and text[end] in "0123456789":
        end += 1
    if int(text[at:end]) > NUMBER:
        raise Fault("E04", places[at])
    return "NUMBER", end


def symbol(text, at, places):
    for spelling in LONGEST_FIRST:
        if text.startswith(spelling, at):
            return spelling, at + len(spelling)
    raise Fault("E01", places[at])


def white_end(text, at):
    """The end of the white space or the comment that begins here, or None."""
    if text[at] in " \n":
        return at + 1
    if text.startswith("\r\n", at):
        return at + 2
    if text.startswith("--", at):
        end = text.find("\n", at)
        return len(text) if end < 0 else end
    return None


def tokens_of(text):
    """The tokens of a text, each the longest that begins at its place; or its first fault."""
    places, tokens, at, line = places_of(text), [], 0, 0
    while at < len(text):
        skipped = white_end(text, at)
        if skipped is not None:
            at = skipped
            continue
        character = text[at]
        if character == "\t":
            raise Fault("E06", places[at])
        if character in "\"'":
            kind, end = literal(text, at, places)
        elif begins_name(character):
            kind, end = name(text, at, places)
        elif character in "0123456789":
            kind, end = number(text, at, places)
        else:
            kind, end = symbol(text, at, places)
        tokens.append(Token(kind, places[at], at, end, places[at][0] != line))
        line, at = places[at][0], end
    return tokens


# ---- Layout
#
# The stack of open blocks, each with its column, and open brackets begins with the source's own block of column 1.
# - Behind `where`, `of`, `do`, `as` and `race` the next token opens a block in its column, which has to be greater than that
#   of the nearest block.
# - A closing bracket closes the blocks inside its bracket, where one is open.
# - Else the first token of a line closes the blocks of greater columns. Where it then stands in the column of the block on
#   top, a semicolon comes before it; where it has closed a block and stands to the right of the one on top, its column is
#   a fault. Inside a bracket neither comes.
# - At the end all blocks are closed.


def layout_of(text):
    """The tokens with the braces and semicolons of layout. The stack has a column for a block and None for a bracket."""
    tokens = tokens_of(text)
    end = places_of(text)[-1]
    laid = [Token("{", tokens[0].place if tokens else end, 0, 0, False)]
    stack = [1]
    opening = False

    def put(kind, place):
        laid.append(Token(kind, place, 0, 0, False))

    def open_block(place, column):
        if column is None or column <= [block for block in stack if block is not None][-1]:
            raise Fault("E07", place)
        put("{", place)
        stack.append(column)

    def close_bracket(place):
        while stack[-1] is not None:
            stack.pop()
            put("}", place)
        stack.pop()

    def begin_line(place):
        closed = False
        while stack[-1] is not None and stack[-1] > place[1]:
            stack.pop()
            put("}", place)
            closed = True
        if stack[-1] is None:
            return
        if stack[-1] == place[1]:
            put(";", place)
        elif closed:
            raise Fault("E07", place)

    for index, token in enumerate(tokens):
        if index == 0 and token.place[1] != 1:
            raise Fault("E07", token.place)
        if opening:
            open_block(token.place, token.place[1])
        if token.kind in (")", "]") and None in stack:
            close_bracket(token.place)
        elif token.first and index > 0 and not opening:
            begin_line(token.place)
        if token.kind in ("(", "["):
            stack.append(None)
        opening = token.kind in OPENERS
        laid.append(token)
    if opening:
        open_block(end, None)
    for block in reversed(stack):
        if block is not None:
            put("}", end)
    return laid
