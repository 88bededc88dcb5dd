"""Sources with places for names, and what may stand in such a place: from these name_cases.py makes most of its cases.

A place is written `@KIND`. Behind each source stands WORLD, which declares a name of each kind.
"""

WORLD = """data Colour where
 Red
 Mix(Int)
data Maybe(a) where
 None
 Just(a)
data Both(a, b) where
 Both(a, b)
protocol Stream(a) => S where
 Item :: Put(a | S) => S
 Done :: TopBot => S
coprotocol S => Clock where
 Tick :: S => TopBot
fun twice :: Int -> Int where
 n -> n + n
proc idle :: Int | Clock => where
 _ | c => -> halt c
proc run :: | => where
 | => -> halt
"""

# For each kind of place what may stand there, an unknown name, and names that are known and not meant there. The variables x
# and z and the type variable a are known in each form that has a place for them, and the channel c where channels are.
PLACES = {
    "data": (
        ["Colour", "Maybe(Int)", "Both(Int, Colour)"],
        "Nobody",
        {
            "a protocol": "Stream(Int)",
            "a constructor": "Red",
            "a coprotocol": "Clock",
            "an argument too few": "Maybe",
            "the console": "Console",
            "a constructor of a protocol": "Item",
            "an argument too many": "Colour(Int)",
            "the terminal": "StringTerminal",
            "an unknown argument": "Maybe(Nobody)",
            "the S of another": "S",
        },
    ),
    "channel": (
        ["Clock", "Stream(Int)", "Console", "StringTerminal"],
        "Nobody",
        {
            "a data type": "Colour",
            "a constructor of a coprotocol": "Tick",
            "an argument too few": "Stream",
            "a data type with arguments": "Maybe(Int)",
            "a constructor": "Red",
            "an argument too many": "Clock(Int)",
            "a protocol as an argument": "Stream(Clock)",
            "the S of another": "S",
            "a constructor of the prelude": "ConsolePut",
        },
    ),
    "variable": (["a"], "b", {"a function": "twice", "a variable": "x"}),
    "pattern": (
        ["Red", "None", "Mix(_)", "Just(None)"],
        "Nobody",
        {
            "a constructor of a protocol": "Item",
            "a data type": "Colour",
            "a constructor of a coprotocol": "Tick",
            "a protocol": "Clock",
            "a constructor of the console": "ConsolePut",
            "one of the terminal in a part": "Just(StringTerminalGet)",
        },
    ),
    "value": (
        ["x", "twice(x)", "z", "Just(x)", "1"],
        "y",
        {
            "a function": "twice",
            "a constructor of a protocol": "Item",
            "a called variable": "x(1)",
            "a process": "idle",
            "a called process": "idle(x)",
            "a type": "Colour",
            "an unknown call": "nobody(x)",
            "a channel": "c",
            "a constructor of the terminal": "StringTerminalPut(x)",
            "an unknown constructor": "Nobody(x)",
            "an unknown argument": "twice(y)",
        },
    ),
    "sent": (
        ["Item", "Tick", "ConsoleGet", "StringTerminalClose"],
        "Nobody",
        {"a constructor": "Red", "a protocol": "Clock", "one of a data type's name": "Both", "the console": "Console"},
    ),
    "function": (["twice"], "nobody", {"a process": "idle", "a variable": "x", "the process run": "run"}),
    "process": (["idle", "run"], "nobody", {"a function": "twice", "a channel": "c", "a variable": "x"}),
}

FUN = "fun t :: Int, Int -> Int where\n x, z -> "
PROC = "proc t :: Int, Int | Clock => Clock where\n x, z | c => d -> "

TYPES = {
    "parts": "data T(a) where\n One(@data)\n Two(@data, @variable, @data)\n",
    "compound parts": "data T(a) where\n One([@data], (@data, @variable), [[@variable]])\n",
    "arguments": "data T(a) where\n One(Maybe(@data), Both(@data, @variable), Maybe(Maybe(@data)))\n",
    "lines of a protocol": (
        "protocol T(a) => U where\n One :: Put(@data | Get(@variable | @channel)) => U\n Two :: @channel (*) @channel => U\n"
        " Three :: Neg(@channel) => U\n"
    ),
    "lines of a coprotocol": (
        "coprotocol U => T(a) where\n One :: U => Get(@data | Put(@variable | @channel))\n"
        " Two :: U => @channel (+) @channel\n Three :: U => Neg(@channel)\n"
    ),
    "arguments in lines": (
        "protocol T(a) => U where\n One :: Stream(@data) => U\n Two :: Stream([@variable]) => U\n"
        " Three :: Put(Maybe(@data) | U) => U\n"
    ),
    "a function's heading": "fun t :: @data, [@data], (@data, @data) -> @data where\n x, y, z -> t(x, y, z)\n",
    "compound results": "fun t :: -> [(@data, Maybe([@data]))] where\n -> []\n",
    "a process's heading": (
        "proc t :: @data, [@data] | @channel, Put(@data | @channel) => Get(@data | @channel) where\n"
        " _, _ | a, b => c -> halt\n"
    ),
    "pairs of channel types": (
        "proc t :: | @channel (*) (@channel (+) @channel) => (Put(@data | @channel) (*) @channel) (+) @channel where\n"
        " | a => b -> halt\n"
    ),
    "channel types in brackets": "proc t :: | (@channel) => Neg((@channel)), ((@channel)) where\n | a => b, c -> halt\n",
    "arguments of channel types": (
        "proc t :: | Stream(@data) => Stream([@data]), Put([@data] | Stream((@data, Int))) where\n | a => b, c -> halt\n"
    ),
    "links": (
        "proc t :: | => where\n | => -> plug a :: @channel, b :: Put(@data | Neg(@channel)), c :: Stream(@data) of\n"
        "  => a, b, c -> halt\n  a, b, c => -> halt\n"
    ),
}

PATTERNS = {
    "patterns of rows": "fun t :: Int, Int -> Int where\n @pattern, x : z -> @value\n x, (z, @pattern) -> @value\n",
    "parts of a pattern": "fun t :: Int -> Int where\n Both(@pattern, Mix(@pattern)) -> 1\n",
    "items of a pattern": "fun t :: Int -> Int where\n [@pattern, 1, @pattern] -> 1\n",
    "a pair of patterns": "fun t :: Int -> Int where\n ((@pattern), @pattern) -> 1\n",
    "cells of a pattern": "fun t :: Int -> Int where\n @pattern : (@pattern : _) : @pattern -> 1\n",
    "literals of a pattern": "fun t :: Int -> Int where\n (-1, 'c') : \"t\" : True : _ : @pattern -> 1\n",
}

OPERATORS = "|| && == /= < <= > >= : ++ + - * div mod".split()

EXPRESSIONS = {
    "the value of a row": FUN + "@value\n",
    "if": FUN + "if @value then @value else @value\n",
    "case": FUN + "case @value of\n  @pattern -> @value\n  x : @pattern -> @value\n",
    "case in case": FUN + "case (case @value of @pattern -> @value) of\n  n -> case n of\n   @pattern -> @value\n",
    "an unary minus": FUN + "-@value\n",
    "a call": FUN + "@function(@value, @value)\n",
    "a call without arguments": FUN + "@function()\n",
    "calls in calls": FUN + "@function(@function(@value), @value)\n",
    "code and char": FUN + "code(@value) : char(@value) : []\n",
    "a constructor's parts": FUN + "Both(@value, Just(@value))\n",
    "items of a list": FUN + "[@value, [@value], @value]\n",
    "a pair": FUN + "((@value), (@value, @value))\n",
    "chains": FUN + "@value + @value * @value - @value : @value ++ @value : @value\n",
    "choices": FUN + "@value == @value && @value < @value || @value\n",
} | {"the sides of " + one: FUN + "@value %s @value\n" % one for one in OPERATORS}

COMMANDS = {
    "put": PROC + "do\n  put @value on c\n  put @value on d\n  halt\n",
    "hput": PROC + "do\n  hput @sent on c\n  put @value on c\n  hput @sent on d\n  halt\n",
    "hcase": PROC + "hcase c of\n  @sent -> do\n   put @value on d\n   halt\n  @sent -> @process(@value | c => )\n",
    "fork": (
        PROC + "fork c as\n  p -> do\n   put @value on p\n   hput @sent on p\n   halt p\n  q -> @process(@value | q => )\n"
    ),
    "plug": (
        PROC + "plug p :: @channel, q :: Get(@data | @channel) of\n  => p -> @process(@value | p => )\n"
        "  p => q -> do\n   put @value on q\n   halt\n  q, c => d -> hcase d of\n   @sent -> halt\n"
    ),
    "race": PROC + "race\n  c -> do\n   get x on c\n   @process(@value | c => )\n  d -> do\n   hput @sent on d\n   halt d\n",
    "case of a process": (
        PROC + "case @value of\n  @pattern -> @process(@value | c => )\n"
        "  x : @pattern -> do\n   put @value on c\n   halt\n"
    ),
    "a call of a process": PROC + "@process(@value, @value | c, c => d)\n",
    "a call of a process without values": PROC + "@process( | c => d)\n",
    "behind actions": (
        PROC + "do\n  get x on c\n  put @value on c\n  split c into c, e\n  hput @sent on c\n  close c\n"
        "  @process(@value | c => )\n"
    ),
    "commands in commands": (
        PROC + "hcase c of\n  Tick -> fork d as\n   p -> race\n    p -> case @value of\n"
        "     @pattern -> plug e :: @channel of\n      => e -> @process(@value | => )\n      e => -> halt\n   q -> halt\n"
    ),
}

FORMS = TYPES | PATTERNS | EXPRESSIONS | COMMANDS
