#!/usr/bin/env python3
"""The reference for scripts: the lines of each channel, the first fault, and the script in version 2.

    scripts.py FILE              prints the script in version 2, or its fault
    scripts.py --read FILE NAMES prints the lines of each of these channels, or the fault
    scripts.py --check           judges rows worked by hand
"""

import re
import sys

NAME_CHARACTERS = 64
TEXT_CHARACTERS = 1_024
SCRIPT_BYTES = 16_777_216
MOST_LINES = {1: 100_000, 2: 100_001}
LINE_CHARACTERS = {1: 1_024, 2: 8_192}
VERSION_LINE = "campl script 2"

ESCAPE = re.compile(r"\\(?:([\\nrt])|u\{([0-9a-fA-F]{1,6})\})")
SHORT = {"\\": "\\", "n": "\n", "r": "\r", "t": "\t"}
SHOWN = {"\\": "\\\\", "\n": "\\n", "\r": "\\r", "\t": "\\t"}


class ScriptFault(Exception):
    """The first fault, as its line has it."""


def lines_of(text):
    """The lines, each without one CR at its end."""
    lines = text.split("\n")
    if lines[-1] == "":
        lines.pop()
    return [line[:-1] if line.endswith("\r") else line for line in lines]


def unescaped(text, number):
    """What a text of version 2 stands for."""
    spelled, at = "", 0
    while at < len(text):
        if text[at] != "\\":
            spelled, at = spelled + text[at], at + 1
            continue
        found = ESCAPE.match(text, at)
        value = int(found[2], 16) if found and found[2] else 0
        if not found or value > 0x10FFFF or 0xD800 <= value <= 0xDFFF:
            raise ScriptFault("script line %d: bad escape" % number)
        spelled, at = spelled + (SHORT[found[1]] if found[1] else chr(value)), found.end()
    return spelled


def shown(text):
    """A text with escapes."""
    return "".join(SHOWN.get(c) or ("\\u{%x}" % ord(c) if ord(c) < 32 or ord(c) == 127 else c) for c in text)


def said_by(version, number, line, known):
    """The name and the text of a line, or None where it is empty."""
    if number > MOST_LINES[version]:
        raise ScriptFault("script line %d: too many lines" % number)
    if len(line) > LINE_CHARACTERS[version]:
        raise ScriptFault("script line %d: too long" % number)
    if not line:
        return None
    name, colon, text = line.partition(":")
    if not colon:
        raise ScriptFault("script line %d: no colon" % number)
    if not known(name):
        raise ScriptFault("script line %d: unknown channel" % number)
    text = text.removeprefix(" ")
    if version == 2:
        text = unescaped(text, number)
        if len(text) > TEXT_CHARACTERS:
            raise ScriptFault("script line %d: too long" % number)
    return name, text


def said(text, known):
    """What each line says, but for a version line."""
    lines = lines_of(text)
    if lines[:1] == [VERSION_LINE]:
        return [said_by(2, number, line, known) for number, line in enumerate(lines[1:], 2)]
    return [said_by(1, number, line, known) for number, line in enumerate(lines, 1)]


def scripts_of(text, names):
    """The lines of each channel."""
    scripts = {name: [] for name in names}
    for one in said(text, lambda name: name in scripts):
        if one is not None:
            scripts[one[0]].append(one[1])
    return scripts


def migrated(text):
    """The script in version 2."""
    lines = [VERSION_LINE]
    for one in said(text, lambda name: len(name) <= NAME_CHARACTERS):
        lines.append("" if one is None else "%s: %s" % (one[0], shown(one[1])))
    whole = "".join(line + "\n" for line in lines)
    if len(whole.encode()) > SCRIPT_BYTES:
        raise ScriptFault("migrated script is longer than %d bytes" % SCRIPT_BYTES)
    return whole


# ---- Rows worked by hand


def told(make, *words):
    try:
        return make(*words)
    except ScriptFault as fault:
        return str(fault)


READ = [
    ("console: hi\r\n", {"console": ["hi"]}),
    ("console:hi", {"console": ["hi"]}),
    ("console: hi\nconsole: more\n", {"console": ["hi", "more"]}),
    ("\nconsole:  x:y\n\n", {"console": [" x:y"]}),
    ("console: a\r", {"console": ["a"]}),
    ("printer: x\n", "script line 1: unknown channel"),
    ("console hi", "script line 1: no colon"),
    ("console: a\\tb", {"console": ["a\\tb"]}),
    ("campl script 2\nconsole: a\\tb\\\\\n", {"console": ["a\tb\\"]}),
    ("campl script 2\nconsole: \\u{41}\\u{10ffff}", {"console": ["A\U0010ffff"]}),
    ("campl script 2\nconsole: \\q", "script line 2: bad escape"),
    ("campl script 2\nconsole: \\u{d800}", "script line 2: bad escape"),
    ("campl script 2\nconsole: \\u{}", "script line 2: bad escape"),
    ("console: " + "x" * 1_016, "script line 1: too long"),
    ("campl script 2\nconsole: " + "x" * 1_025, "script line 2: too long"),
    ("campl script 2\nconsole: " + "\\u{78}" * 1_024, {"console": ["x" * 1_024]}),
    ("console: x\n" * 100_001, "script line 100001: too many lines"),
]

MIGRATED = [
    ("", "campl script 2\n"),
    ("console: a\\tb", "campl script 2\nconsole: a\\\\tb\n"),
    ("console:a\tb\r\n\nb:\x7f", "campl script 2\nconsole: a\\tb\n\nb: \\u{7f}\n"),
    ("campl script 2\nconsole:\\u{9}\\u{1f}", "campl script 2\nconsole: \\t\\u{1f}\n"),
    ("n" * 64 + ":", "campl script 2\n" + "n" * 64 + ": \n"),
    ("n" * 65 + ":", "script line 1: unknown channel"),
    ("campl script 2\n" * 2, "script line 2: no colon"),
]


def check():
    for text, wanted in READ:
        assert told(scripts_of, text, ["console"]) == wanted, (text[:50], told(scripts_of, text, ["console"]))
    for text, wanted in MIGRATED:
        assert told(migrated, text) == wanted, (text, told(migrated, text))
        if wanted.startswith(VERSION_LINE):
            names = {line.partition(":")[0] for line in lines_of(text)}
            assert scripts_of(wanted, names) == scripts_of(text, names) and migrated(wanted) == wanted, text
    print("%d rows" % (len(READ) + len(MIGRATED)))


def main(words):
    if words[:1] == ["--check"]:
        return check()
    path = words[-1] if len(words) == 1 else words[1]
    with open(path, encoding="utf-8", newline="") as file:
        text = file.read().removeprefix("\ufeff")
    if words[0] == "--read":
        print(told(scripts_of, text, words[2:]))
    else:
        sys.stdout.write(told(migrated, text))


if __name__ == "__main__":
    main(sys.argv[1:])
