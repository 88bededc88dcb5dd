"""The cases for processes, as a name and their source: those of each command, accepted sources, and mutants of these.

A mutant is an accepted source with one change by chance that leaves it a source whose functions are fine. `all_cases` asserts that
each fault comes often, and that none comes which isn't one of processes.
"""

import glob
import os
import re
from collections import Counter
from random import Random

from function_cases import named_once
from functions import answer as answer_of_functions
from grammar import text_of
from names import HERE
from process_branches import branch_groups
from process_forms import GOOD
from process_plugs import plug_groups
from process_rows import row_groups
from processes import answer
from tokens import RESERVED

FAULTS = {
    "E30 TypeDiffers", "E31 NeedsType", "E32 NotExhaustive", "E33 ArgumentCount", "E34 NameTwiceInPattern", "E40 NotHeld", "E41 LeftOver",
    "E42 WrongAction",
    "E43 PlugUse", "E44 PlugCycle", "E45 PlugApart", "E46 CaseMissing", "E47 CaseTwice", "E48 RaceForm", "E49 IdentityType",
    "E50 CallChannels", "E51 PartCount",
}

# Where a change may be made, and what may come there.
LOWER = re.compile(r"\b(?!(?:%s)\b)[a-z]\w*" % "|".join(sorted(RESERVED)))
UPPER = re.compile(r"(?<![\w\"])(?!(?:Int|Char|Bool|True|False|Put|Get|Neg|TopBot)\b)[A-Z]\w*")
WORDS = {
    "put": ["get"],
    "get": ["put"],
    "close": ["halt"],
    "halt": ["close"],
    "Put": ["Get"],
    "Get": ["Put"],
    "(*)": ["(+)"],
    "(+)": ["(*)"],
    "neg ": [""],
    "|=| ": ["|=| neg "],
    "Int": ["Char"],
    "Char": ["Bool"],
    "TopBot": ["Neg(TopBot)", "Door"],
    "_": ["x"],
    "1": ["'c'", "[]", "(1, 2)"],
    "=> ": [", "],
    ", ": [" => "],
}
WORD = re.compile("|".join(r"(?<!\w)%s(?!\w)" % re.escape(word) for word in sorted(WORDS, key=len, reverse=True)))


# ---- Changes


def put_at(text, found, word):
    return text[: found.start()] + word + text[found.end() :]


def another_name(names):
    def change(chance, text):
        found = list(names.finditer(text))
        return put_at(text, chance.choice(found), chance.choice(found).group()) if found else text

    return change


def another_word(chance, text):
    found = list(WORD.finditer(text))
    one = chance.choice(found)
    return put_at(text, one, chance.choice(WORDS[one.group()]))


def on_lines(change):
    def changed(chance, text):
        lines = text.splitlines()
        change(chance, lines, chance.randrange(len(lines)))
        return "\n".join(lines) + "\n"

    return changed


def left_out(chance, lines, at):
    del lines[at]


def doubled(chance, lines, at):
    lines.insert(at, lines[at])


def moved(chance, lines, at):
    """A line to where another of its column stands."""
    column = len(lines[at]) - len(lines[at].lstrip())
    places = [number for number, line in enumerate(lines) if len(line) - len(line.lstrip()) == column]
    lines.insert(chance.choice(places), lines.pop(at))


def last_name_left_out(chance, text):
    """A header or list of names with one name less."""
    found = list(re.finditer(r", [a-z]\w*(?= =>| ->|\))|(?<==> )[a-z]\w*(?= ->|\))|[a-z]\w*(?= => ->)", text))
    return put_at(text, chance.choice(found), "") if found else text


CHANGES = {
    "a name": another_name(LOWER),
    "another name": another_name(LOWER),
    "a type or constructor": another_name(UPPER),
    "a word": another_word,
    "a line left out": on_lines(left_out),
    "a line doubled": on_lines(doubled),
    "a line moved": on_lines(moved),
    "a name left out": last_name_left_out,
}


def mutants(told, text, most, chance):
    """So many mutants of a source, of which a fifth at most are accepted, and of one fault a third."""
    counts, seen = Counter(), {text}
    for _ in range(most * 20):
        change = chance.choice(list(CHANGES))
        mutant = CHANGES[change](chance, text)
        fault = answer(mutant).split(" at ")[0]
        often = counts[fault] >= (most // 5 if fault == "accepted" else most // 3 + 1)
        if mutant in seen or often or not is_of_processes(fault, mutant):
            continue
        counts[fault] += 1
        seen.add(mutant)
        yield "%s, changed in %s, %d" % (told, change, len(seen) - 1), mutant
        if len(seen) > most:
            return


def is_of_processes(fault, text):
    """Whether a source's fault isn't one of an earlier phase."""
    if fault.startswith("E3"):
        return answer_of_functions(text) == "typed"
    return fault == "accepted" or fault in FAULTS


def mutant_cases():
    chance = Random(1051)
    for told, text in GOOD.items():
        yield from mutants(told, text, 24, chance)
    for told, text in whole_sources("crates/typed_sources/data"):
        if len(text) < 900:
            yield from mutants(told, text, 8, chance)


# ---- All


def whole_sources(folder):
    for path in sorted(glob.glob(os.path.join(HERE, "..", folder, "*.campl"))):
        yield os.path.splitext(os.path.basename(path))[0].replace("_", " "), text_of(path)


def groups():
    yield "good", GOOD.items()
    yield from row_groups()
    yield from branch_groups()
    yield from plug_groups()
    for folder in ("data", "data/no_tree", "data/refused"):
        yield "worked", [one for one in whole_sources("crates/typed_sources/" + folder) if answer_of_functions(one[1]) == "typed"]
    yield "example", whole_sources("examples")
    yield "mutant", mutant_cases()


def all_cases():
    """Each case with its name and its source, no two of one source."""
    cases, seen = [], set()
    for group, rows in groups():
        for name, text in rows:
            if text not in seen:
                seen.add(text)
                cases.append(("%s: %s" % (group, name), text))
    counts = Counter(answer(text).split(" at ")[0] for _, text in cases)
    assert set(counts) == FAULTS | {"accepted"}, counts
    assert min(counts.values()) >= 10, counts
    return named_once(cases)
