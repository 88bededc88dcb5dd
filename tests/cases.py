#!/usr/bin/env python3
"""Makes the cases of each phase and their answers: `cases.py FOLDER` writes FOLDER/data/PHASE.txt and FOLDER/stdout."""

import os
import sys

import function_cases
import functions
import grammar
import grammar_cases
import name_cases
import names
import process_cases
import processes

MOST_BYTES = 1_048_576
PHASES = {
    "grammar": (grammar_cases.all_cases, grammar.answer),
    "names": (name_cases.all_cases, names.answer),
    "functions": (function_cases.all_cases, functions.answer),
    "processes": (process_cases.all_cases, processes.answer),
}


def told(cases):
    """The file of these cases."""
    assert not any(line.startswith("== ") for _, text in cases for line in text.split("\n"))
    assert len({name for name, _ in cases}) == len(cases)
    content = "".join("== %s\n%s\n" % case for case in cases)
    assert len(content.encode()) <= MOST_BYTES
    return content


def write(path, content):
    os.makedirs(os.path.dirname(path), exist_ok=True)
    with open(path, "w", encoding="utf-8", newline="") as file:
        file.write(content)


def main():
    folder, answers = sys.argv[1], []
    for phase, (all_cases, answer) in PHASES.items():
        cases = all_cases()
        content = told(cases)
        write(os.path.join(folder, "data", phase + ".txt"), content)
        answers += ["%s: %s\n" % (name, answer(text)) for name, text in cases]
        print("%s: %d cases, %d bytes" % (phase, len(cases), len(content.encode())))
    write(os.path.join(folder, "stdout"), "".join(answers))


if __name__ == "__main__":
    main()
