#!/usr/bin/env python3
"""Checks the programs in examples/, each with its script, if it has one, and what it prints.

    examples.py           judges and runs them by the references
    examples.py PROGRAM   judges them by PROGRAM check, and runs them by PROGRAM run with one worker and with four
    examples.py --write   writes what they print by the reference

NAME.campl has its script in NAME.script and what it prints in NAME.out.
"""

import glob
import os
import subprocess
import sys

from names import HERE
from processes import answer
from program import answer_of
from run import ran, text_at

FOLDER = os.path.join(HERE, "../examples")
WORKERS = ("1", "4")


def examples():
    """The name of each, the paths of its source, script and output."""
    for path in sorted(glob.glob(os.path.join(FOLDER, "*.campl"))):
        front = path.removesuffix(".campl")
        yield os.path.basename(front), path, front + ".script", front + ".out"


def ran_by_reference(source, script):
    return ran(text_at(source), text_at(script) if os.path.exists(script) else "")


def ran_by(program, source, script, workers):
    words = [program, "run", source, "--workers", workers] + (["--script", script] if os.path.exists(script) else [])
    ended = subprocess.run(words, capture_output=True, text=True, check=False)
    return ended.returncode, ended.stdout, ended.stderr


def told_of(program, source, script):
    """What is said of a source, and what each of its runs prints."""
    if program is None:
        return answer(text_at(source)), [ran_by_reference(source, script)]
    return answer_of(program, text_at(source)), [ran_by(program, source, script, workers) for workers in WORKERS]


def main(words):
    if words == ["--write"]:
        for _, source, script, output in examples():
            with open(output, "w", encoding="utf-8", newline="") as file:
                file.write(ran_by_reference(source, script)[1])
        return 0
    number = accepted = as_wanted = 0
    for name, source, script, output in examples():
        number += 1
        told, runs = told_of(words[0] if words else None, source, script)
        wrong = [run for run in runs if run != (0, text_at(output), "")]
        accepted += told == "accepted"
        as_wanted += not wrong
        if told != "accepted":
            print("%s: %s" % (name, told))
        for run in wrong:
            print("%s: printed %s" % (name, run))
    print("%d of %d examples accepted, %d run as wanted" % (accepted, number, as_wanted))
    return 0 if accepted == as_wanted == number > 0 else 1


if __name__ == "__main__":
    sys.setrecursionlimit(1_000_000)
    sys.exit(main(sys.argv[1:]))
