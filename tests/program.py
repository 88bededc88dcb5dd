#!/usr/bin/env python3
"""Asks the built program what it says of sources, by `campl check`.

    program.py PROGRAM FILE  judges each case of a file of cases, and compares with the reference for processes
"""

import os
import subprocess
import sys
import tempfile

from grammar import cases_of, text_of
from processes import answer

REFUSED = "campl: "


def answer_of(program, text):
    """`accepted`, or the fault of a refused source; anything else that the program says is told as it is."""
    with tempfile.TemporaryDirectory() as folder:
        path = os.path.join(folder, "source.campl")
        with open(path, "w", encoding="utf-8", newline="") as file:
            file.write(text)
        ended = subprocess.run([program, "check", path], capture_output=True, text=True, check=False)
    if (ended.returncode, ended.stdout, ended.stderr) == (0, "accepted\n", ""):
        return "accepted"
    if ended.returncode == 3 and not ended.stdout and ended.stderr.startswith(REFUSED) and ended.stderr.endswith("\n"):
        return ended.stderr[len(REFUSED) : -1]
    return "status %d, %r, %r" % (ended.returncode, ended.stdout, ended.stderr)


def main(program, path):
    cases = cases_of(text_of(path))
    wrong = 0
    for name, text in cases:
        told, wanted = answer_of(program, text), answer(text)
        if told != wanted:
            wrong += 1
            print("%s: %s, wanted %s" % (name, told, wanted))
    print("%d of %d cases as wanted" % (len(cases) - wrong, len(cases)))
    return 1 if wrong else 0


if __name__ == "__main__":
    sys.setrecursionlimit(1_000_000)
    sys.exit(main(*sys.argv[1:]))
