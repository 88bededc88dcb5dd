#!/usr/bin/env python3
"""Lets each allocation of a run of the built program fail in turn: `memory.py PROGRAM`.

`fail_alloc.c`, which stands between the program and the C library, fails one of them. The program then has to tell want of memory, with
status 7 and nothing on its output; or to do all the same, where it can do without (no thread with a stack of its own, say); or to tell
a read fault, where the file can't be opened for want of memory. Needs a C compiler, `cc`.
"""

import os
import subprocess
import sys
import tempfile

HERE = os.path.dirname(os.path.abspath(__file__))
EXAMPLES = os.path.join(HERE, "..", "examples")
ORDERS = (
    "check hello.campl",
    "code hello.campl",
    "run hello.campl",
    "run queue.campl --script queue.script",
    "run race_of_answers.campl",
    "migrate queue.script",
    "generate 3",
)
OUT_OF_MEMORY = (7, b"", b"campl: out of memory\n")
READ_FAULT = (5, b"", b"campl: read fault\n")


def told(words, **more):
    ran = subprocess.run(words, cwd=EXAMPLES, capture_output=True, **more)
    return ran.returncode, ran.stdout, ran.stderr


def tried(program, made, order):
    """How many allocations were made to fail, and the numbers of those with another answer."""
    words = [program, *order.split()]
    whole, failed = told(words), os.path.join(made, "failed")
    number, others = 0, []
    while True:
        number += 1
        env = dict(os.environ, LD_PRELOAD=os.path.join(made, "fail_alloc.so"), FAIL_ALLOC=str(number), FAILED=failed)
        answer = told(words, env=env)
        if not os.path.exists(failed):
            return number - 1, others
        os.remove(failed)
        if answer not in (OUT_OF_MEMORY, whole, READ_FAULT):
            others.append(number)


def main(program):
    ill = 0
    with tempfile.TemporaryDirectory() as made:
        shim = os.path.join(made, "fail_alloc.so")
        subprocess.check_call(["cc", "-O2", "-shared", "-fPIC", "-o", shim, os.path.join(HERE, "fail_alloc.c")])
        for order in ORDERS:
            count, others = tried(os.path.abspath(program), made, order)
            ill += len(others)
            print("%s: %d allocations, each failed in turn, %d with another answer%s" % (order, count, len(others), others[:5] or ""), flush=True)
    return 1 if ill else 0


if __name__ == "__main__":
    sys.exit(main(sys.argv[1]))
