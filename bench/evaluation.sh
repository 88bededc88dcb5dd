#!/bin/sh
# Times the evaluator against OCaml's bytecode, where `ocamlc` is there, and CPython, and prints ratios of processor time, each the
# least of five runs in turn; then the memory of ten times as many tail calls. Build crates/eval_cases first (`rt run` there).
set -eu
cd "$(dirname "$0")/evaluation"
ours=../../crates/eval_cases/out/eval_cases
made=$(mktemp -d)
trap 'rm -rf "$made"' EXIT
python3 - "$ours" "$made" <<'PYTHON'
import os, resource, shutil, subprocess, sys

ours, made = sys.argv[1:]
WORKS = [("calls", "calls_1000000.txt", 1000000), ("fib", "fib.txt", 25), ("lists", "lists.txt", 1000), ("constructors", "constructors.txt", 1000000), ("texts", "texts.txt", 1000)]


def cost(words):
    """Processor seconds, and the most memory in MiB."""
    child = subprocess.Popen(words, stdout=subprocess.DEVNULL)
    _, status, used = os.wait4(child.pid, 0)
    assert status == 0, words
    return used.ru_utime + used.ru_stime, used.ru_maxrss / 1024


for name, file, n in WORKS:
    runs = {"ours": [ours, file], "cpython": ["python3", f"{name}.py", str(n)]}
    if shutil.which("ocamlc"):
        subprocess.check_call(["ocamlc", "-o", f"{made}/{name}", "-w", "-a", f"{name}.ml"])
        for left in (f"{name}.cmi", f"{name}.cmo"):
            if os.path.exists(left):
                os.remove(left)
        runs["ocamlc"] = [f"{made}/{name}", str(n)]
    least = {who: min(cost(words)[0] for _ in range(5)) for who, words in runs.items()}
    ratios = "".join(f", {least['ours'] / max(t, 1e-3):.2f} of {who}" for who, t in least.items() if who != "ours")
    print(f"{name}: {least['ours']:.3f} s{ratios}")
few, many = (cost([ours, f"calls_{n}.txt"])[1] for n in (1000000, 10000000))
print(f"memory: {few:.1f} MiB for 1,000,000 tail calls, {many:.1f} MiB for 10,000,000")
PYTHON
