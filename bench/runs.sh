#!/bin/sh
# Times whole runs, all in one go: pipelines of 1,000 and 10,000 stages beside those of bench/pipeline in Erlang and Go, where these are
# there; the example beside /bin/true; 1,000 prints of 1,000 characters beside `cat` of their output; and a process that counts to
# 100,000, alone and while 10,000 others wait. Prints the best and the middle of ten times, the peak memory, and ratios of the best.
# `runs.sh PROGRAM` picks the program; without it the one that rt ci, or rt run in crates/campl, has left is timed.
set -eu
cd "$(dirname "$0")"
made=$(mktemp -d)
trap 'rm -rf "$made"' EXIT
python3 - "${1:-../crates/campl/out/campl}" "$made" <<'PYTHON'
import os, re, shutil, subprocess, sys, time

campl, made = os.path.abspath(sys.argv[1]), sys.argv[2]
TIMES = 10
best = {}


def once(words):
    """The seconds of one run, those that it tells itself, and its output."""
    begun = time.perf_counter()
    ended = subprocess.run(words, stdout=subprocess.PIPE, check=True)
    seconds = time.perf_counter() - begun
    output = ended.stdout.decode()
    told = re.search(r" in (\d+) us\n", output)
    return seconds, int(told[1]) / 1e6 if told else None, output


def peak_of(words):
    """The peak memory of one run, in KiB."""
    subprocess.run(["/usr/bin/time", "-o", made + "/peak", "-f", "%M", *words], stdout=subprocess.DEVNULL, check=True)
    with open(made + "/peak") as file:
        return file.read().strip()


def row(name, times, peak):
    times = sorted(times)
    best[name] = times[0]
    print("%-46s %9.2f %9.2f %8s" % (name, times[0] * 1e3, times[len(times) // 2] * 1e3, peak), flush=True)


def measure(name, words, wanted=""):
    """Prints a row of ten runs, and another one of the seconds that they tell. Answers the output."""
    once(words)
    runs = [once(words) for _ in range(TIMES)]
    assert all(wanted in output for _, _, output in runs), (words, runs[0][2][-200:])
    row(name, [seconds for seconds, _, _ in runs], peak_of(words))
    if runs[0][1] is not None:
        row(name + ", the pipeline alone", [told for _, told, _ in runs], "")
    return runs[0][2]


def ratio(one, other, note=""):
    if one in best and other in best:
        print("%s: %.2f of %s%s" % (one, best[one] / best[other], other, note))


def peers():
    """The peers that are there, as words before the number of stages."""
    found = {}
    if shutil.which("erlc"):
        subprocess.check_call(["erlc", "-o", made, "pipeline/pipeline.erl"])
        found["Erlang"] = ["erl", "-noshell", "-pa", made, "-run", "pipeline", "main"]
    if shutil.which("go"):
        subprocess.check_call(["go", "build", "-o", made + "/pipeline", "pipeline/pipeline.go"])
        found["Go"] = [made + "/pipeline"]
    return found


def prints():
    """A source that prints 1,000 texts of 1,000 characters."""
    lines = ["proc run :: | Console => where", " | c => -> do"]
    lines += ["  hput ConsolePut on c", '  put "%s" on c' % ("x" * 1_000)] * 1_000
    with open(made + "/prints.campl", "w") as file:
        file.write("\n".join([*lines, "  hput ConsoleClose on c", "  halt c", ""]))
    return made + "/prints.campl"


def crowd(waiting):
    """The source of bench/crowd.campl with so many that wait."""
    path = made + "/crowd%d.campl" % waiting
    with open("crowd.campl") as file, open(path, "w") as other:
        other.write(file.read().replace("crowd(10000 |", "crowd(%d |" % waiting))
    return path


def steps_of(output):
    return int(re.search(r"after (\d+) steps\n", output)[1])


print("%-46s %9s %9s %8s" % ("", "best ms", "middle ms", "peak KiB"))
found = peers()
for stages in (1_000, 10_000):
    measure("%d stages" % stages, [campl, "generate", str(stages)], "sum %d\n" % (55 + 10 * stages))
    for name, words in found.items():
        measure("%d stages in %s" % (stages, name), [*words, str(stages)], "sum %d " % (55 + 10 * stages))
measure("/bin/true", ["/bin/true"])
measure("hello", [campl, "run", "../examples/hello.campl"], "Hello")
output = measure("1,000 prints", [campl, "run", prints()], "finished")
with open(made + "/output", "w") as file:
    file.write(output)
measure("cat of 1,000 prints", ["cat", made + "/output"])
words = [campl, "run", "--steps", "1000000"]
alone = steps_of(measure("a count", [*words, crowd(0)], "counted"))
beside = steps_of(measure("a count while 10,000 wait", [*words, crowd(10_000)], "counted"))
print()
for stages in (1_000, 10_000):
    for name in found:
        ratio("%d stages" % stages, "%d stages in %s, the pipeline alone" % (stages, name))
ratio("hello", "/bin/true")
ratio("1,000 prints", "cat of 1,000 prints")
ratio("a count while 10,000 wait", "a count", " (%d and %d steps)" % (beside, alone))
for name, steps in (("1000 stages", 58_094), ("10000 stages", 580_095), ("a count", alone), ("a count while 10,000 wait", beside)):
    print("%s: %.0f ns a step" % (name, best[name] / steps * 1e9))
PYTHON
