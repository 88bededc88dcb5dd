#!/bin/sh
# Runs the program on hostile sources, and prints for each the status, the first line of its refusal, the seconds and the peak
# memory; for a well-formed source of 1 MiB also the ratio to its lexing and layout alone.
# Build crates/campl and crates/lex_bench first (`rt run` in the one, `rt run -- data/hello.campl` in the other).
set -eu
cd "$(dirname "$0")"
program=${1:-../crates/campl/out/campl}
lexer=${2:-../crates/lex_bench/out/lex_bench}
work=$(mktemp -d)
trap 'rm -rf "$work"' EXIT

# Functions and processes up to 1 MiB.
awk 'BEGIN {
    text = "fun g :: Int, [Char] -> [(Int, a)] where\n    _, _ -> []\nfun h :: Char -> (Int, a) where\n    c -> h(c)\n" \
        "fun show :: Int -> [Char] where\n    _ -> []\n"
    size = length(text)
    printf "%s", text
    for (i = 0; size < 1048200; i++) {
        text = "fun f" i " :: Int, [a] -> [(Int, a)] where\n    0, x : _ -> (1 + 2 * -3, x) : []\n" \
            "    n, _ -> if n < 10 && n /= 3 then g(n - 1, \"text\") else case n of\n        7 -> [h(\047c\047)]\n" \
            "proc p" i " :: Int | Console => Put(Int | TopBot) where\n    n | c => o -> do\n        hput ConsolePut on c\n" \
            "        put \"a text\" ++ show(n) on c\n        case n of\n            0 -> do\n                close c\n" \
            "                halt o\n            _ -> p" i "(n - 1 | c => o)\n"
        size += length(text)
        if (size < 1048200) printf "%s", text
    }
}' >"$work/many"
awk 'BEGIN { for (i = 0; i < 1048576; i++) printf "(" }' >"$work/brackets"
awk 'BEGIN { printf "fun f :: -> Int where\n -> "; for (i = 0; i < 200000; i++) printf "case " }' >"$work/cases"
# Scrutinees that nest 80,000 deep: in a bracket, a line to the left of a block closes it and begins nothing.
awk 'BEGIN {
    printf "fun f :: -> Int where\n -> ("
    for (i = 0; i < 80000; i++) printf "case "
    printf "1\n"
    for (i = 0; i < 80000; i++) printf "of a->a\n"
    printf ")\n"
}' >"$work/scrutinees"
# Functions that call one another, up to 1 MiB and up to a half.
for size in 1048200 524100; do
    awk -v most="$size" 'BEGIN {
        for (i = 0; size < most; i++) {
            text = "fun f" i " :: Int -> Int where\n    n -> f" int(i / 2) "(n) + f" int(i / 3) "(n)\n"
            size += length(text)
            if (size < most) printf "%s", text
        }
    }' >"$work/calls$size"
done
awk 'BEGIN {
    printf "fun f :: -> Int where\n -> "
    for (i = 0; i < 90; i++) printf "f("
    printf "1"
    for (i = 0; i < 200; i++) printf " + 1"
    for (i = 0; i < 90; i++) printf ")"
}' >"$work/operators"
# Left operands nest as the operators of a chain do, and not at all where chains follow one another.
awk 'BEGIN {
    printf "fun f :: -> Int where\n"
    for (i = 0; i < 1300; i++) {
        printf " -> 1"
        for (j = 0; j < 197; j++) printf " + 1"
        printf "\n"
    }
}' >"$work/chains"

# Runs the program on a source, and prints what became of it.
run() {
    status=0
    /usr/bin/time -o "$work/time" -f '%e s, %M KiB' "$program" run "$work/$1" >"$work/out" 2>"$work/err" || status=$?
    echo "$1 ($(wc -c <"$work/$1") bytes): status $status, $(head -n 1 "$work/err"), $(tail -n 1 "$work/time")"
}

# The seconds that a command takes.
seconds() {
    start=$(date +%s%N)
    "$@" >/dev/null 2>&1 || true
    awk -v a="$start" -v b="$(date +%s%N)" 'BEGIN { print (b - a) / 1e9 }'
}

for source in many brackets cases scrutinees operators chains calls524100 calls1048200; do
    run "$source"
done
whole=$(seconds "$program" run "$work/many")
lexed=$(seconds "$lexer" "$work/many")
awk -v a="$whole" -v b="$lexed" 'BEGIN { printf "many, to lexing and layout: %.1f (%s s and %s s)\n", a / b, a, b }'
