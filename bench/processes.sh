#!/bin/sh
# Times `campl check` on well-typed processes of mixed commands, 1 MiB of them and half of that: for each the seconds of the
# processor and the peak memory, and the ratio of the seconds. CAMPL picks the program; prove and build it first, by rt ci or by rt run in crates/campl.
set -eu
cd "$(dirname "$0")/.."
program=${CAMPL:-crates/campl/out/campl}
work=$(mktemp -d)
trap 'rm -rf "$work"' EXIT

# Processes up to so many bytes: each group has every command, and its processes call those of the group before.
processes() {
    awk -v most="$1" 'BEGIN {
        text = "data Mode where\n    Fast\n    Slow(Int)\nprotocol Stream(a) => S where\n    Item :: Put(a | S) => S\n    Done :: TopBot => S\n" \
            "coprotocol S => Cell where\n    Store :: S => Get(Int | S)\n    Fetch :: S => Put(Int | S)\n    Free :: S => TopBot\n" \
            "fun twice :: Int -> Int where\n    n -> n + n\n" \
            "proc run :: | Console => where\n    | console => -> do\n        hput ConsoleClose on console\n        halt console\n"
        size = length(text)
        printf "%s", text
        for (i = 0; size < most; i++) {
            j = i > 0 ? i - 1 : 0
            text = "proc feed" i " :: Int, Mode | => Stream(Int) where\n" \
                "    n, mode | => o -> case (n == 0, mode) of\n" \
                "        (True, _) -> do\n            hput Done on o\n            halt o\n" \
                "        (False, Fast) -> do\n            hput Item on o\n            put twice(n) on o\n            feed" j "(n - 1, Slow(n) | => o)\n" \
                "        (_, Slow(k)) -> do\n            hput Item on o\n            put n * k + 1 on o\n            hput Item on o\n" \
                "            put if n < k then n else k on o\n            feed" i "(n - 1, Fast | => o)\n" \
                "proc copy" i " :: | Stream(Int) => Stream(Int) where\n" \
                "    | i => o -> hcase i of\n" \
                "        Item -> do\n            get k on i\n            hput Item on o\n            put k + 1 on o\n            copy" j "( | i => o)\n" \
                "        Done -> do\n            close i\n            hput Done on o\n            halt o\n" \
                "proc cell" i " :: Int | => Cell where\n" \
                "    n | => c -> hcase c of\n" \
                "        Store -> do\n            get m on c\n            cell" j "(m | => c)\n" \
                "        Fetch -> do\n            put n on c\n            cell" i "(n | => c)\n" \
                "        Free -> halt c\n" \
                "proc pair" i " :: Int | TopBot => Put(Int | TopBot) (*) Get(Int | TopBot) where\n" \
                "    n | t => p -> fork p as\n" \
                "        a -> do\n            put n on a\n            close t\n            halt a\n" \
                "        b -> do\n            get _ on b\n            halt b\n" \
                "proc first" i " :: | Put(Int | TopBot), Put(Int | TopBot) => Stream(Int) where\n" \
                "    | x, y => o -> race\n" \
                "        x -> do\n            get m on x\n            close x\n            get _ on y\n            close y\n            feed" j "(m, Fast | => o)\n" \
                "        y -> do\n            get m on y\n            get n on x\n            close x\n            close y\n            feed" i "(m + n, Slow(m) | => o)\n" \
                "proc net" i " :: | TopBot => Stream(Int) where\n" \
                "    | t => out -> plug p :: Put(Int | TopBot) (*) Get(Int | TopBot), c :: Cell, s :: Stream(Int), u :: Stream(Int) of\n" \
                "        t => p -> pair" j "(" i " | t => p)\n" \
                "        => c -> cell" i "(0 | => c)\n" \
                "        p, c => s -> do\n            split p into l, r\n            get m on l\n            put m on r\n" \
                "            hput Store on c\n            put m on c\n            hput Fetch on c\n            get k on c\n            hput Free on c\n" \
                "            close l\n            close r\n            close c\n            feed" i "(k, Fast | => s)\n" \
                "        s => u -> copy" i "( | s => u)\n" \
                "        u => out -> u |=| out\n"
            size += length(text)
            if (size < most) printf "%s", text
        }
    }' >"$work/processes$1"
}

# Checks a source ten times, and prints the seconds of one check and the peak memory.
check() {
    : >"$work/times"
    for _ in 1 2 3 4 5 6 7 8 9 10; do
        /usr/bin/time -o "$work/time" -f '%U %S %M' "$program" check "$work/processes$1" >"$work/out" 2>&1 || true
        tail -n 1 "$work/time" >>"$work/times"
    done
    awk '{ seconds += $1 + $2; most = $3 > most ? $3 : most } END { print seconds / NR, most }' "$work/times" >"$work/seconds$1"
    echo "$(wc -c <"$work/processes$1") bytes: $(head -n 1 "$work/out"), $(awk '{ print $1 " s, " $2 " KiB" }' "$work/seconds$1")"
}

for size in 524288 1048576; do
    processes "$size"
    check "$size"
done
awk '{ seconds[NR] = $1 } END { printf "twice the source: %.2f times the time\n", (seconds[1] > 0 ? seconds[2] / seconds[1] : 0) }' \
    "$work/seconds524288" "$work/seconds1048576"
