#!/bin/sh
# Times `campl code` on well-typed functions of mixed forms, 1 MiB of them and half of that: for each the seconds of the processor and
# the peak memory, and the ratio of the seconds. 1 MiB should take less than 3 s and 600 MiB, of which the check alone takes what
# `campl check` prints. CAMPL picks the program; prove and build it first, by rt ci or by rt run in crates/campl.
set -eu
cd "$(dirname "$0")/.."
program=${CAMPL:-crates/campl/out/campl}
work=$(mktemp -d)
trap 'rm -rf "$work"' EXIT

# Functions up to so many bytes: each group has every form of expression, and its functions call those of the group before.
functions() {
    awk -v most="$1" 'BEGIN {
        text = "data Shape where\n    Dot\n    Disc(Int)\n    Box(Int, Int)\n    Group(Shape, [Shape])\n" \
            "proc run :: | => where\n    | => -> halt\n"
        size = length(text)
        printf "%s", text
        for (i = 0; size < most; i++) {
            j = i > 0 ? i - 1 : 0
            text = "fun area" i " :: Shape -> Int where\n" \
                "    Dot -> 0\n    Disc(r) -> 3 * r * r\n    Box(w, h) -> w * h\n    Group(s, ss) -> area" j "(s) + total" j "(ss, 0)\n" \
                "fun total" i " :: [Shape], Int -> Int where\n" \
                "    [], n -> n\n    Dot : ss, n -> total" i "(ss, n)\n    s : ss, n -> total" i "(ss, n + area" i "(s))\n" \
                "fun named" i " :: [Char], Bool -> [Char] where\n" \
                "    \"dot\", _ -> \"a dot\"\n    \"disc\", True -> \"a round disc\"\n    c : cs, loud -> if loud && c < '"'m'"' || c == '"'z'"' then char(code(c) - 32) : cs else named" j "(cs, loud)\n" \
                "    [], _ -> []\n" \
                "fun pairs" i " :: [Int], [Int] -> [(Int, Int)] where\n" \
                "    x : xs, y : ys -> (x, y) : pairs" i "(xs, ys)\n    _, _ -> [(0, 1), (2, 3)] ++ []\n" \
                "fun look" i " :: (Shape, Bool), Int -> Int where\n" \
                "    (shape, b), k -> case (shape, k mod 7) of\n" \
                "        (Disc(r), 0) -> if b then r else -r\n        (Box(w, _), 1) -> w div 2\n        (Group(Dot, t : _), n) -> look" j "((t, not" i "(b)), n)\n" \
                "        (_, n) -> case n == k of\n            True -> n + 1\n            False -> n - k * 2\n" \
                "fun not" i " :: Bool -> Bool where\n    True -> False\n    _ -> True\n"
            size += length(text)
            if (size < most) printf "%s", text
        }
    }' >"$work/functions$1"
}

# Does the order $1 on a source ten times, and prints the seconds of one time and the peak memory.
measure() {
    : >"$work/times"
    for _ in 1 2 3 4 5 6 7 8 9 10; do
        /usr/bin/time -o "$work/time" -f '%U %S %M' "$program" "$1" "$work/functions$2" >"$work/out" 2>&1 || true
        tail -n 1 "$work/time" >>"$work/times"
    done
    awk '{ seconds += $1 + $2; most = $3 > most ? $3 : most } END { print seconds / NR, most }' "$work/times" >"$work/seconds$2"
    echo "$1 of $(wc -c <"$work/functions$2") bytes: $(wc -l <"$work/out") lines, $(awk '{ print $1 " s, " $2 " KiB" }' "$work/seconds$2")"
}

for size in 524288 1048576; do
    functions "$size"
    measure check "$size"
    measure code "$size"
done
awk '{ seconds[NR] = $1 } END { printf "twice the source: %.2f times the time\n", (seconds[1] > 0 ? seconds[2] / seconds[1] : 0) }' \
    "$work/seconds524288" "$work/seconds1048576"
