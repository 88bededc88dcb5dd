#!/bin/sh
# Times the lexer and layout on 1 MiB of one-character names, as ratios to wc and to a plain copy of the file.
# Build crates/lex_bench first (`rt run -- data/hello.campl` there).
set -eu
cd "$(dirname "$0")"
program=${1:-../crates/lex_bench/out/lex_bench}
work=$(mktemp -d)
trap 'rm -rf "$work"' EXIT
awk 'BEGIN { for (i = 0; i < 524288; i++) printf "a " }' >"$work/names"
awk 'BEGIN { for (i = 0; i < 524288; i++) printf "a\n" }' >"$work/lines"

# The seconds that a command takes that is run 20 times.
seconds() {
    start=$(date +%s%N)
    i=0
    while [ "$i" -lt 20 ]; do
        "$@" >/dev/null
        i=$((i + 1))
    done
    awk -v a="$start" -v b="$(date +%s%N)" 'BEGIN { print (b - a) / 1e9 / 20 }'
}

ratio() {
    awk -v name="$1" -v a="$2" -v b="$3" 'BEGIN { printf "%s: %.1f (%s s and %s s)\n", name, a / b, a, b }'
}

for source in names lines; do
    lexed=$(seconds "$program" "$work/$source")
    ratio "$source, to wc" "$lexed" "$(seconds wc "$work/$source")"
    ratio "$source, to a copy" "$lexed" "$(seconds cp "$work/$source" "$work/copy")"
    peak=$({ /usr/bin/time -f %M "$program" "$work/$source" >/dev/null; } 2>&1)
    echo "peak memory of $source: $peak KiB"
done
