#!/bin/sh
# Times values against the same tree of Arcs in Rust, and prints ratios. Build crates/value_bench first (`rt run` there).
set -eu
cd "$(dirname "$0")"
ours=../crates/value_bench/out/value_bench
theirs=$(mktemp)
trap 'rm -f "$theirs"' EXIT
rustc -O -o "$theirs" value_baseline.rs

# The processor seconds that a command takes.
seconds() {
    /usr/bin/time -f %U "$@" 2>&1
}

ratio() {
    awk -v name="$1" -v a="$2" -v b="$3" 'BEGIN { printf "%s: %.2f (%s s and %s s)\n", name, a / b, a, b }'
}

ratio "100 million copies of a list of 4,000 cells, to those of an integer" \
    "$(seconds "$ours" list 100000000)" "$(seconds "$ours" int 100000000)"
ratio "10 million cells built and dropped, to the same in Rust" \
    "$(seconds "$ours" build 2500)" "$(seconds "$theirs" build 2500)"
