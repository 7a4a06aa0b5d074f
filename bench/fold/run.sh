#!/bin/sh
# Folds of merge operands into one key, by `Effect::then`, beside plain Rust that extends one `Vec<u8>`.
# Needs rustc, python3, and crates/calls/out/calls (or CALLS), which `rt run` in crates/calls builds.
# Append: operands of 10 bytes, joined with a comma. Counter: numbers of 8 bytes, added. Each line has the medians
# of 25 runs, which take turns, and both programs must come to the same operand. The second line of a kind has twice
# the operands; its last column is our time over that of the first. RESULTS names a file for the figures as JSON.
set -eu
here=$(cd "$(dirname "$0")" && pwd)
work=$(mktemp -d)
trap 'rm -r "$work"' EXIT
folder=$work
. "$here/../results.sh"
rustc --edition 2021 -O "$here/baseline.rs" -o "$work/baseline"
before=

measure() { # KIND COUNT
    : > "$work/ours"
    : > "$work/rust"
    for _ in $(seq 25); do
        "$here/../parts" fold "$1" "$2" >> "$work/ours"
        "$work/baseline" "$1" "$2" >> "$work/rust"
    done
    if [ "$(cut -d ' ' -f 2,3 "$work/ours" "$work/rust" | sort -u | wc -l)" -ne 1 ]; then
        echo "run.sh: the folds of $2 operands differ" >&2
        exit 1
    fi
    one=$(sort -n "$work/ours" | sed -n 13p | cut -d ' ' -f 1)
    two=$(sort -n "$work/rust" | sed -n 13p | cut -d ' ' -f 1)
    awk -v kind="$1" -v count="$2" -v one="$one" -v two="$two" -v before="$before" 'BEGIN {
        growth = before == "" ? "" : sprintf("%.2f", one / before)
        printf "%-8s %9d %10.3f %10.3f %10.1f %10.1f %8.2f %8s\n", kind, count, one / 1e6, two / 1e6,
            one / count, two / count, one / two, growth
    }'
    keep_both_ms fold "$1 $2" "$one" 'plain Rust' "$two" 1.5
    if [ -n "$before" ]; then keep_both_ms 'fold, twice the operands' "$1 $2" "$one" 'half of them' "$before" 2.2; fi
    before=$one
}

grep -m1 'model name' /proc/cpuinfo || true
echo "load: $(cut -d ' ' -f 1-3 /proc/loadavg)"
printf '%-8s %9s %10s %10s %10s %10s %8s %8s\n' kind operands 'ours ms' 'rust ms' 'ours ns' 'rust ns' ratio growth
measure append 100000
measure append 200000
before=
measure counter 1000000
measure counter 2000000
write_results fold
