#!/bin/sh
# Takes and gives per second by 1, 2 and 4 threads, beside the same loop in plain Rust.
# Needs rustc, python3, and crates/bench_beside/out/bench_beside (or BESIDE), which `rt run` in crates/bench_beside builds.
# A round is one take of two of 256 slots and, where it won, their give. Disjoint: two slots of its own for each
# thread, side by side, so that those of several threads share a cache line. Spaced: these 16 slots apart, so that
# no line has those of two threads. Contended: the same two for all.
# Each line has the medians of 9 runs, which take turns. RESULTS names a file for the figures as JSON.
set -eu
here=$(cd "$(dirname "$0")" && pwd)
ours=${OURS:-$here/../beside}
rounds=${ROUNDS:-10000000}
work=$(mktemp -d)
trap 'rm -r "$work"' EXIT
folder=$work
. "$here/../results.sh"
rustc -O "$here/baseline.rs" -o "$work/baseline"

keep_rate() { # PROGRAM LINE: the rounds a second by that line's time
    keep claims "$threads $layout" "$1" M/s "$(awk -v line="$2" -v all=$((threads * rounds)) '
        NR == line { printf "%.1f", all * 1000 / $1 }' "$work/one")"
}

grep -m1 'model name' /proc/cpuinfo || true
printf '%-8s %-10s %14s %14s %8s %14s %14s\n' threads layout 'ours M/s' 'rust M/s' ratio 'ours won M/s' 'rust won M/s'
number=0
for layout in disjoint spaced contended; do
    for threads in 1 2 4; do
        : > "$work/ours"
        : > "$work/rust"
        for _ in 1 2 3 4 5 6 7 8 9; do
            "$ours" claims "$threads" "$number" "$rounds" >> "$work/ours"
            "$work/baseline" "$threads" "$layout" "$rounds" >> "$work/rust"
        done
        sort -n "$work/ours" | sed -n 5p > "$work/one"
        sort -n "$work/rust" | sed -n 5p >> "$work/one"
        awk -v threads="$threads" -v layout="$layout" -v rounds="$rounds" '
            { time[NR] = $1; won[NR] = $2 }
            END {
                all = threads * rounds
                printf "%-8s %-10s %14.1f %14.1f %8.2f %14.1f %14.1f\n", threads, layout,
                    all * 1000 / time[1], all * 1000 / time[2], time[1] / time[2],
                    won[1] * 1000 / time[1], won[2] * 1000 / time[2]
            }' "$work/one"
        keep_rate ours 1
        keep_rate AtomicU64 2
    done
    number=$((number + 1))
done
goal claims '*' AtomicU64 M/s 'at most' 1.5
write_results claims
