#!/bin/sh
# Pins and installs of a store that threads share, beside the same in plain Rust over RwLock<Arc<_>>.
# Needs rustc, python3, and crates/bench_beside/out/bench_beside (or BESIDE), which `rt run` in crates/bench_beside builds.
# A store has 256 runs, and an installer makes them one by 255 installs of the two newest. Each line has the medians of 9 runs,
# which take turns. RESULTS names a file for the figures as JSON.
set -eu
here=$(cd "$(dirname "$0")" && pwd)
ours=${OURS:-$here/../beside}
rounds=${ROUNDS:-5000000}
stores=${STORES:-40}
work=$(mktemp -d)
trap 'rm -r "$work"' EXIT
folder=$work
. "$here/../results.sh"
rustc -O "$here/baseline.rs" -o "$work/baseline"
rustc --edition 2021 -O "$here/../make_log.rs" -o "$work/make_log"
for points in 1 1000; do
    "$ours" lines "$points" | "$work/make_log" lines > "$work/log.$points"
done
export LOG=$work/log.1

# The medians of each column of nine runs of both, which take turns.
both() {
    : > "$work/ours"
    : > "$work/rust"
    for _ in 1 2 3 4 5 6 7 8 9; do
        "$ours" "$@" >> "$work/ours"
        "$work/baseline" "$@" >> "$work/rust"
    done
    for of in ours rust; do
        for column in 1 2 3 4; do
            awk -v column="$column" 'NF >= column { print $column }' "$work/$of" | sort -n | sed -n 5p
        done | tr '\n' ' ' > "$work/$of.medians"
    done
}

called() { # ours|rust: a program's name in the results
    if [ "$1" = ours ]; then echo ours; else echo RwLock; fi
}

grep -m1 'model name' /proc/cpuinfo || true
printf '%-8s %8s %12s %12s %8s\n' pins readers 'ours M/s' 'rust M/s' ratio
for mode in pins beside; do
    for readers in 1 2 4; do
        size=$rounds
        [ "$mode" = pins ] || size=$stores
        both "$mode" "$readers" "$size"
        cat "$work/ours.medians" "$work/rust.medians" | tr '\n' ' ' | awk -v mode="$mode" -v readers="$readers" '
            { printf "%-8s %8s %12.2f %12.2f %8s\n", mode, readers, $2 * 1000 / $1, $4 * 1000 / $3,
                ($4 > 0 ? sprintf("%.2f", ($2 / $1) / ($4 / $3)) : "-") }'
        for of in ours rust; do
            pins=beside
            [ "$mode" = beside ] || pins=alone
            keep "pins $pins" "$readers readers" "$(called "$of")" M/s "$(awk '{ printf "%.2f", $2 * 1000 / $1 }' "$work/$of.medians")"
        done
    done
done
printf '%-8s %8s %10s %10s %10s %10s\n' 'times, ns' readers median 99 99.99 longest
for readers in 1 2 4; do
    both times "$readers" "$stores"
    for of in ours rust; do
        awk -v of="$of" -v readers="$readers" '{ printf "%-8s %8s %10s %10s %10s %10s\n", of, readers, $1, $2, $3, $4 }' "$work/$of.medians"
        for column in 1 2 3 4; do
            part=$(echo median 99 99.99 longest | cut -d ' ' -f "$column")
            keep 'pin times beside' "$readers readers $part" "$(called "$of")" ns "$(cut -d ' ' -f "$column" "$work/$of.medians")"
        done
    done
done
printf '%-8s %8s %14s %14s\n' 'work, ns' points compaction install
for points in 1 1000; do
    LOG=$work/log.$points
    both installs "$points" 20
    for of in ours rust; do
        awk -v of="$of" -v points="$points" '{ printf "%-8s %8s %14s %14s\n", of, points, $1, $2 }' "$work/$of.medians"
        keep compactions "$points points" "$(called "$of")" ns "$(cut -d ' ' -f 1 "$work/$of.medians")"
        keep installs "$points points" "$(called "$of")" ns "$(cut -d ' ' -f 2 "$work/$of.medians")"
    done
    keep installs "$points points" compaction ns "$(cut -d ' ' -f 1 "$work/ours.medians")"
done
LOG=$work/log.1
printf '%-8s %8s %14s\n' memory installs 'KiB at most'
for count in 1 40; do
    kib=$("$ours" installs 1 "$count" | cut -d ' ' -f 3)
    printf '%-8s %8s %14s\n' ours $((count * 255)) "$kib"
    keep memory "$((count * 255)) installs" ours KiB "$kib"
done
goal 'pins alone' '1 readers' RwLock M/s 'at least' 0.7
goal 'pins alone' '4 readers' RwLock M/s 'at least' 1
goal 'pins beside' '*' RwLock M/s 'at least' 3
goal 'pin times beside' '* 99.99' RwLock ns 'at most' 0.2
goal installs '1000 points' compaction ns 'at most' 0.1
write_results share
