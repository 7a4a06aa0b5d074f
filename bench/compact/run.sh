#!/bin/sh
# Compactions of several runs into one, beside plain Rust with the same layout in one thread. Ours merges four parts of
# the key space side by side from 16,384 points on, and folds more than a thousand points of a key in two threads.
# Needs rustc, GNU time, python3, and crates/calls/out/calls (or CALLS), which `rt run` in crates/calls builds.
# The memory of ours is without what spells the calls.
# counter: keys of 16 bytes and values of 8, half puts and half merges, eight points to a key over all runs. append: one
# key, operands of 10 bytes. ranges: five keys with a point each, and a range deletion over three of them.
# Each line has the medians of TURNS runs (9), which take turns, and both programs must come to the same run. A growth is
# the time over that of a line above with half as many writes. The first lines have the memory of the runs alone.
# RESULTS names a file for the figures as JSON.
set -eu
here=$(cd "$(dirname "$0")" && pwd)
turns=${TURNS:-9}
work=$(mktemp -d)
trap 'rm -r "$work"' EXIT
folder=$work
. "$here/../results.sh"
rustc --edition 2021 -O "$here/baseline.rs" -o "$work/baseline"

# Append the figures of one run, and after them its most memory in KiB.
run_ours() { # FILE WORDS
    file=$1
    shift
    "$here/../parts" compact "$@" < "$work/writes" >> "$work/$file"
}

run_rust() { # FILE WORDS
    file=$1
    shift
    /usr/bin/time -f %M -o "$work/memory" "$work/baseline" "$@" > "$work/figures"
    paste -d ' ' "$work/figures" "$work/memory" >> "$work/$file"
}

median() { # FILE FIELD
    cut -d ' ' -f "$2" "$work/$1" | sort -n | sed -n "$(((turns + 1) / 2))p"
}

measure() { # NAME HALF WORDS
    name=$1
    half=$2
    shift 2
    "$work/baseline" writes "$1" "$2" "$3" > "$work/writes"
    for _ in $(seq "$turns"); do
        run_ours "ours.$name" "$@"
        run_rust "rust.$name" "$@"
    done
    if [ "$(cut -d ' ' -f 2-5 "$work/ours.$name" "$work/rust.$name" | sort -u | wc -l)" -ne 1 ]; then
        echo "run.sh: the runs of $* differ" >&2
        exit 1
    fi
    half_one= half_two=
    if [ -n "$half" ]; then
        half_one=$(median "ours.$half" 1)
        half_two=$(median "rust.$half" 1)
    fi
    awk -v name="$*" -v one="$(median "ours.$name" 1)" -v two="$(median "rust.$name" 1)" -v half_one="$half_one" \
        -v half_two="$half_two" -v memory="$(median "ours.$name" 6)" -v other="$(median "rust.$name" 6)" 'BEGIN {
        growth = half_one == "" ? "" : sprintf("%7.2f %7.2f", one / half_one, two / half_two)
        printf "%-30s %8.1f %8.1f %6.2f %8.1f %8.1f %6.2f %s\n", name, one / 1e6, two / 1e6, one / two, memory / 1024,
            other / 1024, memory / other, growth
    }'
    keep_measured "$*"
}

keep_measured() { # WORDS: the figures of what `measure` measured
    for program in ours rust; do
        called=$program
        [ "$program" = ours ] || called='plain Rust'
        keep_ms compaction "$1" "$called" "$(median "$program.$name" 1)"
        keep_mib compaction "$1" "$called" "$(median "$program.$name" 6)"
    done
    [ -n "$half" ] || return 0
    keep_both_ms 'compaction, twice as much' "$1" "$(median "ours.$name" 1)" 'half of them' "$half_one" 2.2
}

loads() { # WORDS: the memory of the runs that are compacted, in MiB
    "$work/baseline" writes "$@" > "$work/writes"
    run_ours ours.load "$@"
    run_rust rust.load "$@"
    awk -v name="$*" -v memory="$(tail -n 1 "$work/ours.load" | cut -d ' ' -f 2)" \
        -v other="$(tail -n 1 "$work/rust.load" | cut -d ' ' -f 2)" 'BEGIN {
        printf "%-30s %24s %8.1f %8.1f %6.2f\n", name, "", memory / 1024, other / 1024, memory / other
    }'
}

grep -m1 'model name' /proc/cpuinfo || true
echo "load: $(cut -d ' ' -f 1-3 /proc/loadavg)"
printf '%-30s %8s %8s %6s %8s %8s %6s %7s %7s\n' 'shape runs writes keeps where' 'ours ms' 'rust ms' ratio 'ours MiB' \
    'rust MiB' ratio growth rust
loads counter 10 130000
loads counter 10 260000
measure newer '' counter 10 130000 1 newer
measure kept '' counter 10 130000 4 newer
measure oldest '' counter 10 130000 1 oldest
measure both '' counter 10 130000 4 oldest
measure newer_twice newer counter 10 260000 1 newer
measure kept_twice kept counter 10 260000 4 newer
measure many '' counter 64 20000 1 newer
measure append '' append 4 50000 1 newer
measure append_twice append append 4 100000 1 newer
measure ranges '' ranges 2 60000 1 newer
measure ranges_twice ranges ranges 2 120000 1 newer
goal compaction 'counter 10 130000 *' 'plain Rust' ms 'at most' 0.35
write_results compact
