#!/bin/sh
# Writes loaded into memtables of 4 MiB that are flushed to runs, and 20,000 lookups over all runs, beside plain
# Rust with the same layout.
# Needs rustc, GNU time, python3, and crates/calls/out/calls (or CALLS), which `rt run` in crates/calls builds.
# Ours is given the writes, and plain Rust draws each as it comes, which is a few nanoseconds a write.
# The writes have keys of 16 bytes and values of 8, half of them merges, eight to a key. Each line has the medians of
# TURNS runs (9), which take turns, and both programs must come to the same runs and answers. The second line of a
# step has twice the writes; its last columns are the times over those of the first. RESULTS names a file for the figures as JSON.
set -eu
here=$(cd "$(dirname "$0")" && pwd)
turns=${TURNS:-9}
work=$(mktemp -d)
trap 'rm -r "$work"' EXIT
folder=$work
. "$here/../results.sh"
rustc --edition 2021 -O "$here/baseline.rs" -o "$work/baseline"

# Append the figures of one run, and after them its most memory in KiB.
run_ours() { # WRITES
    "$here/../parts" run "$1" < "$work/writes" >> "$work/ours.$1"
}

run_rust() { # WRITES
    /usr/bin/time -f %M -o "$work/memory" "$work/baseline" "$1" > "$work/figures"
    paste -d ' ' "$work/figures" "$work/memory" >> "$work/rust.$1"
}

check_same() { # WRITES
    if [ "$(cut -d ' ' -f 3-6 "$work/ours.$1" "$work/rust.$1" | sort -u | wc -l)" -ne 1 ]; then
        echo "run.sh: the runs or the answers of $1 writes differ" >&2
        exit 1
    fi
}

median() { # FILE FIELD
    cut -d ' ' -f "$2" "$1" | sort -n | sed -n "$(((turns + 1) / 2))p"
}

measure() { # WRITES
    "$work/baseline" writes "$1" > "$work/writes"
    for _ in $(seq "$turns"); do
        run_ours "$1"
        run_rust "$1"
    done
    check_same "$1"
}

keep_in() { # WORK PROGRAM FIGURE: in the unit of the row that is printed
    keep "$1" "$row_writes writes" "$2" "$row_unit" "$(awk -v figure="$3" -v parts="$row_parts" 'BEGIN { printf "%.1f", figure / parts }')"
}

row() { # STEP FIELD UNIT WRITES HALF
    row_unit=${1##* } row_parts=$3 row_writes=$4
    one=$(median "$work/ours.$4" "$2")
    two=$(median "$work/rust.$4" "$2")
    half_one= half_two=
    if [ -n "$5" ]; then
        half_one=$(median "$work/ours.$5" "$2")
        half_two=$(median "$work/rust.$5" "$2")
    fi
    awk -v step="$1" -v writes="$4" -v unit="$3" -v one="$one" -v two="$two" -v half_one="$half_one" \
        -v half_two="$half_two" 'BEGIN {
        growth = half_one == "" ? "" : sprintf("%8.2f %8.2f", one / half_one, two / half_two)
        printf "%-10s %8d %10.1f %10.1f %8.2f %s\n", step, writes, one / unit, two / unit, one / two, growth
    }'
    called=${1% *}
    [ "$called" != load ] || called='insert and flush'
    keep_in "$called" ours "$one"
    keep_in "$called" 'plain Rust' "$two"
    [ -n "$5" ] || return 0
    keep_in "$called, twice the writes" ours "$one"
    keep_in "$called, twice the writes" 'half of them' "$half_one"
}

grep -m1 'model name' /proc/cpuinfo || true
echo "load: $(cut -d ' ' -f 1-3 /proc/loadavg)"
measure 1300000
measure 2600000
printf '%-10s %8s %10s %10s %8s %8s %8s\n' step writes ours rust ratio growth rust
row 'load ms' 1 1e6 1300000 ''
row 'load ms' 1 1e6 2600000 1300000
row 'lookups ms' 2 1e6 1300000 ''
row 'lookups ms' 2 1e6 2600000 1300000
row 'memory MiB' 7 1024 1300000 ''
row 'memory MiB' 7 1024 2600000 1300000
goal 'insert and flush' '*' 'plain Rust' ms 'at most' 1.4
goal lookups '*' 'plain Rust' ms 'at most' 1.3
goal memory '*' 'plain Rust' MiB 'at most' 1.05
goal 'insert and flush, twice the writes' '*' 'half of them' ms 'at most' 2.2
write_results run
