#!/bin/sh
# CRC-32C by `uc_logrec` beside the same algorithm, slicing by 8, in plain Rust.
# Needs rustc, python3, and crates/calls/out/calls (or CALLS), which `rt run` in crates/calls builds.
# A round is the sum of the whole buffer. Each line has the medians of 9 runs, which take turns, and both
# programs must come to the same checksum. The load is the machine's, over the last minute, 5 and 15.
# RESULTS names a file for the figures as JSON.
set -eu
here=$(cd "$(dirname "$0")" && pwd)
work=$(mktemp -d)
trap 'rm -r "$work"' EXIT
folder=$work
. "$here/../results.sh"
rustc --edition 2021 -O "$here/baseline.rs" -o "$work/baseline"

load() {
    echo "load: $(cut -d ' ' -f 1-3 /proc/loadavg)"
}

measure() { # SIZE_MIB ROUNDS
    "$work/baseline" bytes "$1" > "$work/bytes"
    : > "$work/ours"
    : > "$work/rust"
    for _ in 1 2 3 4 5 6 7 8 9; do
        "$here/../parts" crc "$2" < "$work/bytes" >> "$work/ours"
        "$work/baseline" "$2" < "$work/bytes" >> "$work/rust"
    done
    if [ "$(cut -d ' ' -f 2 "$work/ours" "$work/rust" | sort -u | wc -l)" -ne 1 ]; then
        echo "run.sh: the checksums of $1 MiB differ" >&2
        exit 1
    fi
    sort -n "$work/ours" | sed -n 5p > "$work/one"
    sort -n "$work/rust" | sed -n 5p >> "$work/one"
    awk -v size="$1" -v rounds="$2" '
        { seconds[NR] = $1 / 1e9 }
        END {
            all = size * rounds
            printf "%-8s %8s %10.4f %10.4f %11.0f %11.0f %8.2f\n", size, rounds, seconds[1], seconds[2],
                all / seconds[1], all / seconds[2], seconds[1] / seconds[2]
        }' "$work/one"
    keep_rate ours 1 "$1" "$2"
    keep_rate 'plain Rust' 2 "$1" "$2"
}

keep_rate() { # PROGRAM LINE SIZE_MIB ROUNDS: the MiB a second by that line's time
    keep CRC-32C "$3 MiB" "$1" MiB/s "$(awk -v line="$2" -v all=$(($3 * $4)) '
        NR == line { printf "%.0f", all * 1e9 / $1 }' "$work/one")"
}

grep -m1 'model name' /proc/cpuinfo || true
load
printf '%-8s %8s %10s %10s %11s %11s %8s\n' MiB rounds 'ours s' 'rust s' 'ours MiB/s' 'rust MiB/s' ratio
measure 1 1024
measure 8 128
measure 64 16
load
goal CRC-32C '*' 'plain Rust' MiB/s 'at most' 1.1
write_results crc
