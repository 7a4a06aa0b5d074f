#!/bin/bash
# Measures `uc_batch::read_writes` against plain Rust that makes the same list of owned writes.
#
#     bench/read_writes/run.sh
#
# It needs rustc, python3, and crates/calls/out/calls (or CALLS), which `rt run` in crates/calls builds. It
# makes logs of 60 MiB by ../make_log.rs, checks that both programs come to the same writes, and prints the medians of
# nine runs, which take turns, in seconds of the reading alone, and the most memory that a run held. RESULTS
# names a file for the figures as JSON.
set -u -o pipefail

here=$(cd "$(dirname "${BASH_SOURCE[0]}")" && pwd) || exit 1
folder=$(mktemp -d) || exit 1
trap 'rm -rf "$folder"' EXIT

. "$here/../results.sh"

rustc --edition 2021 -O -o "$folder/make_log" "$here/../make_log.rs" || exit 1
rustc --edition 2021 -O -o "$folder/baseline" "$here/baseline.rs" || exit 1

# A line with nanoseconds, the writes, a checksum and the memory.
run_ours() {
    "$here/../parts" read < "$folder/log" > "$folder/line" || exit 1
    cat "$folder/line" >> "$folder/ours.lines"
    cut -d ' ' -f 4 "$folder/line" >> "$folder/ours.memory"
}

# A line without the memory, which has one of its own.
run_rust() {
    /usr/bin/time -f %M -a -o "$folder/rust.memory" "$folder/baseline" < "$folder/log" >> "$folder/rust.lines" || exit 1
}

median() { # FILE
    sort -n "$1" | sed -n 5p | cut -d ' ' -f 1
}

keep_program() { # CASE PROGRAM NAME
    keep_run read_writes "$1" "$2" $(($(median "$folder/$3.lines") / 1000)) "$(median "$folder/$3.memory")"
}

measure() { # KIND MIB
    rm -f "$folder"/*.lines "$folder"/*.memory
    "$folder/make_log" "$1" "$2" > "$folder/log" || exit 1
    for _ in 1 2 3 4 5 6 7 8 9; do
        run_ours
        run_rust
    done
    if [ "$(cut -d ' ' -f 2,3 "$folder"/*.lines | sort -u | wc -l)" -ne 1 ]; then
        echo "run.sh: the writes differ" >&2
        exit 1
    fi
    awk -v kind="$1" -v mib="$2" -v writes="$(head -n 1 "$folder/ours.lines" | cut -d ' ' -f 2)" \
        -v one="$(median "$folder/ours.lines")" -v two="$(median "$folder/rust.lines")" \
        -v held="$(median "$folder/ours.memory")" -v other="$(median "$folder/rust.memory")" 'BEGIN {
        printf "%-5s %3d MiB %7d %9.4f %9.4f %8.2f %10.1f %10.1f %8.2f\n", kind, mib, writes,
            one / 1e9, two / 1e9, one / two, held / 1024, other / 1024, held / other
    }'
    keep_program "$1 $2 MiB" ours ours
    keep_program "$1 $2 MiB" 'plain Rust' rust
}

grep -m1 'model name' /proc/cpuinfo || true
echo "load: $(cut -d ' ' -f 1-3 /proc/loadavg)"
printf '%-13s %7s %9s %9s %8s %10s %10s %8s\n' log writes 'ours s' 'rust s' ratio 'ours MiB' 'rust MiB' ratio
measure small 60
measure large 60
goal read_writes '*' 'plain Rust' s 'at most' 1.3
goal read_writes '*' 'plain Rust' MiB 'at most' 1.3
write_results read_writes
