#!/bin/bash
# Measures range deletions that overlap: `ucstore report` and `ucstore ask` against plain Rust whose fragments each list the sequences
# over them, and `ucstore report` against RocksDB, which does likewise.
#
#     bench/ranges/run.sh [plain] [rocksdb]
#
# Without words it does the first. It measures the built program (crates/ucstore/out/ucstore, or OURS; OURS=none leaves it out) over logs
# of batches of one write, made by `make_log lines`.
#
# `plain`: `watermarks`, where each range begins at the first key and ends behind those before it, as when a stream drops what is older;
# `nested`, where each lies inside the one before it; `stairs`, where each begins and ends one key behind the one before it, over 1,000
# keys; and `watermarks` over 100,000 points, some of them newer than the ranges over them. For each of COUNTS deletions (10000 20000
# 50000 100000 200000 400000) the program reports on the log by the usual options and with one memtable for all of it, and answers
# 20,000 lookups and 500 scans by one worker, whose time is that of `ask` beyond the same without queries. A program that doesn't end
# within LIMIT seconds (12) is left out from then on; so is one that needs more than MEMORY MiB (8000). What is printed by ours and by
# plain Rust is compared byte for byte, as far as plain Rust ends.
#
# `rocksdb`: a report on ROCKSDB_COUNTS watermarks (2500 5000 10000) by ours, the least of TURNS (5), and one by ../report/rocksdb.cc
# against RocksDB without assertions (../rocksdb/build.sh makes it) and against Debian's (librocksdb-dev), whose assertions are on; its
# options stand in ../rocksdb_store.h and are printed. Time and memory grow with the square of the number there: 10,000 take 7 GiB and a
# minute, and Debian's two minutes, so nothing else should run meanwhile, and 10 GiB have to be free. RESULTS names a file for the
# figures as JSON.
set -u -o pipefail

here=$(cd "$(dirname "${BASH_SOURCE[0]}")" && pwd) || exit 1
ours=${OURS:-$here/../../crates/ucstore/out/ucstore}
read -ra counts <<< "${COUNTS:-10000 20000 50000 100000 200000 400000}"
read -ra rocksdb_counts <<< "${ROCKSDB_COUNTS:-2500 5000 10000}"
turns=${TURNS:-5}
limit=${LIMIT:-12}
memory=${MEMORY:-8000}
folder=$(mktemp -d) || exit 1
trap 'rm -rf "$folder"' EXIT

fail() {
    echo "run.sh: $*" >&2
    exit 1
}

. "$here/../rocksdb/libraries.sh"

# The lines of a log.
lines() { # KIND COUNT
    awk -v kind="$1" -v count="$2" '
        function key(number,    digits) { digits = sprintf("%08d", number); gsub(/./, "3&", digits); return "6b" digits }
        function point(number) { print "put " key(number) " 0100000000000000" }
        BEGIN {
            if (kind == "points") for (number = 0; number < 100000; number++) point(number * 10)
            for (number = 1; number <= count; number++) {
                if (kind == "nested") print "range " key(number) " " key(2 * count + 1 - number)
                else if (kind == "stairs") print "range " key(number) " " key(number + 1000)
                else print "range " key(0) " " key(number)
                if (kind == "points" && number % 10 == 0) point(number - 5)
            }
        }'
}

# Lookups and scans of keys below twice the count, and the line behind which the log stands.
make_head() { # COUNT
    awk -v count="$1" '
        function roll(sides) { state = (state * 1103515245 + 12345) % 2147483648; return int(state / 8) % sides }
        function key(number,    digits) { digits = sprintf("%08d", number); gsub(/./, "3&", digits); return "6b" digits }
        BEGIN {
            state = 30
            for (line = 1; line <= 20500; line++) {
                if (line % 41 == 0) print "scan " key(roll(2 * count)) " - " roll(50) + 1 " last"
                else print "get " key(roll(2 * count)) " last"
            }
            print "log"
        }'
}

# The seconds and the MiB of a command over the log, or nothing where it was given up.
timed() { # INPUT COMMAND..
    local input=$1 start end
    shift
    start=${EPOCHREALTIME/[.,]/}
    (
        ulimit -v $((memory * 1024))
        exec /usr/bin/time -f %M -o "$folder/memory" timeout "$limit" "$@" < "$input" > "$folder/text" 2> "$folder/said"
    ) || return 1
    end=${EPOCHREALTIME/[.,]/}
    seconds=$(awk -v time=$((end - start)) 'BEGIN { printf "%.3f", time / 1e6 }')
    mib=$(awk '{ printf "%.0f", $1 / 1024 }' "$folder/memory")
}

# Keeps our seconds beside those of half as many ranges, from 100,000 of them on.
declare -A our_seconds
keep_growth() { # KIND COUNT
    local half=${our_seconds[$1.$(($2 / 2))]:-}
    our_seconds[$1.$2]=$seconds
    if [ -z "$half" ] || [ "$2" -lt 200000 ]; then return; fi
    keep "$1, twice as many" "$2" ours s "$seconds"
    keep "$1, twice as many" "$2" 'half of them' s "$half"
}

# Both figures of a program's report, which are kept, unless it was given up before.
declare -A given_up
report() { # KIND COUNT NAME COMMAND..
    local kind=$1 count=$2 name=$3
    shift 3
    figures=$(printf '%9s %6s' - -)
    if [ -n "${given_up[$kind.$name]:-}" ]; then return; fi
    if timed "$folder/log" "$@"; then
        figures=$(printf '%9s %6s' "$seconds" "$mib")
        keep "$kind" "$count" "$name" s "$seconds"
        keep "$kind" "$count" "$name" MiB "$mib"
        if [ "$name" = ours ]; then keep_growth "$kind" "$count"; fi
    else
        given_up[$kind.$name]=yes
        : > "$folder/text"
    fi
}

# The nanoseconds of a query of `ask`, where the program is there.
query_time() { # COUNT
    local without=0
    if [ "$ours" = none ]; then echo -; return; fi
    { echo log; cat "$folder/log"; } > "$folder/input"
    if timed "$folder/input" "$ours" ask --operator counter --workers 1; then without=$seconds; fi
    { make_head "$1"; cat "$folder/log"; } > "$folder/input"
    if timed "$folder/input" "$ours" ask --operator counter --workers 1; then
        awk -v all="$seconds" -v without="$without" 'BEGIN { printf "%.0f", (all - without) * 1e9 / 20500 }'
    else
        echo -
    fi
}

row() { # KIND COUNT
    local kind=$1 count=$2 ours_figures whole_figures
    lines "$kind" "$count" | "$folder/make_log" lines > "$folder/log" || fail "no log"
    report "$kind" "$count" ours "$ours" report --operator counter
    [ "$ours" = none ] || awk -f "$here/../report/plain_fields.awk" "$folder/text" > "$folder/ours"
    ours_figures=$figures
    report "$kind" "$count" "one memtable" "$ours" report --operator counter --memtable 1073741824
    whole_figures=$figures
    report "$kind" "$count" "plain Rust" "$folder/baseline"
    if [ "$ours" != none ] && [ -z "${given_up[$kind.plain Rust]:-}" ]; then
        cmp -s "$folder/text" "$folder/ours" || fail "$kind $count: plain Rust reports otherwise"
    fi
    printf '%-11s %7d %s %s %s %9s\n' "$kind" "$count" "$ours_figures" "$whole_figures" "$figures" "$(query_time "$count")"
}

plain() {
    local kind count
    rustc --edition 2021 -O -o "$folder/baseline" "$here/../report/baseline.rs" || fail "baseline.rs doesn't build"
    printf '%-11s %7s %16s %16s %16s %9s\n' kind ranges 'ours: s, MiB' 'one memtable' 'plain Rust' 'ns, query'
    for kind in watermarks nested stairs points; do
        if [ "$ours" = none ]; then given_up[$kind.ours]=yes given_up["$kind.one memtable"]=yes; fi
        for count in "${counts[@]}"; do row "$kind" "$count" || exit 1; done
        goal "$kind, twice as many" '*' 'half of them' s 'at most' 2.3
    done
    goal watermarks 200000 ours s 'at most' 2
    goal watermarks 200000 ours MiB 'at most' 250
}

# The least seconds of a program's reports and the most MiB, which are kept, or nothing where it isn't there or was given up.
several() { # TIMES COUNT NAME COMMAND..
    local most=0
    least=
    figures=$(printf '%9s %6s' - -)
    if [ "$4" = none ]; then return; fi
    for _ in $(seq "$1"); do
        if ! timed "$folder/log" "${@:4}"; then return; fi
        least=$(printf '%s\n' "${least:-$seconds}" "$seconds" | sort -n | head -n 1)
        most=$((mib > most ? mib : most))
    done
    figures=$(printf '%9s %6s' "$least" "$most")
    keep ranges "$2" "$3" s "$least"
    keep ranges "$2" "$3" MiB "$most"
}

# One report after the other, since RocksDB's take so much memory.
rocksdb() {
    local count program line ours_least
    build_rocksdb "$here/../report/rocksdb.cc"
    say_rocksdb
    [ "$(awk '/^MemAvailable/ { print int($2 / 1024) }' /proc/meminfo)" -ge 10240 ] || fail "there are no 10 GiB of memory"
    limit=600
    memory=12000
    printf '%-11s %7s %16s %16s %8s %16s %8s\n' kind ranges 'ours: s, MiB' RocksDB 'ours /' "Debian's" 'ours /'
    for count in "${rocksdb_counts[@]}"; do
        lines watermarks "$count" | "$folder/make_log" lines > "$folder/log" || fail "no log"
        several "$turns" "$count" ours "$ours" report --operator counter
        line=$figures ours_least=$least
        for program in rocksdb debian; do
            if has_rocksdb "$program"; then
                several 1 "$count" "$(name_of "$program")" "$folder/$program"
            else
                several 1 "$count" "$program" none
            fi
            line+=$(awk -v figures="$figures" -v ours="$ours_least" -v other="$least" \
                'BEGIN { printf " %s %8s", figures, ours && other ? sprintf("%.4f", ours / other) : "-" }')
        done
        printf '%-11s %7d %s\n' watermarks "$count" "$line"
    done
}

if [ $# -eq 0 ]; then set -- plain; fi
for part; do
    case $part in
        plain | rocksdb) ;;
        *) fail "there is no part $part" ;;
    esac
done
if [ "$ours" != none ]; then ours=$(realpath -e "$ours") || exit 2; fi
rustc --edition 2021 -O -o "$folder/make_log" "$here/../make_log.rs" || fail "make_log.rs doesn't build"
say_machine
for part; do "$part"; done
write_results_beside ranges
