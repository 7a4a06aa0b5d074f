#!/bin/bash
# Measures `ucstore ask --operator counter` against RocksDB.
#
#     bench/ask/run.sh
#
# The input is a head of 20,000 lookups and 500 scans behind which stands a log of MIB MiB (60) of counters (`make_log counters`).
# The built program (crates/ucstore/out/ucstore, or OURS; OURS=none leaves it out) answers it by WORKERS workers (4), without
# compactors and beside two; RocksDB recovers the same log in its memory environment and answers by as many threads while its own
# compactions run, by as many threads as there are processors (../rocksdb_store.h has its options, and they are printed). What they
# print is compared byte for byte. ../copying.rs only reads and copies the input: no program could be faster. Each runs TURNS
# times (5), in turn and each time in a process of its own, and Debian's RocksDB, whose assertions are on, in the first turn
# alone: the least seconds from start to end and the most memory are printed. RESULTS names a file for the figures as JSON.
#
# Then a hostile input: as many lookups as fit 64 MiB, over an empty log.
set -u -o pipefail

here=$(cd "$(dirname "${BASH_SOURCE[0]}")" && pwd) || exit 1
ours=${OURS:-$here/../../crates/ucstore/out/ucstore}
turns=${TURNS:-5}
mib=${MIB:-60}
workers=${WORKERS:-4}
folder=$(mktemp -d) || exit 1
trap 'rm -rf "$folder"' EXIT

fail() {
    echo "run.sh: $*" >&2
    exit 1
}

. "$here/../rocksdb/libraries.sh"

# Builds what there is, and says which programs are measured.
build_all() {
    local source
    for source in make_log copying; do
        rustc --edition 2021 -O -o "$folder/$source" "$here/../$source.rs" || fail "$source.rs doesn't build"
    done
    build_rocksdb "$here/rocksdb.cc"
    programs=()
    if [ "$ours" != none ]; then
        ours=$(realpath -e "$ours") || exit 2
        programs=(compactors0 compactors2)
    fi
    programs+=("${rocksdbs[@]}")
    [ "${#programs[@]}" -gt 0 ] || fail "there is nothing to measure"
    programs+=(copying)
}

# Lookups and scans of the keys that `make_log counters` writes, by lot.
make_head() {
    awk 'function roll(sides) { state = (state * 1103515245 + 12345) % 2147483648; return int(state / 8) % sides }
        function hex(number,    text, digits, place) {
            digits = sprintf("%08d", number)
            text = "6163636f756e742f"
            for (place = 1; place <= 8; place++) text = text "3" substr(digits, place, 1)
            return text
        }
        BEGIN {
            state = 26
            for (line = 1; line <= 20500; line++) {
                if (line % 41 == 0) printf "scan %s - %d last\n", hex(roll(300000)), roll(50) + 1
                else printf "get %s last\n", hex(roll(300000))
            }
            print "log"
        }'
}

# The words of a program's run.
words_of() { # PROGRAM
    case $1 in
        compactors*) words=("$ours" ask --operator counter --workers "$workers" --compactors "${1#compactors}") ;;
        *) words=("$folder/$1" "$workers") ;;
    esac
}

# Appends the microseconds and the most memory in KiB of one run, whose text is left.
run_once() { # PROGRAM INPUT
    local start end
    words_of "$1"
    start=${EPOCHREALTIME/[.,]/}
    /usr/bin/time -f %M -o "$folder/memory" "${words[@]}" < "$2" > "$folder/text" || fail "$1 fails"
    end=${EPOCHREALTIME/[.,]/}
    echo "$((end - start)) $(tail -n 1 "$folder/memory")" >> "$folder/figures.$1"
}

# Runs all programs in turn; what they print is the same.
measure() {
    local turn program
    for turn in $(seq "$turns"); do
        for program in "${programs[@]}"; do
            if [ "$turn" -gt 1 ] && [ "$program" = debian ]; then continue; fi
            run_once "$program" "$folder/input"
            if [ "$program" = copying ]; then continue; fi
            if [ ! -f "$folder/first" ]; then mv "$folder/text" "$folder/first"; else
                cmp "$folder/text" "$folder/first" || fail "$program prints another text"
            fi
        done
    done
    echo "$(wc -l < "$folder/first") lines are printed alike"
}

# A line for each program: its least microseconds, and the most KiB.
least() {
    local program
    for program in "${programs[@]}"; do
        echo "$program $(cut -d ' ' -f 1 "$folder/figures.$program" | sort -n | head -n 1)" \
            "$(cut -d ' ' -f 2 "$folder/figures.$program" | sort -n | tail -n 1)"
    done
}

table() {
    awk '
    function ratio(one, other) { return other ? sprintf("%5.2f", one / other) : "    -" }
    { time[$1] = $2; memory[$1] = $3; names[++count] = $1 }
    END {
        print "                                              time against        memory against"
        print "program                  seconds  memory MiB  RocksDB  Debian'\''s  RocksDB  Debian'\''s"
        for (line = 1; line <= count; line++) {
            n = names[line]
            if (n == "debian") continue
            word = n == "rocksdb" ? "RocksDB" : n == "copying" ? "reading and copying" : "ucstore, " substr(n, 11) " compactors"
            printf "%-23s  %7.3f  %10.1f  %7s  %8s  %7s  %8s\n", word, time[n] / 1e6, memory[n] / 1024,
                ratio(time[n], time["rocksdb"]), ratio(time[n], time["debian"]),
                ratio(memory[n], memory["rocksdb"]), ratio(memory[n], memory["debian"])
        }
    }'
}

# Keeps the figures of each program, those of RocksDB beside each number of compactors.
keep_all() {
    local program time memory name row rows
    while read -r program time memory; do
        case $program in
            compactors*) rows=${program#compactors} name=ours ;;
            copying) rows="0 2" name="reading and copying" ;;
            *) rows="0 2" name=$(name_of "$program") ;;
        esac
        for row in $rows; do keep_run ask "$row compactors" "$name" "$time" "$memory"; done
    done
    goal ask '*' RocksDB s 'at most' 0.15
    goal ask '*' RocksDB MiB 'at most' 1.6
}

hostile() {
    local time memory
    yes 'get . 0' | head -c 67108856 > "$folder/input"
    echo log >> "$folder/input"
    rm "$folder/figures.compactors0"
    run_once compactors0 "$folder/input"
    awk '{ printf "64 MiB of lookups over an empty log: %.2f seconds, %.1f MiB\n", $1 / 1e6, $2 / 1024 }' "$folder/figures.compactors0"
    read -r time memory < "$folder/figures.compactors0"
    keep_run 'lookups over an empty log' '64 MiB' ours "$time" "$memory"
}

build_all
{ make_head && "$folder/make_log" counters "$mib"; } > "$folder/input" || fail "no input"
say_machine
say_rocksdb
measure
least > "$folder/least" || fail "no figures"
table < "$folder/least"
keep_all < "$folder/least"
if [ "$ours" != none ]; then hostile; fi
write_results_beside ask
