#!/bin/bash
# Measures batches and single lookups of a store that threads share, beside compactors, against the same batch from one version,
# against RocksDB while its background compactions run, and how much faster four workers are than one against plain threads over a
# BTreeMap.
#
#     bench/shared/run.sh
#
# It measures crates/bench_beside/out/bench_beside (or BESIDE) by ../beside (or OURS), and the batch from one version by ../answers/ours
# (or OURS_PLAIN) and crates/calls/out/calls (or CALLS). `rt run` in their crates builds them; OURS=none leaves ours out.
# ../answers/baseline.rs and ../make_log.rs are built by `rustc -O` in a temporary folder, and rocksdb.cc by `g++ -O2` against RocksDB
# without assertions (../rocksdb/build.sh makes it) and against Debian's (librocksdb-dev), whose assertions are on; what isn't there is
# left out. RocksDB has the options of ../rocksdb_store.h, which are printed, but as many compactions at once as ours has compactors, and
# each in as many parts, and reads all rows once before the clock starts, so that its cache of blocks holds them.
#
# Each program runs in a process of its own, in turn, TURNS times (3), over a log of counters of MIB MiB (60), and Debian's RocksDB, which
# takes long, in the first turn alone and beside one compactor alone. It opens the log, compacts nothing, makes 200,000 lookups and 5,000
# scans at the last sequence, and answers them as one batch while 0, 1 or 2 compactors work, and again when nothing is picked any more; or
# it has the lookups alone, one by one, with a clock around each. All programs must come to the same answers. Each figure is the median of
# its turns. That takes about six minutes. RESULTS names a file for the figures as JSON.
set -u -o pipefail

here=$(cd "$(dirname "${BASH_SOURCE[0]}")" && pwd) || exit 1
ours=${OURS:-$here/../beside}
plain=${OURS_PLAIN:-$here/../answers/ours}
turns=${TURNS:-3}
folder=$(mktemp -d) || exit 1
trap 'rm -rf "$folder"' EXIT

fail() {
    echo "run.sh: $*" >&2
    exit 1
}

. "$here/../rocksdb/libraries.sh"

build() { # SOURCE
    rustc --edition 2021 -O -o "$folder/$(basename "$1" .rs)" "$1" || fail "$1 doesn't build"
}

# Builds what there is.
build_all() {
    if [ "$ours" != none ]; then ours=$(realpath -e "$ours") || exit 2; fi
    build "$here/../make_log.rs"
    build "$here/../answers/baseline.rs"
    build_rocksdb "$here/rocksdb.cc"
}

# What is measured side by side: a name for each row, and the command.
names=()
declare -A commands

plan() { # NAME COMMAND..
    names+=("$1")
    commands[$1]=${*:2}
}

plan_ours() { # NAME WORDS..
    [ "$ours" = none ] || plan "$1" "$ours" "${@:2}"
}

# The same batch from the version that the store opens with.
plan_plain() { # WORKERS
    [ "$ours" = none ] || plan "plain_$1" "$plain" shared --uncompacted --one-batch --workers "$1"
}

# RocksDB without assertions, and, beside one compactor, Debian's, which has no row of its own but stands in a column.
plan_rocksdb() { # KIND WORDS..
    if has_rocksdb rocksdb; then plan "RocksDB$1" "$folder/rocksdb" "${@:2}"; fi
    if has_rocksdb debian && [[ $1 == *_beside_1 ]]; then plan "Debian's$1" "$folder/debian" "${@:2}"; fi
}

# The median of a column of a row's lines.
median() { # NAME COLUMN
    awk -v column="$2" '{ print $column }' "$folder/row.$1" | sort -n |
        awk '{ at[NR] = $1 } END { printf "%.0f\n", (at[int((NR + 1) / 2)] + at[int(NR / 2) + 1]) / 2 }'
}

# Runs all rows in turn, and makes sure that the answers are the same: their number and their checksum.
measure() {
    local turn name command
    if [ "${#names[@]}" -eq 0 ]; then return; fi
    for turn in $(seq "$turns"); do
        for name in "${names[@]}"; do
            if [ "$turn" -gt 1 ] && [[ $name == Debian* ]]; then continue; fi
            read -ra command <<< "${commands[$name]}"
            "${command[@]}" < "$folder/log" >> "$folder/row.$name" || fail "$name fails"
        done
    done
    [ "$(for name in "${names[@]}"; do cut -d ' ' -f 3,4 "$folder/row.$name"; done | sort -u | wc -l)" -eq 1 ] ||
        fail "the answers differ"
}

# Forgets what was planned.
forget() {
    names=()
    rm -f "$folder"/row.*
}

ms() { # NANOSECONDS
    awk -v time="$1" 'BEGIN { printf "%.1f", time / 1e6 }'
}

# A figure over that of a row's column, where that row is there.
over() { # FIGURE NAME COLUMN
    if [ -f "$folder/row.$2" ]; then
        awk -v one="$1" -v other="$(median "$2" "$3")" 'BEGIN { if (other > 0) printf "%.2f", one / other; else printf "-" }'
    else
        printf '-'
    fi
}

# A row of batches: its milliseconds, those of the batch behind the compactors, theirs, and the ratios.
print_batch() { # NAME WORKERS COMPACTORS
    local time behind=- compacting=-
    time=$(median "$1" 5)
    if [ "$3" != - ]; then
        behind=$(ms "$(median "$1" 6)")
        compacting=$(ms "$(median "$1" 7)")
    fi
    printf '%-26s %6s %10s %10s %10s %10s %10s %10s %10s %10s\n' "$1" "$(median "$1" 1)" "$(ms "$time")" "$behind" "$compacting" \
        "$(over "$time" "plain_$2" 5)" "$(over "$time" "ours_$2_beside_0" 5)" "$(over "$time" "RocksDB_$2_beside_${3/-/0}" 5)" \
        "$(over "$time" "Debian's_$2_beside_${3/-/0}" 5)" \
        "$(awk -v one="$(median "${1/_$2/_1}" 5)" -v time="$time" 'BEGIN { printf "%.2f", one / time }')"
}

# Keeps the times of a row of batches.
keep_batch() { # NAME
    local row=${1#*_}
    row="workers ${row//_/ }"
    if [[ $1 == plain_* ]]; then return; fi # stands beside our rows
    keep_ms batches "$row" "${1%%_*}" "$(median "$1" 5)"
    if [[ $1 == *_beside_* ]]; then
        keep_ms "batches behind" "$row" "${1%%_*}" "$(median "$1" 6)"
        keep_ms compactions "$row" "${1%%_*}" "$(median "$1" 7)"
    fi
    if [[ $1 == ours_*_beside_* ]]; then keep_own "$1" "$row"; fi
}

# Keeps, beside one of our rows, the batch from one version and the one beside no compactor.
keep_own() { # NAME CASE
    local workers=${1#ours_}
    workers=${workers%%_*}
    keep_ms batches "$2" "one version" "$(median "plain_$workers" 5)"
    if [[ $1 != *_beside_0 ]]; then keep_ms batches "$2" "no compactor" "$(median "ours_${workers}_beside_0" 5)"; fi
}

set_goals() {
    local share
    goal batches "workers 2 beside 1" RocksDB ms 'at most' 0.35
    goal batches "workers 2 beside 1" "no compactor" ms 'at most' 1.25
    goal batches "* beside 0" "one version" ms 'at most' 1.05
    for share in median 99 99.9; do goal lookups "beside 1 $share" RocksDB ns 'at most' 0.5; done
}

# 1. Batches by workers beside compactors.
batches() {
    local workers compactors name
    for workers in 1 2 4; do
        plan_plain "$workers"
        plan "BTreeMap_$workers" "$folder/baseline" shared --one-batch --threads "$workers"
        for compactors in 0 1 2; do
            plan_ours "ours_${workers}_beside_$compactors" batch "$workers" "$compactors"
            plan_rocksdb "_${workers}_beside_$compactors" beside "$workers" "$compactors"
        done
    done
    measure
    echo "200,000 lookups and 5,000 scans as one batch, by workers beside compactors"
    printf '%-26s %6s %10s %10s %10s %10s %10s %10s %10s %10s\n' '' runs 'batch ms' 'behind ms' 'compact ms' '/ plain' '/ beside 0' \
        '/ RocksDB' "/ Debian's" 'x of one'
    for name in "${names[@]}"; do
        keep_batch "$name"
        if [[ $name == Debian* ]]; then continue; fi
        workers=${name#*_}
        compactors=-
        [[ $name != *_beside_* ]] || compactors=${name##*_}
        print_batch "$name" "${workers%%_*}" "$compactors"
    done
    echo
    forget
}

# How a row's single lookups compare with those of another: their times over its own, where both are there.
print_over() { # NAME OTHER
    local column
    if [ ! -f "$folder/row.$1" ] || [ ! -f "$folder/row.$2" ]; then return; fi
    printf '%-26s %10s' "ours / $2" ''
    for column in 6 7 8 9; do printf ' %10s' "$(over "$(median "$1" "$column")" "$2" "$column")"; done
    echo
}

# Keeps the times of a row of single lookups.
keep_lookups() { # NAME
    local row=${1#*_} column=6 share
    for share in median 99 99.9 longest; do
        keep lookups "${row//_/ } $share" "${1%%_*}" ns "$(median "$1" "$column")"
        column=$((column + 1))
    done
}

# 2. Single lookups by one reader, of which those count that came while compactors were at work.
lookups() {
    local compactors name
    for compactors in 0 1; do
        plan_ours "ours_beside_$compactors" lookups "$compactors"
        plan_rocksdb "_beside_$compactors" lookups "$compactors"
    done
    measure
    echo "200,000 single lookups by one reader, those beside the compactor alone, ns"
    printf '%-26s %10s %10s %10s %10s %10s\n' '' count median 99 99.9 longest
    for name in "${names[@]}"; do
        keep_lookups "$name"
        if [[ $name == Debian* ]]; then continue; fi
        printf '%-26s %10s %10s %10s %10s %10s\n' "$name" "$(median "$name" 5)" "$(median "$name" 6)" "$(median "$name" 7)" \
            "$(median "$name" 8)" "$(median "$name" 9)"
    done
    for compactors in 0 1; do
        print_over "ours_beside_$compactors" "RocksDB_beside_$compactors"
        print_over "ours_beside_$compactors" "Debian's_beside_$compactors"
    done
    forget
}

build_all
"$folder/make_log" counters "${MIB:-60}" > "$folder/log" || fail "no log"
say_machine
rocksdb_options=${rocksdb_options%, max_background_jobs*}", as many compactions at once and max_subcompactions as ours has compactors"
say_rocksdb
echo
batches
lookups
set_goals
say_machine
write_results_beside shared
