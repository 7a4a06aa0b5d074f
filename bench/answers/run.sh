#!/bin/bash
# Measures lookups and scans of a store that opens from a log, against plain Rust with a BTreeMap, against RocksDB, and against
# LMDB over the rows of a compacted store.
#
#     bench/answers/run.sh [PART..]
#
# The parts are answers, workers, uncompacted, many, hot, deleted and ranged, or all of them where none is named. They take about seven
# minutes, of which the workers, who have no RocksDB beside them, take four.
#
# It measures the library by ours (or OURS), which makes calls by crates/calls/out/calls (or CALLS); `rt run` in crates/calls builds
# that. OURS=none leaves it out. baseline.rs, machine.rs and ../make_log.rs are built by `rustc -O` in a temporary folder, rocksdb.cc by
# `g++ -O2` against RocksDB without assertions (../rocksdb/build.sh makes it) and against Debian's (librocksdb-dev), and lmdb.cc
# against Debian's LMDB (liblmdb-dev); what isn't there is left out.
#
# RocksDB has the options of ../rocksdb_store.h, which are printed, and reads all rows once before the clock starts, so that its
# cache of blocks holds them; all scans go by one iterator. Where nothing is compacted, it is measured with a Bloom filter of 10 bits a
# key too, as ours has. LMDB has one row for each key, as plain Rust folds them: written by
# MDB_WRITEMAP, MDB_NOSYNC and MDB_NOMETASYNC to a file in /dev/shm, and read in one transaction that stays open, scans by one
# cursor. What it takes to load isn't measured.
#
# Each program runs in a process of its own, in turn, TURNS times (5), and Debian's RocksDB in the first turn alone: it opens the
# log, makes the queries, answers them once, and prints how long that took without the rest. A row has the turn with the least
# time, and where it says so the median of all turns. All programs must come to the same answers. Logs: `counters` of MIB MiB
# (60), `hot` of HOT_MIB (16), `deleted` and `ranged` (see ../make_log.rs), which have the same queries. RESULTS names a file for
# the figures as JSON.
set -u -o pipefail

here=$(cd "$(dirname "${BASH_SOURCE[0]}")" && pwd) || exit 1
ours=${OURS:-$here/ours}
turns=${TURNS:-5}
many_ours=172000
many_rocksdb=300000
folder=$(mktemp -d) || exit 1
memory=$(mktemp -d -p /dev/shm 2> /dev/null || mktemp -d) || exit 1
trap 'rm -rf "$folder" "$memory"' EXIT

fail() {
    echo "run.sh: $*" >&2
    exit 1
}

. "$here/../rocksdb/libraries.sh"

build() { # SOURCE
    rustc --edition 2021 -O -o "$folder/$(basename "$1" .rs)" "$1" || fail "$1 doesn't build"
}

# Builds what there is.
build_all() {
    build "$here/../make_log.rs"
    build "$here/baseline.rs"
    build "$here/machine.rs"
    if [ "$ours" != none ]; then ours=$(realpath -e "$ours") || exit 2; fi
    build_rocksdb "$here/rocksdb.cc"
    has_lmdb=
    if has_header lmdb.h; then
        g++ -O2 -std=c++17 -o "$folder/lmdb" "$here/lmdb.cc" -llmdb || fail "lmdb.cc doesn't build"
        has_lmdb=yes
    else
        echo "LMDB is left out: its header (liblmdb-dev) or g++ aren't there" >&2
    fi
}

make_logs() {
    "$folder/make_log" counters "${MIB:-60}" > "$folder/answers.log" || fail "no log"
    "$folder/make_log" hot "${HOT_MIB:-16}" > "$folder/hot.log" || fail "no log"
    "$folder/make_log" deleted > "$folder/deleted.log" || fail "no log"
    "$folder/make_log" ranged > "$folder/ranged.log" || fail "no log"
    if [ -n "$has_lmdb" ]; then
        for log in answers hot deleted ranged; do
            "$folder/baseline" rows < "$folder/$log.log" > "$folder/$log.rows" || fail "no rows"
        done
        log=
    fi
}

# What is measured side by side: a name for each row, the program, its words, and its log (or else that of its workload).
names=()
declare -A programs words logs
log=

plan() { # NAME PROGRAM WORDS: adds a row, where the program is there
    local name=$1 program=$2
    shift 2
    case $program in
        ours) if [ "$ours" = none ]; then return; fi ;;
        rocksdb | debian) if ! has_rocksdb "$program"; then return; fi ;;
        filtered) if ! has_rocksdb rocksdb; then return; fi ;;
        lmdb) if [ -z "$has_lmdb" ]; then return; fi ;;
    esac
    names+=("$name")
    programs[$name]=$program
    words[$name]=$*
    logs[$name]=${log:-$1}
}

# Plans the same of RocksDB without assertions and of Debian's, which has no row of its own but stands in a column.
plan_rocksdb() { # KIND WORDS: `_compacted`, or whatever else stands behind the names
    plan "RocksDB$1" rocksdb "${@:2}"
    plan "Debian's$1" debian "${@:2}"
}

# Runs one row's program over its workload's log, and keeps what it prints behind the sum of its times.
run_once() { # NAME
    local program=${programs[$1]} input=$folder/${logs[$1]}.log asked
    read -ra asked <<< "${words[$1]}"
    case $program in
        ours) asked=("$ours" "${asked[@]}") ;;
        filtered) asked=(env FILTER=10 "$folder/rocksdb" "${asked[@]}") ;;
        lmdb)
            rm -f "$memory"/*
            asked=("$folder/lmdb" "${asked[@]}" "$memory/rows")
            input=$folder/${logs[$1]}.rows
            ;;
        *) asked=("$folder/$program" "${asked[@]}") ;;
    esac
    "${asked[@]}" < "$input" > "$folder/line" || fail "$1 fails"
    awk '{ sum = 0; for (field = 5; field <= NF; field++) sum += $field; printf "%.0f %s\n", sum, $0 }' "$folder/line" \
        >> "$folder/row.$1" || fail "no figures of $1"
}

# The number in the middle of a sorted list, one a line.
middle() {
    awk '{ at[NR] = $1 } END { printf "%.0f\n", (at[int((NR + 1) / 2)] + at[int(NR / 2) + 1]) / 2 }'
}

# Runs all rows in turn, TURNS times or as often as is said, and keeps the line of each one's least sum and the median of its
# sums. The answers of all are the same.
measure() { # PART [TIMES]
    local turn name
    if [ "${#names[@]}" -eq 0 ]; then return; fi
    for turn in $(seq "${2:-$turns}"); do
        for name in "${names[@]}"; do
            if [ "$turn" -gt 1 ] && [ "${programs[$name]}" = debian ]; then continue; fi
            run_once "$name"
        done
    done
    [ "$(for name in "${names[@]}"; do cut -d ' ' -f 4,5 "$folder/row.$name"; done | sort -u | wc -l)" -eq 1 ] ||
        fail "the answers differ: ${words[${names[0]}]}"
    for name in "${names[@]}"; do
        sort -n "$folder/row.$name" > "$folder/sorted.$name" || fail "no figures of $name"
        head -n 1 "$folder/sorted.$name" > "$folder/least.$name" || fail "no figures of $name"
        middle < "$folder/sorted.$name" > "$folder/median.$name" || fail "no median of $name"
        rm "$folder/row.$name" "$folder/sorted.$name"
        keep_row "$1" "$name"
    done
}

# Keeps the least time of a row, whose name begins with its program, and those of its batches. A program that has one row in a part
# stands beside our compacted store.
keep_row() { # PART NAME
    local program=${2%%_*} row= sum times
    case $1 in
        hot) row=memtable_1_MiB_trigger_4 ;;
        deleted | ranged) row=compacted ;;
    esac
    if [[ $2 == *_* ]]; then row=${2#*_}; fi
    row=${row//_/ }
    read -r sum _ _ _ _ times < "$folder/least.$2"
    read -ra times <<< "$times"
    keep_ms "$1" "$row" "$program" "$sum"
    case $1 in
        answers | uncompacted | many)
            keep_ms "$1, lookups" "$row" "$program" "${times[0]}"
            keep_ms "$1, scans" "$row" "$program" "${times[1]}"
            ;;
        deleted | ranged)
            keep_ms "$1" "$row, 5,000 rows" "$program" "${times[0]}"
            keep_ms "$1" "$row, 10,000 rows" "$program" "${times[1]}"
            keep_ms "$1" "$row, 20,000 rows" "$program" "${times[2]}"
            ;;
    esac
}

# Keeps our time by four workers beside that by one: the least of all turns, and the median.
keep_four() {
    local one=ours_pieces_of_16_workers_1 four=ours_pieces_of_16_workers_4
    if [ ! -f "$folder/least.$four" ]; then return; fi
    keep_ms 'four workers' '' ours "$(cut -d ' ' -f 1 "$folder/least.$four")"
    keep_ms 'four workers' '' 'one worker' "$(cut -d ' ' -f 1 "$folder/least.$one")"
    keep_ms 'four workers, medians' '' ours "$(< "$folder/median.$four")"
    keep_ms 'four workers, medians' '' 'one worker' "$(< "$folder/median.$one")"
}

set_goals() {
    goal answers '*' BTreeMap ms 'at most' 1.2
    goal answers '*' RocksDB ms 'at most' 0.66
    goal uncompacted '*' RocksDB ms 'at most' 1.0
    goal many '*' RocksDB ms 'at most' 0.4
    goal many '*' RocksDB+filter ms 'at most' 0.4
    goal 'four workers' '*' 'one worker' ms 'at least' 3.2
    goal 'four workers, medians' '*' 'one worker' ms 'at least' 3.2
}

# Prints a row for each name: its runs and points, and what awk says of it. `sum` is its least time, `time[1]` and on are
# those of its batches then, `median` is that of all its turns, and `over(NAME)` is `sum` over that of another row. Debian's
# RocksDB has no row. Then nothing is planned any more.
print_rows() { # AWK
    local name
    for name in "${names[@]}"; do
        echo "$name $(< "$folder/median.$name") $(< "$folder/least.$name")"
    done | awk '
        function cell(format, number) { return sprintf("%12s", sprintf(format, number)) }
        function ms(nanoseconds) { return cell("%.2f", nanoseconds / 1e6) }
        function over(other) { return sums[other] ? cell("%.2f", sum / sums[other]) : cell("-", 0) }
        function debian(kind) { return "Debian\047s" kind }
        { names[NR] = $1; medians[$1] = $2; sums[$1] = $3; lines[NR] = $0 }
        END {
            for (row = 1; row <= NR; row++) {
                count = split(lines[row], fields, " ")
                name = names[row]; median = fields[2]; sum = fields[3]; runs = fields[4]; points = fields[5]
                if (name ~ /^Debian/) continue
                for (place = 8; place <= count; place++) time[place - 7] = fields[place]
                said = ""
                '"$1"'
                gsub("_", " ", name)
                printf "%-34s %4d %9d %s\n", name, runs, points, said
            }
        }' || fail "no table"
    names=()
    echo
}

heading() { # COLUMNS, of twelve characters each
    printf '%-34s %4s %9s ' '' runs points
    printf '%12s' "$@"
    echo
}

# 1. Many keys, compacted.
answers() {
    echo "answers: 20,000 lookups and 500 scans, compacted"
    plan ours ours answers
    plan BTreeMap baseline answers
    plan LMDB lmdb answers
    plan_rocksdb '' answers
    measure answers
    heading 'lookups ms' 'scans ms' 'sum ms' '/ BTreeMap' '/ LMDB' '/ RocksDB' "/ Debian's"
    print_rows 'said = ms(time[1]) ms(time[2]) ms(sum) over("BTreeMap") over("LMDB") over("RocksDB") over(debian(""))'
}

# How much more the processors do together than one does, whatever the program.
machine() {
    echo "rounds of arithmetic in registers, in millions a second"
    printf '%-34s %26s%12s%12s\n' '' least median most
    "$folder/machine" | awk '{ printf "%-34s %26s%12s%12s\n", "threads " $1, $2, $3, $4 }' || fail "no rounds"
    echo
}

# 2. The same queries as one batch, by more workers, in smaller and larger pieces. How fast four processors are together
# changes with what else the machine does, so these rows have three times the turns.
workers() {
    local workers piece
    machine
    echo "answers, compacted, as one batch, by workers: times faster than one"
    for piece in 1 16 256; do
        for workers in 1 2 4; do
            plan "ours_pieces_of_${piece}_workers_$workers" ours answers --one-batch --workers "$workers" --piece "$piece"
        done
    done
    for workers in 1 2 4; do
        plan "BTreeMap_pieces_of_16_workers_$workers" baseline answers --one-batch --threads "$workers"
    done
    measure workers $((3 * turns))
    keep_four
    heading 'ms' 'faster' 'median ms' 'faster'
    print_rows 'one = name; sub(/[0-9]+$/, "1", one)
        said = ms(sum) cell("%.2f", sums[one] / sum) ms(median) cell("%.2f", medians[one] / median)'
}

# 3. Many runs.
uncompacted() {
    echo "answers, not compacted"
    plan ours ours answers --uncompacted
    plan_rocksdb '' answers --uncompacted
    plan RocksDB+filter filtered answers --uncompacted
    measure uncompacted
    heading 'lookups ms' 'scans ms' 'sum ms' '/ RocksDB' '/ +filter' "/ Debian's"
    print_rows 'said = ms(time[1]) ms(time[2]) ms(sum) over("RocksDB") over("RocksDB+filter") over(debian(""))'
}

# 4. As many runs as a store may have, and as many files. The sizes of memtables make them so many of this log.
many() {
    echo "answers, 256 runs of 5,000 points, not compacted"
    plan ours ours answers --uncompacted --memtable "$many_ours"
    plan_rocksdb '' answers --uncompacted --memtable "$many_rocksdb"
    plan RocksDB+filter filtered answers --uncompacted --memtable "$many_rocksdb"
    measure many
    heading 'lookups ms' 'scans ms' 'sum ms' '/ RocksDB' '/ +filter' "/ Debian's"
    print_rows 'said = ms(time[1]) ms(time[2]) ms(sum) over("RocksDB") over("RocksDB+filter") over(debian(""))'
}

# 5. Few keys with many merges.
hot() {
    local memtable trigger operands
    operands=$("$folder/baseline" operands < "$folder/hot.log") || fail "no operands"
    echo "hot: 20,000 lookups; where no flush or compaction folds operands, they fold $operands"
    plan BTreeMap baseline hot
    plan LMDB lmdb hot
    plan_hot _uncompacted --uncompacted
    for memtable in 1 4 16; do
        for trigger in 2 4 8; do
            plan_hot "_memtable_${memtable}_MiB_trigger_$trigger" --memtable $((memtable << 20)) --trigger "$trigger"
        done
    done
    measure hot
    heading 'ms' 'ns/lookup' 'ns/operand' '/ BTreeMap' '/ RocksDB' "/ Debian's"
    # A store with as many points as writes folds what was counted; in another one it can't be said.
    print_rows 'whole = name ~ /^ours/ && points == '"$(hot_writes)"'
        kind = name; if (!sub(/^[^_]*_/, "_", kind)) kind = ""
        said = ms(sum) cell("%.0f", sum / 20000) (whole ? cell("%.0f", sum / '"$operands"') : cell("-", 0)) \
            over("BTreeMap") over("RocksDB" kind) over(debian(kind))'
}

plan_hot() { # KIND WORDS
    plan "ours$1" ours hot "${@:2}"
    plan_rocksdb "$1" hot "${@:2}"
}

# How many writes the log of hot counters has: the points of the store that nothing was folded in.
hot_writes() {
    if [ "$ours" = none ]; then echo 0; else cut -d ' ' -f 3 "$folder/least.ours_uncompacted"; fi
}

# 6. Scans over deleted keys, of the log of a name, which says how they were deleted; with so large memtables.
over_deleted() { # LOG HOW MEMTABLE
    log=$1
    echo "$1: a scan of 5,000 rows, of 10,000 and of 20,000, nine of ten keys deleted $2"
    plan BTreeMap baseline deleted
    plan LMDB lmdb deleted
    plan ours_uncompacted ours deleted --uncompacted --memtable "$3"
    plan_rocksdb _uncompacted deleted --uncompacted --memtable "$3"
    plan ours_compacted ours deleted --memtable "$3"
    plan_rocksdb _compacted deleted --memtable "$3"
    measure "$1"
    log=
    heading '5,000 ms' '10,000 ms' '20,000 ms' '/ 5,000' '/ 10,000' '/ BTreeMap' '/ RocksDB' "/ Debian's"
    print_rows 'kind = name; if (!sub(/^[^_]*_/, "_", kind)) kind = "_compacted"
        said = ms(time[1]) ms(time[2]) ms(time[3]) cell("%.2f", time[2] / time[1]) \
            cell("%.2f", time[3] / time[2]) over("BTreeMap") over("RocksDB" kind) over(debian(kind))'
}

deleted() {
    over_deleted deleted 'one by one' $((4 << 20))
}

ranged() {
    over_deleted ranged 'by ranges' $((1 << 20))
}

if [ $# -eq 0 ]; then set -- answers workers uncompacted many hot deleted ranged; fi
for part; do
    case $part in
        answers | workers | uncompacted | many | hot | deleted | ranged) ;;
        *) fail "there is no part $part" ;;
    esac
done
build_all
make_logs
say_machine
say_rocksdb
if [ -n "$has_lmdb" ]; then echo "LMDB $(dpkg-query -W -f '${Version}' liblmdb-dev)"; fi
echo
for part; do "$part"; done
say_machine
set_goals
write_results_beside answers
