#!/bin/bash
# Measures live writes in one owner's store, against RocksDB and against plain Rust with a BTreeMap; and in a store that threads share,
# against RocksDB and against plain Rust with an RwLock.
#
#     bench/live/run.sh [PART..]
#
# The parts are live, feeds and shared, or all where none is named.
#
# It measures the library by ours (or OURS), which makes calls by crates/calls/out/calls (or CALLS), and in the part shared
# crates/bench_beside/out/bench_beside (or BESIDE) by ../beside (or OURS_SHARED). `rt run` in their crates builds them; `none` leaves one
# out. baseline.rs and ../make_log.rs are built by `rustc -O` in a temporary
# folder, and rocksdb.cc by `g++ -O2` against RocksDB without assertions (../rocksdb/build.sh makes it) and against Debian's
# (librocksdb-dev), whose assertions are on; what isn't there is left out. RocksDB has the options of ../rocksdb_store.h, which are
# printed, in its memory environment. It writes no log, as ours writes none.
#
# `live`: the first WRITES writes (1300000) of a log of counters (`make_log counters`) are fed to a store that is empty at first, in
# batches of 1,000 and of 10,000. Behind each, what is picked is compacted until nothing is, a snapshot is taken, 100 drawn keys are
# looked up at it, and it is released. RocksDB applies the batch by `DB::Write`, flushes it, waits until nothing is picked, and gets the
# same keys at a snapshot. The map has no snapshots. The seconds are those of all three steps together. A feed's time is the median of
# eleven while the store holds about 0.1 million writes, and about 1.2 million.
#
# `feeds`: batches of 1, 10, 100, 1,000 and 10,000 writes, as many as FEEDS says for each (2000 2000 2000 1000 100), with the same
# compactions in between, which don't count. A write's time is that of all feeds over the writes. RocksDB does so with a flush behind each
# batch, and without, where it flushes by itself as its memtables are full, and nothing is waited for.
#
# `shared`: one thread feeds WRITES writes in batches of 1,000 to a store that is empty at first. Behind each it takes a snapshot, and
# releases the one before. A compactor works all the time, until all is fed and nothing is picked. From the first batch's snapshot until
# all is fed two readers look drawn keys up one by one, with a clock around each lookup. A lookup pins what is shown, and reads at the
# newest snapshot there: in RocksDB it holds on to the snapshot that was taken last, which is released behind its last holder. The plain
# Rust (fed.rs) has versions of our layout behind `RwLock<Arc<_>>`. RocksDB compacts by one thread. The time goes from the first feed
# until nothing is picked any more. A feed waits from 19 runs on, as RocksDB's flush does by default. A keep is a whole call that takes a
# snapshot and shows it to readers. It stands for the time that a feed of ours holds the lock: both copy the list of runs there and
# publish the copy, and a feed also finds slots for its runs. In the end 20,000 fixed keys are looked up at the last sequence, which are
# compared.
#
# Writes, batches and keys are made before any clock starts. Each program runs in a process of its own, in turn, TURNS times (3), and
# Debian's RocksDB in the first turn alone. All programs must come to the same answers. Each figure is the median of its turns. RESULTS
# names a file for the figures as JSON. It takes five minutes, and more with Debian's RocksDB.
set -u -o pipefail

here=$(cd "$(dirname "${BASH_SOURCE[0]}")" && pwd) || exit 1
ours=${OURS:-$here/ours}
ours_shared=${OURS_SHARED:-$here/../beside}
turns=${TURNS:-3}
writes=${WRITES:-1300000}
read -ra feed_counts <<< "${FEEDS:-2000 2000 2000 1000 100}"
feed_sizes=(1 10 100 1000 10000)
folder=$(mktemp -d) || exit 1
trap 'rm -rf "$folder"' EXIT

fail() {
    echo "run.sh: $*" >&2
    exit 1
}

. "$here/../rocksdb/libraries.sh"

build() { # SOURCE
    rustc --edition 2021 -O -o "$folder/$(basename "$1" .rs)" "$1" || fail "$1 doesn't build"
}

# Builds what there is.
build_all() {
    build "$here/../make_log.rs"
    build "$here/baseline.rs"
    build_rocksdb "$here/rocksdb.cc"
}

# A log of at least as many writes as are asked for, of which a MiB has more than 21,845, and those writes for RocksDB.
make_writes() {
    "$folder/make_log" counters $((writes / 21845 + 1)) > "$folder/log" || fail "no log"
    "$folder/baseline" writes "$writes" < "$folder/log" > "$folder/writes" || fail "no writes"
}

# What is measured side by side: a name for each row, the program, and its words.
names=()
declare -A programs words

plan() { # NAME PROGRAM WORDS: adds a row, where the program is there
    case $2 in
        ours) if [ "$ours" = none ]; then return; fi ;;
        ours_shared) if [ "$ours_shared" = none ]; then return; fi ;;
        rocksdb | debian) if ! has_rocksdb "$2"; then return; fi ;;
    esac
    names+=("$1")
    programs[$1]=$2
    words[$1]=${*:3}
}

# Runs one row's program, and keeps its line.
run_once() { # NAME
    local program=${programs[$1]} asked
    read -ra asked <<< "${words[$1]}"
    case $program in
        ours) "$ours" "${asked[@]}" < "$folder/writes" ;;
        ours_shared) "$ours_shared" "${asked[@]}" < "$folder/log" ;;
        baseline) "$folder/baseline" "${asked[@]}" < "$folder/log" ;;
        *) "$folder/$program" "${asked[@]}" < "$folder/writes" ;;
    esac >> "$folder/row.$1" || fail "$1 fails"
}

# Runs all rows in turn, and makes sure that those of a size have the same answers: their number and their checksum.
measure() { # SIZES
    local turn name size
    for turn in $(seq "$turns"); do
        for name in "${names[@]}"; do
            if [ "$turn" -gt 1 ] && [ "${programs[$name]}" = debian ]; then continue; fi
            run_once "$name"
        done
    done
    for size; do
        [ "$(cut -d ' ' -f 8,9 "$folder"/row.*_"$size" | sort -u | wc -l)" -eq 1 ] || fail "the answers differ: batches of $size"
    done
}

# The median over a row's turns of what awk says of a line.
median() { # NAME EXPRESSION
    awk "{ printf \"%.0f\n\", $2 }" "$folder/row.$1" | sort -n |
        awk '{ at[NR] = $1 } END { printf "%.0f\n", (at[int((NR + 1) / 2)] + at[int(NR / 2) + 1]) / 2 }'
}

# The time over that of another row, where both are there.
over() { # NAME OTHER EXPRESSION
    if [ ! -f "$folder/row.$1" ] || [ ! -f "$folder/row.$2" ]; then
        echo -
        return
    fi
    awk -v one="$(median "$1" "$3")" -v other="$(median "$2" "$3")" 'BEGIN {
        if (other > 0) printf "%.*f", (one / other < 0.1 ? 4 : 2), one / other; else printf "-"
    }'
}

as_number() { # NANOSECONDS UNIT DIGITS
    awk -v time="$1" -v unit="$2" -v digits="$3" 'BEGIN { printf "%.*f", digits, time / unit }'
}

# Whether a ratio keeps to a goal.
verdict() { # RATIO BOUND
    awk -v ratio="$1" -v bound="$2" 'BEGIN { print ratio == "-" ? "not measured" : ratio <= bound ? "met" : "MISSED" }'
}

# Forgets what was planned.
forget() {
    names=()
    rm -f "$folder"/row.*
}

with_commas() { # NUMBER
    awk -v rest="$1" 'BEGIN {
        while (length(rest) > 3) { text = "," substr(rest, length(rest) - 2) text; rest = substr(rest, 1, length(rest) - 3) }
        print rest text
    }'
}

all_steps='$1 + $2 + $3'

# How long a late feed of a row takes over an early one.
growth() { # NAME
    awk -v late="$(median "$1" '$5')" -v early="$(median "$1" '$4')" 'BEGIN { if (early > 0 && late > 0) printf "%.2f", late / early; else printf "-" }'
}

print_live() { # NAME
    local size=${1#*_}
    printf '%-18s %9s %9s %9s %9s %5s %9s %9s %7s %9s %9s %9s\n' "$1" "$(as_number "$(median "$1" "$all_steps")" 1e9 3)" \
        "$(as_number "$(median "$1" '$1')" 1e9 3)" "$(as_number "$(median "$1" '$2')" 1e9 3)" \
        "$(as_number "$(median "$1" '$3')" 1e9 3)" "$(median "$1" '$6')" "$(as_number "$(median "$1" '$4')" 1e6 3)" \
        "$(as_number "$(median "$1" '$5')" 1e6 3)" "$(growth "$1")" "$(over "$1" "BTreeMap_$size" "$all_steps")" \
        "$(over "$1" "RocksDB_$size" "$all_steps")" "$(over "$1" "Debian's_$size" "$all_steps")"
}

# Keeps a row's seconds, and of ours also how a feed grows with the store.
keep_live() { # NAME
    local size=${1#*_} row
    row="batches of $(with_commas "$size")"
    keep_seconds 'live writes' "$row" "${1%%_*}" "$(($(median "$1" "$all_steps") / 1000))"
    if [[ $1 != ours_* ]] || [ "$(median "$1" '$5')" -eq 0 ]; then return; fi
    keep_ms 'a feed at 1.2 million writes' "$row" ours "$(median "$1" '$5')"
    keep_ms 'a feed at 1.2 million writes' "$row" 'at 0.1 million' "$(median "$1" '$4')"
}

# 1. Live writes.
live() {
    local size name ratio
    for size in 1000 10000; do
        plan "ours_$size" ours live "$size" $((writes / size))
        plan "BTreeMap_$size" baseline live "$size" $((writes / size))
        plan "RocksDB_$size" rocksdb live "$size" $((writes / size))
        plan "Debian's_$size" debian live "$size" $((writes / size))
    done
    measure 1000 10000
    echo "$writes writes, by the size of a batch: feed, compactions, a snapshot with 100 lookups"
    printf '%-18s %9s %9s %9s %9s %5s %9s %9s %7s %9s %9s %9s\n' '' seconds 'feeds s' 'compact s' 'lookup s' runs 'at 0.1 M' 'at 1.2 M' \
        growth '/BTreeMap' '/RocksDB' "/Debian's"
    for name in "${names[@]}"; do
        keep_live "$name"
        if [[ $name != Debian* ]]; then print_live "$name"; fi
    done
    echo "'at' has the milliseconds of one feed while the store holds so many writes"
    for size in 1000 10000; do
        if [ "$ours" = none ]; then continue; fi
        ratio=$(over "ours_$size" "RocksDB_$size" "$all_steps")
        echo "goal, batches of $size: at most 0.25 of RocksDB's time: $ratio, $(verdict "$ratio" 0.25)"
        ratio=$(growth "ours_$size")
        echo "goal, batches of $size: a feed at 1.2 million writes at most 1.3 of that at 0.1 million: $ratio, $(verdict "$ratio" 1.3)"
    done
    goal 'live writes' '*' RocksDB s 'at most' 0.25
    goal 'a feed at 1.2 million writes' '*' 'at 0.1 million' ms 'at most' 1.3
    echo
    forget
}

# The time of a write, whose batches have so many writes together.
a_write() { # NAME WRITES
    awk -v time="$(median "$1" '$1')" -v writes="$2" 'BEGIN { printf "%.1f", time / writes }'
}

print_feeds() { # SIZE WRITES
    local name cells=()
    for name in "ours_$1" "BTreeMap_$1" "RocksDB+flush_$1" "RocksDB_$1"; do
        if [ -f "$folder/row.$name" ]; then cells+=("$(a_write "$name" "$2")"); else cells+=(-); fi
    done
    printf '%-8s %10s %10s %10s %14s %10s %11s %10s %10s\n' "$1" "$2" "${cells[@]}" "$(over "ours_$1" "BTreeMap_$1" '$1')" \
        "$(over "ours_$1" "RocksDB+flush_$1" '$1')" "$(over "ours_$1" "RocksDB_$1" '$1')"
}

# Keeps the time of a write of each row of a size that is there.
keep_feeds() { # SIZE WRITES
    local name
    for name in ours BTreeMap RocksDB+flush RocksDB; do
        if [ ! -f "$folder/row.${name}_$1" ]; then continue; fi
        keep feeds "batches of $(with_commas "$1")" "$name" ns "$(a_write "${name}_$1" "$2")"
    done
}

# How many feeds of the size at a place there are: as many as are asked for, if there are so many writes.
feeds_at() { # PLACE
    local most=$((writes / feed_sizes[$1]))
    echo $((feed_counts[$1] < most ? feed_counts[$1] : most))
}

# 2. Feeds of several sizes.
feeds() {
    local place size count
    for place in "${!feed_sizes[@]}"; do
        size=${feed_sizes[place]} count=$(feeds_at "$place")
        plan "ours_$size" ours feeds "$size" "$count"
        plan "BTreeMap_$size" baseline feeds "$size" "$count"
        plan "RocksDB+flush_$size" rocksdb feeds "$size" "$count"
        plan "RocksDB_$size" rocksdb written "$size" "$count"
    done
    measure "${feed_sizes[@]}"
    echo "a feed's nanoseconds for each of its writes"
    printf '%-8s %10s %10s %10s %14s %10s %11s %10s %10s\n' batch writes ours BTreeMap RocksDB+flush RocksDB '/ BTreeMap' '/ +flush' \
        '/ RocksDB'
    for place in "${!feed_sizes[@]}"; do
        size=${feed_sizes[place]}
        count=$((size * $(feeds_at "$place")))
        print_feeds "$size" "$count"
        keep_feeds "$size" "$count"
    done
    echo
    forget
}

# How a figure of ours stands to RocksDB's, and whether it keeps to a goal.
say_goal() { # WHAT EXPRESSION BOUND
    local ratio
    ratio=$(over ours_1000 RocksDB_1000 "$2")
    echo "goal, $1 at most $3 of RocksDB's: $ratio, $(verdict "$ratio" "$3")"
}

print_shared() { # NAME
    local column
    printf '%-10s %9s %9s %9s' "${1%_*}" "$(as_number "$(median "$1" '$1')" 1e9 3)" "$(as_number "$(median "$1" '$2')" 1e9 3)" \
        "$(as_number "$(median "$1" '$3')" 1e3 1)"
    for column in 4 5 6 7 10 11 12; do printf ' %9s' "$(median "$1" "\$$column")"; done
    printf ' %9s %9s\n' "$(over "$1" RwLock_1000 '$1')" "$(over "$1" RocksDB_1000 '$1')"
}

# Keeps a row's seconds, the times of its lookups, and of ours the time of a keep.
keep_shared() { # NAME
    local program=${1%_*} column=4 share
    keep_seconds 'live writes, shared' 'batches of 1,000' "$program" "$(($(median "$1" '$1') / 1000))"
    for share in median 99 99.9 longest; do
        keep 'lookups beside feeds' "$share" "$program" ns "$(median "$1" "\$$column")"
        column=$((column + 1))
    done
    if [ "$program" = ours ]; then keep 'a publication' 'a keep beside feeds' ours µs "$(as_number "$(median "$1" '$3')" 1e3 1)"; fi
}

# Says and sets the goals of live writes that are shared.
set_shared_goals() {
    local share lock
    say_goal 'the whole' '$1' 0.5
    say_goal 'the median of a lookup' '$4' 0.5
    say_goal 'the 99th of a hundred' '$5' 0.5
    say_goal 'the 999th of a thousand' '$6' 0.5
    lock=$(as_number "$(median ours_1000 '$3')" 1e3 1)
    echo "goal, the median of a keep at most 30 microseconds: $lock, $(verdict "$lock" 30)"
    goal 'live writes, shared' '*' RocksDB s 'at most' 0.5
    for share in median 99 99.9; do goal 'lookups beside feeds' "$share" RocksDB ns 'at most' 0.5; done
    goal 'a publication' '*' ours µs 'at most' 30
}

# 3. Live writes in a store that threads share.
shared() {
    local name count=$((writes / 1000))
    plan ours_1000 ours_shared fed 1000 "$count"
    plan RwLock_1000 baseline fed 1000 "$count"
    plan RocksDB_1000 rocksdb fed 1000 "$count"
    plan "Debian's_1000" debian fed 1000 "$count"
    measure 1000
    echo "$writes writes in batches of 1,000 beside a compactor and two readers; lookups in ns"
    printf '%-10s %9s %9s %9s %9s %9s %9s %9s %9s %9s %9s %9s %9s\n' '' seconds 'feeds s' 'keep us' median 99 99.9 longest lookups \
        stalls runs '/ RwLock' '/ RocksDB'
    for name in "${names[@]}"; do
        keep_shared "$name"
        print_shared "$name"
    done
    if [ "$ours_shared" != none ]; then set_shared_goals; fi
    echo
    forget
}

if [ $# -eq 0 ]; then set -- live feeds shared; fi
for part; do
    case $part in
        live | feeds) if [ "$ours" != none ]; then ours=$(realpath -e "$ours") || exit 2; fi ;;
        shared) if [ "$ours_shared" != none ]; then ours_shared=$(realpath -e "$ours_shared") || exit 2; fi ;;
        *) fail "there is no part $part" ;;
    esac
done
[ "${#feed_counts[@]}" -eq "${#feed_sizes[@]}" ] || fail "FEEDS has not a number for each of ${feed_sizes[*]}"
build_all
make_writes
say_machine
rocksdb_options+=", no log; in shared one compaction at once and max_subcompactions 1"
say_rocksdb
echo
for part; do "$part"; done
say_machine
write_results_beside live
