#!/bin/bash
# Measures what views and jobs take of the thread that owns a store, and a store that threads share by them, against
# RocksDB. All are called from C.
#
#     bench/views/run.sh [PART..]
#
# The parts are views, jobs, lookups and writes, or all where none is named.
#
# It measures crates/uc_c/out/libuc_c.a (or OURS), which `rt lib` in crates/uc_c builds; `none` leaves it out. The
# programs are calls.c, and threads.c with ucstore.c or rocksdb.c, built by `cc -std=c99 -O2` in a temporary folder.
# RocksDB is that without assertions (../rocksdb/build.sh makes it), with the options of ../c/rocksdb.c, and Debian's
# (librocksdb-dev), whose assertions are on. What isn't there is left out.
#
# - views: a store has 64 runs. A view is taken and closed, where nothing was written since the last one, and behind
#   each write; and there is one again, which is closed.
# - jobs: a store has ten runs of 130,000 points, which one job compacts, JOBS times anew (9). The owner's part is
#   taking and ending it. That frees the ten runs, unless a view keeps them for another thread to free. Both are there.
# - lookups: 1, 2 and 3 threads look keys up for SPAN seconds (5), with a clock around each lookup. Another thread goes
#   on to write single puts, and one compacts. Ours reads views: the writer takes one after each 1,000 puts, and each
#   reader has the newest again after each 1,000 lookups, both under a lock. RocksDB reads the newest, and flushes and
#   compacts by two threads of its own. What readers take of processors is there too, since other work takes some.
# - writes: WRITES keys (3000000) drawn of as many are put one by one, with a clock around each put, beside two threads
#   that compact by jobs, or RocksDB's own two. Ours flushes by the thread that writes. What is left to compact behind
#   the last write isn't counted. Then a million drawn keys are looked up in the runs that there are.
#
# All programs check what they read, and all keys in the end. Each runs in a process of its own, in turn, TURNS times
# (3), and Debian's RocksDB in the first turn alone. Each figure is the median of its turns. RESULTS names a file for
# the figures as JSON. It takes six minutes.
set -u -o pipefail

here=$(cd "$(dirname "${BASH_SOURCE[0]}")" && pwd) || exit 1
top=$here/../..
ours=${OURS:-$top/crates/uc_c/out/libuc_c.a}
# What numbers the stores, which tools/install puts into the library.
ids=$top/bindings/c/ids.c
turns=${TURNS:-3}
jobs=${JOBS:-9}
span=${SPAN:-5}
writes=${WRITES:-3000000}
folder=$(mktemp -d) || exit 1
trap 'rm -rf "$folder"' EXIT

fail() {
    echo "run.sh: $*" >&2
    exit 1
}

. "$here/../rocksdb/libraries.sh"

compile() { # NAME OPTIONS
    cc -std=c99 -O2 -Wall -Wextra -pedantic -c "$here/$1.c" -o "$folder/$1.o" "${@:2}" || fail "$1.c doesn't build"
}

link_ours() { # PROGRAM OPTIONS
    # shellcheck disable=SC2086 # LDLIBS may name more libraries.
    cc -I "$top/bindings/c" "${@:2}" "$ids" "$ours" "$kit/c/liblibc_c.a" ${LDLIBS:-} -o "$folder/$1" || fail "$1 isn't linked"
}

build_ours() {
    local kit name
    ours=$(realpath -e "$ours") || exit 2
    kit=$(dirname "$(rt doc)") || fail "there is no kit: rt isn't found"
    for name in calls ucstore; do compile "$name" -I "$top/bindings/c"; done
    link_ours calls "$folder/calls.o"
    link_ours ours -pthread "$folder/threads.o" "$folder/ucstore.o"
}

# Builds what there is.
build_all() {
    compile threads
    if [ "$ours" != none ]; then build_ours; fi
    if has_released; then
        compile rocksdb -I "$rocksdb_folder/include"
    elif has_header rocksdb/c.h; then
        compile rocksdb
    else
        return
    fi
    ld -r "$folder/threads.o" "$folder/rocksdb.o" -o "$folder/shared.o" || fail "rocksdb.c isn't linked"
    build_rocksdb "$folder/shared.o"
}

# The programs that share a store, as far as they are there.
programs() {
    if [ "$ours" != none ]; then echo ours; fi
    printf '%s\n' "${rocksdbs[@]}"
}

# Runs a program of each of these rows in turn, TURNS times, and keeps its lines.
measure() { # ROW:PROGRAM:WORDS..
    local turn row name program words
    for turn in $(seq "$turns"); do
        for row; do
            IFS=: read -r name program words <<< "$row"
            if [ "$turn" -gt 1 ] && [ "$program" = debian ]; then continue; fi
            # shellcheck disable=SC2086 # Words are several.
            "$folder/$program" $words >> "$folder/row.$name" || fail "$program $words fails"
        done
    done
}

# The median over a row's turns of a column.
median() { # ROW COLUMN
    awk -v column="$2" '{ printf "%.0f\n", $column }' "$folder/row.$1" | sort -n |
        awk '{ at[NR] = $1 } END { printf "%.0f\n", (at[int((NR + 1) / 2)] + at[int(NR / 2) + 1]) / 2 }'
}

# A figure over that of another row, where both are there.
over() { # ROW OTHER COLUMN
    if [ ! -f "$folder/row.$1" ] || [ ! -f "$folder/row.$2" ]; then
        echo -
        return
    fi
    awk -v one="$(median "$1" "$3")" -v other="$(median "$2" "$3")" 'BEGIN { printf "%.2f", one / other }'
}

as_millions() { # NUMBER
    awk -v number="$1" 'BEGIN { printf "%.3f", number / 1e6 }'
}

# Keeps a figure of our own calls, and prints it.
keep_call() { # WORK CASE ROW COLUMN
    local value
    value=$(median "$3" "$4")
    printf '  %-40s %12s ns\n' "$2" "$value"
    keep "$1" "$2" ours ns "$value"
}

views() {
    if [ "$ours" = none ]; then return; fi
    measure "views:calls:views 64 10001"
    echo "a store of 64 runs"
    keep_call views 'view and close' views 1
    keep_call views 'view and close behind a write' views 2
    keep_call views 'again and close' views 3
    echo
}

jobs() {
    local which column=1
    if [ "$ours" = none ]; then return; fi
    measure "jobs:calls:jobs 10 130000 $jobs"
    echo "a job of ten runs of 130,000 points, $jobs times"
    for which in 'old runs freed' 'old runs kept by a view'; do
        keep_call "owner's part of a job" "$which, median" jobs "$column"
        keep_call "owner's part of a job" "$which, longest" jobs $((column + 1))
        keep_call 'parts of a job' "$which, taking" jobs $((column + 2))
        keep_call 'parts of a job' "$which, ending" jobs $((column + 3))
        column=$((column + 4))
    done
    keep_call 'parts of a job' running jobs "$column"
    echo
}

# Keeps the rates and the times of a row of lookups.
keep_lookups() { # PROGRAM READERS
    local column=3 share name row=lookups.$1.$2
    name=$(name_of "$1")
    keep 'lookups on views' "$2 readers" "$name" M/s "$(as_millions "$(median "$row" 1)")"
    keep 'writes beside lookups' "$2 readers" "$name" M/s "$(as_millions "$(median "$row" 2)")"
    for share in median 99 99.9 longest 'of a processor'; do
        keep 'lookups on views' "$2 readers $share" "$name" ns "$(median "$row" "$column")"
        column=$((column + 1))
    done
    if [ "$1 $2" = 'ours 3' ]; then
        keep 'lookups on views' '3 readers' 'one reader' M/s "$(as_millions "$(median lookups.ours.1 1)")"
    fi
}

print_lookups() { # PROGRAM READERS
    local column row=lookups.$1.$2
    printf '%-10s %7s' "$(name_of "$1")" "$2"
    for column in 1 2; do printf ' %9s' "$(as_millions "$(median "$row" "$column")")"; done
    for column in 3 4 5 6 7; do printf ' %9s' "$(median "$row" "$column")"; done
    printf ' %9s' "$(over "$row" "lookups.$1.1" 1)"
    for column in 1 3 4 5 7; do printf ' %9s' "$(over "$row" "lookups.rocksdb.$2" "$column")"; done
    printf '\n'
}

lookups() {
    local rows=() program readers
    for readers in 1 2 3; do
        for program in $(programs); do rows+=("lookups.$program.$readers:$program:lookups $readers $span"); done
    done
    measure "${rows[@]}"
    echo "lookups and writes in millions a second, lookups in ns, and shares of RocksDB's"
    printf '%-10s %7s' '' readers
    printf ' %9s' lookups writes median 99 99.9 longest processor 'x of one' '/ lookups' '/ median' '/ 99' '/ 99.9' \
        '/ proc.'
    printf '\n'
    for program in $(programs); do
        for readers in 1 2 3; do
            keep_lookups "$program" "$readers"
            print_lookups "$program" "$readers"
        done
    done
    echo
}

# Keeps the times of a row of writes.
keep_writes() { # PROGRAM
    local column=2 share name
    name=$(name_of "$1")
    keep_ms 'single writes beside jobs' all "$name" "$(median "writes.$1" 1)"
    for share in median 99.9 longest; do
        keep 'single writes beside jobs' "$share" "$name" ns "$(median "writes.$1" "$column")"
        column=$((column + 1))
    done
    keep_ms 'lookups behind the writes' all "$name" "$(median "writes.$1" 5)"
    keep 'memory of the writes' most "$name" MiB "$(($(median "writes.$1" 6) / 1024))"
}

print_writes() { # PROGRAM
    local column
    printf '%-10s %9.0f' "$(name_of "$1")" "$(as_millions "$(median "writes.$1" 1)")"
    for column in 2 3 4; do printf ' %9s' "$(median "writes.$1" "$column")"; done
    printf ' %9.0f %9s' "$(as_millions "$(median "writes.$1" 5)")" "$(($(median "writes.$1" 6) / 1024))"
    for column in 1 2 3 4 5 6; do printf ' %9s' "$(over "writes.$1" writes.rocksdb "$column")"; done
    printf '  %s\n' "$(cut -d ' ' -f 7- "$folder/row.writes.$1" | sort -u | paste -s -d ',')"
}

writes() {
    local rows=() program
    for program in $(programs); do rows+=("writes.$program:$program:writes $writes"); done
    measure "${rows[@]}"
    echo "$writes single writes and a million lookups, each all in ms, a write in ns, MiB, shares of RocksDB's; what the longest was"
    printf '%-10s' ''
    printf ' %9s' all median 99.9 longest lookups MiB '/ all' '/ median' '/ 99.9' '/ longest' '/ lookups' '/ MiB'
    printf '\n'
    for program in $(programs); do
        keep_writes "$program"
        print_writes "$program"
    done
    echo
}

set_goals() {
    local share
    goal views 'view and close' ours ns 'at most' 2000
    goal views 'again and close' ours ns 'at most' 100
    goal "owner's part of a job" '*' ours ns 'at most' 50000
    goal 'lookups on views' '*' RocksDB M/s 'at least' 3
    goal 'lookups on views' '3 readers' 'one reader' M/s 'at least' 2.7
    for share in median 99 99.9; do goal 'lookups on views' "* $share" RocksDB ns 'at most' 0.3; done
    goal 'single writes beside jobs' all RocksDB ms 'at most' 0.4
    goal 'single writes beside jobs' 99.9 RocksDB ns 'at most' 1
    goal 'lookups behind the writes' all RocksDB ms 'at most' 0.4
    goal 'memory of the writes' most RocksDB MiB 'at most' 1
}

if [ $# -eq 0 ]; then set -- views jobs lookups writes; fi
for part; do
    case $part in
        views | jobs | lookups | writes) ;;
        *) fail "there is no part $part" ;;
    esac
done
build_all
say_machine
rocksdb_options="universal compaction (trigger 4, size ratio 1, amplification 200 percent), memtables of 4 MiB, memory \
environment, no log, no compression, a cache of blocks of 1 GiB, a filter of 10 bits a key, max_background_jobs 2"
say_rocksdb
echo
set_goals
for part; do "$part"; done
say_machine
write_results_beside views
