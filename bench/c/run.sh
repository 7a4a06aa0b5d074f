#!/bin/bash
# Measures a store that is called from C, against RocksDB and LevelDB by their C interfaces.
#
#     bench/c/run.sh [PART..]
#
# The parts are counters, puts and opening, or all where none is named.
#
# It measures crates/uc_c/out/libuc_c.a (or OURS), which `rt lib` in crates/uc_c builds; `none` leaves it out. All programs are
# workload.c and one of ucstore.c, rocksdb.c and leveldb.c, built by `cc -std=c99 -O2` in a temporary folder. RocksDB is that
# without assertions (../rocksdb/build.sh makes it) and Debian's (librocksdb-dev), whose assertions are on; LevelDB is Debian's
# (libleveldb-dev). What isn't there is left out.
#
# WRITES writes (1300000) of 300,000 keys of 16 bytes are written in batches of 1,000, and by ours and RocksDB one by one too. In
# `puts` all set numbers of 8 bytes; in `counters` half of them merge some, which LevelDB can't do. Then what is gathered is flushed,
# nothing is left to be compacted, a snapshot is taken, and all rows are read once. GETS keys (1000000) are looked up one by one,
# and SCANS scans (10000) read 1 to 50 rows each. Then 20,000 writes are gathered, and a fifth as many keys are looked up, half of them
# keys of these writes. All programs must read the same. Each call that writes is timed, too.
#
# All gather writes in memtables of 4 MiB. Our store has no threads: a write that finds the memtable full flushes it, and compacts what
# is picked, so the time of its writes has both. The others flush and compact by threads beside the caller. The time of their writes has
# that of waiting for these threads. The time of compacting is what is left behind the last write. There RocksDB
# waits, and LevelDB, which has no call for that, compacts everything. No store compresses, all have caches for all blocks and filters of 10 bits a key.
# RocksDB picks by the rules of ours, in its memory environment and without a log. LevelDB always writes one, to files in /dev/shm.
#
# In `opening` a log of OPENED writes (10000000) in batches of 1,000 is opened by opening.c and by ../report/rocksdb.cc, which ends when
# all is compacted. The time is that of the process, and both have to read the same.
#
# Each program runs in a process of its own, in turn, TURNS times (3), and Debian's RocksDB in the first turn alone. Each figure is
# the median of its turns. RESULTS names a file for the figures as JSON. It takes three minutes.
set -u -o pipefail

here=$(cd "$(dirname "${BASH_SOURCE[0]}")" && pwd) || exit 1
top=$here/../..
ours=${OURS:-$top/crates/uc_c/out/libuc_c.a}
# What numbers the stores, which tools/install puts into the library.
ids=$top/bindings/c/ids.c
turns=${TURNS:-3}
writes=${WRITES:-1300000}
gets=${GETS:-1000000}
scans=${SCANS:-10000}
opened=${OPENED:-10000000}
folder=$(mktemp -d) || exit 1
memory=$(mktemp -d -p /dev/shm 2> /dev/null || mktemp -d) || exit 1
trap 'rm -rf "$folder" "$memory"' EXIT

fail() {
    echo "run.sh: $*" >&2
    exit 1
}

. "$here/../rocksdb/libraries.sh"

compile() { # NAME OPTIONS: an object of workload.c and a store
    local name=$1
    shift
    cc -std=c99 -O2 -Wall -Wextra -pedantic -c "$here/$name.c" -o "$folder/$name.part.o" "$@" &&
        ld -r "$folder/$name.part.o" "$folder/workload.o" -o "$folder/$name.o" || fail "$name.c doesn't build"
}

build_ours() {
    local kit
    ours=$(realpath -e "$ours") || exit 2
    kit=$(dirname "$(rt doc)") || fail "there is no kit: rt isn't found"
    compile ucstore -I "$top/bindings/c"
    # shellcheck disable=SC2086 # LDLIBS may name more libraries.
    cc -I "$top/bindings/c" "$folder/ucstore.o" "$ids" "$ours" "$kit/c/liblibc_c.a" ${LDLIBS:-} -o "$folder/ours" || fail "ucstore.c isn't linked"
}

# Builds what there is.
build_all() {
    cc -std=c99 -O2 -Wall -Wextra -pedantic -c "$here/workload.c" -o "$folder/workload.o" || fail "workload.c doesn't build"
    if [ "$ours" != none ]; then build_ours; fi
    if has_released; then
        compile rocksdb -I "$rocksdb_folder/include"
    elif has_header rocksdb/c.h; then
        compile rocksdb
    fi
    build_rocksdb "$folder/rocksdb.o"
    has_leveldb=
    if has_header leveldb/c.h; then
        compile leveldb
        g++ "$folder/leveldb.o" -lleveldb -o "$folder/leveldb" || fail "leveldb.c isn't linked"
        has_leveldb=yes
    else
        echo "LevelDB is left out: its headers (libleveldb-dev) or g++ aren't there" >&2
    fi
}

# The seconds that a program takes for a log on standard input.
seconds_of() { # PROGRAM
    local before after
    before=$(date +%s%N)
    "$folder/$1" < "$memory/log" > /dev/null || fail "$1 fails"
    after=$(date +%s%N)
    echo $((after - before))
}

# Opens a log of many writes.
run_opening() {
    local turn name
    cc -std=c99 -O2 -Wall -Wextra -pedantic -I "$top/bindings/c" "$here/opening.c" "$ids" "$ours" "$(dirname "$(rt doc)")/c/liblibc_c.a" \
        -o "$folder/opening" || fail "opening.c doesn't build"
    rocksdbs=()
    build_rocksdb "$here/../report/rocksdb.cc"
    has_rocksdb rocksdb || fail "the opening needs RocksDB without assertions"
    "$folder/opening" --make "$opened" > "$memory/log" || fail "there is no log"
    [ "$("$folder/opening" --values < "$memory/log")" = "$("$folder/rocksdb" --values < "$memory/log")" ] || fail "the answers differ: opening"
    for turn in $(seq "$turns"); do
        for name in opening rocksdb; do seconds_of "$name" >> "$folder/row.$name"; done
    done
    keep_ms 'opening from C' "$opened writes" ours "$(median opening '$1')"
    keep_ms 'opening from C' "$opened writes" RocksDB "$(median rocksdb '$1')"
    echo "opening: a log of $opened writes; ms"
    printf '%-20s %10s\n' ours "$(as_ms "$(median opening '$1')")" RocksDB "$(as_ms "$(median rocksdb '$1')")" / "$(over opening rocksdb '$1')"
    rm -f "$memory/log" "$folder"/row.*
}

# What is measured side by side: a name for each row, the program, and how many writes a batch has.
names=()
declare -A programs sizes

plan() { # NAME PROGRAM SIZE: adds a row, where the program is there
    case $2 in
        ours) if [ "$ours" = none ]; then return; fi ;;
        rocksdb | debian) if ! has_rocksdb "$2"; then return; fi ;;
        leveldb) if [ -z "$has_leveldb" ]; then return; fi ;;
    esac
    names+=("$1")
    programs[$1]=$2
    sizes[$1]=$3
}

# Runs one row's program, and keeps its line.
run_once() { # PART NAME
    rm -rf "$memory/store"
    local words=("$1" "$writes" "${sizes[$2]}" "$gets" "$scans" "$memory/store")
    "$folder/${programs[$2]}" "${words[@]}" >> "$folder/row.$2" || fail "$2 fails"
}

# Runs all rows in turn, and makes sure that all read the same.
measure() { # PART
    local turn name
    for turn in $(seq "$turns"); do
        for name in "${names[@]}"; do
            if [ "$turn" -gt 1 ] && [ "${programs[$name]}" = debian ]; then continue; fi
            run_once "$1" "$name"
        done
    done
    [ "$(cut -d ' ' -f 6 "$folder"/row.* | sort -u | wc -l)" -eq 1 ] || fail "the answers differ: $1"
    [ "$(cut -d ' ' -f 11 "$folder"/row.* | sort -u | wc -l)" -eq 1 ] || fail "the last answers differ: $1"
}

# The median over a row's turns of what awk says of a line.
median() { # NAME EXPRESSION
    awk "{ printf \"%.0f\n\", $2 }" "$folder/row.$1" | sort -n |
        awk '{ at[NR] = $1 } END { printf "%.0f\n", (at[int((NR + 1) / 2)] + at[int(NR / 2) + 1]) / 2 }'
}

# The time over that of another row, where both are there.
over() { # NAME OTHER EXPRESSION
    if [ ! -f "$folder/row.$1" ] || [ ! -f "$folder/row.$2" ]; then
        echo -
        return
    fi
    awk -v one="$(median "$1" "$3")" -v other="$(median "$2" "$3")" 'BEGIN { printf "%.2f", one / other }'
}

as_ms() { # NANOSECONDS
    awk -v time="$1" 'BEGIN { printf "%.0f", time / 1e6 }'
}

# A row beside RocksDB's of the same batches.
print_row() { # NAME
    local expression beside=RocksDB
    if [ "${sizes[$1]}" -eq 1 ]; then beside='RocksDB, one by one'; fi
    printf '%-20s %5s' "$1" "$(median "$1" '$5')"
    for expression in '$1' '$2' '$1 + $2' '$3' '$4'; do printf ' %10s' "$(as_ms "$(median "$1" "$expression")")"; done
    for expression in '$1 + $2' '$3' '$4'; do printf ' %10s' "$(over "$1" "$beside" "$expression")"; done
    printf '\n'
}

# The calls of a row that write, and its lookups of what is gathered.
print_calls() { # NAME
    local beside=RocksDB
    if [ "${sizes[$1]}" -eq 1 ]; then beside='RocksDB, one by one'; fi
    printf '%-20s %9s %12s %12s %10s' "$1" "$(median "$1" '$7')" "$(median "$1" '$8')" "$(median "$1" '$9')" "$(as_ms "$(median "$1" '$10')")"
    for expression in '$7' '$8' '$10'; do printf ' %9s' "$(over "$1" "$beside" "$expression")"; done
    printf '\n'
}

# Keeps the times of a row. Its case has the part, and what a batch has.
keep_row() { # PART NAME
    local program=${2%%,*} case="$1, batches of 1,000"
    if [ "${sizes[$2]}" -eq 1 ]; then case="$1, one by one"; fi
    keep_ms 'writes from C' "$case" "$program" "$(median "$2" '$1 + $2')"
    keep_ms 'lookups from C' "$case" "$program" "$(median "$2" '$3')"
    keep_ms 'scans from C' "$case" "$program" "$(median "$2" '$4')"
    keep_ms 'lookups of what is gathered' "$case" "$program" "$(median "$2" '$10')"
}

# Measures a part and prints its rows, in milliseconds. Debian's RocksDB has none.
run_part() { # PART
    local name
    plan ours ours 1000
    plan 'ours, one by one' ours 1
    plan RocksDB rocksdb 1000
    plan 'RocksDB, one by one' rocksdb 1
    plan "Debian's" debian 1000
    if [ "$1" = puts ]; then plan LevelDB leveldb 1000; fi
    measure "$1"
    echo "$1: $writes writes in batches of 1,000 or one by one, $gets lookups, $scans scans; ms, and shares of RocksDB's of such writes"
    printf '%-20s %5s %10s %10s %10s %10s %10s %10s %10s %10s\n' '' runs writes compacting together lookups scans '/ together' \
        '/ lookups' '/ scans'
    for name in "${names[@]}"; do
        keep_row "$1" "$name"
        if [ "$name" != "Debian's" ]; then print_row "$name"; fi
    done
    echo
    echo "$1: calls that write, in nanoseconds, and $((gets / 5)) lookups, half of what is gathered, in ms"
    printf '%-20s %9s %12s %12s %10s %9s %9s %9s\n' '' median 99.9% longest lookups '/ median' '/ 99.9%' '/ lookups'
    for name in "${names[@]}"; do
        if [ "$name" != "Debian's" ]; then print_calls "$name"; fi
    done
    echo
    names=()
    rm -f "$folder"/row.*
}

if [ $# -eq 0 ]; then set -- counters puts opening; fi
for part; do
    case $part in
        counters | puts | opening) ;;
        *) fail "there is no part $part" ;;
    esac
done
build_all
say_machine
rocksdb_options="universal compaction (trigger 4, size ratio 1, amplification 200 percent), memtables of 4 MiB, a merge operator by \
callbacks, memory environment, no log, no compression, a cache of blocks of 1 GiB, a filter of 10 bits a key, max_background_jobs 2"
say_rocksdb
echo
goal 'writes from C' 'counters, batches of 1,000' RocksDB ms 'at most' 0.35
goal 'writes from C' 'counters, one by one' RocksDB ms 'at most' 0.5
goal 'lookups from C' 'counters, batches of 1,000' RocksDB ms 'at most' 0.5
goal 'scans from C' 'counters, batches of 1,000' RocksDB ms 'at most' 0.5
goal 'opening from C' "$opened writes" RocksDB ms 'at most' 0.2
goal 'lookups of what is gathered' 'counters, one by one' RocksDB ms 'at most' 0.3
for part; do
    if [ "$part" = opening ]; then run_opening; else run_part "$part"; fi
done
say_machine
write_results_beside c
