#!/bin/bash
# Runs YCSB's workloads over the database of bindings/rust/ucstore-db, in memory and in a folder, and over RocksDB, LevelDB, LMDB
# and SQLite, and over Redis in memory.
#
#     bench/ycsb/run.sh [CASE..]
#
# A case is `memory` or `files`, or both where none is named. ../stores/stores.sh says what is built, and how often each row is run.
# RECORDS (1000000) records of VALUE (100) bytes are loaded. A case's name has the bytes, and the records unless they are a million,
# so that a file of results holds several. Then 1, 4 and 8 threads do OPERATIONS (1000000) of workloads a to f: a half updates, b 1 in
# 20, c none, d reads what is new, e scans 1 to 100 rows, f reads and writes back. Keys are drawn by YCSB's power law, and evenly in
# the rows a-even, b-even and c-even.
#
# RESULTS names a file for the figures as JSON.
set -u -o pipefail

here=$(cd "$(dirname "${BASH_SOURCE[0]}")" && pwd) || exit 1
folder=$(mktemp -d) || exit 1
trap 'rm -rf "$folder"' EXIT
records=${RECORDS:-1000000}
operations=${OPERATIONS:-1000000}
value=${VALUE:-100}
workloads=(a b c a-even b-even c-even f d e)

fail() {
    echo "run.sh: $*" >&2
    exit 1
}

. "$here/../stores/stores.sh"

# What a case is called.
case_of() { # FOLDER|memory
    if [ "$records" -eq 1000000 ]; then echo "$1-$value-bytes"; else echo "$1-$value-bytes-$records"; fi
}

# All workloads of a case. Those that insert come last.
measure() { # CASE FOLDER|memory
    local threads work words=(load:"$records":4)
    for threads in 1 4 8; do
        for work in "${workloads[@]}"; do
            # A scan reads some fifty rows.
            if [ "$work" = e ]; then words+=("e:$((operations / 20)):$threads"); else words+=("$work:$operations:$threads"); fi
        done
    done
    run_case "$1" "$2" unsynced 1 "$records" "$value" "${words[@]}"
    keep_work "$1" load 4
    for work in "${workloads[@]}"; do
        for threads in 1 4 8; do keep_work "$1" "$work" "$threads"; done
    done
}

set_goals() {
    local work program
    for work in load "${workloads[@]}"; do
        for program in RocksDB LevelDB; do goal "$work" '* threads' "$program" k/s 'at least' 1; done
        goal "$work" '* threads' LMDB k/s 'at least' "$(case $work in c*) echo 0.8 ;; *) echo 1 ;; esac)"
    done
}

if [ $# -eq 0 ]; then set -- memory files; fi
build_all "$@"
say_machine
rocksdb_options="universal compaction (trigger 4), memtables of 4 MiB, no compression, a cache of blocks of 8 GiB, a filter of 10 bits a \
key, max_background_jobs 3; in memory its memory environment without a log"
say_stores
echo
set_goals
print_head
for part; do
    case $part in
        memory | files) measure "$(case_of "$part")" "$part" ;;
        *) fail "there is no case $part" ;;
    esac
done
say_machine
write_stores ycsb
