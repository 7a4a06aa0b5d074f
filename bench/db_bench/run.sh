#!/bin/bash
# Runs the works of RocksDB's db_bench over the database of bindings/rust/ucstore-db, in memory and in a folder, and over RocksDB,
# LevelDB, LMDB and SQLite, and over Redis in memory.
#
#     bench/db_bench/run.sh [CASE..]
#
# A case is `memory` or `files`, or both where none is named. ../stores/stores.sh says what is built, and how often each row is run.
# Keys have 16 bytes and values 100. KEYS (1000000) are filled in order into one database, and drawn into another. Then 1, 4 and 8
# threads overwrite, read, seek (ten rows, in order and in reverse), read 32 keys together, read while one writes, add to counters, and
# delete; one reads all rows, in order and in reverse.
#
# RESULTS names a file for the figures as JSON.
set -u -o pipefail

here=$(cd "$(dirname "${BASH_SOURCE[0]}")" && pwd) || exit 1
folder=$(mktemp -d) || exit 1
trap 'rm -rf "$folder"' EXIT
keys=${KEYS:-1000000}

fail() {
    echo "run.sh: $*" >&2
    exit 1
}

. "$here/../stores/stores.sh"

works=(fillrandom overwrite readrandom multireadrandom seekrandom seekreverse readwhilewriting mergerandom deleterandom)

# How many operations a work has.
operations_of() { # WORK
    case $1 in
        multireadrandom) echo $((keys / 32)) ;;
        seekrandom | seekreverse) echo $((keys / 5)) ;;
        mergerandom) echo $((keys / 2)) ;;
        *) echo "$keys" ;;
    esac
}

measure() { # CASE FOLDER|memory
    local threads work words=()
    run_case "$1" "$2" unsynced 1 "$keys" 100 fillseq settle readseq:1:1 readreverse:1:1
    for work in fillseq readseq readreverse; do keep_work "$1" "$work" 1; done
    for threads in 1 4 8; do
        words=()
        for work in "${works[@]}"; do
            words+=("$work:$(operations_of "$work"):$threads")
            if [ "$work" = overwrite ]; then words+=(settle); fi
        done
        run_case "$1" "$2" unsynced "$threads" "$keys" 100 "${words[@]}"
    done
    for work in "${works[@]}"; do
        for threads in 1 4 8; do keep_work "$1" "$work" "$threads"; done
    done
}

set_goals() {
    local work program
    for work in fillseq readseq readreverse "${works[@]}"; do
        for program in RocksDB LevelDB; do goal "$work" '* threads' "$program" k/s 'at least' 1; done
        goal "$work" '* threads' LMDB k/s 'at least' "$(case $work in readseq | readreverse | readrandom) echo 0.8 ;; *) echo 1 ;; esac)"
    done
}

if [ $# -eq 0 ]; then set -- memory files; fi
build_all "$@"
say_machine
rocksdb_options="universal compaction (trigger 4), memtables of 4 MiB, no compression, a cache of blocks of 8 GiB, a filter of 10 bits a \
key, max_background_jobs 3; in memory its memory environment without a log"
say_stores
echo
set_goals
print_head
for part; do
    case $part in
        memory | files) measure "$part" "$part" ;;
        *) fail "there is no case $part" ;;
    esac
done
say_machine
write_stores db_bench
