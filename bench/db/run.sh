#!/bin/bash
# Measures the database of bindings/rust/ucstore-db in a folder, against RocksDB, LevelDB, LMDB and SQLite with the same
# promise of what is on the device.
#
#     bench/db/run.sh [PART..]
#
# The parts are writes, synced, lookups, opening and checkpoint, or all where none is named. ../stores/stores.sh says what is
# built, and how often each row is run. A key has 16 bytes and a value 100.
#
# - writes: WRITES (1000000) single puts of drawn keys by 1 and 8 threads, which the system writes to the device when it likes.
# - synced: SYNCED (2000) single puts by 1 and 8 threads, each on the device when it is acknowledged.
# - lookups: a million keys are there, settled. 1, 4 and 8 threads look drawn ones up while one thread puts.
# - opening: a million keys are there, with a checkpoint. The database is closed and opened, and reads a key.
# - checkpoint: a million keys are there. As many drawn puts alone, and beside a thread that makes checkpoints all the time.
#
# RESULTS names a file for the figures as JSON. It takes about fifteen minutes.
set -u -o pipefail

here=$(cd "$(dirname "${BASH_SOURCE[0]}")" && pwd) || exit 1
folder=$(mktemp -d) || exit 1
trap 'rm -rf "$folder"' EXIT
keys=${KEYS:-1000000}
count=${WRITES:-1000000}
synced_count=${SYNCED:-2000}

fail() {
    echo "run.sh: $*" >&2
    exit 1
}

. "$here/../stores/stores.sh"

writes() {
    local threads
    for threads in 1 8; do
        run_case writes files unsynced "$threads" "$keys" 100 "fillrandom:$count"
        keep_work writes fillrandom "$threads"
        goal fillrandom "writes, $threads threads" RocksDB k/s 'at least' 2
    done
}

synced() {
    local threads
    for threads in 1 8; do
        run_case synced files synced "$threads" "$keys" 100 "fillrandom:$synced_count"
        keep_work synced fillrandom "$threads"
    done
    goal fillrandom 'synced, 1 threads' RocksDB k/s 'at least' 0.95
    goal fillrandom 'synced, 8 threads' RocksDB k/s 'at least' 1.25
}

lookups() {
    local threads
    run_case lookups files unsynced 1 "$keys" 100 fillseq settle readwhilewriting:"$keys":1 readwhilewriting:"$keys":4 \
        readwhilewriting:"$((2 * keys))":8
    for threads in 1 4 8; do
        keep_work lookups readwhilewriting "$threads"
        goal readwhilewriting "lookups, $threads threads" RocksDB k/s 'at least' 3
        goal readwhilewriting "lookups, $threads threads, 99.9" RocksDB ns 'at most' 0.5
    done
}

opening() {
    run_case opening files unsynced 1 "$keys" 100 fillrandom checkpoint:1:1 open:3:1
    keep_work opening open 1
    goal open 'opening, 1 threads, median' RocksDB ns 'at most' 0.3
}

checkpoint() {
    if [[ " ${programs[*]} " != *" ours "* ]]; then return; fi
    PROGRAMS=ours run_case checkpoint files unsynced 1 "$keys" 100 fillrandom "overwrite:$count" "checkpoint:$count"
    keep_work checkpoint overwrite 1
    keep_work checkpoint checkpoint 1
    awk -v one="$(figure checkpoint ours checkpoint 1 all)" -v other="$(figure checkpoint ours overwrite 1 all)" \
        'BEGIN { printf "writes beside checkpoints take %.2f times as long\n", one / other }'
    keep 'writes beside checkpoints' "$count writes" ours ms "$(($(figure checkpoint ours checkpoint 1 all) / 1000000))"
    keep 'writes beside checkpoints' "$count writes" 'no checkpoint' ms "$(($(figure checkpoint ours overwrite 1 all) / 1000000))"
    goal 'writes beside checkpoints' "$count writes" 'no checkpoint' ms 'at most' 1.3
}

if [ $# -eq 0 ]; then set -- writes synced lookups opening checkpoint; fi
for part; do
    case $part in
        writes | synced | lookups | opening | checkpoint) ;;
        *) fail "there is no part $part" ;;
    esac
done
build_all "$@"
say_machine
rocksdb_options="universal compaction (trigger 4), memtables of 4 MiB, its log, no compression, a cache of blocks of 8 GiB, a \
filter of 10 bits a key, max_background_jobs 3"
say_stores
echo
print_head
for part; do "$part"; done
say_machine
write_stores db
