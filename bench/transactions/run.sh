#!/bin/bash
# Measures transactions of the database of bindings/rust/ucstore-db, against RocksDB's OptimisticTransactionDB, LMDB and SQLite with a
# write-ahead log: transfers between accounts.
#
#     bench/transactions/run.sh [CASE..]
#
# A transfer reads two balances and writes both. The cases are
#
# - unsynced: TRANSFERS (400000) between 100,000 accounts by 1, 4 and 8 threads, which the system writes to the device when it likes.
# - synced: SYNCED (4000) of these, each on the device when it is acknowledged.
# - contention: as unsynced, between 10 accounts. A row also has the tries of a transfer, and how much longer the slowest thread took.
# - plain: two lookups and a batch of two puts without a transaction, for ours and RocksDB.
#
# A row is the median of RUNS (3). It needs what tools/install installs, for which UCSTORE_PREFIX may name a folder; a program whose
# library isn't there is left out. RocksDB is that without assertions (../rocksdb/build.sh makes it), or else Debian's, whose assertions are on.
set -u -o pipefail

here=$(cd "$(dirname "${BASH_SOURCE[0]}")" && pwd) || exit 1
folder=$(mktemp -d) || exit 1
trap 'rm -rf "$folder"' EXIT
runs=${RUNS:-3}
export PKG_CONFIG_PATH=${UCSTORE_PREFIX:-$HOME/.local}/lib/pkgconfig LD_LIBRARY_PATH=${UCSTORE_PREFIX:-$HOME/.local}/lib

fail() {
    echo "run.sh: $*" >&2
    exit 1
}

# shellcheck source=../rocksdb/libraries.sh
. "$here/../rocksdb/libraries.sh"

programs=()
build() { # PROGRAM SOURCE FLAG..
    local program=$1 source=$2
    shift 2
    if gcc -O2 -Wall -Wextra -o "$folder/$program" "$here/transfers.c" "$here/$source.c" -pthread "$@" 2> "$folder/said"; then
        programs+=("$program")
    else
        echo "$program is left out: $(head -n 1 "$folder/said")" >&2
    fi
}

# The median of the runs of a program, by its first figure.
measure() { # PROGRAM SYNC ACCOUNTS TRANSFERS THREADS [plain]
    local program=$1 number
    shift
    for ((number = 0; number < runs; number++)); do
        rm -rf "$folder/data" && mkdir "$folder/data"
        "$folder/$program" "$folder/data" "$@" || fail "$program $*"
    done | sort -n | sed -n "$((runs / 2 + 1))p"
}

rows() { # CASE SYNC ACCOUNTS TRANSFERS [plain]
    local name=$1 threads program
    shift
    for threads in 1 4 8; do
        for program in "${programs[@]}"; do
            if [ "${4-}" = plain ] && [[ $program != @(ours|rocksdb|debian) ]]; then continue; fi
            read -r rate tries spread <<< "$(measure "$program" "$1" "$2" "$3" "$threads" ${4+"$4"})"
            printf '%-12s %7d threads %-8s %9.1f k/s %6.2f tries, slowest thread +%s%%\n' "$name" "$threads" "$program" "$rate" \
                "$tries" "$spread"
        done
    done
}

# shellcheck disable=SC2046
build ours ours $(pkg-config --cflags --libs ucstore_db 2> /dev/null)
if has_released; then
    read -ra flags < "$rocksdb_folder/link_flags"
    build rocksdb rocksdb -I "$rocksdb_folder/include" "$rocksdb_folder/librocksdb.a" "${flags[@]}" -lstdc++ -lm
else
    build debian rocksdb -lrocksdb
fi
build lmdb lmdb -llmdb
build sqlite sqlite -lsqlite3
echo "$(date +%F), $(sed -n 's/^model name[^:]*: //p' /proc/cpuinfo | head -n 1), $(nproc) processors, load $(cut -d ' ' -f 1-3 /proc/loadavg)"
if [ $# -eq 0 ]; then set -- unsynced synced contention plain; fi
for part; do
    case $part in
        unsynced) rows unsynced unsynced 100000 "${TRANSFERS:-400000}" ;;
        synced) rows synced synced 100000 "${SYNCED:-4000}" ;;
        contention) rows contention unsynced 10 "${TRANSFERS:-400000}" ;;
        plain) rows plain unsynced 100000 "${TRANSFERS:-400000}" plain ;;
        *) fail "there is no case $part" ;;
    esac
done
