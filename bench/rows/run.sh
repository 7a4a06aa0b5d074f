#!/bin/bash
# Measures rows of a view, in both directions, ten rows after a seek and lookups, one by one and 32 at once, against LMDB's cursor.
#
#     bench/rows/run.sh
#
# The library is the one that tools/install puts under PREFIX (dist/ of ./build). LMDB is Debian's (liblmdb-dev), in /dev/shm. ROWS rows
# (1000000) of 16 and 100 bytes are read out of one run and out of six whose keys interleave. Each line has the work, the number of
# runs, and the nanoseconds of a row or a call: the medians of TURNS turns (3). With COUNTED=1 it prints the instructions of ours by
# `valgrind --tool=callgrind` for 20,000 rows, or 2,000 calls over 200,000, and LMDB is left out.
set -eu -o pipefail
here=$(cd "$(dirname "${BASH_SOURCE[0]}")" && pwd)
prefix=${PREFIX:-$here/../../dist}
folder=$(mktemp -d)
memory=$(mktemp -d -p /dev/shm)
trap 'rm -rf "$folder" "$memory"' EXIT

cc -std=c99 -D_POSIX_C_SOURCE=200809L -O2 -Wall -Wextra -pedantic "$here/rows.c" -o "$folder/rows" \
    -I"$prefix/include" "$prefix/lib/libucstore.a" -lpthread

counted() { # WORK RUNS
    local rows=20000 per=20000 calls=() name=ucstore_view_scan
    case $1 in
    ten* | get) rows=200000 per=2000 calls=(2000) ;;
    many) rows=200000 per=3200 calls=(3200) ;;
    esac
    case $1 in
    *back) name=ucstore_view_scan_back ;;
    get) name=ucstore_view_get ;;
    many) name=ucstore_view_get_many ;;
    esac
    valgrind --tool=callgrind --callgrind-out-file=/dev/null --toggle-collect="$name" "$folder/rows" "$rows" "$2" "$1" "${calls[@]}" 2>&1 |
        awk -v per="$per" -v work="$1 $2" '/Collected/ { printf "%s %.0f\n", work, $NF / per }'
}

if [[ -n ${COUNTED-} ]]; then
    for work in forward back ten ten-back get many; do
        counted "$work" 1
        counted "$work" 6
    done
    exit
fi

cc -std=c99 -D_POSIX_C_SOURCE=200809L -O2 -Wall -Wextra -pedantic "$here/lmdb.c" -o "$folder/lmdb" -llmdb
for ((turn = 0; turn < ${TURNS:-3}; turn++)); do
    for work in forward back ten ten-back get many; do
        "$folder/rows" "${ROWS:-1000000}" 1 "$work"
        "$folder/rows" "${ROWS:-1000000}" 6 "$work"
    done
    rm -f "$memory"/*
    "$folder/lmdb" "${ROWS:-1000000}" "$memory"
done | sort -k1,2 -k3,3n | awk '{ key = $1 " " $2; if (key != last && last) print last, at[int((n + 1) / 2)]; if (key != last) n = 0; at[++n] = $3; last = key }
    END { print last, at[int((n + 1) / 2)] }'
