#!/bin/bash
# Measures `ucstore dump` against the same work in plain Rust.
#
#     bench/dump/run.sh
#
# It measures the built program itself (crates/ucstore/out/ucstore, or OURS), since a wrapper's time counts too. It
# builds baseline.rs and ../make_log.rs by `rustc -O` in a temporary folder, makes logs of 1, 16 and
# 64 MiB, checks that both programs print the same bytes with the same status, for damaged logs too, and
# prints for each the least seconds of three runs into /dev/null, MiB of log a second, and the most memory
# that a run held. RESULTS names a file for the figures as JSON.
set -u -o pipefail

here=$(cd "$(dirname "${BASH_SOURCE[0]}")" && pwd) || exit 1
ucstore=$(realpath -e "${OURS:-$here/../../crates/ucstore/out/ucstore}") || exit 2
folder=$(mktemp -d) || exit 1
trap 'rm -rf "$folder"' EXIT

fail() {
    echo "run.sh: $*" >&2
    exit 1
}

. "$here/../results.sh"

build() { # SOURCE
    local program
    program=$folder/$(basename "$1" .rs)
    rustc --edition 2021 -O -o "$program" "$1" || fail "$1 doesn't build"
}

run() { # PROGRAM: runs it over standard input
    case $1 in
        ucstore) "$ucstore" dump ;;
        baseline) "$folder/baseline" ;;
    esac
}

# Both print the same of a log, with the same status.
check_same() { # LOG WHAT
    run ucstore < "$1" > "$folder/left"; local left=$?
    run baseline < "$1" > "$folder/right"; local right=$?
    [ $left -eq $right ] || fail "$2: status $left and $right"
    cmp -s "$folder/left" "$folder/right" || fail "$2: the lines differ"
}

# Both print these lines of a log that is written in hexadecimal.
check_lines() { # HEX STATUS LINES
    printf '%b' "$(sed 's/../\\x&/g' <<< "$1")" > "$folder/vector"
    local program
    for program in ucstore baseline; do
        run $program < "$folder/vector" > "$folder/left"
        [ $? -eq "$2" ] || fail "$program: another status than $2 for $1"
        [ "$(< "$folder/left")" = "$3" ] || fail "$program: other lines for $1"
    done
}

check_vectors() {
    local one=e99f78191100010100000000000000010000000101610131
    local other=e5b08ac70800313233343536373839
    local put=$'1 put 61 31\n'
    check_lines "" 0 clean
    check_lines $one 0 "${put}clean"
    check_lines ${one}0000000000 0 "${put}clean"
    check_lines ${one}01 0 "${put}torn 24"
    check_lines ${one:0:46} 0 "torn 0"
    check_lines ${one:0:46}32 3 "log fault bad checksum 0"
    check_lines $one$other 3 "${put}log fault unsupported type 24"
    check_lines $one$one 3 "${put}batch fault 2 sequence back 1"
    check_lines 052b2843000001 3 "batch fault 1 too short"
    check_lines a716202b000004 3 "log fault last alone 0"
}

# Logs that end early, and logs with another byte in their middle.
check_damaged() { # LOG
    local size=$(stat -c %s "$1") place
    for place in 1 6 7 100 32760 32761 32767 32768 32769 40000 65536 98304 $((size - 1)); do
        head -c "$place" "$1" > "$folder/damaged"
        check_same "$folder/damaged" "$1, the first $place bytes"
        { head -c "$place" "$1"; printf '\0'; tail -c +$((place + 2)) "$1"; } > "$folder/damaged"
        check_same "$folder/damaged" "$1, with byte $place as zero"
    done
}

seconds() { # PROGRAM LOG: the least of three runs
    local best= turn start end took
    for turn in 1 2 3; do
        start=${EPOCHREALTIME/[.,]/}
        run "$1" < "$2" > /dev/null
        end=${EPOCHREALTIME/[.,]/}
        took=$((end - start))
        if [ -z "$best" ] || [ $took -lt $best ]; then best=$took; fi
    done
    awk "BEGIN { print $best / 1000000 }"
}

kibibytes() { # PROGRAM LOG: the most memory
    case $1 in
        ucstore) /usr/bin/time -f %M -o "$folder/memory" "$ucstore" dump ;;
        baseline) /usr/bin/time -f %M -o "$folder/memory" "$folder/baseline" ;;
    esac < "$2" > /dev/null
    tail -n 1 "$folder/memory"
}

measure() { # KIND MIB
    local log=$folder/$1.$2 case="$1 $2 MiB" size time memory other_time other_memory
    "$folder/make_log" "$1" "$2" > "$log" || fail "no log"
    check_same "$log" "$1 $2 MiB"
    size=$(stat -c %s "$log")
    time=$(seconds ucstore "$log") memory=$(kibibytes ucstore "$log")
    other_time=$(seconds baseline "$log") other_memory=$(kibibytes baseline "$log")
    printf '%s %s %s %s %s %s %s\n' "$1" "$2" "$size" "$time" "$memory" "$other_time" "$other_memory"
    keep dump "$case" ours s "$time"
    keep dump "$case" 'plain Rust' s "$other_time"
    keep_mib dump "$case" ours "$memory"
    keep_mib dump "$case" 'plain Rust' "$other_memory"
    keep_mib dump "$case" 'the log' $((size / 1024))
    if [ "$2" -eq 1 ]; then check_damaged "$log"; fi
    rm -f "$log"
}

table() {
    awk 'BEGIN {
        print "                 ucstore                      plain Rust                   ratios"
        print "log              seconds  MiB/s  memory MiB   seconds  MiB/s  memory MiB   time  memory"
    }
    {
        size = $3 / 1048576
        printf "%-5s %3d MiB    %7.4f  %5.0f  %10.1f   %7.4f  %5.0f  %10.1f   %4.2f  %6.2f\n", \
            $1, $2, $4, size / $4, $5 / 1024, $6, size / $6, $7 / 1024, $4 / $6, $5 / $7
    }'
}

build "$here/../make_log.rs"
build "$here/baseline.rs"
check_vectors
for kind in small large; do
    for size in 1 16 64; do
        measure $kind $size || exit 1
    done
done | table
goal dump '* 64 MiB' 'plain Rust' s 'at most' 1.2
goal dump '* 64 MiB' 'the log' MiB 'at most' 3
write_results dump
