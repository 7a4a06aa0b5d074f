#!/bin/bash
# Measures the built program on inputs that are made to be hostile, at the limit of 64 MiB and at half of it.
#
#     bench/hostile/run.sh [WORD..]
#
# The program is crates/ucstore/out/ucstore, or OURS. Each row is an input of generate.rs under a subcommand; with words only the
# rows whose name has one of them are measured. Each runs TURNS times (3) at half the amount and at the whole: the least seconds
# are printed, what that is of half's, the most memory, and what that is of the input. The goals are at most 2.3 times the
# time of half the input, 10 seconds, and memory of 6 times the input, of a log 3.5 times, or 16 MiB where that is more; times
# below 0.05 seconds aren't compared. A row that misses one ends in what it misses. A run that takes a minute or 12 GiB is cut off.
# RESULTS names a file for the figures as JSON.
set -u -o pipefail

here=$(cd "$(dirname "${BASH_SOURCE[0]}")" && pwd) || exit 1
ours=$(realpath -e "${OURS:-$here/../../crates/ucstore/out/ucstore}") || exit 2
turns=${TURNS:-3}
longest=60
most_kib=$((12 << 20))
folder=$(mktemp -d) || exit 1
trap 'rm -rf "$folder"' EXIT

fail() {
    echo "run.sh: $*" >&2
    exit 1
}

. "$here/../results.sh"

# A line for each row: what is generated, how much of it, and the words of the program.
rows() {
    local input operator
    for input in zeros ones random firsts middles joined shorts empties deletes; do
        echo "$input 67108864 dump"
        echo "$input 67108864 report --operator append"
    done
    echo "operands 2000000 dump"
    for operator in append counter maximum tail; do
        echo "operands 2000000 report --operator $operator"
        echo "operand_lines 2000000 play --operator $operator"
    done
    echo "prefix 1000000 dump"
    echo "prefix 1000000 report --operator append"
    echo "long 63 dump"
    echo "long 63 report --operator append"
    echo "neighbours 1000000 dump"
    echo "neighbours 1000000 report --operator append"
    echo "stairs 1000000 report --operator append"
    echo "picks 67108864 play --operator append"
    echo "lookups 67108864 play --operator append"
    echo "many_runs 1000000 play --operator counter --memtable 1"
    echo "asked 67108864 ask --operator append"
    echo "gets 1000000 ask --operator counter --memtable 1"
    echo "scans 30000 ask --operator append"
}

# Whether a row is asked for.
is_asked_for() { # NAME WORD..
    local name=$1 word
    shift
    [ $# -gt 0 ] || return 0
    for word in "$@"; do
        case $name in *"$word"*) return 0 ;; esac
    done
    return 1
}

# Runs the program on an input: its microseconds, the least of all turns, its most memory in KiB, and its last status.
measure() { # INPUT WORD..
    local input=$1 start end least='' memory=0 status now
    shift
    for _ in $(seq "$turns"); do
        start=${EPOCHREALTIME/[.,]/}
        status=0
        (
            ulimit -v "$most_kib"
            exec /usr/bin/time -f %M -o "$folder/memory" timeout "$longest" "$ours" "$@" < "$input" > "$folder/text" 2> "$folder/said"
        ) || status=$?
        end=${EPOCHREALTIME/[.,]/}
        if [ -z "$least" ] || [ $((end - start)) -lt "$least" ]; then least=$((end - start)); fi
        now=$(tail -n 1 "$folder/memory")
        [ "$now" -le "$memory" ] || memory=$now
        [ "$status" -le 3 ] || break
    done
    echo "$least $memory $status"
}

# The figures of a row, and which goals it misses.
print_row() { # NAME BYTES KIND HALF_TIME STATUS WHOLE_TIME MEMORY STATUS
    awk -v name="$1" -v bytes="$2" -v kind="$3" -v half="$4" -v half_status="$5" -v whole="$6" -v memory="$7" -v status="$8" 'BEGIN {
        half /= 1e6; whole /= 1e6; memory /= 1024; bytes /= 1048576
        bound = bytes * (kind == "log" ? 3.5 : 6)
        if (bound < 16) bound = 16
        if (status > 3 || half_status > 3) misses = misses " status " (status > half_status ? status : half_status)
        if (whole >= 0.05 && whole > 2.3 * half) misses = misses " ratio"
        if (whole > 10) misses = misses " time"
        if (memory > bound) misses = misses " memory"
        printf "%-34s %8.1f %9.2f %6.2f %9.1f %6.1f %s\n", name, bytes, whole, whole / half, memory, memory / bytes, misses
    }'
}

# Keeps the figures of a row, and its goals. A row whose memory may be 16 MiB has that as its goal.
keep_row() { # NAME BYTES KIND HALF_TIME WHOLE_TIME MEMORY
    local input='the input' bound=6
    if [ "$3" = log ]; then input='the log' bound=3.5; fi
    keep_seconds 'hostile inputs' "$1" ours "$5"
    keep_seconds 'twice the input' "$1" ours "$5"
    keep_seconds 'twice the input' "$1" 'half of it' "$4"
    keep_mib memory "$1" ours "$6"
    keep_mib memory "$1" "$input" $(($2 / 1024))
    goal 'hostile inputs' "$1" ours s 'at most' 10
    if [ "$5" -ge 50000 ]; then goal 'twice the input' "$1" 'half of it' s 'at most' 2.3; fi
    if awk -v bytes="$2" -v bound="$bound" 'BEGIN { exit bytes * bound < 16777216 }'; then
        goal memory "$1" "$input" MiB 'at most' "$bound"
    else
        goal memory "$1" ours MiB 'at most' 16
    fi
}

rustc --edition 2021 -O -o "$folder/generate" "$here/generate.rs" || fail "generate.rs doesn't build"
printf '%-34s %8s %9s %6s %9s %6s %s\n' input MiB seconds ratio MiB factor misses
rows | while read -r input amount subcommand options; do
    name="$subcommand ${options#--operator } $input"
    is_asked_for "$name" "$@" || continue
    kind=text
    case $subcommand in dump | report) kind=log ;; esac
    "$folder/generate" "$input" $((amount / 2)) > "$folder/half" || fail "no input"
    "$folder/generate" "$input" "$amount" > "$folder/whole" || fail "no input"
    # shellcheck disable=SC2086
    half=$(measure "$folder/half" "$subcommand" $options)
    # shellcheck disable=SC2086
    whole=$(measure "$folder/whole" "$subcommand" $options)
    read -r half_time _ half_status <<< "$half"
    read -r whole_time memory status <<< "$whole"
    print_row "$name" "$(stat -c %s "$folder/whole")" "$kind" "$half_time" "$half_status" "$whole_time" "$memory" "$status"
    keep_row "${name//  / }" "$(stat -c %s "$folder/whole")" "$kind" "$half_time" "$whole_time" "$memory"
done
write_results hostile
