#!/bin/bash
# Tries the built program on refused memory and threads, damaged logs and failing devices. docs/RELIABILITY.md says what that
# covers.
#
#     faults/run.sh [planted] [memory] [asks] [threads] [calls] [damage] [devices] [writes] [reads]
#
# Without words it tries all of these. The last line says how many rows were wrong, and the status is 1 where one was. Needs cc,
# rustc, glibc, crates/ucstore/out/ucstore, which ./build makes, or another program, named by OURS, and for `calls` what tests/run needs.
set -eu
here=$(cd "$(dirname "${BASH_SOURCE[0]}")" && pwd)
top=$here/..
ours=$(realpath -e "${OURS:-$top/crates/ucstore/out/ucstore}")
work=$(mktemp -d)
trap 'rm -r "$work"' EXIT
wrong=0

build() { # NAME SOURCE
    rustc --edition 2021 -O "$2" -o "$work/$1"
}

# Each request for memory of a run is refused once, alone and with all later ones.
refuse() { # NAME INPUT WORD..
    local name=$1 input=$2
    shift 2
    "$work/drive" program "$work/refuse.so" "$name" "$input" "$ours" "$@" || wrong=$((wrong + 1))
}

build_drive() {
    [ ! -e "$work/drive" ] || return 0
    cc -O2 -shared -fPIC -o "$work/refuse.so" "$here/refuse.c"
    build drive "$here/drive.rs"
}

# The driver itself: of a program that answers right it says so, and each planted wrong answer it finds.
plant() { # KIND INPUT WAY..
    local kind=$1 input=$2 way found wanted
    shift 2
    for way in right "$@"; do
        found=yes
        "$work/drive" "$kind" "$work/refuse.so" "$way" "$input" "$work/planted" "$kind" "$way" > /dev/null 2>&1 && found=no
        printf '%-34s %9s\n' "$kind, $way" "$found"
        wanted=yes
        [ "$way" != right ] || wanted=no
        [ "$found" = "$wanted" ] || wrong=$((wrong + 1))
    done
}

planted() {
    build_drive
    cc -O0 -o "$work/planted" "$here/planted.c"
    printf '%-34s %9s\n' 'planted answer' found
    plant program /dev/null another-text half-a-line another-status nothing-said a-signal no-end
    plant writes /dev/null behind-a-hole written-again all-written-again fault-said as-if-written
    plant reads "$here/queries.script" read-again looked-again as-if-at-the-end
}

memory() {
    build_drive
    printf '%-34s %9s %9s %9s %7s\n' 'refused memory' requests refused wanting wrong
    refuse "play first" "$top/examples/first.script" play --operator counter
    refuse "play merge" "$top/examples/merge.script" play --operator append
    refuse "play merge, runs" "$top/examples/merge.script" play --operator append --memtable 1
    refuse "play compaction" "$top/examples/compaction.script" play --operator counter --memtable 1
    refuse "play calls" "$here/calls.script" play --operator append --memtable 1
    refuse "play calls, maximum" "$here/calls.script" play --operator maximum --memtable 1
    refuse "play calls, tail" "$here/calls.script" play --operator tail --memtable 1
    refuse "play fault" "$here/fault.script" play --operator append
    refuse "report" "$top/examples/report.log" report --operator append --memtable 1 --trigger 2
    refuse "report all_kinds" "$top/examples/logs/all_kinds.log" report --operator append --memtable 1 --trigger 2
    for log in "$top"/examples/logs/*.log; do
        refuse "dump $(basename "$log" .log)" "$log" dump
    done
}

# A log that fills nine memtables of 100,000 bytes, with enough points for a compaction to cut the key space.
counters_log() {
    build make_log "$top/bench/make_log.rs"
    "$work/make_log" counters 1 > "$work/counters"
}

# A script's snapshots and queries in front of a log of its changes.
asked_of() { # SCRIPT
    grep '^keep ' "$1"
    sed '1,/^open$/d' "$1"
    echo log
    grep -E '^(put|merge|delete|range) ' "$1" | "$work/make_log" lines
}

# `ask` prints of a script's queries what `play` prints behind its first line.
same_as_played() { # NAME SCRIPT INPUT WORD..
    local name=$1 script=$2 input=$3
    shift 3
    "$ours" play "$@" < "$script" | tail -n +2 > "$work/played"
    "$ours" ask "$@" < "$input" > "$work/asked" || true
    if ! cmp -s "$work/played" "$work/asked"; then
        echo "$name: play prints another text"
        wrong=$((wrong + 1))
    fi
}

# Queries answered by one worker and by four, without compactors and beside two, each request refused.
refuse_asks() { # NAME INPUT WORD..
    local name=$1 input=$2 workers compactors
    shift 2
    for workers in 1 4; do
        for compactors in 0 2; do
            refuse "$name, $workers beside $compactors" "$input" ask "$@" --workers "$workers" --compactors "$compactors"
        done
    done
}

# 4,200 queries, which is more than are answered at once. One in 700 is of a kept sequence.
many_script() {
    printf 'put 61 31\nmerge 61 32\nput 62 33\nkeep 2\nopen\n'
    awk 'BEGIN { for (i = 1; i <= 4200; i++) print i % 700 ? "get . 1" : "get 61 2" }'
}

asks() {
    local operator log=$top/examples/logs/all_kinds.log runs=(--memtable 1 --trigger 2 --percent 25)
    build_drive
    build make_log "$top/bench/make_log.rs"
    printf '%-34s %9s %9s %9s %7s\n' 'refused memory' requests refused wanting wrong
    asked_of "$here/queries.script" > "$work/queries"
    for operator in append maximum tail; do
        same_as_played "ask $operator" "$here/queries.script" "$work/queries" --operator "$operator" "${runs[@]}"
        refuse_asks "ask $operator" "$work/queries" --operator "$operator" --piece 2 "${runs[@]}"
    done
    many_script > "$work/many.script"
    asked_of "$work/many.script" > "$work/many"
    same_as_played "ask many" "$work/many.script" "$work/many" --operator append "${runs[@]}"
    refuse_asks "ask many" "$work/many" --operator append --piece 500 "${runs[@]}"
    # The log's own kinds of records, and a snapshot behind the second of its writes.
    { printf 'keep 2\nscan . - 20 last\nscan . - 20 2\nlog\n' && cat "$log"; } > "$work/kinds"
    refuse_asks "ask all kinds" "$work/kinds" --operator append "${runs[@]}"
    cat "$top/examples/ask.head" "$top/examples/ask.log" > "$work/example"
    refuse "ask example" "$work/example" ask --operator append
    printf 'get 61 last\nget 6\nlog\n' > "$work/fault"
    refuse "ask, a fault of a line" "$work/fault" ask --operator append
    { printf 'get 61 last\nlog\n' && cat "$top/examples/logs/log_fault_bad_checksum.log"; } > "$work/fault"
    refuse "ask, a fault of the log" "$work/fault" ask --operator append
    { printf 'keep 99\nget 61 last\nlog\n' && cat "$log"; } > "$work/fault"
    refuse "ask, a snapshot ahead" "$work/fault" ask --operator append
    refuse "ask, a bad option" "$work/fault" ask --operator append --memtable 0
}

# Each thread that is asked for is refused once, alone and with all later ones.
threads() {
    local workers compactors
    build_drive
    counters_log
    asked_of "$here/queries.script" > "$work/queries"
    printf '%-34s %9s %9s %9s %7s\n' 'refused threads' requests refused wanting wrong
    for workers in 1 4 64; do
        for compactors in 0 2 16; do
            refuse_threads "ask, $workers beside $compactors" "$workers" "$compactors"
        done
    done
    for workers in 1 3; do
        for compactors in 0 2; do
            refuse_threads "ask, $workers beside $compactors, 3 later" "$workers" "$compactors" --later 3
        done
    done
    "$work/drive" threads "$work/refuse.so" "report" "$work/counters" "$ours" report --operator counter --memtable 100000 \
        || wrong=$((wrong + 1))
}

# Refuses `ask` each thread.
refuse_threads() { # NAME WORKERS COMPACTORS WORDS..
    "$work/drive" threads "$work/refuse.so" "$1" "$work/queries" "$ours" ask --operator append --piece 2 --memtable 1 \
        --trigger 2 --percent 25 --workers "$2" --compactors "$3" "${@:4}" || wrong=$((wrong + 1))
}

# Single calls of the libraries, each request refused, as stories in tests/ make them.
calls() {
    "$top/tests/run" || wrong=$((wrong + 1))
}

# Each byte of a log is changed and each cut is made; a decoder in plain Rust has to say the same.
damage() {
    build damage "$here/damage.rs"
    build decoder "$top/bench/dump/baseline.rs"
    printf '%-34s %9s %9s %7s\n' 'damaged log' logs endings wrong
    for log in "$top"/examples/logs/*.log "$top/examples/report.log"; do
        "$work/damage" "$log" "$ours" "$work/decoder" || wrong=$((wrong + 1))
    done
}

# A row for a device: the status that was wanted, the one that came, and the lines on standard error.
device() { # NAME WANTED
    local status lines
    status=$(cat "$work/status")
    lines=$(wc -l < "$work/said")
    printf '%-34s %9s %9s %7s\n' "$1" "$2" "$status" "$lines"
    [ "$status" -eq "$2" ] && [ "$lines" -le 1 ] || wrong=$((wrong + 1))
}

devices() {
    build make_log "$top/bench/make_log.rs"
    "$work/make_log" small 1 > "$work/log"
    printf '%-34s %9s %9s %7s\n' device wanted status lines
    { "$ours" dump < "$work/log" 2> "$work/said" || echo $? > "$work/status"; } | head -1 > "$work/first"
    device "the reader of the text goes away" 5
    echo 0 > "$work/status"
    "$ours" dump < "$work/log" > /dev/full 2> "$work/said" || echo $? > "$work/status"
    device "no room for the text" 5
    echo 0 > "$work/status"
    "$ours" --help > /dev/full 2> "$work/said" || echo $? > "$work/status"
    device "no room for the help" 5
    echo 0 > "$work/status"
    "$ours" dump < "$work" > "$work/text" 2> "$work/said" || echo $? > "$work/status"
    device "an input that can't be read" 5
}

# A script whose replies are longer together than the buffer in front of standard output, and one of them alone.
long_script() {
    local short long key
    printf -v short '%0400d' 0
    printf -v long '%020000d' 0
    for key in {1000..1199}; do
        echo "put $key $short"
    done
    printf 'put 1150 %s\nkeep 100\nopen\n' "$long"
    printf 'get %d last\n' {1000..1099}
    echo 'scan . - 50 last'
    printf 'get %d last\n' {1100..1180}
}

# Each write or read of a run fails once, alone, with all later ones, and behind one that moved a half of its bytes.
fail_each() { # KIND
    local fail=("$work/drive" "$1" "$work/refuse.so")
    build_drive
    build make_log "$top/bench/make_log.rs"
    long_script > "$work/long.script"
    asked_of "$work/long.script" > "$work/long"
    grep '^put ' "$work/long.script" | "$work/make_log" lines > "$work/long.log"
    "$work/make_log" small 2 > "$work/log"
    printf '%-34s %9s %9s %9s %7s\n' "failed $1" calls failed told wrong
    "${fail[@]}" play "$work/long.script" "$ours" play --operator append || wrong=$((wrong + 1))
    "${fail[@]}" ask "$work/long" "$ours" ask --operator append --piece 2 --compactors 2 || wrong=$((wrong + 1))
    "${fail[@]}" dump "$work/long.log" "$ours" dump || wrong=$((wrong + 1))
    # 64 runs, which fill more than the buffer as they are told twice.
    "${fail[@]}" report "$work/log" "$ours" report --operator append --memtable 29500 --trigger 65 ||
        wrong=$((wrong + 1))
}

writes() {
    fail_each writes
}

reads() {
    fail_each reads
}

if [ $# -eq 0 ]; then
    set -- planted memory asks threads calls damage devices writes reads
fi
for part in "$@"; do
    case $part in
        planted | memory | asks | threads | calls | damage | devices | writes | reads) "$part" ;;
        *)
            echo "run.sh: no part is named $part" >&2
            exit 2
            ;;
    esac
done
echo "wrong rows: $wrong"
[ "$wrong" -eq 0 ]
