#!/bin/bash
# Measures `ucstore report --operator counter` against the same work in plain Rust, against RocksDB, and against a `BTreeMap`.
#
#     bench/report/run.sh
#
# A report opens a write-ahead log, flushes its writes to runs, compacts as universal compaction does until nothing is
# picked, and says what the store holds before and after. It measures the built program itself
# (crates/ucstore/out/ucstore, or OURS; OURS=none leaves it out). baseline.rs and ../make_log.rs are built by `rustc -O`
# in a temporary folder, and rocksdb.cc by `g++ -O2` against RocksDB without assertions (../rocksdb/build.sh makes it) and
# against Debian's (librocksdb-dev), whose assertions are on; what isn't there is left out. RocksDB recovers the same log in
# its memory environment; ../rocksdb_store.h has its options, and they are printed. It compacts by as many threads as there
# are processors, plain Rust by one. Ours flushes and compacts in four threads; it is measured on one processor too (taskset).
# btree_map.rs folds the writes in one thread, as they come, into a map of values. ../copying.rs only reads and copies the log: no
# program could be faster.
#
# First the reports of small logs are compared with ones worked by hand, those of large and of damaged logs with each
# other, and the values of all keys after the compactions with those that RocksDB and the map have. Then each program runs TURNS
# times (5), and Debian's RocksDB in the first turn alone, over logs of SIZES MiB (16 30 60), in turn and each time in a
# process of its own: the least seconds from start to end and the most memory are printed. The logs have batches of one
# write: half merges of counters, 45 percent puts, 5 percent deletions, and now and then a range deletion (`make_log
# counters`). Two more of the last size have short words for keys, and keys of 100 bytes (`make_log words`, `long`). RESULTS names
# a file for the figures as JSON. It takes about two minutes.
set -u -o pipefail

here=$(cd "$(dirname "${BASH_SOURCE[0]}")" && pwd) || exit 1
ours=${OURS:-$here/../../crates/ucstore/out/ucstore}
turns=${TURNS:-5}
read -ra sizes <<< "${SIZES:-16 30 60}"
folder=$(mktemp -d) || exit 1
trap 'rm -rf "$folder"' EXIT

fail() {
    echo "run.sh: $*" >&2
    exit 1
}

. "$here/../rocksdb/libraries.sh"

build() { # SOURCE
    rustc --edition 2021 -O -o "$folder/$(basename "$1" .rs)" "$1" || fail "$1 doesn't build"
}

# Builds what there is, and says which programs print reports, and which are measured.
build_all() {
    build "$here/../make_log.rs"
    build "$here/../copying.rs"
    build "$here/baseline.rs"
    build "$here/btree_map.rs"
    reporting=(baseline)
    if [ "$ours" != none ]; then
        ours=$(realpath -e "$ours") || exit 2
        reporting=(ucstore baseline)
    fi
    measured=("${reporting[@]}")
    if [ "$ours" != none ]; then measured+=(one); fi
    measured+=(btree_map copying)
    build_rocksdb "$here/rocksdb.cc"
    measured+=("${rocksdbs[@]}")
}

run() { # PROGRAM WORDS: runs it over standard input, and prints what both report
    local program=$1
    shift
    case $program in
        ucstore) "$ours" report --operator counter "$@" | awk -f "$here/plain_fields.awk" ;;
        *) "$folder/$program" "$@" ;;
    esac
}

# The programs that print reports print the same of a log, with the same status.
check_same() { # LOG WHAT WORDS
    local log=$1 what=$2
    shift 2
    if [ "${reporting[0]}" != ucstore ]; then return; fi
    run ucstore "$@" < "$log" > "$folder/left"; local left=$?
    run baseline "$@" < "$log" > "$folder/right"; local right=$?
    [ $left -eq $right ] || fail "$what $*: status $left and $right"
    cmp -s "$folder/left" "$folder/right" || fail "$what $*: the reports differ"
}

# They print this text, with this status.
check_text() { # LOG STATUS TEXT WORDS
    local log=$1 status=$2 text=$3 program
    shift 3
    for program in "${reporting[@]}"; do
        run "$program" "$@" < "$log" > "$folder/left"
        [ $? -eq "$status" ] || fail "$program $*: another status than $status"
        [ "$(< "$folder/left")" = "$text" ] || fail "$program $*: another text than $text"
    done
}

# They print this report of a log of these lines, each in a memtable of its own.
check_report() { # LINES REPORT WORDS
    local lines=$1 report=$2
    shift 2
    "$folder/make_log" lines <<< "$lines" > "$folder/vector" || fail "no log of $lines"
    check_text "$folder/vector" 0 "$report" --memtable 1 "$@"
}

one=0100000000000000
merged="put 6b 0a00000000000000
merge 6b $one
range 6a 6c
merge 6b 0400000000000000"
merged_before="run 4 slot 3 points 1 fragments 0 size 17 seqs 4 4
run 3 slot 2 points 0 fragments 1 size 10 seqs 3 3
run 2 slot 1 points 1 fragments 0 size 17 seqs 2 2
run 1 slot 0 points 1 fragments 0 size 17 seqs 1 1
total runs 4 points 3 fragments 1 size 61
keeps 4
last 4"
nothing="total runs 0 points 0 fragments 0 size 0
keeps 0
last 0"
nothing_twice="$nothing
$nothing"

# All runs by space amplification, and the newest by size ratio.
check_merges() {
    check_report "$merged" "$merged_before
compacted 0 4 5
run 5 slot 3 points 1 fragments 0 size 17 seqs 1 4
total runs 1 points 1 fragments 0 size 17
keeps 4
last 4"
    check_report "$merged" "$merged_before
compacted 0 3 5
run 5 slot 3 points 1 fragments 1 size 27 seqs 2 4
run 1 slot 0 points 1 fragments 0 size 17 seqs 1 1
total runs 2 points 2 fragments 1 size 44
keeps 4
last 4" --percent 400 --greatest 3
}

# A deletion stays above older runs, but where a newer range deletion covers its key.
check_deletion() { # END POINTS SIZE: the range's end, and what the compacted run has
    check_report "put 6a $one
put 6b $one
delete 6b
range 6a $1" "run 4 slot 3 points 0 fragments 1 size 10 seqs 4 4
run 3 slot 2 points 1 fragments 0 size 9 seqs 3 3
run 2 slot 1 points 1 fragments 0 size 17 seqs 2 2
run 1 slot 0 points 1 fragments 0 size 17 seqs 1 1
total runs 4 points 3 fragments 1 size 53
keeps 4
last 4
compacted 0 3 5
run 5 slot 3 points $2 fragments 1 size $3 seqs 2 4
run 1 slot 0 points 1 fragments 0 size 17 seqs 1 1
total runs 2 points $(($2 + 1)) fragments 1 size $(($3 + 17))
keeps 4
last 4" --percent 400 --greatest 3
}

# Runs that are each larger than the newer ones together: the two newest of five.
check_number_of_runs() {
    check_report "put 61 $(printf '%0382d' 0)
put 62 $(printf '%0182d' 0)
put 63 $(printf '%062d' 0)
merge 6b $one
delete 6b" "run 5 slot 4 points 1 fragments 0 size 9 seqs 5 5
run 4 slot 3 points 1 fragments 0 size 17 seqs 4 4
run 3 slot 2 points 1 fragments 0 size 40 seqs 3 3
run 2 slot 1 points 1 fragments 0 size 100 seqs 2 2
run 1 slot 0 points 1 fragments 0 size 200 seqs 1 1
total runs 5 points 5 fragments 0 size 366
keeps 5
last 5
compacted 0 2 6
run 6 slot 4 points 1 fragments 0 size 9 seqs 4 5
run 3 slot 2 points 1 fragments 0 size 40 seqs 3 3
run 2 slot 1 points 1 fragments 0 size 100 seqs 2 2
run 1 slot 0 points 1 fragments 0 size 200 seqs 1 1
total runs 4 points 4 fragments 0 size 349
keeps 5
last 5"
}

# Logs that aren't whole, and stores that aren't opened.
check_refused() {
    : > "$folder/vector"
    check_text "$folder/vector" 0 "$nothing_twice"
    "$folder/make_log" lines <<< "put 61 $one" > "$folder/vector" || fail "no log"
    check_text "$folder/vector" 2 "refused bad option" --memtable 0
    truncate -s -1 "$folder/vector"
    check_text "$folder/vector" 0 "$nothing_twice"
    printf 'x' >> "$folder/vector"
    check_text "$folder/vector" 3 "log fault bad checksum 0"
    yes "put 61 $one" | head -n 257 | "$folder/make_log" lines > "$folder/vector"
    check_text "$folder/vector" 2 "refused too many runs" --memtable 1
}

# After any compactions each key has the value that it has in RocksDB.
check_values() { # LOG
    local log=$1 words values rocksdb
    values=$("$folder/baseline" --values < "$log") || fail "no values"
    for words in "--memtable 1048576 --trigger 2 --percent 100000 --greatest 3" \
        "--memtable 333333 --trigger 8 --percent 100000 --greatest 5 --ratio 0"; do
        # shellcheck disable=SC2086
        check_same "$log" "$log" $words
        # shellcheck disable=SC2086
        [ "$("$folder/baseline" --values $words < "$log")" = "$values" ] || fail "$words: other values"
    done
    [ "$("$folder/btree_map" < "$log")" = "$values" ] || fail "the map has other values"
    for rocksdb in "${rocksdbs[@]}"; do
        [ "$("$folder/$rocksdb" --values < "$log")" = "$values" ] || fail "$rocksdb has other values"
    done
}

# Logs that end early, and logs with another byte in their middle.
check_damaged() { # LOG
    local place
    for place in 1 6 7 32767 32768 100000 5000000; do
        head -c "$place" "$1" > "$folder/damaged"
        check_same "$folder/damaged" "the first $place bytes"
        { head -c "$place" "$1"; printf '\377'; tail -c +$((place + 2)) "$1"; } > "$folder/damaged"
        check_same "$folder/damaged" "another byte at $place"
    done
}

# Appends the seconds and the most memory in KiB of one run.
run_once() { # PROGRAM LOG
    local start end
    case $1 in
        ucstore) local words=("$ours" report --operator counter) ;;
        one) local words=(taskset -c 1 "$ours" report --operator counter) ;;
        *) local words=("$folder/$1") ;;
    esac
    start=${EPOCHREALTIME/[.,]/}
    /usr/bin/time -f %M -o "$folder/memory" "${words[@]}" < "$2" > "$folder/text" || fail "$1 fails"
    end=${EPOCHREALTIME/[.,]/}
    echo "$((end - start)) $(tail -n 1 "$folder/memory")" >> "$folder/figures.$1"
}

measure() { # MIB|words|long: a line for each program with its microseconds and KiB
    local log=$folder/log turn program words=(counters "$1")
    case $1 in words | long) words=("$1" "${sizes[-1]}") ;; esac
    "$folder/make_log" "${words[@]}" > "$log" || fail "no log"
    check_same "$log" "${words[*]} MiB"
    if [ "$1" = "${sizes[0]}" ]; then
        check_values "$log"
        check_damaged "$log"
    fi
    for turn in $(seq "$turns"); do
        for program in "${measured[@]}"; do
            if [ "$turn" -gt 1 ] && [ "$program" = debian ]; then continue; fi
            run_once "$program" "$log" || exit 1
        done
    done
    for program in "${measured[@]}"; do
        echo "$program $1 $(cut -d ' ' -f 1 "$folder/figures.$program" | sort -n | head -n 1)" \
            "$(cut -d ' ' -f 2 "$folder/figures.$program" | sort -n | tail -n 1)"
        rm "$folder/figures.$program"
    done
}

table() {
    awk '{
        names[++count] = $1; size[count] = $2
        time[$1, $2] = $3; memory[$1, $2] = $4
    }
    function ratio(one, other) {
        return other ? sprintf("%6.2f", one / other) : "     -"
    }
    END {
        word["ucstore"] = "ucstore"; word["one"] = "the same, 1 processor"; word["baseline"] = "plain Rust"; word["rocksdb"] = "RocksDB"
        word["btree_map"] = "BTreeMap"; word["copying"] = "reading and copying"
        print "                                                     time against                                         memory against"
        print "log     program                seconds  memory MiB  plain Rust  BTreeMap  RocksDB  Debian\047s  half a log  plain Rust  RocksDB  Debian\047s"
        for (line = 1; line <= count; line++) {
            n = names[line]; s = size[line]
            if (n == "debian") continue
            t = time[n, s]; m = memory[n, s]
            log_of = s ~ /^[0-9]+$/ ? sprintf("%2d MiB", s) : s
            printf "%-6s  %-21s  %7.3f  %10.1f  %10s  %8s  %7s  %8s  %10s  %10s  %7s  %8s\n", log_of, word[n], t / 1e6, m / 1024,
                ratio(t, time["baseline", s]), ratio(t, time["btree_map", s]), ratio(t, time["rocksdb", s]),
                ratio(t, time["debian", s]), ratio(t, time[n, s / 2]), ratio(m, memory["baseline", s]), ratio(m, memory["rocksdb", s]),
                ratio(m, memory["debian", s])
        }
    }'
}

# Keeps the figures of each program and size.
keep_all() {
    local program size time memory name
    while read -r program size time memory; do
        case $program in
            ucstore) name=ours ;;
            baseline) name="plain Rust" ;;
            btree_map) name=BTreeMap ;;
            copying) name="reading and copying" ;;
            one)
                case $size in words | long) continue ;; esac
                keep_seconds 'report, one processor' "$size MiB" ours "$time"
                keep_seconds 'report, four processors' "$size MiB" 'one processor' "$time"
                continue
                ;;
            *) name=$(name_of "$program") ;;
        esac
        case $size in
            words | long)
                keep_run "report, $size" "${sizes[-1]} MiB" "$name" "$time" "$memory"
                continue
                ;;
        esac
        keep_run report "$size MiB" "$name" "$time" "$memory"
        case $program in
            ucstore) keep_seconds 'report, four processors' "$size MiB" ours "$time" ;;
            rocksdb) keep_seconds 'report, one processor' "$size MiB" "$name" "$time" ;;
        esac
        if [ "$program" = ucstore ]; then keep_growth "$size" "$time"; fi
    done
    goal report '60 MiB' 'plain Rust' s 'at most' 1.5
    goal report '60 MiB' BTreeMap s 'at most' 0.25
    goal report '60 MiB' RocksDB s 'at most' 0.15
    goal report '60 MiB' RocksDB MiB 'at most' 0.8
    goal 'report, words' '60 MiB' BTreeMap s 'at most' 0.25
    goal 'report, words' '60 MiB' RocksDB s 'at most' 0.25
    goal 'report, long' '60 MiB' BTreeMap s 'at most' 0.25
    goal 'report, long' '60 MiB' RocksDB s 'at most' 0.25
    goal 'report, one processor' '60 MiB' RocksDB s 'at most' 0.28
    goal 'report, four processors' '60 MiB' 'one processor' s 'at most' 0.43
    goal 'report, twice the log' '*' 'half of it' s 'at most' 2.2
}

# Keeps our seconds beside those of half the log, if that was measured before.
declare -A our_times
keep_growth() { # MIB MICROSECONDS
    local half=${our_times[$(($1 / 2))]:-}
    our_times[$1]=$2
    if [ -z "$half" ] || [ $(($1 % 2)) -ne 0 ]; then return; fi
    keep_seconds 'report, twice the log' "$1 MiB" ours "$2"
    keep_seconds 'report, twice the log' "$1 MiB" 'half of it' "$half"
}

build_all
check_merges
check_deletion 6b 1 19
check_deletion 6c 0 10
check_number_of_runs
check_refused
say_machine
say_rocksdb
for size in "${sizes[@]}" words long; do
    measure "$size" || exit 1
done > "$folder/least"
table < "$folder/least"
keep_all < "$folder/least"
write_results_beside report
