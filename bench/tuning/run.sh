#!/bin/bash
# Measures what options of the database cost and gain: the time of puts, lookups and scans, and memory.
#
#     bench/tuning/run.sh
#
# tuning.c says what is done. It is built by `cc -std=c99 -O2` over the libucstore_db.a in the folder that OURS names (the shared
# objects' folder of tools/install). Each option is measured at each of its values, the others as they usually are. WRITES puts (1500000) of
# 500,000 keys, 300,000 lookups and 30,000 scans are made TURNS times (3), in turn, and a figure is the median of its turns. RESULTS
# names a file for the figures as JSON. It takes two minutes.
set -u -o pipefail

here=$(cd "$(dirname "${BASH_SOURCE[0]}")" && pwd) || exit 1
top=$here/../..
ours=${OURS:-$top/bindings/rust/target/release}
turns=${TURNS:-3}
writes=${WRITES:-1500000}
folder=$(mktemp -d) || exit 1
trap 'rm -rf "$folder"' EXIT

fail() {
    echo "run.sh: $*" >&2
    exit 1
}

. "$here/../results.sh"

# The options, each with its values.
options=(write_buffer_size compaction_trigger max_size_amplification_percent)
values_of() { # OPTION
    case $1 in
        write_buffer_size) echo 262144 1048576 4194304 16777216 67108864 ;;
        compaction_trigger) echo 2 4 8 16 ;;
        max_size_amplification_percent) echo 25 50 100 200 400 ;;
    esac
}

# What the columns of a line are.
columns=(put 'put, of processors' runs lookup scan memory)

# The median over turns of a column.
figure() { # OPTION VALUE COLUMN
    cut -d ' ' -f "$3" "$folder/$1.$2" | sort -n | sed -n "$(((turns + 1) / 2))p"
}

[ -f "$ours/libucstore_db.a" ] || fail "there is no $ours/libucstore_db.a: OURS may name its folder"
cc -std=c99 -O2 -Wall -Wextra -pedantic -I "$top/bindings/c" "$here/tuning.c" "$ours/libucstore_db.a" -lm -lpthread -ldl \
    -o "$folder/tuning" || fail "tuning.c doesn't build"
for turn in $(seq "$turns"); do
    for option in "${options[@]}"; do
        for value in $(values_of "$option"); do
            "$folder/tuning" 500000 "$writes" 300000 30000 "$option" "$value" >> "$folder/$option.$value" || fail "$option $value fails"
        done
    done
done
echo "$(date +%F), $(sed -n 's/^model name[^:]*: //p' /proc/cpuinfo | head -n 1), $(nproc) processors, load $(cut -d ' ' -f 1-3 /proc/loadavg)"
printf '%-32s %10s %8s %14s %6s %10s %8s %10s\n' option value 'put ns' 'of processors' runs 'lookup ns' 'scan ns' 'memory MiB'
for option in "${options[@]}"; do
    for value in $(values_of "$option"); do
        row=()
        for column in "${!columns[@]}"; do row+=("$(figure "$option" "$value" $((column + 1)))"); done
        printf '%-32s %10s %8s %14s %6s %10s %8s %10s\n' "$option" "$value" "${row[@]:0:5}" $((row[5] / 1024))
        for column in 0 1 3 4; do keep "$option, ${columns[column]}" "$value" ours ns "${row[column]}"; done
        keep "$option, runs" "$value" ours runs "${row[2]}"
        keep_mib "$option, memory" "$value" ours "${row[5]}"
    done
done
write_results tuning
