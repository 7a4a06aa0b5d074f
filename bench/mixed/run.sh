#!/bin/bash
# Measures additions, their memory, and reads of many additions, by the operators `counter` and `mixed`, from C.
#
#     bench/mixed/run.sh
#
# It measures the archive that OURS names, or crates/uc_c/out/libuc_c.a, which `tools/prove uc_c` builds. The times of processors
# are the medians of TURNS (5) turns, each operator in turn. Instructions of an addition and of a read are counted by callgrind, which
# other work doesn't change. A minute.
set -eu -o pipefail

here=$(cd "$(dirname "${BASH_SOURCE[0]}")" && pwd)
top=$here/../..
ours=${OURS:-$top/crates/uc_c/out/libuc_c.a}
folder=$(mktemp -d)
trap 'rm -rf "$folder"' EXIT

kit=$(dirname "$(dirname "$(readlink -f "$(command -v rt)")")")
cc -std=gnu99 -O2 -Wall -Wextra -I "$top/bindings/c" "$here/mixed.c" "$top/bindings/c/ids.c" "$ours" "$kit/c/liblibc_c.a" ${LDLIBS:-} \
    -o "$folder/mixed"

for keys in 1000 1000000; do
    for _ in $(seq "${TURNS:-5}"); do
        for operator in counter mixed; do
            "$folder/mixed" "$operator" "$keys" 1000000 | sed "s/^/$keys keys, $operator: /"
        done
    done
done | sort -V | awk -F': ' '
    function told() { if (count) { split(middle[int((count + 1) / 2)], figure, " "); print name " " middle[int((count + 1) / 2)] } }
    { line = $0; match(line, /[0-9.]+ (ns|bytes)$/); key = substr(line, 1, RSTART - 1); value = substr(line, RSTART)
      if (key != name) { told(); name = key; count = 0 }
      middle[++count] = value }
    END { told() }'

for operator in counter mixed; do
    for name in add read_sum; do
        valgrind --tool=callgrind --callgrind-out-file="$folder/counted" --toggle-collect="$name" \
            "$folder/mixed" "$operator" 1000 100000 > "$folder/printed" 2> "$folder/said"
        calls=$([ "$name" = add ] && echo 101000 || echo 21000)
        awk -v calls="$calls" -v what="$operator: $name" '/Collected/ { printf "%s %.0f instructions\n", what, $NF / calls }' "$folder/said"
    done
done
