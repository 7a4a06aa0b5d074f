#!/bin/bash
# Measures openings and checkpoints of the database of bindings/rust/ucstore-db in a folder, beside an older version:
#
#     bench/db/costs.sh PREFIX [OLDER]
#
# Each is a folder that `tools/install database` has installed to. ROWS (1000000) is the number of rows, MORE (none) a greater number to be
# opened too, BIG (8000000) the number of rows that 10 MiB are added to, TURNS (3) how often each is measured, in turn, and FOLDERS (a
# temporary folder) is where the databases are. PARTS (opening overwriting adding) names some parts. Each line is a measurement.
set -u -o pipefail

here=$(cd "$(dirname "${BASH_SOURCE[0]}")" && pwd) || exit 1
folder=$(mktemp -d ${FOLDERS:+-p "$FOLDERS"}) || exit 1
trap 'rm -rf "$folder"' EXIT
rows=${ROWS:-1000000}
big=${BIG:-8000000}
turns=${TURNS:-3}
parts=${PARTS:-opening overwriting adding}

fail() {
    echo "costs.sh: $*" >&2
    exit 1
}

build() { # PREFIX PROGRAM
    gcc -std=c99 -O2 -Wall -Wextra -I "$1/include" "$here/costs.c" -o "$folder/$2" "$1/lib/libucstore_db.a" -lm -lpthread -ldl ||
        fail "costs.c doesn't build with $1"
}

# Measures once, with the load of the last minute.
measure() { # VERSION LABEL WORD..
    local load
    read -r load _ < /proc/loadavg
    echo "$1 $2 load $load $("$folder/$1" "${@:3}")" || fail "$2 fails"
}

opening() { # ROWS
    local version work turn
    for work in leave compact; do
        for version in "${versions[@]}"; do measure "$version" "$work-$1" "$work" "$folder/$version-rows" "$1"; done
        for ((turn = 0; turn < turns; turn++)); do
            for version in "${versions[@]}"; do measure "$version" "open-$work-$1" open "$folder/$version-rows"; done
        done
    done
    rm -rf "$folder"/*-rows
}

overwriting() {
    local version turn work
    for ((turn = 0; turn < turns; turn++)); do
        for version in "${versions[@]}"; do
            for work in overwrite alone; do
                "$folder/$version" leave "$folder/$version-rows" "$rows" > /dev/null || fail "no rows"
                measure "$version" "$work-$rows" "$work" "$folder/$version-rows" "$rows"
                rm -rf "$folder/$version-rows"
            done
        done
    done
}

adding() {
    local version turn
    for version in "${versions[@]}"; do measure "$version" "leave-$big" leave "$folder/$version-big" "$big"; done
    for ((turn = 0; turn < turns; turn++)); do
        for version in "${versions[@]}"; do
            measure "$version" "add-$big" add "$folder/$version-big" "$((big + 100000 * turn))" 10
        done
    done
    rm -rf "$folder"/*-big
}

[ $# -ge 1 ] || fail "it takes the folder of an installed version"
versions=(new)
build "$1" new
if [ $# -gt 1 ]; then
    versions+=(old)
    build "$2" old
fi
for part in $parts; do
    case $part in
        opening)
            opening "$rows"
            if [ -n "${MORE:-}" ]; then opening "$MORE"; fi
            ;;
        overwriting | adding) "$part" ;;
        *) fail "there is no part $part" ;;
    esac
done
