#!/bin/bash
# Tries the durable database on what a disk may hold after a crash, from outside: its calls are recorded, and so is what file
# systems write.
#
#     faults/disk.sh [control] [lies] [model] [calls] [backups] [machines]
#
# Without words it does all six.
# - control: a small log of the test's own, which is right, passes.
# - lies: if a device keeps less than it says, that is found.
# - model: the database, on a device that keeps any sectors, pages and names of what wasn't synced.
# - calls: the same, where each call of a checkpoint fails, by EIO, by ENOSPC, and by EIO after its work.
# - backups: backups on such a device while the database is written to, linked and copied: each is absent or whole.
# - machines: the database on ext4 and xfs in files that are mounted. That needs root, loop devices and FUSE; else it says so.
#
# It takes about three minutes, and with LONG=1 it opens 70,000 states. SEED (1) is the seed. Each part ends with `N states,
# M wrong`, and the status is 1 where a state was wrong. Needs cc, python3 and cargo. UCSTORE_LIB_DIR may name the directory of
# libucstore.a and libucstore.so.2; else tools/install puts them into a temporary one. UCSTORE_DB_LIBRARY may name the
# database's own library.
set -euo pipefail
here=$(cd "$(dirname "${BASH_SOURCE[0]}")" && pwd)
work=$(mktemp -d)
# Many small files are written and removed: a directory in memory is as good there.
room=$(mktemp -d -p /dev/shm 2> /dev/null || mktemp -d)
trap 'rm -rf "$work" "$room"' EXIT
export HOME=${HOME:-$(getent passwd "$(id -u)" | cut -d: -f6)}
export PATH=$PATH:${CARGO_HOME:-$HOME/.cargo}/bin
seed=${SEED:-1}
few=400
most=6000
each=1
backups=2000
images=20
steps=80
histories=1
if [ -n "${LONG:-}" ]; then
    few=3000
    most=50000
    each=6
    backups=20000
    images=250
    steps=250
    histories=6
fi
wrong=0

fail() {
    echo "disk: $*" >&2
    exit 1
}

check_needs() {
    local tool
    for tool in cc python3; do
        command -v "$tool" > /dev/null || fail "there is no $tool"
    done
}

# The library whose calls are recorded.
find_library() {
    if [ -n "${UCSTORE_DB_LIBRARY:-}" ]; then return; fi
    if [ -z "${UCSTORE_LIB_DIR:-}" ]; then
        PREFIX="$work/usr" CARGO_TARGET_DIR="$work/target" UCSTORE_TOOL=no "$here/../tools/install" > "$work/installed"
        export UCSTORE_LIB_DIR=$work/usr/lib
    else
        PREFIX="$work/usr" CARGO_TARGET_DIR="$work/target" "$here/../tools/install" database > "$work/installed"
    fi
    UCSTORE_DB_LIBRARY=$(find "$work/usr/lib" -name 'libucstore_db.so.*' | head -n 1)
    export UCSTORE_DB_LIBRARY
}

build() {
    cc -O2 -Wall -Wextra -Werror -shared -fPIC -o "$work/record.so" "$here/disk/record.c"
    cc -O2 -Wall -Wextra -Werror -o "$work/block" "$here/disk/block.c"
    export DISK_RECORD=$work/record.so DISK_BLOCK=$work/block DISK_WORK=$room
    export PYTHONDONTWRITEBYTECODE=1 PYTHONPATH=$here/../bindings/python
    export LD_LIBRARY_PATH=${UCSTORE_LIB_DIR:-}${LD_LIBRARY_PATH:+:$LD_LIBRARY_PATH}
    if [ -n "${UCSTORE_LIB_DIR:-}" ]; then
        UCSTORE_LIBRARY=$(find "$UCSTORE_LIB_DIR" -name 'libucstore.so.*' | head -n 1)
        export UCSTORE_LIBRARY
    fi
}

# Runs a part, whose last line says what was found.
try() { # NAME PROGRAM WORD..
    local name=$1 program=$2
    shift 2
    echo "$name:"
    python3 "$here/disk/$program.py" --seed "$seed" "$@" || wrong=1
}

try_control() {
    try control adversary --store control --states "$few"
}

# A device that says that it has synced, and hasn't.
try_lies() {
    local store lie
    for store in control database; do
        for lie in data names; do
            if python3 "$here/disk/adversary.py" --seed "$seed" --store "$store" --lie "$lie" --states "$few" > "$work/said"; then
                echo "lies: one about $lie isn't found with the $store: $(tail -n 1 "$work/said")"
                wrong=1
            else
                echo "lies: one about $lie is found with the $store: $(tail -n 1 "$work/said")"
            fi
        done
    done
}

try_model() {
    try model adversary --states "$most"
}

try_calls() {
    try calls adversary --each "$each" --most 20
}

try_backups() {
    try backups backups --states "$backups"
}

try_machines() {
    try "machines, the control" machines --store control --states "$images" --steps "$steps"
    try machines machines --states "$images" --steps "$steps" --histories "$histories"
}

check_needs
find_library
build
parts=("$@")
if [ $# -eq 0 ]; then parts=(control lies model calls backups machines); fi
for part in "${parts[@]}"; do
    case $part in
        control | lies | model | calls | backups | machines) "try_$part" ;;
        *) fail "there is no part $part" ;;
    esac
done
exit "$wrong"
