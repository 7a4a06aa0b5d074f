#!/bin/bash
# Tries the program ucstore-db of bindings/rust/ucstore-db-tool:
#
#     bindings/test_tool.sh [PART..]
#
# The parts are units, cases, beside, damage, rows, crashes and modes, or all where none is named. `needs` alone says what is missing.
# - units: the tests of its modules.
# - cases: commands, what they read, what they print and how they end, also with damaged and foreign directories, locked ones, full
#   devices, closed pipes and a terminal.
# - beside: the commands that read beside an owner that writes and makes checkpoints, and is killed. LONG=1 takes a minute.
# - damage: each byte of small directories is changed, and `verify` finds it and changes nothing.
# - rows: drawn rows are dumped and loaded into another database, and logs are printed as `ucstore dump` prints them, if that is built.
# - crashes: a backup is killed before each call by which it changes files.
# - modes: files and directories have the modes of the umask.
#
# It needs cargo with Rust 1.89, python3, and the crates that tools/install names; no network. Where the crates are missing it is left
# out, with a line that says so. UCSTORE_LIB_DIR may name the folder of libucstore.a; else tools/install makes it in a temporary folder.
# SEED (1) is that of what is drawn.
set -euo pipefail
here=$(cd "$(dirname "${BASH_SOURCE[0]}")" && pwd)
tool=$here/rust/ucstore-db-tool
work=$(mktemp -d)
trap 'rm -rf "$work"' EXIT
# cargo is often where rustup puts it, and in no PATH but that of a login shell.
export HOME=${HOME:-$(getent passwd "$(id -u)" | cut -d: -f6)}
export PATH=$PATH:${CARGO_HOME:-$HOME/.cargo}/bin PYTHONDONTWRITEBYTECODE=1

fail() {
    echo "test_tool: $*" >&2
    exit 1
}

check_needs() {
    local name missing=()
    for name in cargo cc ld objcopy ar python3; do
        command -v "$name" > /dev/null || missing+=("$name")
    done
    [ ${#missing[@]} -eq 0 ] || fail "missing: ${missing[*]}"
}

build() {
    if [ -z "${UCSTORE_LIB_DIR:-}" ]; then
        PREFIX="$work/usr" CARGO_TARGET_DIR="$work/target" "$here/../tools/install" > "$work/installed"
        export UCSTORE_LIB_DIR=$work/usr/lib
    else
        PREFIX="$work/usr" CARGO_TARGET_DIR="$work/target" "$here/../tools/install" tool > "$work/installed"
    fi
    export UCSTORE_DB=$work/usr/bin/ucstore-db
    try_manual
    try_completions
}

# Formats the manual, where there is groff, without a word of fault.
try_manual() {
    if ! command -v groff > /dev/null; then return; fi
    groff -man -ww -Tutf8 "$work/usr/share/man/man1/ucstore-db.1" > "$work/page" 2> "$work/said" || fail "the manual has faults"
    [ ! -s "$work/said" ] || fail "the manual has faults: $(head -3 "$work/said")"
    grep -qF 'UCSTORE\-DB VERIFY' "$work/usr/share/man/man1/ucstore-db.1" || fail "the manual lacks a command"
}

# The completions are scripts of bash that name the commands.
try_completions() {
    local script=$work/usr/share/bash-completion/completions/ucstore-db
    bash -n "$script" && grep -q delete-range "$script" || fail "the completions of bash are wrong"
}

try_units() {
    # Flags as those of tools/install, so that what was built there serves here.
    CARGO_TARGET_DIR="$work/target" RUSTFLAGS="--remap-path-prefix=$(dirname "$here")=/ucstore" "$tool/cargo" test --quiet --release
}

try_cases() { "$tool/cases/run"; }

try_beside() {
    CARGO_TARGET_DIR="$work/target" RUSTFLAGS="--remap-path-prefix=$(dirname "$here")=/ucstore" \
        "$tool/cargo" build --quiet --release --example owner
    UCSTORE_DB_OWNER=$work/target/release/examples/owner "$tool/cases/beside"
}

try_damage() { "$tool/cases/damage"; }

try_crashes() { "$tool/cases/crashes"; }

try_rows() { "$tool/cases/rows"; }

# What others may do is what the umask leaves.
try_modes() {
    local mask wanted dir
    for mask in 077 027 022 000; do
        dir=$work/modes$mask
        (umask "$mask" && "$UCSTORE_DB" "$dir" put a 1 --create --operator append && "$UCSTORE_DB" "$dir" checkpoint > /dev/null &&
            "$UCSTORE_DB" "$dir" put b 2 && "$UCSTORE_DB" "$dir" backup "$dir-backup" > /dev/null)
        wanted="$(printf '%o' $((0777 & ~mask))) $(printf '%o' $((0666 & ~mask)))"
        for dir in "$dir" "$dir-backup"; do
            [ "$(stat -c %a "$dir") $(stat -c %a "$dir"/* | sort -u)" = "$wanted" ] || fail "umask $mask: $(stat -c '%a %n' "$dir" "$dir"/*)"
        done
    done
    # A backup of a directory of one user is for that user alone, whatever the umask is.
    (umask 000 && "$UCSTORE_DB" "$work/modes077" backup "$work/own" > /dev/null)
    [ "$(stat -c %a "$work/own")" = 700 ] || fail "others may read a backup: $(stat -c %a "$work/own")"
}

check_needs
if [ "${*-}" = needs ]; then exit; fi
if ! "$tool/cargo" metadata --quiet --format-version 1 > /dev/null 2>&1; then
    echo "test_tool: left out: there are no crates clap, clap_complete and indicatif (Debian's librust-clap-complete-dev and librust-indicatif-dev)"
    exit
fi
if [ $# -eq 0 ]; then set -- units cases beside damage rows crashes modes; fi
build
for part; do
    declare -F "try_$part" > /dev/null || fail "there is no part $part"
    begun=$SECONDS
    "try_$part"
    echo "test_tool: $part passed in $((SECONDS - begun)) s"
done
