#!/bin/bash
# Tries the packages of dist/, which tools/package made:
#
#     packages/test.sh [PART..]
#
# - objects: the shared objects have the right names and versions of symbols, no others, and no executable stack or
#   writable table of addresses; the same tree gives the same packages twice.
# - debian: a root of Debian 12 without the Rattle kit gets the .deb packages by apt; lintian finds nothing in them.
# - wheel: the same root gets the wheel in an environment of its own; it is told how soon the first program reads a value.
#   One of Debian 11, whose glibc is older than the wheel's name says, refuses it.
# - tar: both roots unpack the archive anywhere, and C programs are built against it: in Debian 11 those of the store alone,
#   and the program says which glibc it lacks.
# - crates: cargo builds a program over the packaged crates, against the archive's library.
#
# In each root the programs of bindings/, `ucstore report` over an example, and the short tests of Python run. It needs root,
# debootstrap, lintian, binutils, a network for Debian's packages, and cargo for `crates`. It takes about five minutes, and
# less once the roots are there: ROOTS names a folder that keeps them.
set -euo pipefail
here=$(cd "$(dirname "${BASH_SOURCE[0]}")" && pwd)
top=$(dirname "$here")
dist=$top/dist
work=$(mktemp -d)
roots=${ROOTS:-$work/roots}
trap 'rm -rf "$work"' EXIT
export LC_ALL=C.UTF-8 PATH=$PATH:/usr/sbin:/sbin:${CARGO_HOME:-$HOME/.cargo}/bin
version=$(sed -n 's/^#define UCSTORE_VERSION "\(.*\)"$/\1/p' "$top/bindings/c/ucstore.h")

fail() {
    echo "packages: $*" >&2
    exit 1
}

# The root of a Debian, made where it isn't there, with what C and Python need.
root_of() { # SUITE
    local root=$roots/$1
    if [ ! -f "$root/made" ]; then
        mkdir -p "$roots"
        debootstrap --variant=minbase --include=ca-certificates,gcc,libc6-dev,pkg-config,python3,python3-pip,python3-venv \
            "$1" "$root" > "$work/debootstrap.$1" 2>&1 || {
            tail -5 "$work/debootstrap.$1" >&2
            fail "$1 isn't made"
        }
        touch "$root/made"
    fi
    echo "$root"
}

# Runs a line of shell in a root, in a folder with the programs, examples and packages.
run_in() { # SUITE LINE
    local root
    root=$(root_of "$1")
    rm -rf "$root/work"
    mkdir -p "$root/work"
    cp -R "$top/bindings/c" "$top/bindings/python" "$top/bindings/cases" "$root/work"
    cp -RL "$top/examples" "$root/work/examples"
    cp "$dist"/*.* "$root/work"
    chroot "$root" /bin/bash -euc "cd /work; export HOME=/root PATH=/usr/local/bin:/usr/bin:/bin:/usr/sbin:/sbin; $2" \
        > "$work/said" 2>&1 || {
        tail -20 "$work/said" >&2
        fail "$1: ${3:-it fails}"
    }
}

# What a root runs of the command, and what it must print.
report='ucstore report --operator append --memtable 1 --trigger 2 < examples/report.log | diff - examples/report.expected'

# What it runs of ucstore-db, and what it must print.
database='ucstore-db db put colour blue --create --operator append && ucstore-db db verify && test $(ucstore-db db get colour) = blue'

# Python's first program, and its short tests beside a plain model.
python_works='
    mkdir tried && cp python/first.py python/db_first.py python/tests/test_cases.py tried
    $PYTHON tried/first.py
    (cd tried && $PYTHON db_first.py)
    sed -i "s|Path(__file__).resolve().parents\[2\]|Path(\"/work\")|" tried/test_cases.py
    (cd tried && $PYTHON -m unittest -q test_cases)'

# A shared object has no symbol but those of the list, with their versions, and nothing that helps an attacker.
check_object() { # LIBRARY SYMBOLS SONAME
    readelf -dW "$1" > "$work/dynamic"
    readelf -lW "$1" > "$work/segments"
    grep -q "(SONAME).*\[$3\]" "$work/dynamic" || fail "$1 isn't $3"
    grep -qE 'FLAGS.*NOW' "$work/dynamic" || fail "$1 binds addresses late"
    ! grep -q TEXTREL "$work/dynamic" || fail "$1 has relocations in its text"
    grep -q GNU_RELRO "$work/segments" || fail "$1 has a writable table of addresses"
    ! grep -E 'GNU_STACK.*RWE' "$work/segments" || fail "$1 has an executable stack"
    ! grep -E 'LOAD.*RWE' "$work/segments" || fail "$1 has a segment that is written and executed"
    nm -D --defined-only --with-symbol-versions "$1" | awk '$2 != "A" { print $3 }' | sort | diff "$2" - ||
        fail "$1 has other symbols than $(basename "$2")"
}

objects() {
    local one
    mkdir -p "$work/tar" "$work/first"
    tar -C "$work/tar" -xzf "$dist/ucstore-$version-x86_64-linux.tar.gz"
    for one in "$top"/abi/*.symbols; do
        check_object "$(echo "$work"/tar/*/lib/"$(basename "$one" .symbols)")" "$one" "$(basename "$one" .symbols)"
    done
    cp "$dist"/*.* "$work/first"
    "$top/tools/package" > /dev/null
    for one in "$dist"/*.*; do
        cmp "$one" "$work/first/$(basename "$one")" || fail "$(basename "$one") differs when it is made again"
    done
}

debian() {
    lintian --fail-on error,warning --suppress-tags initial-upload-closes-no-bugs,no-manual-page "$dist"/*.deb ||
        fail "lintian finds faults"
    run_in bookworm "
        apt-get -qq update
        apt-get -qq install -y --reinstall ./*.deb
        $report
        $database
        cc c/first.c \$(pkg-config --cflags --libs ucstore) -o first && ./first
        cc c/db_first.c \$(pkg-config --cflags --libs ucstore_db) -o db_first && ./db_first
        PYTHON=/usr/bin/python3; $python_works
        apt-get -qq purge -y 'ucstore' 'libucstore*' 'python3-ucstore'" "the .deb packages"
}

wheel() {
    run_in bookworm "
        python3 -m venv env
        begun=\$(date +%s%N)
        env/bin/pip install -q --no-index ./ucstore-*.whl
        cp python/db_first.py . && env/bin/python db_first.py
        echo walk: the first value \$(((\$(date +%s%N) - begun) / 1000000)) ms after pip began
        rm -r visits db_first.py
        PYTHON=/work/env/bin/python; $python_works" "the wheel"
    grep '^walk:' "$work/said"
    run_in bullseye "
        python3 -m venv env
        ! env/bin/pip install -q --no-index ./ucstore-*.whl" "the wheel is installed where its glibc isn't"
}

tar_archive() {
    local suite program=$report
    for suite in bookworm bullseye; do
        if [ "$suite" = bullseye ]; then program='! ucstore --help 2> said && grep -q GLIBC_2.34 said'; fi
        run_in "$suite" "
            mkdir elsewhere && tar -C elsewhere -xzf ucstore-$version-x86_64-linux.tar.gz
            here=\$(echo /work/elsewhere/ucstore-*)
            export PATH=\$here/bin:\$PATH PKG_CONFIG_PATH=\$here/lib/pkgconfig
            $program
            cc c/first.c \$(pkg-config --cflags --libs ucstore) -o first && LD_LIBRARY_PATH=\$here/lib ./first
            cc c/first.c \$(pkg-config --cflags ucstore) \$here/lib/libucstore.a -o first_static && ./first_static" "the archive"
    done
}

crates() {
    local one
    mkdir -p "$work/tar" "$work/program/src"
    tar -C "$work/tar" -xzf "$dist/ucstore-$version-x86_64-linux.tar.gz"
    for one in "$dist"/*.crate; do tar -C "$work" -xzf "$one"; done
    cp "$work/ucstore-$version/examples/first.rs" "$work/program/src/main.rs"
    cat > "$work/program/Cargo.toml" << END
[package]
name = "program"
version = "0.1.0"
edition = "2021"

[dependencies]
ucstore = "$version"
ucstore-db = "$version"

[patch.crates-io]
ucstore = { path = "../ucstore-$version" }
ucstore-db = { path = "../ucstore-db-$version" }
ucstore-sys = { path = "../ucstore-sys-$version" }
END
    (cd "$work/program" && UCSTORE_LIB_DIR=$(echo "$work"/tar/*/lib) cargo run --offline --quiet) > "$work/said" ||
        fail "a program over the crates doesn't run"
}

[ -d "$dist" ] || fail "there is no dist/: run tools/package"
if [ $# -eq 0 ]; then set -- objects debian wheel tar crates; fi
for part; do
    case $part in
        objects | debian | wheel | crates) "$part" ;;
        tar) tar_archive ;;
        *) fail "there is no part $part" ;;
    esac
    echo "packages: $part passed"
done
