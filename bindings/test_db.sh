#!/bin/bash
# Tries the durable database of bindings/rust/ucstore-db, and its faces for C and Python:
#
#     bindings/test_db.sh [PART..]
#
# The parts are rust, c, sanitizers, valgrind, python and ended, or all where none is named. `needs` alone says what is missing
# for them.
# - rust: crashes and faults of a device at each call, damaged bytes, threads and each order of their steps, use for long,
#   processes that are ended by signal 9, an example.
# - c: each function, threads, moves of cursors, the cases of bindings/cases and drawn ones, and programs, by gcc and clang and as C++.
# - sanitizers: those of addresses, undefined behaviour and threads. valgrind: once.
# - python: each call, the same cases, the types by mypy where there is one, and how fast a scan is.
# - ended: programs of C and Python are ended by signal 9 while eight threads write, also with others that read beside them, and the
#   example until it is done.
#
# It takes some two minutes, or twelve with LONG=1. SEED (1) is that of what is drawn. It needs cargo with Rust 1.89, gcc,
# clang, valgrind and python3, and no network. UCSTORE_LIB_DIR may name the folder of libucstore.a and libucstore.so.2; else
# tools/install puts them into a temporary folder.
set -euo pipefail
here=$(cd "$(dirname "${BASH_SOURCE[0]}")" && pwd)
work=$(mktemp -d)
# Where each command is synced that a case has: a folder in memory is as good there.
room=$(mktemp -d -p /dev/shm 2> /dev/null || mktemp -d)
trap 'rm -rf "$work" "$room"' EXIT
# cargo is often where rustup puts it, and in no PATH but that of a login shell.
export HOME=${HOME:-$(getent passwd "$(id -u)" | cut -d: -f6)}
export PATH=$PATH:${CARGO_HOME:-$HOME/.cargo}/bin
seed=${SEED:-1}
cases_drawn=30 cursors_drawn=300
if [ -n "${LONG:-}" ]; then cases_drawn=600 cursors_drawn=6000; fi
strict=(-Wall -Wextra -Werror -pedantic)
# What a database has too: no sequences of batches, and no reports.
played=()
for name in merges mixed operators partial ranges runs scans snapshots texts; do
    played+=("$here/cases/$name.txt")
done

fail() {
    echo "test_db: $*" >&2
    exit 1
}

expect() { # NAME WANTED FOUND
    [ "$2" = "$3" ] || fail "$1 says '$3' instead of '$2'"
}

check_needs() {
    local tool missing=()
    for tool in cargo gcc g++ clang ld objcopy ar nm pkg-config valgrind python3; do
        command -v "$tool" > /dev/null || missing+=("$tool")
    done
    [ ${#missing[@]} -eq 0 ] || fail "missing: ${missing[*]}"
}

install_all() {
    if [ -z "${UCSTORE_LIB_DIR:-}" ]; then
        PREFIX="$work/usr" CARGO_TARGET_DIR="$work/target" UCSTORE_TOOL=no "$here/../tools/install" > "$work/installed"
        export UCSTORE_LIB_DIR=$work/usr/lib
    else
        PREFIX="$work/usr" CARGO_TARGET_DIR="$work/target" "$here/../tools/install" database > "$work/installed"
    fi
    export PKG_CONFIG_PATH=$work/usr/lib/pkgconfig LD_LIBRARY_PATH=$work/usr/lib:$UCSTORE_LIB_DIR
    read -ra flags <<< "$(pkg-config --cflags --libs ucstore_db) -I$here/c -pthread"
    read -ra static <<< "$(pkg-config --cflags ucstore_db) -I$here/c -pthread $work/usr/lib/libucstore_db.a \
        $(sed -n 's/^Libs.private: //p' "$work/usr/lib/pkgconfig/ucstore_db.pc")"
    grep -oE '\<ucstore_db[a-z_]*\(' "$work/usr/include/ucstore_db.h" | tr -d '(' | sort -u > "$work/declared"
    check_names -D "$work/usr/lib/libucstore_db.so"
    check_names -g "$work/usr/lib/libucstore_db.a"
    "$here/check_db_header" > "$work/said" || fail "$(cat "$work/said")"
    python3 "$here/python/tests/draw_cases.py" "$seed" "${cases_drawn}" > "$work/drawn.txt"
}

# A library has the functions of the header and no other names, which would clash with those of programs.
check_names() { # OPTION LIBRARY
    nm "$1" --defined-only "$2" | awk 'NF == 3 && $2 != "A" { sub(/@.*/, "", $3); print $3 }' | sort | diff "$work/declared" - >&2 ||
        fail "$2 has other names than the header"
}

try_rust() {
    cp -r "$here/rust" "$work"
    rm -rf "$work/rust/target"
    (
        cd "$work/rust"
        unset LD_LIBRARY_PATH
        TMPDIR=$work cargo test --offline --quiet -j 2 -p ucstore-db -p ucstore-db-c ${LONG:+--release}
        DOCS_RS=1 RUSTDOCFLAGS=-Dwarnings cargo doc --offline --quiet --no-deps -j 2 -p ucstore-db
        cargo build --offline --quiet -j 2 -p ucstore-db --example words
    )
    run_words
}

# The example of Rust counts words once more each time.
run_words() {
    local times
    printf 'a b a\nc a\n' > "$work/one"
    printf 'b\nc\n' > "$work/other"
    for times in 1 2; do
        "$work/rust/target/debug/examples/words" "$work/words" "$work/one" "$work/other" > "$work/counts"
        expect 'the example of Rust' "$(printf 'a %d\nb %d\nc %d' $((3 * times)) $((2 * times)) $((2 * times)))" \
            "$(cat "$work/counts")"
    done
}

# Compiles a program of bindings/c, with what else it is made of.
compile() { # NAME COMPILER.. -- LIBRARY..
    local name=$1 words=() sources=("$here/c/$1.c")
    shift
    while [ "$1" != -- ]; do words+=("$1"); shift; done
    if [ "$name" = play ]; then sources+=("$here/c/db_store.c"); fi
    "${words[@]}" "${strict[@]}" "${sources[@]}" -x none "${@:2}" -o "$work/$name"
}

# The programs by one compiler, and what they say.
run_programs() { # COMPILER.. -- LIBRARY..
    local name
    for name in db_test db_threads db_cursors db_first db_mixed; do
        compile "$name" "$@"
    done
    rm -rf "$work"/{calls,threads,visits,site}
    mkdir "$work/calls"
    "$work/db_test" "$work/calls"
    "$work/db_threads" "$work/threads"
    "$work/db_cursors" "$cursors_drawn" 1000000 "$seed"
    expect db_first.c '5 visits, 2 before' "$(cd "$work" && ./db_first)"
    expect 'db_first.c, again' '10 visits, 7 before' "$(cd "$work" && ./db_first)"
    expect db_mixed.c '1 visits, 2 before, 2 tags' "$(cd "$work" && ./db_mixed)"
}

# Plays files of cases.
run_cases() { # FILE..
    rm -rf "$room"/*
    FOLDER=$room "$work/play" "$@"
}

try_c() {
    run_programs gcc -std=c99 -O2 -- "${flags[@]}"
    run_programs g++ -O2 -x c++ -- "${static[@]}"
    run_programs clang -std=c99 -O2 -- "${static[@]}"
    compile play g++ -O2 -x c++ -- "${flags[@]}"
    run_cases "$work/drawn.txt"
}

# The library isn't compiled for the sanitizer of threads, which doesn't see its locks. So it looks at C's part alone.
try_sanitizers() {
    local number checked=(-std=c99 -O1 -g -fno-sanitize-recover=all)
    run_programs gcc "${checked[@]}" -fsanitize=address,undefined -- "${static[@]}"
    compile play gcc "${checked[@]}" -fsanitize=address,undefined -- "${static[@]}"
    run_cases "${played[@]}" "$work/drawn.txt"
    compile db_threads clang "${checked[@]}" -fsanitize=thread -- "${flags[@]}"
    echo 'called_from_lib:libucstore_db.so.2' > "$work/passed_over"
    for number in 1 2; do
        TSAN_OPTIONS="suppressions=$work/passed_over" setarch -R "$work/db_threads" "$work/shared_$number"
    done
}

try_valgrind() {
    local checked=(valgrind --quiet --leak-check=full --errors-for-leak-kinds=all --error-exitcode=9 --child-silent-after-fork=yes)
    compile db_test gcc -std=c99 -O1 -g -- "${static[@]}"
    compile db_threads gcc -std=c99 -O1 -g -- "${static[@]}"
    compile db_cursors gcc -std=c99 -O1 -g -- "${static[@]}"
    mkdir "$work/checked"
    "${checked[@]}" "$work/db_test" "$work/checked"
    "${checked[@]}" "$work/db_threads" "$work/checked/threads"
    # Lent keys and values are read until the next move.
    "${checked[@]}" "$work/db_cursors" 10 20000 "$seed"
}

# The module, with the libraries that are tried.
use_python() {
    rm -rf "$work/site"
    mkdir "$work/site"
    cp -r "$here/python/ucstore" "$work/site"
    export PYTHONPATH=$work/site PYTHONDONTWRITEBYTECODE=1 UCSTORE_DB_LIBRARY=$work/usr/lib/libucstore_db.so.2
}

try_python() {
    use_python
    python3 "$here/python/tests/test_db.py" --quiet
    python3 "$here/python/tests/test_transactions.py" --quiet
    TMPDIR=$room python3 "$here/python/tests/test_db_cases.py" "${played[@]}" "$work/drawn.txt"
    rm -rf "$work/visits"
    expect db_first.py '5 visits, 2 before' "$(cd "$work" && python3 "$here/python/db_first.py")"
    expect 'db_first.py, again' '10 visits, 7 before' "$(cd "$work" && python3 "$here/python/db_first.py")"
    check_types
}

# Shards aren't checked: Dask has no types.
check_types() {
    if ! command -v mypy > /dev/null; then
        echo "test_db: there is no mypy: the types of Python aren't checked" >&2
        return
    fi
    MYPYPATH=$work/site mypy --strict --follow-imports=silent --cache-dir "$work/mypy" \
        "$work"/site/ucstore/{__init__,_db*}.py "$here/python/tests/typed_db.py" > "$work/said" || fail "$(cat "$work/said")"
}

try_ended() {
    local times=${LONG:+200}
    use_python
    compile db_count gcc -std=c99 -O2 -- "${flags[@]}"
    python3 "$here/python/tests/end_processes.py" "${times:-20}" "$work/ended_c" "$work/db_count"
    python3 "$here/python/tests/end_processes.py" "${times:-20}" "$work/ended_python" python3 "$here/python/tests/count.py"
    python3 "$here/python/tests/follow_processes.py" "${LONG:+6}4" "$work/followed_c" "$work/db_count"
    python3 "$here/python/tests/follow_processes.py" "${LONG:+6}4" "$work/followed_python" python3 "$here/python/tests/count.py"
    end_example
}

# Runs a program for so many milliseconds at most. Tells whether it was done by then. The shell says of an end that it was one.
run_for() { # MILLISECONDS PROGRAM..
    local process
    # It may end before it opens its files.
    : > "$work/said"
    "${@:2}" > "$work/counts" 2> "$work/said" &
    process=$!
    sleep "$(printf '0.%03d' "$1")"
    kill -KILL "$process" 2> /dev/null || true
    wait "$process" 2> /dev/null
}

# Ends the example again and again, each time later, until it has counted all words of four files. Each is counted once.
end_example() {
    local number tries=0 milliseconds=10
    compile example gcc -std=gnu99 -O2 -- "${flags[@]}"
    for number in 1 2 3 4; do
        awk -v seed="$number" 'BEGIN { srand(seed); for (line = 0; line < 500; line++)
            printf "w%d w%d\tw%d\n", 20 * rand(), 20 * rand(), 20 * rand() }' > "$work/text$number"
    done
    cat "$work"/text? | tr ' \t' '\n\n' | sort | uniq -c | awk '{ print $2, $1 }' | LC_ALL=C sort > "$work/wanted"
    until run_for "$milliseconds" "$work/example" "$work/words_c" "$work"/text?; do
        [ ! -s "$work/said" ] || fail "$(cat "$work/said")"
        tries=$((tries + 1))
        if [ "$milliseconds" -lt 900 ]; then milliseconds=$((milliseconds + 7)); fi
        [ "$tries" -lt 500 ] || fail "the example never ends"
    done
    [ "$tries" -gt 0 ] || fail "the example wasn't ended before it was done"
    LC_ALL=C sort "$work/counts" | diff "$work/wanted" - >&2 || fail "the example of C counts wrongly behind $tries ends"
    echo "the example was ended $tries times"
}

check_needs
if [ "${*-}" = needs ]; then exit; fi
if [ $# -eq 0 ]; then set -- rust c sanitizers valgrind python ended; fi
install_all
for part; do
    declare -F "try_$part" > /dev/null || fail "there is no part $part"
    begun=$SECONDS
    "try_$part"
    echo "test_db: $part passed in $((SECONDS - begun)) s"
done
