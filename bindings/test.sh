#!/bin/bash
# Installs the library into a temporary folder, as a packager would, and tries it from C, C++, Rust and Python:
#
#     bindings/test.sh [PART..]
#
# The parts are pages, c, sanitizers, valgrind, refused, threads, rust and python, or all where none is named. They need cc and c++,
# binutils, pkg-config, valgrind, cargo, and a python3 with pip, setuptools and wheel; no network. CC, CXX and PYTHON name
# others; threads needs clang for one of its tries, and leaves that out without it. `needs` alone says what is missing, before anything is
# built.
#
# Each language runs its examples, the cases of bindings/cases, a million puts in a row, and drawn calls beside a plain
# dictionary: OPERATIONS (50000) for each of the four operators in C. `refused` refuses each allocation of CALLS (1000) drawn
# calls, and tries what promises.c counts. SEED (1) is the seed of what C draws, and of cases of the operator `mixed`: 500, with some 2,300
# lists of operands, or with LONG=1 eight times 3,000, with more than 100,000.
set -euo pipefail
here=$(cd "$(dirname "${BASH_SOURCE[0]}")" && pwd)
work=$(mktemp -d)
trap 'rm -rf "$work"' EXIT
# cargo is often where rustup puts it, and in no PATH but that of a login shell.
export HOME=${HOME:-$(getent passwd "$(id -u)" | cut -d: -f6)}
export PATH=$PATH:${CARGO_HOME:-$HOME/.cargo}/bin
operations=${OPERATIONS:-50000}
calls=${CALLS:-1000}
seed=${SEED:-1}
files_drawn=${LONG:+8}
cases_drawn=${LONG:+3000}
read -ra cc <<< "${CC:-cc}"
read -ra cxx <<< "${CXX:-c++}"
strict=(-Wall -Wextra -Werror -pedantic)
sanitizers=(-O1 -g -fsanitize=address,undefined -fno-sanitize-recover=all)
wrapped=-Wl,--wrap=malloc,--wrap=realloc,--wrap=free

fail() {
    echo "bindings: $*" >&2
    exit 1
}

# Says which tools are missing, all at once.
check_needs() {
    local tool missing=()
    for tool in "${cc[0]}" "${cxx[0]}" ld objcopy ar nm pkg-config valgrind cargo; do
        command -v "$tool" > /dev/null || missing+=("$tool")
    done
    (find_python) > /dev/null 2>&1 || missing+=("a python3 with pip, setuptools and wheel")
    [ ${#missing[@]} -eq 0 ] || fail "missing: $(printf '%s; ' "${missing[@]}" | sed 's/; $//')"
}

install_all() {
    # What cargo builds is the same both times.
    PREFIX=/usr DESTDIR="$work/root" CARGO_TARGET_DIR="$work/target" UCSTORE_TOOL=no "$here/../tools/install" > "$work/staged"
    PREFIX="$work/usr" CARGO_TARGET_DIR="$work/target" UCSTORE_TOOL=no "$here/../tools/install" > "$work/installed"
    [ "$(wc -l < "$work/staged")" -eq "$(wc -l < "$work/installed")" ] || fail "DESTDIR changes what is installed"
    export PKG_CONFIG_PATH=$work/usr/lib/pkgconfig LD_LIBRARY_PATH=$work/usr/lib
    read -ra flags <<< "$(pkg-config --cflags --libs ucstore)"
    read -ra static <<< "$(pkg-config --cflags ucstore) $work/usr/lib/libucstore.a"
    # The functions of the header's own are in no library.
    sed '/^static inline/,/^}/d' "$work/usr/include/ucstore.h" | grep -oE '\<ucstore_[a-z_]+\(' | tr -d '(' | sort -u > "$work/declared"
    check_versions
    check_names -D "$work/usr/lib/libucstore.so"
    check_names -g "$work/usr/lib/libucstore.a"
    draw_cases
}

# Files of cases of the operator `mixed`, as long as the player for C has memory for.
draw_cases() {
    local place
    mkdir "$work/drawn"
    for ((place = 0; place < ${files_drawn:-1}; place++)); do
        python3 "$here/python/tests/draw_cases.py" $((seed + place)) "${cases_drawn:-500}" mixed > "$work/drawn/drawn-$place.txt"
    done
}

# All packages have the version of the header.
check_versions() {
    local version
    version=$(pkg-config --modversion ucstore)
    grep -qxF "#define UCSTORE_VERSION \"$version\"" "$work/usr/include/ucstore.h" || fail "the header hasn't version $version"
    grep -qxF "version = \"$version\"" "$here/rust/Cargo.toml" || fail "the crate hasn't version $version"
    grep -qxF "version = \"$version\"" "$here/python/pyproject.toml" || fail "the Python package hasn't version $version"
}

# A library has the functions of the header and no other names, which would clash with those of programs.
check_names() { # OPTION LIBRARY
    nm "$1" --defined-only "$2" | awk 'NF == 3 && $2 != "A" { sub(/@.*/, "", $3); print $3 }' | sort | diff "$work/declared" - >&2 ||
        fail "$2 has other names than the header"
}

# Compiles a file of bindings/c as C99, and links the shared object.
compile_c() { # NAME [OPTION..]
    "${cc[@]}" -std=c99 -O2 "${strict[@]}" "$here/c/$1.c" "${flags[@]}" -o "$work/$1" "${@:2}"
}

# Compiles it as C++, and links the archive.
compile_cpp() { # NAME
    "${cxx[@]}" -O2 "${strict[@]}" -x c++ "$here/c/$1.c" -x none "${static[@]}" "${@:2}" -o "$work/$1_cpp"
}

expect() { # NAME WANTED FOUND
    [ "$2" = "$3" ] || fail "$1 says '$3' instead of '$2'"
}

first='5 visits, 2 before'

# The program counts words, is cut off in the middle of a record, and goes on. So it does behind zeros.
run_logged() {
    local log=$work/words.log
    expect logged.c $'a 3\nb 1\nc 1' "$(printf 'a b a\nc a\n' | "$work/logged" "$log")"
    truncate -s -1 "$log"
    expect 'logged.c, torn' $'a 2\nb 3' "$(echo 'b b' | "$work/logged" "$log")"
    truncate -s +100 "$log"
    expect 'logged.c, behind zeros' $'a 3\nb 3' "$(echo a | "$work/logged" "$log")"
    expect 'logged.c, again' $'a 3\nb 3' "$("$work/logged" "$log" < /dev/null)"
}

# A long log stays whole, and goes on at its end.
run_long_logged() {
    local log=$work/long.log size
    python3 "$here/c/long_log.py" 65 > "$log"
    size=$(stat -c %s "$log")
    [ "$size" -eq $((65 << 20)) ] || fail "the long log has $size bytes"
    expect 'logged.c, long log' 'a 65' "$("$work/logged" "$log" < /dev/null)"
    expect 'logged.c, long log behind a read' "$size" "$(stat -c %s "$log")"
    expect 'logged.c, long log and a word' $'a 66\nb 1' "$(echo a b | "$work/logged" "$log")"
    [ "$(stat -c %s "$log")" -gt "$size" ] || fail "logged.c doesn't add to a long log"
    expect 'logged.c, long log again' $'a 66\nb 1' "$("$work/logged" "$log" < /dev/null)"
    rm "$log"
}

# Formats the manual, where there is groff, without a word of fault.
try_manual() {
    if ! command -v groff > /dev/null; then return; fi
    groff -man -ww -Tutf8 "$work/usr/share/man/man1/ucstore.1" > "$work/page" 2> "$work/said" || fail "the manual has faults"
    [ ! -s "$work/said" ] || fail "the manual has faults: $(head -3 "$work/said")"
}

# The code of README.md's section stands in the first programs, which the other parts and test_db.sh run. What the shell runs
# comes before.
try_pages() {
    local line count=0
    while IFS= read -r line; do
        grep -qF -- "$line" "$here"/c/{db_,}first.c "$here/rust/ucstore/examples/first.rs" "$here/python/db_first.py" ||
            fail "README.md has a line that no first program has: $line"
        count=$((count + 1))
    done < <(awk '/^## / { inside = 0 } /here is Python/ || /^Durable in C/ { inside = 1 } inside && sub(/^    +/, "")' \
        "$here/../README.md")
    [ "$count" -gt 0 ] || fail "README.md has no code from C, Rust and Python"
}

try_c() {
    local name drawn
    for name in first logged worked operands test play million; do
        compile_c "$name"
        compile_cpp "$name"
    done
    expect first.c "$first" "$("$work/first")"
    expect 'first.c, as C++' "$first" "$("$work/first_cpp")"
    run_logged
    run_long_logged
    "$work/worked"
    "$work/worked_cpp"
    "$work/operands"
    "$work/operands_cpp"
    "$work/play" "$here"/cases/*.txt
    "$work/play_cpp" "$here"/cases/*.txt
    for drawn in "$work"/drawn/*.txt; do
        "$work/play" "$drawn"
        "$work/play_cpp" "$drawn"
    done
    "$work/million"
    "$work/test" "$operations" "$seed"
    "$work/test_cpp" $((operations / 10)) $((seed + 1))
    try_manual
}

try_sanitizers() {
    local name
    for name in worked operands test play; do
        "${cc[@]}" -std=c99 "${strict[@]}" "${sanitizers[@]}" "$here/c/$name.c" "${static[@]}" -o "$work/${name}_san"
    done
    "$work/worked_san"
    "$work/operands_san"
    "$work/test_san" "$operations" $((seed + 2))
    "$work/play_san" "$here"/cases/*.txt
}

try_valgrind() {
    local checked=(valgrind --quiet --leak-check=full --errors-for-leak-kinds=all --error-exitcode=9)
    compile_c worked
    compile_c test
    compile_c play
    "${checked[@]}" "$work/worked"
    "${checked[@]}" "$work/test" $((operations / 50)) "$seed"
    "${checked[@]}" "$work/play" "$here"/cases/{merges,partial,prepared,reopening,snapshots,unchecked}.txt
}

try_refused() {
    compile_cpp promises "$wrapped"
    "$work/promises_cpp"
    "${cc[@]}" -std=c99 "${strict[@]}" "${sanitizers[@]}" "$here/c/promises.c" "${static[@]}" "$wrapped" -o "$work/promises_san"
    "$work/promises_san"
    compile_cpp refused "$wrapped"
    "$work/refused_cpp" "$calls" "$seed"
    "${cc[@]}" -std=c99 "${strict[@]}" "${sanitizers[@]}" "$here/c/refused.c" "${static[@]}" "$wrapped" -o "$work/refused_san"
    "$work/refused_san" $((calls / 4)) $((seed + 1))
}

# Threads read, write and compact at once: as they are, under helgrind, and under clang's sanitizer of threads, if clang is there. The
# library isn't compiled for that, which doesn't see how it counts shares: so it looks at C's part alone.
try_threads() {
    compile_c threads -pthread
    "$work/threads"
    valgrind --quiet --tool=helgrind --error-exitcode=9 "$work/threads"
    command -v clang > /dev/null || return 0
    clang -std=c99 -O1 -g -fsanitize=thread "$here/c/threads.c" "${flags[@]}" -pthread -o "$work/threads_san"
    echo 'called_from_lib:libucstore.so.2' > "$work/passed_over"
    TSAN_OPTIONS="suppressions=$work/passed_over" setarch -R "$work/threads_san"
}

# The crate ucstore-sys declares the functions of the header, and its statuses.
check_declarations() {
    local crate=$here/rust/ucstore-sys/src/lib.rs
    grep -oE 'pub fn ucstore_[a-z_]+' "$crate" | cut -d ' ' -f 3 | sort | diff "$work/declared" - >&2 ||
        fail "ucstore-sys has other functions than the header"
    sed -n '/^enum ucstore_status/,/^}/s/.*\(UCSTORE_[A-Z_]*\) = \([0-9]*\).*/\1 \2/p' "$work/usr/include/ucstore.h" > "$work/statuses"
    sed -n 's/^pub const \(UCSTORE_[A-Z_]*\): i32 = \([0-9]*\);/\1 \2/p' "$crate" | diff "$work/statuses" - >&2 ||
        fail "ucstore-sys has other statuses than the header"
}

try_rust() {
    check_declarations
    cp -r "$here/rust" "$here/cases" "$work"
    cp "$work"/drawn/*.txt "$work/cases"
    rm -rf "$work/rust/target"
    (cd "$work/rust" && cargo test --offline --quiet -j 1 -p ucstore)
    expect first.rs "$first" "$(cd "$work/rust" && cargo run --offline --quiet -j 1 -p ucstore --example first)"
    expect 'first.rs, with UCSTORE_LIB_DIR' "$first" "$(cd "$work/rust" &&
        PKG_CONFIG=false UCSTORE_LIB_DIR="$work/usr/lib" cargo run --offline --quiet -j 1 -p ucstore --example first)"
    (cd "$work/rust" && PKG_CONFIG=false DOCS_RS=1 RUSTDOCFLAGS=-Dwarnings cargo doc --offline --quiet --no-deps -j 1 -p ucstore) ||
        fail "the crate's pages need the library"
}

# A Python that can build what pip installs without a network.
find_python() {
    local python
    for python in ${PYTHON:-python3 /usr/bin/python3}; do
        if "$python" -c 'import setuptools, wheel, pip' 2> /dev/null; then
            echo "$python"
            return
        fi
    done
    fail "no python3 has pip, setuptools and wheel: PYTHON may name one"
}

try_python() {
    local python library tests drawn
    python=$(find_python)
    cp -r "$here/python" "$work/python"
    (cd "$work/python" && "$python" -m pip --quiet --disable-pip-version-check install --no-index --no-build-isolation \
        --no-warn-script-location --root-user-action ignore --target "$work/site" .)
    export PYTHONPATH=$work/site PYTHONDONTWRITEBYTECODE=1
    # Beside the module's source it would be what is imported.
    cp "$here/python/first.py" "$work/first.py"
    expect first.py "$first" "$("$python" "$work/first.py")"
    library=$work/usr/lib/libucstore.so.2
    expect 'first.py, with UCSTORE_LIBRARY' "$first" \
        "$(env -u LD_LIBRARY_PATH UCSTORE_LIBRARY="$library" "$python" "$work/first.py")"
    cp "$library" "$(dirname "$("$python" -c 'import ucstore; print(ucstore.__file__)')")"
    expect 'first.py, beside its library' "$first" "$(env -u LD_LIBRARY_PATH "$python" "$work/first.py")"
    drawn=$(printf '%s:' "$work"/drawn/*.txt)
    for tests in test_ucstore test_mixed test_cases; do
        (cd "$work" && UCSTORE_DRAWN_CASES=$drawn "$python" "$here/python/tests/$tests.py" --quiet)
    done
}

check_needs
if [ "${*-}" = needs ]; then exit; fi
if [ $# -eq 0 ]; then set -- pages c sanitizers valgrind refused threads rust python; fi
install_all
for part; do
    declare -F "try_$part" > /dev/null || fail "there is no part $part"
    "try_$part"
    echo "bindings: $part passed"
done
