# What bench/db, bench/db_bench and bench/ycsb share, which read this by `.`, and have a function `fail` and a temporary folder in
# `folder`. It builds workload.c over each database, checks that each gives back what is written to it, and runs these in turn.
#
# - ours is bindings/rust/ucstore-db by its header for C. OURS names the folder of libucstore_db.a (the shared objects' folder of
#   tools/install), and `none` leaves it out.
# - RocksDB is that without assertions, which ../rocksdb/build.sh makes. LevelDB, LMDB and SQLite are Debian's. What isn't there
#   is left out.
# - Redis, for orientation, is a redis-server that is started here anew for each run. It listens on a Unix socket in the temporary folder
#   alone, keeps nothing in files, and is measured in memory. Its keys have no order, so it has no scans.
#
# PROGRAMS names some of ours, rocksdb, leveldb, lmdb, sqlite and redis alone. TURNS (3) is how often each row is run, and a figure is
# the median of its turns. FOLDERS (a temporary folder) is where databases have their files.

. "$here/../rocksdb/libraries.sh"

stores=$here/../stores
top=$here/../..
turns=${TURNS:-3}
files=${FOLDERS:-$folder}
programs=()
server=

# Ends the server, if there is one. It keeps nothing, so it needs no time for that.
end_server() {
    if [ -z "$server" ]; then return; fi
    kill "$server" 2> /dev/null
    wait "$server" 2> /dev/null
    server=
    unset STORE_SERVER STORE_SOCKET
}

# It stands for the script's own trap, which removes the folder alone.
trap 'end_server; rm -rf "$folder"' EXIT

# The columns of a line of workload.c.
columns=(work threads operations all median 99 99.9 longest memory written)

compile() { # NAME OPTION..
    gcc -std=c99 -D_GNU_SOURCE -O2 -Wall -Wextra -c "$stores/workload.c" -o "$folder/workload.o" || fail "workload.c doesn't build"
    gcc -std=c99 -D_GNU_SOURCE -O2 -Wall -Wextra -c "$stores/$1.c" -o "$folder/$1.o" "${@:2}" || fail "$1.c doesn't build"
}

# Builds a program if its header is there.
build_with() { # NAME HEADER LIBRARY
    if ! has_header "$2"; then
        echo "$(store_name "$1") is left out: $2 isn't there" >&2
        return
    fi
    compile "$1"
    gcc "$folder/workload.o" "$folder/$1.o" -o "$folder/$1" "$3" -lm -lpthread || fail "$1 isn't linked"
    programs+=("$1")
}

build_ours() {
    local ours=${OURS:-$top/bindings/rust/target/release}
    if [ "$ours" = none ]; then return; fi
    [ -f "$ours/libucstore_db.a" ] || fail "there is no $ours/libucstore_db.a: OURS may name its folder"
    compile ours -I "$top/bindings/c"
    gcc "$folder/workload.o" "$folder/ours.o" -o "$folder/ours" "$ours/libucstore_db.a" -lm -lpthread -ldl || fail "ours isn't linked"
    programs+=(ours)
}

build_released() {
    local flags
    if ! has_released; then
        echo "RocksDB is left out: bench/rocksdb/build.sh makes it" >&2
        return
    fi
    read -ra flags < "$rocksdb_folder/link_flags"
    compile rocksdb -I "$rocksdb_folder/include"
    g++ "$folder/workload.o" "$folder/rocksdb.o" -o "$folder/rocksdb" "$rocksdb_folder/librocksdb.a" "${flags[@]}" -lm ||
        fail "rocksdb isn't linked"
    programs+=(rocksdb)
}

build_redis() {
    if ! command -v redis-server > /dev/null; then
        echo "Redis is left out: redis-server isn't there" >&2
        return
    fi
    compile redis
    gcc "$folder/workload.o" "$folder/redis.o" -o "$folder/redis" -lm -lpthread || fail "redis isn't linked"
    programs+=(redis)
}

is_wanted() { # NAME
    [[ " ${PROGRAMS:-ours rocksdb leveldb lmdb sqlite redis} " == *" $1 "* ]]
}

# Builds what is wanted, and what has a case.
build_all() { # CASE..
    if is_wanted ours; then build_ours; fi
    if is_wanted rocksdb; then build_released; fi
    if is_wanted leveldb; then build_with leveldb leveldb/c.h -lleveldb; fi
    if is_wanted lmdb; then build_with lmdb lmdb.h -llmdb; fi
    if is_wanted sqlite; then build_with sqlite sqlite3.h -lsqlite3; fi
    if is_wanted redis && [[ " $* " == *" memory "* ]]; then build_redis; fi
    check_all
}

store_name() { # PROGRAM
    case $1 in
        leveldb) echo LevelDB ;;
        sqlite) echo SQLite ;;
        redis) echo Redis ;;
        *) name_of "$1" ;;
    esac
}

debian_version() { # PACKAGE
    dpkg-query -W -f '${Version}' "$1" 2> /dev/null
}

# A database with its version.
version_of() { # PROGRAM
    case $1 in
        ours) echo "ours $(sed -n 's/^#define UCSTORE_DB_VERSION "\(.*\)"/\1/p' "$top/bindings/c/ucstore_db.h")" ;;
        rocksdb) echo "RocksDB $rocksdb_version $(assertions_of "$folder/rocksdb")" ;;
        leveldb) echo "LevelDB $(debian_version libleveldb-dev)" ;;
        lmdb) echo "LMDB $(debian_version liblmdb-dev)" ;;
        sqlite) echo "SQLite $(debian_version libsqlite3-dev)" ;;
        redis) echo "Redis $(redis-server --version | sed 's/.* v=\([^ ]*\) .*/\1/')" ;;
    esac
}

# What its file here sets.
options_of() { # PROGRAM
    case $1 in
        ours) echo "its own options, counters as its merge operator" ;;
        rocksdb) echo "$rocksdb_options" ;;
        leveldb) echo "memtables of 4 MiB, no compression, a cache of blocks of 8 GiB, a filter of 10 bits a key" ;;
        lmdb) echo "a map of 64 GiB, MDB_WRITEMAP and MDB_NOSYNC unless writes are synced" ;;
        sqlite) echo "a write-ahead log, synchronous OFF (FULL if writes are synced), a cache of 1 GB a thread, a table WITHOUT ROWID" ;;
        redis) echo "a Unix socket and a connection for each thread, no snapshots, no append-only file" ;;
    esac
}

# The databases with their options.
say_stores() {
    local program
    for program in "${programs[@]}"; do echo "$(version_of "$program"): $(options_of "$program")"; done
}

# Writes what was kept, and beside which databases it was measured.
write_stores() { # BENCHMARK
    local program versions='' options=''
    for program in "${programs[@]}"; do
        if [ "$program" = ours ]; then continue; fi
        versions+="${versions:+; }$(version_of "$program")"
        options+="${options:+; }$(store_name "$program"): $(options_of "$program")"
    done
    write_results "$1" "$versions" "$options"
}

# Whether a program is measured in memory, or with files.
is_measured() { # PROGRAM FOLDER|memory
    case $1 in
        ours | rocksdb) ;;
        redis) [ "$2" = memory ] ;;
        *) [ "$2" != memory ] ;;
    esac
}

# Starts a server without rows, and waits until it listens.
start_redis() {
    local place=$folder/server
    rm -rf "$place"
    mkdir "$place" || fail "no folder for the server"
    : > "$place/log"
    redis-server --port 0 --unixsocket "$place/socket" --dir "$place" --save '' --appendonly no > "$place/log" 2>&1 &
    server=$!
    export STORE_SERVER=$server STORE_SOCKET=$place/socket
    until grep -q 'ready to accept connections' "$place/log"; do
        kill -0 "$server" 2> /dev/null || fail "redis-server doesn't start: $(tail -n 1 "$place/log")"
        sleep 0.02
    done
}

# Runs a program once with new files, and writes its lines to $folder/lines.
run_program() { # PROGRAM FOLDER|memory SYNC THREADS KEYS VALUE WORK..
    local where=memory
    if [ "$2" != memory ]; then
        where=$(mktemp -d -p "$files") || fail "no folder in $files"
    fi
    if [ "$1" = redis ]; then start_redis; fi
    "$folder/$1" "$where" "${@:3}" > "$folder/lines" || fail "$1 ${*:3} fails"
    end_server
    if [ "$where" != memory ]; then rm -rf "$where"; fi
}

# Checks that each program gives back what is written to it.
check_all() {
    local program where
    for program in "${programs[@]}"; do
        for where in memory files; do
            if is_measured "$program" "$where"; then run_program "$program" "$where" unsynced 1 1000 100 check; fi
        done
    done
}

# Runs works of a case over the programs in turn, and keeps the lines.
run_case() { # CASE FOLDER|memory SYNC THREADS KEYS VALUE WORK..
    local turn program
    part "$1"
    for turn in $(seq "$turns"); do
        for program in "${programs[@]}"; do
            if ! is_measured "$program" "$2"; then continue; fi
            run_program "$program" "${@:2}"
            sed "s/^/$1 $program /" "$folder/lines" >> "$folder/rows"
        done
    done
}

# The median over turns of a column, of a work of a case.
figure() { # CASE PROGRAM WORK THREADS COLUMN
    local column
    for column in "${!columns[@]}"; do
        if [ "${columns[column]}" = "$5" ]; then break; fi
    done
    awk -v case="$1" -v program="$2" -v work="$3" -v threads="$4" -v column=$((column + 3)) \
        '$1 == case && $2 == program && $3 == work && $4 == threads { print $column }' "$folder/rows" | sort -n |
        awk '{ at[NR] = $1 } END { if (NR) printf "%.0f\n", (at[int((NR + 1) / 2)] + at[int(NR / 2) + 1]) / 2 }'
}

# Thousands of operations a second.
rate() { # CASE PROGRAM WORK THREADS
    awk -v count="$(figure "$1" "$2" "$3" "$4" operations)" -v time="$(figure "$1" "$2" "$3" "$4" all)" \
        'BEGIN { if (count != "" && time > 0) printf "%.1f\n", count * 1e6 / time }'
}

# Keeps and prints all figures of a work of a case.
keep_work() { # CASE WORK THREADS
    local program value share
    for program in "${programs[@]}"; do
        value=$(rate "$1" "$program" "$2" "$3")
        if [ -z "$value" ]; then continue; fi
        keep "$2" "$1, $3 threads" "$(store_name "$program" | sed 's/^ours$/ours/')" k/s "$value"
        printf '%-24s %-18s %2s %-8s %10s' "$1" "$2" "$3" "$(store_name "$program")" "$value"
        for share in median 99 99.9 longest; do
            value=$(figure "$1" "$program" "$2" "$3" "$share")
            keep "$2" "$1, $3 threads, $share" "$(store_name "$program")" ns "$value"
            printf ' %10s' "$value"
        done
        for share in memory written; do
            value=$(figure "$1" "$program" "$2" "$3" "$share")
            keep_mib "$2" "$1, $3 threads, $share" "$(store_name "$program")" "$value"
            printf ' %8s' $((value / 1024))
        done
        printf '\n'
    done
}

print_head() {
    printf '%-24s %-18s %2s %-8s %10s %10s %10s %10s %10s %8s %8s\n' case work '' '' 'k/s' 'median ns' 99 99.9 longest MiB 'MiB written'
}
