# What the scripts share that measure against RocksDB. They read it by `.`, and have a function `fail` and, before they build, a
# temporary folder in `folder`. They keep their figures by ../results.sh.
#
# A baseline is built twice: against RocksDB without assertions, which build.sh makes and whose figures count, and against Debian's
# librocksdb, which has its assertions on and stands in one column beside it. What isn't there is left out. FILTER gives the tables of
# both a Bloom filter of so many bits a key, as one sets where lookups meet many runs; without it they have none, as ours have none.

. "$here/../results.sh"

export FILTER=${FILTER:-}

rocksdb_version=7.8.3
rocksdb_folder=${UCSTORE_BENCH:-${XDG_CACHE_HOME:-$HOME/.cache}/ucstore-bench}/rocksdb-$rocksdb_version

# What ../rocksdb_store.h sets, where a script doesn't say otherwise.
rocksdb_options="universal compaction (trigger 4, size ratio 1, amplification 200 percent), memtables of 4 MiB, an associative merge \
operator, memory environment, no compression, a cache of blocks of 1 GiB${FILTER:+, a filter of $FILTER bits a key}, \
max_background_jobs $(($(nproc) + 1)), max_subcompactions $(nproc)"

has_released() {
    [ -f "$rocksdb_folder/librocksdb.a" ] && [ -f "$rocksdb_folder/link_flags" ]
}

has_header() { # HEADER
    echo "#include <$1>" | g++ -std=c++17 -fsyntax-only -x c++ - 2> /dev/null
}

# Builds a program against each library that is there: $folder/rocksdb and $folder/debian. `rocksdbs` has the names of those.
rocksdbs=()
build_rocksdb() { # SOURCE
    local flags
    if has_released; then
        read -ra flags < "$rocksdb_folder/link_flags"
        g++ -O2 -std=c++17 -DNDEBUG -fno-rtti -I "$rocksdb_folder/include" -o "$folder/rocksdb" "$1" \
            "$rocksdb_folder/librocksdb.a" "${flags[@]}" || fail "$1 doesn't build"
        rocksdbs+=(rocksdb)
    else
        echo "RocksDB without assertions is left out: bench/rocksdb/build.sh makes it" >&2
    fi
    if has_header rocksdb/db.h; then
        g++ -O2 -std=c++17 -o "$folder/debian" "$1" -lrocksdb || fail "$1 doesn't build"
        rocksdbs+=(debian)
    else
        echo "Debian's RocksDB is left out: its headers (librocksdb-dev) or g++ aren't there" >&2
    fi
}

has_rocksdb() { # rocksdb|debian
    [[ " ${rocksdbs[*]} " == *" $1 "* ]]
}

# What a program is called in tables and results.
name_of() { # PROGRAM
    case $1 in
        rocksdb) echo RocksDB ;;
        debian) echo "Debian's" ;;
        lmdb) echo LMDB ;;
        *) echo "$1" ;;
    esac
}

processor() {
    sed -n 's/^model name[^:]*: //p' /proc/cpuinfo | head -n 1
}

# The day, the machine, and what else it does.
say_machine() {
    echo "$(date +%F), $(processor), $(nproc) processors, load $(cut -d ' ' -f 1-3 /proc/loadavg)"
}

# Whether a program or a library can end by an assertion.
assertions_of() { # FILE
    if [ -n "$(nm -D "$1" | grep ' __assert_fail')" ]; then echo "with assertions"; else echo "without assertions"; fi
}

# Which libraries there are.
libraries() {
    if has_rocksdb rocksdb; then echo "RocksDB $rocksdb_version $(assertions_of "$folder/rocksdb")"; fi
    if has_rocksdb debian; then
        echo "Debian's $(dpkg-query -W -f '${Version}' librocksdb-dev) $(assertions_of "$(g++ -print-file-name=librocksdb.so)")"
    fi
}

say_rocksdb() {
    if [ "${#rocksdbs[@]}" -eq 0 ]; then return; fi
    libraries | paste -s -d ';' | sed 's/;/; /'
    echo "  by $rocksdb_options"
}

# Writes what was kept, and beside which libraries it was measured.
write_results_beside() { # BENCHMARK
    local libraries
    libraries=$(libraries | paste -s -d ';')
    write_results "$1" "$libraries" "${libraries:+$rocksdb_options}"
}
