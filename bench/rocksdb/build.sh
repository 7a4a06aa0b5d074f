#!/bin/bash
# Makes a RocksDB without assertions, once, and prints the folder that it is in.
#
#     bench/rocksdb/build.sh
#
# Debian's librocksdb has its assertions on, which makes it two to three times slower than what a user would run. This takes the
# same source from Debian's archive, with Debian's patches, and makes the static library of a release (DEBUG_LEVEL=0, -O2) for any
# processor of the kind (PORTABLE=1), as Debian's and ours are. Compression, jemalloc and the like are left out: nothing here uses them.
#
# It takes about 20 to 30 minutes of a processor, by JOBS at once (2), beside other work (nice 19); 21 MB are fetched, and 200 MB of disk
# used meanwhile, of which 30 MB stay. It needs apt-get, dpkg-dev, make and g++ and changes nothing outside of its folder: the
# lists of sources that apt-get reads are its own and temporary ones. Where the library is there already it only prints where.
#
# The folder is rocksdb-7.8.3 in UCSTORE_BENCH, or else in ~/.cache/ucstore-bench (or that of XDG_CACHE_HOME); it has librocksdb.a,
# include and link_flags.
set -u -o pipefail

here=$(cd "$(dirname "${BASH_SOURCE[0]}")" && pwd) || exit 1
. "$here/libraries.sh"
folder=

fail() {
    echo "build.sh: $*" >&2
    exit 1
}

check_tools() {
    local tool missing=
    for tool in apt-get dpkg-source make g++; do
        command -v "$tool" > /dev/null || missing+=" $tool"
    done
    [ -z "$missing" ] || fail "missing:$missing (Debian: apt-get install dpkg-dev make g++)"
    [ -f /etc/apt/sources.list.d/debian.sources ] || fail "no /etc/apt/sources.list.d/debian.sources, as Debian 12 has it"
}

# Runs apt-get on lists of its own, of sources in place of packages. It fetches as who called it, since no other user can write there.
apt() {
    apt-get -q -o Dir::Etc::SourceList=/dev/null -o Dir::Etc::SourceParts="$folder/parts" -o Dir::State::Lists="$folder/lists" \
        -o Dir::Cache="$folder/cache" -o APT::Sandbox::User= "$@"
}

fetch() {
    mkdir -p "$folder/parts" "$folder/lists/partial" "$folder/cache/archives/partial" || fail "no folders"
    sed 's/^Types: deb$/Types: deb-src/' /etc/apt/sources.list.d/debian.sources > "$folder/parts/source.sources" || fail "no list"
    apt update || fail "no list of sources"
    (cd "$folder" && apt source rocksdb) || fail "no source"
    [ -d "$folder/rocksdb-$rocksdb_version" ] || fail "the source of another version than $rocksdb_version: $(ls "$folder")"
}

make_library() {
    local left_out
    for left_out in GFLAGS SNAPPY ZLIB BZIP LZ4 ZSTD NUMA TBB JEMALLOC TCMALLOC MEMKIND BENCHMARK; do
        export "ROCKSDB_DISABLE_$left_out=1"
    done
    mkdir "$folder/tests" || fail "no folder"
    ROCKSDB_USE_IO_URING=0 TMPD=$folder/tests nice -n 19 make -C "$folder/rocksdb-$rocksdb_version" -j "${JOBS:-2}" \
        DEBUG_LEVEL=0 PORTABLE=1 DISABLE_WARNING_AS_ERROR=1 EXTRA_CXXFLAGS=-g0 static_lib || fail "the library isn't made"
}

# Puts what users link with where they look for it, in one step, so that a broken call leaves nothing there.
put() {
    local made=$folder/rocksdb-$rocksdb_version put=$folder/put
    mkdir "$put" && cp "$made/librocksdb.a" "$put" && cp -R "$made/include" "$put" || fail "no copy"
    sed -n 's/^PLATFORM_LDFLAGS=//p' "$made/make_config.mk" > "$put/link_flags" || fail "no flags"
    [ -s "$put/link_flags" ] || fail "make_config.mk names no flags"
    mv "$put" "$rocksdb_folder" || fail "$rocksdb_folder isn't made"
}

if ! has_released; then
    check_tools
    mkdir -p "$(dirname "$rocksdb_folder")" || fail "no folder for $rocksdb_folder"
    folder=$(mktemp -d -p "$(dirname "$rocksdb_folder")") || fail "no temporary folder"
    trap 'rm -rf "$folder"' EXIT
    { fetch && make_library && put; } >&2
fi
echo "$rocksdb_folder"
