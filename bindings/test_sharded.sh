#!/bin/bash
# Tries a store over shards on a scheduler and four workers of Dask, as processes on the loopback address:
#
#     bindings/test_sharded.sh [SEED]
#
# SEED (1) is that of what is drawn. 50,000 writes (WRITES) go to shards by hash, and as many to shards by split points, each beside
# one store. Thirty workers (KILLS) are killed meanwhile by signal 9, between batches and within them. So are writers, the scheduler,
# and a worker of examples/sharded.py. Readers in other processes and in tasks read meanwhile (test_readers.py). Workers are stopped for
# five seconds and continued, a disk is full, a folder may only be read, a byte of each file is damaged (test_faults.py). The full disk
# needs a user who may mount one. A scheduler and workers use TLS, and refuse others (test_tls.py), which needs openssl.
#
# It needs a python3 with distributed (Debian's python3-distributed): PYTHON may name one. UCSTORE_LIBRARY and UCSTORE_DB_LIBRARY may
# name the shared objects; else tools/install puts them into a temporary folder. It takes four minutes.
set -euo pipefail
here=$(cd "$(dirname "${BASH_SOURCE[0]}")" && pwd)
work=$(mktemp -d)
trap 'rm -rf "$work"' EXIT
export SEED=${1:-1}

fail() {
    echo "test_sharded: $*" >&2
    exit 1
}

find_python() {
    local python
    for python in ${PYTHON:-python3 /usr/bin/python3}; do
        if "$python" -c 'import distributed' 2> /dev/null; then
            echo "$python"
            return
        fi
    done
    fail "no python3 has distributed: PYTHON may name one"
}

# Python's own warnings aren't of this project: Debian's Dask is older than its tornado.
run() {
    timeout --kill-after 10 280 "$python" -W ignore::DeprecationWarning "$@"
}

python=$(find_python)
if [ -z "${UCSTORE_LIBRARY:-}" ] || [ -z "${UCSTORE_DB_LIBRARY:-}" ]; then
    PREFIX="$work/usr" UCSTORE_TOOL=no "$here/../tools/install" > "$work/installed"
    export UCSTORE_LIBRARY=$work/usr/lib/libucstore.so.2 UCSTORE_DB_LIBRARY=$work/usr/lib/libucstore_db.so.2
    [ -e "$UCSTORE_DB_LIBRARY" ] || fail "the database isn't installed: it needs cargo"
fi
export PYTHONPATH=$here/python PYTHONDONTWRITEBYTECODE=1 TMPDIR=$work
cd "$work"
run "$here/python/tests_sharded/test_shard.py" --quiet
for name in tls cluster readers faults; do
    run "$here/python/tests_sharded/test_$name.py" --quiet 2> "$work/said" || { cat "$work/said" >&2; fail "seed $SEED"; }
done
printf 'a b a\nc a b\n%.0s' {1..3000} | run "$here/../examples/sharded.py" > "$work/counts" 2> "$work/said" ||
    { cat "$work/said" >&2; fail "the example fails"; }
printf 'a 9000\nb 6000\nc 3000\n' | diff - "$work/counts" >&2 || fail "the example counts wrongly"
echo "test_sharded: passed, seed $SEED"
