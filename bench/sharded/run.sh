#!/bin/bash
# Measures a store over shards by 1, 2 and 4 workers of Dask, beside one store in one process without Dask.
#
#     bench/sharded/run.sh
#
# Batches of 1,000, 10,000 and 100,000 writes are written, as many as BATCHES says for each (200 40 10), and as many batches of as many
# keys are looked up at a snapshot behind them (sharded.py). Each batch is on the device of the logs, which lie in FOLDER (a temporary
# one), before it is acknowledged. Both compact by themselves. The scheduler and the workers are processes on the loopback address,
# and new ones for each run. A worker has one shard. Batches and keys are made before any clock starts.
#
# It needs a python3 with distributed (Debian's python3-distributed): PYTHON may name one. OURS is the shared object, beside which that of
# the database is, or tools/install makes both. Each program runs in turn, TURNS times (3), and all must come to the same answers. Each figure is the median of its
# turns. RESULTS names a file for the figures as JSON, of which plot.py makes batches.svg. It takes six minutes.
set -u -o pipefail

here=$(cd "$(dirname "${BASH_SOURCE[0]}")" && pwd) || exit 1
turns=${TURNS:-3}
read -ra counts <<< "${BATCHES:-200 40 10}"
sizes=(1000 10000 100000)
folder=$(mktemp -d) || exit 1
logs=$(mktemp -d -p "${FOLDER:-$folder}") || exit 1
started=()

fail() {
    echo "run.sh: $*" >&2
    exit 1
}

# Ends the scheduler and the workers, by their ids. A worker that is only asked to end may wait for its scheduler.
end_dask() {
    if [ ${#started[@]} -gt 0 ]; then
        kill -KILL "${started[@]}" 2> /dev/null
        wait "${started[@]}" 2> /dev/null
    fi
    started=()
}

trap 'end_dask; rm -rf "$folder" "$logs"' EXIT
# shellcheck source=bench/results.sh
. "$here/../results.sh"

find_python() {
    local python
    for python in ${PYTHON:-python3 /usr/bin/python3}; do
        if "$python" -c 'import distributed' 2> /dev/null; then
            echo "$python"
            return
        fi
    done
    fail "no python3 has distributed: PYTHON may name one"
}

find_library() {
    if [ -z "${OURS:-}" ]; then
        PREFIX="$folder/usr" "$here/../../tools/install" > "$folder/installed" || exit 1
        OURS=$folder/usr/lib/libucstore.so.2
    fi
    UCSTORE_LIBRARY=$(realpath -e "$OURS") || exit 2
    UCSTORE_DB_LIBRARY=$(realpath -e "$(dirname "$OURS")/libucstore_db.so.2") || exit 2
    export UCSTORE_LIBRARY UCSTORE_DB_LIBRARY PYTHONPATH=$here/../../bindings/python PYTHONDONTWRITEBYTECODE=1
    # As SHARDS.md advises for one machine.
    export DASK_DISTRIBUTED__COMM__COMPRESSION=None
}

dask() { # scheduler|worker OPTIONS: begins a process
    "$python" -m "distributed.cli.dask_$1" "${@:2}" --dashboard-address 127.0.0.1:0 >> "$folder/dask" 2>&1 &
    started+=($!)
}

# Starts a scheduler and so many workers, and waits until they are there.
start_dask() { # WORKERS
    local worker
    rm -f "$folder/scheduler"
    dask scheduler --host 127.0.0.1 --port 0 --scheduler-file "$folder/scheduler"
    for worker in $(seq "$1"); do
        dask worker --scheduler-file "$folder/scheduler" --host 127.0.0.1 --nthreads 1 --no-nanny --memory-limit 0 \
            --name "$worker" --local-directory "$folder/local"
    done
    address=$("$python" -c '
import sys, time, distributed
while True:
    try:
        client = distributed.Client(scheduler_file=sys.argv[1])
        break
    except (OSError, ValueError):
        time.sleep(0.1)
client.wait_for_workers(int(sys.argv[2]), timeout=60)
print(client.scheduler.address)' "$folder/scheduler" "$1" 2>> "$folder/dask") || fail "the workers don't come"
}

# Measures once, and keeps the line.
run_once() { # WORKERS SIZE COUNT: no worker is one store without Dask
    rm -rf "${logs:?}"/*
    address=
    if [ "$1" -gt 0 ]; then start_dask "$1"; fi
    # shellcheck disable=SC2086 # No address is no word.
    "$python" "$here/sharded.py" "$logs" "$2" "$3" $address >> "$folder/row.$1_$2" 2>> "$folder/dask" ||
        { tail -5 "$folder/dask" >&2; fail "$1 workers fail in batches of $2"; }
    end_dask
}

# The median over a row's turns of a column.
median() { # WORKERS SIZE COLUMN
    cut -d ' ' -f "$3" "$folder/row.$1_$2" | sort -n |
        awk '{ at[NR] = $1 } END { printf "%.0f\n", (at[int((NR + 1) / 2)] + at[int(NR / 2) + 1]) / 2 }'
}

# How many thousand writes or lookups there are in a second.
rate() { # WORKERS SIZE COUNT COLUMN
    awk -v time="$(median "$1" "$2" "$4")" -v all=$(($2 * $3)) 'BEGIN { printf "%.1f", all / time * 1e6 }'
}

over() { # ONE OTHER
    awk -v one="$1" -v other="$2" 'BEGIN { printf "%.2f", one / other }'
}

with_commas() { # NUMBER
    awk -v rest="$1" 'BEGIN {
        while (length(rest) > 3) { text = "," substr(rest, length(rest) - 2) text; rest = substr(rest, 1, length(rest) - 3) }
        print rest text
    }'
}

print_row() { # SIZE COUNT COLUMN WORK
    local one rates=() workers case
    case="batches of $(with_commas "$1")"
    one=$(rate 0 "$1" "$2" "$3")
    for workers in 1 2 4; do
        rates+=("$(rate "$workers" "$1" "$2" "$3")")
        keep "$4, $workers workers" "$case" ours k/s "${rates[-1]}"
        keep "$4, $workers workers" "$case" 'one store' k/s "$one"
    done
    keep "$4, 4 workers beside 1" "$case" ours k/s "${rates[2]}"
    keep "$4, 4 workers beside 1" "$case" 'one worker' k/s "${rates[0]}"
    printf '%-8s %-8s %9s %9s %9s %9s %12s %12s\n' "$4" "$1" "$one" "${rates[@]}" "$(over "${rates[0]}" "$one")" \
        "$(over "${rates[2]}" "${rates[0]}")"
}

python=$(find_python) || exit 1
find_library
for _ in $(seq "$turns"); do
    for place in "${!sizes[@]}"; do
        for workers in 0 1 2 4; do run_once "$workers" "${sizes[place]}" "${counts[place]}"; done
    done
done
for size in "${sizes[@]}"; do
    [ "$(cut -d ' ' -f 3 "$folder"/row.*_"$size" | sort -u | wc -l)" -eq 1 ] || fail "the answers differ: batches of $size"
done
grep -m1 'model name' /proc/cpuinfo || true
echo "load: $(cut -d ' ' -f 1-3 /proc/loadavg)"
echo "thousands a second, by workers"
printf '%-8s %-8s %9s %9s %9s %9s %12s %12s\n' '' batch 'no Dask' 1 2 4 '1 / no Dask' '4 / 1'
for place in "${!sizes[@]}"; do print_row "${sizes[place]}" "${counts[place]}" 1 writes; done
for place in "${!sizes[@]}"; do print_row "${sizes[place]}" "${counts[place]}" 2 lookups; done
goal 'writes, 1 workers' 'batches of 100,000' 'one store' k/s 'at least' 0.7
goal 'writes, 4 workers beside 1' 'batches of 100,000' 'one worker' k/s 'at least' 2.5
write_results sharded
