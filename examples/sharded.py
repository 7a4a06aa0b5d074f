"""Counts the words of a stream over four workers, one of which is killed meanwhile.

    python3 examples/sharded.py < FILE

It prints each word with its count. They are those of one store that counts them too. It needs ucstore and distributed.
"""

import os
import signal
import sys
import tempfile
from itertools import islice
from typing import Iterator, List

from distributed import Client, LocalCluster

from ucstore import Merge, Operator, Store
from ucstore.sharded import ShardedStore


def batches(lines: Iterator[str], size: int = 1000) -> Iterator[List[Merge]]:
    """Ones to be added to the counts of the words, a number of lines at once."""
    one = (1).to_bytes(8, "little")
    while True:
        some = list(islice(lines, size))
        if not some:
            return
        yield [Merge(word.encode(), one) for line in some for word in line.split()]


def kill_a_worker(client: Client) -> None:
    """Kills a worker that has a shard."""
    pids = list(client.run(os.getpid).values())
    os.kill(pids[0], signal.SIGKILL)


def count(client: Client, folder: str, lines: Iterator[str]) -> None:
    """Counts words over shards and in one store, compares the counts, and prints them."""
    single = Store(Operator.COUNTER)
    with ShardedStore.create(client, folder, 4, Operator.COUNTER) as store:
        for number, batch in enumerate(batches(lines)):
            if number == 1:
                kill_a_worker(client)
            store.write(batch)
            single.write(batch)
            single.compact()
        with store.snapshot() as found, single.snapshot() as wanted:
            counts = list(found.scan())
            assert counts == list(wanted.scan())
    for word, total in counts:
        print(word.decode(), int.from_bytes(total, "little"))
    # Dask complains if it ends while a worker is being started again.
    client.wait_for_workers(4)


if __name__ == "__main__":
    with tempfile.TemporaryDirectory() as folder, LocalCluster(
        n_workers=4, threads_per_worker=1, dashboard_address=":0", local_directory=folder
    ) as cluster, Client(cluster, direct_to_workers=True) as client:
        count(client, os.path.join(folder, "words"), iter(sys.stdin))
