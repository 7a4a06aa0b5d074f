"""A writer that is killed at some time: it writes random batches, and prints each once it is acknowledged.

    writer.py ADDRESS FOLDER SEED
"""

import itertools
import random
import sys

import drawn
from distributed import Client
from ucstore.sharded import ShardedStore


def batches(seed):
    """Yields the batches, with the last sequence number of each."""
    draws, last = random.Random(seed), 0
    while True:
        operations = drawn.batch(draws)
        last += len(operations)
        yield operations, last


def main(address, folder, seed):
    client = Client(address, direct_to_workers=True)
    with ShardedStore.open(client, folder) as store:
        rest = itertools.dropwhile(lambda found: found[1] <= store.last, batches(seed))
        for operations, last in rest:
            assert store.write(operations) == last
            print(last, flush=True)


if __name__ == "__main__":
    main(sys.argv[1], sys.argv[2], int(sys.argv[3]))
