"""A reader in its own process: it reads until its input ends, and prints the numbers that it read.

    reader.py ADDRESS FOLDER KEYS

A batch sets KEYS keys to a number, and the next batch to the next one. So all keys have the same number, and it never falls.
"""

import sys
import threading

from distributed import Client
from ucstore import NotProtected
from ucstore.sharded import Scan, ShardedStore


def main(address, folder, count):
    client = Client(address, direct_to_workers=True, set_as_default=False)
    reader, keys, last = ShardedStore.reader(client, folder), [b"k%03d" % key for key in range(count)], 0
    reads = 0
    ended = threading.Event()
    threading.Thread(target=lambda: (sys.stdin.read(), ended.set()), daemon=True).start()
    while not ended.is_set():
        found = reader.answers([*keys, Scan(b"k", b"l")])
        try:
            rows = dict(reader.snapshot().scan())
        except NotProtected:
            # A worker was lost.
            continue
        numbers = {*found[:-1], *(value for _, value in found[-1])}
        assert len(numbers) == 1 and len(set(rows.values())) == 1 and len(rows) == len(found[-1]) == count, (numbers, rows)
        number, then = int(numbers.pop()), int(rows[keys[0]])
        assert last <= number <= then, (last, number, then)
        last = then
        reads += 1
    print(reads, last, flush=True)


if __name__ == "__main__":
    main(sys.argv[1], sys.argv[2], int(sys.argv[3]))
