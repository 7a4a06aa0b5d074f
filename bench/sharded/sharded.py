"""Writes batches and looks keys up, over shards or in one store without Dask.

    sharded.py FOLDER SIZE BATCHES [ADDRESS]

BATCHES batches of SIZE writes go to a store in FOLDER that is empty at first: to as many shards as the scheduler at ADDRESS has
workers, one being placed while another is written, or to one store that appends to a log too. After them a snapshot is taken, at which as many batches of SIZE keys are looked
up. It prints the nanoseconds of all writes and of all lookups, and a checksum of the answers.
"""

import os
import random
import sys
import time
import zlib
from concurrent.futures import Future
from pathlib import Path
from typing import Callable, List, Optional

from distributed import Client

from ucstore import Delete, DeleteRange, Merge, Operation, Operator, Put, Store
from ucstore.sharded import ShardedStore

KEYS = 300_000


def key(number: int) -> bytes:
    """A key of 16 bytes."""
    return b"key-%012d" % number


def operation(draws: random.Random) -> Operation:
    """Half are merges of numbers, 45 percent puts, 5 percent deletions, and one of 10,000 deletes a range of 30 keys."""
    kind, number = draws.randrange(10_000), draws.randrange(KEYS)
    if kind == 0:
        return DeleteRange(key(number), key(number + 30))
    if kind <= 500:
        return Delete(key(number))
    return (Put if kind <= 5000 else Merge)(key(number), draws.randrange(1 << 32).to_bytes(8, "little"))


class Single:
    """One store and its log."""

    def __init__(self, folder: Path) -> None:
        self.store, self.length = Store(Operator.COUNTER), 0
        self.log = open(folder / "log", "wb")

    def write(self, operations: List[Operation]) -> None:
        """Appends a batch to the log, waits for its device, and writes it."""
        record = self.store.prepare(self.length, operations)
        self.log.write(record)
        self.log.flush()
        os.fsync(self.log.fileno())
        self.length += len(record)
        self.store.commit()

    def finish(self) -> None:
        """Waits until all batches are written, as they are."""

    def reader(self) -> Callable[[List[bytes]], List[Optional[bytes]]]:
        """The function that answers a batch of keys at a snapshot."""
        at = self.store.take_snapshot()
        return lambda keys: [self.store.get_at(key, at) for key in keys]


class Sharded:
    """A store of a shard a worker."""

    def __init__(self, folder: Path, address: str) -> None:
        self.client = Client(address, direct_to_workers=True)
        shards = len(self.client.scheduler_info()["workers"])
        self.store = ShardedStore.create(self.client, folder / "shards", shards, Operator.COUNTER)
        self.written: List[Future] = []

    def write(self, operations: List[Operation]) -> None:
        """Begins to write a batch, once at most one other is under way."""
        self.written.append(self.store.submit(operations))

    def finish(self) -> None:
        """Waits until all batches are written."""
        for written in self.written:
            written.result()

    def reader(self) -> Callable[[List[bytes]], List[Optional[bytes]]]:
        """The function that answers a batch of keys at a snapshot."""
        return self.store.snapshot().answers


def main(folder: Path, size: int, count: int, address: Optional[str]) -> None:
    """Makes all batches, and then measures."""
    draws = random.Random(size)
    batches = [[operation(draws) for _ in range(size)] for _ in range(count)]
    asked = [[key(draws.randrange(KEYS)) for _ in range(size)] for _ in range(count)]
    store = Sharded(folder, address) if address else Single(folder)
    begun = time.perf_counter_ns()
    for batch in batches:
        store.write(batch)
    store.finish()
    written = time.perf_counter_ns()
    reader = store.reader()
    answers = [reader(keys) for keys in asked]
    read = time.perf_counter_ns()
    print(written - begun, read - written, zlib.crc32(repr(answers).encode()))


if __name__ == "__main__":
    main(Path(sys.argv[1]), int(sys.argv[2]), int(sys.argv[3]), sys.argv[4] if len(sys.argv) > 4 else None)
