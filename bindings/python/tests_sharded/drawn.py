"""Random operations, and a sharded store compared with one store that gets the same operations."""

import random
from typing import Dict, Iterable, List, Tuple

from ucstore import Delete, DeleteRange, Merge, Operation, Operator, Options, Put, Store
from ucstore.sharded import Scan, ShardedSnapshot, ShardedStore

OPTIONS = Options(write_buffer_size=4096)
KEYS = 500
SPLITS = [b"k125", b"k250", b"k375"]


def key(draws: random.Random) -> bytes:
    return b"k%03d" % draws.randrange(KEYS)


def operation(draws: random.Random) -> Operation:
    kind = draws.choices((Put, Merge, Delete, DeleteRange), (200, 200, 60, 3))[0]
    if kind is Delete:
        return Delete(key(draws))
    if kind is DeleteRange:
        low = draws.randrange(KEYS)
        return DeleteRange(b"k%03d" % low, b"k%03d" % (low + draws.choice((-1, 3, 30, 300))))
    return kind(key(draws), bytes(draws.randrange(256) for _ in range(draws.randrange(9))))


def batch(draws: random.Random, most: int = 1000) -> List[Operation]:
    """Returns 1 to `most` operations, each order of magnitude equally often."""
    count = draws.randint(1, draws.choice([size for size in (1, 10, 100, 1000) if size <= most]))
    return [operation(draws) for _ in range(count)]


def fed(batches: Iterable[List[Operation]]) -> Dict[bytes, bytes]:
    """Returns the contents of one store that has got the batches."""
    with Store(Operator.APPEND, OPTIONS) as store:
        for operations in batches:
            feed(store, operations)
        with store.snapshot() as snapshot:
            return dict(snapshot.scan())


def feed(store: Store, operations: List[Operation]) -> None:
    store.write(operations)
    while store.compact():
        pass


class Beside:
    """A sharded store and one store to compare it with. Both are empty at first."""

    def __init__(self, sharded: ShardedStore, draws: random.Random) -> None:
        self.sharded, self.draws = sharded, draws
        self.single = Store(Operator.APPEND, OPTIONS)
        self.snapshots: List[Tuple[ShardedSnapshot, int]] = []

    def write(self) -> int:
        """Writes a batch to both, and returns its number of writes."""
        operations = batch(self.draws)
        last = self.sharded.write(operations)
        feed(self.single, operations)
        assert last == self.sharded.last == self.single.last, (last, self.single.last)
        return len(operations)

    def step(self) -> None:
        """Takes, releases or reads a snapshot, or does nothing."""
        steps = (self.keep, self.release, self.read, lambda: None)
        self.draws.choices(steps, (20, 15, 40, 25))[0]()

    def keep(self) -> None:
        if len(self.snapshots) < 6:
            self.snapshots.append((self.sharded.snapshot(), self.single.take_snapshot()))
            assert self.snapshots[-1][0].sequence == self.snapshots[-1][1]

    def release(self) -> None:
        if self.snapshots:
            snapshot, at = self.snapshots.pop(self.draws.randrange(len(self.snapshots)))
            snapshot.release()
            self.single.release(at)

    def read(self) -> None:
        """Compares the answers at a snapshot."""
        if self.snapshots:
            snapshot, at = self.draws.choice(self.snapshots)
            self.compare(snapshot, at)

    def compare(self, snapshot: ShardedSnapshot, at: int) -> None:
        single, draws = self.single, self.draws
        asked = key(draws)
        assert snapshot.get(asked) == single.get_at(asked, at)
        scan = self.drawn_scan()
        assert list(snapshot.scan(*scan)) == self.rows(scan, at)
        queries = [key(draws) if draws.random() < 0.9 else self.drawn_scan() for _ in range(draws.randrange(40))]
        wanted = [self.rows(query, at) if isinstance(query, Scan) else single.get_at(query, at) for query in queries]
        assert snapshot.answers(queries) == wanted

    def compare_all(self) -> None:
        """Compares all rows at all snapshots, and at one that is taken now."""
        self.snapshots.append((self.sharded.snapshot(), self.single.take_snapshot()))
        for snapshot, at in self.snapshots:
            assert list(snapshot.scan()) == list(self.single.scan_at(b"", None, at))

    def drawn_scan(self) -> Scan:
        draws = self.draws
        high = draws.choice((None, key(draws)))
        return Scan(draws.choice((b"", key(draws))), high, draws.choice((None, draws.randrange(30))))

    def rows(self, scan: Scan, at: int) -> list:
        rows = list(self.single.scan_at(scan.low, scan.high, at))
        return rows if scan.limit is None else rows[:scan.limit]
