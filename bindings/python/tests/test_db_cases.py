"""Plays files of bindings/cases over `ucstore.Db`, each store in its own directory:

    test_db_cases.py FILE..

It plays the commands that a database has: no sequence numbers of batches, and no reports.
"""

import sys
import tempfile
from pathlib import Path

import ucstore
from test_cases import WAYS, play
from ucstore import Db, DbOptions, Sync


class Store:
    """A store for the player, over a database in a directory."""

    ended = "clean"

    def __init__(self, operator, options, folder=None):
        self.folder = folder or tempfile.mkdtemp(dir=TOP)
        shared = {name: value for name, value in options._asdict().items() if name in DbOptions._fields}
        threads = 2 if options.compacts_itself else 0
        self.db = Db(self.folder, operator, DbOptions(sync=Sync.NEVER, compactors=threads, **shared))
        self.prepared = None
        self.held = []

    @classmethod
    def open(cls, operator, log, options):
        """Opens the directory that the log names. A log without a batch is empty, as is a new database."""
        return cls(operator, options, (log.decode().splitlines() or [None])[-1])

    def close(self):
        for _, snapshot in self.held:
            snapshot.close()
        self.held = []
        self.db.close()

    def write(self, operations, sequence=0):
        assert sequence == 0, "a database gives sequences itself"
        self.prepared = None
        with self.db.write_batch() as batch:
            for operation in operations:
                getattr(batch, NAMES[type(operation)])(*operation)

    def __getattr__(self, name):
        """Returns the options of a database with the same values."""
        return getattr(self.db, name)

    def prepare(self, length, operations, sequence=0):
        """The bytes added to the log are the name of the directory."""
        assert sequence == 0, "a database gives sequences itself"
        self.prepared = operations
        return f"{self.folder}\n".encode()

    def commit(self):
        if self.prepared is not None:
            self.write(self.prepared)

    def give_up(self):
        self.prepared = None

    def compact(self):
        self.db.compact()
        return False

    def take_snapshot(self):
        snapshot = self.db.snapshot()
        self.held.append((snapshot.sequence, snapshot))
        return snapshot.sequence

    def release(self, sequence):
        place = self.place(sequence)
        self.held.pop(place)[1].close()

    def place(self, sequence):
        """Returns the index of a snapshot at a sequence number."""
        for place, (at, _) in enumerate(self.held):
            if at == sequence:
                return place
        raise ucstore.NotProtected()

    @property
    def snapshots(self):
        return sorted({sequence for sequence, _ in self.held})

    @property
    def last(self):
        return self.db.stats().last

    def get_at(self, key, at):
        return self.held[self.place(at)][1].get(key)

    def scan(self, low=b"", high=None):
        return self.db.items(low, high)

    def scan_at(self, low, high, at):
        return self.held[self.place(at)][1].items(low, high)

    def prefix(self, prefix):
        return self.db.items(prefix=prefix)


NAMES = {ucstore.Put: "put", ucstore.Merge: "merge", ucstore.Delete: "delete", ucstore.DeleteRange: "delete_range"}


class Module:
    """The names that the player uses of a module."""

    Store, Operator, Options, UcstoreError = Store, ucstore.Operator, ucstore.Options, ucstore.UcstoreError
    Put, Merge, Delete, DeleteRange = ucstore.Put, ucstore.Merge, ucstore.Delete, ucstore.DeleteRange


def main():
    whole, failed = 0, []
    for file in map(Path, sys.argv[1:]):
        for way in WAYS:
            count, failures = play(file, Module, way)
            whole += count
            failed += failures
    print("\n".join([*failed, f"{whole} cases played over a database"]))
    return 1 if failed or whole == 0 else 0


if __name__ == "__main__":
    with tempfile.TemporaryDirectory() as TOP:
        status = main()
    sys.exit(status)
