"""Makes backups of a database while a thread writes to it, and marks in its trace what was acknowledged.

    drive_backups.py ROOT MODE SEED FIRST COUNT

The database is ROOT/db, and its backups are ROOT/copies/N from FIRST on. Batches and their marks are as those of drive.py. A backup has
the marks `begin N LEAST`, with the last batch that was acknowledged before it, and `end N` once it is acknowledged itself.
"""

from __future__ import annotations

import random
import sys
import threading
from pathlib import Path

from drive import batches_of, mark_function, rows_of
from stores import Database


class Backups:
    """A database that is written to by one thread, while another one makes backups."""

    def __init__(self, root: Path, mode: str, seed: int) -> None:
        self._root, self._mode, self._seed = root, mode, seed
        self._put = mark_function()
        self._db = Database(root / "db", mode)
        found = batches_of(seed, self._db.rows())
        self._mark(f"opened {','.join(map(str, found))}")
        self._last = max(found, default=0)
        self._is_over = threading.Event()

    def _mark(self, text: str) -> None:
        self._put(text.encode())

    def _write(self) -> None:
        drawn = random.Random(f"{self._seed} writes {self._last}")
        while not self._is_over.is_set():
            number = self._last + 1
            is_synced = drawn.random() < 0.2
            self._mark(f"try {number}")
            self._db.write(rows_of(self._seed, number), is_synced)
            self._mark(f"ack {number} {int(is_synced or self._mode.startswith('always'))}")
            self._last = number
            self._is_over.wait(drawn.choice((0, 0.001, 0.003)))

    def run(self, first: int, count: int) -> None:
        """Makes backups, and closes the database."""
        drawn = random.Random(f"{self._seed} backups {first}")
        writer = threading.Thread(target=self._write, daemon=True)
        writer.start()
        for number in range(first, first + count):
            self._is_over.wait(drawn.choice((0, 0.005, 0.02)))
            if drawn.random() < 0.4:
                self._db.checkpoint()
            self._mark(f"begin {number} {self._last}")
            self._db.backup(self._root / "copies" / str(number))
            self._mark(f"end {number}")
        self._is_over.set()
        writer.join()
        if self._db.close():
            self._mark("synced")


def main() -> None:
    root, mode, seed, first, count = sys.argv[1:]
    Backups(Path(root), mode, int(seed)).run(int(first), int(count))


if __name__ == "__main__":
    main()
