"""Writes numbered batches to a store in a process of its own, and marks in its trace what was acknowledged.

    drive.py STORE FOLDER MODE SEED STEPS

Batch N puts a value under a key of its own. Two of three also put N under one key and under a second key of their own, and delete the
second keys of the batches before. The marks are `try N`, `ack N SYNCED`, `refused N FINAL`, `synced` once all that was acknowledged is on
the device, `opened N..` with the batches that an opening found, and `stuck` if more calls of the store fail than those of the system.
"""

from __future__ import annotations

import ctypes
import os
import random
import sys
from pathlib import Path
from typing import Callable, Dict, List, Optional

from stores import STORES, Refused

LAST = b"last"

# The number of batches whose second key a batch deletes. As many in a row may be refused.
DELETED = 4


def rows_of(seed: int, number: int) -> Dict[bytes, Optional[bytes]]:
    """The rows of a batch, with None for a key that it deletes. Few are long."""
    drawn = random.Random(f"{seed} {number}")
    most = drawn.choices((200, 5_000, 70_000), (14, 5, 1))[0]
    text = b"%d." % number
    size = drawn.randint(1, most)
    found: Dict[bytes, Optional[bytes]] = {b"k%06d" % number: (text * (size // len(text) + 1))[:size]}
    if number % 3 != 1:
        found.update({b"t%06d" % before: None for before in range(max(number - DELETED, 0), number)})
        found[b"t%06d" % number] = found[LAST] = b"%d" % number
    return found


def rows_after(seed: int, numbers: List[int]) -> Dict[bytes, bytes]:
    """The rows after batches."""
    rows: Dict[bytes, bytes] = {}
    for number in numbers:
        for key, value in rows_of(seed, number).items():
            if value is None:
                rows.pop(key, None)
            else:
                rows[key] = value
    return rows


def batches_of(seed: int, rows: Dict[bytes, bytes]) -> List[int]:
    """The batches that rows are of. Raises ValueError if they are of parts."""
    numbers = sorted(int(key[1:]) for key in rows if key.startswith(b"k"))
    if rows_after(seed, numbers) != rows:
        raise ValueError("the rows are of no batches")
    return numbers


def mark_function() -> Callable[[bytes], object]:
    """The writer of the trace's marks: record.c, or the file of block.c that DISK_MARKS names."""
    if "DISK_MARKS" in os.environ:
        marks = os.open(os.environ["DISK_MARKS"], os.O_WRONLY)
        return lambda text: os.write(marks, text + b"\n")
    return ctypes.CDLL(None).disk_mark  # type: ignore[no-any-return]


class Drive:
    """A store that is driven."""

    def __init__(self, store: str, folder: Path, mode: str, seed: int) -> None:
        self._mark_in_trace = mark_function()
        self._kind, self._folder, self._mode, self._seed = STORES[store], folder, mode, seed
        self._next = 1
        # The number of calls that may fail yet.
        self._faults = int(os.environ["DISK_FAIL"].split(":")[2]) if "DISK_FAIL" in os.environ else 0
        self._open()

    def _mark(self, text: str) -> None:
        self._mark_in_trace(text.encode())

    def _open(self) -> None:
        self._store = self._kind(self._folder, self._mode)
        found = batches_of(self._seed, self._store.rows())
        self._next = max(self._next, *found, 0) + 1 if found else self._next
        self._mark(f"opened {','.join(map(str, found))}")

    def _reopen(self) -> None:
        if self._store.close():
            self._mark("synced")
        self._open()

    def _write(self, is_synced: bool) -> None:
        number = self._next
        self._next += 1
        self._mark(f"try {number}")
        try:
            self._store.write(rows_of(self._seed, number), is_synced)
        except Refused as refused:
            self._mark(f"refused {number} {int(refused.is_final)}")
            if refused.is_final:
                self._reopen()
        else:
            self._mark(f"ack {number} {int(is_synced or self._mode.startswith('always'))}")

    def _sync(self, is_done: bool) -> None:
        if is_done:
            self._mark("synced")
        elif not self._store.is_read_only:
            self._faults -= 1
            if self._faults < 0:
                self._mark("stuck")

    def run(self, steps: int, drawn: random.Random) -> None:
        """Takes a number of steps, and closes the store."""
        for _ in range(steps):
            step = drawn.random()
            if step < 0.03:
                self._reopen()
            elif step < 0.07:
                # It ends a log, as the next step does: so all of that is on the device.
                self._sync(self._store.checkpoint())
            elif step < 0.09:
                self._sync(self._store.next_log())
            elif step < 0.11:
                self._sync(self._store.sync())
            elif step < 0.14:
                self._store.hold()
            elif step < 0.17:
                self._store.checkpoint_to()
            elif step < 0.19:
                self._store.flush()
            elif step < 0.21:
                self._store.compact()
            else:
                self._write(drawn.random() < 0.3)
        if self._store.close():
            self._mark("synced")


def main() -> None:
    store, folder, mode, seed, steps = sys.argv[1:]
    Drive(store, Path(folder), mode, int(seed)).run(int(steps), random.Random(f"{seed} {steps} steps"))


if __name__ == "__main__":
    main()
