"""A shard, which a worker runs: a database with the shard's parts of batches. Independent of Dask."""

from __future__ import annotations

import marshal
import threading
import time
import weakref
from collections import Counter
from contextlib import suppress
from itertools import islice
from operator import itemgetter
from typing import Any, NamedTuple, Sequence

from . import Damaged, Db, DbError, DbOptions, DbSnapshot, FileFault, Locked, Missing, NotProtected, NotRecoverable
from . import OtherOperator, Sync, UcstoreError
from ._shard import Manifest, batch_of, dumps
from ._shard_files import LogDamaged, ShardedError, Writer, polls, refusing, undoing

# Maximum number of rows of a scan's page, and the size in bytes at which a page is full.
PAGE_ROWS, PAGE_BYTES = 1000, 1 << 20

# Seconds for which a shard keeps the state before a batch, for readers that have not seen the batch yet.
RECENT = 0.5

# Size of the logs, as a multiple of the data's, at which a checkpoint is written.
RATIO = 2

# Size of the logs at which the database itself makes a checkpoint: never.
_NEVER = (1 << 64) - 1


class Refusal(NamedTuple):
    """An error that a call of a shard raised, returned as its answer.

    If the error were raised, Dask would keep it, and with it the shard and the lock of its database. Nor could it be
    distinguished from the errors that Dask raises for a lost worker.
    """

    error: Exception


class ShardReport(NamedTuple):
    """Statistics of a shard."""

    runs: int
    """Number of runs."""
    snapshots: int
    """Number of points in time with a snapshot."""
    bytes: int
    """Size of the runs in bytes, with 8 bytes for each sequence number."""
    gathered: int
    """Number of writes in the memtables."""
    last: int
    """Last sequence number of the shard."""
    log_bytes: int
    """Size in bytes of the logs that no checkpoint covers."""


class _Held(NamedTuple):
    """The state of a shard at a point in time, and the number of bytes logged until then."""

    view: DbSnapshot
    logged: int


def _options(manifest: Manifest, sync: bool) -> DbOptions:
    """Returns the options of a shard's database. It makes no checkpoints itself: they may only hold acknowledged writes."""
    named = {name: value for name, value in manifest.options._asdict().items() if name in DbOptions._fields}
    slow = (manifest.options.compaction_trigger + manifest.options.stop_trigger) // 2
    when = Sync.ALWAYS if sync else Sync.NEVER
    # A worker has one thread for its shards.
    return DbOptions(sync=when, compactors=1, slow_trigger=slow, checkpoint_least=_NEVER, **named)


def _opened(writer: Writer, number: int, place: int, last: int, keeps: Sequence[int]) -> Db:
    """Opens the database of a shard in its acknowledged state. Changes no file. Raises `LogDamaged` and `ShardedError`."""
    folder, options = writer.folder / f"shard-{number}", _options(writer.manifest, writer.sync)
    whose = f"shard {number}: {folder}"
    for _ in polls(writer.patience):
        try:
            # A part begins right after the last sequence number of all shards. If a part begins later, this one was acknowledged.
            return Db(
                folder, writer.manifest.operator, options, recover_to=place, give_up_until=last + 1, marks=sorted(set(keeps)))
        except Locked:
            pass
        except NotRecoverable as error:
            raise LogDamaged(f"{whose}/{error}, and sequencer.log ends at {last}") from None
        except (Damaged, Missing, OtherOperator) as error:
            raise LogDamaged(f"{whose}/{error}") from None
        except DbError as error:
            raise ShardedError(f"{whose}: {error}") from None
    raise ShardedError(f"{whose} is open in another process")


def _close(db: Db) -> None:
    """Closes a database. All acknowledged writes are in it, so errors are ignored."""
    with suppress(UcstoreError):
        db.close()


def _write_base(db: Db, view: DbSnapshot) -> None:
    """Writes a checkpoint. If that fails, the logs stay, and grow."""
    with suppress(UcstoreError), view:
        db.checkpoint_to(view)


class Shard:
    """A database with a shard's parts of batches. One process at a time has it open, and calls come one by one.

    A state is named by its last sequence number, and kept as a snapshot of the database.
    """

    def __init__(self, writer: Writer, whose: str, db: Db, place: int) -> None:
        """Called by `start`."""
        self._writer, self._whose, self._db, self.last = writer, whose, db, place
        self._views: dict[int, _Held] = {}
        self._leases: dict[int, float] = {}
        self._kept: Counter[int] = Counter()
        # Last sequence number at the opening, number of bytes logged, and their number at the last attempt of a checkpoint.
        self._opened, self._logged, self._tried = place, db.stats().log_bytes, 0
        self._base: threading.Thread | None = None

    @classmethod
    def start(cls, writer: Writer, number: int, place: int, last: int, keeps: Sequence[int]) -> Shard:
        """Opens a shard whose last sequence number is `place`, with snapshots at other places that are still in use.

        `last` is the last acknowledged sequence number of all shards. Raises `OutOfMemory`,
        `LogDamaged`, `AnotherWriter`, and `ShardedError` for an I/O error.
        """
        whose = f"shard {number}: {writer.folder / f'shard-{number}'}"
        db = _opened(writer, number, place, last, keeps)
        # Dask may keep an error, and with it the database and its lock.
        with refusing(ShardedError, whose, OSError), undoing(_close, db):
            writer.check()
            shard = cls(writer, whose, db, place)
            for kept, count in Counter(keeps).items():
                shard._views[kept] = _Held(db.take_mark(kept), shard._logged)
                shard._leases[kept] = time.monotonic()
                shard._kept[kept] = count
        # Dask closes nothing: it drops an actor.
        weakref.finalize(shard, _close, db)
        return shard

    def call(self, method: str, *arguments: Any) -> Any:
        """Returns the answer of a method, or a `Refusal` with the error that it raises."""
        try:
            return getattr(self, method)(*arguments)
        except Exception as error:
            return Refusal(error.with_traceback(None))

    def apply(self, place: int, first: int, part: bytes) -> int:
        """Writes a part, whose first operation has a sequence number, and returns the last one.

        A shard that is not at `place` has the part already: an answer was lost.
        """
        if self.last == place:
            batch = batch_of(part, first)
            with refusing(ShardedError, self._whose, OSError, DbError), undoing(_close, self._db):
                self._get_ready()
                self._db.write_bytes(batch, self._writer.sync)
            self.last = first + int.from_bytes(batch[8:12], "little") - 1
            self._logged += len(batch)
        return self.last

    def _get_ready(self) -> None:
        """Prepares the shard for a batch: all its writes are acknowledged then."""
        self._writer.check()
        self._view_at(self.last, RECENT)
        self._let_go()
        self._cut(min(self._kept, default=self.last))

    def _cut(self, place: int) -> None:
        """Starts a checkpoint of the state at a place, if that deletes enough of the logs."""
        held = self._views[place]
        # The positions of snapshots in the logs that were opened are unknown: one checkpoint is tried for each of these.
        long = held.logged - (self._tried if place > self._opened else 0)
        is_busy = self._base is not None and self._base.is_alive()
        if not is_busy and long >= self._writer.least and long >= RATIO * self._db.stats().bytes:
            self._tried, self._views[place] = held.logged, held._replace(logged=0)
            # On a full device the log grows, and a batch that does not fit fails.
            with suppress(FileFault):
                self._db.next_log()
                # Holds no shard, so that this one may be dropped concurrently. The lock is kept until it is done.
                self._base = threading.Thread(target=_write_base, args=(self._db, held.view.again()), daemon=True)
                self._base.start()

    def _view_at(self, place: int, seconds: float = 0.0) -> DbSnapshot:
        """Returns the state at a place, which is kept for `seconds`. Raises `NotProtected` if it is gone."""
        if place == self.last and place not in self._views:
            self._views[place] = _Held(self._db.snapshot(), self._logged)
        if place not in self._views:
            raise NotProtected()
        until = time.monotonic() + seconds
        self._leases[place] = max(until, self._leases.get(place, until))
        return self._views[place].view

    def _let_go(self) -> None:
        """Releases states that neither a snapshot nor a lease keeps."""
        now = time.monotonic()
        self._leases = {place: until for place, until in self._leases.items() if until > now}
        for place in self._views.keys() - self._kept.keys() - self._leases.keys():
            self._views.pop(place).view.close()

    def keep(self, place: int) -> None:
        """Takes a snapshot at a place. It lasts until `release` was called as often as this. Raises `NotProtected`."""
        self._view_at(place)
        self._kept[place] += 1

    def release(self, place: int) -> None:
        """Undoes one `keep`. Raises `NotProtected`."""
        if place not in self._kept:
            raise NotProtected()
        self._kept -= Counter([place])
        self._let_go()

    def lease(self, place: int, seconds: float) -> None:
        """Keeps the state at a place for `seconds` after this call and each later read. Raises `NotProtected`."""
        self._view_at(place, seconds)

    def report(self) -> ShardReport:
        """Returns statistics."""
        stats = self._db.stats()
        return ShardReport(stats.runs, len(self._kept), stats.bytes, stats.gathered, stats.last, stats.log_bytes)

    def answers(self, queries: bytes, at: int, seconds: float = 0.0) -> bytes:
        """Returns packed answers to keys and scans at a place, with their numbers. `seconds` is as in `lease`."""
        asked, view = marshal.loads(queries), self._view_at(at, seconds)
        keys = [(number, query) for number, query in asked if isinstance(query, bytes)]
        found: list[tuple[int, Any]] = list(zip(map(itemgetter(0), keys), view.get_many(map(itemgetter(1), keys))))
        for number, query in asked:
            if not isinstance(query, bytes):
                found.append((number, list(islice(view.items(*query[:2]), query[2]))))
        return dumps(found)

    def page(self, low: bytes, high: bytes | None, at: int, seconds: float = 0.0) -> bytes:
        """Returns the first rows of a scan at a place, and whether there may be more, packed. `seconds` is as in `lease`."""
        rows, size = [], 0
        for row in self._view_at(at, seconds).items(low, high):
            rows.append(row)
            size += len(row[0]) + len(row[1])
            if len(rows) == PAGE_ROWS or size >= PAGE_BYTES:
                return dumps((rows, True))
        return dumps((rows, False))
