"""Errors, options, events and statistics of a database: see `Db`."""

from __future__ import annotations

import enum
from typing import Dict, NamedTuple, Optional, Type

from . import (
    BadOperand, BadOption, BatchFull, IdsSpent, NotABatch, NotProtected, OutOfMemory, SequenceBack, SequencesSpent, TooLong, UcstoreError,
    UnknownOperator,
)


class DbError(UcstoreError):
    """A call of a database that failed. Its message names the file, the offset and the cause."""


class FileFault(DbError, OSError):
    """A file cannot be read or written."""

    status, text = 64, "I/O error"


class Locked(DbError):
    """Another process, or another `Db` of this one, has the database open."""

    status, text = 65, "database is locked"


class Damaged(DbError):
    """A file is corrupted. No file was changed."""

    status, text = 66, "corrupted file"


class Missing(DbError):
    """A file is missing. No file was changed."""

    status, text = 67, "missing file"


class OtherOperator(DbError, ValueError):
    """The directory was created with another merge operator. No file was changed."""

    status, text = 68, "directory has another merge operator"


class ReadOnly(DbError):
    """The database takes no more writes: a log failed, or is corrupted."""

    status, text = 69, "database is read-only after an error"


class Closed(DbError, ValueError):
    """The database, the batch or the snapshot is closed."""

    status, text = 70, "already closed"


class Forked(DbError):
    """The process was forked after the database was opened. A child must open its own."""

    status, text = 71, "process was forked after the database was opened"


class NotRecoverable(DbError):
    """The files cannot be recovered to the sequence number that the options give. No file was changed."""

    status, text = 74, "cannot recover to the given sequence number"


class OtherDatabase(DbError, ValueError):
    """The snapshot belongs to another database."""

    status, text = 75, "snapshot of another database"


class Conflict(DbError):
    """A key or a range that the transaction read has changed since it began. Its message names it."""

    status, text = 76, "conflict with another write"


_ERRORS: Dict[int, Type[UcstoreError]] = {
    error.status: error
    for error in (
        OutOfMemory, NotProtected, UnknownOperator, BadOption, IdsSpent, SequencesSpent, TooLong, NotABatch, SequenceBack, BatchFull,
        BadOperand, FileFault, Locked, Damaged, Missing, OtherOperator, ReadOnly, Closed, Forked, NotRecoverable, OtherDatabase,
        Conflict,
    )
}


def error_of(status: int, text: str) -> UcstoreError:
    """Returns the exception for a status, with the message of the library."""
    return _ERRORS.get(status, DbError)(text)


class Sync(enum.IntEnum):
    """Times at which an acknowledged write becomes durable."""

    ALWAYS = 0
    """Before it is acknowledged."""
    EVERY = 1
    """About `DbOptions.sync_milliseconds` later."""
    NEVER = 2
    """When the operating system writes it out. A crash of the process alone loses nothing."""


class DbOptions(NamedTuple):
    """Options of a database. Options of compaction have the names of RocksDB's."""

    sync: Sync = Sync.ALWAYS
    """Time at which an acknowledged write becomes durable."""
    sync_milliseconds: int = 100
    """Period of `Sync.EVERY`, at least 1."""
    write_buffer_size: int = 4194304
    """Size in bytes at which the memtable is flushed, at least 1."""
    compaction_trigger: int = 4
    """Number of runs at which compaction starts, at least 1."""
    stop_trigger: int = 36
    """Number of runs at which a writer compacts before it writes, `compaction_trigger` to 255."""
    size_ratio: int = 1
    """Percentage by which a run may exceed the newer ones that are compacted with it."""
    max_size_amplification_percent: int = 200
    """Size of the newer runs, in percent of the oldest, above which all are compacted."""
    min_merge_width: int = 2
    """Minimum number of runs compacted by size ratio, at least 2."""
    max_merge_width: int = 4294967295
    """Maximum number of runs in a compaction, at least `min_merge_width`."""
    compactors: int = 2
    """Number of compaction threads; one more is for flushes. With 0, writers do both."""
    slow_trigger: int = 20
    """Number of runs at which each write is delayed by a millisecond."""
    checkpoint_ratio: int = 0
    """Size of the logs, as a multiple of the data's, at which a checkpoint is made."""
    checkpoint_least: int = 67108864
    """Minimum size of the logs in bytes for a checkpoint. 2^64 - 1: never make one automatically."""
    recovers_to_fault: bool = False
    """True to open a corrupted database, read-only, up to the corruption."""
    compact_when_idle_milliseconds: int = 0
    """Time without a write after which the database is compacted to one run, if there are `compactors`: reads become faster.
    It takes up to twice the data's memory meanwhile. A write ends this work, and does not wait for it. 0: never."""
    checkpoint_bytes_per_second: int = 0
    """Maximum bytes of run files that a checkpoint writes in a second. 0: no limit."""


class Progress(NamedTuple):
    """Progress of an opening."""

    file: str
    """Name of the file being read."""
    read: int
    """Number of bytes read so far, of all files."""
    whole: int
    """Number of bytes of all files."""


class EventKind(enum.IntEnum):
    """Kinds of events."""

    FLUSHED = 0
    """A memtable was flushed to a run."""
    COMPACTED = 1
    """Runs were compacted into one, also by an idle database."""
    CHECKPOINTED = 2
    """A checkpoint was written to the file `text`, and the older logs were deleted."""
    STALLED = 3
    """Writes are being slowed or stopped, because flushes or compactions fall behind."""
    FAILED = 4
    """A log or a checkpoint failed: `error` has the cause."""
    SET_ASIDE = 5
    """Opening cut bytes that a crash had left off the end of the last log, and kept them in the file `text`."""


class Event(NamedTuple):
    """An event of a database. A field that does not apply to its kind is 0, or an empty string."""

    kind: EventKind
    runs: int
    """Number of runs."""
    bytes: int
    """Number of bytes flushed, written to the checkpoint, or set aside."""
    seconds: float
    """Duration."""
    text: str
    error: Optional[UcstoreError]
    """Error of a failure. After `ReadOnly`, the database takes no more writes."""


class DbStats(NamedTuple):
    """Statistics of a database since it was opened. Times are in microseconds.

    Flushes and compactions that a write had to make itself within the store are not counted.
    """

    uptime: int
    """Time since the database was opened."""
    last: int
    """Sequence number of the last write."""
    runs: int
    """Number of runs."""
    bytes: int
    """Size of the runs in bytes."""
    gathered: int
    """Number of writes in the memtables."""
    log_bytes: int
    """Size in bytes of the logs that no checkpoint covers."""
    batches: int
    """Number of batches written."""
    groups: int
    """Number of log records they were written in."""
    user_bytes: int
    """Bytes of the batches."""
    logged_bytes: int
    """Bytes appended to logs for them."""
    base_bytes: int
    """Bytes of the checkpoints written."""
    lookups: int
    """Number of keys looked up, in the database and its snapshots."""
    syncs: int
    """Number of syncs of logs."""
    sync_p50: int
    """Median duration of the last 1,024 syncs."""
    sync_p99: int
    """99th percentile of the same."""
    stalls: int
    """Number of times that writes started to be slowed or stopped."""
    slowed: int
    """Number of log records whose writes were slowed."""
    stalled: int
    """Total time for which writes were slowed or stopped."""
    flushes: int
    """Number of flushes."""
    compactions: int
    """Number of compactions."""
    flush_bytes: int
    """Bytes of the runs made by flushes."""
    compaction_read: int
    """Bytes of the runs read by compactions."""
    compaction_written: int
    """Bytes of the runs made by compactions."""
    checkpoints: int
    """Number of checkpoints."""
    lookups_by_memtable: int
    """Lookups that the memtables answered. Estimated, as the next two: one lookup in 64 is sampled."""
    lookups_by_filters: int
    """Lookups that the filters answered: no run has a write of the key."""
    lookups_by_runs: int
    """Lookups that the runs answered."""
    set_aside_bytes: int
    """Bytes that opening cut off the last log and kept in a file (`EventKind.SET_ASIDE`)."""
    run_files: int
    """Number of run files that checkpoints wrote."""
    kept_bytes: int
    """Bytes of the run files that checkpoints kept from older ones."""
