"""`Db`: a durable database in a directory, for many threads.

The first database that is opened loads the shared library: the file that `UCSTORE_DB_LIBRARY` names, or
`libucstore_db.so.2` next to this module, or the one that the system's loader finds.
"""

from __future__ import annotations

import atexit
import contextlib
import ctypes
import os
import weakref
from types import TracebackType
from typing import Callable, Iterable, Mapping, MutableMapping, Optional, Sequence, Tuple, Type, TypeVar, Union

from . import Operator, UcstoreError
from ._db_library import OK, Options, Stats, event_function, library, progress_function
from ._db_reader import Alone, Bytes, Cursor, Reader, bytes_of
from ._db_transaction import DbTransaction, transact
from ._db_types import Closed, DbOptions, DbStats, Event, Progress
from ._operands import MergesParts, Part, checked

_Size, _U64 = ctypes.c_size_t, ctypes.c_uint64
_Result = TypeVar("_Result")


def _name(folder: Union[str, bytes, os.PathLike[str]]) -> bytes:
    """Returns a directory's name for C. Raises `ValueError` for one with a null byte."""
    name = os.fsencode(folder)
    if b"\0" in name:
        raise ValueError("directory name contains a null byte")
    return name


class DbBatch(Alone, MergesParts):
    """Operations that a database writes atomically. A batch is written when its `with` block ends without an exception.

    Its methods raise `TooLong` for a key or value of 2^32 bytes or more, `BatchFull` after 2^32 - 1 operations, and
    `OutOfMemory`.
    """

    _close = "batch_close"

    def __init__(self, db: Db) -> None:
        """Creates an empty batch of a database, as `Db.write_batch` does."""
        self._db = db
        super().__init__(db._library, "batch_create")

    def put(self, key: Bytes, value: Bytes) -> None:
        """Adds a put."""
        first, second = bytes_of(key), bytes_of(value)
        self._call("batch_put", first, len(first), second, len(second))

    def merge(self, key: Bytes, operand: Bytes) -> None:
        """Adds a merge. Under `Operator.MIXED`, bytes that are not an operand replace the value."""
        first, second = bytes_of(key), bytes_of(operand)
        self._call("batch_merge", first, len(first), second, len(second))

    def merge_part(self, part: Part, key: Bytes, payload: Bytes, parameter: int = 0) -> None:
        """Adds a merge by an operator of `Part`."""
        first, second = bytes_of(key), bytes_of(payload)
        self._call("batch_merge_as", part, checked(parameter), first, len(first), second, len(second))

    def delete(self, key: Bytes) -> None:
        """Adds a deletion."""
        first = bytes_of(key)
        self._call("batch_delete", first, len(first))

    def delete_range(self, begin: Bytes, end: Bytes) -> None:
        """Adds a deletion of all keys from `begin` to below `end`."""
        first, second = bytes_of(begin), bytes_of(end)
        self._call("batch_delete_range", first, len(first), second, len(second))

    def __setitem__(self, key: Bytes, value: Bytes) -> None:
        """Adds a put."""
        self.put(key, value)

    def __delitem__(self, key: Bytes) -> None:
        """Adds a deletion."""
        self.delete(key)

    def __len__(self) -> int:
        """Returns the number of operations."""
        count = _U64()
        self._call("batch_count", ctypes.byref(count))
        return count.value

    def clear(self) -> None:
        """Removes all operations, and keeps their memory for new ones."""
        self._call("batch_clear")

    def __enter__(self) -> DbBatch:
        return self

    def __exit__(self, kind: Optional[Type[BaseException]], *_: object) -> None:
        """Writes the batch, unless an exception ends the `with` block. Raises what `Db.write` does."""
        try:
            if kind is None:
                self._db.write(self)
        finally:
            self.close()


class DbSnapshot(Alone, Reader):
    """A read-only view of a database at one point in time, from `Db.snapshot`. Later writes do not change it.

    It can be read even after its database was closed. It keeps its memory until `with` closes it.
    """

    _close = "snapshot_close"
    _prefix = "snapshot_"

    def __init__(self, db: Db, function: str = "snapshot", *arguments: object) -> None:
        super().__init__(db._library, function, db._at, *arguments)

    def again(self) -> DbSnapshot:
        """Returns another handle to the snapshot, so that two threads need not wait for one another. Copies no data."""
        with self._lock:
            if self._is_closed:
                raise Closed()
            found = DbSnapshot.__new__(DbSnapshot)
            Alone.__init__(found, self._library, "snapshot_again", self._at)
            return found

    @property
    def sequence(self) -> int:
        """Sequence number of the last write in the snapshot."""
        sequence = _U64()
        self._call("snapshot_sequence", ctypes.byref(sequence))
        return sequence.value

    def _cursor(self, low: Bytes, high: Optional[Bytes], prefix: Optional[Bytes]) -> Cursor:
        with self._lock:
            return super()._cursor(low, high, prefix)

    def __enter__(self) -> DbSnapshot:
        return self

    def __exit__(self, *_: object) -> None:
        self.close()


class Db(Reader, MutableMapping[bytes, bytes], MergesParts):
    """A durable database in a directory, which threads share.

    >>> import tempfile
    >>> with tempfile.TemporaryDirectory() as folder:
    ...     with Db(folder) as db:
    ...         db[b"colour"] = b"blue"
    ...     with Db(folder) as db:
    ...         list(db.items())
    [(b'colour', b'blue')]

    It is a `MutableMapping`. `len` reads all rows, and deleting a key that has no value is no error. `pop`, `popitem` and
    `setdefault` read and then write, so a write of another thread may come in between: use `transact`.

    Keys and values are bytes or bytes-like. When a write returns, it is acknowledged, and durable unless the options say
    otherwise. Calls release the interpreter lock. After a fork only the parent can use the database: in the child its
    calls raise `Forked`.

    Calls that write raise `ReadOnly` if a log fails or has failed, `SequencesSpent`, `IdsSpent`, `TooLong` for a key or
    value of 2^32 bytes or more, and `OutOfMemory`. A call that raises has written nothing.
    """

    def __init__(
        self,
        folder: Union[str, bytes, os.PathLike[str]],
        operator: Optional[Operator] = None,
        options: DbOptions = DbOptions(),
        *,
        progress: Optional[Callable[[Progress], None]] = None,
        events: Optional[Callable[[Event], None]] = None,
        recover_to: Optional[int] = None,
        give_up_until: Optional[int] = None,
        marks: Sequence[int] = (),
        must_exist: bool = False,
        read_only: bool = False,
    ) -> None:
        """Opens the database in a directory, which is created if it does not exist. With `must_exist` it raises `Missing` instead.

        With `read_only` it opens a database that exists, also while another process has it open. Nothing is locked or written,
        and `refresh` catches up with later writes.

        Without `operator` it is the one that the directory was created with, and `Operator.MIXED` for a new directory.

        `progress` is called with the progress of the opening, and `events` with each event, by the thread that did the
        work, which waits for the call. Both may call the database, except its `close`.

        Writes after the sequence number `recover_to` are discarded: the first write removes them from the files. Opening
        fails if a discarded batch begins after `give_up_until`. Snapshots are taken at the sequence numbers `marks`, for
        `take_mark`. Each of these numbers must be the end of a batch.

        Raises `Locked`, `Damaged`, `Missing`, `NotRecoverable`, `OtherOperator`, `FileFault`, `BadOption`, `OutOfMemory`,
        and `ValueError` for a name with a null byte.
        """
        name = _name(folder)
        given = Options.of(operator, options)
        given.recover(recover_to, give_up_until, marks)
        given.must_exist, given.read_only = must_exist, read_only
        self._begin(given, progress, events, "open", name)

    @classmethod
    def in_memory(cls, operator: Operator = Operator.MIXED, options: DbOptions = DbOptions()) -> Db:
        """Creates an empty database without files. Raises `BadOption`, `FileFault` and `OutOfMemory`."""
        db = cls.__new__(cls)
        db._begin(Options.of(operator, options), None, None, "in_memory")
        return db

    def _begin(
        self,
        given: Options,
        progress: Optional[Callable[[Progress], None]],
        events: Optional[Callable[[Event], None]],
        function: str,
        *arguments: object,
    ) -> None:
        functions = library()
        # Keeps the callbacks alive while the database is open.
        self._listeners = (progress_function(progress), event_function(events))
        given.progress, given.event = self._listeners
        super().__init__(functions, function, *arguments, ctypes.byref(given))
        _open.add(self)

    def put(self, key: Bytes, value: Bytes) -> None:
        """Sets a key to a value."""
        first, second = bytes_of(key), bytes_of(value)
        self._call("put", first, len(first), second, len(second))

    def __setitem__(self, key: Bytes, value: Bytes) -> None:
        """Sets a key to a value."""
        self.put(key, value)

    def merge(self, key: Bytes, operand: Bytes) -> None:
        """Merges an operand into a key's value. Under `Operator.MIXED` it raises `BadOperand` for bytes that are not an operand: `add` and
        the other calls make operands."""
        first, second = bytes_of(key), bytes_of(operand)
        self._call("merge", first, len(first), second, len(second))

    def merge_part(self, part: Part, key: Bytes, payload: Bytes, parameter: int = 0) -> None:
        """Merges by an operator of `Part`."""
        first, second = bytes_of(key), bytes_of(payload)
        self._call("merge_as", part, checked(parameter), first, len(first), second, len(second))

    def delete(self, key: Bytes) -> None:
        """Deletes a key. It is no error if the key has no value: nothing is read."""
        first = bytes_of(key)
        self._call("delete", first, len(first))

    def __delitem__(self, key: Bytes) -> None:
        """Deletes a key, as `delete` does."""
        self.delete(key)

    def delete_range(self, begin: Bytes, end: Bytes) -> None:
        """Deletes all keys from `begin` (inclusive) to `end` (exclusive). The range may be empty."""
        first, second = bytes_of(begin), bytes_of(end)
        self._call("delete_range", first, len(first), second, len(second))

    def clear(self) -> None:
        """Deletes all keys that have a value at the time of the call, by one range deletion."""
        with contextlib.closing(self.items(reverse=True)) as rows:
            for key, _ in rows:
                self.delete_range(b"", key + b"\0")
                return

    def update(  # type: ignore[override]
        self, other: Union[Mapping[bytes, bytes], Iterable[Tuple[Bytes, Bytes]]] = ()
    ) -> None:
        """Sets each key of a mapping, or of pairs, to its value: all of them by one batch, atomically."""
        pairs: Iterable[Tuple[Bytes, Bytes]] = other.items() if isinstance(other, Mapping) else other
        with self.write_batch() as batch:
            for key, value in pairs:
                batch.put(key, value)

    def write_batch(self) -> DbBatch:
        """Returns a batch that is written when its `with` block ends, unless that raises.

        >>> with Db.in_memory() as db:
        ...     with db.write_batch() as batch:
        ...         batch.put(b"colour", b"blue")
        ...         batch.union(b"tags", [b"new"])
        ...     list(db)
        [b'colour', b'tags']
        """
        return DbBatch(self)

    def write(self, batch: DbBatch, synced: Optional[bool] = None) -> None:
        """Writes a batch atomically. `synced` says whether it is durable on return; by default the options decide."""
        with batch._lock:
            if batch._is_closed:
                raise Closed()
            if synced is None:
                self._call("write", batch._at)
            else:
                self._call("write_with", batch._at, synced)

    def write_bytes(self, batch: Bytes, synced: bool = True) -> None:
        """Writes a batch that `batch_bytes` or RocksDB has encoded, in a log record of its own.

        Its operations get the sequence number of the batch and those that follow it, or, if it is 0, the next ones of the
        database. The batch may skip sequence numbers; its log record notes the gap. Also raises `NotABatch` and
        `SequenceBack`.
        """
        text = bytes_of(batch)
        self._call("write_bytes", text, len(text), synced)

    def transaction(self) -> DbTransaction:
        """Begins a transaction, which commits when its `with` block ends without an exception. Raises `OutOfMemory`."""
        if self._is_closed:
            raise Closed()
        return DbTransaction(self)

    def transact(self, function: Callable[[DbTransaction], _Result]) -> _Result:
        """Runs a function with a transaction, commits, and returns its result.

        On a conflict it runs the function again, with a new transaction, at most 100 times, and waits longer each time. An
        exception of the function ends it without a write. Raises `Conflict` after the last time, and what `write` does.

        >>> with Db.in_memory() as db:
        ...     db.transact(lambda t: t.put(b"count", t.get(b"count", b"") + b"|"))
        ...     db[b"count"]
        b'|'
        """
        if self._is_closed:
            raise Closed()
        return transact(self, function)

    def compare_and_put(self, key: Bytes, expected: Optional[Bytes], new: Bytes) -> bool:
        """Sets a key to a value if it has the expected one, None for none, and returns True if it had. Raises what `transact` does."""
        wanted = None if expected is None else bytes_of(expected)

        def put(transaction: DbTransaction) -> bool:
            is_expected = transaction.get(key) == wanted
            if is_expected:
                transaction.put(key, new)
            return is_expected

        return self.transact(put)

    def insert_if_absent(self, key: Bytes, value: Bytes) -> bool:
        """Sets a key to a value if it has none, and returns True if it had none. Raises what `transact` does."""
        return self.compare_and_put(key, None, value)

    def snapshot(self) -> DbSnapshot:
        """Takes a snapshot of the database as it is now; `with` closes it."""
        if self._is_closed:
            raise Closed()
        return DbSnapshot(self)

    def sync(self) -> None:
        """Waits until all acknowledged writes are durable. Raises `ReadOnly`."""
        self._call("sync")

    def flush(self) -> None:
        """Flushes the memtables. Optional: flushes happen automatically."""
        self._call("flush")

    def compact(self) -> None:
        """Compacts until no compaction is due. Optional: compactions happen automatically."""
        self._call("compact")

    def checkpoint(self) -> None:
        """Writes a checkpoint, and deletes the logs that it covers. Writers wait for a flush of the memtables.

        Raises `FileFault` if the checkpoint is not written: the logs are kept, and the database works as before. Raises
        `ReadOnly`.
        """
        self._call("checkpoint")

    def checkpoint_to(self, snapshot: DbSnapshot) -> None:
        """Writes a checkpoint of a snapshot, and deletes the logs that hold no later write.

        Later writes stay in logs, so that the snapshot can be one of the `marks` of the next opening. Writers are not
        stopped. Does nothing if an existing checkpoint covers the snapshot. Raises `Closed` if the database is closed
        before it ends, `OtherDatabase`, and what `checkpoint` does.
        """
        # With its own handle, other readers of the snapshot need not wait.
        with snapshot.again() as again:
            self._call("checkpoint_to", again._at)

    def backup(self, folder: Union[str, bytes, os.PathLike[str]]) -> int:
        """Writes the database as it is now to a new directory, and returns the sequence number of the last write there.

        The directory is a database of its own. Writers are not stopped; checkpoints wait. Within a file system, files that
        do not change any more are linked. The directory gets its name once it is whole and durable; a crash may leave one
        with `.new-` after its name, which may be deleted. Raises `FileFault`, also if the name is taken, `Damaged` if a
        copy is not read as it was written, `ReadOnly` if the log failed, and `Closed` if the database is closed meanwhile.
        """
        sequence = _U64()
        self._call("backup", _name(folder), ctypes.byref(sequence))
        return sequence.value

    def refresh(self) -> int:
        """Catches up with the writes of another process, if the database was opened with `read_only`.

        Returns the sequence number of the last write that it has then. It has each write that was acknowledged before the
        call. Reads at the same time see whole batches, in order, and never an older state than an earlier read.

        Raises `Damaged`, also if the files end before what was read, `Missing`, `OutOfMemory`, and `FileFault`, also if files
        were replaced each time that they were read, or the database was not opened with `read_only`.
        """
        sequence = _U64()
        self._call("refresh", ctypes.byref(sequence))
        return sequence.value

    def next_log(self) -> None:
        """Switches to a new log. A checkpoint of the present state can then delete all older logs. Optional.

        Raises `FileFault` if no log can be created: the current one stays in use. Raises `ReadOnly`.
        """
        self._call("next_log")

    def take_mark(self, sequence: int) -> DbSnapshot:
        """Returns the snapshot that opening took at `sequence`, one of its `marks`; `with` closes it. Each can be taken once.

        Raises `NotProtected`.
        """
        if self._is_closed:
            raise Closed()
        return DbSnapshot(self, "take_mark", sequence)

    def failure(self) -> Optional[UcstoreError]:
        """Returns the error after which the database takes no more writes, or None."""
        status = self._status("failure")
        return None if status == OK else self._library.error(status)

    def stats(self) -> DbStats:
        """Returns statistics."""
        stats = Stats(ctypes.sizeof(Stats))
        self._call("stats", ctypes.byref(stats))
        return DbStats(*(getattr(stats, name) for name in DbStats._fields))

    def stats_text(self) -> str:
        """Returns the statistics as a table."""
        size, room = _Size(), ctypes.create_string_buffer(4096)
        self._call("stats_text", room, len(room), ctypes.byref(size))
        return room.value.decode()

    def close(self) -> None:
        """Closes the database. On return all acknowledged writes are durable. A second call does nothing.

        Raises the earlier failure, if there was one: `ReadOnly`, or the error of a background checkpoint.
        """
        if not self._is_closed:
            # Calls of other threads complete. Their memory is freed with the last reference.
            status = self._library.functions["end"](self._at)
            self._is_closed = True
            _open.discard(self)
            if status != Closed.status:
                self._check(status)

    def __enter__(self) -> Db:
        return self

    def __exit__(
        self, kind: Optional[Type[BaseException]], error: Optional[BaseException], _: Optional[TracebackType]
    ) -> None:
        """Closes the database. If an exception ends the `with` block, errors of closing do not replace it."""
        try:
            self.close()
        except UcstoreError:
            if kind is None:
                raise

    def __del__(self) -> None:
        # The pointer is missing if opening failed.
        if self.__dict__.get("_at"):
            self._library.functions["close"](self._at)


# Open databases: their threads must not call into an interpreter that is exiting.
_open: weakref.WeakSet[Db] = weakref.WeakSet()


@atexit.register
def _close_all() -> None:
    """Closes all open databases. Errors are ignored; call `close` to see them."""
    for db in list(_open):
        try:
            db.close()
        except UcstoreError:
            pass
