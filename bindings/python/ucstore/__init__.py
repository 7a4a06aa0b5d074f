"""An embedded key-value store in memory, an LSM tree that is proved against its contracts.

    >>> with Store(Operator.APPEND) as store:
    ...     store[b"colour"] = b"blue"
    ...     with store.snapshot() as before:
    ...         del store[b"colour"]
    ...         before[b"colour"], store.get(b"colour")
    (b'blue', None)

A `Store` is in memory only. To make it durable, keep a log in a file: append what `Store.prepare` returns before calling
`Store.commit`, and read the file with `Store.open`.

    >>> with Store(Operator.APPEND) as store:
    ...     log = store.prepare(0, [Put(b"colour", b"blue")])
    ...     store.commit()
    >>> with Store.open(Operator.APPEND, log) as store:
    ...     store[b"colour"], str(store.ended)
    (b'blue', 'clean')

`Db` is a durable database in a directory, which threads share.
"""

import ctypes
import enum
import os
import struct
import threading
from pathlib import Path
from typing import (
    Any, Callable, Dict, Iterable, Iterator, List, NamedTuple, Optional, Sequence, Tuple, Type, TypeVar, Union,
)

from ._operands import MergesParts, Part, ReadsParts, checked, int_of, set_bytes, set_of

__all__ = [
    "BadOperand", "BadOption", "BatchFault", "BatchFull", "Checkpoint", "Closed", "Conflict", "Damaged", "Db", "DbBatch", "DbError",
    "DbOptions", "DbSnapshot", "DbStats", "DbTransaction", "Delete", "DeleteRange", "End", "Ended", "Event", "EventKind", "FileFault",
    "Forked", "IdsSpent", "Job", "Locked", "LogFault", "LogWrites", "LookupSource", "Merge", "Missing", "NoCheckpoint",
    "NoJob", "NoStore", "NoView", "NotABatch", "NotProtected", "NotRecoverable", "Operation", "Operator", "Options",
    "OtherDatabase", "OtherOperator", "OutOfMemory", "Part", "Progress", "Put", "ReadOnly", "Report", "RunsClaimed",
    "SequenceBack", "SequencesSpent", "Snapshot", "Store", "Sync", "TooLong", "UcstoreError", "UnknownOperator", "View",
    "Write", "WriteBatch", "batch_bytes", "int_of", "is_operand", "log_writes", "operand_bytes", "set_bytes",
    "set_of",
]


class UcstoreError(Exception):
    """A call that failed. The object that it was called on is unchanged."""

    status = -1
    text = "unexpected status"

    def __init__(self, text: Optional[str] = None):
        super().__init__(text or self.text)


class OutOfMemory(UcstoreError, MemoryError):
    """An allocation failed."""

    status, text = 1, "out of memory"


class NoStore(UcstoreError, ValueError):
    """The store is closed."""

    status, text = 2, "store is not open"


class NotProtected(UcstoreError, LookupError):
    """No snapshot protects this sequence number."""

    status, text = 5, "no snapshot at this sequence number"


class UnknownOperator(UcstoreError, ValueError):
    """There is no merge operator with this number."""

    status, text = 6, "unknown merge operator"


class BadOption(UcstoreError, ValueError):
    """An option is out of range."""

    status, text = 7, "option out of range"


class IdsSpent(UcstoreError):
    """Run IDs are exhausted: the greatest is 2^64 - 2."""

    status, text = 9, "run IDs exhausted"


class SequencesSpent(UcstoreError):
    """Sequence numbers are exhausted: the greatest is 2^56 - 1."""

    status, text = 10, "sequence numbers exhausted"


class TooLong(UcstoreError, ValueError):
    """A key or a value has 2^32 bytes or more."""

    status, text = 11, "key or value too long"


class NotABatch(UcstoreError, ValueError):
    """The bytes are not a write batch."""

    status, text = 12, "malformed write batch"


class SequenceBack(NotABatch):
    """The sequence number of a batch is neither 0 nor above the last one."""

    status, text = 16, "sequence number not above the last one"


class BatchFull(UcstoreError):
    """The batch has 2^32 - 1 operations."""

    status, text = 18, "batch full"


class NoView(UcstoreError, ValueError):
    """The view is closed."""

    status, text = 19, "view is not open"


class NoJob(UcstoreError, ValueError):
    """The job has ended."""

    status, text = 21, "job is not open"


class RunsClaimed(UcstoreError):
    """The run limit is reached, and jobs hold the runs that would be compacted: end a job and retry."""

    status, text = 24, "run limit reached"


class NoCheckpoint(UcstoreError, ValueError):
    """The checkpoint is closed."""

    status, text = 26, "checkpoint is not open"


class BadOperand(UcstoreError, ValueError):
    """The bytes are not an operand of `Operator.MIXED`, a number does not have 8 bytes, or a set is not in order."""

    status, text = 31, "malformed operand"


_OK, _NOT_FOUND, _ROOM, _LOG_ENDS = 0, 4, 14, 15

_ERRORS = {
    error.status: error
    for error in (
        OutOfMemory, NoStore, NotProtected, UnknownOperator, BadOption, IdsSpent, SequencesSpent, TooLong,
        NotABatch, SequenceBack, BatchFull, NoView, NoJob, RunsClaimed, NoCheckpoint, BadOperand,
    )
}


def _check(status: int) -> None:
    """Raises the exception of a status, if it is an error."""
    if status != _OK:
        raise _ERRORS[status]() if status in _ERRORS else UcstoreError(f"unexpected status {status}")


class Operator(enum.IntEnum):
    """Merge operators. An operator combines a key's operands and its value."""

    APPEND = 0
    """Byte strings joined by commas."""
    COUNTER = 1
    """Sum of 64-bit numbers, 8 bytes each, little-endian. Any other value counts as 0."""
    MAXIMUM = 2
    """The greater byte string."""
    TAIL = 3
    """The last four bytes of the byte strings joined."""
    MIXED = 4
    """The operators that each operand names: see `Part`."""


class Options(NamedTuple):
    """Options of a store, with the names and meanings of RocksDB's (its wiki, "Universal Compaction")."""

    write_buffer_size: int = 4194304
    """Size in bytes at which the memtable is full, at least 1."""
    compaction_trigger: int = 4
    """Number of runs at which compaction starts, at least 1."""
    stop_trigger: int = 36
    """Number of runs at which a write that flushes compacts first, `compaction_trigger` to 255."""
    size_ratio: int = 1
    """Percentage by which a run may exceed the newer ones that are compacted with it."""
    max_size_amplification_percent: int = 200
    """Size of the newer runs, in percent of the oldest, above which all are compacted."""
    min_merge_width: int = 2
    """Minimum number of runs compacted by size ratio, at least 2."""
    max_merge_width: int = 4294967295
    """Maximum number of runs in a compaction, at least `min_merge_width`."""
    compacts_itself: bool = True
    """True to compact after each flush, False to compact only at `stop_trigger` runs."""
    max_write_buffer_number: int = 1
    """Maximum number of memtables, at least 1. With more than 1, a job flushes a full one, and a write only when all are full."""


class Put(NamedTuple):
    """Sets a key to a value."""

    key: bytes
    value: bytes


class Delete(NamedTuple):
    """Deletes a key."""

    key: bytes


class Merge(NamedTuple):
    """Merges an operand into a key's value."""

    key: bytes
    operand: bytes


class DeleteRange(NamedTuple):
    """Deletes all keys from `begin` (inclusive) to `end` (exclusive)."""

    begin: bytes
    end: bytes


Operation = Union[Put, Delete, Merge, DeleteRange]

# Tags of RocksDB's write batches.
_TAGS = {Delete: 0, Put: 1, Merge: 2, DeleteRange: 15}
_KINDS = {tag: kind for kind, tag in _TAGS.items()}


class Write(NamedTuple):
    """A write in a log."""

    sequence: int
    operation: Operation


class Report(NamedTuple):
    """Statistics of a store.

    `bytes` includes 8 bytes for each sequence number, and `gathered` is the number of writes in the memtables.
    """

    runs: int
    snapshots: int
    points: int
    fragments: int
    bytes: int
    gathered: int
    last: int


class LookupSource(enum.IntEnum):
    """Part of the store that answers a lookup."""

    MEMTABLE = 0
    """The memtables: they hold a put or a deletion of the key, or a range deletion over it."""
    FILTERS = 1
    """The filters: the memtables do not answer, and no run has a write of the key."""
    RUNS = 2
    """The runs: the memtables do not answer, and a run has a write of the key."""


class End(enum.IntEnum):
    """Ways in which a log ends: at its end, in an incomplete record, or at a fault of a record or of a batch."""

    CLEAN = 0
    TORN = 1
    LOG_FAULT = 2
    BATCH_FAULT = 3


class LogFault(enum.IntEnum):
    """Faults of a log record."""

    BAD_LENGTH = 1
    BAD_CHECKSUM = 2
    UNSUPPORTED_TYPE = 3
    MIDDLE_ALONE = 4
    LAST_ALONE = 5
    FULL_INSIDE = 6
    FIRST_INSIDE = 7


class BatchFault(enum.IntEnum):
    """Faults of a batch in a log."""

    TOO_SHORT = 1
    SEQUENCE_BACK = 2
    SEQUENCE_TOO_LARGE = 3
    BAD_TAG = 4
    CUT = 5
    BAD_NUMBER = 6
    OTHER_FAMILY = 7
    WRONG_COUNT = 8
    OUT_OF_MEMORY = 9


class Ended(NamedTuple):
    """Where and why reading a log ended.

    `place` is an offset in the log; with `End.BATCH_FAULT` it is the number of a payload, from 1.
    """

    end: End
    fault: Union[None, LogFault, BatchFault]
    place: int

    @property
    def is_sound(self) -> bool:
        """True if nothing was lost except writes that a crash left unfinished."""
        return self.end in (End.CLEAN, End.TORN)

    def __str__(self) -> str:
        if self.end == End.CLEAN:
            return "clean"
        if self.fault is None:
            return f"torn at {self.place}"
        where = "in batch" if self.end == End.BATCH_FAULT else "at"
        return f"a fault {where} {self.place}: {self.fault.name}"


class _Handle(ctypes.Structure):
    _fields_ = [("at", ctypes.c_void_p)]


class _Options(ctypes.Structure):
    _fields_ = [
        ("size", ctypes.c_size_t), ("write_buffer_size", ctypes.c_uint64), ("compaction_trigger", ctypes.c_uint32),
        ("stop_trigger", ctypes.c_uint32), ("size_ratio", ctypes.c_uint32),
        ("max_size_amplification_percent", ctypes.c_uint32), ("min_merge_width", ctypes.c_uint32),
        ("max_merge_width", ctypes.c_uint32), ("compacts_itself", ctypes.c_uint32),
        ("max_write_buffer_number", ctypes.c_uint32),
    ]

    @classmethod
    def of(cls, options: Options) -> "_Options":
        """Returns the options as a C struct. Raises `BadOption` for a number that its field would truncate."""
        found = cls(ctypes.sizeof(cls), *options)
        if any(getattr(found, name) != value for name, value in zip(Options._fields, options)):
            raise BadOption()
        return found


class _Ended(ctypes.Structure):
    _fields_ = [("kind", ctypes.c_uint32), ("fault", ctypes.c_uint32), ("place", ctypes.c_uint64)]

    def told(self) -> Ended:
        faults: Dict[int, Union[Type[LogFault], Type[BatchFault]]] = {End.LOG_FAULT: LogFault, End.BATCH_FAULT: BatchFault}
        fault = faults[self.kind](self.fault) if self.kind in faults else None
        return Ended(End(self.kind), fault, self.place)


class _Report(ctypes.Structure):
    _fields_ = [("size", ctypes.c_size_t), *((name, ctypes.c_uint64) for name in Report._fields)]


class _LogPlace(ctypes.Structure):
    _fields_ = [("offset", ctypes.c_uint64), ("last", ctypes.c_uint64), ("batches", ctypes.c_uint64)]


# Version of the library's binary interface.
_ABI = 2


def _load() -> ctypes.CDLL:
    """Loads the shared library: the one that is named, or the one next to this module, or the system's."""
    name = f"libucstore.so.{_ABI}"
    beside = Path(__file__).with_name(name)
    return ctypes.CDLL(os.environ.get("UCSTORE_LIBRARY") or (str(beside) if beside.exists() else name))


# Argument types. A byte string is a pointer and a length.
_POINTER, _SIZE, _U64, _U32 = ctypes.c_void_p, ctypes.c_size_t, ctypes.c_uint64, ctypes.c_uint32
_TEXT = (ctypes.c_char_p, _SIZE)
_PLACE = (_POINTER, _SIZE)

# Functions that read a store or a view.
_READS: Dict[str, Sequence[Any]] = {
    "last": (_POINTER, _POINTER),
    "get": (_POINTER, *_TEXT, *_PLACE, _POINTER),
    "source": (_POINTER, *_TEXT, _POINTER),
    "get_at": (_POINTER, *_TEXT, _U64, *_PLACE, _POINTER),
    "get_many": (_POINTER, *_TEXT, *_PLACE, *_PLACE, *_PLACE, _POINTER),
    "scan": (_POINTER, *_TEXT, *_TEXT, ctypes.c_bool, _U64, *_PLACE, _POINTER, _POINTER),
    "scan_at": (_POINTER, *_TEXT, *_TEXT, ctypes.c_bool, _U64, _U64, *_PLACE, _POINTER, _POINTER),
    "report": (_POINTER, _POINTER),
}

_SIGNATURES: Dict[str, Sequence[Any]] = {
    "create": (_POINTER, _U32, _POINTER),
    "open": (_POINTER, _U32, _POINTER, *_TEXT, _POINTER),
    "close": (_POINTER,),
    "batch_put": (_POINTER, *_TEXT, *_TEXT),
    "batch_merge": (_POINTER, *_TEXT, *_TEXT),
    "batch_delete": (_POINTER, *_TEXT),
    "batch_delete_range": (_POINTER, *_TEXT, *_TEXT),
    "batch_clear": (_POINTER,),
    "batch_count": (_POINTER, _POINTER),
    "batch_bytes": (_POINTER, *_PLACE, _POINTER),
    "batch_close": (_POINTER,),
    "write": (_POINTER, _POINTER),
    "write_bytes": (_POINTER, *_TEXT),
    "put": (_POINTER, *_TEXT, *_TEXT),
    "delete": (_POINTER, *_TEXT),
    "merge": (_POINTER, *_TEXT, *_TEXT),
    "operand": (_U32, _U32, *_TEXT, *_PLACE, _POINTER),
    "operand_check": _TEXT,
    "delete_range": (_POINTER, *_TEXT, *_TEXT),
    "prepare": (_POINTER, _POINTER, _U64, *_PLACE, _POINTER),
    "prepare_bytes": (_POINTER, *_TEXT, _U64, *_PLACE, _POINTER),
    "commit": (_POINTER,),
    "give_up": (_POINTER,),
    "flush": (_POINTER,),
    "snapshot": (_POINTER, _POINTER),
    "release": (_POINTER, _U64),
    "snapshots": (_POINTER, *_PLACE, _POINTER),
    **_READS,
    **{f"view_{name}": types for name, types in _READS.items()},
    "view": (_POINTER, _POINTER),
    "view_again": (_POINTER, _POINTER),
    "view_close": (_POINTER,),
    "checkpoint": (_POINTER, _POINTER),
    "checkpoint_next": (_POINTER, _U64, _U64, *_PLACE, _POINTER, _POINTER),
    "checkpoint_close": (_POINTER,),
    "job": (_POINTER, _POINTER, _POINTER),
    "job_run": (_POINTER,),
    "job_end": (_POINTER, _POINTER, _POINTER),
    "job_input_bytes": (_POINTER, _POINTER),
    "job_close": (_POINTER,),
    "compact": (_POINTER, _POINTER),
    "log_next": (*_TEXT, _POINTER, *_PLACE, _POINTER, _POINTER, _POINTER),
}


_Function = Callable[..., int]


class _Library:
    """The functions of `ucstore.h`, without their prefix. The header documents them and the requirements on the caller.

    The shared library is loaded at the first call: a program that uses `Db` alone does not need it.
    """

    def __init__(self) -> None:
        self._loading = threading.Lock()
        self._is_loaded = False

    def load(self) -> None:
        """Loads the shared library once. Raises `OSError` and `ImportError`."""
        with self._loading:
            if not self._is_loaded:
                self.__dict__.update(self._functions())
                self._is_loaded = True

    def __getattr__(self, name: str) -> "_Function":
        if name not in _SIGNATURES:
            raise AttributeError(name)
        self.load()
        function: _Function = self.__dict__[name]
        return function

    @staticmethod
    def _functions() -> "Dict[str, _Function]":
        library = _load()
        if library.ucstore_version() != _ABI:
            raise ImportError(f"{library._name} does not have ABI version {_ABI}")
        functions = {}
        for name, types in _SIGNATURES.items():
            function = getattr(library, f"ucstore_{name}")
            function.argtypes, function.restype = types, ctypes.c_int32
            functions[name] = function
        return functions


_library = _Library()

# Sizes in bytes: of the buffer for one value, for each of many values, and for a page of a scan.
_USUAL_VALUE, _USUAL_SHARE, _PAGE_BYTES = 512, 256, 16 * 1024

# Length that the library returns for a key without a value.
_NO_VALUE = (1 << 64) - 1

# Size in bytes of a record's header in a log, and maximum size of the data that follows it.
_HEADER = 7
_MOST_FRAGMENT = 32768 - _HEADER

# Maximum number of rows in a page.
_PAGE_ROWS = 128

# Rows of a checkpoint's first piece, maximum rows of a piece, and maximum bytes of a piece with more than one row.
_FIRST_ROWS, _MOST_ROWS, _PIECE_BYTES = 16, 4096, 64 * 1024

_Row = Tuple[bytes, bytes]


def _bytes_of(text: bytes) -> bytes:
    """Returns bytes unchanged. Raises `TypeError` for anything else: ctypes would accept None."""
    if not isinstance(text, bytes):
        raise TypeError(f"expected bytes, not {type(text).__name__}")
    return text


def _texts(*texts: bytes) -> Iterator[Union[bytes, int]]:
    """Returns the arguments for byte strings: the pointer and the length of each."""
    for text in texts:
        yield _bytes_of(text)
        yield len(text)


def operand_bytes(part: Part, payload: bytes, parameter: int = 0) -> bytes:
    """Returns an operand of `Operator.MIXED`. Operands in turn, the first one first, are one operand that does what they do.

    Raises `UnknownOperator` for a parameter out of range, `BadOperand` for a number that does not have 8 bytes or a set that is not in order, `TooLong` for a payload of
    2^32 bytes or more, and `OutOfMemory`.
    """
    room, size = ctypes.create_string_buffer(len(payload) + 8), _SIZE()
    _check(_library.operand(part, checked(parameter), *_texts(payload), room, len(room), ctypes.byref(size)))
    return room.raw[: size.value]


def is_operand(operand: bytes) -> bool:
    """Returns whether the bytes are operands of `Operator.MIXED` in turn, with numbers of 8 bytes and sets in order."""
    return _library.operand_check(*_texts(operand)) == _OK


def _sequence(at: int) -> int:
    """Returns a sequence number if it has 64 bits: ctypes would truncate it silently."""
    if not 0 <= at < 1 << 64:
        raise NotProtected()
    return at


def _text_at(room: memoryview, place: int) -> Tuple[bytes, int]:
    """Returns the byte string that follows its 8-byte length at an offset, and the offset after it."""
    (length,) = struct.unpack_from("<Q", room, place)
    end = place + 8 + length
    return bytes(room[place + 8:end]), end


def _cut(values: bytes, lengths: Iterable[int]) -> Iterator[Optional[bytes]]:
    """Yields values that are stored one after the other. A length may say that there is none."""
    place = 0
    for length in lengths:
        if length == _NO_VALUE:
            yield None
        else:
            yield values[place:place + length]
            place += length


def _end_of_prefix(prefix: bytes) -> Optional[bytes]:
    """Returns the least key above all keys that begin with these bytes, or None if there is none."""
    kept = _bytes_of(prefix).rstrip(b"\xff")
    return kept[:-1] + bytes([kept[-1] + 1]) if kept else None


class _Reader(ReadsParts):
    """Read methods of a store, its snapshots and its views.

    As in a dict, only `reader[key]` raises `KeyError`.
    """

    def _get(self, key: bytes) -> Optional[bytes]:
        raise NotImplementedError

    def _scan(self, low: bytes, high: Optional[bytes]) -> Iterator[_Row]:
        raise NotImplementedError

    def get(self, key: bytes, default: Optional[bytes] = None) -> Optional[bytes]:
        """Returns the value of a key, or `default`. Raises `OutOfMemory`."""
        found = self._get(key)
        return default if found is None else found

    def __getitem__(self, key: bytes) -> bytes:
        """Returns the value of a key. Raises `KeyError` and `OutOfMemory`."""
        found = self._get(key)
        if found is None:
            raise KeyError(key)
        return found

    def __contains__(self, key: bytes) -> bool:
        """Returns True if a key has a value. Raises `OutOfMemory`."""
        return self._get(key) is not None

    def __iter__(self) -> Iterator[bytes]:
        """Yields the keys in byte order. Raises `OutOfMemory`."""
        return (key for key, _ in self.scan())

    def items(self) -> Iterator[_Row]:
        """Yields the keys with their values, in byte order of the keys. Raises `OutOfMemory`."""
        return self.scan()

    def scan(self, low: bytes = b"", high: Optional[bytes] = None) -> Iterator[_Row]:
        """Yields the keys from `low` to below `high`, or to the last one, with their values.

        They are in byte order of the keys, and fetched in pages. Raises `OutOfMemory`.
        """
        return self._scan(low, high)

    def prefix(self, prefix: bytes) -> Iterator[_Row]:
        """Yields the keys that begin with a prefix, with their values, as `scan` does. Raises `OutOfMemory`."""
        return self._scan(prefix, _end_of_prefix(prefix))


_Self = TypeVar("_Self", bound="_Held")


class _Held:
    """An object with a handle of the library. Its calls wait for one another, so that threads may share it."""

    def _begin(self) -> None:
        """Creates a handle of zeros. Raises `OSError` and `ImportError` if the library is missing."""
        _library.load()
        self._at = _Handle()
        self._handle = ctypes.byref(self._at)
        self._lock = threading.RLock()

    def _call(self, function: _Function, *arguments: object) -> None:
        with self._lock:
            _check(function(self._handle, *arguments))

    def close(self) -> None:
        """Frees the object. A second call does nothing."""
        raise NotImplementedError

    def __enter__(self: _Self) -> _Self:
        return self

    def __exit__(self, kind: Optional[Type[BaseException]], *_: object) -> None:
        self.close()

    def __del__(self) -> None:
        # The handle is missing if construction failed, and the library may be when the interpreter exits.
        if _library is not None and "_lock" in self.__dict__:
            self.close()


class WriteBatch(_Held):
    """Operations that a store writes atomically. A batch may be written more than once.

        >>> with WriteBatch() as batch:
        ...     batch.put(b"colour", b"blue")
        ...     batch.delete(b"size")
        ...     len(batch)
        2

    A batch from `Store.write_batch` is written when its `with` block ends without an exception.
    """

    def __init__(self, store: Optional["Store"] = None) -> None:
        self._store = store
        self._begin()

    def put(self, key: bytes, value: bytes) -> None:
        """Adds a put.

        Raises `TooLong` for a key or value of 2^32 bytes or more, `BatchFull` after 2^32 - 1 operations, and `OutOfMemory`.
        """
        self._call(_library.batch_put, *_texts(key, value))

    def delete(self, key: bytes) -> None:
        """Adds a deletion. Raises what `put` does."""
        self._call(_library.batch_delete, *_texts(key))

    def merge(self, key: bytes, operand: bytes) -> None:
        """Adds a merge. Under `Operator.MIXED`, bytes that are not an operand replace the value. Raises what `put` does."""
        self._call(_library.batch_merge, *_texts(key, operand))

    def delete_range(self, begin: bytes, end: bytes) -> None:
        """Adds a deletion of all keys from `begin` to below `end`. Raises what `put` does."""
        self._call(_library.batch_delete_range, *_texts(begin, end))

    def add(self, operations: Iterable[Operation]) -> None:
        """Adds operations. Raises what `put` does."""
        for operation in operations:
            self._call(getattr(_library, _ADDS[type(operation)]), *_texts(*operation))

    def clear(self) -> None:
        """Removes all operations, and keeps their memory for new ones."""
        self._call(_library.batch_clear)

    def __len__(self) -> int:
        """Returns the number of operations."""
        count = _U64()
        self._call(_library.batch_count, ctypes.byref(count))
        return count.value

    def to_bytes(self, sequence: int = 0) -> bytes:
        """Returns the batch in RocksDB's format. `sequence` is the sequence number of its first operation.

        Raises `SequenceBack` if it is below 0.
        """
        if sequence < 0:
            raise SequenceBack()
        with self._lock:
            size = _SIZE(self._size())
            room = ctypes.create_string_buffer(size.value)
            self._call(_library.batch_bytes, room, size.value, ctypes.byref(size))
        struct.pack_into("<Q", room, 0, min(sequence, (1 << 64) - 1))
        return room.raw

    def _size(self) -> int:
        """Returns the size of the batch in bytes."""
        size = _SIZE()
        self._call(_library.batch_bytes, None, 0, ctypes.byref(size))
        return size.value

    def close(self) -> None:
        """Frees the operations. The batch is empty then, and can be used again."""
        with self._lock:
            _library.batch_close(self._handle)

    def __exit__(self, kind: Optional[Type[BaseException]], *_: object) -> None:
        """Writes the batch to its store, if it has one. Raises what `Store.write` does."""
        try:
            if kind is None and self._store is not None and len(self) > 0:
                self._store.write(self)
        finally:
            self.close()


_ADDS = {Put: "batch_put", Delete: "batch_delete", Merge: "batch_merge", DeleteRange: "batch_delete_range"}


def _batch_of(operations: Union[WriteBatch, Iterable[Operation]]) -> WriteBatch:
    """Returns a batch unchanged, and operations as a batch."""
    if isinstance(operations, WriteBatch):
        return operations
    batch = WriteBatch()
    batch.add(operations)
    return batch


def batch_bytes(operations: Iterable[Operation], sequence: int = 0) -> bytes:
    """Returns operations as a write batch in RocksDB's format. `sequence` is the sequence number of the first one."""
    return _batch_of(operations).to_bytes(sequence)


class _HeldReader(_Held, _Reader):
    """A store or a view: the library's functions for both have the same names after a prefix."""

    _prefix = ""

    def _function(self, name: str) -> _Function:
        function: _Function = getattr(_library, self._prefix + name)
        return function

    @property
    def last(self) -> int:
        """The last sequence number: 0 if nothing was written."""
        sequence = _U64()
        self._call(self._function("last"), ctypes.byref(sequence))
        return sequence.value

    def source(self, key: bytes) -> LookupSource:
        """Returns the part of the store that answers a lookup of a key. Costs at most a lookup. Raises `OutOfMemory`.

            >>> with Store(Operator.APPEND) as store:
            ...     store[b"colour"] = b"blue"
            ...     store.source(b"colour").name, store.source(b"size").name
            ('MEMTABLE', 'FILTERS')
        """
        source = _U32()
        self._call(self._function("source"), *_texts(key), ctypes.byref(source))
        return LookupSource(source.value)

    def get_at(self, key: bytes, at: int) -> Optional[bytes]:
        """Returns the value of a key at a snapshot, or None. Raises `NotProtected` and `OutOfMemory`."""
        return self._value(self._function("get_at"), *_texts(key), _sequence(at))

    def scan_at(self, low: bytes, high: Optional[bytes], at: int) -> Iterator[_Row]:
        """Yields the rows of a `scan` at a snapshot. Raises `NotProtected` and `OutOfMemory`."""
        return self._scan(low, high, at)

    def get_many(self, keys: Iterable[bytes]) -> List[Optional[bytes]]:
        """Returns the value of each key, or None. Raises `OutOfMemory`."""
        asked = list(map(_bytes_of, keys))
        count, size, length = len(asked), _SIZE(), _USUAL_SHARE * len(asked)
        key_lengths, value_lengths = (_U64 * count)(*map(len, asked)), (_U64 * count)()
        told = (key_lengths, count, value_lengths, count)
        while True:
            room = ctypes.create_string_buffer(length)
            self._call(self._function("get_many"), *_texts(b"".join(asked)), *told, room, length, ctypes.byref(size))
            if size.value <= length:
                return list(_cut(room.raw, value_lengths))
            length = size.value

    def _get(self, key: bytes) -> Optional[bytes]:
        return self._value(self._function("get"), *_texts(key))

    def _value(self, function: _Function, *arguments: object) -> Optional[bytes]:
        """Returns the value that a lookup copies to a buffer, or None."""
        size, length = _SIZE(), _USUAL_VALUE
        with self._lock:
            while True:
                room = ctypes.create_string_buffer(length)
                status = function(self._handle, *arguments, room, length, ctypes.byref(size))
                if status == _NOT_FOUND:
                    return None
                _check(status)
                if size.value <= length:
                    return ctypes.string_at(room, size.value)
                length = size.value

    def _scan(self, low: bytes, high: Optional[bytes], at: Optional[int] = None) -> Iterator[_Row]:
        room, limit = bytearray(_PAGE_BYTES), _PAGE_ROWS
        while True:
            rows, size = self._page(low, high, at, limit, room)
            yield from rows
            if size <= len(room):
                if len(rows) < limit:
                    return
                limit = min(2 * limit, _PAGE_ROWS)
            elif rows:
                limit = len(rows)
            elif limit == 1:
                room = bytearray(size)
            else:
                # The next page reports how large its only row is.
                limit = 1
            if rows:
                # No key is between the last one and this.
                low = rows[-1][0] + b"\0"

    def _page(
        self, low: bytes, high: Optional[bytes], at: Optional[int], limit: int, room: bytearray
    ) -> Tuple[List[_Row], int]:
        """Returns the first rows of a scan, at most `limit`, that fit the buffer, and the size of all rows found."""
        size, count = _SIZE(), _U64()
        ends = (*_texts(low, b"" if high is None else high), high is not None)
        place = ((ctypes.c_char * len(room)).from_buffer(room), len(room), ctypes.byref(size), ctypes.byref(count))
        if at is None:
            self._call(self._function("scan"), *ends, limit, *place)
        else:
            self._call(self._function("scan_at"), *ends, _sequence(at), limit, *place)
        rows, view, end = [], memoryview(room), 0
        for _ in range(count.value):
            key, end = _text_at(view, end)
            value, end = _text_at(view, end)
            rows.append((key, value))
        return rows, size.value

    def report(self) -> Report:
        """Returns statistics."""
        report = _Report(ctypes.sizeof(_Report))
        self._call(self._function("report"), ctypes.byref(report))
        return Report(*(getattr(report, name) for name in Report._fields))


class Store(_HeldReader, MergesParts):
    """An LSM tree in memory.

    Writes go to a memtable, which is flushed to a run when it is full. Runs are then compacted.

    Its calls wait for one another, so that threads may share it. It opens without snapshots. Each `take_snapshot` at a
    sequence number is counted, and needs its own `release`. A scan of the store that takes several pages sees writes made
    between them; a scan of a snapshot does not.

    `with` closes it at the end. A closed store raises `NoStore`.
    """

    ended = Ended(End.CLEAN, None, 0)
    """Where and why reading the log ended that the store was opened from."""

    def __init__(self, operator: Operator, options: Options = Options()) -> None:
        """Creates an empty store. Raises `BadOption` and `OutOfMemory`."""
        self._begin()
        _check(_library.create(self._handle, operator, ctypes.byref(_Options.of(options))))

    @classmethod
    def open(cls, operator: Operator, log: bytes, options: Options = Options()) -> "Store":
        """Opens a store with all writes of a write-ahead log before its first fault. Its `ended` says how the log ends.

        Raises `BadOption`, `IdsSpent` and `OutOfMemory`.
        """
        store, ended = cls.__new__(cls), _Ended()
        store._begin()
        length = (_bytes_of(log), len(log))
        _check(_library.open(store._handle, operator, ctypes.byref(_Options.of(options)), *length, ctypes.byref(ended)))
        store.ended = ended.told()
        return store

    def close(self) -> None:
        """Frees the store. A second call does nothing."""
        with self._lock:
            _library.close(self._handle)

    def write(self, operations: Union["WriteBatch", Iterable[Operation]], sequence: int = 0) -> None:
        """Writes a batch, or operations, atomically.

        They get consecutive sequence numbers, from `sequence` on, or from the one after the last write if `sequence` is 0.
        It must be above the last one; gaps are allowed. Raises `SequenceBack`, `SequencesSpent`, `IdsSpent` and
        `OutOfMemory`, and for operations what a batch raises.
        """
        batch = _batch_of(operations)
        if sequence == 0:
            with batch._lock:
                self._call(_library.write, batch._handle)
        else:
            self.write_bytes(batch.to_bytes(sequence))

    def write_bytes(self, batch: bytes) -> None:
        """Writes a batch that `batch_bytes` or RocksDB has encoded. Raises `NotABatch`, and what `write` does."""
        self._call(_library.write_bytes, *_texts(batch))

    def write_batch(self) -> "WriteBatch":
        """Returns a batch that is written when its `with` block ends, unless that raises.

            >>> with Store(Operator.APPEND) as store:
            ...     with store.write_batch() as batch:
            ...         batch.put(b"colour", b"blue")
            ...         batch.merge(b"tags", b"new")
            ...     list(store)
            [b'colour', b'tags']
        """
        return WriteBatch(self)

    def put(self, key: bytes, value: bytes) -> None:
        """Sets a key to a value.

        Raises `TooLong` for a key or value of 2^32 bytes or more, `SequencesSpent`, `IdsSpent` and `OutOfMemory`.
        """
        self._call(_library.put, *_texts(key, value))

    def __setitem__(self, key: bytes, value: bytes) -> None:
        """Sets a key to a value, as `put` does."""
        self.put(key, value)

    def delete(self, key: bytes) -> None:
        """Deletes a key. Raises what `put` does."""
        self._call(_library.delete, *_texts(key))

    def __delitem__(self, key: bytes) -> None:
        """Deletes a key, as `delete` does. It is no error if the key has no value: nothing is read."""
        self.delete(key)

    def merge(self, key: bytes, operand: bytes) -> None:
        """Merges an operand into a key's value. Under `Operator.MIXED`, bytes that are not an operand replace it. Raises what `put` does."""
        self._call(_library.merge, *_texts(key, operand))

    def merge_part(self, part: Part, key: bytes, payload: bytes, parameter: int = 0) -> None:
        """Merges `operand_bytes(part, payload, parameter)`. Raises what that and `put` do."""
        self.merge(key, operand_bytes(part, payload, parameter))

    def delete_range(self, begin: bytes, end: bytes) -> None:
        """Deletes all keys from `begin` (inclusive) to `end` (exclusive). Raises what `put` does."""
        self._call(_library.delete_range, *_texts(begin, end))

    def take_snapshot(self) -> int:
        """Takes a snapshot at the last sequence number, and returns that. It lasts until `release` was called as often as this.

        Raises `IdsSpent` and `OutOfMemory`.
        """
        sequence = _U64()
        self._call(_library.snapshot, ctypes.byref(sequence))
        return sequence.value

    def release(self, sequence: int) -> None:
        """Undoes one `take_snapshot`. The last release at a sequence number ends its snapshot. Raises `NotProtected`."""
        self._call(_library.release, _sequence(sequence))

    def snapshot(self) -> "Snapshot":
        """Takes a snapshot at the last sequence number; `with` releases it. Raises `IdsSpent` and `OutOfMemory`."""
        return Snapshot(self)

    def view(self) -> "View":
        """Takes a view of the store as it is now, for other threads to read; `with` closes it. Raises `OutOfMemory`."""
        return View(_library.view, self)

    def take_job(self) -> Optional["Job"]:
        """Takes out a job, or returns None: the flush of a full memtable, if `max_write_buffer_number` is above 1, or else the
        next compaction that is due among the runs that no other job has.

        Raises `OutOfMemory`.
        """
        job = Job(self)
        return job if job._is_out else None

    @property
    def snapshots(self) -> List[int]:
        """The sequence numbers of the snapshots, in ascending order."""
        count = _SIZE()
        with self._lock:
            self._call(_library.snapshots, (_U64 * 1)(), 0, ctypes.byref(count))
            room = (_U64 * count.value)()
            self._call(_library.snapshots, room, count.value, ctypes.byref(count))
        return list(room)

    def flush(self) -> None:
        """Flushes the memtables. Raises `IdsSpent` and `OutOfMemory`."""
        self._call(_library.flush)

    def compact(self) -> bool:
        """Does the next compaction that is due, and returns True if there was one.

        Optional if the store compacts automatically. Raises `IdsSpent` and `OutOfMemory`.
        """
        compacted = ctypes.c_bool()
        self._call(_library.compact, ctypes.byref(compacted))
        return compacted.value

    def prepare(self, length: int, operations: Union["WriteBatch", Iterable[Operation]], sequence: int = 0) -> bytes:
        """Prepares a batch, or operations, for `commit`, and returns the bytes to append to a log of `length` bytes.

        `sequence` is as in `write`. No read sees the batch before `commit`. It discards a batch prepared earlier, as do a
        write, a flush or a snapshot before the commit.

        Append the bytes to the log's file, sync it, and call `commit`: then `open` recovers the batch after a crash. If
        the file fails, truncate it to its old length, and call `give_up`. Before you append to a file that was read,
        truncate it as `LogWrites.end` says.

        Raises what `write` would.
        """
        batch = _batch_of(operations)
        if sequence != 0:
            return self.prepare_bytes(length, batch.to_bytes(sequence))
        with batch._lock:
            return self._record(batch._size(), _library.prepare, batch._handle, length)

    def prepare_bytes(self, length: int, batch: bytes) -> bytes:
        """Prepares a batch that `batch_bytes` or RocksDB has encoded, as `prepare` does. Raises what `write_bytes` would."""
        return self._record(len(batch), _library.prepare_bytes, *_texts(batch), length)

    def _record(self, batch_size: int, function: _Function, *arguments: object) -> bytes:
        """Returns the bytes that a batch adds to a log."""
        # Space for a header in each block, and for the end of the previous block.
        size, room_length = _SIZE(), batch_size + _HEADER * (batch_size // _MOST_FRAGMENT + 3)
        while True:
            room = ctypes.create_string_buffer(room_length)
            with self._lock:
                status = function(self._handle, *arguments, room, room_length, ctypes.byref(size))
            if status != _ROOM:
                _check(status)
                return ctypes.string_at(room, size.value)
            room_length = size.value

    def commit(self) -> None:
        """Makes the prepared batch visible, if there is one. Allocates no memory."""
        self._call(_library.commit)

    def give_up(self) -> None:
        """Discards the prepared batch, if there is one."""
        self._call(_library.give_up)


class Snapshot(_Reader):
    """A snapshot of a store. It reads what was written before it was taken. `with` releases it."""

    def __init__(self, store: Store) -> None:
        self._store = store
        self._is_held = False
        self.sequence = store.take_snapshot()
        """Its sequence number."""
        self._is_held = True

    def release(self) -> None:
        """Releases the snapshot. A second call does nothing, nor does a call after the store was closed."""
        if self._is_held:
            self._is_held = False
            if self._store._at.at is not None:
                self._store.release(self.sequence)

    def __enter__(self) -> "Snapshot":
        return self

    def __exit__(self, *_: object) -> None:
        self.release()

    def _get(self, key: bytes) -> Optional[bytes]:
        return self._store.get_at(key, self.sequence)

    def _scan(self, low: bytes, high: Optional[bytes]) -> Iterator[_Row]:
        return self._store.scan_at(low, high, self.sequence)


class View(_HeldReader):
    """A read-only view of a store at one point in time, from `Store.view`.

    No write, flush or compaction changes it, nor does closing the store. Its calls wait for one another, but not for
    those of the store: give each thread its own handle with `again`. It keeps the memory of its runs until `with`
    closes it.

        >>> with Store(Operator.APPEND) as store:
        ...     store[b"colour"] = b"blue"
        ...     with store.view() as view:
        ...         del store[b"colour"]
        ...         view[b"colour"], store.get(b"colour")
        (b'blue', None)
    """

    _prefix = "view_"

    def __init__(self, function: _Function, source: _Held) -> None:
        self._begin()
        source._call(function, self._handle)

    def again(self) -> "View":
        """Returns another handle to the view, for another thread. Copies no data. Raises `OutOfMemory`."""
        return View(_library.view_again, self)

    def checkpoint(self) -> "Checkpoint":
        """Starts a checkpoint: the rows at the last sequence number as a log. The view stays open. Raises `OutOfMemory`."""
        return Checkpoint(self)

    def close(self) -> None:
        """Frees the view. A second call does nothing."""
        with self._lock:
            _library.view_close(self._handle)


class Checkpoint(_Held):
    """The rows of a view at its last sequence number as a log, piece by piece, from `View.checkpoint`.

    `Store.open` opens a store of exactly these rows from the concatenated pieces. The rows are numbered from 1, so
    batches that were written later can follow them.

        >>> with Store(Operator.APPEND) as store:
        ...     store[b"colour"] = b"red"
        ...     store.merge(b"colour", b"blue")
        ...     with store.view() as view, view.checkpoint() as checkpoint:
        ...         log = b"".join(checkpoint)
        >>> with Store.open(Operator.APPEND, log) as store:
        ...     store[b"colour"], store.last
        (b'red,blue', 1)
    """

    def __init__(self, view: View) -> None:
        self._begin()
        self._length, self._rows, self._room, self._is_done = 0, _FIRST_ROWS, bytearray(_PIECE_BYTES), False
        view._call(_library.checkpoint, self._handle)

    def __iter__(self) -> "Checkpoint":
        return self

    def __next__(self) -> bytes:
        """Returns the next piece. Raises `NoCheckpoint`, `TooLong` and `OutOfMemory`, after which there is no other piece."""
        with self._lock:
            if self._is_done:
                raise StopIteration
            try:
                piece = self._piece()
            except UcstoreError:
                self._is_done = True
                raise
            if self._is_done:
                raise StopIteration
            return piece

    def _piece(self) -> bytes:
        """Encodes the next piece. It has fewer rows if it does not fit; for a single row the buffer grows."""
        size, done = _SIZE(), ctypes.c_bool()
        while True:
            length = len(self._room) if self._rows == 1 else _PIECE_BYTES
            room = (ctypes.c_char * length).from_buffer(self._room)
            told = (ctypes.byref(size), ctypes.byref(done))
            status = _library.checkpoint_next(self._handle, self._length, self._rows, room, length, *told)
            if status != _ROOM:
                break
            if self._rows == 1:
                self._room = bytearray(size.value)
            else:
                self._rows //= 2
        _check(status)
        if size.value <= _PIECE_BYTES // 4:
            self._rows = min(2 * self._rows, _MOST_ROWS)
        self._length += size.value
        self._is_done = done.value
        return bytes(memoryview(self._room)[:size.value])

    def close(self) -> None:
        """Frees the checkpoint. Its view stays open. A second call does nothing."""
        with self._lock:
            _library.checkpoint_close(self._handle)


class Job(_Held):
    """A flush or a compaction that `Store.take_job` has taken out of a store. Any thread may run it, while the store is used.

        >>> with Store(Operator.APPEND, Options(compacts_itself=False)) as store:
        ...     for number in range(4):
        ...         store[b"%d" % number] = b"v"
        ...         store.flush()
        ...     with store.take_job() as job:
        ...         job.run()
        ...     store.report().runs
        1
    """

    def __init__(self, store: Store) -> None:
        self._store = store
        self._begin()
        taken = ctypes.c_bool()
        store._call(_library.job, self._handle, ctypes.byref(taken))
        self._is_out = taken.value

    def run(self) -> None:
        """Runs the job, unless it was run already. Uses no store.

        Raises `NoJob` and `OutOfMemory`, which leave the job unchanged.
        """
        self._call(_library.job_run)

    @property
    def input_bytes(self) -> int:
        """Total size of the runs that it compacts, as `Report.bytes` counts: 0 for a flush.

        Raises `NoJob`.
        """
        size = ctypes.c_uint64()
        self._call(_library.job_input_bytes, ctypes.byref(size))
        return size.value

    def end(self) -> bool:
        """Ends the job, and installs its run if it was run. Returns True if the run was installed.

        It is not if the store is closed, if run IDs are exhausted, or if the store has flushed the job's writes itself. A
        second call does nothing.
        """
        installed = ctypes.c_bool()
        with self._lock:
            with self._store._lock:
                _library.job_end(self._store._handle, self._handle, ctypes.byref(installed))
            # Frees the old runs while the store is in use.
            _library.job_close(self._handle)
        return installed.value

    def close(self) -> None:
        """Ends the job, as `with` does."""
        self.end()


class LogWrites:
    """The writes of a log up to its first fault, fetched batch by batch.

    `ended` says how the log ends, once all writes were returned.
    """

    def __init__(self, log: bytes) -> None:
        self._log = _bytes_of(log)
        self._place = _LogPlace()
        self._room = bytearray(_PAGE_BYTES)
        self._batch: Iterator[Write] = iter(())
        self.ended: Optional[Ended] = None

    @property
    def offset(self) -> int:
        """Offset after the batches that were read."""
        return int(self._place.offset)

    def end(self) -> Tuple[int, Ended]:
        """Skips the remaining writes, and returns the offset where the log ends, and how it ends.

        Truncate the log's file to this length before you append to it: the rest may be an incomplete record, or zeros that
        a crash left. Raises `OutOfMemory`.
        """
        self._batch = iter(())
        while self.ended is None:
            self._fetch()
        return self.offset, self.ended

    def __iter__(self) -> "LogWrites":
        return self

    def __next__(self) -> Write:
        """Returns the next write. Raises `OutOfMemory`."""
        for write in self._batch:
            return write
        while self.ended is None:
            self._batch = self._writes(self._fetch())
            for write in self._batch:
                return write
        raise StopIteration

    def _fetch(self) -> int:
        """Fetches a batch, and returns its number of writes: 0 at the end of the log, or if the buffer has to grow."""
        size, writes, ended = _SIZE(), _U64(), _Ended()
        length = len(self._room)
        room = (ctypes.c_char * length).from_buffer(self._room)
        told = (ctypes.byref(size), ctypes.byref(writes), ctypes.byref(ended))
        status = _library.log_next(self._log, len(self._log), ctypes.byref(self._place), room, length, *told)
        if status == _ROOM:
            self._room = bytearray(size.value)
        elif status == _LOG_ENDS:
            self.ended = ended.told()
        else:
            _check(status)
        return writes.value

    def _writes(self, count: int) -> Iterator[Write]:
        """Yields the writes in the buffer: each a sequence number, a tag and two byte strings, the second empty for a deletion."""
        view, place = memoryview(self._room), 0
        for _ in range(count):
            sequence, tag = struct.unpack_from("<QB", view, place)
            first, place = _text_at(view, place + 9)
            second, place = _text_at(view, place)
            kind = _KINDS[tag]
            yield Write(sequence, kind(first) if kind is Delete else kind(first, second))


def log_writes(log: bytes) -> LogWrites:
    """Returns the writes of a log, which is given as bytes."""
    return LogWrites(log)


# At the end, since they import this module.
from ._db import Db, DbBatch, DbSnapshot  # noqa: E402
from ._db_transaction import DbTransaction  # noqa: E402
from ._db_types import (  # noqa: E402
    Closed, Conflict, Damaged, DbError, DbOptions, DbStats, Event, EventKind, FileFault, Forked, Locked, Missing,
    NotRecoverable, OtherDatabase, OtherOperator, Progress, ReadOnly, Sync,
)
