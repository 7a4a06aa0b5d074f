"""A plain model of the package `ucstore`, with its names: a store is the list of its writes, and a read folds them.

The files of cases hold what it answers. It knows no memtable, no run and no log: what it prepares for a log is a line
that says the batch, and its `flush` and `compact` do nothing. So it has no report.
"""

import ast
import enum
import sys
from pathlib import Path
from typing import Iterable, Iterator, List, NamedTuple, Optional, Tuple, Union

sys.path.insert(0, str(Path(__file__).resolve().parents[2] / "tests"))

import mixed_model  # noqa: E402


class UcstoreError(Exception):
    """A call that was refused."""


class NoStore(UcstoreError):
    """The store is closed."""


class NotProtected(UcstoreError):
    """No snapshot is at the sequence."""


class BadOption(UcstoreError):
    """An option isn't in its range."""


class SequencesSpent(UcstoreError):
    """Too few sequences are left."""


class NotABatch(UcstoreError):
    """The bytes aren't a write batch."""


class SequenceBack(UcstoreError):
    """The sequence of a batch is neither 0 nor above the last one."""


# Sequences are below it.
SEQUENCES = 1 << 56


class Operator(enum.Enum):
    """Which operator merges a key's operands into its value."""

    APPEND = 0
    COUNTER = 1
    MAXIMUM = 2
    TAIL = 3
    MIXED = 4


class Options(NamedTuple):
    """How a store is kept, which changes no answer."""

    write_buffer_size: int = 4194304
    compaction_trigger: int = 4
    stop_trigger: int = 36
    size_ratio: int = 1
    max_size_amplification_percent: int = 200
    min_merge_width: int = 2
    max_merge_width: int = 4294967295
    compacts_itself: bool = True
    max_write_buffer_number: int = 1

    def are_in_range(self) -> bool:
        return (
            self.write_buffer_size >= 1
            and 1 <= self.compaction_trigger <= self.stop_trigger <= 255
            and 2 <= self.min_merge_width <= self.max_merge_width
            and self.max_write_buffer_number >= 1
        )


class Put(NamedTuple):
    """Sets a key to a value."""

    key: bytes
    value: bytes


class Delete(NamedTuple):
    """Removes a key."""

    key: bytes


class Merge(NamedTuple):
    """Combines a key with an operand."""

    key: bytes
    operand: bytes


class DeleteRange(NamedTuple):
    """Removes each key from `begin` to below `end`."""

    begin: bytes
    end: bytes


Operation = Union[Put, Delete, Merge, DeleteRange]
_KINDS = {kind.__name__: kind for kind in (Put, Delete, Merge, DeleteRange)}


class Write(NamedTuple):
    """An operation with its sequence."""

    sequence: int
    operation: Operation


def _number(text: Optional[bytes]) -> int:
    """The number of 8 bytes, low byte first. Any other text is 0."""
    return int.from_bytes(text, "little") if text is not None and len(text) == 8 else 0


def merged(operator: Operator, value: Optional[bytes], operand: bytes) -> bytes:
    """The value of a key that had this value, or none, after an operand."""
    if operator is Operator.APPEND:
        return operand if value is None else value + b"," + operand
    if operator is Operator.COUNTER:
        return ((_number(value) + _number(operand)) % (1 << 64)).to_bytes(8, "little")
    if operator is Operator.MAXIMUM:
        return max(value or b"", operand)
    if operator is Operator.MIXED:
        return mixed_model.value_after(value, operand)
    return ((value or b"") + operand)[-4:]


class Store:
    """A list of writes, of which reads are folds."""

    ended = "clean"
    """How the log ended that the store was opened from."""

    def __init__(self, operator: Operator, options: Options = Options()) -> None:
        if not options.are_in_range():
            raise BadOption()
        self._operator = operator
        self._writes: Optional[List[Write]] = []
        self._prepared: List[Write] = []
        self._taken: List[int] = []

    @classmethod
    def open(cls, operator: Operator, log: bytes, options: Options = Options()) -> "Store":
        """A store with the batches of a log, each of which is a line."""
        store = cls(operator, options)
        for line in log.decode().splitlines():
            sequence, operations = ast.literal_eval(line)
            store.write([_KINDS[kind](*texts) for kind, texts in operations], sequence)
        return store

    def close(self) -> None:
        self._writes = None

    def _held(self) -> List[Write]:
        """All writes. Raises `NoStore`."""
        if self._writes is None:
            raise NoStore()
        return self._writes

    @property
    def last(self) -> int:
        held = self._held()
        return held[-1].sequence if held else 0

    def _numbered(self, operations: Iterable[Operation], sequence: int) -> List[Write]:
        """The writes of a batch that comes next. What is prepared is given up, even if it is refused."""
        last, operations = self.last, list(operations)
        self._prepared = []
        first = sequence or last + 1
        if operations and first <= last:
            raise SequenceBack()
        if operations and first + len(operations) > SEQUENCES:
            raise SequencesSpent()
        return [Write(first + place, operation) for place, operation in enumerate(operations)]

    def write(self, operations: Iterable[Operation], sequence: int = 0) -> None:
        self._held().extend(self._numbered(operations, sequence))

    def write_bytes(self, batch: bytes) -> None:
        """No case has bytes that are a batch."""
        self._numbered([], 0)
        raise NotABatch()

    def put(self, key: bytes, value: bytes) -> None:
        self.write([Put(key, value)])

    def delete(self, key: bytes) -> None:
        self.write([Delete(key)])

    def merge(self, key: bytes, operand: bytes) -> None:
        self.write([Merge(key, operand)])

    def delete_range(self, begin: bytes, end: bytes) -> None:
        self.write([DeleteRange(begin, end)])

    def prepare(self, length: int, operations: Iterable[Operation], sequence: int = 0) -> bytes:
        self._prepared = self._numbered(operations, sequence)
        said = [(type(operation).__name__, tuple(operation)) for _, operation in self._prepared]
        return f"{(self._prepared[0].sequence if said else 0, said)!r}\n".encode()

    def commit(self) -> None:
        self._held().extend(self._prepared)
        self._prepared = []

    def give_up(self) -> None:
        self._held()
        self._prepared = []

    def flush(self) -> None:
        self.give_up()

    def compact(self) -> bool:
        self._held()
        return False

    def take_snapshot(self) -> int:
        self.give_up()
        self._taken.append(self.last)
        return self.last

    def release(self, sequence: int) -> None:
        self._held()
        if sequence not in self._taken:
            raise NotProtected()
        self._taken.remove(sequence)

    @property
    def snapshots(self) -> List[int]:
        self._held()
        return sorted(set(self._taken))

    def _protected(self, at: int) -> int:
        """The sequence of a snapshot. Raises `NotProtected`."""
        if at not in self.snapshots:
            raise NotProtected()
        return at

    def _behind(self, key: bytes, value: Optional[bytes], operation: Operation) -> Optional[bytes]:
        """The value of a key that had this value, or none, after an operation."""
        if isinstance(operation, DeleteRange):
            return None if operation.begin <= key < operation.end else value
        if operation.key != key:
            return value
        if isinstance(operation, Put):
            return operation.value
        return merged(self._operator, value, operation.operand) if isinstance(operation, Merge) else None

    def _value(self, key: bytes, at: int) -> Optional[bytes]:
        """The fold of the writes at or below a sequence."""
        value = None
        for sequence, operation in self._held():
            if sequence <= at:
                value = self._behind(key, value, operation)
        return value

    def get(self, key: bytes) -> Optional[bytes]:
        return self._value(key, self.last)

    def get_at(self, key: bytes, at: int) -> Optional[bytes]:
        return self._value(key, self._protected(at))

    def _rows(self, low: bytes, high: Optional[bytes], at: int) -> Iterator[Tuple[bytes, bytes]]:
        """The keys from `low` to below `high` that have a value, with that."""
        keys = {operation.key for _, operation in self._held() if not isinstance(operation, DeleteRange)}
        for key in sorted(keys):
            value = self._value(key, at) if low <= key and (high is None or key < high) else None
            if value is not None:
                yield key, value

    def scan(self, low: bytes = b"", high: Optional[bytes] = None) -> Iterator[Tuple[bytes, bytes]]:
        return self._rows(low, high, self.last)

    def scan_at(self, low: bytes, high: Optional[bytes], at: int) -> Iterator[Tuple[bytes, bytes]]:
        return self._rows(low, high, self._protected(at))

    def prefix(self, prefix: bytes) -> Iterator[Tuple[bytes, bytes]]:
        return (row for row in self.scan() if row[0].startswith(prefix))
