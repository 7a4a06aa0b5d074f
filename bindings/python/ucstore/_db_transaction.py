"""`DbTransaction`: reads at one point in time and writes at its end, in one step: see `Db.transaction`."""

from __future__ import annotations

import ctypes
import io
import random
import time
from typing import TYPE_CHECKING, Callable, Iterable, Iterator, List, Optional, Tuple, Type, TypeVar

from . import _end_of_prefix
from ._db_library import NOT_FOUND, ROOM
from ._db_reader import Alone, Bytes, bytes_of
from ._db_types import Conflict
from ._operands import ReadsParts

if TYPE_CHECKING:
    from ._db import Db

_Size, _U64 = ctypes.c_size_t, ctypes.c_uint64
_Result = TypeVar("_Result")

# Number of times that a function is tried, and the longest wait between two in seconds.
_TRIES, _LONGEST_WAIT = 100, 0.005

# Sizes of the buffer for one value, and of the first page of rows.
_USUAL_VALUE, _PAGE_ROWS, _PAGE_BYTES, _MOST_ROWS, _MOST_BYTES = 512, 16, 4096, 1024, 1 << 18


class DbTransaction(Alone, ReadsParts):
    """A transaction of a database. It reads the state at its begin, with its own writes, and commits when its `with` block ends.

    >>> from ucstore import Conflict, Db
    >>> with Db.in_memory() as db:
    ...     with db.transaction() as t:
    ...         if t.get(b"ticket") is None:
    ...             t.put(b"ticket", b"taken")
    ...     db.get(b"ticket")
    b'taken'

    `commit` raises `Conflict`, and writes nothing, if a key or a range that the transaction read has changed since. So
    transactions that commit are serial. A key that was written and has its value again has not changed. A lookup that finds
    nothing is a read too. Rows are read in pages. A transaction that is closed without a commit writes nothing.
    """

    _close = "transaction_close"

    def __init__(self, db: Db) -> None:
        """Begins a transaction, as `Db.transaction` does."""
        self._is_committed = False
        super().__init__(db._library, "transaction_begin", db._at)

    def get(self, key: Bytes, default: Optional[bytes] = None) -> Optional[bytes]:
        """Returns the value of a key, or `default`."""
        found = self._get("transaction_get", bytes_of(key))
        return default if found is None else found

    def get_unchecked(self, key: Bytes, default: Optional[bytes] = None) -> Optional[bytes]:
        """Returns the value of a key, or `default`. It may change before the commit."""
        found = self._get("transaction_get_unchecked", bytes_of(key))
        return default if found is None else found

    def get_many(self, keys: Iterable[Bytes]) -> List[Optional[bytes]]:
        """Returns the value of each key, or None."""
        return [self.get(key) for key in keys]

    def __getitem__(self, key: Bytes) -> bytes:
        """Returns the value of a key. Raises `KeyError`."""
        found = self.get(key)
        if found is None:
            raise KeyError(key)
        return found

    def __contains__(self, key: Bytes) -> bool:
        """Returns True if a key has a value."""
        return self.get(key) is not None

    def items(
        self, low: Bytes = b"", high: Optional[Bytes] = None, *, prefix: Optional[Bytes] = None
    ) -> Iterator[Tuple[bytes, bytes]]:
        """Returns an iterator over the keys from `low` to below `high`, or those that begin with `prefix`, with their values.

        It sees writes that the transaction makes meanwhile to keys of later pages.
        """
        if prefix is None:
            return self._rows(bytes_of(low), None if high is None else bytes_of(high))
        if low or high is not None:
            raise TypeError("a scan has bounds or a prefix")
        begin = bytes_of(prefix)
        return self._rows(begin, _end_of_prefix(begin))

    def put(self, key: Bytes, value: Bytes) -> None:
        """Sets a key to a value at the commit."""
        first, second = bytes_of(key), bytes_of(value)
        self._call("transaction_put", first, len(first), second, len(second))

    def __setitem__(self, key: Bytes, value: Bytes) -> None:
        """Sets a key to a value at the commit."""
        self.put(key, value)

    def merge(self, key: Bytes, operand: Bytes) -> None:
        """Merges an operand into a key's value at the commit. The key is not read. Under `Operator.MIXED` it raises `BadOperand` for bytes
        that are not an operand."""
        first, second = bytes_of(key), bytes_of(operand)
        self._call("transaction_merge", first, len(first), second, len(second))

    def delete(self, key: Bytes) -> None:
        """Deletes a key at the commit."""
        first = bytes_of(key)
        self._call("transaction_delete", first, len(first))

    def __delitem__(self, key: Bytes) -> None:
        """Deletes a key at the commit."""
        self.delete(key)

    def delete_range(self, begin: Bytes, end: Bytes) -> None:
        """Deletes all keys from `begin` to below `end` at the commit. The range is not read."""
        first, second = bytes_of(begin), bytes_of(end)
        self._call("transaction_delete_range", first, len(first), second, len(second))

    def commit(self) -> None:
        """Writes all writes atomically, and ends the transaction. Raises `Conflict`, and what `Db.write` does."""
        self._is_committed = True
        self._call("transaction_commit")

    def rollback(self) -> None:
        """Ends the transaction without a write."""
        self.close()

    def __enter__(self) -> DbTransaction:
        return self

    def __exit__(self, kind: Optional[Type[BaseException]], *_: object) -> None:
        """Commits, unless an exception ends the `with` block, or the block has ended the transaction."""
        try:
            if kind is None:
                self._finish()
        finally:
            self.close()

    def _finish(self) -> None:
        """Commits, unless the transaction has ended."""
        if not self._is_committed and not self._is_closed:
            self.commit()

    def _get(self, function: str, key: bytes) -> Optional[bytes]:
        """Returns the value that a lookup copies to a buffer, or None."""
        length, size = _USUAL_VALUE, _Size()
        while True:
            room = (ctypes.c_char * length)()
            status = self._status(function, key, len(key), room, length, ctypes.byref(size))
            if status == NOT_FOUND:
                return None
            self._check(status)
            if size.value <= length:
                return ctypes.string_at(room, size.value)
            length = size.value

    def _rows(self, low: bytes, high: Optional[bytes]) -> Iterator[Tuple[bytes, bytes]]:
        """Yields the rows of a range, which are fetched in pages."""
        count, length = _PAGE_ROWS, _PAGE_BYTES
        end = high or b""
        while True:
            lengths, room = (_U64 * (2 * count))(), (ctypes.c_char * length)()
            rows, size = _Size(), _Size()
            bounds = (low, len(low), end, len(end), high is not None)
            told = (lengths, len(lengths), room, length, ctypes.byref(rows), ctypes.byref(size))
            status = self._status("transaction_page", *bounds, *told)
            if status == ROOM:
                length = size.value
                continue
            self._check(status)
            read = io.BytesIO(ctypes.string_at(room, size.value)).read
            key = b""
            for place in range(0, 2 * rows.value, 2):
                key, value = read(lengths[place]), read(lengths[place + 1])
                yield key, value
            if rows.value == 0:
                return
            low = key + b"\0"
            count, length = min(4 * count, _MOST_ROWS), max(length, min(4 * length, _MOST_BYTES))


def transact(db: Db, function: Callable[[DbTransaction], _Result]) -> _Result:
    """Runs a function in a transaction, and commits; again on a conflict, with a longer wait each time."""
    for tries in range(1, _TRIES + 1):
        with DbTransaction(db) as transaction:
            result = function(transaction)
            try:
                transaction._finish()
                return result
            except Conflict:
                if tries == _TRIES:
                    raise
        time.sleep(random.uniform(0, min(2e-6 * 2 ** min(tries, 30), _LONGEST_WAIT)))
    raise AssertionError("unreachable")
