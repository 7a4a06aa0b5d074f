"""Read methods of a database and its snapshots: see `Db`."""

from __future__ import annotations

import contextlib
import ctypes
import io
import itertools
import threading
from typing import Iterable, Iterator, List, Mapping, Optional, Tuple, TypeVar, Union, cast, overload

from ._db_library import NOT_FOUND, OK, ROOM, Library
from ._db_types import Closed
from ._operands import ReadsParts

Bytes = Union[bytes, bytearray, memoryview]
"""A key or a value. Other bytes-like objects are accepted too."""

_Row = Tuple[bytes, bytes]
_Default = TypeVar("_Default")

_Pointer, _Size, _U64 = ctypes.c_void_p, ctypes.c_size_t, ctypes.c_uint64


def bytes_of(text: Bytes) -> bytes:
    """Returns the bytes of a key or a value. Raises `TypeError` if it is not bytes-like."""
    return text if isinstance(text, bytes) else memoryview(text).tobytes()


# Sizes in bytes of the buffer for one value, and for each of many values. A larger value takes a second call.
_USUAL_VALUE, _USUAL_SHARE = 512, 256
_UsualRoom = ctypes.c_char * _USUAL_VALUE

# Rows and bytes of a scan's first page, and the factor by which the second and the third page are larger.
_PAGE_ROWS, _PAGE_BYTES, _GROWTH = 64, 4096, 8

# Length that the library returns for a key without a value.
_NO_VALUE = (1 << 64) - 1


class Handle:
    """A pointer to an object of the library."""

    def __init__(self, library: Library, function: str, *arguments: object) -> None:
        """Creates the object by a function that takes these arguments."""
        self._library = library
        self._at = _Pointer()
        self._is_closed = False
        self._check(library.functions[function](*arguments, ctypes.byref(self._at)))

    def _check(self, status: int) -> None:
        """Raises the exception of a status, if it is an error."""
        if status != OK:
            raise self._library.error(status)

    def _call(self, name: str, *arguments: object) -> None:
        """Calls a function with the object. Raises `Closed` after it was closed."""
        self._check(self._status(name, *arguments))

    def _status(self, name: str, *arguments: object) -> int:
        """Calls a function with the object, and returns its status. Raises `Closed` after it was closed."""
        if self._is_closed:
            raise Closed()
        return self._library.functions[name](self._at, *arguments)


class Alone(Handle):
    """An object that takes one call at a time: calls of other threads wait."""

    _close = ""

    def __init__(self, library: Library, function: str, *arguments: object) -> None:
        self._lock = threading.RLock()
        super().__init__(library, function, *arguments)

    def _status(self, name: str, *arguments: object) -> int:
        with self._lock:
            return super()._status(name, *arguments)

    def close(self) -> None:
        """Frees the object. A second call does nothing."""
        with self._lock:
            if not self._is_closed and self._at:
                self._is_closed = True
                self._library.functions[self._close](self._at)

    def __del__(self) -> None:
        # The pointer is missing if construction failed.
        if "_at" in self.__dict__:
            self.close()


class Cursor(Alone):
    """A cursor over a range of keys."""

    _close = "cursor_close"

    def pages(self, reverse: bool) -> Iterator[Iterator[bytes]]:
        """Yields the rows in pages: keys, each followed by its value. Closes the cursor at the end."""
        count, length = 2 * _PAGE_ROWS, _PAGE_BYTES
        try:
            if reverse:
                self._call("cursor_last")
            while True:
                lengths, room = (_U64 * count)(), (ctypes.c_char * length)()
                found = self._fill(lengths, room)
                if found is None:
                    return
                rows, size = found
                if rows > 0:
                    # Reading each key and value is faster than slicing.
                    read = io.BytesIO(ctypes.string_at(room, size)).read
                    yield map(read, memoryview(lengths).cast("B").cast("Q")[:2 * rows].tolist())
                    count = min(_GROWTH * count, 2 * _GROWTH * _GROWTH * _PAGE_ROWS)
                length = max(size, min(_GROWTH * length, _GROWTH * _GROWTH * _PAGE_BYTES))
        finally:
            self.close()

    def count(self) -> int:
        """Returns the number of rows, and closes the cursor."""
        rows, length = 0, _GROWTH * _GROWTH * _PAGE_BYTES
        lengths = (_U64 * (2 * _GROWTH * _GROWTH * _PAGE_ROWS))()
        try:
            while True:
                room = (ctypes.c_char * length)()
                found = self._fill(lengths, room)
                while found is not None and found[0] > 0:
                    rows += found[0]
                    found = self._fill(lengths, room)
                if found is None:
                    return rows
                length = found[1]
        finally:
            self.close()

    def _fill(
        self, lengths: ctypes.Array[ctypes.c_uint64], room: ctypes.Array[ctypes.c_char]
    ) -> Optional[Tuple[int, int]]:
        """Returns the number of rows copied and their size. If the first row does not fit: 0, and the size of that row."""
        rows, size = _Size(), _Size()
        told = (ctypes.byref(rows), ctypes.byref(size))
        status = self._status("cursor_page", lengths, len(lengths), room, len(room), *told)
        if status == ROOM:
            return 0, size.value
        self._check(status)
        return (rows.value, size.value) if rows.value > 0 else None


class Rows(Iterator[_Row]):
    """The keys of a range with their values, from `items`. Rows are fetched in pages.

    `reversed(rows)` returns them in reverse, if no row was taken yet. They are freed after the last row, or by `close`.
    """

    def __init__(self, cursor: Cursor, reverse: bool) -> None:
        self._cursor, self._reverse = cursor, reverse
        pages = cursor.pages(reverse)
        self._rows = itertools.chain.from_iterable(zip(texts, texts) for texts in pages)

    def __iter__(self) -> Iterator[_Row]:
        # The loop calls no Python code for each row.
        return self._rows

    def __next__(self) -> _Row:
        return next(self._rows)

    def __reversed__(self) -> Rows:
        """Returns the rows in reverse."""
        return Rows(self._cursor, not self._reverse)

    def close(self) -> None:
        """Frees the rows: there are no more. A second call does nothing."""
        self._rows = iter(())
        self._cursor.close()


class Reader(Handle, Mapping[bytes, bytes], ReadsParts):
    """Read methods of a database and its snapshots. Rows are in byte order of the keys.

    A reader is a `Mapping`, with three differences from a dict: `items`, `keys` and `values` return iterators over the state
    at the time of the call, `len` reads all rows, and two readers are equal only if they are the same object. As in a dict,
    only `reader[key]` raises `KeyError`. Each call raises `OutOfMemory` if an allocation fails, and `Closed` and `Forked`.
    """

    _prefix = ""

    @overload
    def get(self, key: Bytes) -> Optional[bytes]:
        ...

    @overload
    def get(self, key: Bytes, default: Union[bytes, _Default]) -> Union[bytes, _Default]:
        ...

    def get(self, key: Bytes, default: object = None) -> object:
        """Returns the value of a key, or `default`."""
        found = self._get(bytes_of(key))
        return default if found is None else found

    def __getitem__(self, key: Bytes) -> bytes:
        """Returns the value of a key. Raises `KeyError`."""
        found = self._get(bytes_of(key))
        if found is None:
            raise KeyError(key)
        return found

    def __contains__(self, key: object) -> bool:
        """Returns True if a key has a value. Raises `TypeError` if the key is not bytes-like."""
        return self._get(bytes_of(cast(Bytes, key))) is not None

    def __len__(self) -> int:
        """Returns the number of keys that have a value. Takes linear time: all rows are read.

        Python calls it for `list(reader)` too. `list(reader.keys())` reads the rows once.
        """
        return self._cursor(b"", None, None).count()

    def __bool__(self) -> bool:
        """Returns True if any key has a value. Reads one row."""
        with contextlib.closing(self.items()) as rows:
            return next(rows, None) is not None

    def __eq__(self, other: object) -> bool:
        """Returns True for the same object. To compare contents, compare copies, such as `dict(reader.items())`."""
        return self is other

    __hash__ = object.__hash__

    def get_many(self, keys: Iterable[Bytes]) -> List[Optional[bytes]]:
        """Returns the value of each key, or None, at one point in time."""
        asked = list(map(bytes_of, keys))
        count, length, size = len(asked), _USUAL_SHARE * len(asked), _Size()
        texts = b"".join(asked)
        lengths, found = (_U64 * count)(*map(len, asked)), (_U64 * count)()
        while True:
            room = (ctypes.c_char * length)()
            told = (texts, len(texts), lengths, count, found, room, length, ctypes.byref(size))
            self._call(self._prefix + "get_many", *told)
            if size.value <= length:
                return _values(room.raw, found)
            length = size.value

    def items(  # type: ignore[override]
        self, low: Bytes = b"", high: Optional[Bytes] = None, *, prefix: Optional[Bytes] = None, reverse: bool = False
    ) -> Rows:
        """Returns an iterator over the keys from `low` to below `high`, or those that begin with `prefix`, with their values.

        They are read at the point in time of the call, and fetched in pages. Without `high` the range goes to the last key. With
        `reverse` the greatest key comes first.
        """
        return Rows(self._cursor(low, high, prefix), reverse)

    def keys(  # type: ignore[override]
        self, low: Bytes = b"", high: Optional[Bytes] = None, *, prefix: Optional[Bytes] = None, reverse: bool = False
    ) -> Iterator[bytes]:
        """Returns an iterator over the keys of `items`."""
        return (key for key, _ in self.items(low, high, prefix=prefix, reverse=reverse))

    def values(  # type: ignore[override]
        self, low: Bytes = b"", high: Optional[Bytes] = None, *, prefix: Optional[Bytes] = None, reverse: bool = False
    ) -> Iterator[bytes]:
        """Returns an iterator over the values of `items`."""
        return (value for _, value in self.items(low, high, prefix=prefix, reverse=reverse))

    def __iter__(self) -> Iterator[bytes]:
        """Returns an iterator over all keys."""
        return self.keys()

    def __reversed__(self) -> Iterator[bytes]:
        """Returns an iterator over all keys, the greatest first."""
        return self.keys(reverse=True)

    def _get(self, key: bytes) -> Optional[bytes]:
        """Returns the value that a lookup copies to a buffer, or None."""
        room: ctypes.Array[ctypes.c_char] = _UsualRoom()
        length, size = _USUAL_VALUE, _Size()
        while True:
            status = self._status(self._prefix + "get", key, len(key), room, length, ctypes.byref(size))
            if status == NOT_FOUND:
                return None
            self._check(status)
            if size.value <= length:
                return ctypes.string_at(room, size.value)
            # The value may have grown since. A small set of lengths keeps the number of ctypes types small.
            length = 1 << size.value.bit_length()
            room = (ctypes.c_char * length)()

    def _cursor(self, low: Bytes, high: Optional[Bytes], prefix: Optional[Bytes]) -> Cursor:
        """Creates a cursor over a range or a prefix. Raises `TypeError` if both are given."""
        if self._is_closed:
            raise Closed()
        if prefix is None:
            first, last = bytes_of(low), b"" if high is None else bytes_of(high)
            bounds = (first, len(first), last, len(last), high is not None)
            return Cursor(self._library, self._prefix + "cursor", self._at, *bounds)
        if low or high is not None:
            raise TypeError("a scan has bounds or a prefix")
        begin = bytes_of(prefix)
        return Cursor(self._library, self._prefix + "prefix", self._at, begin, len(begin))


def _values(room: bytes, lengths: Iterable[int]) -> List[Optional[bytes]]:
    """Returns values that are stored one after the other. A length may say that there is none."""
    values: List[Optional[bytes]] = []
    place = 0
    for length in lengths:
        if length == _NO_VALUE:
            values.append(None)
        else:
            values.append(room[place:place + length])
            place += length
    return values
