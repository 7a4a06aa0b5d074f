"""Queries of a sharded store, and merging of its shards' answers."""

from __future__ import annotations

import heapq
import marshal
import sys
import time
from collections import defaultdict
from itertools import islice
from operator import index
from typing import Any, Iterable, Iterator, Mapping, NamedTuple

from . import _bytes_of
from ._shard import Manifest, dumps
from ._shard_files import ShardedError


class NoWorkers(ShardedError):
    """No worker is left to open a shard on."""


class ShardTimeout(ShardedError):
    """A shard has not answered in time. A write that raises this was not made."""


class Deadline:
    """The time by which a call must have ended: a number of seconds from now, or never."""

    def __init__(self, seconds: float | None) -> None:
        self._begun, self._seconds = time.monotonic(), seconds

    def left(self) -> float | None:
        """Returns the number of seconds that are left, at least 0, or None for no limit."""
        return None if self._seconds is None else max(self._begun + self._seconds - time.monotonic(), 0.0)

    def check(self, what: str) -> None:
        """Raises `ShardTimeout` if the time is over."""
        if self.left() == 0.0:
            raise self.refusal(what)

    def refusal(self, what: str) -> ShardTimeout:
        """Returns the error for a call whose time is over."""
        return ShardTimeout(f"{what} hasn't answered for {time.monotonic() - self._begun:.1f} s")


class Scan(NamedTuple):
    """A query for the first `limit` rows, or all rows, from `low` to below `high`, or to the last key."""

    low: bytes = b""
    high: bytes | None = None
    limit: int | None = None

    def _checked(self) -> Scan:
        """Returns the query unchanged. Raises `TypeError` and `ValueError` if it is malformed."""
        high = None if self.high is None else _bytes_of(self.high)
        limit = None if self.limit is None else index(self.limit)
        if limit is not None and not 0 <= limit <= sys.maxsize:
            raise ValueError(f"a limit is None or from 0 to {sys.maxsize}, not {limit}")
        return Scan(_bytes_of(self.low), high, limit)


def _checked(query: bytes | Scan) -> bytes | Scan:
    """Returns a query unchanged. Raises `TypeError` and `ValueError` for a malformed one, before any shard is called."""
    return query._checked() if isinstance(query, Scan) else _bytes_of(query)


class Reads:
    """Read methods over all shards. A call reads at one point in time.

    Each call may have its own `timeout` in seconds, after which it raises `ShardTimeout`.
    """

    _manifest: Manifest

    def _read(self, method: str, calls: Mapping[int, tuple], timeout: float | None) -> Mapping[int, bytes]:
        """Returns the answers of shards to a call."""
        raise NotImplementedError

    def get(self, key: bytes, *, timeout: float | None = None) -> bytes | None:
        """Returns the value of a key, or None. Raises what `answers` does."""
        return self.answers([_bytes_of(key)], timeout=timeout)[0]

    def answers(self, queries: Iterable[bytes | Scan], *, timeout: float | None = None) -> list[Any]:
        """Returns the answers to queries, in their order: a value or None for a key, and the rows for a `Scan`.

        Calls each shard once, for all its answers. Raises `OutOfMemory`, `NoWorkers`, `ShardTimeout`, `TypeError`, and
        `ValueError` for a wrong limit. On a snapshot that was released it raises `NotProtected`.
        """
        asked = list(map(_checked, queries))
        parts: dict[int, list] = defaultdict(list)
        for place, query in enumerate(asked):
            is_scan = isinstance(query, Scan)
            for number in self._manifest.touched(*query[:2]) if is_scan else (self._manifest.owner(query),):
                parts[number].append((place, tuple(query) if is_scan else query))
        found: list[list] = [[] for _ in asked]
        for part in self._read("answers", {number: (dumps(part),) for number, part in parts.items()}, timeout).values():
            for place, answer in marshal.loads(part):
                found[place].append(answer)
        return [
            list(islice(heapq.merge(*some), query.limit)) if isinstance(query, Scan) else some[0]
            for query, some in zip(asked, found)
        ]


class Scans(Reads):
    """Read methods of a snapshot. Its state stays, so scans may take long."""

    def scan(
        self, low: bytes = b"", high: bytes | None = None, limit: int | None = None, *, timeout: float | None = None
    ) -> Iterator[tuple[bytes, bytes]]:
        """Yields the rows of a `Scan` in the order of their keys. Raises what `answers` does.

        They are fetched in pages of at most 1,000 rows from each shard, and of a MiB or one row. Each may take `timeout`.
        """
        low, high, limit = Scan(low, high, limit)._checked()
        pages = self._read("page", dict.fromkeys(self._manifest.touched(low, high), (low, high)), timeout)
        rows = (self._rows(number, page, high, timeout) for number, page in pages.items())
        return islice(heapq.merge(*rows), limit)

    def _rows(
        self, number: int, page: bytes, high: bytes | None, timeout: float | None
    ) -> Iterator[tuple[bytes, bytes]]:
        """Yields the rows of a shard, starting with a page."""
        rows, more = marshal.loads(page)
        yield from rows
        while more:
            # No key is between the last one and this.
            page = self._read("page", {number: (rows[-1][0] + b"\0", high)}, timeout)[number]
            rows, more = marshal.loads(page)
            yield from rows
