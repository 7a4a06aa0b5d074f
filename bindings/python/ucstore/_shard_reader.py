"""Readers of a sharded store in other processes than its writer's, and in Dask tasks."""

from __future__ import annotations

import asyncio
import os
from contextlib import contextmanager, suppress
from pathlib import Path
from typing import Any, Dict, Iterator, Mapping, Sequence, Tuple

from distributed import Client, get_client, rejoin, secede
from distributed import TimeoutError as TimedOut
from distributed.actor import ProxyRPC
from distributed.protocol import to_serialize

from . import NoStore, NotProtected
from ._shard import Manifest, acknowledged
from ._shard_files import polls
from ._shard_part import Refusal
from ._shard_reads import Deadline, Reads, Scans, ShardTimeout

# Seconds between two searches for shards that were reopened elsewhere, and the usual maximum duration of a call.
_POLL, _USUAL = 0.2, 1.0

# For each shard, the key of its actor and the address of the actor's worker.
Places = Dict[int, Tuple[str, str]]


def places_name(folder: Path) -> str:
    """Returns the name under which the scheduler has the locations of a store's shards, which is also that of the writer's lock."""
    return f"ucstore {os.path.realpath(folder)}"


def tell_places(client: Client, folder: Path, places: Places | None) -> None:
    """Publishes the locations of the shards to readers, or that no writer has them open any more."""
    told = None if places is None else {str(number): list(place) for number, place in places.items()}
    client.set_metadata(places_name(folder), told)


class ShardedReader(Reads):
    """Reads a store that a writer has open, in any process that reaches its scheduler, its workers and its directory.

    It may be sent to another process or to a task, where it uses the current client.
    """

    def __init__(
        self, client: Client | None, path: str | Path, *, patience: float = 30.0, timeout: float | None = None
    ) -> None:
        """Creates a reader of a directory. Without a client it uses the current one, as a task has.

        `patience` is the number of seconds that a call waits for shards that are being reopened, and `timeout` the
        number of seconds that a call without its own timeout waits in total. Raises `BadManifest`.
        """
        self._client, self._folder = client, Path(path).absolute()
        self._patience, self._timeout = patience, timeout
        self._manifest = Manifest.read(self._folder)
        self._places: Places = {}

    def __reduce__(self) -> tuple:
        return _reader_of, (str(self._folder), self._patience, self._timeout)

    @property
    def last(self) -> int:
        """The last acknowledged sequence number. Raises `LogDamaged` and `OSError`."""
        return self._moment()[0]

    def _moment(self) -> tuple[int, Sequence[int]]:
        """Returns the last acknowledged sequence number, and that of each shard at that time."""
        last, *reached = acknowledged(self._folder, self._manifest.shards + 1)
        return last, reached

    def snapshot(self, seconds: float = 60.0, *, timeout: float | None = None) -> SharedSnapshot:
        """Takes a snapshot at the last sequence number. It ends if it is not read for `seconds`, or if a worker is lost.

        Raises what `answers` does.
        """
        deadline = self._deadline(timeout)
        for _ in polls(self._patience):
            sequence, reached = self._moment()
            # A shard at an older state was written to since, or reopened.
            with suppress(NotProtected):
                self._ask("lease", {number: (place, seconds) for number, place in enumerate(reached)}, deadline)
                return SharedSnapshot(self, sequence, reached, seconds)
            deadline.check("the store")
        raise ShardTimeout(f"the shards were written to for {self._patience} s, faster than they are read")

    def _read(self, method: str, calls: Mapping[int, tuple], timeout: float | None) -> Mapping[int, bytes]:
        deadline = self._deadline(timeout)
        for _ in polls(self._patience):
            _, reached = self._moment()
            with suppress(NotProtected):
                return self._ask(method, {number: (*call, reached[number]) for number, call in calls.items()}, deadline)
            deadline.check("the store")
        raise ShardTimeout(f"the shards were written to for {self._patience} s, faster than they are read")

    def _deadline(self, timeout: float | None) -> Deadline:
        return Deadline(self._timeout if timeout is None else timeout)

    def _ask(self, method: str, calls: Mapping[int, tuple], deadline: Deadline) -> dict[int, Any]:
        """Returns the answers of shards to a call, made on all at the same time. Waits for shards that are being reopened."""
        answers = self._ended(method, calls, deadline, _USUAL)
        if len(answers) < len(calls):
            with _aside():
                for _ in polls(self._patience):
                    missing = {number: calls[number] for number in calls if number not in answers}
                    answers.update(self._ended(method, missing, deadline))
                    if len(answers) == len(calls):
                        return answers
            raise NoStore(f"no writer has {self._folder} open")
        return answers

    def _ended(
        self, method: str, calls: Mapping[int, tuple], deadline: Deadline, most: float | None = None
    ) -> dict[int, Any]:
        """Returns the results of calls, except those of shards that have moved. Raises a shard's error.

        Waits for at most `most` seconds; if that is too short, there is no result.
        """
        self._places = self._places or self._find_places()
        asked, client = {number: call for number, call in calls.items() if number in self._places}, self._client or get_client()
        waits = [seconds for seconds in (deadline.left(), most) if seconds is not None]
        try:
            found = client.sync(self._call, client, method, asked, callback_timeout=min(waits, default=None))
        except (TimedOut, asyncio.TimeoutError):
            deadline.check("a shard")
            found = {}
        refusals = [answer.error for answer in found.values() if isinstance(answer, Refusal)]
        if refusals:
            raise refusals[0]
        if len(found) < len(calls):
            self._places = {}
        return found

    async def _call(self, client: Client, method: str, calls: Mapping[int, tuple]) -> dict[int, Any]:
        """Returns the answers of the shards that have not moved."""
        tasks = {asyncio.ensure_future(self._execute(client, method, *item)): item[0] for item in calls.items()}
        pending = set(tasks)
        try:
            while pending:
                _, pending = await asyncio.wait(pending, timeout=_POLL)
                # A call to a worker that is gone ends late, or never.
                places = await self._told_places(client) if pending else {}
                for task in pending:
                    if places.get(tasks[task]) != self._places[tasks[task]]:
                        task.cancel()
        finally:
            for task in pending:
                task.cancel()
        ended = {number: task for task, number in tasks.items() if not task.cancelled() and task.exception() is None}
        return {number: task.result() for number, task in ended.items()}

    async def _execute(self, client: Client, method: str, number: int, arguments: tuple) -> Any:
        """Returns the answer of a shard to a call."""
        # Dask's object for an actor would keep it alive, and with it the lock of its log.
        key, address = self._places[number]
        rpc = client.rpc(address) if client.direct_to_workers else ProxyRPC(client.scheduler, address)
        sent = [to_serialize(argument) for argument in (method, *arguments)]
        return (await rpc.actor_execute(actor=key, function="call", args=sent, kwargs={}))["result"]

    async def _told_places(self, client: Client) -> Places:
        """Returns the locations that the writer has published. Raises `NoStore` if it has closed the store."""
        found = await client.scheduler.get_metadata(keys=[places_name(self._folder)], default={})
        if found is None:
            raise NoStore(f"no writer has {self._folder} open")
        return {int(number): (key, address) for number, (key, address) in found.items()}

    def _find_places(self) -> Places:
        """Returns the locations that the writer has published, or none if the scheduler does not answer. Raises `NoStore`."""
        client = self._client or get_client()
        with suppress(OSError, TimedOut):
            return client.sync(self._told_places, client)
        return {}


@contextmanager
def _aside() -> Iterator[None]:
    """Lets the worker of a task do other things while the task waits, such as reopening a shard."""
    try:
        secede()
    except (ValueError, KeyError):
        # Not in a task, or in one that did so itself.
        yield
    else:
        try:
            yield
        finally:
            rejoin()


def _reader_of(folder: str, patience: float, timeout: float | None) -> ShardedReader:
    """Recreates a reader that was sent."""
    return ShardedReader(None, folder, patience=patience, timeout=timeout)


class SharedSnapshot(Scans):
    """A snapshot that is read through a reader, and may be sent to another process or to a task.

    If a writer took it, it lasts until the writer releases it. If a reader took it, it ends if it is not read for a
    while, or if a worker is lost; then it raises `NotProtected`.
    """

    def __init__(self, reader: ShardedReader, sequence: int, reached: Sequence[int], seconds: float = 0.0) -> None:
        self._reader, self._manifest = reader, reader._manifest
        self._seconds = seconds
        self.sequence = sequence
        """Its sequence number."""
        self.reached = reached
        """The last sequence number of each shard at that time."""

    def __reduce__(self) -> tuple:
        return SharedSnapshot, (self._reader, self.sequence, self.reached, self._seconds)

    def _read(self, method: str, calls: Mapping[int, tuple], timeout: float | None) -> Mapping[int, bytes]:
        at = {number: (*call, self.reached[number], self._seconds) for number, call in calls.items()}
        return self._reader._ask(method, at, self._reader._deadline(timeout))
