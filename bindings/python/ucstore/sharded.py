"""A store over several processes. Dask places its shards on workers, calls them, and reopens lost ones.

A key belongs to the shard `zlib.crc32(key) % shards`, or to the shard whose split points enclose it. Each
shard is a `Db` in its own directory. All shards are in one directory, which the client and all workers reach
under the same path. A batch is written to all its shards or to none: when all have logged their parts of it,
the writer appends their last sequence numbers to `sequencer.log`. Later writes of a shard do not count, and
the next batch cuts them off. Long logs are cut: the rows of the oldest snapshot, or of the present state, are
written to a checkpoint, and older logs are deleted.
"""

from __future__ import annotations

import os
import threading
import time
import weakref
from concurrent.futures import Future as Written
from concurrent.futures import ThreadPoolExecutor, wait
from contextlib import AbstractContextManager, suppress
from pathlib import Path
from typing import Any, Callable, Iterable, Iterator, Mapping, NamedTuple, Sequence

from distributed import CancelledError, Client, Future, KilledWorker
from distributed import TimeoutError as TimedOut

from . import NoStore, NotProtected, Operation, Operator, Options, UcstoreError
from ._shard import Claim, Manifest, Sequencer
from ._shard_files import LEAST, AnotherWriter, BadManifest, LogDamaged, OlderFormat, ShardedError, Writer, polls, undoing
from ._shard_part import Refusal, Shard, ShardReport
from ._shard_reader import SharedSnapshot, ShardedReader, places_name, tell_places
from ._shard_reads import Deadline, NoWorkers, Reads, Scan, Scans, ShardTimeout

try:
    from tqdm import tqdm
except ImportError:
    tqdm = None

__all__ = ["AnotherWriter", "BadManifest", "LogDamaged", "NoWorkers", "OlderFormat", "Scan", "SharedSnapshot"]
__all__ += ["ShardReport", "ShardTimeout", "ShardedError", "ShardedReader", "ShardedSnapshot", "ShardedStore"]

# Seconds between two checks of a shard that does not answer, and number of openings per call.
_POLL, _TRIES = 0.2, 10

# Seconds between two searches for lost shards.
_WATCH = 0.5

# Maximum number of batches in progress: the shards write one while the next is divided into parts.
_AHEAD = 2

# Dask's message for an actor whose worker is gone.
_LOST = "Worker holding Actor was lost"


class _Begun(NamedTuple):
    """A call or an opening in progress."""

    opening: Future
    """Future of the shard's opening."""
    future: Any
    """Future of the call, or of the reopening."""


def _is_lost(future: Any, error: Exception) -> bool:
    """True if an error of a call or of an opening says that the shard's worker was lost."""
    # Dask has no class for the error of a lost actor.
    if isinstance(error, (CancelledError, KilledWorker, TimedOut)) or _LOST in str(error):
        return True
    # Errors of the call itself are returned as answers, and those of an opening are errors of its task.
    is_own = isinstance(future, Future) and future.status == "error"
    return not is_own and isinstance(error, (OSError, ValueError))


def _outcome(step: Written[Any], deadline: Deadline) -> Any:
    """Returns the result of a step. Cancels a step that has not begun in time, and raises `ShardTimeout`."""
    wait([step], deadline.left())
    if not step.done() and step.cancel():
        raise deadline.refusal("the step before")
    return step.result()


def _watch(found: weakref.ref[ShardedStore]) -> None:
    """Reopens lost shards of a store until the store is closed."""
    while True:
        time.sleep(_WATCH)
        store = found()
        if store is None or store._log is None:
            return
        store._open_lost()
        del store


class ShardedStore(Reads, AbstractContextManager):
    """A store over shards, opened by its only writer. Threads may share it.

    Writes and snapshots happen in the order of their calls; reads at the last sequence number run concurrently. A call
    may have its own `timeout` in seconds for all that it does, after which it raises `ShardTimeout`.
    """

    @classmethod
    def create(
        cls,
        client: Client,
        path: str | Path,
        shards: int,
        operator: Operator,
        options: Options = Options(),
        splits: Sequence[bytes] | None = None,
        *,
        sync: bool = True,
        patience: float = 30.0,
        timeout: float | None = None,
        checkpoint_least: int = LEAST,
    ) -> ShardedStore:
        """Creates an empty store in a directory that is empty or does not exist.

        Keys are placed by hash, or by `splits`, the split points between shards. If the store cannot be opened after
        that, it is deleted. Raises `BadManifest`, `TypeError` for a wrong argument, and what `open` does.
        """
        points, folder = None if splits is None else tuple(splits), Path(path).absolute()
        manifest = Manifest(shards, points, operator, options)
        with manifest.created(folder) as claim:
            writer = Writer(folder, manifest, claim.epoch, sync, patience, checkpoint_least)
            return cls(client, writer, claim, timeout)

    @classmethod
    def open(
        cls,
        client: Client,
        path: str | Path,
        *,
        sync: bool = True,
        patience: float = 30.0,
        timeout: float | None = None,
        checkpoint_least: int = LEAST,
    ) -> ShardedStore:
        """Opens a store with all batches that were acknowledged.

        `sync` says whether each batch is durable before it is acknowledged. Without it, a crash of a machine may
        leave logs that cannot be opened. `patience` is the number of seconds that a call waits for a worker or a
        lock. `timeout` is the number of seconds that a call without its own timeout waits for a shard's answer;
        None waits forever. Openings have no such limit. A shard's log is cut when that deletes at least
        `checkpoint_least` bytes, and twice the size of the data.

        Raises what `Store.open` does, `BadManifest`, `AnotherWriter`, `LogDamaged`, `NoWorkers`,
        and `ShardedError` and `OSError` for an I/O error.
        """
        folder = Path(path).absolute()
        manifest, claim = Manifest.read(folder), Claim(folder, patience)
        with undoing(claim.release):
            writer = Writer(folder, manifest, claim.epoch, sync, patience, checkpoint_least)
            return cls(client, writer, claim, timeout)

    @staticmethod
    def reader(
        client: Client, path: str | Path, *, patience: float = 30.0, timeout: float | None = None
    ) -> ShardedReader:
        """Returns a reader of a store that another process has open. Raises `BadManifest`."""
        return ShardedReader(client, path, patience=patience, timeout=timeout)

    def __init__(self, client: Client, writer: Writer, claim: Claim, timeout: float | None) -> None:
        """Called by `create` and `open`, which own the claim until all shards are open."""
        self._client, self._writer, self._claim, self._timeout = client, writer, claim, timeout
        self._manifest, self._process = writer.manifest, os.getpid()
        self._snapshots: set[ShardedSnapshot] = set()
        self._futures: dict[int, Future] = {}
        self._actors: dict[int, Any] = {}
        self._log: Sequencer | None = None
        # The claim keeps out other processes of this machine, and Dask's lock other clients. The name of its owner
        # contains the client, so that the lock can be taken from a client that is gone.
        self._lock, self._owner = places_name(writer.folder), f"{client.id} {claim.epoch}"
        # One thread makes all changes of the store, step by step.
        self._steps, self._stepper = ThreadPoolExecutor(1, "ucstore.sharded"), 0
        self._ahead = threading.BoundedSemaphore(_AHEAD)
        with undoing(self._steps.shutdown):
            self._step(self._begin)
        threading.Thread(target=_watch, args=(weakref.ref(self),), daemon=True).start()

    def _begin(self) -> None:
        """Opens all shards. On an error, closes those that were opened."""
        self._stepper = threading.get_ident()
        with undoing(self._let_go):
            self._find_workers()
            self._log = Sequencer(self._writer)
            self._ask("report", dict.fromkeys(range(self._manifest.shards), ()))

    def _step(self, function: Callable[..., Any], *arguments: Any, deadline: Deadline = Deadline(None)) -> Any:
        """Runs a function as a step, and returns its result. Raises `NoStore` after the store was closed."""
        return _outcome(self._later(function, *arguments), deadline)

    def _later(self, function: Callable[..., Any], *arguments: Any) -> Written[Any]:
        """Submits a function as a step, to run after the steps submitted earlier."""
        # A forked child has the store, but not its thread.
        if self._process != os.getpid():
            raise NoStore()
        try:
            return self._steps.submit(function, *arguments)
        except RuntimeError:
            raise NoStore() from None

    def close(self) -> None:
        """Closes the store after the writes submitted so far, and ends its snapshots. A second call does nothing."""
        try:
            with suppress(NoStore):
                self._step(self._let_go)
        finally:
            self._steps.shutdown(wait=False)
            self._claim.release()

    def _let_go(self) -> None:
        """Releases everything except the claim. The store is closed first, even if the rest fails."""
        log, self._log = self._log, None
        self._snapshots.clear()
        if log is not None:
            log.close()
        self._forget(range(self._manifest.shards))
        # A newer writer has since published the locations of the shards.
        with suppress(UcstoreError, ValueError, OSError, TimedOut):
            self._writer.check()
            if self._client.status == "running":
                tell_places(self._client, self._writer.folder, None)
        with suppress(ValueError, OSError, TimedOut):
            if self._client.status == "running":
                release = self._client.scheduler.lock_release
                self._client.sync(release, name=self._lock, id=self._owner)

    def _end(self) -> None:
        """Closes the store within a step."""
        self._let_go()
        self._claim.release()

    def __exit__(self, *_: Any) -> None:
        self.close()

    def _acknowledged(self) -> Sequencer:
        """Returns the last sequence number of each shard. Raises `NoStore` if the store is closed."""
        log = self._log
        if log is None:
            raise NoStore()
        return log

    @property
    def last(self) -> int:
        """The last sequence number: 0 if nothing was written."""
        return self._acknowledged().last

    def write(self, operations: Iterable[Operation], *, timeout: float | None = None) -> int:
        """Writes a batch, and returns its last sequence number once all shards have logged it.

        Raises what `Store.write` does, `NoWorkers`, `AnotherWriter`, `ShardTimeout`, and `ShardedError` for an I/O
        error; the batch is then not written. `OSError` is an error of the sequencer's log: the batch may or may not
        be written. The store is closed, and reopening it shows which.
        """
        deadline = Deadline(timeout)
        return _outcome(self._submit(operations, deadline), deadline)

    def submit(self, operations: Iterable[Operation], *, timeout: float | None = None) -> Written[int]:
        """Starts writing a batch after those submitted earlier, and returns a future of the result of `write`.

        Waits while two batches are in progress, so that one is divided while the shards write the other. If one fails,
        later ones are written all the same. Raises `NoStore`, `ShardTimeout`, and `TypeError` for an object that is not
        an operation.
        """
        return self._submit(operations, Deadline(timeout))

    def _submit(self, operations: Iterable[Operation], deadline: Deadline) -> Written[int]:
        batch = list(operations)
        self._acknowledged()
        if not self._ahead.acquire(timeout=deadline.left()):
            raise deadline.refusal("the batch before")
        with undoing(self._ahead.release):
            parts = self._manifest.parts(batch)
            written = self._later(self._write, parts, len(batch), deadline)
        written.add_done_callback(lambda _: self._ahead.release())
        return written

    def _write(self, parts: Mapping[int, bytes], count: int, deadline: Deadline) -> int:
        """Writes a batch that was divided into parts, and returns its last sequence number."""
        log = self._acknowledged()
        deadline.check("the batch before")
        first, last = log.last + 1, log.last + count
        calls = {number: (log.reached[number], first, part) for number, part in parts.items()}
        # A shard with a part that is not acknowledged is reopened as it was.
        with undoing(self._forget, parts):
            reached = self._ask("apply", calls, deadline)
            with undoing(self._end):
                log.append(last, reached)
        return last

    def _read(self, method: str, calls: Mapping[int, tuple], timeout: float | None) -> Mapping[int, bytes]:
        """Returns the answers of shards to a call at the last sequence number."""
        deadline = Deadline(timeout)
        while True:
            reached = self._acknowledged().reached
            # A shard that was written to for too long since then no longer has that state.
            with suppress(NotProtected):
                return self._ask(method, {number: (*call, reached[number]) for number, call in calls.items()}, deadline)
            deadline.check("the store")

    def snapshot(self, *, timeout: float | None = None) -> ShardedSnapshot:
        """Takes a snapshot at the last sequence number; `with` releases it.

        Raises `OutOfMemory`, `NoWorkers` and `ShardTimeout`.
        """
        deadline = Deadline(timeout)
        return self._step(self._take_snapshot, deadline, deadline=deadline)

    def _take_snapshot(self, deadline: Deadline) -> ShardedSnapshot:
        log = self._acknowledged()
        snapshot = ShardedSnapshot(self, log.last, log.reached)
        calls = {number: (place,) for number, place in enumerate(log.reached)}
        with undoing(self._forget, calls):
            self._ask("keep", calls, deadline)
        self._snapshots.add(snapshot)
        return snapshot

    def _release(self, snapshot: ShardedSnapshot, deadline: Deadline) -> None:
        if snapshot in self._snapshots:
            calls = {number: (place,) for number, place in enumerate(snapshot.reached)}
            try:
                # A shard that is reopened concurrently takes the snapshot again first.
                with undoing(self._forget, calls):
                    self._ask("release", calls, deadline)
            finally:
                self._snapshots.discard(snapshot)

    def report(self, *, timeout: float | None = None) -> list[ShardReport]:
        """Returns statistics of each shard."""
        self._acknowledged()
        found = self._ask("report", dict.fromkeys(range(self._manifest.shards), ()), Deadline(timeout))
        return list(found.values())

    def _ask(
        self, method: str, calls: Mapping[int, tuple], deadline: Deadline = Deadline(None)
    ) -> dict[int, Any]:
        """Returns the answers of shards to a call, made on all at the same time. Reopens lost shards."""
        answers: dict[int, Any] = {}
        for _ in range(_TRIES):
            asked, begun = [number for number in calls if number not in answers], {}
            self._get_open(asked, deadline)
            for number in asked:
                with suppress(KeyError, ValueError):
                    opening, actor = self._futures[number], self._actors[number]
                    begun[number] = _Begun(opening, actor.call(method, *calls[number]))
            answers.update(self._ended(begun, (), deadline))
            if len(answers) == len(calls):
                return {number: answers[number] for number in calls}
        raise ShardedError(f"the workers of shards were lost {_TRIES} times")

    def _get_open(self, numbers: Sequence[int], deadline: Deadline) -> None:
        """Opens the shards that are not open. A write in progress ends first; its result is unknown."""
        if not all(map(self._is_open, numbers)):
            if threading.get_ident() == self._stepper:
                self._open(numbers, deadline)
            else:
                self._step(self._open, numbers, deadline, deadline=deadline)

    def _open(self, numbers: Iterable[int], deadline: Deadline) -> None:
        """Opens the shards that are not open, in their acknowledged state, except lost ones."""
        closed = [number for number in numbers if not self._is_open(number)]
        if closed:
            self._acknowledged()
            workers, begun = self._find_workers(), {}
            for number in closed:
                opening = self._futures.get(number)
                # An opening that timed out may still be in progress, or have ended since.
                if opening is None or number in self._actors or opening.status not in ("pending", "finished"):
                    self._forget([number])
                    opening = self._futures[number] = self._start(number, workers)
                begun[number] = _Begun(opening, opening)
            actors = self._ended(begun, workers, deadline)
            bar = {"desc": "opening shards", "delay": 1.0, "leave": False, "disable": None}
            self._actors.update(tqdm(actors, total=len(closed), **bar) if tqdm else actors)
            self._tell_places()

    def _start(self, number: int, workers: list[str]) -> Future:
        """Starts opening a shard in its acknowledged state."""
        log, keeps = self._acknowledged(), [snapshot.reached[number] for snapshot in self._snapshots]
        reached = (log.reached[number], log.last, keeps)
        # Given several workers, the scheduler takes the one with the fewest actors.
        how = {"workers": workers, "allow_other_workers": True, "actor": True, "pure": False}
        return self._client.submit(Shard.start, self._writer, number, *reached, **how)

    def _open_lost(self) -> None:
        """Reopens lost shards for readers of other processes, if there is a worker for them."""
        lost = [number for number in range(self._manifest.shards) if not self._is_open(number)]
        if lost and self._client.status == "running" and self._client.scheduler_info().get("workers"):
            deadline = Deadline(_WATCH)
            # Calls of this process raise the error.
            with suppress(UcstoreError, OSError, TimedOut, CancelledError):
                self._step(self._open, lost, deadline, deadline=deadline)

    def _tell_places(self) -> None:
        """Publishes the locations of the shards to readers. Readers wait if that fails now."""
        with suppress(OSError, TimedOut):
            places = {number: (actor.key, actor._address) for number, actor in list(self._actors.items())}
            tell_places(self._client, self._writer.folder, places)

    def _is_open(self, number: int) -> bool:
        opening = self._futures.get(number)
        return number in self._actors and opening is not None and opening.status == "finished"

    def _ended(
        self, begun: Mapping[int, _Begun], workers: Iterable[str], deadline: Deadline
    ) -> Iterator[tuple[int, Any]]:
        """Returns the results of calls, except those of lost shards. Raises an error after all have ended."""
        errors: list[Exception] = []
        for number, (opening, future) in begun.items():
            try:
                answer = self._wait(number, opening, future, workers, deadline)
            except ShardTimeout as error:
                errors.append(error)
            except Exception as error:
                if _is_lost(future, error):
                    # Another thread may have reopened it.
                    if self._futures.get(number) is opening:
                        self._forget([number])
                else:
                    errors.append(error)
            else:
                if isinstance(answer, Refusal):
                    errors.append(answer.error)
                else:
                    yield number, answer
        if errors:
            raise errors[0]

    def _wait(
        self, number: int, opening: Future, future: Any, workers: Iterable[str], deadline: Deadline
    ) -> Any:
        """Returns the result of a call, or of an opening on workers. Raises its error, and `ShardTimeout`."""
        is_call, usual = opening is not future, Deadline(self._timeout)
        while True:
            left = deadline.left()
            try:
                # An actor belongs to the current client.
                with self._client.as_current():
                    return future.result(timeout=_POLL if left is None else min(_POLL, left))
            except TimedOut:
                # Dask waits for workers that are gone, and a call of a lost actor may never end.
                is_lost = opening.status != "finished"
                if opening.status == "pending":
                    there = self._client.scheduler_info().get("workers", ())
                    is_lost = set(workers).isdisjoint(there)
                if is_lost:
                    raise CancelledError() from None
                deadline.check(f"shard {number}")
                if is_call and left is None:
                    usual.check(f"shard {number}")

    def _forget(self, numbers: Iterable[int]) -> None:
        """Releases shards. Their workers close them when no call is in progress."""
        for number in numbers:
            self._actors.pop(number, None)
            future = self._futures.pop(number, None)
            # The actor's own future, which Python frees at some later time, would keep it alive.
            if future is not None and self._client.status == "running":
                with suppress(OSError, TimedOut):
                    future.cancel()

    def _find_workers(self) -> list[str]:
        """Returns the available workers. Takes the lock again if a new scheduler does not know it.

        Raises `AnotherWriter` and `NoWorkers` when the time is over.
        """
        name, owner = self._lock, self._owner

        # A nested function is sent as its code, so the scheduler does not need ucstore.
        def find(dask_scheduler: Any = None) -> tuple[bool, list[str]]:
            owners = dask_scheduler.extensions["locks"].ids
            if owners.get(name, owner).split()[0] not in dask_scheduler.clients:
                owners.pop(name, None)
            return owners.setdefault(name, owner) == owner, list(dask_scheduler.workers)

        for _ in polls(self._writer.patience):
            status, is_mine, workers = self._client.status, True, []
            with suppress(OSError, TimedOut):
                if status == "running":
                    is_mine, workers = self._client.run_on_scheduler(find)
            if is_mine and workers:
                return workers
        if is_mine:
            raise NoWorkers(f"no worker is left for a shard: the client is {status}")
        raise AnotherWriter(f"another writer has {self._writer.folder} open")


class ShardedSnapshot(Scans, AbstractContextManager):
    """A snapshot of all shards. It reads what was written before it was taken.

    It may be sent to another process or to a task, as a `SharedSnapshot`, which lasts until this one is released.
    """

    def __init__(self, store: ShardedStore, sequence: int, reached: Sequence[int]) -> None:
        """Called by `ShardedStore.snapshot`."""
        self._store, self._manifest = store, store._manifest
        self.sequence = sequence
        """Its sequence number."""
        self.reached = reached
        """The last sequence number of each shard at that time."""

    def __reduce__(self) -> tuple:
        reader = ShardedReader(self._store._client, self._store._writer.folder, timeout=self._store._timeout)
        return SharedSnapshot, (reader, self.sequence, self.reached)

    def release(self, *, timeout: float | None = None) -> None:
        """Releases the snapshot. A second call does nothing, nor does a call after the store was closed."""
        deadline = Deadline(timeout)
        with suppress(NoStore):
            self._store._step(self._store._release, self, deadline, deadline=deadline)

    def __exit__(self, *_: Any) -> None:
        self.release()

    def _read(self, method: str, calls: Mapping[int, tuple], timeout: float | None) -> Mapping[int, bytes]:
        self._store._acknowledged()
        if self not in self._store._snapshots:
            raise NotProtected()
        at = {number: (*call, self.reached[number]) for number, call in calls.items()}
        return self._store._ask(method, at, Deadline(timeout))
