"""Errors of a sharded store, and writing of its files."""

from __future__ import annotations

import fcntl
import os
import time
from contextlib import contextmanager, suppress
from pathlib import Path
from typing import TYPE_CHECKING, Any, BinaryIO, Callable, Iterator, NamedTuple

from . import UcstoreError

if TYPE_CHECKING:
    from ._shard import Manifest

# Minimum number of bytes of logs that a shard's checkpoint deletes.
LEAST = 16 << 20


class ShardedError(UcstoreError):
    """An error of a sharded store, in addition to those of a store."""


class BadManifest(ShardedError):
    """A store cannot be created or opened as its manifest says."""


class OlderFormat(BadManifest):
    """The store was created by an older version of ucstore, whose files this version does not read."""


class LogDamaged(ShardedError):
    """A log lacks acknowledged writes, or cannot be read up to them."""


class AnotherWriter(ShardedError):
    """Another writer has the store open. It is unknown whether it has a batch of this one."""


@contextmanager
def refusing(refusal: type[ShardedError], text: str, *errors: type[Exception]) -> Iterator[None]:
    """Replaces errors by a `refusal`. An error that is a `refusal` keeps its class."""
    try:
        yield
    except errors as error:
        kind = type(error) if isinstance(error, refusal) else refusal
        raise kind(f"{text}: {getattr(error, 'strerror', None) or error}") from None


@contextmanager
def undoing(undo: Callable[..., None], *arguments: Any) -> Iterator[None]:
    """Calls a function if the block raises."""
    try:
        yield
    except BaseException:
        undo(*arguments)
        raise


def polls(patience: float) -> Iterator[None]:
    """Waits between the steps of a loop, which ends after a number of seconds."""
    until = time.monotonic() + patience
    yield
    while time.monotonic() < until:
        time.sleep(0.05)
        yield


def locked(file: BinaryIO, patience: float) -> bool:
    """Locks a file, and returns True if that succeeded within a number of seconds."""
    for _ in polls(patience):
        with suppress(BlockingIOError):
            fcntl.flock(file, fcntl.LOCK_EX | fcntl.LOCK_NB)
            return True
    return False


def append(file: BinaryIO, text: bytes, sync: bool = True) -> None:
    """Writes to a file, and syncs it if `sync` is set."""
    rest = memoryview(text)
    # An unbuffered write may be partial.
    while rest:
        rest = rest[file.write(rest) :]
    file.flush()
    if sync:
        os.fsync(file.fileno())


def sync_folder(folder: Path) -> None:
    """Syncs a directory."""
    opened = os.open(folder, os.O_RDONLY)
    try:
        os.fsync(opened)
    finally:
        os.close(opened)


def replace(path: Path, text: bytes) -> None:
    """Replaces a file atomically: a crash leaves the old one or the new one."""
    new = path.with_suffix(".new")
    with undoing(new.unlink, True):
        with open(new, "wb") as file:
            append(file, text)
        os.replace(new, path)
    sync_folder(path.parent)


class Writer(NamedTuple):
    """The writer that has a store open, and its options."""

    folder: Path
    manifest: Manifest
    epoch: str
    sync: bool
    patience: float
    least: int = LEAST

    def check(self) -> None:
        """Raises `AnotherWriter` if a newer writer has opened the store."""
        if (self.folder / "epoch").read_text() != self.epoch:
            raise AnotherWriter(f"a newer writer has opened {self.folder}")
