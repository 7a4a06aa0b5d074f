"""Files of a sharded store's writer: the manifest, the lock and the sequencer's log. Independent of Dask."""

from __future__ import annotations

import fcntl
import json
import marshal
import os
import shutil
import struct
import time
import uuid
from bisect import bisect_left, bisect_right
from collections import defaultdict
from contextlib import contextmanager, suppress
from functools import lru_cache, partial
from hashlib import sha256
from itertools import chain
from operator import itemgetter
from pathlib import Path
from typing import Any, Iterator, Mapping, NamedTuple, Sequence
from zlib import crc32

from . import _TAGS, Delete, DeleteRange, Operation, Operator, Options, Store
from ._shard_files import AnotherWriter, BadManifest, LogDamaged, OlderFormat, Writer
from ._shard_files import append, locked, refusing, replace, undoing

# Version of the files' format. Increases when the format changes its meaning.
FORMAT = 5

# Formats of older versions, whose shards had their own logs.
_OLDER_FORMATS = (2, 3, 4)

# Number of operations packed together: few enough to fit the processor's cache.
PIECE = 2000

# Size in bytes at which the sequencer's log is restarted.
MOST_RECORDS = 1 << 20

# Number of bytes that a device writes atomically.
_SECTOR = 512


def dumps(found: Any) -> bytes:
    """Serializes what is sent, as one piece: Dask would send the byte strings of a list one by one."""
    # This version of the protocol does not search for equal byte strings, and takes half the time.
    return marshal.dumps(found, 2)


def _deletions(tags: bytes) -> Iterator[int]:
    """Yields the indexes of operations without a second argument."""
    place = tags.find(_TAGS[Delete])
    while place >= 0:
        yield place
        place = tags.find(_TAGS[Delete], place + 1)


def packed(operations: Sequence[Operation]) -> bytes:
    """Returns a piece: the tags, the first and the second arguments of operations. Raises `TypeError` for other objects."""
    kinds = list(map(type, operations))
    firsts, seconds = list(map(itemgetter(0), operations)), list(map(itemgetter(-1), operations))
    if not (set(kinds) <= _TAGS.keys() and {*map(type, firsts), *map(type, seconds)} <= {bytes}):
        raise TypeError("an operation is a Put, Delete, Merge or DeleteRange of bytes")
    tags = bytes(map(_TAGS.__getitem__, kinds))
    for place in _deletions(tags):
        seconds[place] = b""
    return dumps((tags, firsts, seconds))


@lru_cache(1 << 16)
def _length(length: int) -> bytes:
    """Encodes a length as a varint: seven bits per byte, the low ones first."""
    low, rest = length & 0x7F, length >> 7
    return bytes([low | 0x80]) + _length(rest) if rest else bytes([low])


# Encoded lengths of most byte strings: a list is faster than a function. And the encoded tag of each operation.
_LENGTHS, _TAG_BYTES = [_length(length) for length in range(4096)], [bytes([tag]) for tag in range(16)]


def _spelled_lengths(texts: Sequence[bytes]) -> list[bytes]:
    """Returns the encoded lengths of byte strings."""
    lengths = list(map(len, texts))
    return list(map(_LENGTHS.__getitem__ if max(lengths) < len(_LENGTHS) else _length, lengths))


def batch_of(part: bytes, first: int) -> bytes:
    """Encodes the pieces of a part as a write batch of RocksDB. `first` is its sequence number."""
    bodies, count = [], 0
    for piece in marshal.loads(part):
        tags, firsts, seconds = marshal.loads(piece)
        lengths = _spelled_lengths(seconds)
        for place in _deletions(tags):
            lengths[place] = b""
        fields = zip(map(_TAG_BYTES.__getitem__, tags), _spelled_lengths(firsts), firsts, lengths, seconds)
        bodies.append(b"".join(chain.from_iterable(fields)))
        count += len(tags)
    return struct.pack("<QI", first, count) + b"".join(bodies)


def _remove_folders(folders: Sequence[Path]) -> None:
    """Removes empty directories. Inner ones come first."""
    for folder in folders:
        with suppress(OSError):
            folder.rmdir()


def _checksum(shape: Mapping[str, Any]) -> str:
    """Returns a checksum of the contents of JSON, whatever its layout."""
    return sha256(json.dumps(shape, sort_keys=True).encode()).hexdigest()


def sealed(shape: Mapping[str, Any]) -> bytes:
    """Returns the contents of a manifest's file: JSON with a checksum."""
    return json.dumps({**shape, "sha256": _checksum(shape)}, indent=1).encode()


def unsealed(text: bytes) -> dict[str, Any]:
    """Parses a manifest's file. Raises `BadManifest` and `ValueError` if it was changed."""
    shape = json.loads(text)
    if not isinstance(shape, dict):
        raise BadManifest("it isn't an object")
    version = shape.get("format")
    if version != FORMAT:
        wrong = f"its format is {version!r}, and only {FORMAT} is known"
        if version in _OLDER_FORMATS:
            raise OlderFormat(f"{wrong}: write a scan of it into a new store, by the version of ucstore that made it")
        raise BadManifest(wrong)
    if shape.pop("sha256", None) != _checksum(shape):
        raise BadManifest("it doesn't have its checksum: it is damaged, or was changed")
    return shape


class Claim:
    """The rights of the only writer of a directory: the lock of a file in it, and a name for its epoch."""

    def __init__(self, folder: Path, patience: float) -> None:
        """Waits for the lock for at most `patience` seconds. Raises `AnotherWriter` and `OSError`."""
        self.epoch, path = uuid.uuid4().hex, folder / "lock"
        self._process, self._file = os.getpid(), open(path, "r+b")
        with undoing(self._file.close):
            is_mine = locked(self._file, patience)
            # The creator may have removed the file, and another process may have created a new one.
            if not (is_mine and os.path.samestat(os.fstat(self._file.fileno()), path.stat())):
                raise AnotherWriter(f"another writer has {folder} open")

    @classmethod
    def create(cls, folder: Path) -> Claim:
        """Creates the file. Only one of several concurrent callers succeeds; the others raise `BadManifest`."""
        lock = folder / "lock"
        with refusing(BadManifest, f"{folder} isn't empty", FileExistsError):
            lock.touch(exist_ok=False)
        with undoing(lock.unlink, True):
            return cls(folder, 0)

    def release(self) -> None:
        """Releases the directory. A second call does nothing."""
        # A forked child shares the lock and must not release it. Releasing it here releases it there too.
        if not self._file.closed and self._process == os.getpid():
            with suppress(OSError):
                fcntl.flock(self._file, fcntl.LOCK_UN)
        self._file.close()


class Manifest(NamedTuple):
    """The number of shards, the split points if keys are not placed by hash, and the options of the shards."""

    shards: int
    splits: tuple[bytes, ...] | None
    operator: Operator
    options: Options

    @contextmanager
    def created(self, folder: Path) -> Iterator[Claim]:
        """Creates the files of an empty store, and removes them if the `with` block raises.

        Raises `BadManifest` if there are any files, and `TypeError` if the manifest cannot be encoded.
        """
        self.of(self._shape())
        missing = [path for path in (folder, *folder.parents) if not path.exists()]
        with undoing(_remove_folders, missing):
            folder.mkdir(parents=True, exist_ok=True)
            if any(folder.iterdir()):
                raise BadManifest(f"{folder} isn't empty")
            claim = Claim.create(folder)
            with undoing(claim.release), undoing(self._remove_files, folder, claim):
                self._make_files(folder)
                yield claim

    def _shape(self) -> dict[str, Any]:
        """Encodes the manifest as JSON. Raises `TypeError` for a value that JSON lacks."""
        if not isinstance(self.operator, Operator):
            raise TypeError(f"an operator is one like Operator.APPEND, not {self.operator!r}")
        if not isinstance(self.options, Options):
            raise TypeError(f"options are Options, not {self.options!r}")
        for split in self.splits or ():
            if not isinstance(split, bytes):
                raise TypeError(f"a split point is bytes, not {split!r}")
        placement = "crc32" if self.splits is None else [split.hex() for split in self.splits]
        shape = {"format": FORMAT, "shards": self.shards, "placement": placement}
        return {**shape, "operator": self.operator.name, "options": self.options._asdict()}

    def _files(self) -> list[str]:
        """The names of a store's files. The first one makes the directory a store."""
        shards = (f"shard-{number}" for number in range(self.shards))
        return ["manifest.json", "lock", "epoch", "sequencer.log", *shards]

    def _make_files(self, folder: Path) -> None:
        for number in range(self.shards):
            (folder / f"shard-{number}").mkdir()
        replace(folder / "sequencer.log", _record([0] * (self.shards + 1)))
        replace(folder / "epoch", b"")
        replace(folder / "manifest.json", sealed(self._shape()))

    def _remove_files(self, folder: Path, claim: Claim) -> None:
        """Removes the files that were created, unless a writer of another machine has opened them."""
        with suppress(OSError):
            epoch = folder / "epoch"
            if not epoch.exists() or epoch.read_text() in ("", claim.epoch):
                for path in map(folder.joinpath, self._files()):
                    # Files that a shard's database has created are removed with its directory.
                    if path.is_dir():
                        shutil.rmtree(path)
                    path.unlink(True)

    @classmethod
    def of(cls, shape: Any) -> Manifest:
        """Decodes a manifest from JSON. Raises `BadManifest` with the reason."""
        names = ["format", "operator", "options", "placement", "shards"]
        if not isinstance(shape, dict) or sorted(shape) != names:
            raise BadManifest(f"it isn't an object of {', '.join(names)}")
        version, operator, options, placement, shards = map(shape.get, names)
        if version != FORMAT:
            raise BadManifest(f"its format is {version!r}, and only {FORMAT} is known")
        if type(shards) is not int or shards < 1:
            raise BadManifest(f"{shards!r} isn't a number of shards")
        if operator not in list(Operator.__members__):
            raise BadManifest(f"there is no operator {operator!r}")
        wrong = f"keys are placed neither by crc32 nor by split points: {placement!r}"
        with refusing(BadManifest, wrong, TypeError, ValueError):
            splits = None if placement == "crc32" else tuple(map(bytes.fromhex, placement))
        if splits is not None and len(splits) != shards - 1:
            wrong = f"there are {len(splits)} split points, and {shards} shards have {shards - 1}"
            raise BadManifest(f"{wrong} between them")
        if splits is not None and list(splits) != sorted(set(splits)):
            raise BadManifest("the split points don't rise")
        with refusing(BadManifest, f"there are no options {options!r}", TypeError, ValueError):
            manifest = cls(shards, splits, Operator[operator], Options(**options))
            Store(manifest.operator, manifest.options).close()
        return manifest

    @classmethod
    def read(cls, folder: Path) -> Manifest:
        """Reads the manifest of a directory, and checks that all files exist."""
        path = folder / "manifest.json"
        with refusing(BadManifest, f"{path} is refused", OSError, TypeError, ValueError, BadManifest):
            manifest = cls.of(unsealed(path.read_bytes()))
            for needed in manifest._files():
                if not (folder / needed).exists():
                    raise BadManifest(f"{folder / needed} isn't there")
        return manifest

    def owner(self, key: bytes) -> int:
        """Returns the shard of a key."""
        return crc32(key) % self.shards if self.splits is None else bisect_right(self.splits, key)

    def touched(self, low: bytes, high: bytes | None) -> range:
        """Returns the shards that may have keys from `low` to below `high`, in the order of the keys if there are split points."""
        if high is not None and low >= high:
            return range(0)
        if self.splits is None:
            return range(self.shards)
        end = self.shards if high is None else bisect_left(self.splits, high) + 1
        return range(bisect_right(self.splits, low), end)

    def parts(self, operations: Sequence[Operation]) -> dict[int, bytes]:
        """Divides operations into one part for each shard that has some. Raises what `packed` does."""
        parts: dict[int, list[bytes]] = defaultdict(list)
        for begin in range(0, len(operations), PIECE):
            for number, some in enumerate(self._placed(operations[begin : begin + PIECE])):
                if some:
                    parts[number].append(packed(some))
            # Lets the threads run that send the previous batch.
            time.sleep(0)
        return {number: dumps(pieces) for number, pieces in parts.items()}

    def _placed(self, operations: Sequence[Operation]) -> list[list[Operation]]:
        """Returns the operations of each shard."""
        placed: list[list[Operation]] = [[] for _ in range(self.shards)]
        takes, owners = [some.append for some in placed], self._owners(operations)
        if DeleteRange in set(map(type, operations)):
            for operation, owner in zip(operations, owners):
                if type(operation) is DeleteRange:
                    for number in self.touched(*operation):
                        takes[number](operation)
                else:
                    takes[owner](operation)
        else:
            # Most batches have no range, and this loop takes most of a writer's time.
            for operation, owner in zip(operations, owners):
                takes[owner](operation)
        return placed

    def _owners(self, operations: Sequence[Operation]) -> Iterator[int]:
        """Returns the shard of each operation's key, by `owner`."""
        keys, shards = map(itemgetter(0), operations), self.shards
        if self.splits is None:
            return (number % shards for number in map(crc32, keys))
        return map(partial(bisect_right, self.splits), keys)


def _record(numbers: Sequence[int]) -> bytes:
    """Encodes a record of the sequencer's log: the last sequence number, that of each shard, and a checksum."""
    body = struct.pack(f"<{len(numbers)}Q", *numbers)
    return body + crc32(body).to_bytes(4, "little")


def last_numbers(path: Path, count: int) -> Sequence[int]:
    """Returns the numbers of the last record of a sequencer's log. Raises `LogDamaged`.

    A crash leaves less than a record at the end, or zeros in some of its sectors; these are skipped. Any other
    record was complete and may have been acknowledged, so its checksum must match.
    """
    text, size = path.read_bytes(), 8 * count + 4
    numbers: Sequence[int] = ()
    for place in range(0, len(text), size):
        record = text[place : place + size]
        if numbers and place + size >= len(text) and (len(record) < size or _is_torn(record, place)):
            break
        body, checksum = record[:-4], record[-4:]
        if len(record) < size or crc32(body).to_bytes(4, "little") != checksum:
            raise LogDamaged(f"{path} is damaged at byte {place}")
        numbers = struct.unpack(f"<{count}Q", body)
    if not numbers:
        raise LogDamaged(f"{path} is damaged at byte 0")
    return numbers


def _is_torn(record: bytes, place: int) -> bool:
    """True if a crash may have left this last record: its checksum does not match, and a sector of it is zero."""
    if crc32(record[:-4]).to_bytes(4, "little") == record[-4:]:
        return False
    begins = [0, *range(_SECTOR - place % _SECTOR, len(record), _SECTOR)]
    return any(not any(record[begin:end]) for begin, end in zip(begins, [*begins[1:], len(record)]))


def acknowledged(folder: Path, count: int) -> Sequence[int]:
    """Returns the last numbers of a sequencer's log, read while its writer runs. They are durable then.

    Raises `LogDamaged` and `OSError`.
    """
    path, size = folder / "sequencer.log", 8 * count + 4
    while True:
        with open(path, "rb") as file:
            # A record may be in progress after the last complete one.
            whole = os.fstat(file.fileno()).st_size // size
            file.seek(max(whole - 2, 0) * size)
            records = [file.read(size) for _ in range(min(whole, 2))]
            os.fsync(file.fileno())
            is_current = os.path.samestat(os.fstat(file.fileno()), path.stat())
        # A file that was replaced concurrently may have a record that nobody else reads.
        if is_current:
            return _last_of(records, path)


def _last_of(records: Sequence[bytes], path: Path) -> Sequence[int]:
    """Returns the numbers of the last of some records whose checksum matches. Raises `LogDamaged` if none does."""
    for record in reversed(records):
        if crc32(record[:-4]).to_bytes(4, "little") == record[-4:]:
            return struct.unpack(f"<{len(record) // 8}Q", record[:-4])
    raise LogDamaged(f"{path} is damaged at its end")


class Sequencer:
    """The log of the last sequence numbers of all shards. Writes that it does not have are not acknowledged."""

    def __init__(self, writer: Writer) -> None:
        """Begins an epoch, in which older writers are rejected. Raises `LogDamaged` and `OSError`."""
        replace(writer.folder / "epoch", writer.epoch.encode())
        self._writer, self._path = writer, writer.folder / "sequencer.log"
        self.last, *self.reached = last_numbers(self._path, writer.manifest.shards + 1)
        self._begin_file()

    def _begin_file(self) -> None:
        """Begins a file with the last record. Raises `OSError`."""
        # A writer that was thought dead continues with the old file, which nobody reads.
        replace(self._path, _record([self.last, *self.reached]))
        # Unbuffered, so that no byte of a failed record is written later.
        self._file = open(self._path, "ab", buffering=0)

    def append(self, last: int, reached: Mapping[int, int]) -> None:
        """Acknowledges a batch that some shards have reached. Raises `AnotherWriter` and `OSError`, and is not used after that."""
        if self._file.tell() >= MOST_RECORDS:
            self._writer.check()
            self._file.close()
            self._begin_file()
        everywhere = [reached.get(number, before) for number, before in enumerate(self.reached)]
        append(self._file, _record([last, *everywhere]), self._writer.sync)
        # A newer writer begins its epoch before it reads the log: either it has this record, or it is seen here.
        self._writer.check()
        # Readers see a batch only when it can no longer be lost.
        self.last, self.reached = last, everywhere

    def close(self) -> None:
        """Closes the file. All acknowledged batches are in it, so errors are ignored."""
        with suppress(OSError):
            self._file.close()
