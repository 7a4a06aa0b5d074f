"""The stores that are tried: the database, and a log of the test's own that is known to be right."""

from __future__ import annotations

import os
import struct
import zlib
from pathlib import Path
from typing import Callable, Dict, List, Optional

from ucstore import Db, DbOptions, DbSnapshot, FileFault, Operator, ReadOnly, Store, Sync

Rows = Dict[bytes, bytes]

# The rows of a batch, with None for a key that it deletes.
Writes = Dict[bytes, Optional[bytes]]

# Sizes of memtables and logs, by the second word of a mode: few runs, many, logs that are shorter than memtables, and threads.
SIZES = {
    "few": DbOptions(write_buffer_size=20_000, checkpoint_least=60_000, compactors=0),
    "many": DbOptions(write_buffer_size=3_000, checkpoint_least=10_000, compactors=0, compaction_trigger=5),
    "short": DbOptions(write_buffer_size=60_000, checkpoint_least=15_000, compactors=0),
    "threads": DbOptions(write_buffer_size=6_000, checkpoint_least=20_000, compactors=2),
}
MODES = tuple(f"{sync}-{sizes}" for sync in ("always", "every", "never") for sizes in SIZES)


class Refused(Exception):
    """A write wasn't taken; later ones may be, unless this `is_final`. Then it may be there again at the next opening."""

    def __init__(self, is_final: bool) -> None:
        super().__init__("refused")
        self.is_final = is_final


class Database:
    """The database in a directory."""

    def __init__(self, folder: Path, mode: str) -> None:
        word, _, sizes = mode.partition("-")
        sync = {"always": Sync.ALWAYS, "every": Sync.EVERY, "never": Sync.NEVER}[word]
        self._is_always = word == "always"
        self._db = Db(folder, options=SIZES[sizes]._replace(sync=sync, sync_milliseconds=3))
        self._held: Optional[DbSnapshot] = None
        self.is_read_only = False

    @staticmethod
    def older(rows: Rows) -> Dict[str, bytes]:
        """The files that an older version leaves of rows: its checkpoints are bases."""
        with Store(Operator.MIXED) as store:
            for key, value in rows.items():
                store[key] = value
            with store.view() as view, view.checkpoint() as checkpoint:
                return {"OPERATOR": b"mixed\n", f"000002-{store.last}.base": b"".join(checkpoint), "000002.log": b""}

    def write(self, rows: Writes, is_synced: bool) -> None:
        """Takes rows together."""
        batch = self._db.write_batch()
        for key, value in rows.items():
            if value is None:
                batch.delete(key)
            else:
                batch.put(key, value)
        try:
            self._db.write(batch, is_synced or self._is_always)
        except ReadOnly:
            raise Refused(True) from None
        except FileFault:
            raise Refused(False) from None
        finally:
            batch.close()

    def sync(self) -> bool:
        """Whether what was written is on the device."""
        return self._tries(self._db.sync)

    def checkpoint(self) -> bool:
        return self._tries(self._db.checkpoint)

    def next_log(self) -> bool:
        return self._tries(self._db.next_log)

    def flush(self) -> bool:
        return self._tries(self._db.flush)

    def compact(self) -> bool:
        return self._tries(self._db.compact)

    def hold(self) -> None:
        """Takes a snapshot, which `checkpoint_to` writes later."""
        self._release()
        self._held = self._db.snapshot()

    def checkpoint_to(self) -> bool:
        held = self._held
        return held is not None and self._tries(lambda: self._db.checkpoint_to(held))

    def _release(self) -> None:
        if self._held is not None:
            self._held.close()

    def _tries(self, call: Callable[[], None]) -> bool:
        try:
            call()
        except (ReadOnly, FileFault) as error:
            self.is_read_only |= isinstance(error, ReadOnly)
            return False
        return True

    def backup(self, folder: Path) -> None:
        """Writes the database as it is now to a new directory."""
        self._db.backup(folder)

    def rows(self) -> Rows:
        return dict(self._db.items())

    def close(self) -> bool:
        self._release()
        return self._tries(self._db.close)


class Control:
    """A log of records with checksums. It is read up to the first one that isn't whole, and written anew at each opening."""

    # The size of a value that stands for a deletion.
    DELETED = 0xffffffff

    def __init__(self, folder: Path, mode: str) -> None:
        folder.mkdir(exist_ok=True)
        self._folder, self._is_always = folder, mode.startswith("always")
        self._sync_directory(folder.parent)
        self._rows: Rows = {}
        self._failed = False
        records = self._read()
        new = os.open(folder / "log.new", os.O_WRONLY | os.O_CREAT | os.O_TRUNC, 0o600)
        for record in records:
            self._put(new, record)
        os.fsync(new)
        os.rename(folder / "log.new", folder / "log")
        self._sync_directory(folder)
        self._log = new

    @staticmethod
    def _sync_directory(path: Path) -> None:
        directory = os.open(path, os.O_RDONLY)
        try:
            os.fsync(directory)
        finally:
            os.close(directory)

    @staticmethod
    def _put(file: int, data: bytes) -> None:
        while data:
            data = data[os.write(file, data):]

    def _read(self) -> List[bytes]:
        """The records of the log, whose rows are taken."""
        path = self._folder / "log"
        data = path.read_bytes() if path.exists() else b""
        records = []
        while True:
            record = self._next(data)
            if record is None:
                return records
            data = data[len(record):]
            records.append(record)
            body = record[8:]
            while body:
                key_size, value_size = struct.unpack("<II", body[:8])
                key, body = body[8:8 + key_size], body[8 + key_size:]
                if value_size == self.DELETED:
                    self._rows.pop(key, None)
                else:
                    self._rows[key], body = body[:value_size], body[value_size:]

    @staticmethod
    def _next(data: bytes) -> Optional[bytes]:
        if len(data) < 8:
            return None
        size, checksum = struct.unpack("<II", data[:8])
        body = data[8:8 + size]
        return data[:8 + size] if size and len(body) == size and zlib.crc32(body) == checksum else None

    def write(self, rows: Writes, is_synced: bool) -> None:
        if self._failed:
            raise Refused(True)
        body = b"".join(
            struct.pack("<II", len(key), self.DELETED if value is None else len(value)) + key + (value or b"")
            for key, value in rows.items())
        try:
            self._put(self._log, struct.pack("<II", len(body), zlib.crc32(body)) + body)
            if is_synced or self._is_always:
                os.fsync(self._log)
        except OSError:
            self._failed = True
            raise Refused(True) from None
        for key, value in rows.items():
            if value is None:
                self._rows.pop(key, None)
            else:
                self._rows[key] = value

    def sync(self) -> bool:
        try:
            if not self._failed:
                os.fsync(self._log)
        except OSError:
            self._failed = True
        return not self._failed

    @property
    def is_read_only(self) -> bool:
        return self._failed

    def checkpoint(self) -> bool:
        return self.sync()

    next_log = checkpoint_to = flush = compact = checkpoint

    def hold(self) -> None:
        pass

    def rows(self) -> Rows:
        return dict(self._rows)

    def close(self) -> bool:
        is_synced = self.sync()
        os.close(self._log)
        return is_synced


STORES = {"database": Database, "control": Control}
