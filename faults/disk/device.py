"""A device: what it may hold after a crash, of what a recorded process has done.

What was synced is there. Of what wasn't, any sectors or pages are, and the others are as before, or zeros, or what another file
had elsewhere. A file may have its length without its contents. Names are there in any subset, unless their directory was synced.
After a failed sync the pages count as clean: a process reads them, and no later sync writes them.
"""

from __future__ import annotations

import random
from pathlib import Path
from typing import BinaryIO, Dict, Iterator, List, NamedTuple, Optional, Set, Tuple

SECTOR, PAGE = 512, 4096

Files = Dict[str, bytes]


class Call(NamedTuple):
    """A line of a trace."""

    kind: str
    words: Tuple[str, ...]
    data: bytes


def calls_of(trace: BinaryIO) -> Iterator[Call]:
    """The calls of a trace that record.c wrote."""
    for line in trace:
        kind, *words = line.decode().rstrip("\n").split("\t")
        yield Call(kind, tuple(words), trace.read(int(words[2])) if kind == "write" else b"")


class Content:
    """A file: what a process reads, what the device has for certain, and the sectors that the next sync writes."""

    def __init__(self, data: bytes = b"") -> None:
        self.now, self.disk = bytearray(data), bytearray(data)
        self.dirty: Set[int] = set()

    def write(self, offset: int, data: bytes) -> None:
        if not data:
            return
        if offset > len(self.now):
            self.now.extend(bytes(offset - len(self.now)))
        self.now[offset:offset + len(data)] = data
        self.dirty.update(range(offset // SECTOR, (offset + len(data) - 1) // SECTOR + 1))

    def cut(self, length: int) -> None:
        del self.now[length:]
        self.now.extend(bytes(length - len(self.now)))
        self.dirty = {sector for sector in self.dirty if sector * SECTOR < length}

    def lose(self) -> None:
        """A sync that failed: nothing is written, and nothing is to be written."""
        self.dirty = set()

    def sync(self) -> None:
        """Writes what is dirty. What a failed sync didn't write stays as it was."""
        _resize(self.disk, len(self.now))
        for sector in self.dirty:
            _copy(self.now, self.disk, sector * SECTOR, (sector + 1) * SECTOR)
        self.dirty = set()

    @property
    def is_settled(self) -> bool:
        return not self.dirty and len(self.disk) == len(self.now)


def _resize(data: bytearray, length: int) -> None:
    del data[length:]
    data.extend(bytes(length - len(data)))


def _copy(source: bytearray, target: bytearray, begin: int, end: int) -> None:
    end = min(end, len(source), len(target))
    if begin < end:
        target[begin:end] = source[begin:end]


class Change(NamedTuple):
    """A change of the names that isn't synced: None takes one away."""

    before: Optional[str]
    name: Optional[str]
    content: Optional[Content]

    def apply(self, names: Dict[str, Content]) -> None:
        if self.before is not None:
            names.pop(self.before, None)
        if self.name is not None and self.content is not None:
            names[self.name] = self.content


class Device:
    """The directory of a database, in a root that is there."""

    KINDS = ("process", "synced", "prefix", "sectors", "pages", "lengths", "stale", "names", "all")

    def __init__(self, root: str, files: Optional[Files] = None, lie: str = "") -> None:
        self.root, self.folder, self.lie = root, f"{root}/db", lie
        self.is_made = self.is_named = files is not None
        self.inodes: Dict[str, Content] = {}
        self.names: Dict[str, Content] = {name: Content(data) for name, data in (files or {}).items()}
        self.synced = dict(self.names)
        self.changes: List[Change] = []
        # Also those that have no name any more.
        self.contents: List[Content] = list(self.names.values())

    def adopt(self) -> None:
        """Takes the inodes of files that another device wrote there."""
        for name, content in self.names.items():
            self.inodes[str((Path(self.folder) / name).stat().st_ino)] = content

    def _name(self, path: str) -> Optional[str]:
        above, _, name = path.rpartition("/")
        return name if above == self.folder else None

    def _change(self, change: Change) -> None:
        change.apply(self.names)
        self.changes.append(change)

    def apply(self, call: Call) -> None:
        """Does what a call did."""
        getattr(self, f"_{call.kind}")(*call.words, **({"data": call.data} if call.kind == "write" else {}))

    def _mark(self, text: str) -> None:
        pass

    def _mkdir(self, path: str) -> None:
        self.is_made = self.is_made or path == self.folder

    def _create(self, inode: str, path: str) -> None:
        name = self._name(path)
        content = self.inodes[inode] = Content()
        self.contents.append(content)
        if name is not None:
            self._change(Change(None, name, content))

    def _write(self, inode: str, offset: str, _: str, data: bytes) -> None:
        self.inodes[inode].write(int(offset), data)

    def _cut(self, inode: str, length: str) -> None:
        self.inodes[inode].cut(int(length))

    def _sync(self, inode: str) -> None:
        if self.lie != "data":
            self.inodes[inode].sync()

    def _lost(self, inode: str) -> None:
        self.inodes[inode].lose()

    def _syncdir(self, path: str) -> None:
        if self.lie == "names":
            return
        if path == self.root:
            self.is_named = self.is_made
        elif path == self.folder:
            self.synced = dict(self.names)
            self.changes.clear()

    def _rename(self, before: str, path: str) -> None:
        name = self._name(before)
        if name is not None:
            self._change(Change(name, self._name(path), self.names[name]))

    def _unlink(self, path: str) -> None:
        self._change(Change(self._name(path), None, None))

    def now(self) -> Files:
        """The files as a process reads them."""
        return {name: bytes(content.now) for name, content in self.names.items()}

    def crashed(self, kind: str, drawn: random.Random) -> Optional[Files]:
        """The files after a crash, or after the process has ended alone; None without a directory."""
        if not self.is_made or (not self.is_named and kind != "process" and drawn.random() < 0.5):
            return None
        if kind == "process":
            return self.now()
        names = self._names_left(kind, drawn)
        files = {name: left_of(content, kind, drawn) for name, content in names.items()}
        if kind == "stale":
            for name, content in names.items():
                files[name] = self._with_stale(files[name], content, drawn)
        return files

    def _with_stale(self, left: bytes, content: Content, drawn: random.Random) -> bytes:
        """A file in whose sectors that weren't written stands what another one had elsewhere."""
        if content.is_settled or not self.contents:
            return left
        other = drawn.choice(self.contents)
        found = bytearray(left)
        for sector in sorted(content.dirty):
            begin, end = sector * SECTOR, (sector + 1) * SECTOR
            if begin >= len(content.disk) and not any(left[begin:end]):
                _copy(other.now[SECTOR:], found, begin, end)
        return bytes(found)

    def _names_left(self, kind: str, drawn: random.Random) -> Dict[str, Content]:
        if kind == "synced":
            return self.synced
        if kind == "all":
            return self.names
        names = dict(self.synced)
        first = drawn.randint(0, len(self.changes))
        is_in_order = kind != "names" and drawn.random() < 0.5
        for place, change in enumerate(self.changes):
            if place < first if is_in_order else drawn.random() < 0.5:
                change.apply(names)
        return names


def left_of(content: Content, kind: str, drawn: random.Random) -> bytes:
    """The contents of a file after a crash."""
    if kind == "synced" or content.is_settled:
        return bytes(content.disk)
    left = bytearray(content.disk)
    if kind == "all":
        _resize(left, len(content.now))
        kept = content.dirty
    elif kind == "lengths":
        _resize(left, len(content.now))
        kept = {sector for sector in content.dirty if drawn.random() < 0.2}
    elif kind == "prefix":
        _resize(left, drawn.randint(min(len(left), len(content.now)), max(len(left), len(content.now))))
        kept = content.dirty
    else:
        _resize(left, drawn.choice((len(left), len(content.now), len(content.now))))
        unit = SECTOR if kind == "sectors" else PAGE
        units = {sector * SECTOR // unit for sector in content.dirty}
        units = {number for number in units if drawn.random() < 0.5}
        kept = {sector for sector in content.dirty if sector * SECTOR // unit in units}
    for sector in kept:
        _copy(content.now, left, sector * SECTOR, (sector + 1) * SECTOR)
    return bytes(left)
