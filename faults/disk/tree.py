"""A device with directories: what it may hold after a crash, of what a recorded process has done.

Files are as in device.py. A directory has its names that were synced, and any subset of the changes since. A file that has two names by a
link is one file after the crash too. A directory that is there has the names that its own syncs kept, whatever name it has itself.
"""

from __future__ import annotations

import os
import random
from pathlib import Path
from typing import Dict, List, NamedTuple, Optional, Union

from device import Call, Content, left_of


class Change(NamedTuple):
    """A change of a directory's names that isn't synced: None takes one away."""

    name: str
    node: Optional[Node]


class Directory:
    """The names of a directory: as a process reads them, and as the device has them for certain."""

    def __init__(self) -> None:
        self.names: Dict[str, Node] = {}
        self.synced: Dict[str, Node] = {}
        self.changes: List[List[Change]] = []

    def change(self, *changes: Change) -> None:
        """Makes changes that a crash keeps together, or not at all."""
        self.changes.append(list(changes))
        _apply(changes, self.names)

    def sync(self) -> None:
        self.synced = dict(self.names)
        self.changes.clear()

    def left(self, kind: str, drawn: random.Random) -> Dict[str, Node]:
        """The names after a crash."""
        if kind in ("process", "all"):
            return self.names
        if kind == "synced":
            return self.synced
        names = dict(self.synced)
        first = drawn.randint(0, len(self.changes))
        is_in_order = kind != "names" and drawn.random() < 0.5
        for place, changes in enumerate(self.changes):
            if place < first if is_in_order else drawn.random() < 0.5:
                _apply(changes, names)
        return names


Node = Union[Content, Directory]


def _apply(changes: object, names: Dict[str, Node]) -> None:
    for name, node in changes:  # type: ignore[attr-defined]
        if node is None:
            names.pop(name, None)
        else:
            names[name] = node


class Tree:
    """The directories below a root that is there."""

    KINDS = ("process", "synced", "prefix", "sectors", "pages", "lengths", "names", "all")

    def __init__(self, root: str) -> None:
        self._root = root
        self._top = Directory()
        self._inodes: Dict[str, Content] = {}

    def apply(self, call: Call) -> None:
        """Does what a call did."""
        getattr(self, f"_{call.kind}")(*call.words, **({"data": call.data} if call.kind == "write" else {}))

    def _directory(self, path: str) -> Directory:
        found = self._top
        for name in Path(path).relative_to(self._root).parts:
            node = found.names[name]
            assert isinstance(node, Directory), path
            found = node
        return found

    def _above(self, path: str) -> Directory:
        return self._directory(os.path.dirname(path))

    def _node(self, path: str) -> Node:
        return self._above(path).names[os.path.basename(path)]

    def _mkdir(self, path: str) -> None:
        self._above(path).change(Change(os.path.basename(path), Directory()))

    def _create(self, inode: str, path: str) -> None:
        content = self._inodes[inode] = Content()
        self._above(path).change(Change(os.path.basename(path), content))

    def _link(self, before: str, path: str) -> None:
        self._above(path).change(Change(os.path.basename(path), self._node(before)))

    def _rename(self, before: str, path: str) -> None:
        assert os.path.dirname(before) == os.path.dirname(path), "a rename between directories"
        node = self._node(before)
        self._above(path).change(Change(os.path.basename(before), None), Change(os.path.basename(path), node))

    def _unlink(self, path: str) -> None:
        self._above(path).change(Change(os.path.basename(path), None))

    def _write(self, inode: str, offset: str, _: str, data: bytes) -> None:
        self._inodes[inode].write(int(offset), data)

    def _cut(self, inode: str, length: str) -> None:
        self._inodes[inode].cut(int(length))

    def _sync(self, inode: str) -> None:
        self._inodes[inode].sync()

    def _lost(self, inode: str) -> None:
        self._inodes[inode].lose()

    def _syncdir(self, path: str) -> None:
        self._directory(path).sync()

    def write_crashed(self, target: Path, kind: str, drawn: random.Random) -> None:
        """Writes what a crash leaves into a directory that is empty, or what there is once the process alone has ended."""
        self._write_names(self._top, target, kind, drawn, {})

    def _write_names(self, directory: Directory, target: Path, kind: str, drawn: random.Random, written: Dict[int, Path]) -> None:
        for name, node in directory.left(kind, drawn).items():
            path = target / name
            if isinstance(node, Directory):
                path.mkdir()
                self._write_names(node, path, kind, drawn, written)
            elif id(node) in written:
                os.link(written[id(node)], path)
            else:
                path.write_bytes(bytes(node.now) if kind == "process" else left_of(node, kind, drawn))
                written[id(node)] = path
