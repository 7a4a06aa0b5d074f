"""Opens a database on the file systems that a machine may leave which stops: ext4, as it is mounted by default and otherwise, and xfs.

    machines.py [--states N] [--steps N] [--histories N] [--seed N] [--store NAME]

A file system lies in a file that records what reaches it (block.c), by a loop device. A store is driven there, while another process
syncs a file of its own now and then. Between two flushes any of the writes may be lost. Such images are mounted, and the store is
opened. It needs root, loop devices and FUSE. The last line is `N states, M wrong`, and the status is 1 if there is a wrong one.
"""

from __future__ import annotations

import argparse
import os
import random
import shutil
import signal
import subprocess
import sys
import tempfile
import threading
from contextlib import contextmanager
from pathlib import Path
from typing import BinaryIO, Iterator, List, NamedTuple, Tuple

from adversary import tell_wrong
from promise import Promise, Wrong, open_batches
from stores import MODES, STORES

HERE = Path(__file__).parent

# The most bytes of a block of a file system.
BLOCK = 4096


class System(NamedTuple):
    """A file system, and how it is made and mounted."""

    name: str
    make: Tuple[str, ...]
    options: str
    size: int


SYSTEMS = (
    System("ext4", ("mkfs.ext4", "-q", "-b", "4096"), "defaults", 48 << 20),
    System("ext4, blocks of 1 KiB", ("mkfs.ext4", "-q", "-b", "1024"), "defaults", 48 << 20),
    System("ext4, data=writeback", ("mkfs.ext4", "-q", "-b", "4096"), "data=writeback", 48 << 20),
    System("xfs", ("mkfs.xfs", "-q"), "defaults", 320 << 20),
)


def run(*words: str) -> str:
    """The output of a command."""
    return subprocess.run(words, check=True, stdout=subprocess.PIPE, stderr=subprocess.PIPE, text=True).stdout.strip()


@contextmanager
def mounted(file: Path, place: Path, options: str) -> Iterator[None]:
    """Mounts the file system in a file."""
    device = run("losetup", "-f", "--show", str(file))
    try:
        run("mount", "-o", options, device, str(place))
        try:
            yield
        finally:
            run("umount", str(place))
    finally:
        run("losetup", "-d", device)


@contextmanager
def recorded(image: Path, place: Path, trace: Path) -> Iterator[None]:
    """Mounts a file system in which an image is a file that records."""
    run(os.environ["DISK_BLOCK"], str(image), str(place), str(trace))
    try:
        yield
    finally:
        run("umount", str(place))


def lacks(system: System) -> str:
    """The tool that the machine lacks for a file system, if it lacks one."""
    if os.geteuid() != 0:
        return "it isn't root"
    for tool in (system.make[0], "losetup", "mount"):
        if shutil.which(tool, path=f"{os.environ['PATH']}:/usr/sbin:/sbin") is None:
            return f"there is no {tool}"
    for device in ("/dev/fuse", "/dev/loop-control"):
        if not os.path.exists(device):
            return f"there is no {device}"
    return ""


class Neighbour(threading.Thread):
    """Syncs a file of its own now and then, which writes the journal."""

    def __init__(self, path: Path) -> None:
        super().__init__()
        self._path, self._ends = path, threading.Event()

    def run(self) -> None:
        with self._path.open("wb", buffering=0) as file:
            while not self._ends.wait(0.0005):
                file.write(b"neighbour")
                os.fsync(file.fileno())

    def end(self) -> None:
        self._ends.set()
        self.join()


class Machine:
    """A store on a file system, and the images that it may leave."""

    def __init__(self, system: System, store: str, seed: int, steps: int, work: Path) -> None:
        self._system, self._store, self._seed, self._steps, self._work = system, store, seed, steps, work
        self._drawn = random.Random(f"{system.name} {store} {seed}")
        self._mode = self._drawn.choice(MODES)
        self.count = 0
        self.wrong: List[str] = []
        for name in ("block", "files"):
            (work / name).mkdir()

    def run(self, states: int) -> None:
        """Records a history, and tries a number of its states."""
        made, image, trace = self._work / "made", self._work / "image", self._work / "trace"
        with made.open("wb") as file:
            file.truncate(self._system.size)
        run(*self._system.make, str(made))
        shutil.copyfile(made, image)
        with recorded(image, self._work / "block", trace):
            with mounted(self._work / "block" / "disk", self._work / "files", self._system.options):
                self._drive()
        with trace.open("rb") as file:
            self._try(made, list(_lines(file)), states)

    def _drive(self) -> None:
        neighbour = Neighbour(self._work / "files" / "neighbour")
        neighbour.start()
        try:
            words = [self._store, str(self._work / "files" / "db"), self._mode, str(self._seed), str(self._steps)]
            environment = {**os.environ, "DISK_MARKS": str(self._work / "block" / "mark")}
            subprocess.run([sys.executable, str(HERE / "drive.py"), *words], env=environment, timeout=120, check=True)
        finally:
            neighbour.end()

    def _try(self, made: Path, lines: List[Tuple[str, bytes, int]], states: int) -> None:
        """Crashes between the lines of a trace."""
        promise = Promise([])
        waiting: List[Tuple[int, bytes]] = []
        share = states / max(1, sum(kind == "write" for kind, _, _ in lines))
        with made.open("r+b") as stable:
            for kind, data, offset in lines:
                if kind == "mark":
                    promise.hear(data.decode())
                elif kind == "flush":
                    for place, piece in waiting:
                        stable.seek(place)
                        stable.write(piece)
                    stable.flush()
                    waiting = []
                else:
                    waiting.append((offset, data))
                    if self._drawn.random() < share:
                        self._crash(made, waiting, promise)

    def _crash(self, made: Path, waiting: List[Tuple[int, bytes]], promise: Promise) -> None:
        """Makes an image of some of the writes that wait, and opens what is there."""
        image = self._work / "crashed"
        shutil.copyfile(made, image)
        with image.open("r+b") as file:
            for place, piece in self._kept(waiting):
                file.seek(place)
                file.write(piece)
        self.count += 1
        folder = self._work / "files" / "db"
        try:
            with mounted(image, self._work / "files", self._system.options):
                found = open_batches(self._store, folder, self._mode, self._seed) if folder.exists() else []
            promise.check(found, False)
        except (Wrong, subprocess.CalledProcessError) as wrong:
            self.wrong.append(f"{self._system.name} seed {self._seed} {self._mode}: {wrong}")

    def _kept(self, waiting: List[Tuple[int, bytes]]) -> List[Tuple[int, bytes]]:
        kind = self._drawn.randint(0, 3)
        if kind == 0:
            return waiting
        if kind == 1:
            return waiting[:self._drawn.randint(0, len(waiting))]
        if kind == 2:
            return [write for write in waiting if self._drawn.random() < 0.5]
        # A long write may be torn, between two blocks: a file system's own don't go beyond one.
        kept = []
        for place, piece in waiting:
            for begin in range(0, len(piece), BLOCK):
                if self._drawn.random() < 0.7:
                    kept.append((place + begin, piece[begin:begin + BLOCK]))
        return kept


def _lines(trace: BinaryIO) -> Iterator[Tuple[str, bytes, int]]:
    """The lines of a trace that block.c wrote: the kind, the bytes and where they are written."""
    for line in trace:
        kind, *words = line.rstrip(b"\n").split(b"\t")
        if kind == b"write":
            yield "write", trace.read(int(words[1])), int(words[0])
        else:
            yield kind.decode(), b"\t".join(words), 0


def main() -> int:
    parser = argparse.ArgumentParser(description="Opens a database on file systems of a machine that stops.")
    parser.add_argument("--states", type=int, default=40, help="how many images are tried of each history")
    parser.add_argument("--steps", type=int, default=250, help="how many steps a history has")
    parser.add_argument("--histories", type=int, default=1, help="how many histories each file system has")
    parser.add_argument("--store", choices=sorted(STORES), default="database")
    parser.add_argument("--seed", type=int, default=1)
    arguments = parser.parse_args()
    # No file system stays mounted.
    signal.signal(signal.SIGTERM, lambda *_: sys.exit(1))
    count, wrong = 0, []
    for system in SYSTEMS:
        lack = lacks(system)
        if lack:
            print(f"{system.name}: skipped, since {lack}")
            continue
        tried = 0
        for number in range(arguments.histories):
            with tempfile.TemporaryDirectory(dir=os.environ["DISK_WORK"]) as work:
                machine = Machine(system, arguments.store, 1000 * arguments.seed + number, arguments.steps, Path(work))
                machine.run(arguments.states)
            tried += machine.count
            wrong += machine.wrong
        print(f"{system.name}: {tried} states")
        count += tried
    tell_wrong(wrong)
    print(f"{count} states, {len(wrong)} wrong")
    return 1 if wrong else 0


if __name__ == "__main__":
    sys.exit(main())
