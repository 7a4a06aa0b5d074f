"""Opens what a device may hold after each call of a store, and compares it with what was acknowledged.

    adversary.py [--store NAME] [--states N] [--seed N] [--jobs N] [--lie data|names] [--each N] [--keep FOLDER]

A store is driven in a process whose calls are recorded (record.c). Some of these fail, and some processes are killed and started
again. At each call device.py makes what a crash may leave, and that is opened. Some of it is driven on, and crashes again. Some histories
begin with a directory that an older version wrote. With --each, N calls of each step of a checkpoint fail, each in a process of its
own. With --lie the device doesn't keep what it says: then something has to be found. The last line is `N states, M wrong`, and the
status is 1 if there is a wrong one.
"""

from __future__ import annotations

import argparse
import collections
import concurrent.futures
import hashlib
import itertools
import math
import os
import random
import re
import shutil
import subprocess
import sys
import tempfile
from pathlib import Path
from typing import Any, Callable, Counter, Dict, Iterator, List, NamedTuple, Optional

from device import Call, Device, Files, calls_of
from drive import rows_after
from leftovers import leftovers_of
from promise import Promise, Wrong, open_batches
from stores import MODES, STORES, Database

HERE = Path(__file__).parent

# The kinds of calls that fail, and the errors.
FAULTS = ("sync", "sync", "syncdir", "write", "create", "rename", "unlink", "read", "any")
ERRORS = ("io", "space", "late")

# The calls of a checkpoint, by their kinds and the endings of their paths.
STEPS = (
    ("create", ".run"), ("write", ".run"), ("sync", ".run"), ("read", ".run"), ("syncdir", "*"), ("create", ".runs.new"),
    ("write", ".runs.new"), ("sync", ".runs.new"), ("rename", ".runs"), ("read", ".runs"), ("rename", ".base"), ("create", ".log"),
    ("unlink", ".run"), ("unlink", ".runs"), ("unlink", ".log"), ("unlink", ".base"))


# The parts of the states that calls have which change names. Other calls have 1.
PARTS = {"rename": 6, "unlink": 6, "create": 2, "syncdir": 2}


class Plan(NamedTuple):
    """The kind of a job."""

    store: str
    seed: int
    states: int
    lie: str
    keep: Optional[str]
    # The call that fails, as record.c reads it.
    fault: Optional[str] = None


class Told(NamedTuple):
    """The outcome of a job."""

    counts: Counter[str]
    wrong: List[str]
    # The numbers of states that have files of a kind.
    files: Counter[str] = collections.Counter()


class Job:
    """A history of a store, and the states that it may leave."""

    def __init__(self, plan: Plan, work: Path) -> None:
        self.plan, self.work = plan, work
        self.drawn = random.Random(f"{plan.store} {plan.seed}")
        self.mode = self.drawn.choice(MODES)
        self.counts: Counter[str] = collections.Counter()
        self.files: Counter[str] = collections.Counter()
        self.wrong: List[str] = []
        self.seen: Dict[bytes, None] = {}

    def run(self) -> Told:
        root = self.work / "root"
        number = self.drawn.randint(1, 30) if self.plan.store == "database" and self.drawn.random() < 0.15 else 0
        written = list(range(1, number + 1))
        files = Database.older(rows_after(self.plan.seed, written)) if written else None
        self._write(root, files)
        device = Device(str(root), files, self.plan.lie)
        device.adopt()
        trace = self._record(root, self._histories(), self.drawn.randint(15, 60))
        self._try(trace, device, Promise(written), 0)
        return Told(self.counts, self.wrong, self.files)

    def _histories(self) -> List[Dict[str, str]]:
        """The fates of the processes of a history, one after the other."""
        if self.plan.fault is not None:
            return [{"DISK_FAIL": self.plan.fault}, {}]
        kind = self.drawn.random()
        if kind < 0.05:
            # The directory's own name isn't synced, and the next opening finds the directory.
            return [{"DISK_FAIL": "syncdir:0:1:io:*"}, {}]
        if kind < 0.25:
            return [{"DISK_FAIL": self._fault(self.drawn.choice(FAULTS), "*", 60)}, {}]
        if kind < 0.5:
            return [{"DISK_FAIL": self._fault(*self.drawn.choice(STEPS), 6)}, {}]
        if kind < 0.57:
            # The next opening finds what a killed process left, and a call of its own fails.
            fault = self._fault(self.drawn.choice(FAULTS), "*", 20)
            return [{"DISK_STOP": str(self.drawn.randint(20, 150))}, {"DISK_FAIL": fault}, {}]
        if kind < 0.75:
            return [{"DISK_STOP": str(self.drawn.randint(3, 120))}, {"DISK_STOP": str(self.drawn.randint(3, 120))}, {}]
        return [{}]

    def _fault(self, kind: str, ending: str, most: int) -> str:
        """A call that fails, as record.c reads it. An opening fails rather often."""
        left = self.drawn.choice((self.drawn.randint(0, 6), self.drawn.randint(0, most)))
        return f"{kind}:{left}:{self.drawn.choice((1, 1, 2, 20))}:{self.drawn.choice(ERRORS)}:{ending}"

    def _record(self, root: Path, histories: List[Dict[str, str]], steps: int) -> Path:
        """Drives the store in a directory, by processes one after the other. Returns their trace."""
        trace = root.with_suffix(".trace")
        for number, history in enumerate(histories):
            environment = {
                **os.environ, **history, "LD_PRELOAD": os.environ["DISK_RECORD"], "DISK_ROOT": str(root), "DISK_TRACE": str(trace)}
            words = [self.plan.store, str(root / "db"), self.mode, str(self.plan.seed), str(steps + number)]
            ended = subprocess.run(
                [sys.executable, str(HERE / "drive.py"), *words], env=environment, timeout=120, stderr=subprocess.PIPE, check=False)
            # An opening may be refused while calls fail.
            if ended.returncode not in (0, 9) and "DISK_FAIL" not in history:
                said = ended.stderr.decode().strip().splitlines()
                raise Wrong(f"the process ends by {ended.returncode}: {said[-1] if said else ''}")
        return trace

    def _try(self, trace: Path, device: Device, promise: Promise, depth: int) -> None:
        """Crashes after each call of a trace."""
        with trace.open("rb") as file:
            calls = list(calls_of(file))
        parts = sum(PARTS.get(call.kind, 1) for call in calls if call.kind != "mark") or 1
        # Some were seen before, so more are made, as long as each call has its part.
        share = self.plan.states / parts / (1 if depth == 0 else 4)
        left = 0.0
        for call in calls:
            if call.kind == "mark":
                self._hear(promise, call)
                continue
            device.apply(call)
            left += share * PARTS.get(call.kind, 1)
            for _ in range(math.ceil(2 * left)):
                if left > 0 and (left >= 1 or self.drawn.random() < left):
                    left -= self._crash(device, promise, depth)

    def _hear(self, promise: Promise, call: Call) -> None:
        try:
            promise.hear(call.words[0])
        except Wrong as wrong:
            self._tell("live", str(wrong), {})

    def _crash(self, device: Device, promise: Promise, depth: int) -> bool:
        """Makes a state, and opens it, unless that was done before. Returns whether it was new."""
        kind = "names" if device.changes and self.drawn.random() < 0.3 else self.drawn.choice(Device.KINDS)
        files = device.crashed(kind, self.drawn)
        digest = hashlib.sha256(repr((depth, promise.key(), kind == "process")).encode())
        for name, data in sorted((files or {}).items()):
            digest.update(b"%s %d " % (name.encode(), len(data)) + data)
        if digest.digest() in self.seen:
            return False
        self.seen[digest.digest()] = None
        self.counts[kind] += 1
        has_leftovers = bool(leftovers_of(files or {}))
        for name in {name.rpartition(".")[2] for name in files or {} if "." in name}:
            self.files[f".{name}"] += 1
        self.files["leftovers"] += has_leftovers
        try:
            found = self._open(files)
            promise.check(found, kind == "process")
        except Wrong as wrong:
            self._tell(kind, str(wrong), files or {})
            return True
        # The next process removes what is left over, and crashes at each call of that too.
        if depth < 2 and self.drawn.random() < (0.05 if has_leftovers else 0.02):
            self._go_on(files or {}, found, depth)
        return True

    def _write(self, root: Path, files: Optional[Files]) -> None:
        shutil.rmtree(root, ignore_errors=True)
        root.mkdir()
        if files is not None:
            (root / "db").mkdir()
            for name, data in files.items():
                (root / "db" / name).write_bytes(data)

    def _open(self, files: Optional[Files]) -> List[int]:
        """The batches that an opening of a state finds."""
        root = self.work / "state"
        self._write(root, files)
        return open_batches(self.plan.store, root / "db", self.mode, self.plan.seed)

    def _go_on(self, files: Files, found: List[int], depth: int) -> None:
        """Drives a state on, which crashes again."""
        root = self.work / f"on-{depth}"
        self._write(root, files)
        root.with_suffix(".trace").unlink(missing_ok=True)
        device = Device(str(root), files, self.plan.lie)
        device.adopt()
        try:
            history = {"DISK_FAIL": self._fault(self.drawn.choice(FAULTS), "*", 10)} if self.drawn.random() < 0.3 else {}
            trace = self._record(root, [history], self.drawn.randint(3, 12))
        except Wrong as wrong:
            self._tell("on", str(wrong), files)
            return
        self._try(trace, device, Promise(found), depth + 1)

    def _tell(self, kind: str, text: str, files: Files) -> None:
        name = f"{self.plan.store} seed {self.plan.seed} {self.mode} {self.plan.fault or ''} {kind}"
        self.wrong.append(f"{name}: {text}")
        if self.plan.keep is not None:
            kept = Path(self.plan.keep) / f"{name.replace(' ', '-')}-{len(self.wrong)}"
            kept.mkdir(parents=True, exist_ok=True)
            for file, data in files.items():
                (kept / file).write_bytes(data)


def run_job(plan: Plan) -> Told:
    """Does a job in a directory of its own."""
    work = Path(os.path.realpath(tempfile.mkdtemp(dir=os.environ["DISK_WORK"])))
    try:
        return Job(plan, work).run()
    except (Wrong, subprocess.TimeoutExpired) as wrong:
        return Told(collections.Counter(), [f"{plan.store} seed {plan.seed}: {wrong}"])
    finally:
        shutil.rmtree(work, ignore_errors=True)


def plans_of(arguments: argparse.Namespace) -> Iterator[Plan]:
    """Jobs without end, or one for each call that fails and each error."""
    seed = 100_000 * arguments.seed
    if arguments.each == 0:
        for number in itertools.count():
            yield Plan(arguments.store, seed + number, arguments.most, arguments.lie, arguments.keep)
    for number, (kind, ending), error in itertools.product(range(arguments.each), STEPS, ERRORS):
        fault = f"{kind}:{number}:1:{error}:{ending}"
        yield Plan(arguments.store, seed + number, arguments.most, arguments.lie, arguments.keep, fault)


def tell_wrong(wrong: List[str]) -> None:
    """Shows one of each kind of wrong states, and how many there are."""
    kinds: Dict[str, List[str]] = {}
    for text in wrong:
        kinds.setdefault(re.sub("[0-9]+", "N", text.partition(": ")[2]), []).append(text)
    for texts in kinds.values():
        print(f"wrong, {len(texts)} times as: {texts[0]}")


def read_arguments() -> argparse.Namespace:
    parser = argparse.ArgumentParser(description="Opens what a device may hold after each call of a store.")
    parser.add_argument("--store", choices=sorted(STORES), default="database")
    parser.add_argument("--states", type=int, default=2000, help="how many states are opened at least")
    parser.add_argument("--most", type=int, default=100, help="about how many of them a history has")
    parser.add_argument("--seed", type=int, default=1)
    parser.add_argument("--jobs", type=int, default=2)
    parser.add_argument("--each", type=int, default=0, help="number of calls of each step that fail")
    parser.add_argument("--lie", choices=("", "data", "names"), default="", help="which syncs do nothing")
    parser.add_argument("--keep", help="where wrong states are kept")
    return parser.parse_args()


def run_all(run: Callable[[Any], Told], plans: Iterator[Any], states: int, jobs: int) -> int:
    """Does jobs until they have opened a number of states, and tells what they found. Returns the status of the program."""
    counts: Counter[str] = collections.Counter()
    files: Counter[str] = collections.Counter()
    wrong: List[str] = []
    with concurrent.futures.ProcessPoolExecutor(jobs) as pool:
        waiting = {pool.submit(run, plan) for plan in itertools.islice(plans, 2 * jobs)}
        while waiting:
            done, waiting = concurrent.futures.wait(waiting, return_when=concurrent.futures.FIRST_COMPLETED)
            for told in (future.result() for future in done):
                counts.update(told.counts)
                files.update(told.files)
                wrong.extend(told.wrong)
                if sum(counts.values()) < states:
                    waiting.update(pool.submit(run, plan) for plan in itertools.islice(plans, 1))
    tell_wrong(wrong)
    for shown in filter(None, (counts, files)):
        print(", ".join(f"{kind} {count}" for kind, count in sorted(shown.items())))
    print(f"{sum(counts.values())} states, {len(wrong)} wrong")
    return 1 if wrong else 0


def main() -> int:
    arguments = read_arguments()
    states = arguments.states if arguments.each == 0 else sys.maxsize
    return run_all(run_job, plans_of(arguments), states, arguments.jobs)


if __name__ == "__main__":
    sys.exit(main())
