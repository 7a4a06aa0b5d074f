"""Opens what a device may hold after each call of a database that makes backups while it is written to: the database, and its backups.

    backups.py [--states N] [--seed N] [--jobs N]

A backup is absent under its name, or it opens by itself and has each batch that was acknowledged before it began, and those after that
up to one moment. It is there once it was acknowledged. The database has what it promised, and both are independent of each other. In half
of the histories files can't be linked, so that they are copied. Some processes are killed and started again. The last line is
`N states, M wrong`, and the status is 1 if there is a wrong one.
"""

from __future__ import annotations

import argparse
import collections
import os
import random
import shutil
import subprocess
import sys
import tempfile
from pathlib import Path
from typing import Callable, Counter, Dict, Iterator, List, NamedTuple, Optional

from adversary import Told, run_all
from device import Call, calls_of
from promise import Promise, Wrong, open_batches
from stores import MODES, Database
from tree import Tree

HERE = Path(__file__).parent

# The number of a process's first backup is one of these: each process has other names.
STEP = 100


class Plan(NamedTuple):
    """The kind of a job."""

    seed: int
    states: int


class Backup:
    """The promise of a backup."""

    def __init__(self, least: int) -> None:
        self.least = least
        # The last batch that it may have, once it was acknowledged.
        self.most: Optional[int] = None

    def check(self, found: List[int], most: int) -> None:
        if found != list(range(1, len(found) + 1)) or not self.least <= len(found) <= (most if self.most is None else self.most):
            raise Wrong(f"a backup has {len(found)} batches up to {found[-1:]}, of {self.least} to {self.most or most}")


class Promises:
    """The promises of a database and of its backups."""

    def __init__(self) -> None:
        self.database = Promise([])
        self.backups: Dict[str, Backup] = {}
        self.tried = 0

    def hear(self, mark: str) -> None:
        """Takes what the process marked."""
        word, *rest = mark.split()
        if word == "begin":
            self.backups[rest[0]] = Backup(int(rest[1]))
            return
        if word == "end":
            backup = self.backups[rest[0]]
            backup.most = self.tried
            # The logs that it has were ended, and are durable.
            self.database.kept = max(self.database.kept, backup.least)
            return
        if word == "try":
            self.tried = max(self.tried, int(rest[0]))
        self.database.hear(mark)


class Job:
    """A history of a database with backups, and the states that it may leave."""

    def __init__(self, plan: Plan, work: Path) -> None:
        self._plan, self._work = plan, work
        self._drawn = random.Random(f"backups {plan.seed}")
        self._mode = self._drawn.choice(MODES)
        self._links = self._drawn.choice(("yes", "no"))
        self._counts: Counter[str] = collections.Counter()
        self._wrong: List[str] = []

    def run(self) -> Told:
        root = self._work / "root"
        root.mkdir()
        with self._record(root).open("rb") as file:
            calls = list(calls_of(file))
        tree, promises = Tree(str(root)), Promises()
        share = self._plan.states / (sum(call.kind != "mark" for call in calls) or 1)
        for call in calls:
            if call.kind == "mark":
                self._hear(promises, call)
                continue
            tree.apply(call)
            for _ in range(int(share) + (self._drawn.random() < share % 1)):
                self._crash(tree, promises)
        return Told(self._counts, self._wrong)

    def _record(self, root: Path) -> Path:
        """Runs the processes of a history. Returns their trace."""
        trace = root.with_suffix(".trace")
        stops = [self._drawn.randint(20, 200)] * self._drawn.choice((0, 0, 1, 2)) + [0]
        for number, stop in enumerate(stops):
            environment = {
                **os.environ, "LD_PRELOAD": os.environ["DISK_RECORD"], "DISK_ROOT": str(root), "DISK_TRACE": str(trace),
                "DISK_LINKS": self._links, **({"DISK_STOP": str(stop)} if stop else {})}
            words = [str(root), self._mode, str(self._plan.seed), str(STEP * number), str(self._drawn.randint(1, 3))]
            ended = subprocess.run(
                [sys.executable, str(HERE / "drive_backups.py"), *words], env=environment, timeout=120, stderr=subprocess.PIPE,
                check=False)
            if ended.returncode not in (0, 9 if stop else 0):
                said = ended.stderr.decode().strip().splitlines()
                raise Wrong(f"the process ends by {ended.returncode}: {said[-1] if said else ''}")
        return trace

    def _hear(self, promises: Promises, call: Call) -> None:
        try:
            promises.hear(call.words[0])
        except Wrong as wrong:
            self._tell("live", str(wrong))

    def _crash(self, tree: Tree, promises: Promises) -> None:
        """Makes a state, and opens what it has, in any order."""
        kind = self._drawn.choice(Tree.KINDS)
        state = self._work / "state"
        shutil.rmtree(state, ignore_errors=True)
        state.mkdir()
        tree.write_crashed(state, kind, self._drawn)
        self._counts[kind] += 1
        checks = [self._check_database(state, promises, kind)]
        checks += [self._check_backup(state, name, promises) for name in promises.backups]
        self._drawn.shuffle(checks)
        try:
            for check in checks:
                check()
        except Wrong as wrong:
            self._tell(kind, str(wrong))

    def _check_database(self, state: Path, promises: Promises, kind: str) -> Callable[[], None]:
        def check() -> None:
            found = self._open(state / "db")
            promises.database.check(found, kind == "process")
            # Leftovers of a backup don't hinder a later one.
            if self._drawn.random() < 0.1:
                self._back_up(state)
                if self._open(state / "copies" / "later") != found:
                    raise Wrong("a later backup has other batches")

        return check

    def _check_backup(self, state: Path, name: str, promises: Promises) -> Callable[[], None]:
        path, backup = state / "copies" / name, promises.backups[name]

        def check() -> None:
            if path.exists():
                backup.check(self._open(path), promises.tried)
            elif backup.most is not None:
                raise Wrong("an acknowledged backup isn't there")

        return check

    def _open(self, path: Path) -> List[int]:
        return open_batches("database", path, self._mode, self._plan.seed)

    def _back_up(self, state: Path) -> None:
        database = Database(state / "db", self._mode)
        database.backup(state / "copies" / "later")
        database.close()

    def _tell(self, kind: str, text: str) -> None:
        self._wrong.append(f"backups seed {self._plan.seed} {self._mode} links {self._links} {kind}: {text}")


def run_job(plan: Plan) -> Told:
    """Does a job in a directory of its own."""
    work = Path(os.path.realpath(tempfile.mkdtemp(dir=os.environ["DISK_WORK"])))
    try:
        return Job(plan, work).run()
    except (Wrong, subprocess.TimeoutExpired) as wrong:
        return Told(collections.Counter(), [f"backups seed {plan.seed}: {wrong}"])
    finally:
        shutil.rmtree(work, ignore_errors=True)


def plans_of(arguments: argparse.Namespace) -> Iterator[Plan]:
    """Jobs without end."""
    number = 0
    while True:
        yield Plan(100_000 * arguments.seed + number, arguments.most)
        number += 1


def read_arguments() -> argparse.Namespace:
    parser = argparse.ArgumentParser(description="Opens what a device may hold after each call of a database that makes backups.")
    parser.add_argument("--states", type=int, default=2000, help="least number of states to open")
    parser.add_argument("--most", type=int, default=150, help="number of states of a history")
    parser.add_argument("--seed", type=int, default=1)
    parser.add_argument("--jobs", type=int, default=2)
    return parser.parse_args()


def main() -> int:
    arguments = read_arguments()
    return run_all(run_job, plans_of(arguments), arguments.states, arguments.jobs)


if __name__ == "__main__":
    sys.exit(main())
