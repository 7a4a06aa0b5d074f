#!/usr/bin/env python3
"""Walks the machine of a folder whose checkpoints are lists of run files through small worlds, and crashes them.

    tests/run_worlds.py

A base of `folder.py` stands here for a list: a file that names runs, each of which is a file of its own number. A checkpoint writes the
runs that have no file yet, syncs each, syncs the names, and then makes the list as `folder.py` makes a base. The list is read back with
its runs. Then the logs, lists and runs go that no list names any more.

After each event come crashes that keep any part of what wasn't synced. The laws of `worlds.py` have to hold; and of the list that an
opening reads, each run that it names has to be there, whole and as it was written. These are the laws of crates/uc_run_folder.

Then a step of the machine is left out, or two change places: a walk has to find each of `PLANTS`. The last line counts.
"""

import random
import sys
from dataclasses import dataclass, field, replace
from pathlib import Path
from typing import Dict, Iterator, List, Optional, Tuple

sys.dont_write_bytecode = True
sys.path.insert(0, str(Path(__file__).resolve().parent))

import folder  # noqa: E402, after the path that it is found by
import worlds  # noqa: E402
from folder import DONE, DONE_UNTOLD, NOT_DONE, PART_DONE, TORN, Entries, File, Place, Record, entry, newest_base  # noqa: E402

# The walks without a plant, the most with one, and the crashes that are tried after each event.
WALKS, MOST_WALKS, CRASHES = 200, 600, 3

PLANTS = (
    "a run isn't synced",
    "names aren't synced after the runs",
    "a checkpoint goes on after a run that failed",
    "the list is written before its runs",
    "the list isn't synced",
    "runs go before the list's name is synced",
    "a run goes that the list names",
    "runs go before the list is read back",
    "logs go before the list is read back",
    "an unread list is taken for a read one",
    "a list keeps a run that has no file",
    "numbers start again at an opening",
    "the number of a failed run is used again",
    "an older list is preferred",
    "a list takes the place of the one before",
)
planted = ""

# The steps of `folder.py` whose plants are tried here, too: the list is its base.
OF_THE_LIST = {"the list isn't synced": "a base is named before it is synced"}

Numbers = Tuple[int, ...]


def is_planted(name: str) -> bool:
    assert name in PLANTS
    return planted == name


@dataclass(frozen=True)
class Names:
    """The runs that the list of a number names, now and in the files that it stood for since the names were synced."""

    now: Optional[Numbers] = None
    before: Tuple[Optional[Numbers], ...] = ()

    def stands_for(self, runs: Optional[Numbers]) -> "Names":
        return Names(runs, (self.now,) + self.before)


NO_LIST = Names()


@dataclass(frozen=True)
class World:
    """The folder, whose bases are lists, and the run files; the machine's own numbers; and what is said of them: the runs of the newest
    list, those of the list before it, those of the list that is made, and what was written to each run."""

    inner: folder.World = field(default_factory=folder.World)
    lists: Dict[int, Names] = field(default_factory=dict)
    partial: Numbers = ()
    runs: Entries = field(default_factory=dict)
    phase: Tuple = ("idle",)
    next: int = 1
    is_read: bool = True
    named: Numbers = ()
    older: Optional[Tuple[int, Numbers]] = None
    draft: Numbers = ()
    rows: Dict[int, Numbers] = field(default_factory=dict)
    fresh: int = 1000


def takes_effect(outcome: str) -> bool:
    return outcome in (DONE, DONE_UNTOLD)


# ---- names and files


def names_synced(world: World) -> World:
    """The names of runs and lists are on the device; those of logs are the inner machine's."""
    lists = {number: Names(names.now) for number, names in world.lists.items()}
    return replace(world, lists=lists, runs={number: folder.Entry(run.now) for number, run in world.runs.items()})


def with_run(world: World, number: int, file: Optional[File]) -> World:
    return replace(world, runs={**world.runs, number: entry(world.runs, number).stands_for(file)})


def changed_run(world: World, number: int, file: File) -> World:
    return replace(world, runs={**world.runs, number: replace(entry(world.runs, number), now=file)})


def of_folder(world: World, inner: folder.World, action: Tuple, outcome: str) -> World:
    """The world after an operation of the folder's machine: what it did to names is done to lists and runs, too."""
    world = replace(world, inner=inner)
    if not takes_effect(outcome):
        return world
    kind, number = action[0], action[1] if len(action) > 1 else 0
    if kind == "sync names":
        return names_synced(world)
    if kind == "write base":
        return replace(world, partial=world.draft)
    if kind == "name base":
        return replace(world, lists={**world.lists, number: world.lists.get(number, NO_LIST).stands_for(world.partial)})
    if kind == "remove base":
        return replace(world, lists={**world.lists, number: world.lists.get(number, NO_LIST).stands_for(None)})
    return world


def crashed(world: World, draw: random.Random) -> World:
    """The world after a crash: of each name one of its files is left. A list's name goes with its base's."""
    logs, bases, runs = (draw.choice((None, 0, -1)) for _ in range(3))
    device = world.inner.device
    left, lists = {}, {}
    for number, base in device.bases.items():
        names = world.lists.get(number, NO_LIST)
        files = (names.now,) + names.before
        assert len(files) == 1 + len(base.before)
        age = draw.randrange(len(files)) if bases is None else bases
        left[number], lists[number] = folder.crashed_entry(base, age, draw), Names(files[age])
    kept = {number: folder.crashed_entry(log, logs, draw) for number, log in device.logs.items()}
    inner = replace(world.inner, device=folder.Device(kept, left))
    return replace(world, inner=inner, lists=lists, runs={n: folder.crashed_entry(run, runs, draw) for n, run in world.runs.items()})


def list_read(world: World) -> Numbers:
    """The runs that the list names which an opening reads."""
    lists = world.lists
    number = newest_base(world.inner.device)
    if is_planted("an older list is preferred"):
        number = min([number] + [number for number, names in lists.items() if names.now is not None])
    return lists.get(number, NO_LIST).now or ()


def is_whole(world: World, number: int) -> bool:
    """Whether a run is there, whole and as it was written."""
    file = entry(world.runs, number).now
    return file is not None and TORN not in file.records and tuple(record.batch for record in file.records) == world.rows.get(number)


# ---- the machine


def asks(world: World, place: Place, kept: Numbers, count: int) -> World:
    """A checkpoint is asked for: of the logs before a number and some batches of that one, where some runs of the newest list are kept
    and some are written. The list before it keeps its name: the number is a later one."""
    inner = world.inner
    is_later = inner.tried < place if is_planted("a list takes the place of the one before") else inner.tried.number < place.number
    is_older = place.number < inner.log or place == (inner.log, 0)
    is_idle = world.phase == ("idle",) and inner.checkpointer == ("idle",)
    may_keep = set(kept) <= set(world.named if world.is_read else ()) or is_planted("a list keeps a run that has no file")
    if not (is_later and is_older and is_idle and is_open(inner) and may_keep):
        return world
    numbers = tuple(range(world.next, world.next + count))
    world = replace(world, draft=kept + numbers, next=world.next + count)
    if is_planted("the list is written before its runs"):
        return listed(replace(world, phase=("naming", place)), place)
    return replace(world, phase=("writing", place, numbers[0], count - 1) if count > 0 else ("naming", place))


def is_open(inner: folder.World) -> bool:
    return inner.writer[0] in ("ready", "appending", "syncing", "both")


def listed(world: World, place: Place) -> World:
    """The list is begun, as a base of the folder, unless the folder isn't open any more."""
    inner = world.inner
    if not is_open(inner):
        return replace(world, phase=("idle",))
    return replace(world, inner=replace(inner, checkpointer=("writing", *place)), phase=("listing",))


def next_checkpoint(world: World) -> Tuple:
    phase, *rest = world.phase
    if phase in ("listing", "removing"):
        return folder.next_checkpoint(world.inner)
    if phase in ("writing", "sealing"):
        return ("write run" if phase == "writing" else "sync run", rest[1])
    return {"naming": ("sync names",), "reading": ("read back",)}.get(phase, ("nothing",))


def checkpoints(world: World, outcome: str) -> World:
    """The checkpointer's next operation is carried out."""
    phase, *rest = world.phase
    is_done = outcome == DONE
    if phase in ("listing", "removing"):
        return folder_checkpoints(world, outcome)
    if phase in ("writing", "sealing"):
        return run_checkpoints(world, outcome)
    if phase == "naming":
        device = folder.names_synced(world.inner.device)
        if takes_effect(outcome) and not is_planted("names aren't synced after the runs"):
            world = names_synced(replace(world, inner=replace(world.inner, device=device)))
        return listed(world, rest[0]) if is_done else replace(world, phase=("idle",))
    if phase == "reading":
        if not is_done:
            is_read = is_planted("an unread list is taken for a read one")
            return replace(world, inner=replace(world.inner, checkpointer=("idle",)), phase=("idle",), is_read=is_read)
        is_idle = world.inner.checkpointer == ("idle",)
        return replace(world, phase=("idle",) if is_idle else ("removing",), is_read=True, older=None)
    return world


def run_checkpoints(world: World, outcome: str) -> World:
    """A run is written or synced. If that fails, the checkpoint ends, and its number is spent."""
    phase, place, number, rest = world.phase
    file = entry(world.runs, number).now
    if phase == "writing":
        rows = (world.fresh, world.fresh + 1)
        world = replace(world, rows={**world.rows, number: rows}, fresh=world.fresh + 2)
        whole = File((), tuple(Record(row, 0) for row in rows))
        if outcome != NOT_DONE:
            world = with_run(world, number, whole if takes_effect(outcome) else File((), (TORN,)))
    elif file is not None and not is_planted("a run isn't synced"):
        synced = folder.synced(file, len(file.records)) if takes_effect(outcome) else file
        world = changed_run(world, number, synced if outcome == DONE else replace(synced, suspect=True))
    if outcome != DONE and not is_planted("a checkpoint goes on after a run that failed"):
        again = is_planted("the number of a failed run is used again")
        return replace(world, phase=("idle",), next=number if again else world.next)
    if phase == "writing":
        return replace(world, phase=("sealing", place, number, rest))
    return replace(world, phase=("writing", place, number + 1, rest - 1) if rest > 0 else ("naming", place))


def folder_checkpoints(world: World, outcome: str) -> World:
    """The folder's machine makes the list, or removes logs and older lists."""
    old, action = world.inner, folder.next_checkpoint(world.inner)
    inner = folder.checkpoints(old, outcome)
    world, is_done = of_folder(world, inner, action, outcome), outcome == DONE
    if old.checkpointer[0] == "fixing" and is_done:
        world = replace(world, older=(old.base, world.named), named=world.draft, is_read=False, phase=("reading",))
        if is_planted("logs go before the list is read back"):
            world = replace(world, phase=("removing",) if inner.checkpointer != ("idle",) else ("reading",))
        return world
    if old.checkpointer[0] == "renaming" and is_planted("runs go before the list's name is synced"):
        world = replace(world, named=world.draft)
    return replace(world, phase=("idle",)) if inner.checkpointer == ("idle",) else world


def may_go(world: World, number: int) -> bool:
    """Whether a run may be removed: the newest list alone can be read, it was read back, and it doesn't name the run."""
    inner = world.inner
    is_sole = inner.base == inner.tried.number and world.is_read
    if is_planted("runs go before the list is read back"):
        is_sole = inner.base == inner.tried.number
    is_early = is_planted("runs go before the list's name is synced") and world.phase == ("listing",)
    unnamed = number not in world.named or is_planted("a run goes that the list names")
    return (world.phase == ("idle",) and is_sole and is_open(inner) or is_early) and number < world.next and unnamed


def opens(world: World, draw: random.Random) -> World:
    """The folder is opened: the list that is read counts as read back, and the next number is above those of all runs that are there."""
    inner = worlds.opened(world.inner, draw)
    if inner.writer != ("making",):
        world = names_synced(world)
    top = max([0] + [number for number, run in world.runs.items() if run.now is not None])
    return replace(
        world, inner=inner, phase=("removing",) if inner.checkpointer != ("idle",) else ("idle",), is_read=True, older=None,
        next=1 if is_planted("numbers start again at an opening") else top + 1, named=list_read(world))


# ---- walks


def broken(world: World, draw: random.Random) -> Optional[str]:
    """Which law a crash breaks now, or the end of the process; none if all hold."""
    told = folder.submitted(world.inner)
    for left in [world] + [crashed(world, draw) for _ in range(CRASHES)]:
        device = left.inner.device
        read = folder.recovered(device)
        laws = {
            "prefix": told[: len(read)] == read,
            "acknowledged": read[: len(world.inner.acked)] == world.inner.acked,
            "readable": folder.is_readable(device),
            "runs": all(is_whole(left, number) for number in list_read(left)),
            "base": world.inner.base <= newest_base(device) <= max(world.inner.base, world.inner.tried.number),
            "number": all(number < world.next for number in list_read(left)),
            "older": world.older is None or is_kept(left, *world.older),
        }
        for law, holds in laws.items():
            if not holds:
                return law
    action = next_checkpoint(world)
    if action[0] == "write run":
        run = entry(world.runs, action[1])
        if any(file is not None for file in (run.now,) + run.before) or action[1] in world.named:
            return "a number is used twice"
    return None


def is_kept(world: World, number: int, runs: Numbers) -> bool:
    """Whether an older list is there with its runs and logs."""
    last, device = folder.last_log(world.inner.device), world.inner.device
    is_there = number == folder.FIRST or world.lists.get(number, NO_LIST).now == runs
    logs = all(folder.is_intact(entry(device.logs, log).now) for log in range(number, last))
    return is_there and logs and all(is_whole(world, run) for run in runs)


def asked(world: World, draw: random.Random) -> World:
    """A checkpoint is asked for, with some of the newest list's runs and some new ones."""
    inner = world.inner
    number = draw.choice((inner.log, inner.base, draw.randint(inner.base, inner.log)))
    most = len(folder.part(inner, number)) if number < inner.log else 0
    kept = tuple(run for run in world.named if draw.random() < 0.7) if world.is_read else ()
    if is_planted("a list keeps a run that has no file") and draw.random() < 0.3:
        kept += (draw.randint(1, world.next),)
    return asks(world, Place(number, draw.randint(0, most)), kept, draw.choice((0, 1, 1, 2, 3)))


def folder_step(world: World, draw: random.Random) -> World:
    """An event of the folder's machine beside its checkpointer."""
    old = world.inner
    action, outcome = ("nothing",), draw.choices((DONE, NOT_DONE, PART_DONE, DONE_UNTOLD), (12, 1, 1, 1))[0]
    phase, kind = old.writer[0], draw.random()
    if kind < 0.4 and old.next_log in ("creating", "recording"):
        action, inner = folder.next_make(old), folder.makes(old, outcome)
    elif phase in ("syncing", "spoiled", "both") and kind < 0.7:
        inner = folder.syncs(old, outcome)
    elif phase in ("ready", "syncing") or phase in ("appending", "both") and kind > 0.8:
        inner = asked_of_folder(old, draw)
    else:
        action, inner = folder.next_write(old), folder.writes(old, outcome)
    return of_folder(world, inner, action, outcome)


def asked_of_folder(inner: folder.World, draw: random.Random) -> folder.World:
    """Something is asked for, but no checkpoint: those are asked for here."""
    if is_open(inner) and draw.random() < 0.3:
        if inner.next_log == "absent":
            return replace(inner, next_log="creating")
        if inner.next_log == "waiting" and inner.writer == ("ready",):
            return replace(inner, writer=("closing",))
    after = worlds.asked(inner, draw)
    return inner if after.checkpointer != inner.checkpointer else after


def step(world: World, draw: random.Random) -> World:
    """The world after one event."""
    kind, inner = draw.random(), world.inner
    if kind < 0.02 or inner.writer[0] == "failed" and kind < 0.3:
        return opens(crashed(world, draw) if draw.random() < 0.6 else world, draw)
    if kind < 0.25 and world.phase == ("idle",):
        numbers = [number for number, run in world.runs.items() if run.now is not None and may_go(world, number)]
        if numbers and draw.random() < 0.5:
            return with_run(world, draw.choice(numbers), None)
        return asked(world, draw)
    if kind < 0.3 and (numbers := [number for number in world.runs if may_go(world, number)]):
        return with_run(world, draw.choice(numbers), None)
    if kind < 0.65 and world.phase != ("idle",):
        # A list that can't be read back matters most.
        likely = (2, 1, 1, 1) if world.phase == ("reading",) else (20, 1, 1, 1)
        return checkpoints(world, draw.choices((DONE, NOT_DONE, PART_DONE, DONE_UNTOLD), likely)[0])
    return folder_step(world, draw)


def walk(draw: random.Random) -> Iterator[Tuple[World, Optional[str]]]:
    """A world after each of its events, and the law that is broken there."""
    world = World()
    for _ in range(draw.randint(50, 400)):
        world = step(world, draw)
        law = broken(world, draw)
        yield world, law
        if law is not None:
            return


def first_broken(seeds: range) -> Optional[str]:
    """The law that the first of these walks breaks that breaks one."""
    return next((law for seed in seeds for _, law in walk(random.Random(seed)) if law is not None), None)


def main() -> int:
    global planted
    failures: List[str] = []
    moments, phases, most = 0, set(), 0
    for seed in range(WALKS):
        for world, law in walk(random.Random(seed)):
            moments += 1
            phases.add((world.phase[0], world.inner.checkpointer[0], world.is_read))
            most = max(most, len(world.named))
            if law is not None:
                failures.append(f"walk {seed} breaks: {law}")
    for plant in PLANTS:
        planted, folder.planted = plant, OF_THE_LIST.get(plant, "")
        law = first_broken(range(MOST_WALKS))
        if law is None:
            failures.append(f"not found: {plant}")
    for failure in failures:
        print(failure)
    found = len(PLANTS) - sum(failure.startswith("not found") for failure in failures)
    walked = f"{WALKS:,} walks, {moments:,} moments, {len(phases)} phases, lists of up to {most} runs"
    print(f"run worlds: {walked}; {found} of {len(PLANTS)} plants found")
    return 1 if failures else 0


if __name__ == "__main__":
    sys.exit(main())
