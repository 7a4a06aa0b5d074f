"""A database's folder and its machine, as crates/uc_folder/specs defines them, in ordinary code: what files and names are, what a crash
keeps of them, and which operation comes next. `planted` names a step that is left out or comes too early.
"""

import random
from dataclasses import dataclass, field, replace
from typing import Callable, Dict, NamedTuple, Optional, Tuple

FIRST = 1

DONE, NOT_DONE, PART_DONE, DONE_UNTOLD = "done", "not done", "part done", "done, but failed"


class Record(NamedTuple):
    """A record of a log. The mark says how many records of the log were on the device when it was written."""

    batch: int
    mark: int


# A record that isn't whole: part of it, zeros, or older bytes.
TORN = None
Records = Tuple[Optional[Record], ...]


@dataclass(frozen=True)
class File:
    """Records that are on the device, and those that wait for a sync. A sync of a suspect file has failed: no later one does anything.
    If that was the sync of a cut, the records that are lost can't be read, but a crash may bring them back."""

    kept: Records = ()
    waiting: Records = ()
    suspect: bool = False
    past: int = 0
    lost: Records = ()

    @property
    def records(self) -> Records:
        return self.kept + self.waiting


EMPTY = File()


@dataclass(frozen=True)
class Entry:
    """The file of a name, and those that it stood for since the names were synced."""

    now: Optional[File] = None
    before: Tuple[Optional[File], ...] = ()

    def stands_for(self, file: Optional[File]) -> "Entry":
        return Entry(file, (self.now,) + self.before)


Entries = Dict[int, Entry]
NO_NAME = Entry()


@dataclass(frozen=True)
class Device:
    """Logs and bases by their numbers, and the files with temporary names. No entry is changed in its place."""

    logs: Entries = field(default_factory=dict)
    bases: Entries = field(default_factory=dict)
    copy: File = EMPTY
    partial: File = EMPTY


class Place(NamedTuple):
    """The reach of a base: the logs before a number, and some batches of that one."""

    number: int
    past: int


@dataclass(frozen=True)
class World:
    """The device, the machine, and what is said of them: the batches submitted for each log, and those that were acknowledged."""

    device: Device = field(default_factory=Device)
    log: int = FIRST
    count: int = 0
    synced: int = 0
    base: int = FIRST
    tried: Place = Place(FIRST, 0)
    writer: Tuple = ("making",)
    checkpointer: Tuple = ("idle",)
    next_log: str = "absent"
    parts: Dict[int, Tuple[int, ...]] = field(default_factory=dict)
    batch: int = 0
    acked: Tuple[int, ...] = ()
    next: int = 1


PLANTS = (
    "a batch is acknowledged before its sync",
    "a sync acknowledges what was appended after it began",
    "a log isn't synced before the next one",
    "names aren't synced after the next log is made",
    "the log's number is used again",
    "the next log is entered while the log is appended to",
    "what a failed append left isn't cut off",
    "syncs go on after one that failed",
    "a base is named before it is synced",
    "a log goes before its base's name is synced",
    "an opening reads before names are synced",
    "logs go that no base has",
    "an opening appends after what is torn",
    "an opening cuts the log in its place",
    "a copy is named before it is synced",
    "names aren't synced after the copy has its name",
    "a base has what isn't on the device",
    "a mark tells of what isn't synced",
    "a reader passes over what is torn",
    "appends go on after one that failed beside a sync",
    "a log that isn't sealed is taken for sealed",
    "batches that are given up are copied",
    "a log of which batches are given up isn't copied",
    "batches that a base has are given up",
    "batches that are given up stay acknowledged",
    "records that are lost are forgotten",
)
planted = ""


def is_planted(name: str) -> bool:
    assert name in PLANTS
    return planted == name


# ---- reading


def first_whole(records: Records) -> Tuple[int, ...]:
    """The batches before the first record that isn't whole."""
    batches = []
    for record in records:
        if record is TORN and not is_planted("a reader passes over what is torn"):
            break
        if record is not TORN:
            batches.append(record.batch)
    return tuple(batches)


def content(file: Optional[File]) -> Tuple[int, ...]:
    return () if file is None else first_whole(file.records)


def is_intact(file: Optional[File]) -> bool:
    return file is not None and TORN not in file.records


def is_damaged(file: Optional[File]) -> bool:
    """Whether a later record says that the first one that isn't whole was on the device."""
    if file is None:
        return False
    count = len(first_whole(file.records))
    return any(record is not TORN and record.mark > count for record in file.records[count:])


def entry(entries: Entries, number: int) -> Entry:
    return entries.get(number, NO_NAME)


def newest_base(device: Device) -> int:
    return max([FIRST] + [number for number, entry in device.bases.items() if entry.now is not None])


def last_log(device: Device) -> int:
    return max([newest_base(device)] + [number for number, entry in device.logs.items() if content(entry.now)])


def recovered(device: Device) -> Tuple[int, ...]:
    base = newest_base(device)
    file = entry(device.bases, base).now
    batches = content(file)
    for number in range(base, last_log(device) + 1):
        passed = file.past if file is not None and number == base else 0
        batches += content(entry(device.logs, number).now)[passed:]
    return batches


def is_readable(device: Device) -> bool:
    base, last = newest_base(device), last_log(device)
    file = entry(device.bases, base).now
    if not (is_intact(file) or file is None and base == FIRST):
        return False
    if not all(is_intact(entry(device.logs, number).now) for number in range(base, last)):
        return False
    return last == FIRST or entry(device.logs, last).now is not None


# ---- operations


def appended(file: File, record: Optional[Record]) -> File:
    return replace(file, waiting=file.waiting + (record,))


def synced(file: File, count: int) -> File:
    """A file of which at least a number of records are on the device."""
    if file.suspect:
        return file
    most = max(count, len(file.kept))
    return replace(file, kept=file.records[:most], waiting=file.records[most:])


def copied(file: Optional[File], count: int) -> File:
    """A new file with the first batches that are read of another one."""
    records = () if file is None else file.records
    most = len(first_whole(records))
    return File((), records[: most if is_planted("batches that are given up are copied") else min(count, most)])


def cut(file: File, count: int) -> File:
    """A file that keeps a number of records, which are synced."""
    most = max(count, len(file.kept))
    if file.suspect:
        return replace(file, waiting=file.waiting[: most - len(file.kept)])
    return replace(file, kept=file.records[:most], waiting=())


def half_cut(file: File, count: int) -> File:
    """A file that keeps a number of records, where only the sync has failed. If it keeps none, that is so on the device too: the premise."""
    most = max(count, len(file.kept))
    if file.suspect or most == 0:
        return replace(cut(file, count), suspect=True)
    return replace(file, waiting=file.records[len(file.kept):most], lost=file.records[most:], suspect=True)


def change_log(device: Device, number: int, change: Callable[[File], File]) -> Device:
    old = entry(device.logs, number)
    if old.now is None:
        return device
    return replace(device, logs={**device.logs, number: replace(old, now=change(old.now))})


def names_synced(device: Device) -> Device:
    logs = {number: Entry(entry.now) for number, entry in device.logs.items()}
    return replace(device, logs=logs, bases={number: Entry(entry.now) for number, entry in device.bases.items()})


def carried_out(world: World, action: Tuple) -> Device:
    """The device after an operation."""
    device, kind, number = world.device, action[0], action[1] if len(action) > 1 else 0
    old_log, old_base = entry(device.logs, number), entry(device.bases, number)
    if kind == "create log":
        return replace(device, logs={**device.logs, number: old_log.stands_for(EMPTY)})
    if kind == "remove log":
        return replace(device, logs={**device.logs, number: old_log.stands_for(None)})
    if kind == "remove base":
        return replace(device, bases={**device.bases, number: old_base.stands_for(None)})
    if kind == "append":
        mark = world.count if is_planted("a mark tells of what isn't synced") else world.synced
        return change_log(device, number, lambda file: appended(file, Record(world.batch, mark)))
    if kind == "sync log":
        return change_log(device, number, lambda file: synced(file, action[2]))
    if kind == "sync names":
        return names_synced(device)
    if kind == "copy log":
        return replace(device, copy=copied(old_log.now, action[2]))
    if kind == "sync copy":
        return replace(device, copy=synced(device.copy, len(device.copy.records)))
    if kind == "name copy":
        return replace(device, logs={**device.logs, number: old_log.stands_for(device.copy)})
    if kind == "cut log":
        return change_log(device, number, lambda file: cut(file, action[2]))
    if kind == "write base":
        rows = upto(world, number) + part(world, number)[: action[2]]
        return replace(device, partial=File((), tuple(Record(row, 0) for row in rows), False, action[2]))
    if kind == "sync base":
        return replace(device, partial=synced(device.partial, len(device.partial.records)))
    if kind == "name base":
        return replace(device, bases={**device.bases, number: old_base.stands_for(device.partial)})
    return device


def device_after(world: World, action: Tuple, outcome: str) -> Device:
    """The device after an operation that was done, or failed in some way."""
    device = carried_out(world, action) if outcome in (DONE, DONE_UNTOLD) else world.device
    if outcome == DONE:
        return device
    if action[0] == "append" and outcome == PART_DONE:
        return change_log(device, action[1], lambda file: appended(file, TORN))
    if action[0] == "cut log" and outcome == DONE_UNTOLD:
        return change_log(world.device, action[1], lambda file: half_cut(file, action[2]))
    if action[0] in ("sync log", "cut log"):
        return change_log(device, action[1], lambda file: replace(file, suspect=True))
    return device


# ---- crashes


def crashed_file(file: Optional[File], draw: random.Random) -> Optional[File]:
    """A file after a crash: of the records that wait any ones are there, whole, and others may be torn."""
    if file is None:
        return None
    waiting = file.waiting + file.lost
    length = draw.choice((0, len(waiting), draw.randint(0, len(waiting))))
    likely = draw.choice((0, 0.5, 1)) if length > 0 else 0
    left = tuple(record if draw.random() < likely else TORN for record in waiting[:length])
    return File(file.kept + left, past=file.past)


def crashed_entry(old: Entry, age: Optional[int], draw: random.Random) -> Entry:
    """A name after a crash: it stands for one of its files, or for the oldest or newest of them."""
    files = (old.now,) + old.before
    return Entry(crashed_file(draw.choice(files) if age is None else files[age], draw))


def crashed(device: Device, draw: random.Random) -> Device:
    """A device after a crash. Often all logs are of one age, and all bases too: that is where an order of steps shows."""
    ages = draw.choice((None, 0, -1)), draw.choice((None, 0, -1))
    logs = {number: crashed_entry(entry, ages[0], draw) for number, entry in device.logs.items()}
    return Device(logs, {number: crashed_entry(entry, ages[1], draw) for number, entry in device.bases.items()})


# ---- the machine


def part(world: World, number: int) -> Tuple[int, ...]:
    return world.parts.get(number, ())


def upto(world: World, number: int) -> Tuple[int, ...]:
    return tuple(batch for before in range(number) for batch in part(world, before))


def submitted(world: World) -> Tuple[int, ...]:
    return upto(world, world.log + 1)


def confirmed(world: World, count: int) -> Tuple[int, ...]:
    """The batches of older logs, and the first ones of the present log."""
    return upto(world, world.log) + part(world, world.log)[:count]


AFTER = {"making": "founding", "founding": "ready", "setting aside": "copying", "copying": "sealing copy", "sealing copy": "replacing",
         "replacing": "settling", "settling": "ready", "cutting": "ready"}


def next_write(world: World) -> Tuple:
    phase, log = world.writer[0], world.log
    return {
        "making": ("create log", log), "founding": ("sync names",), "clearing": ("remove log", *world.writer[1:2]),
        "setting aside": ("set aside", log), "copying": ("copy log", log, world.count), "sealing copy": ("sync copy",), "replacing": ("name copy", log),
        "settling": ("sync names",), "cutting": ("cut log", log, world.count), "mending": ("cut log", log, world.count),
        "appending": ("append", log), "both": ("append", log), "closing": ("sync log", log, world.count),
    }.get(phase, ("nothing",))


def clearing(log: int, top: int, is_sealed: bool) -> Tuple:
    """The writer's phase where logs after the one that goes on are removed, up to a number."""
    if top > log:
        return ("clearing", top, is_sealed)
    if is_planted("an opening appends after what is torn"):
        return ("ready",)
    if is_planted("an opening cuts the log in its place"):
        return ("cutting",)
    return ("settling",) if is_sealed else ("setting aside",)


def told_write(world: World, is_done: bool) -> World:
    """The machine after the writer's operation."""
    phase, *numbers = world.writer
    if phase in ("ready", "syncing", "spoiled", "failed"):
        return world
    if not is_done:
        if phase == "both":
            goes_on = is_planted("appends go on after one that failed beside a sync")
            return replace(world, writer=("syncing" if goes_on else "spoiled", *numbers))
        return replace(world, writer=("mending" if phase == "appending" else "failed",))
    if phase == "clearing":
        return replace(world, writer=clearing(world.log, numbers[0] - 1, numbers[1]))
    if phase == "appending":
        world = replace(world, count=world.count + 1, writer=("ready",))
        early = is_planted("a batch is acknowledged before its sync")
        return replace(world, acked=confirmed(world, world.count)) if early else world
    if phase in ("mending", "settling"):
        parts = {**world.parts, world.log: part(world, world.log)[: world.count]}
        world = replace(world, parts=parts)
        if phase == "mending":
            return replace(world, writer=("ready",))
    if phase == "both":
        return replace(world, count=world.count + 1, writer=("syncing", *numbers))
    if phase == "closing":
        number = world.log if is_planted("the log's number is used again") else world.log + 1
        parts = {**world.parts, number: part(world, number) if number == world.log else ()}
        acked = confirmed(world, world.count)
        return replace(world, log=number, count=0, synced=0, parts=parts, acked=acked, writer=("ready",), next_log="absent")
    world = replace(world, writer=(AFTER[phase],))
    if phase in ("settling", "cutting"):
        return replace(world, synced=world.count, acked=confirmed(world, world.count))
    return world


def writes(world: World, outcome: str) -> World:
    """The writer's next operation is carried out."""
    device = device_after(world, next_write(world), outcome)
    skipped = {"closing": "a log isn't synced before the next one", "sealing copy": "a copy is named before it is synced",
               "settling": "names aren't synced after the copy has its name", "mending": "what a failed append left isn't cut off"}
    if world.writer[0] in skipped and is_planted(skipped[world.writer[0]]):
        device = world.device
    return replace(told_write(world, outcome == DONE), device=device)


def syncs(world: World, outcome: str) -> World:
    """The sync of the log ends that was asked for."""
    phase, count = world.writer[0], world.writer[1]
    device = device_after(world, ("sync log", world.log, count), outcome)
    writer = {"both": ("appending",), "spoiled": ("mending",)}.get(phase, ("ready",))
    if outcome != DONE:
        return replace(world, device=device, writer=writer if is_planted("syncs go on after one that failed") else ("failed",))
    if is_planted("a sync acknowledges what was appended after it began"):
        count = world.count
    return replace(world, device=device, writer=writer, synced=count, acked=confirmed(world, count))


def next_make(world: World) -> Tuple:
    again = is_planted("the log's number is used again")
    number = world.log if again else world.log + 1
    return {"creating": ("create log", number), "recording": ("sync names",)}.get(world.next_log, ("nothing",))


def makes(world: World, outcome: str) -> World:
    """The next log is made, or its name is synced."""
    device = device_after(world, next_make(world), outcome)
    if world.next_log == "recording" and is_planted("names aren't synced after the next log is made"):
        device = world.device
    after = {"creating": "recording", "recording": "waiting"}[world.next_log]
    return replace(world, device=device, next_log=after if outcome == DONE else "absent")


def removing(base: int) -> Tuple:
    return ("removing log", FIRST) if FIRST < base else ("idle",)


def next_checkpoint(world: World) -> Tuple:
    phase, *numbers = world.checkpointer
    return {"writing": ("write base", *numbers), "sealing": ("sync base",), "renaming": ("name base", *numbers), "fixing": ("sync names",),
            "removing log": ("remove log", *numbers), "removing base": ("remove base", *numbers)}.get(phase, ("nothing",))


def checkpoints(world: World, outcome: str) -> World:
    """The checkpointer's next operation is carried out."""
    phase, *numbers = world.checkpointer
    after = replace(world, device=device_after(world, next_checkpoint(world), outcome))
    skipped = {"sealing": "a base is named before it is synced", "fixing": "a log goes before its base's name is synced"}
    if phase in skipped and is_planted(skipped[phase]):
        after = replace(after, device=world.device)
    if phase == "renaming":
        after = replace(after, tried=Place(*numbers))
    if outcome != DONE:
        return replace(after, checkpointer=("idle",))
    if phase in ("writing", "sealing", "renaming"):
        following = {"writing": "sealing", "sealing": "renaming", "renaming": "fixing"}
        return replace(after, checkpointer=(following[phase], *numbers))
    if phase == "fixing":
        return replace(after, base=numbers[0], checkpointer=removing(numbers[0]))
    if phase == "removing log":
        return replace(after, checkpointer=("removing base", *numbers))
    end = world.log if is_planted("logs go that no base has") else world.base
    more = phase == "removing base" and numbers[0] + 1 < end
    return replace(after, checkpointer=("removing log", numbers[0] + 1) if more else ("idle",))


def is_sealed(file: Optional[File]) -> bool:
    """Whether nothing of a log waits: a record that was written when it was closed may say so."""
    return file is not None and TORN not in file.kept and file.waiting == () and file.lost == () and not file.suspect


def opens(world: World, says: bool = False, keep: Optional[int] = None) -> World:
    """The folder is opened: from then on what was read is what was submitted; of a log of which records are lost, once that is renewed. It may be said that the log is sealed; and some batches of the
    log may be given up, if as many are kept as given.

    The names are synced before they are read. If that fails, nothing was opened.
    """
    device, base, log = world.device, newest_base(world.device), last_log(world.device)
    parts = {number: part(world, number) if number < base else content(entry(device.logs, number).now) for number in range(max(log, world.log) + 1)}
    file, top = entry(device.bases, base).now, max([log] + [number for number, entry in device.logs.items() if entry.now is not None])
    here, own = entry(device.logs, log).now, entry(device.bases, log).now
    if here is not None and here.lost != () and not is_planted("records that are lost are forgotten"):
        parts[log] = part(world, log)
    count = len(content(here))
    sealed = says and (is_sealed(here) or is_planted("a log that isn't sealed is taken for sealed"))
    if here is not None and not is_planted("an opening reads before names are synced"):
        device = names_synced(device)
    after = replace(
        world, device=device, log=log, count=count, synced=0, base=base, tried=Place(base, 0 if file is None else file.past),
        writer=("making",), checkpointer=("idle",), next_log="absent", parts=parts)
    if keep is not None:
        past = 0 if own is None or is_planted("batches that a base has are given up") else own.past
        after = replace(after, count=min(max(past, keep), count))
        sealed = sealed and is_planted("a log of which batches are given up isn't copied")
        if not is_planted("batches that are given up stay acknowledged"):
            after = replace(after, acked=after.acked[: len(confirmed(after, after.count))])
    if here is None:
        return after
    return replace(after, writer=clearing(log, top, sealed), checkpointer=removing(base))
