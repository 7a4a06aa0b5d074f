#!/usr/bin/env python3
"""Walks the machine of a database's folder through small worlds, and crashes them.

    tests/worlds.py

A walk draws events: batches, syncs, switches of the log and checkpoints are asked for, operations are done, fail, or are half done,
processes end, machines crash, openings give batches up. After each event come crashes that keep any part of what wasn't synced, and each one is opened. What is
found has to be a beginning of what was submitted, with all that was acknowledged, and without damage; and the machine has to go on from
there. These are the laws of crates/uc_folder.

Then a step of the machine is left out, or two change places: a walk has to find each of `folder.PLANTS`. The last line counts.
"""

import random
import sys
from dataclasses import replace
from pathlib import Path
from typing import Iterator, List, Optional, Tuple

sys.dont_write_bytecode = True
sys.path.insert(0, str(Path(__file__).resolve().parent))

import folder  # noqa: E402, after the path that it is found by
from folder import (  # noqa: E402
    DONE, DONE_UNTOLD, NOT_DONE, PART_DONE, Place, World, change_log, checkpoints, confirmed, content, crashed, crashed_file, entry,
    is_damaged, is_planted, is_readable, last_log, makes, names_synced, opens, part, recovered, submitted, syncs, upto, writes,
)

# The walks without a plant, the most with one, and the crashes that are tried after each event.
WALKS, MOST_WALKS, CRASHES = 200, 400, 3


def goes_on(world: World, read: Tuple[int, ...]) -> bool:
    """Whether an opening keeps what was read, and takes it for what was submitted, unless a crash may bring back what couldn't be cut off."""
    here = entry(world.device.logs, world.log).now
    return confirmed(world, world.count) == read and (submitted(world) == read or here is not None and here.lost != ())


def broken(world: World, draw: random.Random) -> Optional[str]:
    """Which law a crash breaks now, or the end of the process; none if all hold."""
    told = submitted(world)
    for device in [world.device] + [crashed(world.device, draw) for _ in range(CRASHES)]:
        read = recovered(device)
        laws = {
            "prefix": told[: len(read)] == read,
            "acknowledged": read[: len(world.acked)] == world.acked,
            "older": read[: len(upto(world, world.log))] == upto(world, world.log),
            "readable": is_readable(device),
            "damage": not any(is_damaged(entry.now) for entry in device.logs.values()),
            "goes on": goes_on(opens(replace(world, device=device)), read),
        }
        if device is world.device:
            answered = confirmed(world, world.count)
            laws["answered"] = read[: len(answered)] == answered
            laws["given up"] = world.writer != ("ready",) or read == told
        for law, holds in laws.items():
            if not holds:
                return law
    return None


def asked(world: World, draw: random.Random) -> World:
    """Something is asked for that the machine may begin now."""
    phase, *numbers = world.writer
    kind, ready = draw.random(), phase in ("ready", "syncing")
    if kind < 0.3 and ready:
        parts = {**world.parts, world.log: part(world, world.log) + (world.next,)}
        writer = ("appending",) if phase == "ready" else ("both", *numbers)
        return replace(world, writer=writer, parts=parts, batch=world.next, next=world.next + 1)
    if kind < 0.45 and phase in ("ready", "appending"):
        return replace(world, writer=("syncing" if phase == "ready" else "both", world.count))
    if kind < 0.55 and world.next_log == "absent" and (ready or phase in ("appending", "both")):
        return replace(world, next_log="creating")
    early = phase == "appending" and is_planted("the next log is entered while the log is appended to")
    if kind < 0.65 and (phase == "ready" or early) and world.next_log == "waiting":
        return replace(world, writer=("closing",))
    if world.checkpointer == ("idle",) and (ready or phase in ("appending", "both")):
        number = draw.randint(world.base, world.log)
        most = len(part(world, number)) if number < world.log or is_planted("a base has what isn't on the device") else 0
        place = Place(number, draw.randint(0, most))
        if place > world.tried:
            return replace(world, checkpointer=("writing", *place))
    return world


def step(world: World, draw: random.Random) -> World:
    """The world after one event."""
    phase, is_idle = world.writer[0], world.checkpointer == ("idle",)
    # A cut of which only the sync fails matters most.
    likely = (2, 1, 1, 4) if phase == "mending" else (12, 1, 1, 1)
    kind, outcome = draw.random(), draw.choices((DONE, NOT_DONE, PART_DONE, DONE_UNTOLD), likely)[0]
    if kind < 0.015 or phase == "failed":
        return draw.choice((opens_after_a_crash, opens_after_a_drop, ends))(world, draw)
    if kind < 0.03:
        return ends(world, draw)
    if kind < 0.4 and not is_idle:
        return checkpoints(world, outcome)
    if kind < 0.55 and world.next_log in ("creating", "recording"):
        return makes(world, outcome)
    if phase in ("ready", "syncing") and kind < 0.85 or phase in ("appending", "both") and kind > 0.9:
        return asked(world, draw)
    return syncs(world, outcome) if phase in ("syncing", "spoiled") or phase == "both" and kind < 0.7 else writes(world, outcome)


def opened(world: World, draw: random.Random) -> World:
    """The folder is opened, and sometimes some of the last batches are given up."""
    count = len(content(entry(world.device.logs, last_log(world.device)).now))
    keep = draw.choice((None, None, None, 0, max(0, count - 1), draw.randint(0, count)))
    return opens(world, draw.random() < 0.5, keep)


def ends(world: World, draw: random.Random) -> World:
    """The process ends, and the folder is opened again; or that fails once the names are synced."""
    return replace(world, device=names_synced(world.device)) if draw.random() < 0.1 else opened(world, draw)


def opens_after_a_crash(world: World, draw: random.Random) -> World:
    return opened(replace(world, device=crashed(world.device, draw)), draw)


def opens_after_a_drop(world: World, draw: random.Random) -> World:
    """The process ends, and the system drops its pages of the log: the device is read."""
    device = change_log(world.device, world.log, lambda file: crashed_file(file, draw))
    return opened(replace(world, device=device), draw)


def walk(draw: random.Random) -> Iterator[Tuple[World, Optional[str]]]:
    """A world after each of its events, and the law that is broken there."""
    world = World()
    for _ in range(draw.randint(20, 200)):
        world = step(world, draw)
        law = broken(world, draw)
        yield world, law
        if law is not None:
            return


def first_broken(seeds: range) -> Optional[str]:
    """The law that the first of these walks breaks that breaks one."""
    return next((law for seed in seeds for _, law in walk(random.Random(seed)) if law is not None), None)


def main() -> int:
    failures: List[str] = []
    moments, phases = 0, set()
    for seed in range(WALKS):
        for world, law in walk(random.Random(seed)):
            moments += 1
            phases.update((world.writer[0], world.checkpointer[0], world.next_log))
            if law is not None:
                failures.append(f"walk {seed} breaks: {law}")
    for plant in folder.PLANTS:
        folder.planted = plant
        if first_broken(range(MOST_WALKS)) is None:
            failures.append(f"not found: {plant}")
    for failure in failures:
        print(failure)
    found = len(folder.PLANTS) - sum(failure.startswith("not found") for failure in failures)
    print(f"worlds: {WALKS:,} walks, {moments:,} moments, {len(phases)} phases; {found} of {len(folder.PLANTS)} plants found")
    return 1 if failures else 0


if __name__ == "__main__":
    sys.exit(main())
