"""`Desk`: the calls of memtables and runs, by name; and what each run has to say, whichever way it is read."""

from typing import Dict, Hashable, List, Optional, Sequence, Tuple

from model import MERGE, OPERATORS, PUT, Fragment, Run, Write, effect_at
from play import DESK, SHEET, Raw, Reply, Story, number, spelled, text, wants

(OPERATE, MERGED, THEN, FOLDED, APPLY, FOLD_ALL, SUM, READ, TOUCH, ROWS, SPELL, COMPARE, ASK) = range(13)
(RENEW, INSERT, LOOK, FLUSH, BUILD, KEEP_MADE) = range(20, 26)
(SUM_UP, SHOW, LOOK_UP, SEEK, FENCE, POINT, WALK) = range(30, 37)
(COMPACT, SAME, GATHER, SHARE, RUN_OF_SHOWN, LOOK_AT_ALL) = range(40, 46)
(PREPARE, COMMIT, GIVE_UP, DROP_APART, LOOK_AT, LOOK_UP_SHOWN, JOIN) = range(50, 57)

# How the runs of a compaction are merged: by the calling thread alone, by threads, and by a number of parts.
ALONE, IN_THREADS = 0, 1

# The most walks over a run, and about how many bytes all of them print.
MOST_WALKS, MOST_WALKED = 16, 1_000_000


def parts(number_of_parts: int) -> int:
    return number_of_parts + 1


def write_spelling(write: Write) -> bytes:
    return number(write.seq) + op_spelling(write)


def op_spelling(write: Write) -> bytes:
    return number(write.kind) + text(write.first) + text(write.second)


def effect_spelling(effect: Tuple) -> bytes:
    kind = ("keep", "clear", "set", "fold").index(effect[0])
    return number(kind) + (text(effect[1]) if kind > 1 else b"")


def run_spelling(run: Run) -> bytes:
    found = [number(run.low), number(run.high), number(len(run.points))]
    found += [write_spelling(point) for point in run.points]
    found.append(number(len(run.fragments)))
    found += [spelled(one.seqs) + text(one.begin) + text(one.end) for one in run.fragments]
    return b"".join(found)


def run_shown(reply: Reply) -> Tuple[Run, Tuple[int, ...]]:
    """The run that an answer shows, and what it says of itself: numbers of points, blocks and fragments, and size."""
    low, high, *summed = reply.numbers(6)
    points = []
    for _ in range(reply.number()):
        seq, key, kind = reply.number(), reply.bytes(), reply.number()
        points.append(Write(seq, kind, key, reply.bytes() if kind in (PUT, MERGE) else b""))
    fragments = [Fragment(tuple(reply.numbers()), reply.bytes(), reply.bytes()) for _ in range(summed[2])]
    return Run(low, high, tuple(points), tuple(fragments)), tuple(summed)


def sums_of(run: Run) -> Tuple[int, ...]:
    return (len(run.points), run.blocks(), len(run.fragments), run.size())


class Desk(Story):
    """A story of memtables and runs, which are kept under names: the program knows them by number, from 0 on in turn. Under most
    operators the program has effects and plain writes alone."""

    def __init__(self, operator: str = "append", refuse: bool = False) -> None:
        scene = DESK if operator in ("append", "counter") else SHEET
        super().__init__(scene, operator, refuse, (LOOK_AT_ALL,) if scene == DESK else None)
        self.names: Dict[Hashable, int] = {}

    def number_of(self, name: Hashable) -> int:
        """The number of a run that is kept under a name now or before."""
        return self.names.setdefault(name, len(self.names))

    def insert(self, write: Write, owns: bool = False) -> Reply:
        return self.call(INSERT, int(owns), Raw(write_spelling(write)), name="insert")

    def kept(self, name: Hashable) -> int:
        """Keeps the run that was made last under a name, and returns its number."""
        place = self.number_of(name)
        self.call(KEEP_MADE, place, name="keep", marked=False)
        return place

    def compact(self, runs: Sequence[int], keeps: Sequence[int], oldest: bool, way: int, name: Hashable) -> Tuple[int, Reply]:
        """Compacts runs. The one that they become is kept under a name."""
        place = self.number_of(name)
        return place, self.call(COMPACT, place, list(runs), list(keeps), int(oldest), way, name="compact")

    def show(self, run: int) -> Reply:
        return self.call(SHOW, run, name="show", marked=False)

    def look_up(self, run: int, key: bytes, at: int) -> Reply:
        return self.call(LOOK_UP, run, key, at, name=f"lookup of {key!r} at {at}")


def beside(keys: Sequence[bytes]) -> List[bytes]:
    """Keys, of each the least one above it, and the one without its last byte; in order."""
    return sorted({near for key in keys for near in (key, key + b"\0", key[:-1])})


def keys_of(run: Run) -> List[bytes]:
    return [point.first for point in run.points] + [end for one in run.fragments for end in (one.begin, one.end)]


def hidden_to(run: Run, key: bytes, at: int) -> Optional[bytes]:
    for one in run.fragments:
        if one.begin <= key < one.end and one.seqs[-1] <= at:
            return one.end
    return None


class Demand:
    """Each way of reading a run, at its keys and those beside them, and at each sequence. All have to say what its plain writes do."""

    def __init__(self, desk: Desk, where: str, number_of_run: int, run: Run) -> None:
        self.desk, self.number, self.run = desk, number_of_run, run
        self.operator = OPERATORS[desk.operator]
        self.writes = run.writes()
        self.keys = beside(keys_of(run))
        self.sequences = sorted({0, 2**64 - 1} | {write.seq for write in self.writes})
        desk.check(where, self.looked_up())
        desk.check(where, self.searched())
        desk.check(where, self.at_places())
        for first in self.starts():
            desk.check(where, self.walked(self.keys[first:]))

    def effect(self, key: bytes, at: int) -> Tuple:
        return effect_at(self.operator, [write for write in self.writes if write.touches(key)], key, at)

    def looked_up(self):
        asked = [(key, at) for key in self.keys for at in self.sequences]
        replies = [self.desk.look_up(self.number, key, at) for key, at in asked]

        def check() -> None:
            for (key, at), reply in zip(asked, replies):
                wants(reply.effect(), self.effect(key, at), reply.name)

        return check

    def searched(self):
        replies = [self.desk.call(SEEK, self.number, key, name=f"search of {key!r}") for key in self.keys]
        points = [point.first for point in self.run.points]

        def at(place: int) -> Tuple[int, Optional[bytes]]:
            return place, points[place] if place < len(points) else None

        def check() -> None:
            for key, reply in zip(self.keys, replies):
                for place in (sum(point < key for point in points), sum(point <= key for point in points)):
                    wants((reply.number(), reply.some()), at(place), reply.name)

        return check

    def at_places(self):
        points, blocks = self.run.points, self.run.blocks()
        found = [self.desk.call(POINT, self.number, place, name=f"point {place}") for place in range(len(points) + 1)]
        fences = [self.desk.call(FENCE, self.number, block, name=f"fence {block}") for block in range(blocks + 1)]

        def check() -> None:
            for point, reply in zip(points, found):
                wants((reply.some(), reply.number(), reply.number()), (point.first, point.seq, point.kind), reply.name)
                if point.kind in (PUT, MERGE):
                    wants(reply.bytes(), point.second, reply.name)
            wants(found[-1].some(), None, found[-1].name)
            for block, reply in enumerate(fences):
                wants(reply.some(), points[4 * block].first if block < blocks else None, reply.name)

        return check

    def starts(self) -> List[int]:
        """The places of the keys from which on the run is walked over."""
        printed = 2 * len(self.keys) * len(self.sequences) * (30 + self.run.size() // max(len(self.run.points), 1))
        walks = max(1, min(MOST_WALKS, MOST_WALKED // max(printed, 1)))
        return list(range(0, len(self.keys), len(self.keys) // walks + 1))

    def walked(self, keys: List[bytes]):
        """A walk over keys, and a cursor that seeks each straight from the first one."""
        steps, asked = [number(0) + text(keys[0])], []
        for key in keys:
            asked += [(key, at) for at in self.sequences]
            steps += [number(4) + text(key) + number(at) for at in self.sequences] + [number(2) + text(key)]
        walk = self.desk.call(WALK, self.number, len(steps), Raw(b"".join(steps)), name="a walk", marked=False)
        straight = [self.straight(keys[0], key) for key in keys[: MOST_WALKS * 4]]

        def check() -> None:
            walk.some()
            for key in keys:
                self.compare(walk, key)
                there = walk.some()
                wants(there, next((one.first for one in self.run.points if one.first > key), None), f"a walk behind {key!r}")
            for key, reply in zip(keys, straight):
                reply.some(), reply.some()
                self.compare(reply, key)

        return check

    def straight(self, first: bytes, key: bytes) -> Reply:
        steps = [number(0) + text(first), number(1) + text(key)]
        steps += [number(4) + text(key) + number(at) for at in self.sequences]
        return self.desk.call(WALK, self.number, len(steps), Raw(b"".join(steps)), name=f"a seek of {key!r}", marked=False)

    def compare(self, reply: Reply, key: bytes) -> None:
        """The answers of a cursor before a key at each sequence, and its place."""
        here = next((one.first for one in self.run.points if one.first >= key), None)
        for at in self.sequences:
            came = (reply.effect(), reply.some(), reply.some())
            wants(came, (self.effect(key, at), hidden_to(self.run, key, at), here), f"{reply.name} of {key!r} at {at}")
