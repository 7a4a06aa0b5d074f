"""Drawn writes in memtables, and drawn compactions, beside the model: runs are shown whole, and read at each sequence."""

from random import Random
from typing import List, Sequence, Tuple

from desk import ALONE, BUILD, FLUSH, IN_THREADS, RENEW, SAME, Desk, parts, run_shown, run_spelling
from model import DELETE, MERGE, OPERATORS, PUT, RANGE, Along, Fragment, Run, Write
from model import applied, compacted, counter, flushed, in_order, is_run
from play import Raw, seeded, wants

MOST = 2**64 - 1

# Keys, and ends of range deletions, if most changes are range deletions.
KEYS = [b"", b"a", b"aa", b"b", b"c", b"\xff"]
ENDS = [b"", b"a", b"aa", b"ab", b"b", b"b\x00", b"c", b"ca", b"d", b"da", b"e", b"\xff"]


def change(draws: Random) -> Tuple[int, bytes, bytes]:
    """In eighths, a put, a delete, two range deletions and four merges."""
    kind = draws.choice([PUT, DELETE, RANGE, RANGE, MERGE, MERGE, MERGE, MERGE])
    value = b"" if draws.randrange(4) == 0 else bytes([draws.randrange(97, 123)])
    return kind, draws.choice(KEYS), draws.choice(KEYS) if kind == RANGE else b"" if kind == DELETE else value


def mostly_range(draws: Random) -> Tuple[int, bytes, bytes]:
    """In eighths, a put, a merge, and six range deletions, few of which have no keys: many overlap."""
    kind = draws.choice([PUT, MERGE] + 6 * [RANGE])
    first, second = draws.choice(ENDS), draws.choice(ENDS)
    if kind == RANGE and second < first and draws.randrange(4):
        first, second = second, first
    return kind, first, second


def drawn_writes(draws: Random, draw, most: int, above: int) -> List[Write]:
    writes, seq = [], above
    for _ in range(1 + draws.randrange(most)):
        seq += 1 + draws.randrange(2)
        writes.append(Write(seq, *draw(draws)))
    return writes


def drawn_keeps(draws: Random, bound: int, sides: int) -> List[int]:
    """Sequences below a bound that rise: one in `sides` on average."""
    return [seq for seq in range(bound) if draws.randrange(sides) == 0]


class Drawn(Desk):
    """A story of drawn runs."""

    def __init__(self, operator: str, where: str) -> None:
        super().__init__(operator)
        self.where = "tests/drawn.py, " + where
        # The most sequences that a fragment has.
        self.longest = 0

    def flushed(self, writes: Sequence[Write], name: str) -> Run:
        """Keeps the run of a memtable of these writes."""
        self.call(RENEW)
        for place, write in enumerate(writes):
            self.insert(write, place % 2 == 0)
        self.call(FLUSH, name="flush")
        run = flushed(writes)
        self.longest = max([self.longest] + [len(one.seqs) for one in run.fragments])
        self.shows(self.kept(name), run)
        return run

    def built(self, run: Run, name: str) -> None:
        self.call(BUILD, Raw(run_spelling(run)), name="build")
        self.kept(name)

    def shows(self, place: int, run: Run) -> None:
        """Checks that the run at a number is this one."""
        reply = self.show(place)
        self.check(self.where, lambda: wants(run_shown(reply)[0], run, "a run"))

    def reads(self, place: int, writes: Sequence[Write], keys: Sequence[bytes], sequences: Sequence[int], only_values: bool) -> None:
        """Checks what the run at a number does to keys: what the writes do, or only the values that they give."""
        operator = OPERATORS[self.operator]
        asked = [(key, at, self.look_up(place, key, at)) for key in keys for at in sequences]

        def check() -> None:
            along = {key: Along(operator, writes, key) for key in keys}
            for key, at, reply in asked:
                came, wanted = reply.effect(), along[key].at(at)
                if only_values:
                    came, wanted = applied(operator, came, None), applied(operator, wanted, None)
                wants(came, wanted, reply.name)

        self.check(self.where, check)


def draw_memtables(draw, most: int, keys: Sequence[bytes], rounds: int, seed: int) -> List[Drawn]:
    """Writes in a memtable, whose run does to keys at each sequence what the writes do."""
    draws, stories = seeded(seed), []
    for place in range(rounds):
        story = Drawn("append", f"memtable {place} of {draw.__name__}")
        writes = drawn_writes(draws, draw, most, 0)
        story.flushed(writes, "run")
        story.reads(0, writes, keys, range(writes[-1].seq + 1), False)
        stories.append(story)
    return stories


def draw_overlaps(rounds: int, seed: int) -> List[Drawn]:
    """Two runs of range deletions that overlap, compacted in threads, with the oldest run and without."""
    draws, stories = seeded(seed), []
    for place in range(rounds):
        story = Drawn("append", f"overlap {place}")
        older = drawn_writes(draws, mostly_range, 40, 0)
        newer = drawn_writes(draws, mostly_range, 40, older[-1].seq)
        runs = [story.flushed(newer, "newer"), story.flushed(older, "older")]
        keeps = drawn_keeps(draws, 120, 20)
        for oldest in (False, True):
            made, _ = story.compact([0, 1], keeps, oldest, IN_THREADS, oldest)
            story.shows(made, compacted(OPERATORS["append"], runs, keeps, oldest))
            story.reads(made, older + newer, ENDS, keeps + [newer[-1].seq], oldest)
        stories.append(story)
    return stories


def drawn_counters(draws: Random, keys: int, count: int, above: int) -> List[Write]:
    """In hundredths one range deletion, over half of the keys at most, ten puts, ten deletes and 79 merges. A third of them are of one of
    two keys, whose points so go over several blocks."""
    writes = []
    for place in range(1, count + 1):
        kind = draws.choices([RANGE, PUT, DELETE, MERGE], [1, 10, 10, 79])[0]
        key = draws.choices([keys // 2, keys // 3, draws.randrange(keys)], [1, 1, 4])[0]
        end = key + draws.randrange(keys) // 2
        second = {RANGE: end.to_bytes(8, "big"), DELETE: b""}.get(kind, counter(draws.randrange(1000)))
        writes.append(Write(above + place, kind, key.to_bytes(8, "big"), second))
    return writes


def draw_parts(rounds: int, seed: int) -> List[Drawn]:
    """Compactions of one to four runs by any number of parts, which give what the calling thread alone does. With few keys there are
    more parts than keys."""
    draws, stories = seeded(seed), []
    for place in range(rounds):
        story = Drawn("counter", f"parts {place}")
        keys, above, runs = (300, 4, 40)[place % 3], 0, []
        for number in range(1 + draws.randrange(4)):
            writes = drawn_counters(draws, keys, 1 + draws.choice([0, 1, 1, 1]) * draws.randrange(600), above)
            above = writes[-1].seq
            runs.insert(0, story.flushed(writes, f"run {number}"))
        numbers = list(range(len(runs)))[::-1]
        keeps, oldest = drawn_keeps(draws, 2400, 400), draws.randrange(2) == 0
        wanted = compacted(OPERATORS["counter"], runs, keeps, oldest)
        made, _ = story.compact(numbers, keeps, oldest, ALONE, "alone")
        story.shows(made, wanted)
        for way in [IN_THREADS] + [parts(count) for count in range(1, 10)]:
            other, _ = story.compact(numbers, keeps, oldest, way, "by parts")
            same = story.call(SAME, made, other, name=f"by {way - 1} parts")
            story.check(story.where, lambda same=same: wants(same.flag(), True, same.name))
            points = wanted.points[:: max(1, len(wanted.points) // 50)]
            story.reads(other, wanted.writes(), [point.first for point in points], [MOST], False)
        stories.append(story)
    return stories


def draw_large(seed: int) -> Drawn:
    """Three runs of 6,000 writes, which have enough points for threads to cut the key space."""
    draws, story, runs, above = seeded(seed), Drawn("counter", "large runs"), [], 0
    for name in range(3):
        writes = drawn_counters(draws, 5000, 6000, above)
        above = writes[-1].seq
        runs.append(flushed(writes))
        story.built(runs[-1], str(name))
    wants(sum(len(run.points) for run in runs) >= 16_384, True, "whether they are cut")
    keeps = [2500, 9000, 9001]
    alone, _ = story.compact([2, 1, 0], keeps, False, ALONE, "alone")
    threads, _ = story.compact([2, 1, 0], keeps, False, IN_THREADS, "in threads")
    same = story.call(SAME, alone, threads, name="same")
    story.check(story.where, lambda: wants(same.flag(), True, "what threads make"))
    return story


# Ranges of sequences, keys and sequences of deletes, fragments, and whether they make a run.
RUNS_OR_NOT: List[Tuple[int, int, List[Tuple[bytes, int]], List[Fragment], bool]] = [
    (1, 1, [], [], True),
    (1, 2**56 - 1, [], [], True),
    (0, 1, [], [], False),
    (2, 1, [], [], False),
    (1, 2**56, [], [], False),
    (1, 9, [(b"a", 3), (b"a", 1), (b"b", 9)], [], True),
    (1, 9, [(b"a", 1), (b"a", 3)], [], False),
    (1, 9, [(b"a", 3), (b"a", 3)], [], False),
    (1, 9, [(b"b", 3), (b"a", 1)], [], False),
    (2, 9, [(b"a", 1)], [], False),
    (1, 9, [(b"a", 10)], [], False),
    (1, 9, [], [Fragment((8, 5), b"a", b"c"), Fragment((8,), b"c", b"d")], True),
    (1, 9, [], [Fragment((5,), b"a", b"a")], False),
    (1, 9, [], [Fragment((), b"a", b"c")], False),
    (1, 9, [], [Fragment((5, 8), b"a", b"c")], False),
    (1, 9, [], [Fragment((5, 5), b"a", b"c")], False),
    (1, 9, [], [Fragment((10,), b"a", b"c")], False),
    (1, 9, [], [Fragment((5,), b"a", b"c"), Fragment((8,), b"b", b"d")], False),
    (1, 9, [], [Fragment((5,), b"c", b"d"), Fragment((8,), b"a", b"b")], False),
    (1, 9, [(b"b", 5)], [Fragment((8, 5), b"a", b"c")], False),
    (1, 9, [(b"c", 5)], [Fragment((8, 5), b"a", b"c")], True),
    (1, 9, [(b"b", 6)], [Fragment((8, 5), b"a", b"c")], True),
]


def runs_or_not() -> Drawn:
    """Which points and fragments make a run."""
    story = Drawn("append", "which parts make a run")
    for low, high, keys, fragments, makes in RUNS_OR_NOT:
        run = Run(low, high, tuple(Write(seq, DELETE, key) for key, seq in keys), tuple(fragments))
        wants(is_run(run), makes, f"{run} by the model")
        made = story.call(BUILD, Raw(run_spelling(run)), name="build")
        story.check(story.where, lambda made=made, makes=makes, run=run: wants(made.is_made, makes, f"{run}"))
    return story


def hot_key() -> Drawn:
    """Two runs of 5,000 merges of one key become one point: an operand, and with the oldest run among them a value."""
    story = Drawn("counter", "a hot key")
    for low in (5001, 1):
        points = tuple(Write(seq, MERGE, b"k", counter(1)) for seq in range(low + 4999, low - 1, -1))
        story.built(Run(low, low + 4999, points, ()), str(low))
    for oldest, kind in ((False, MERGE), (True, PUT)):
        made, _ = story.compact([0, 1], [], oldest, IN_THREADS, oldest)
        story.shows(made, Run(1, 10_000, (Write(10_000, kind, b"k", counter(10_000)),), ()))
    return story


def draw_filters(seed: int) -> List[Drawn]:
    """Keys of each length up to 24 bytes in runs of some sizes. Half of those that are looked up are there."""
    stories = []
    for count in (0, 1, 16, 1000):
        draws, story = seeded(seed), Drawn("append", f"a filter of {count} keys")
        keys = [place.to_bytes(2, "big") + bytes(draws.randrange(256) for _ in range(place % 23)) for place in range(2 * count)]
        points = tuple(Write(1, PUT, key, b"v") for key in keys[::2])
        story.built(Run(1, 1, points, ()), "run")
        story.reads(0, points, keys, [1], False)
        stories.append(story)
    return stories


# The keys of runs: at their end and not, the empty one, some that differ in length alone after a front and without one, with eight
# equal bytes after the front, and without one.
KEYS_OF_RUNS: List[List[List[bytes]]] = [
    [[], []],
    [[], [b"a"], []],
    [[b"", b"\x00"], [b"\x00", b"\x00\x00"]],
    [[b""], [b"a"], [b""]],
    [[b"a\x00\x00"], [b"a"], [b"a\x00"]],
    [[b"user/a\x00\x00"], [b"user/a\x00", b"user/b"], [b"user/a"]],
    [[b"user/12345678b", b"user/9"], [b"user/12345678"], [b"user/12345678a", b"user/12345678b"], [b"user/1234567"]],
    [[b"\xff" * 9], [b"\xff" * 8], [b"b", b"user/1"], [b"c"]],
]

FRONT = b"user/"
ENDINGS = [b"", b"\0", b"1", b"2", b"3", b"a", b"a\0", b"a\0\0", b"b"]
ENDINGS += [b"12345678" + end for end in (b"", b"\0", b"\0\0", b"0", b"a", b"aa", b"b")]
SHARED = sorted([FRONT + end for end in ENDINGS + [b"12345679"] + [b"\xff" * count for count in (7, 8, 9)]])
MIXED = sorted(
    [b"", b"\0", b"\0" * 9, b"a", b"a\0", b"a\0\0", b"use", b"user", b"user0", b"v"]
    + [FRONT + end for end in (b"", b"12345678", b"12345678\0", b"12345678a", b"2", b"3", b"4")]
    + [b"\xff" * count for count in (7, 8, 9)]
)


def merged_keys(name: str, keys_of_runs: Sequence[Sequence[bytes]]) -> Drawn:
    """Runs of deletes of these keys: they come in order, each once, from whichever run is the newest that has it."""
    story = Drawn("append", f"keys of {name}")
    runs = []
    for place, keys in enumerate(keys_of_runs):
        seq = len(keys_of_runs) - place
        runs.append(Run(seq, seq, tuple(Write(seq, DELETE, key) for key in sorted(set(keys))), ()))
        story.built(runs[-1], str(place))
    made, _ = story.compact(list(range(len(runs))), [], False, ALONE, "made")
    newest = {}
    for point in (point for run in runs for point in run.points):
        newest.setdefault(point.first, point)
    story.shows(made, Run(1, len(runs), tuple(in_order(newest.values())), ()))
    return story


def draw_keys(rounds: int, seed: int) -> List[Drawn]:
    """As above: numbers of runs around one block of their heads and around two, of which every fifth has the same keys; and drawn ones."""
    draws = seeded(seed)
    stories = [merged_keys(str(place), keys) for place, keys in enumerate(KEYS_OF_RUNS)]
    for count in (1, 15, 16, 17, 31, 32, 33):
        stories.append(merged_keys(f"{count} runs", [SHARED[walk % 5 : walk % 5 + 3] for walk in range(count)]))
    for place in range(rounds):
        keys, runs = (SHARED, MIXED)[place % 2], []
        for _ in range(1 + draws.randrange(40)):
            sides = 1 + draws.randrange(4)
            runs.append([key for key in keys if draws.randrange(sides) == 0])
        stories.append(merged_keys(f"round {place}", runs))
    return stories


def play(refuse: bool = False) -> Tuple[int, List[str], int]:
    """Plays all rounds. Returns how many there are, what is wrong, and how many requests were refused: none."""
    overlaps = draw_memtables(mostly_range, 40, ENDS, 300, 30)
    stories = draw_memtables(change, 300, KEYS, 50, 7) + overlaps
    stories += draw_overlaps(300, 31) + draw_parts(45, 32) + [draw_large(33), hot_key(), runs_or_not()]
    stories += draw_filters(5) + draw_keys(150, 4)
    failures = [line for story in stories for line in story.play()]
    if max(story.longest for story in overlaps) <= 16:
        failures.append("tests/drawn.py: no fragment has more than 16 sequences")
    return len(stories), failures, 0
