"""Memtables that are looked into while they take writes: what waits, what is shown, shares of it, and what is set apart for a flush;
worked by hand and drawn, beside lists of the same writes."""

from random import Random
from typing import Callable, List, Optional, Tuple

from desk import COMMIT, DROP_APART, GATHER, GIVE_UP, JOIN, LOOK_AT, LOOK_UP_SHOWN, PREPARE, RUN_OF_SHOWN, SHARE
from desk import Desk, run_shown, write_spelling
from model import DELETE, MERGE, OPERATORS, PUT, RANGE, Effect, Write, effect_at, flushed
from play import Raw, seeded, wants

TOP = 2**56 - 1

APPEND = OPERATORS["append"]


class Lists:
    """Memtables at a number, and lists of the writes that they show and that wait. Of those shown the first are set apart."""

    def __init__(self, desk: Desk, where: str, number: int, shown: Optional[List[Write]] = None) -> None:
        self.desk, self.where, self.number = desk, where, number
        self.shown: List[Write] = list(shown or [])
        self.waiting: List[Write] = []
        self.apart = 0

    def call(self, kind: int, *values, name: str):
        return self.desk.call(kind, self.number, *values, name=name)

    def last(self) -> int:
        return max([0] + [write.seq for write in self.shown + self.waiting])

    def prepare(self, write: Write) -> None:
        """A write waits. One whose sequence isn't above all others, or that is too great, is refused."""
        reply = self.call(PREPARE, Raw(write_spelling(write)), name="prepare")
        is_taken = self.last() < write.seq <= TOP
        if is_taken:
            self.waiting.append(write)
        self.desk.check(self.where, lambda: wants(reply.is_made, is_taken, f"whether {write} is taken"))

    def commit(self) -> None:
        """Shows those that wait."""
        self.call(COMMIT, name="commit")
        self.shown += self.waiting
        self.waiting = []

    def give_up(self) -> None:
        """Forgets those that wait."""
        self.call(GIVE_UP, name="give up")
        self.waiting = []

    def drop_apart(self) -> None:
        """Drops those that are set apart."""
        self.call(DROP_APART, name="drop apart")
        self.shown, self.apart = self.shown[self.apart :], 0

    def shared(self, number: int, is_set_apart: bool) -> "Lists":
        """Other memtables of what is shown, which may be set apart."""
        self.desk.call(SHARE, self.number, int(is_set_apart), name="set apart" if is_set_apart else "share")
        if is_set_apart:
            self.apart = len(self.shown)
        return Lists(self.desk, self.where, number, self.shown)

    def look(self, has_one: Optional[bool] = None) -> None:
        """Checks what they tell of themselves; and whether all is in one memtable, where that is known."""
        reply = self.call(LOOK_AT, name="a look")
        shown, both = list(self.shown), self.shown + self.waiting
        told = [len(shown), sum(write.size() for write in shown), max([0] + [write.seq for write in shown])]
        told += [sum(write.kind == RANGE for write in shown), max([0] + [write.seq for write in both])]
        told += [sum(write.size() for write in both), int(len(both) > len(shown)), int(not shown)]

        def check() -> None:
            wants([reply.number() for _ in told], told, "what memtables tell")
            came = reply.flag()
            wants(came, came if has_one is None else has_one, "whether there is one memtable")

        self.desk.check(self.where, check)

    def look_up(self, key: bytes, at: int, wanted: Optional[Effect] = None) -> None:
        """Checks what the shown writes do to a key."""
        reply = self.call(LOOK_UP_SHOWN, key, at, name=f"lookup of {key!r} at {at}")
        by_list = effect_at(APPEND, self.shown, key, at)
        wants(by_list, by_list if wanted is None else wanted, "what the list says")
        self.desk.check(self.where, lambda: wants(reply.effect(), by_list, reply.name))

    def join(self) -> None:
        """Checks one memtable of all that is shown."""
        reply = self.call(JOIN, name="join")
        seqs = [write.seq for write in self.shown]
        self.desk.check(self.where, lambda: wants((reply.numbers(), reply.flag()), (seqs, False), "one memtable of all"))

    def flush(self) -> None:
        """Checks the run of what is shown; of nothing there is none."""
        made = self.call(RUN_OF_SHOWN, name="a run")
        is_some = bool(self.shown)
        self.desk.check(self.where, lambda: wants(made.is_made, is_some, "whether there is a run"))
        if is_some:
            run, shown = flushed(self.shown), self.desk.show(self.desk.kept("run"))
            self.desk.check(self.where, lambda: wants(run_shown(shown)[0], run, "the run"))


def story(name: str, refuse: bool) -> Tuple[Desk, Lists]:
    desk = Desk("append", refuse)
    desk.call(GATHER, marked=False)
    return desk, Lists(desk, f"tests/memtables.py, {name}", 0)


def take(lists: Lists, *writes: Write) -> None:
    for write in writes:
        lists.prepare(write)
        lists.commit()


def shown_late(refuse: bool) -> Desk:
    """Writes are seen once they are shown."""
    desk, lists = story("writes are seen once they are shown", refuse)
    for write in (Write(1, PUT, b"k", b"a"), Write(2, MERGE, b"k", b"b"), Write(5, RANGE, b"l", b"m")):
        lists.prepare(write)
    lists.look()
    lists.look_up(b"k", TOP, ("keep",))
    lists.flush()
    lists.commit()
    lists.look()
    lists.look_up(b"k", 5, ("set", b"a,b"))
    lists.look_up(b"k", 1, ("set", b"a"))
    lists.look_up(b"l", 5, ("clear",))
    lists.look_up(b"l", 4, ("keep",))
    lists.prepare(Write(6, DELETE, b"k"))
    lists.flush()
    return desk


def given_up(refuse: bool) -> Desk:
    """Writes that are given up are gone. A sequence that isn't above the last, or above 2^56 - 1, isn't taken."""
    desk, lists = story("writes that are given up are gone", refuse)
    take(lists, Write(7, DELETE, b"x"))
    for write in (Write(8, PUT, b"x", b"y"), Write(9, RANGE, b"a", b"z")):
        lists.prepare(write)
    lists.give_up()
    lists.commit()
    lists.look()
    lists.look_up(b"x", 9, ("clear",))
    for seq in (7, 0, TOP + 1, TOP):
        lists.prepare(Write(seq, PUT, b"x", b"z"))
    lists.join()
    return desk


def shares(refuse: bool) -> Desk:
    """Shares keep what they had, and what waits isn't shared. All memtables become one run."""
    desk, lists = story("shares keep what they had", refuse)
    take(lists, Write(1, PUT, b"k", b"a"))
    lists.look(has_one=True)
    lists.prepare(Write(2, MERGE, b"k", b"b"))
    first = lists.shared(1, False)
    first.look()
    lists.look()
    lists.commit()
    second = lists.shared(2, False)
    take(lists, Write(9, RANGE, b"a", b"z"))
    lists.look(has_one=False)
    for one in (first, second, lists):
        one.look()
        one.join()
        one.flush()
    first.look_up(b"k", TOP, ("set", b"a"))
    second.look_up(b"k", TOP, ("set", b"a,b"))
    lists.look_up(b"k", TOP, ("clear",))
    return desk


def set_apart(refuse: bool) -> Desk:
    """A part that is set apart is read until it is dropped."""
    desk, lists = story("what is set apart", refuse)
    take(lists, Write(1, MERGE, b"k", b"a"))
    apart = lists.shared(1, True)
    take(lists, Write(3, MERGE, b"k", b"b"))
    lists.look(has_one=False)
    lists.look_up(b"k", TOP, ("fold", b"a,b"))
    lists.flush()
    lists.drop_apart()
    lists.look()
    lists.look_up(b"k", TOP, ("fold", b"b"))
    apart.look_up(b"k", TOP, ("fold", b"a"))
    apart.flush()
    return desk


def waiting_apart(refuse: bool) -> Desk:
    """A waiting part isn't set apart, and another share sets nothing apart."""
    desk, lists = story("what waits isn't set apart", refuse)
    take(lists, Write(1, MERGE, b"k", b"a"))
    lists.prepare(Write(2, MERGE, b"k", b"b"))
    apart, again = lists.shared(1, True), lists.shared(2, True)
    for one in (lists, apart):
        one.look()
    lists.commit()
    lists.look_up(b"k", TOP, ("fold", b"a,b"))
    again.look_up(b"k", TOP, ("fold", b"a"))
    shared = lists.shared(3, False)
    lists.drop_apart()
    lists.look_up(b"k", TOP, ("fold", b"b"))
    shared.look_up(b"k", TOP, ("fold", b"a,b"))
    return desk


WORKED: List[Callable[[bool], Desk]] = [shown_late, given_up, shares, set_apart, waiting_apart]


def drawn_write(draws: Random, keys: int, above: int) -> Write:
    """In sixteenths four puts, two deletes, a range deletion and nine merges; half of them are of the first eight keys."""
    kind = draws.choice(4 * [PUT] + 2 * [DELETE] + [RANGE] + 9 * [MERGE])
    key, end = (draws.randrange(draws.choice([8, keys])).to_bytes(2, "big") for _ in range(2))
    second = {RANGE: end, DELETE: b""}.get(kind, draws.choice([b"", b"a", b"b", b"cd"]))
    return Write(above + 1 + draws.randrange(3), kind, key, second)


def drawn(seed: int, keys: int, steps: int) -> Desk:
    """Drawn writes, which are shown or forgotten, and shares, which stay as they are."""
    draws = seeded(seed)
    desk, lists = story(f"drawn by {seed}, {keys} keys", False)
    all_lists = [lists]
    for _ in range(steps):
        roll = draws.randrange(16)
        if roll == 0:
            lists.give_up()
        elif roll < 3:
            lists.commit()
        elif roll == 3:
            all_lists.append(lists.shared(len(all_lists), False))
        else:
            lists.prepare(drawn_write(draws, keys, lists.last()))
        for one in (lists, draws.choice(all_lists)):
            one.look()
            for _ in range(4):
                at = draws.choice([one.last(), draws.randrange(one.last() + 1)])
                one.look_up(draws.randrange(draws.choice([8, keys])).to_bytes(2, "big"), at)
    for one in all_lists:
        one.join()
    return desk


# The calls that have to be refused memory somewhere.
REFUSES = {PREPARE, SHARE, LOOK_UP_SHOWN, JOIN, RUN_OF_SHOWN}


def play(refuse: bool = False) -> Tuple[int, List[str], int]:
    """Plays all. Returns how many stories there are, what is wrong, and how many requests were refused."""
    stories = [worked(refuse) for worked in WORKED]
    if not refuse:
        stories += [drawn(seed, 8, 200) for seed in range(20)] + [drawn(7, 300, 2000)]
    failures = [line for one in stories for line in one.play()]
    return len(stories), failures, sum(one.refused for one in stories)
