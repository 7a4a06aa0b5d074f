"""Two seats of one table take slots and give them back: sequences worked by hand, and drawn ones beside a list of sets."""

from typing import List, NamedTuple, Optional, Set, Tuple

from play import SLOTS, Answer, Reply, Story, seeded, wants

TAKE, GIVE, HELD = 0, 1, 2

# The most slots of a table. At its end it reports that number, whatever number it has.
MOST = 256


class Seats(Story):
    """A table of slots and what its two seats hold, as the program has it and as plain sets."""

    def __init__(self, where: str, count: int, refuse: bool = False) -> None:
        super().__init__(SLOTS, "append", refuse)
        self.where, self.count = where, count
        self.held: Tuple[Set[int], Set[int]] = (set(), set())
        self.steps = 0
        # The first call makes the table. What the last answer tells follows no call.
        self.call(count, name="new")
        self.end = Reply("the end")

    def fill(self, answers: List[Answer]) -> List[Tuple[int, int]]:
        attempts = super().fill(answers)
        self.end.fill(*answers[-1])
        return attempts

    def compare(self, seat: int) -> None:
        """Checks what a seat holds: no slot beside it, and none after the last."""
        reply = self.call(HELD, seat, [], name="held", marked=False)
        wanted = [slot in self.held[seat] for slot in range(self.count + 1)]
        self.check(self.where, lambda: wants([reply.flag() for _ in range(self.count + 1)], wanted, "what is held"))

    def step(self, seat: int, kind: int, slots: List[int]) -> None:
        """Takes slots by a seat, or gives them back."""
        self.steps += 1
        reply = self.call(kind, seat, slots, name=f"step {self.steps}")
        if kind == GIVE:
            self.held[seat].difference_update(slots)
            self.check(self.where, lambda: wants(reply.is_made, True, f"{reply.name} gives {slots}"))
        else:
            taken = next((slot for slot in slots if slot in self.held[0] | self.held[1]), None)
            if taken is None:
                self.held[seat].update(slots)
            wanted = (True, None) if taken is None else (False, taken)
            self.check(self.where, lambda: wants(taken_of(reply), wanted, f"{reply.name} takes {slots}"))
        self.compare(seat)

    def closed(self) -> None:
        """Checks the end: the first seat is dropped with its slots, and the second gives its own back."""
        dropped = [slot in self.held[0] for slot in range(MOST)]

        def check() -> None:
            wants([self.end.flag() for _ in range(self.count)], dropped[: self.count], "what is busy in the end")
            wants([self.end.flag() for _ in range(MOST)], dropped, "what is taken in the end")

        self.check(self.where, check)


def taken_of(reply: Reply) -> Tuple[bool, Optional[int]]:
    if reply.flag():
        return True, None
    slot = reply.number()
    wants(reply.bytes(), b"slot %d is taken" % slot, "the text of a refusal")
    return False, slot


class Worked(NamedTuple):
    """A number of slots, and steps: a seat, what it does, slots, and which of them it finds taken, if it does."""

    name: str
    count: int
    steps: List[Tuple[int, int, List[int], Optional[int]]]


WORKED = [
    Worked("a seat alone", 4, [(1, TAKE, [0], None), (1, TAKE, [3], None), (1, TAKE, [1, 3], 3), (1, GIVE, [0], None)]),
    Worked("nothing", 4, [(0, TAKE, [], None), (0, GIVE, [], None)]),
    Worked("two seats", 4, [(0, TAKE, [1, 2], None), (1, TAKE, [3, 2], 2), (1, TAKE, [0, 3], None), (0, GIVE, [2, 1], None)]),
    Worked("its own slot", 4, [(0, TAKE, [2, 1], None), (0, TAKE, [0, 1], 1), (0, GIVE, [2], None)]),
    Worked("a seat is dropped", MOST, [(0, TAKE, [255, 64, 5], None), (1, TAKE, [4, 5, 6], 5), (1, TAKE, [63, 128], None)]),
] + [Worked(f"{count} slots", count, []) for count in (1, 2, 63, 64, 65, 128, 255, 256)]


def worked(case: Worked, refuse: bool) -> Seats:
    seats = Seats(f"tests/slots.py, {case.name}", case.count, refuse)
    for seat, kind, slots, busy in case.steps:
        found = [slot for slot in slots if slot in seats.held[0] | seats.held[1]]
        wants(found[0] if found and kind == TAKE else None, busy, f"{case.name}: what is taken")
        seats.step(seat, kind, slots)
    seats.closed()
    return seats


def refused() -> Seats:
    """Requests that a table refuses: a slot twice, one that it hasn't, and to give back what isn't held."""
    seats = Seats("tests/slots.py, refused", 4)
    replies = [seats.call(kind, 0, slots) for kind, slots in ((TAKE, [1, 1]), (TAKE, [4]), (GIVE, [0]))]
    seats.check(seats.where, lambda: wants([reply.is_made for reply in replies], 3 * [False]))
    seats.compare(0)
    seats.closed()
    return seats


def drawn(seed: int, count: int, steps: int) -> Seats:
    """Lists of up to 2, 6 or 40 distinct slots, taken or, as far as they are held, given back by one of the seats."""
    draws = seeded(seed)
    seats = Seats(f"tests/slots.py, drawn by {seed}", count)
    for _ in range(steps):
        slots = draws.sample(range(count), min(count, draws.choice([2, 6, 40])))
        seat, kind = draws.randrange(2), draws.choice([TAKE, GIVE])
        seats.step(seat, kind, [slot for slot in slots if kind == TAKE or slot in seats.held[seat]])
    seats.closed()
    return seats


# The calls that have to be refused memory somewhere.
REFUSES = {"new"}


def play(refuse: bool = False) -> Tuple[int, List[str], int]:
    """Plays all. Returns how many cases there are, what is wrong, and how many requests were refused."""
    stories = [worked(case, refuse) for case in WORKED]
    if not refuse:
        stories += [refused(), drawn(1, MOST, 2000), drawn(2, 3, 4000), drawn(3, 5, 4000)]
    failures = [line for story in stories for line in story.play()]
    return len(stories), failures, sum(story.refused for story in stories)
