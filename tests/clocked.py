"""Calls that are clocked, which answer what they answer without a clock; and calls by which the scripts in bench/ do much at once: writes
that are inserted together, effects that are folded in turn, the number of a log's writes, and compactions until nothing is picked."""

from typing import List, NamedTuple, Tuple

from asking import Get, query_spelling
from desk import FLUSH, FOLD_ALL, INSERT, KEEP_MADE, SAME, effect_spelling, write_spelling
from desk import LOOK as LOOK_MEMTABLE
from model import DELETE, MERGE, PUT, Write
from play import DESK, Raw, Reply, Story, number, seeded, text, wants
from shop import ALONE, ASK, FEED, KEEP, LOOK, OPEN, PICK, RELEASE, THREADS, Options, Shop, open_spelling, writes_spelling

CRC, READ_LOG, ADD_RECORDS, READ_ALL, COUNT_ALL = 60, 61, 62, 65, 73
FOLD_IN_TURN, INSERT_ALL, SETTLE = 13, 26, 24

# The calls of which a request has to be refused. Where several writes are inserted or runs compacted, some are done when memory runs
# out; each alone is refused in runs.py and owner.py.
REFUSES = {FOLD_IN_TURN, COUNT_ALL}


def same(story: Story, where: str, clocked: Reply, plain: Reply) -> None:
    """Checks that a clocked call answers what it does without a clock, and took some time."""

    def check() -> None:
        wants((clocked.status, clocked.data), (plain.status, plain.data), plain.name)
        wants(clocked.nanoseconds is not None and clocked.nanoseconds > 0, True, f"{plain.name} takes time")

    story.check(f"tests/clocked.py, {where}", check)


def both(story: Story, where: str, kind: int, *values, times: int = 1) -> None:
    """Makes a call that changes nothing with a clock, `times` times, and without one."""
    clocked = story.clock(kind, *values, times=times)
    same(story, where, clocked, story.call(kind, *values))


def drawn_writes(count: int, seed: int) -> List[Write]:
    draws = seeded(seed)
    kinds = [PUT, PUT, MERGE, MERGE, MERGE, DELETE]
    return [Write(seq, draws.choice(kinds), b"k%02d" % draws.randrange(40), b"v%d" % draws.randrange(10)) for seq in range(1, count + 1)]


def effects(refuse: bool) -> Story:
    """Operands that are folded in turn are what threads make of them, and what they are by hand."""
    story = Story(DESK, "append", refuse)
    parts = [("fold", b"%d" % one) for one in range(20)]
    spelling = Raw(number(len(parts)) + b"".join(effect_spelling(part) for part in parts))
    folded = story.call(FOLD_IN_TURN, spelling, name="fold in turn")
    by_hand = ("fold", b",".join(b"%d" % one for one in range(20)))
    story.check("tests/clocked.py, folds", lambda: wants(folded.effect(), by_hand))
    nothing = story.call(FOLD_IN_TURN, 0)
    story.check("tests/clocked.py, folds", lambda: wants(nothing.effect(), ("keep",)))
    both(story, "folds", FOLD_IN_TURN, spelling, times=3)
    same(story, "folds", story.clock(FOLD_IN_TURN, spelling), story.call(FOLD_ALL, spelling))
    return story


def checksums(refuse: bool) -> Story:
    """A call that is made several times is answered once."""
    story = Story(DESK, "append", refuse)
    both(story, "checksums", CRC, bytes(range(256)) * 40, times=50)
    return story


def memtables(refuse: bool) -> Story:
    """Writes that are inserted together make the run that they make one by one. The first that doesn't rise is refused."""
    story = Story(DESK, "counter", refuse)
    writes = [Write(write.seq, write.kind, write.first, write.seq.to_bytes(8, "little")) for write in drawn_writes(200, 1)]
    for write in writes:
        story.call(INSERT, 0, Raw(write_spelling(write)), marked=False)
    one_by_one = story.call(LOOK_MEMTABLE, name="a look")
    for place in range(2):
        story.call(FLUSH, marked=False)
        story.call(KEEP_MADE, place, marked=False)
        if place == 0:
            story.clock(INSERT_ALL, Raw(writes_spelling(writes)))
            same_look = story.call(LOOK_MEMTABLE, name="a look")
    story.check("tests/clocked.py, memtables", lambda: wants(same_look.data, one_by_one.data, "the memtable"))
    are_same = story.call(SAME, 0, 1)
    story.check("tests/clocked.py, memtables", lambda: wants(are_same.flag(), True, "the runs are the same"))
    refused = story.call(INSERT_ALL, Raw(writes_spelling(writes[3:5] + writes[4:6])), marked=False)
    story.check("tests/clocked.py, memtables", lambda: wants(refused.is_made, False, "writes that don't rise are taken"))
    return story


def batch_of(writes: List[Write]) -> bytes:
    """A batch of puts and merges, as a log has it."""
    head = writes[0].seq.to_bytes(8, "little") + len(writes).to_bytes(4, "little")
    return head + b"".join(bytes([2 if one.kind == MERGE else 1, len(one.first)]) + one.first + bytes([len(one.second)]) + one.second
                           for one in writes)


def log_of(writes: List[Write]) -> bytes:
    """The log of puts and merges in batches of ten, which a story of its own makes."""
    story = Story(DESK, "append")
    batches = [batch_of(writes[first : first + 10]) for first in range(0, len(writes), 10)]
    made = story.call(ADD_RECORDS, len(batches), Raw(b"".join(text(batch) for batch in batches)))
    failures = story.play()
    assert not failures, failures
    return made.bytes()


def logs(refuse: bool) -> Story:
    """A log has as many writes as it was made of. One that is at fault has none."""
    story = Story(DESK, "append", refuse)
    writes = [write for write in drawn_writes(300, 2) if write.kind != DELETE]
    writes = [Write(seq, one.kind, one.first, one.second) for seq, one in enumerate(writes, 1)]
    log = log_of(writes)
    counted = story.call(COUNT_ALL, log, name="count")
    story.check("tests/clocked.py, logs", lambda: wants(counted.number(), len(writes), "the number of writes"))
    both(story, "logs", COUNT_ALL, log)
    both(story, "logs", READ_ALL, 0, log)
    both(story, "logs", READ_LOG, log, times=2)
    damaged = story.call(COUNT_ALL, log[:30] + bytes([log[30] ^ 1]) + log[31:], marked=False)
    story.check("tests/clocked.py, logs", lambda: wants(damaged.is_made, False, "a log at fault is counted"))
    return story


class Told(NamedTuple):
    """Of a look at a store the number of runs, and the next id."""

    runs: int
    next_id: int


def told(look: Reply) -> Told:
    runs = look.number()
    for _ in range(runs):
        look.numbers(8)
    look.numbers()
    look.number()
    return Told(runs, look.number())


def asked(shop: Shop, writes: List[Write], clocks: bool) -> Reply:
    """Lookups of all keys at the last sequence."""
    queries = [Get(b"k%02d" % place, writes[-1].seq) for place in range(40)]
    values = (2, 3, len(queries), Raw(b"".join(query_spelling(query) for query in queries)))
    return shop.clock(ASK, *values) if clocks else shop.call(ASK, *values, name="ask", marked=False)


def settled(refuse: bool, workers: int) -> Shop:
    """Compactions until nothing is picked each take an id, and change no answer. A store is opened, fed and asked by the clock as
    without it."""
    shop = Shop("append", refuse)
    writes = drawn_writes(400, 3)
    options = Options(memtable=120)
    opening = Raw(number(ALONE) + open_spelling(0, options, [], b"", writes[:300]))
    same(shop, "stores", shop.clock(OPEN, opening, times=2), shop.call(OPEN, opening, name="open", marked=False))
    fed = shop.clock(FEED, Raw(writes_spelling(writes[300:])))
    shop.check("tests/clocked.py, stores", lambda: wants(fed.number(), 11, "what feeds answer"))
    kept = shop.clock(KEEP)
    shop.check("tests/clocked.py, stores", lambda: wants(kept.numbers(2), [13, 400], "what is kept"))
    plain = asked(shop, writes, clocks=False)
    before = shop.call(LOOK, name="look", marked=False)
    count = shop.call(SETTLE, workers, name="settle", marked=False)
    after = shop.call(LOOK, name="look", marked=False)
    picked = shop.call(PICK, marked=False)
    again = shop.clock(SETTLE, workers)
    same(shop, "stores", asked(shop, writes, clocks=True), plain)
    released = shop.clock(RELEASE, 400)

    def check() -> None:
        number_of, old, new = count.number(), told(before), told(after)
        wants(number_of > 0 and new.runs < old.runs, True, "anything is compacted")
        wants(new.next_id - old.next_id, number_of, "how many ids compactions took")
        wants(picked.numbers(2), [8, 0], "what is picked then")
        wants(again.number(), 0, "how much is compacted once more")
        wants(released.numbers(2), [14, 400], "what is released")

    shop.check("tests/clocked.py, stores", check)
    return shop


def fed_alike(refuse: bool) -> Shop:
    """The same writes are answered the same, however many of them are fed at once, with compactions in between."""
    shop = Shop("append", refuse)
    shop.marks = False
    writes = drawn_writes(400, 4)
    answers: List[Tuple[int, Reply]] = []
    for size in (1, 10, 100, 400):
        shop.call(OPEN, Raw(number(ALONE) + open_spelling(0, Options(memtable=120), [], b"", [])))
        for first in range(0, len(writes), size):
            shop.clock(FEED, Raw(writes_spelling(writes[first : first + size])))
            shop.clock(SETTLE, ALONE)
        shop.call(KEEP)
        answers.append((size, asked(shop, writes, clocks=False)))

    def check() -> None:
        for size, reply in answers:
            wants(reply.data, answers[0][1].data, f"the answers after feeds of {size}")
        wants(answers[0][1].numbers(2), [10, 40], "how many answers there are")

    shop.check("tests/clocked.py, feeds", check)
    return shop


def stories(refuse: bool) -> List[Story]:
    found: List[Story] = [make(refuse) for make in (effects, checksums, memtables, logs)]
    return found + [settled(refuse, workers) for workers in (ALONE, THREADS)] + [fed_alike(refuse)]


def play(refuse: bool) -> Tuple[int, List[str], int]:
    """Plays all. Returns the number of cases, what is wrong, and how many requests were refused."""
    failures: List[str] = []
    count = refused = 0
    for story in stories(refuse):
        failures += story.play()
        count += len(story.checks)
        refused += story.refused
    return count, failures, refused
