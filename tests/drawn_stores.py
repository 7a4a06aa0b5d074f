"""Drawn stores of one owner in all ways, beside the plain writes; and drawn picks, beside a slow program that goes rule by rule."""

from random import Random
from typing import List, NamedTuple, Optional, Sequence, Tuple

from desk import run_shown
from model import DELETE, MERGE, PUT, RANGE, Write, compacted, flushed
from owner import WAYS, Setup, Stories, pick_among, same_ends, setup_of
from play import Reply, number, seeded, wants
from shop import MERGE as MERGE_CALL
from shop import Options, Shop

KEYS = [b"a", b"b", b"bb", b"c"]

# Under how many drawn sets of keeps a stretch is compacted.
KEEPS = 8


def drawn_options(draws: Random) -> Options:
    """Memtables of one to six writes or so, and a trigger, a ratio and a percentage of any size."""
    return Options(1 + draws.randrange(60), 1 + draws.randrange(6), draws.randrange(200), draws.randrange(300))


def drawn_writes(draws: Random, count: int) -> List[Write]:
    """Of eight a put, a delete, two range deletions and four merges, with gaps between their sequences."""
    writes, seq = [], 0
    for _ in range(count):
        seq += 1 + draws.randrange(2)
        kind = draws.choice([PUT, DELETE, RANGE, RANGE, MERGE, MERGE, MERGE, MERGE])
        second = draws.choice(KEYS) if kind == RANGE else b"" if kind == DELETE else bytes([draws.randrange(97, 123)])
        writes.append(Write(seq, kind, draws.choice(KEYS), second))
    return writes


def drawn_setup(draws: Random, most: int) -> Setup:
    """Up to a number of writes, of which the store keeps some sequences, or all."""
    writes = drawn_writes(draws, draws.randrange(most + 1))
    last = writes[-1].seq if writes else 0
    some = [draws.randrange(last + 1) for _ in range(draws.randrange(4))]
    keeps = list(range(last + 1)) if draws.randrange(3) == 0 else some
    return setup_of(drawn_options(draws), keeps, writes, draws.randrange(len(writes) + 1), 1 + draws.randrange(4), 0)


def memtables_of(options: Options, writes: Sequence[Write]) -> List[List[Write]]:
    """Writes in memtables: one is full with the write that brings it to its size."""
    tables: List[List[Write]] = []
    size = options.memtable
    for write in writes:
        if size >= options.memtable:
            tables.append([])
            size = 0
        tables[-1].append(write)
        size += write.size()
    return tables


def drawn_key(draws: Random) -> str:
    return draws.choice(["a", "b", "bb", "c", '""'])


def drawn_feed(draws: Random, last: int) -> str:
    """Up to four writes, with gaps between their sequences."""
    seq, parts = last, []
    for _ in range(draws.randrange(5)):
        seq += 1 + draws.randrange(3)
        first, second = drawn_key(draws), drawn_key(draws)
        text = second.strip('"') + str(seq)
        said = [f"put {first} {text}", f"delete {first}", f"range {first} {second}"] + 3 * [f"merge {first} {text}"]
        parts.append(f"{seq} {draws.choice(said)}")
    return "feed " + " + ".join(parts)


def drawn_batch(draws: Random, last: int) -> str:
    """Up to twenty lookups and scans, at sequences up to the one after the last."""
    queries = []
    for _ in range(draws.randrange(21)):
        at, limit = max(0, last + 1 - draws.randrange(4)), draws.randrange(6)
        low, high = drawn_key(draws), drawn_key(draws)
        queries.append(draws.choice([f"scan {low} {high} {at} {limit}", f"scan {low} - {at} {limit}"] + 2 * [f"get {low} {at}"]))
    return f"ask {1 + draws.randrange(8)} {1 + draws.randrange(9)} " + " + ".join(queries)


def drawn_call(draws: Random, last: int) -> str:
    name, first, count = draws.randrange(3), draws.randrange(8), draws.randrange(6)
    said = 4 * [drawn_feed(draws, last)] + ["keep", f"release {draws.randrange(last + 3)}"] + 3 * [f"claim {name} {first} {count}"]
    said += 2 * [f"install {name}"] + [f"abandon {name}", f"compact {first} {count}", "pick", "report", drawn_batch(draws, last)]
    return draws.choice(said)


class Drawn(NamedTuple):
    """A drawn store, and the lists of calls that it is given."""

    setup: Setup
    lists: List[List[str]]


def drawn_store(draws: Random, most: int, lists: int) -> Drawn:
    setup = drawn_setup(draws, most)
    last, said = setup.writes[-1].seq if setup.writes else 0, []
    for _ in range(lists):
        # All calls of a list are to a store with this last sequence, so some feeds are refused.
        said.append([drawn_call(draws, last) for _ in range(draws.randrange(9))])
        last = max([last] + [int(part.split()[0]) for line in said[-1] if line.startswith("feed ") for part in line[5:].split(" + ") if part])
    return Drawn(setup, [lines for lines in said if lines])


def add_stretches(stories: Stories, setup: Setup, draws: Random, where: str) -> None:
    """Each stretch of a store that compacted nothing so far is compacted beside it, under drawn keeps, and as the oldest runs if it has
    them. The run that it becomes is the one that the definition gives."""
    operator, shop = stories.operator, stories.shop
    runs = [flushed(table) for table in memtables_of(setup.options, setup.writes)][::-1]
    last = setup.writes[-1].seq if setup.writes else 0
    for first in range(len(runs)):
        for count in range(1, len(runs) - first + 1):
            for place in range(KEEPS):
                keeps = sorted({draws.randrange(last + 1) for _ in range(draws.randrange(4))})
                for oldest in (False, True) if first + count == len(runs) else (False,):
                    reply = shop.call(MERGE_CALL, first, count, keeps, int(oldest), name="merge", marked=False)
                    wanted = compacted(operator, runs[first : first + count], keeps, oldest)
                    shop.check(where, lambda reply=reply, wanted=wanted: wants(run_shown(reply)[0], wanted, "a stretch"))


def play_store(drawn: Drawn, operator: str, where: str, seed: int) -> List[str]:
    """Plays a drawn store in all ways: all say the same, and the first way what the plain writes say."""
    failures: List[str] = []
    first, first_said = None, []
    for way in WAYS:
        stories = Stories(operator, way)
        said: List[List[str]] = []
        opened, look = stories.open(drawn.setup, True)
        stories.shop.check(where, lambda s=stories, o=opened, k=look, said=said: said.append(s.opened_words(drawn.setup, o, k)))
        stories.end(where)
        if way == WAYS[0]:
            add_stretches(stories, drawn.setup, seeded(seed), where)
        for place, lines in enumerate(drawn.lists):
            printed = stories.add_lines(lines, [], way.at_once)
            stories.shop.check(f"{where}, list {place}, {way.name}", lambda printed=printed, said=said: said.append(printed()))
            stories.end(f"{where}, list {place}")
        failures += stories.shop.play()
        if first is None:
            first, first_said = stories, said
        elif said != first_said:
            failures.append(f"{where}: {way.name} it says {said}, and {first.way.name} {first_said}")
        else:
            failures += same_ends(first, stories)
    return failures


def sum_of(runs: Sequence[Tuple[int, bool]]) -> int:
    return sum(size for size, _ in runs)


def may_be_collected(options: Options, runs: Sequence[Tuple[int, bool]]) -> bool:
    for place, (size, claimed) in enumerate(runs):
        if claimed or (place > 0 and size * 100 > (options.ratio + 100) * sum_of(runs[:place])):
            return False
    return options.least <= len(runs) <= options.greatest


def stretches(count: int) -> List[Tuple[int, int]]:
    """All stretches of a number of runs: from the newest on, and of each the longest first."""
    return [(first, length) for first in range(count) for length in range(count - first, 0, -1)]


def slow_pick(options: Options, runs: Sequence[Tuple[int, bool]]) -> Optional[Tuple[int, int]]:
    """The runs to compact next: all runs, if the newer ones are too large for the oldest; else the first that are alike in size, as many
    as possible; else two or more unclaimed ones, cut to what is needed."""
    count = len(runs)
    if count < options.trigger or not runs:
        return None
    are_free = not any(claimed for _, claimed in runs)
    if count >= 2 and are_free and runs[-1][0] * options.percent < sum_of(runs[:-1]) * 100:
        return 0, count
    for first, length in stretches(count):
        if may_be_collected(options, runs[first : first + length]):
            return first, length
    most = min(count - options.trigger + 1, options.greatest)
    for first, length in stretches(count):
        if count > options.trigger and length >= 2 and not any(claimed for _, claimed in runs[first : first + length]):
            return first, min(length, most)
    return None


def play_picks(rounds: int, seed: int) -> Tuple[int, List[str]]:
    draws, shop = seeded(seed), Shop()
    for place in range(rounds):
        least = 2 + draws.randrange(2)
        options = Options(
            trigger=1 + draws.randrange(4),
            ratio=draws.randrange(120),
            percent=draws.randrange(400),
            least=least,
            greatest=least + draws.randrange(4),
        )
        runs = [(draws.randrange(60), draws.randrange(6) == 0) for _ in range(place % 9)]
        spelling = b"".join(number(size) + number(int(claimed)) for size, claimed in runs)
        reply = pick_among(shop, options, spelling, len(runs))
        wanted = slow_pick(options, runs)

        def check(reply: Reply = reply, wanted: Optional[Tuple[int, int]] = wanted) -> None:
            wants((reply.number(), reply.number()) if reply.flag() else None, wanted, "what is picked")

        shop.check(f"tests/drawn_stores.py, pick {place} of {runs} with {options}", check)
    return rounds, shop.play()


# Operators, and of how many stores how many writes at most are drawn.
STORES = [("append", 13), ("counter", 5), ("maximum", 8), ("tail4", 9)]
SIZES = [(45, 8), (5, 40)]


def play(refuse: bool = False) -> Tuple[int, List[str], int]:
    """Plays all. Returns how many stores and picks there are, what is wrong, and how many requests were refused: none."""
    count, failures = play_picks(3000, 1)
    for operator, seed in STORES:
        draws = seeded(seed)
        for stores, most in SIZES:
            for place in range(stores):
                drawn = drawn_store(draws, most, 4)
                failures += play_store(drawn, operator, f"tests/drawn_stores.py, {operator}, store {place} of {most} writes", seed)
                count += 1
    return count, failures, 0
