"""Plays the cases of one owner's stores in `cases/store`, whose README has the commands.

Each case is played in every way to open a store and to work with it. All have to print the same and to hold the same runs; and what is
asked, also of each key at each snapshot after each case, has to be what the plain writes say.
"""

import re
from pathlib import Path
from typing import Callable, Dict, Iterable, List, NamedTuple, Optional, Sequence, Tuple

from asking import Answer, Get, Query, Scan, answer_in, answer_of, query_spelling
from cases import Case, compare, read_cases, rewrite
from logs import batches_of, log_of
from model import OPERATORS, Write
from play import TOP, Raw, Reply, number, spelled, wants
from shop import ABANDON, ALONE, ANSWER, APART, ASK, BUSY, CLAIM, COMPACT, ERRORS, FEED, INSTALL, KEEP, LOOK, MAKE, NUMBER, OPEN, PARTS
from shop import PICK_AMONG, PLACE, REFUSE, RELEASE, REPORT, SHOW, THREADS, Call, Options, Shop, Stopped, apart_spelling, ask_call, call_of, listed, look_in
from shop import numbers_of, open_spelling, picked_words, reply_words, writes_of

FOLDER = TOP / "tests" / "cases" / "store"

KNOWN = {
    "open": list(Options._fields) + ["keeps", "writes", "batch", "cut", "logged"],
    "picks": list(Options._fields),
}


class Way(NamedTuple):
    """How a store is opened, who works for it, and whether each list of calls is made at once."""

    name: str
    opens: int
    workers: int
    at_once: bool = False


# All ways. What the others say is compared with what the first does.
WAYS = [
    Way("alone", 0, ALONE),
    Way("at once", 0, ALONE, True),
    Way("from a log, and by parts", 5, PARTS),
    Way("from a log that threads end", 1, THREADS),
    Way("from a log that threads begin", 2, THREADS),
    Way("from a log in pieces", 3, THREADS),
    Way("from the first writes of a log", 4, THREADS),
]

# Numbers of workers, each of which answers pieces of each of these numbers of queries.
WORKERS, PIECES = (2, 3, 7, 64), (1, 2, 7, 8, 2**64 - 1)

# The number of runs that are shown after a case, the newest first.
MOST_SHOWN = 16

# In stores of more writes no memory is refused.
MOST_REFUSED = 20

# The number of queries that are asked after a case with memory refused.
FEW_QUERIES = 8

Printed = Callable[[], List[str]]


class Setup(NamedTuple):
    """The source of a store: the first writes stand in a log, which may be torn, and the others follow it."""

    options: Options
    keeps: List[int]
    writes: List[Write]
    logged: int
    log: bytes
    torn: Optional[int]


def setup_of(options: Options, keeps: List[int], writes: List[Write], logged: int, batch: int, cut: int) -> Setup:
    """The writes that a cut log lost are lost."""
    log, ends = log_of(writes[:logged], batch)
    if not cut:
        return Setup(options, keeps, writes, logged, log, None)
    log = log[: len(log) - cut]
    whole = [end for end in ends if end <= len(log)]
    kept = sum(len(one) for one in batches_of(writes[:logged], batch)[: len(whole)])
    torn = whole[-1] if whole else 0
    return Setup(options, keeps, writes[:kept], kept, log, torn if torn < len(log) else None)


def options_of(case: Case) -> Options:
    usual = Options()
    return Options(*(case.number(key, getattr(usual, key)) for key in Options._fields))


def setup_in(case: Case) -> Setup:
    count = case.number("writes", len(case.input))
    writes: List[Write] = []
    for place in range(count if case.input else 0):
        writes += writes_of(case.input[place % len(case.input)], writes[-1].seq if writes else 0)
    if case.has("writes"):
        writes = writes[:count]
    logged = case.number("logged", len(writes))
    return setup_of(options_of(case), case.numbers("keeps"), writes, logged, case.number("batch", 1), case.number("cut", 0))


class Plain:
    """The writes that a store was given, and the sequences that it keeps."""

    def __init__(self, writes: Sequence[Write], keeps: Iterable[int]) -> None:
        self.writes = list(writes)
        self.keeps = set(keeps) | {self.last()}

    def last(self) -> int:
        return self.writes[-1].seq if self.writes else 0

    def takes(self, call: Call, is_fed: bool) -> None:
        """A call that changes a store: a feed that is taken, a snapshot, or its release."""
        if call.kind == FEED and is_fed:
            self.writes += call.writes
        elif call.kind == KEEP:
            self.keeps.add(self.last())
        elif call.kind == RELEASE:
            self.keeps.discard(int(call.spelling))

    def queries(self) -> List[Query]:
        """The queries of each key: its value, and the rows from it on, up to it, and two of them; where reads are protected, and not."""
        keys = sorted({write.first for write in self.writes})
        found: List[Query] = []
        for at in sorted(self.keeps | {self.last(), self.last() + 1}):
            for key in keys:
                found += [Get(key, at), Scan(b"", key, at, 2**64 - 1), Scan(key, None, at, 2)]
        return found


def is_stopped(call: Call) -> bool:
    """Whether a call asks queries as they can't be asked."""
    if call.kind != ASK:
        return False
    workers, piece = (int(word) for word in call.spelling.split()[:2])
    return not 1 <= workers <= 64 or piece == 0


class Stories:
    """The stores of a file, one after the other, in one way."""

    def __init__(self, operator: str, way: Way, refuse: bool = False, demands: bool = True) -> None:
        self.shop, self.way, self.demands = Shop(operator, refuse), way, demands
        self.operator = OPERATORS[operator]
        self.plain: Optional[Plain] = None
        self.printed: Dict[str, List[str]] = {}
        # The store at the end of each case, in answers' bytes.
        self.ends: Dict[str, List[Reply]] = {}

    def add(self, case: Case) -> None:
        case.allow(KNOWN.get(case.command, []))
        printed = getattr(self, "add_" + case.command)(case)

        def check() -> None:
            self.printed[case.where] = printed()
            compare(case, self.printed[case.where])

        self.shop.check(f"{case.where}, {self.way.name}", check)
        if case.command in ("open", "calls", "steps") and self.plain is not None:
            self.end(case.where)

    def end(self, where: str) -> None:
        """After a case the version is looked at, runs are shown, and in the first way each key is read."""
        self.ends[where] = [self.shop.call(LOOK, name="look", marked=False)]
        self.ends[where] += [self.shop.call(SHOW, place, name="show", marked=False) for place in range(MOST_SHOWN)]
        if self.demands and self.way == WAYS[0]:
            self.demand(where)

    def demand(self, where: str) -> None:
        plain = self.plain
        writes, keeps, last = list(plain.writes), set(plain.keeps), plain.last()
        queries = plain.queries()
        if self.shop.refuse:
            queries = queries[:: len(queries) // FEW_QUERIES + 1]
        asked = [(query, self.shop.call(ANSWER, Raw(query_spelling(query)), name=f"{query}")) for query in queries]

        def check() -> None:
            for query, reply in asked:
                wanted = answer_of(self.operator, writes, keeps, query)
                wants(answer_in(reply), wanted, reply.name)
                unasked = answer_in(reply)
                if wanted[0] != "not protected":
                    wants(unasked, wanted, f"{reply.name} without a look at snapshots")
                at_last = answer_of(self.operator, writes, keeps | {last}, query if isinstance(query, Scan) else query._replace(at=last))
                wants(answer_in(reply), at_last, f"{reply.name} at the last sequence")

        self.shop.check(where, check)

    def open(self, setup: Setup, is_opened: bool) -> Tuple[Reply, Optional[Reply]]:
        """Opens a store. Returns the answer, and a look at the store if it is opened."""
        has_log = self.way.opens != 0
        writes = setup.writes[setup.logged :] if has_log else setup.writes
        log = setup.log if has_log else b""
        spelling = number(self.way.workers) + open_spelling(self.way.opens, setup.options, setup.keeps, log, writes)
        self.shop.marks = len(setup.writes) <= MOST_REFUSED
        opened = self.shop.call(OPEN, Raw(spelling), name="open")
        self.plain = Plain(setup.writes, setup.keeps) if is_opened else None
        return opened, self.shop.call(LOOK, name="look", marked=False) if is_opened else None

    def opened_words(self, setup: Setup, opened: Reply, look: Optional[Reply]) -> List[str]:
        if self.way.opens:
            ended = (opened.number(), opened.number()) if setup.torn is not None else opened.number()
            wants(ended, (1, setup.torn) if setup.torn is not None else 0, "how far the log is read")
        line = look_in(look).words() if opened.flag() and look else "refused: " + opened.bytes().decode()
        return [line] + ([f"the log is torn at {setup.torn}"] if setup.torn is not None else [])

    def add_open(self, case: Case) -> Printed:
        setup = setup_in(case)
        opened, look = self.open(setup, not case.expected[:1] or not case.expected[0].startswith("refused"))
        return lambda: self.opened_words(setup, opened, look)

    def add_calls(self, case: Case) -> Printed:
        feeds = re.findall(r"\b(not fed|fed) ?", "\n".join(case.expected).replace("not fed:", "not fed "))
        return self.add_lines(case.input, [feed == "fed" for feed in feeds], self.way.at_once)

    def add_steps(self, case: Case) -> Printed:
        feeds = re.findall(r"\b(not fed|fed) ?", "\n".join(case.expected).replace("not fed:", "not fed "))
        return self.add_lines(case.input, [feed == "fed" for feed in feeds], False)

    def add_lines(self, lines: Sequence[str], fed: List[bool], at_once: bool) -> Printed:
        """Calls and steps in lines. `fed` has which feeds are taken."""
        if at_once:
            return self.add_list(lines, fed)
        made: List[List[Callable[[], str]]] = []
        names, is_over = set(), False
        for line in lines:
            made.append([])
            for part in [] if is_over else line.split(";"):
                names |= set(re.findall(r"^ *claim (\d+)", part))
                step, is_over = self.add_step(part.strip(), fed)
                made[-1].append(step)
                if is_over:
                    break
        for name in sorted(names):
            self.shop.call(ABANDON, int(name), name="give back", marked=False)

        def printed() -> List[str]:
            try:
                return "\n".join("; ".join(step() for step in steps) for steps in made).split("\n")
            except Stopped as why:
                return [str(why)]

        return printed

    def add_step(self, part: str, fed: List[bool]) -> Tuple[Callable[[], str], bool]:
        """A call or a step. Returns what prints it, and whether it ends the list."""
        verb, _, rest = part.partition(" ")
        look = getattr(self, "step_" + verb, None)
        if look:
            return look(rest.split()), False
        call = call_of(part, self.plain.last())
        self.shop.marks = len(self.plain.writes) + len(call.writes) <= MOST_REFUSED
        reply = self.shop.make_call(call, part)
        is_fed = call.kind == FEED and (fed.pop(0) if fed else not call.writes or call.writes[0].seq > self.plain.last())
        self.demand_answers(part, call)
        self.plain.takes(call, is_fed)
        wanted = self.answers_to(call)

        def printed() -> str:
            words, answers = reply_words(reply)
            wants(answers, wanted if answers or wanted else [], f"answers to {part}")
            return words

        return printed, is_stopped(call)

    def answers_to(self, call: Call) -> List[Answer]:
        """The answers of the plain writes to the queries of a call."""
        if is_stopped(call):
            return []
        return [answer_of(self.operator, self.plain.writes, self.plain.keeps, query) for query in call.queries]

    def demand_answers(self, part: str, call: Call) -> None:
        """Where the store works by parts, other numbers of workers have to give the same answers."""
        if self.way.workers != PARTS or call.kind != ASK or is_stopped(call) or not self.demands:
            return
        wanted = self.answers_to(call)
        replies = [self.shop.make_call(ask_call(call.queries, workers, piece), part) for workers in WORKERS for piece in PIECES]

        def check() -> None:
            for reply in replies:
                wants(reply_words(reply)[1], wanted, "more workers")

        self.shop.check(part, check)

    def add_list(self, lines: Sequence[str], fed: List[bool]) -> Printed:
        """Makes the calls of lines at once."""
        calls, ends, last = [], [], self.plain.last()
        for line in lines:
            for part in line.split(";"):
                calls.append(call_of(part, last))
                if calls[-1].writes:
                    last = max(last, calls[-1].writes[-1].seq)
            ends.append(len(calls))
        reply = self.shop.make_list(calls)
        for call in calls:
            if is_stopped(call):
                break
            is_fed = call.kind == FEED and (fed.pop(0) if fed else not call.writes or call.writes[0].seq > self.plain.last())
            self.plain.takes(call, is_fed)

        def printed() -> List[str]:
            kind = reply.number()
            if kind == 20:
                return ["stopped: " + reply.bytes().decode()]
            words = [reply_words(reply)[0] for _ in range(reply.number())]
            starts = [0] + ends
            return "\n".join("; ".join(words[start:end]) for start, end in zip(starts, ends)).split("\n")

        return printed

    def step_version(self, _: List[str]) -> Callable[[], str]:
        reply = self.shop.call(LOOK, name="version", marked=False)
        return lambda: look_in(reply).words()

    def step_make(self, words: List[str]) -> Callable[[], str]:
        terms = b"0 "
        if words[1:2] == ["for"]:
            terms = number(1) + spelled(numbers_of(words[2])) + number(int(words[3:] == ["oldest"]))
        made = self.shop.call(MAKE, int(words[0]), Raw(terms), name="make")
        return lambda: "made" if made.is_made else "not made"

    def step_busy(self, words: List[str]) -> Callable[[], str]:
        reply = self.shop.call(BUSY, int(words[0]), name="busy")
        return lambda: "busy" if reply.flag() else "free"

    def step_number(self, words: List[str]) -> Callable[[], str]:
        reply = self.shop.call(NUMBER, int(words[0]), name="number")
        return lambda: f"number {reply.number()}"

    def step_apart(self, words: List[str]) -> Callable[[], str]:
        reply = self.shop.call(APART, Raw(apart_spelling(int(words[0]))), name="apart")

        def pair(read: Callable[[], object]) -> str:
            return f"({str(read()).lower()}, {str(read()).lower()})"

        return lambda: f"numbers {pair(reply.number)}, own {pair(reply.flag)}, foreign {pair(reply.flag)}"

    def step_place(self, words: List[str]) -> Callable[[], str]:
        ids = numbers_of(words[0])
        reply = self.shop.call(PLACE, ids, name="place")
        return lambda: f"{listed(ids)} at {reply.number()}" if reply.flag() else f"{listed(ids)} nowhere"

    def step_replace(self, words: List[str]) -> Callable[[], str]:
        oldest = int(words[3:] == ["oldest"])
        reply = self.shop.call(REFUSE, numbers_of(words[0]), numbers_of(words[1]), int(words[2]), oldest, name="replace")
        return lambda: reply.bytes().decode() or "fits"

    def add_picks(self, case: Case) -> Printed:
        replies = []
        for line in case.input:
            words = [word for word in line.split() if word != "-"]
            runs = [number(int(word.rstrip("*"))) + number(int(word.endswith("*"))) for word in words]
            replies.append(pick_among(self.shop, options_of(case), b"".join(runs), len(runs)))
        return lambda: [picked_words(reply) for reply in replies]

    def add_errors(self, case: Case) -> Printed:
        reply = self.shop.call(ERRORS, name="errors")
        return lambda: [reply.bytes().decode() for _ in case.expected]


def pick_among(shop: Shop, options: Options, runs: bytes, count: int) -> Reply:
    return shop.call(PICK_AMONG, Raw(b"".join(number(one) for one in options) + number(count) + runs), name="pick")


def same_ends(first: Stories, other: Stories) -> List[str]:
    """Where a way ends a case with another version than the first."""
    failures = []
    for where, replies in first.ends.items():
        ends = [(reply.status, reply.data) for reply in replies]
        if where in other.ends and ends != [(reply.status, reply.data) for reply in other.ends[where]]:
            failures.append(f"{where}: {other.way.name} the store is another than {first.way.name}")
    return failures


# The calls that have to be refused memory somewhere.
REFUSES = {OPEN, CLAIM, MAKE, INSTALL, COMPACT, REPORT, ASK, ANSWER, FEED, KEEP, RELEASE, APART, PLACE, REFUSE, PICK_AMONG}


def played(path: Path, way: Way, refuse: bool) -> Tuple[Stories, List[str]]:
    stories = Stories("append", way, refuse)
    for case in read_cases(path):
        stories.add(case)
    return stories, stories.shop.play()


def play(refuse: bool = False) -> Tuple[int, List[str], int]:
    """Plays all files. Returns how many cases there are, what is wrong, and how many requests were refused."""
    count, failures, refused = 0, [], 0
    for path in sorted(FOLDER.glob("*.txt")):
        count += len(read_cases(path))
        first = None
        for way in [WAYS[0], WAYS[2], WAYS[3]] if refuse else WAYS:
            stories, wrong = played(path, way, refuse)
            failures += wrong
            refused += stories.shop.refused
            if first is not None and not wrong:
                failures += same_ends(first, stories)
            first = first or stories
    return count, failures, refused


def rewrite_all() -> None:
    """Puts what the first way prints now into the files. Read the difference: what is printed has to be worked out."""
    for path in sorted(FOLDER.glob("*.txt")):
        stories, _ = played(path, WAYS[0], False)
        rewrite(path, stories.printed)
