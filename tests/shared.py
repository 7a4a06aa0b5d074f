"""Plays the cases of stores that threads share in `cases/share`, whose README has the commands. All happens in one thread; what several do
at once stands in `uc_tests_threads`.

What is asked is answered by each way that there is, and has to be what the plain writes say.
"""

from typing import Callable, Dict, List, Tuple

from asking import Answer, Get, Query, Scan, answer_in, answer_of, query_spelling
from cases import Case, compare, read_cases, rewrite
from model import DELETE, KINDS, OPERATORS, PUT, Write
from play import HALL, TOP, Raw, Reply, Story, number, spelled, wants
from shop import Options, Version, numbers_of, version_in, writes_spelling

FOLDER = TOP / "tests" / "cases" / "share"

KNOWN = ["puts", "keeps", "memtable", "first_id", "readers", "seats"]

(LOOK_AT_ALL, PIN, LOOK, PICK, BUSY, CLAIM, COMPACT, MAKE, INSTALL, ABANDON, DROP, TURN, FEED, KEEP, RELEASE, ASK_PIN, ASK) = range(17)

# The number of a pin that is only asked.
ASKED = 1000

# The most workers that are tried, and of queries in a piece.
MOST_WORKERS, PIECES = 7, (1, 2, 7, 8)

# In stores of more writes no memory is refused.
MOST_REFUSED = 20

MOST_SLOTS = 256

# A function that prints a line, once the program has answered.
Line = Callable[[], str]


def key_of(word: str) -> bytes:
    return b"" if word == "-" else word.encode()


def query_of(line: str) -> Query:
    """`get KEY SEQUENCE`, or `scan LOW HIGH LIMIT SEQUENCE`."""
    verb, *words = line.split()
    if verb == "get":
        return Get(key_of(words[0]), int(words[1]))
    high = None if words[1] == "-" else words[1].encode()
    return Scan(key_of(words[0]), high, int(words[3]), int(words[2]))


def parts_of(words: str) -> List[str]:
    return [part for part in (part.strip() for part in words.split(";")) if part]


def write_of(line: str) -> Write:
    seq, verb, *words = line.split()
    kind = KINDS[verb]
    return Write(int(seq), kind, words[0].encode(), b"" if kind == DELETE else words[1].encode())


def queries_spelling(queries: List[Query]) -> bytes:
    return number(len(queries)) + b"".join(query_spelling(query) for query in queries)


def version_words(version: Version) -> str:
    """A version in a line: its runs with their slots and sequences, or how many there are if these are many."""
    runs = "".join(f" {one.id}@{one.slot}[{one.sums[0]}-{one.sums[1]}]" for one in version.runs)
    begun = f"{len(version.runs)} runs" if len(version.runs) > 8 else f"runs{runs}"
    keeps = "".join(f" {keep}" for keep in version.keeps)
    return f"{begun}, keeps{keeps}, last {version.last}, next id {version.next_id}"


def pin_words(reply: Reply) -> str:
    return f"{version_words(version_in(reply))}, events {reply.number()}"


def answer_words(answer: Answer) -> str:
    kind, told = answer
    if kind == "rows":
        return " ".join(f"{key.decode()}={value.decode()}" for key, value in told) or "no rows"
    if kind == "value":
        return "no value" if told is None else told.decode()
    return f"{told} isn't protected"


def answers_words(answers: List[Answer]) -> str:
    return "; ".join(answer_words(answer) for answer in answers) or "no answers"


def done_or_refused(reply: Reply, done: Callable[[Reply], str]) -> str:
    return done(reply) if reply.flag() else f"refused: {reply.bytes().decode()}"


def turn_words(reply: Reply) -> str:
    came = ("Idle", "Installed", "Late")[reply.number()]
    return came if came != "Late" else f"Late({reply.bytes().decode()})"


def answers_in(reply: Reply) -> List[Answer]:
    return [answer_in(reply) for _ in range(reply.number())]


class Hall:
    """The story of a case: a store, its readers and places, and pins and compactions under names."""

    def __init__(self, case: Case, refuse: bool) -> None:
        case.allow(KNOWN)
        self.case, self.story = case, Story(HALL, "append", refuse)
        self.names: Dict[str, int] = {}
        then = case.input.index("then") if "then" in case.input else len(case.input)
        puts = [Write(seq, PUT, b"k", b"a") for seq in range(1, case.number("puts", 0) + 1)]
        self.writes = puts or [write_of(line) for line in case.input[:then]]
        self.readers = case.number("readers", 2)
        self.story.marks = len(self.writes) <= MOST_REFUSED
        self.lines = self.opened() + [self.step(place, line) for place, line in enumerate(case.input[then + 1 :])]
        self.printed: List[str] = []
        self.story.check(case.where, self.check)

    def check(self) -> None:
        self.printed = [line for line in (line() for line in self.lines) if line]
        compare(self.case, self.printed)

    def opened(self) -> List[Line]:
        """Opens the store, and gives it a name."""
        case = self.case
        options = Options(memtable=case.number("memtable", 1), trigger=2, percent=25, first_id=case.number("first_id", 1))
        seats = case.number("seats", 2)
        given = b"".join(number(one) for one in options) + spelled(case.numbers("keeps")) + writes_spelling(self.writes)
        # Before the store has its name, no call looks at it.
        reply = self.story.call(self.readers, seats, Raw(given), name="open")

        def line() -> str:
            if reply.flag():
                return version_words(version_in(reply))
            return f"refused: {reply.bytes().decode()}"

        if case.expected[:1] and case.expected[0].startswith("refused"):
            return [line]
        self.story.call(LOOK_AT_ALL, name="name")
        self.story.marks = True
        self.story.look = (LOOK_AT_ALL,)
        return [line, lambda: f"{self.readers} readers, {seats} seats"]

    def named(self, name: str) -> int:
        return self.names.setdefault(name, len(self.names))

    def step(self, place: int, line: str) -> Line:
        """A line of the case, which says who does what."""
        who, verb, words = (line.split(" ", 2) + ["", ""])[:3]
        came = getattr(self, "step_" + verb.replace("-", "_"))(int(who) - 1, words, self.came(line, place))
        return lambda: f"{line}: {came()}"

    def came(self, line: str, place: int) -> str:
        """The outcome of a line by its case, so that the plain writes are those that the store took."""
        expected = self.case.expected[2 + place : 3 + place]
        return expected[0][len(line) + 2 :] if expected else ""

    def step_pin(self, who: int, name: str, _: str) -> Line:
        reply = self.story.call(PIN, who, int(bool(name)), self.named(name) if name else 0, name="pin")
        return lambda: pin_words(reply)

    def step_look(self, who: int, name: str, _: str) -> Line:
        reply = self.story.call(LOOK, self.named(name), name="look")
        return lambda: pin_words(reply)

    def step_pick(self, who: int, name: str, _: str) -> Line:
        reply = self.story.call(PICK, who, self.named(name), name="pick")
        return lambda: f"{reply.number()} {reply.number()}" if reply.flag() else "nothing"

    def step_busy(self, who: int, words: str, _: str) -> Line:
        reply = self.story.call(BUSY, who, name="busy")
        return lambda: "slots" + "".join(f" {slot}" for slot in range(MOST_SLOTS) if reply.flag())

    def step_claim(self, who: int, words: str, _: str) -> Line:
        name, first, count = words.split()
        reply = self.story.call(CLAIM, who, self.named(name), int(first), int(count), name="claim")
        return lambda: done_or_refused(reply, lambda _: "claimed")

    def made_words(self, reply: Reply) -> str:
        count, oldest, keeps = reply.number(), reply.flag(), reply.numbers()
        return f"{count} runs, {'the oldest, ' if oldest else ''}keeps" + "".join(f" {keep}" for keep in keeps)

    def step_compact(self, who: int, name: str, _: str) -> Line:
        reply = self.story.call(COMPACT, who, self.named(name), name="compact")
        return lambda: self.made_words(reply)

    def step_make(self, who: int, words: str, _: str) -> Line:
        made, name, first, count, keeps, *oldest = words.split()
        stretch = (int(first), int(count))
        is_oldest = int(oldest == ["oldest"])
        reply = self.story.call(MAKE, self.named(made), self.named(name), *stretch, numbers_of(keeps), is_oldest, name="make")
        return lambda: self.made_words(reply)

    def step_install(self, who: int, name: str, _: str) -> Line:
        reply = self.story.call(INSTALL, who, self.named(name), name="install")
        return lambda: done_or_refused(reply, lambda _: "installed")

    def step_abandon(self, who: int, name: str, _: str) -> Line:
        reply = self.story.call(ABANDON, who, self.named(name), name="abandon")
        return lambda: "abandoned" if reply.is_made else "not abandoned"

    def step_drop(self, who: int, words: str, _: str) -> Line:
        reply = self.story.call(DROP, who, name="drop")
        return lambda: "dropped" if reply.is_made else "not dropped"

    def step_turn(self, who: int, words: str, _: str) -> Line:
        reply = self.story.call(TURN, who, name="turn")
        return lambda: done_or_refused(reply, turn_words)

    def step_feed(self, who: int, words: str, came: str) -> Line:
        writes = [write_of(part) for part in parts_of(words)]
        reply = self.story.call(FEED, who, Raw(writes_spelling(writes)), name="feed")
        if not came.startswith("refused"):
            self.writes = self.writes + writes
        return lambda: done_or_refused(reply, lambda reply: f"{reply.number()} runs")

    def step_keep(self, who: int, words: str, _: str) -> Line:
        reply = self.story.call(KEEP, who, name="keep")
        return lambda: done_or_refused(reply, lambda reply: str(reply.number()))

    def step_release(self, who: int, words: str, _: str) -> Line:
        reply = self.story.call(RELEASE, who, int(words), name="release")
        return lambda: done_or_refused(reply, lambda _: "released")

    def asked(self, queries: List[Query], pin: Reply, replies: List[Reply]) -> Line:
        """The queries of a pinned version, which has to be what is answered from all that had been written then."""
        writes = self.writes

        def line() -> str:
            version = version_in(pin)
            known = [write for write in writes if write.seq <= version.last]
            wanted = [answer_of(OPERATORS["append"], known, version.keeps, query) for query in queries]
            for reply in replies:
                wants((reply.flag(), answers_in(reply)), (True, wanted), reply.name)
            return answers_words(wanted)

        return line

    def step_ask(self, who: int, words: str, _: str) -> Line:
        """Asks what is shown, also by each number of workers."""
        queries = [query_of(part) for part in parts_of(words)]
        pin = self.story.call(PIN, who, 1, ASKED, name="pin")
        replies = [self.story.call(ASK_PIN, ASKED, Raw(queries_spelling(queries)), name="ask a pin")]
        by_workers = []
        for workers in range(1, min(self.readers, MOST_WORKERS) + 1):
            for piece in PIECES:
                by_workers.append(self.ask_by(workers, piece, queries))
        line = self.asked(queries, pin, replies + by_workers)

        def came() -> str:
            for reply in by_workers:
                self.come_back(reply, False)
            return line()

        return came

    def come_back(self, reply: Reply, is_foretold: bool) -> None:
        """Checks that a refusal is foretold, and that all readers come back."""
        wants((reply.flag(), reply.number()), (is_foretold, self.readers), f"{reply.name}: readers")

    def ask_by(self, workers: int, piece: int, queries: List[Query]) -> Reply:
        return self.story.call(ASK, workers, piece, Raw(queries_spelling(queries)), name=f"ask by {workers} in pieces of {piece}")

    def step_ask_pin(self, who: int, words: str, _: str) -> Line:
        name, _, rest = words.partition(" ")
        queries = [query_of(part) for part in parts_of(rest)]
        pin = self.story.call(LOOK, self.named(name), name="look")
        return self.asked(queries, pin, [self.story.call(ASK_PIN, self.named(name), Raw(queries_spelling(queries)), name="ask a pin")])

    def step_ask_by(self, who: int, words: str, came: str) -> Line:
        workers, piece, rest = (words.split(" ", 2) + [""])[:3]
        queries = [query_of(part) for part in parts_of(rest)]
        reply = self.ask_by(int(workers), int(piece), queries)
        is_refused = came.startswith("refused")

        def line() -> str:
            self.come_back(reply, is_refused)
            return done_or_refused(reply, lambda reply: answers_words(answers_in(reply)))

        return line


# The calls that have to be refused memory somewhere.
REFUSES = {"open", "name", "pin", "claim", "compact", "make", "install", "turn", "feed", "keep", "release", "ask"}


def play(refuse: bool = False) -> Tuple[int, List[str], int]:
    """Plays all files. Returns how many cases there are, what is wrong, and how many requests were refused."""
    halls = [Hall(case, refuse) for path in sorted(FOLDER.glob("*.txt")) for case in read_cases(path)]
    failures = [line for hall in halls for line in hall.story.play()]
    return len(halls), failures, sum(hall.story.refused for hall in halls)


def rewrite_all() -> None:
    """Puts what is printed now into the files. Read the difference: what is printed has to be worked out."""
    for path in sorted(FOLDER.glob("*.txt")):
        halls = [Hall(case, False) for case in read_cases(path)]
        for hall in halls:
            hall.story.play()
        rewrite(path, {hall.case.where: hall.printed for hall in halls})
