"""`Shop`: the calls of a store of one owner, by name; how the files of cases spell them; and what is printed."""

import re
from typing import List, NamedTuple, Sequence, Tuple

from asking import Answer, Get, Query, Scan, answer_in, query_spelling
from desk import write_spelling
from model import DELETE, KINDS, Write
from play import SHOP, Raw, Reply, Story, Wrong, number, spelled, text

(OPEN, LOOK, SHOW, CLAIM, MAKE, INSTALL, ABANDON, COMPACT, PICK, REPORT, ASK, ANSWER, FEED, KEEP, RELEASE) = range(15)
(BUSY, NUMBER, APART, PLACE, REFUSE, PICK_AMONG, LIST, MERGE, ERRORS) = range(15, 24)

# The workers of a store.
ALONE, THREADS, PARTS = 0, 1, 2

MOST_SLOTS = 256


class Options(NamedTuple):
    """A store's options, and what is usual."""

    memtable: int = 4 << 20
    trigger: int = 4
    ratio: int = 1
    percent: int = 200
    least: int = 2
    greatest: int = 2**32 - 1
    first_id: int = 1


def bytes_of(word: str, of_percent: int = 0) -> bytes:
    """The bytes that a word spells: text, `""` for none, or hexadecimal. In text `%` is a number in two digits."""
    if word == '""':
        return b""
    if word.startswith("0x"):
        return bytes.fromhex(word[2:])
    if not word:
        raise Wrong("a word is missing")
    return word.replace("%", f"{of_percent:02}").encode()


def spell(value: bytes) -> str:
    if not value:
        return '""'
    return value.decode() if re.fullmatch(rb"[0-9A-Za-z,]*", value) else "0x" + value.hex()


def listed(numbers: Sequence[int]) -> str:
    return ",".join(str(one) for one in numbers) or "-"


def numbers_of(word: str) -> List[int]:
    return [int(one) for one in word.split(",") if one != "-"]


def writes_of(line: str, before: int) -> List[Write]:
    """The writes of a line: `put k a + 9 merge k b + *3 range a c`. Each follows the one before it, or has the number that is said."""
    writes: List[Write] = []
    for part in filter(None, (part.strip() for part in line.split("+"))):
        words = part.split()
        seq = (writes[-1].seq if writes else before) + 1
        if words[0].isdigit():
            seq = int(words.pop(0))
        times = int(words.pop(0)[1:]) if words[0].startswith("*") else 1
        kind = KINDS[words[0]]
        for one in range(seq, seq + times):
            second = b"" if kind == DELETE else bytes_of(words[2] if len(words) > 2 else '""', one)
            writes.append(Write(one, kind, bytes_of(words[1], one), second))
    return writes


def query_of(line: str) -> Query:
    verb, *words = line.split()
    if verb == "get":
        return Get(bytes_of(words[0]), int(words[1]))
    high = None if words[1] == "-" else bytes_of(words[1])
    return Scan(bytes_of(words[0]), high, int(words[2]), int(words[3]))


class Call(NamedTuple):
    """A call of a list: its kind, how it is spelled after that, and what it asks or feeds."""

    kind: int
    spelling: bytes
    queries: Tuple[Query, ...] = ()
    writes: Tuple[Write, ...] = ()


def writes_spelling(writes: Sequence[Write]) -> bytes:
    return number(len(writes)) + b"".join(write_spelling(write) for write in writes)


def ask_call(queries: Sequence[Query], workers: int, piece: int) -> Call:
    asked = b"".join(query_spelling(query) for query in queries)
    return Call(ASK, number(workers) + number(piece) + number(len(queries)) + asked, tuple(queries))


def call_of(line: str, last: int) -> Call:
    """The call that a line spells, to a store with this last sequence."""
    verb, _, rest = line.strip().partition(" ")
    words = rest.split()
    if verb in ("get", "scan"):
        return ask_call([query_of(line)], 1, 1)
    if verb == "ask":
        queries = [query_of(one) for one in " ".join(words[2:]).split("+") if one.strip()]
        return ask_call(queries, int(words[0]), 2**64 - 1 if words[1] == "all" else int(words[1]))
    if verb == "feed":
        writes = writes_of(rest, last)
        return Call(FEED, writes_spelling(writes), writes=tuple(writes))
    kinds = {"claim": CLAIM, "install": INSTALL, "abandon": ABANDON, "compact": COMPACT, "pick": PICK, "report": REPORT}
    kinds.update({"keep": KEEP, "release": RELEASE})
    return Call(kinds[verb], b"".join(number(int(word)) for word in words))


def answer_words(answer: Answer) -> str:
    kind, told = answer
    if kind == "rows":
        return "rows" + "".join(f" {spell(key)}={spell(value)}" for key, value in told)
    if kind == "value":
        return "no value" if told is None else f"value {spell(told)}"
    return f"not protected {told}"


def fields_of(reply: Reply) -> str:
    """Fields, each with a space before it."""
    found = ""
    for _ in range(reply.number()):
        name = reply.bytes().decode()
        found += f" {name} " + " ".join(str(one) for one in reply.numbers())
    return found


def report_words(reply: Reply) -> str:
    lines = [f"run {reply.number()}{fields_of(reply)}" for _ in range(reply.number())]
    lines.append(f"total runs {len(lines)}{fields_of(reply)}")
    return "\n".join(lines + [f"keeps {listed(reply.numbers())}", f"last {reply.number()}"])


def picked_words(reply: Reply) -> str:
    return f"picked {reply.number()} {reply.number()}" if reply.flag() else "nothing is picked"


# How replies are printed that tell a number, and before the library's text of an error.
NUMBERED = {0: "claimed {}", 2: "installed {}", 4: "abandoned {}", 5: "no claim {}", 6: "name {} is held", 7: "compacted {}"}
NUMBERED.update({11: "fed {}", 13: "kept {}", 14: "released {}"})
REFUSED = {1: "refused: ", 3: "not installed: ", 12: "not fed: ", 15: "refused: ", 20: "stopped: "}


class Stopped(Exception):
    """Why a list of calls ends: queries can't be asked so."""


def reply_words(reply: Reply) -> Tuple[str, List[Answer]]:
    """The line of a reply, and the answers in it."""
    kind = reply.number()
    if kind in NUMBERED:
        return NUMBERED[kind].format(reply.number()), []
    if kind in REFUSED:
        words = REFUSED[kind] + reply.bytes().decode()
        if kind == 20:
            raise Stopped(words)
        return words, []
    if kind == 8:
        return picked_words(reply), []
    if kind == 9:
        return report_words(reply), []
    if kind != 10:
        raise Wrong(f"a reply of the kind {kind}")
    answers = [answer_in(reply) for _ in range(reply.number())]
    return " + ".join(answer_words(answer) for answer in answers) or "no answers", answers


class Placed(NamedTuple):
    """A run of a version: its id and slot, and what it says of itself."""

    id: int
    slot: int
    sums: Tuple[int, ...]


class Version(NamedTuple):
    """The state that a store reports: runs, keeps, last sequence, next id and size of memtables, and which slots are claimed."""

    runs: Tuple[Placed, ...]
    keeps: Tuple[int, ...]
    last: int
    next_id: int
    limit: int
    busy: Tuple[bool, ...] = ()

    def words(self) -> str:
        runs = [f" {one.id} in {one.slot}," for one in self.runs]
        if len(runs) > 6:
            runs = runs[:3] + [" .."] + runs[-3:]
        return f"runs {len(self.runs)}:{''.join(runs)} keeps {listed(self.keeps)}, last {self.last}, next id {self.next_id}"


def version_in(reply: Reply) -> Version:
    runs = tuple(Placed(reply.number(), reply.number(), tuple(reply.numbers(6))) for _ in range(reply.number()))
    return Version(runs, tuple(reply.numbers()), reply.number(), reply.number(), reply.number())


def look_in(reply: Reply) -> Version:
    version = version_in(reply)
    return version._replace(busy=tuple(reply.flag() for _ in range(MOST_SLOTS)))


class Shop(Story):
    """A story of one owner's stores, one after the other."""

    def __init__(self, operator: str = "append", refuse: bool = False) -> None:
        super().__init__(SHOP, operator, refuse, (LOOK,))

    def make_call(self, call: Call, name: str = "", marked: bool = True) -> Reply:
        return self.call(call.kind, Raw(call.spelling), name=name or f"call {call.kind}", marked=marked)

    def make_list(self, calls: Sequence[Call]) -> Reply:
        """Makes calls at once."""
        spelling = b"".join(number(call.kind) + call.spelling for call in calls)
        return self.call(LIST, len(calls), Raw(spelling), name="a list of calls", marked=False)


def open_spelling(way: int, options: Options, keeps: Sequence[int], log: bytes, writes: Sequence[Write]) -> bytes:
    """The source of a store, after its workers."""
    return number(way) + b"".join(number(one) for one in options) + spelled(list(keeps)) + text(log) + writes_spelling(writes)


def apart_spelling(name: int) -> bytes:
    """A claim, and another store: three merges, the first run of which has the id 100."""
    options = Options(memtable=1, first_id=100)
    return number(name) + open_spelling(0, options, [], b"", writes_of("*3 merge k v", 0))
