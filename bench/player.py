"""Calls of the libraries by the clock, for the scripts of the benchmarks: stories that the player crates/calls makes.

The player makes the calls of a story (tests/play.py), and says how long those took that are clocked: the library's work alone, and
not how a call is spelled. It is crates/calls/out/calls, which `rt run` in crates/calls builds, or the one that CALLS names.
"""

import struct
import sys
from pathlib import Path
from typing import Iterable, Iterator, List, NamedTuple, Tuple

TOP = Path(__file__).resolve().parent.parent
sys.dont_write_bytecode = True
sys.path.insert(0, str(TOP / "tests"))

import peak  # noqa: E402, after the path that it is found by
from asking import Answer, Get, Query, Scan, answer_in, query_spelling  # noqa: E402, after the path that they are found by
from play import PROGRAM, SHOP, Raw, Reply, Story, answers_in, number, text  # noqa: E402
from shop import ALONE, ASK, LOOK, OPEN, THREADS, Options  # noqa: E402

# Calls of a store that only these scripts make.
SETTLE = 24

# A log that the calling thread reads.
ALONE_READS = 5

WORD = 2**64 - 1


class Numbers:
    """A row of numbers by SplitMix64 (Steele, Lea and Flood, 2014)."""

    def __init__(self, seed: int) -> None:
        self.state = seed

    def next(self) -> int:
        self.state = (self.state + 0x9E37_79B9_7F4A_7C15) & WORD
        mixed = ((self.state ^ (self.state >> 30)) * 0xBF58_476D_1CE4_E5B9) & WORD
        mixed = ((mixed ^ (mixed >> 27)) * 0x94D0_49BB_1331_11EB) & WORD
        return mixed ^ (mixed >> 31)

    def below(self, bound: int) -> int:
        return self.next() % bound


def fail(why: str) -> None:
    sys.exit(f"{sys.argv[0]}: {why}")


def run(calls: bytes) -> Tuple[bytes, int]:
    """Runs the player. Returns its output, and the most memory that it held, in KiB."""
    status, said, kib = peak.run(PROGRAM, calls)
    if status:
        fail(f"the player ends with the status {status}")
    return said, kib


def play(story: Story) -> int:
    """Plays a story, and gives each call its answer. Returns the most memory that the player held, in KiB."""
    said, kib = run(story.spelling({}))
    story.fill(answers_in(said))
    return kib


def kib_unplayed(story: Story) -> int:
    """The most memory that the player holds where it reads the same calls and makes none of them."""
    calls = story.spelling({})
    scene, operator, rest = calls.split(b" ", 2)
    return run(b"%s %s %d 0 9999 %s " % (scene, operator, len(rest) + 7, rest))[1]


def open_log(story: Story, log: bytes, options: Options, keeps: Iterable[int] = ()) -> Reply:
    """Opens a store from a log, which one thread reads and flushes. Threads compact it."""
    said = b"".join(number(one) for one in options)
    listed = list(keeps)
    keeping = number(len(listed)) + b"".join(number(one) for one in listed)
    return story.clock(OPEN, Raw(number(THREADS) + number(ALONE_READS) + said + keeping + text(log) + number(0)), name="open")


def ask(story: Story, queries: List[Query], workers: int = 1, piece: int = 16) -> Reply:
    """Asks queries as one batch."""
    asked = b"".join(query_spelling(query) for query in queries)
    return story.clock(ASK, Raw(number(workers) + number(piece) + number(len(queries)) + asked), name="ask")


def answers_of(reply: Reply) -> List[Answer]:
    """The answers to a batch."""
    kind = reply.number()
    if kind != 10:
        fail(f"a batch is answered by {kind}")
    return [answer_in(reply) for _ in range(reply.number())]


def with_bytes(checksum: int, data: bytes) -> int:
    for byte in data:
        checksum = (checksum * 31 + byte) & WORD
    return checksum


def with_answer(checksum: int, answer: Answer) -> int:
    """A checksum and then an answer: the bytes that it shows, and the number of its kind."""
    kind, told = answer
    if kind == "rows":
        for key, value in told:
            checksum = with_bytes(with_bytes(checksum, key), value)
        number_of_kind = 2
    elif kind == "value":
        checksum = with_bytes(checksum, told or b"")
        number_of_kind = 0 if told is None else 1
    else:
        number_of_kind = 3
    return (checksum * 31 + number_of_kind) & WORD


class Look(NamedTuple):
    """The number of a store's runs, and of their points and bytes together."""

    runs: int
    points: int
    size: int


def look(story: Story) -> Reply:
    return story.call(LOOK, name="look")


def look_of(reply: Reply) -> Look:
    runs = points = size = 0
    for _ in range(reply.number()):
        _id, _slot, _low, _high, of_run, _blocks, _fragments, bytes_of_run = reply.numbers(8)
        runs, points, size = runs + 1, points + of_run, size + bytes_of_run
    return Look(runs, points, size)


def key_of(place: int) -> bytes:
    """The key with a number, as `make_log` spells it."""
    return b"account/%08d" % place


def last_of(log: bytes, options: Options) -> int:
    """The last sequence of a log."""
    story = Story(SHOP, "counter")
    open_log(story, log, options)
    looked = look(story)
    play(story)
    for _ in range(looked.number()):
        looked.numbers(8)
    looked.numbers()
    return looked.number()


def lookups(numbers: Numbers, count: int, keys: int, at: int) -> List[Query]:
    """Lookups of drawn keys at a sequence."""
    return [Get(key_of(numbers.below(keys)), at) for _ in range(count)]


def scans(numbers: Numbers, count: int, keys: int, at: int) -> List[Query]:
    """Scans from drawn keys on, each for 1 to 50 rows."""
    found: List[Query] = []
    for _ in range(count):
        low = key_of(numbers.below(keys))
        found.append(Scan(low, None, at, numbers.below(50) + 1))
    return found


class Op(NamedTuple):
    """A change: its kind, as the player spells it, and its byte strings."""

    kind: int
    first: bytes
    second: bytes


KINDS_BY_BYTE = {ord("p"): 0, ord("d"): 1, ord("m"): 2, ord("r"): 3}


def ops_in(data: bytes) -> Iterator[Op]:
    """Changes as the baselines write them: a byte for the kind and two byte strings, each after its length of 4 bytes, low byte first."""
    place = 0
    while place < len(data):
        kind, length = struct.unpack_from("<BI", data, place)
        place += 5
        first = data[place : place + length]
        (more,) = struct.unpack_from("<I", data, place + length)
        place += length + 4
        yield Op(KINDS_BY_BYTE[kind], first, data[place : place + more])
        place += more


def op_spelling(op: Op) -> bytes:
    kind, first, second = op
    return b"%d %d %s %d %s " % (kind, len(first), first, len(second), second)


def writes_spelling(seq: int, ops: List[Op]) -> bytes:
    """Changes as writes with the sequences from one on, and before them how many they are."""
    return number(len(ops)) + b"".join(number(seq + place) + op_spelling(op) for place, op in enumerate(ops))
