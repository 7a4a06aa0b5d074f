"""Plays calls by the program `calls`, and reads its answers.

A story is the calls of one run of the program, over what its scene has. Each call that is added gives a `Reply`, which has the
answer once the story is played; what is to be checked then is added as a function:

    story = Story(DESK, "append")
    effect = story.call(LOOK_UP, 0, b"k", 9)
    story.check("a.txt:3", lambda: wants(effect.effect(), ("set", b"v")))
    failures = story.play()

Each request for memory that a call makes can be refused (`refuse=True`): the program then makes the call again and again, with one
request refused after the other, until it has an answer, and looks each time at all that it has. Each of these answers has to be
either want of memory, with all as it was before, or the right one. `faults/refuse.c` refuses the requests, which needs glibc.

A call that is added by `clock` is made once or several times. Its reply has the last answer, and the nanoseconds of them all.
"""

import mmap
import os
import random
import re
import struct
import subprocess
import tempfile
from pathlib import Path
from typing import Callable, Dict, List, NamedTuple, Optional, Sequence, Set, Tuple, Union

TOP = Path(__file__).resolve().parent.parent
PROGRAM = os.environ.get("CALLS") or str(TOP / "crates" / "calls" / "out" / "calls")

# Which answer is wrong on purpose, if one is.
PLANTED = os.environ.get("PLANTED", "")

DESK, SHOP, SLOTS, HALL, SHEET = 0, 1, 2, 3, 4

# Append and counter have a desk and a sheet, the first three and tail4 a shop, and the others a sheet alone.
OPERATORS = {"append": 0, "counter": 1, "maximum": 2, "tail0": 3, "tail1": 4, "tail4": 5, "tail1000": 6}

MADE, MEMORY, REFUSED = 0, 1, 2
ONCE, LOOKS, MARKED, CLOCKED = 0, 1, 2, 3

# The most requests of one call.
MOST_REQUESTS = 20_000

Value = Union[int, bytes, bool, Sequence[int]]


class Wrong(Exception):
    """Why what came isn't right."""


def number(value: int) -> bytes:
    return b"%d " % value


def text(value: bytes) -> bytes:
    return b"%d %s " % (len(value), value)


def some(value: Optional[bytes]) -> bytes:
    return b"0 " if value is None else b"1 " + text(value)


def spelled(value: Union[Value, None]) -> bytes:
    """A number, bytes, or a list of numbers, as a call has it."""
    if isinstance(value, bytes):
        return text(value)
    if isinstance(value, int):
        return number(value)
    return number(len(value)) + b"".join(number(one) for one in value)


class Raw(NamedTuple):
    """Parts of a call that are spelled already."""

    spelling: bytes


class Reply:
    """The answer to a call. Its numbers and bytes are read in turn."""

    def __init__(self, name: str) -> None:
        self.name = name
        self.status: Optional[int] = None
        # The time of the call, if it was clocked.
        self.nanoseconds: Optional[int] = None
        self.data = b""
        self.place = 0

    def fill(self, status: int, data: bytes) -> None:
        self.status, self.data, self.place = status, data, 0

    @property
    def is_made(self) -> bool:
        if self.status == MEMORY:
            raise Wrong(f"{self.name}: memory ran out")
        return self.status == MADE

    def number(self) -> int:
        if not self.is_made:
            raise Wrong(f"{self.name} is refused")
        end = self.data.find(b" ", self.place)
        if end < 0:
            raise Wrong(f"{self.name}: the answer is short")
        value = int(self.data[self.place : end])
        self.place = end + 1
        return value

    def flag(self) -> bool:
        return self.number() != 0

    def bytes(self) -> bytes:
        length = self.number()
        value = self.data[self.place : self.place + length]
        self.place += length + 1
        if len(value) < length:
            raise Wrong(f"{self.name}: the answer is short")
        return value

    def some(self) -> Optional[bytes]:
        return self.bytes() if self.flag() else None

    def numbers(self, count: Optional[int] = None) -> List[int]:
        return [self.number() for _ in range(self.number() if count is None else count)]

    def effect(self) -> Tuple:
        kind = self.number()
        return (("keep",), ("clear",), ("set",), ("fold",))[kind] + ((self.bytes(),) if kind > 1 else ())

    def is_read(self) -> bool:
        return self.place == len(self.data)


class Frame(NamedTuple):
    """A call as it is made: whether it may be marked, looks or is clocked, what it says, which begins with its kind, its answer, and how
    often it is made if it is clocked."""

    way: int
    body: bytes
    reply: Reply
    times: int = 1

    @property
    def kind(self) -> int:
        return int(self.body.split(b" ", 1)[0])


# Calls that were refused memory so far, by their kind and by the first word of their name.
REFUSED_CALLS: Set[Union[int, str]] = set()


class Answer(NamedTuple):
    status: int
    data: bytes


def answers_in(output: bytes) -> List[Answer]:
    """The answers that the program prints."""
    answers, place = [], 0
    head = re.compile(rb"(\d+) (\d+) ")
    while place < len(output):
        found = head.match(output, place)
        if not found:
            raise Wrong(f"the program prints {output[place : place + 40]!r}")
        end = found.end() + int(found[2])
        answers.append(Answer(int(found[1]), output[found.end() : end]))
        place = end + 1
    return answers


def nanoseconds_in(answer: Optional[Answer], name: str) -> int:
    """The time of a call, as the answer after its own tells it."""
    if answer is None or answer.status != MADE:
        raise Wrong(f"{name}: the clock has no answer")
    return int(answer.data)


def is_changeable(answer: Answer) -> bool:
    """Whether the last byte that an answer tells can be changed, so that it tells something else."""
    return answer.data[-2:-1].isalnum()


def place_to_plant(answers: List[Answer]) -> Optional[int]:
    """Where `PLANTED` asks for a wrong answer: the longest one; the first look after memory ran out; or what is answered then."""
    if PLANTED == "answer":
        places = sorted(range(len(answers)), key=lambda place: -len(answers[place].data))
    else:
        places = [place + (1 if PLANTED == "look" else 2) for place, answer in enumerate(answers) if answer.status == MEMORY]
    return next((place for place in places if place < len(answers) and is_changeable(answers[place])), None)


def planted(answers: List[Answer]) -> List[Answer]:
    """The answers, one of them wrong if that is asked for: the last byte that it tells is another."""
    place = place_to_plant(answers) if PLANTED else None
    if place is None:
        return answers
    status, data = answers[place]
    wrong = Answer(status, data[:-2] + bytes([data[-2] ^ 1]) + data[-1:])
    return answers[:place] + [wrong] + answers[place + 1 :]


_refuser: Dict[str, str] = {}


def refuser() -> str:
    """The library that refuses requests, built once."""
    if not _refuser:
        folder = tempfile.mkdtemp(prefix="calls-")
        path = os.path.join(folder, "refuse.so")
        subprocess.run(["cc", "-O2", "-shared", "-fPIC", "-o", path, str(TOP / "faults" / "refuse.c")], check=True)
        _refuser["path"] = path
    return _refuser["path"]


def run_program(calls: bytes) -> bytes:
    ran = subprocess.run([PROGRAM], input=calls, stdout=subprocess.PIPE, stderr=subprocess.PIPE)
    if ran.returncode:
        raise Wrong(f"the program ends with the status {ran.returncode}: {ran.stderr[-300:]!r}")
    return ran.stdout


# The most marked calls whose requests one run can count.
COUNTS = 1 << 20


def run_refused(calls: bytes) -> Tuple[bytes, List[int]]:
    """As `run_program`, with requests refused. Also how many each marked call made, each time it was made."""
    with tempfile.NamedTemporaryFile() as file:
        file.truncate(8 * (COUNTS + 1))
        told = {"LD_PRELOAD": refuser(), "REFUSE_TOLD": "1", "REFUSE_COUNT": file.name}
        ran = subprocess.run([PROGRAM], input=calls, stdout=subprocess.PIPE, stderr=subprocess.PIPE, env={**os.environ, **told})
        with mmap.mmap(file.fileno(), 0, access=mmap.ACCESS_READ) as page:
            made = struct.unpack_from("<Q", page, 0)[0]
            counts = list(struct.unpack_from(f"<{made}Q", page, 8))
    if ran.returncode:
        raise Wrong(f"the program ends with the status {ran.returncode}: {ran.stderr[-300:]!r}")
    return ran.stdout, counts


class Story:
    """Calls in turn, and what is checked once they are made."""

    def __init__(self, scene: int, operator: str, refuse: bool = False, look: Optional[Tuple[Value, ...]] = None) -> None:
        self.scene, self.operator, self.refuse = scene, operator, refuse
        self.look = look
        # Whether calls are marked now, if requests are refused.
        self.marks = True
        self.frames: List[Frame] = []
        self.checks: List[Tuple[str, Callable[[], None]]] = []
        # The number of requests for memory that were refused.
        self.refused = 0

    def call(self, kind: int, *values: Union[Value, Raw], name: str = "", marked: bool = True) -> Reply:
        """Adds a call. Unless it isn't to be marked, its requests for memory are refused if the story's are."""
        parts = (value.spelling if isinstance(value, Raw) else spelled(value) for value in values)
        reply = Reply(name or f"call {kind}")
        body = number(kind) + b"".join(parts)
        is_marked = self.refuse and self.marks and marked
        if is_marked and self.look is not None:
            look = b"".join(spelled(value) for value in self.look)
            self.frames.append(Frame(LOOKS, look, Reply("a look")))
        self.frames.append(Frame(MARKED if is_marked else ONCE, body, reply))
        return reply

    def clock(self, kind: int, *values: Union[Value, Raw], times: int = 1, name: str = "") -> Reply:
        """Adds a call that is clocked, and made `times` times."""
        parts = (value.spelling if isinstance(value, Raw) else spelled(value) for value in values)
        reply = Reply(name or f"call {kind}")
        self.frames.append(Frame(CLOCKED, number(kind) + b"".join(parts), reply, times))
        return reply

    def check(self, where: str, function: Callable[[], None]) -> None:
        """Adds what is checked in the end: a function that raises `Wrong`."""
        self.checks.append((where, function))

    def spelling(self, first: Dict[int, int]) -> bytes:
        """All calls. Of a marked one the first request to be refused is the first, or another."""
        calls = [number(self.scene), number(OPERATORS[self.operator])]
        for place, frame in enumerate(self.frames):
            way = number(frame.way)
            if frame.way == MARKED:
                way += number(first.get(place, 1))
            elif frame.way == CLOCKED:
                way += number(frame.times)
            calls.append(b"%d %s%s\n" % (len(way) + len(frame.body), way, frame.body))
        return b"".join(calls)

    def fill(self, answers: List[Answer]) -> List[Tuple[int, int]]:
        """Gives each call its answer. Returns how often each marked call was made, at its place."""
        attempts, ahead, look = [], iter(answers), None
        for place, frame in enumerate(self.frames):
            answer = next(ahead, None)
            made = 1
            while frame.way == MARKED and answer is not None and answer.status == MEMORY:
                if look is not None and next(ahead, None) != look:
                    raise Wrong(f"{frame.reply.name}: memory ran out at request {made}, and what there is has changed")
                answer = next(ahead, None)
                made += 1
            if answer is None:
                raise Wrong(f"{frame.reply.name} has no answer")
            if frame.way == LOOKS:
                look = answer
            if frame.way == MARKED:
                attempts.append((place, made))
            frame.reply.fill(*answer)
            if frame.way == CLOCKED:
                frame.reply.nanoseconds = nanoseconds_in(next(ahead, None), frame.reply.name)
        if next(ahead, None) is not None and self.scene != SLOTS:
            raise Wrong("there are more answers than calls")
        return attempts

    def made(self, first: Dict[int, int]) -> List[Tuple[int, int]]:
        """Plays the calls once. Returns which were right although a request was refused, and that request."""
        if not self.refuse:
            self.fill(planted(answers_in(run_program(self.spelling(first)))))
            return []
        output, counts = run_refused(self.spelling(first))
        survived, used = [], 0
        for place, made in self.fill(planted(answers_in(output))):
            start = first.get(place, 1)
            self.refused += made - 1
            used += made
            if made > 1:
                frame = self.frames[place]
                REFUSED_CALLS.update((frame.kind, frame.reply.name.split()[0]))
            if counts[used - 1] >= start + made - 1:
                self.refused += 1
                survived.append((place, start + made - 1))
        return survived

    def checked(self) -> List[str]:
        failures = []
        for where, function in self.checks:
            try:
                function()
            except Wrong as why:
                failures.append(f"{where}: {why}")
        return failures

    def play(self) -> List[str]:
        """Plays the story, and returns what is wrong. Where a call is right although a request was refused, the story is played once
        more, with the next request refused."""
        first: Dict[int, int] = {}
        try:
            while True:
                survived = self.made(first)
                failures = self.checked()
                if failures or not survived:
                    return failures
                for place, request in survived:
                    first[place] = request + 1
                    if request > MOST_REQUESTS:
                        raise Wrong(f"{self.frames[place].reply.name} asks for memory without end")
        except Wrong as why:
            return [f"{self.checks[0][0] if self.checks else 'a story'}: {why}"]


def wants(came: object, wanted: object, what: str = "") -> None:
    """Raises `Wrong` unless both are the same."""
    if came != wanted:
        raise Wrong(f"{what + ': ' if what else ''}{came!r} came, and {wanted!r} is right")


def seeded(seed: int) -> random.Random:
    """Draws that are the same each time."""
    return random.Random(seed)
