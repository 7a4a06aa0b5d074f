"""Logs, their records and checksums, and batches of writes: what the program's `dump` doesn't show. What is right is written by `logs.py`,
from the formats' definitions."""

from random import Random
from typing import Callable, List, NamedTuple, Sequence, Tuple

from desk import Desk, op_spelling
from logs import BLOCK, FIRST, FULL, HEADER, LAST, MIDDLE, batch_of, crc32c, log_of_payloads, masked, record
from model import DELETE, MERGE, PUT, RANGE, Write
from play import Raw, Reply, number, seeded, text, wants

(SUM_UP, READ_LOG, WRITE_LOG, READ_BATCH, WRITE_BATCH, READ_WRITES) = range(60, 66)

TOP = 2**56 - 1


class Formats:
    """A story of calls that keep nothing, with a check for each."""

    def __init__(self, refuse: bool) -> None:
        self.desk = Desk("append", refuse)
        self.desk.look = None
        self.count = 0

    def row(self, what: str, kind: int, *values, wanted: object, read: Callable[[Reply], object]) -> None:
        self.count += 1
        reply = self.desk.call(kind, *values, name=what)
        self.desk.check(f"tests/formats.py, {what}", lambda: wants(read(reply), wanted))

    def refused(self, what: str, kind: int, *values) -> None:
        self.row(what, kind, *values, wanted=False, read=lambda reply: reply.is_made)


# Messages with their CRC-32C: RFC 3720, B.4, and the check value of the catalogue of CRCs.
SUMS: List[Tuple[bytes, int]] = [
    (b"", 0),
    (b"123456789", 0xE3069283),
    (bytes(32), 0x8A9136AA),
    (b"\xff" * 32, 0x62A8AB43),
    (bytes(range(32)), 0x46DD794E),
    (bytes(range(31, -1, -1)), 0x113FDB5C),
]


def add_sums(formats: Formats) -> None:
    messages = list(SUMS) + [(bytes([place % 251] * place), None) for place in (1, 7, 8, 9, 63, 64, 65, 1000)]
    for message, known in messages:
        wants(crc32c(message), crc32c(message) if known is None else known, "the checksum by Python")
        wanted = [crc32c(message), masked(crc32c(message)), crc32c(message)]
        formats.row(f"checksum of {len(message)} bytes", SUM_UP, message, wanted=wanted, read=lambda reply: reply.numbers(3))


def log_read(reply: Reply) -> Tuple[List[bytes], str]:
    return [reply.bytes() for _ in range(reply.number())], reply.bytes().decode()


# Lengths of payloads: none, one that ends a block with its header, one byte less and more, and of several blocks.
LENGTHS = [0, 1, 100, BLOCK - 2 * HEADER, BLOCK - HEADER - 1, BLOCK - HEADER, BLOCK - HEADER + 1, BLOCK, 3 * BLOCK + 17]


def payloads_of(lengths: Sequence[int]) -> List[bytes]:
    return [bytes([place + 1]) * length for place, length in enumerate(lengths)]


def add_logs(formats: Formats) -> None:
    """Payloads of each length, alone and after one that leaves little of a block, are written and read."""
    lists = [[length] for length in LENGTHS]
    lists += [[BLOCK - HEADER - left, length] for left in (0, 1, 6, 7, 8, 14, 15) for length in (0, 1, 20, BLOCK)]
    for lengths in lists + [LENGTHS, []]:
        payloads = payloads_of(lengths)
        log = log_of_payloads(payloads)
        listed = number(len(payloads)) + b"".join(text(payload) for payload in payloads)
        formats.row(f"the log of {lengths}", WRITE_LOG, Raw(listed), wanted=log, read=lambda reply: reply.bytes())
        formats.row(f"a read of {lengths}", READ_LOG, log, wanted=(payloads, "Clean"), read=log_read)


class Torn(NamedTuple):
    """A log that isn't whole: its payloads, and how it ends."""

    name: str
    log: bytes
    payloads: List[bytes]
    ending: str


def torn_logs() -> List[Torn]:
    one, two = record(FULL, b"one"), record(FULL, b"two")
    wrong = one[:-1] + b"f"
    begun, ended = record(FIRST, b"be"), record(LAST, b"gun")
    place = len(one)
    torn = [Torn(f"cut to {length}", (one + two)[:length], [b"one"], f"Torn({place})") for length in range(place + 1, 2 * place)]
    return torn + [
        Torn("whole", one + two, [b"one", b"two"], "Clean"),
        Torn("empty", b"", [], "Clean"),
        Torn("an unfinished payload", one + begun, [b"one"], f"Torn({place})"),
        Torn("a payload in parts", one + begun + record(MIDDLE, b"-") + ended, [b"one", b"be-gun"], "Clean"),
        Torn("a wrong checksum", one + wrong + two, [b"one"], f"Fault(BadChecksum, {place})"),
    ]


def add_torn_logs(formats: Formats) -> None:
    for case in torn_logs():
        formats.row(case.name, READ_LOG, case.log, wanted=(case.payloads, case.ending), read=log_read)


def writes_read(reply: Reply) -> object:
    """Writes, or the name of why there are none."""
    if not reply.flag():
        return reply.bytes().decode()
    return [Write(reply.number(), reply.number(), reply.bytes(), reply.bytes()) for _ in range(reply.number())]


EACH = [Write(7, PUT, b"a", b"1"), Write(8, DELETE, b"b"), Write(9, MERGE, b"", b"m" * 200), Write(10, RANGE, b"c", b"e")]

# A batch's bytes, the last sequence before it, and its writes or why it is refused.
BATCHES: List[Tuple[str, bytes, int, object]] = [
    ("each kind", batch_of(EACH), 0, EACH),
    ("above the last", batch_of(EACH), 6, EACH),
    ("at the last", batch_of(EACH), 7, "SequenceBack(7)"),
    ("no writes", (7).to_bytes(8, "little") + bytes(4), 0, []),
    ("too short", batch_of(EACH)[:11], 0, "TooShort"),
    ("a wrong count", batch_of(EACH)[:8] + b"\3\0\0\0" + batch_of(EACH)[12:], 0, "WrongCount"),
    ("cut", batch_of(EACH)[:-1], 0, f"Cut({len(batch_of(EACH)) - 5})"),
    ("a tag", batch_of(EACH)[:12] + b"\x63", 0, "BadTag(99, 12)"),
    ("the greatest sequence", batch_of([Write(TOP, PUT, b"k", b"v")]), TOP - 1, [Write(TOP, PUT, b"k", b"v")]),
    ("above the greatest sequence", batch_of([Write(TOP + 1, PUT, b"k", b"v")]), 0, "SequenceTooLarge"),
]


def changes(writes: Sequence[Write]) -> Raw:
    return Raw(number(len(writes)) + b"".join(op_spelling(write) for write in writes))


def add_batches(formats: Formats) -> None:
    for name, batch, last, wanted in BATCHES:
        formats.row(f"batch: {name}", READ_BATCH, last, batch, wanted=wanted, read=writes_read)
    for writes in (EACH, EACH[:1], [Write(TOP, PUT, b"", b"")], [Write(1, PUT, b"k" * 300, b"v" * 20_000)]):
        formats.row("a batch", WRITE_BATCH, writes[0].seq, changes(writes), wanted=batch_of(writes), read=lambda reply: reply.bytes())
    formats.refused("a batch from 0", WRITE_BATCH, 0, changes(EACH))
    formats.refused("a batch above the greatest sequence", WRITE_BATCH, TOP, changes(EACH))


def add_writes(formats: Formats) -> None:
    """The writes of a log in both modes: what is torn is let pass, and what is at fault only in one."""
    later = [Write(11, PUT, b"k", b"v")]
    one, two = record(FULL, batch_of(EACH)), record(FULL, batch_of(later))
    wrong, back = two[:-1] + b"w", record(FULL, batch_of(EACH[:1]))
    rows: List[Tuple[str, bytes, object, object]] = [
        ("whole", one + two, EACH + later, EACH + later),
        ("torn", one + two[:-1], EACH, EACH),
        ("a fault", one + wrong + two, f"Log(BadChecksum, {len(one)})", EACH),
        ("a batch back", one + back, "Batch(2, SequenceBack(10))", EACH),
        ("nothing", b"", [], []),
    ]
    for name, log, torn_tail, point_in_time in rows:
        for mode, wanted in enumerate((torn_tail, point_in_time)):
            formats.row(f"writes of a log, {name}, mode {mode}", READ_WRITES, mode, log, wanted=wanted, read=writes_read)


def drawn_batches(draws: Random) -> List[List[Write]]:
    batches, seq = [], 1
    for _ in range(draws.randrange(6)):
        seq += draws.randrange(3)
        batch = []
        for _ in range(1 + draws.randrange(5)):
            kind = draws.choice([PUT, DELETE, MERGE, RANGE])
            first = bytes(draws.randrange(256) for _ in range(draws.choice([0, 1, 130])))
            second = b"" if kind == DELETE else bytes([draws.randrange(256)]) * draws.choice([0, 3, 200, 17_000])
            batch.append(Write(seq, kind, first, second))
            seq += 1
        batches.append(batch)
    return batches


def add_drawn(formats: Formats, rounds: int) -> None:
    draws = seeded(3)
    for place in range(rounds):
        batches = drawn_batches(draws)
        log = log_of_payloads([batch_of(batch) for batch in batches])
        writes = [write for batch in batches for write in batch]
        formats.row(f"log {place}", READ_WRITES, 0, log, wanted=writes, read=writes_read)


# The calls that have to be refused memory somewhere.
REFUSES = {READ_LOG, WRITE_LOG, READ_BATCH, WRITE_BATCH, READ_WRITES}


def play(refuse: bool = False) -> Tuple[int, List[str], int]:
    """Plays all rows. Returns how many there are, what is wrong, and how many requests were refused."""
    formats = Formats(refuse)
    for add in (add_sums, add_logs, add_torn_logs, add_batches, add_writes):
        add(formats)
    if not refuse:
        add_drawn(formats, 300)
    return formats.count, formats.desk.play(), formats.desk.refused
