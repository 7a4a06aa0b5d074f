"""Operators, effects, folds, plain writes and rows: rows worked by hand, and drawn ones beside the model."""

from random import Random
from typing import Callable, List, NamedTuple, Optional, Tuple

from desk import (
    APPLY,
    ASK,
    COMPARE,
    FOLD_ALL,
    FOLDED,
    MERGED,
    OPERATE,
    READ,
    ROWS,
    SPELL,
    SUM,
    THEN,
    TOUCH,
    Desk,
    effect_spelling,
    op_spelling,
    write_spelling,
)
from asking import Answer, Get, Query, Scan, answer_in, query_spelling
from model import CLEAR, DELETE, KEEP, MERGE, OPERATORS, PUT, RANGE, Effect, Write, applied, counter, then
from play import Raw, Reply, number, seeded, some, text, wants

MOST = 2**64 - 1

# An older text, a newer one, and what an operator makes of both.
Row = Tuple[bytes, bytes, bytes]

# Numbers and their sums: what doesn't have eight bytes counts as zero.
SUMS: List[Row] = [
    (counter(5), counter(7), counter(12)),
    (b"\xff" * 8, counter(1), counter(0)),
    (b"\x00", counter(7), counter(7)),
    (b"abc", counter(7), counter(7)),
    (b"nine byte", b"", counter(0)),
]
JOINED: List[Row] = [(b"", b"b", b",b"), (b"b", b"c", b"b,c"), (b"b,c", b"", b"b,c,")]
GREATER: List[Row] = [(b"a", b"ab", b"ab"), (b"ab", b"`", b"ab"), (b"b", b"b", b"b")]
LAST_FOUR: List[Row] = [
    (b"", b"", b""),
    (b"a", b"b", b"ab"),
    (b"ab", b"cd", b"abcd"),
    (b"ab", b"cde", b"bcde"),
    (b"abcde", b"f", b"cdef"),
    (b"abcde", b"", b"bcde"),
    (b"", b"abcde", b"bcde"),
    (b"abcde", b"fghij", b"ghij"),
]
BOTH = {
    "counter": SUMS,
    "append": JOINED,
    "maximum": GREATER,
    "tail4": LAST_FOUR,
    "tail1": [(b"a", b"b", b"b"), (b"ab", b"", b"b")],
    "tail0": [(b"a", b"b", b""), (b"", b"", b"")],
    "tail1000": [(b"ab", b"c", b"abc")],
}

# A lone operand, and what an operator makes of it.
FIRSTS = {
    "counter": [(counter(7), counter(7)), (b"\1\2\3", counter(0))],
    "append": [(b"b", b"b")],
    "maximum": [(b"b", b"b")],
    "tail4": [(b"abcde", b"bcde"), (b"abc", b"abc")],
    "tail1": [(b"ab", b"b")],
    "tail0": [(b"a", b"")],
    "tail1000": [(b"ab", b"ab")],
}


class Base:
    """A story of calls that keep nothing, with a check for each row."""

    def __init__(self, operator: str, refuse: bool) -> None:
        self.desk = Desk(operator, refuse)
        self.desk.look = None
        self.count = 0

    def row(self, where: str, reply: Reply, check: Callable[[Reply], None]) -> None:
        self.count += 1

        def checked() -> None:
            check(reply)
            wants(not reply.is_made or reply.is_read(), True, "whether the answer ends")

        self.desk.check(f"tests/base.py, {self.desk.operator}, {where}", checked)

    def operate(self, older: bytes, newer: bytes, first: bytes, both: bytes) -> None:
        """The results of an operator for a newer operand alone, and of both in each of four ways."""
        reply = self.desk.call(OPERATE, older, newer, name="operate")

        def check(reply: Reply) -> None:
            wants([reply.bytes() for _ in range(5)], [first] + 4 * [both])

        self.row(f"{older!r} and {newer!r}", reply, check)

    def effect(self, where: str, kind: int, *parts: bytes, wanted: Effect) -> None:
        reply = self.desk.call(kind, Raw(b"".join(parts)), name=where)
        self.row(where, reply, lambda reply: wants(reply.effect(), wanted))

    def value(self, where: str, kind: int, *parts: bytes, wanted: Optional[bytes]) -> None:
        reply = self.desk.call(kind, Raw(b"".join(parts)), name=where)
        self.row(where, reply, lambda reply: wants(reply.some(), wanted))

    def read(self, writes: List[Write], key: bytes, at: int, value: Optional[bytes], effect: Optional[Effect] = None) -> None:
        """A key's value among writes at a sequence, and what they do to it."""
        spelling = number(len(writes)) + b"".join(write_spelling(write) for write in writes)
        reply = self.desk.call(READ, Raw(spelling), key, at, name="read")
        operator = OPERATORS[self.desk.operator]

        def check(reply: Reply) -> None:
            wants(reply.some(), value, "value")
            found = reply.effect()
            wants(applied(operator, found, None), value, "value by the effect")
            if effect is not None:
                wants(found, effect, "effect")

        self.row(f"{key!r} at {at}", reply, check)


def add_operators(base: Base) -> None:
    operator = base.desk.operator
    for older, newer, both in BOTH[operator]:
        base.operate(older, newer, OPERATORS[operator].first(newer), both)
    for operand, first in FIRSTS[operator]:
        base.value(f"first {operand!r}", APPLY, effect_spelling(("fold", operand)), some(None), wanted=first)
        merged = base.desk.call(MERGED, Raw(some(None)), operand)
        base.row(f"merged {operand!r}", merged, lambda reply, first=first: wants(reply.bytes(), first))


# A key that a range deletion clears between merges, and another that it leaves.
MERGES = [
    Write(1, PUT, b"k", b"a"),
    Write(2, MERGE, b"k", b"b"),
    Write(3, PUT, b"l", b"x"),
    Write(4, RANGE, b"k", b"l"),
    Write(5, MERGE, b"k", b"c"),
]


def add_effects(base: Base) -> None:
    """Effects of strings that are joined with a comma, and the values that writes give."""
    fold_b, fold_c, fold_d = (effect_spelling(("fold", one)) for one in (b"b", b"c", b"d"))
    keep, clear = effect_spelling(KEEP), effect_spelling(CLEAR)
    base.row("merged", base.desk.call(MERGED, Raw(some(b"a")), b"b"), lambda reply: wants(reply.bytes(), b"a,b"))
    base.effect("two operands in turn", THEN, fold_b, fold_c, wanted=("fold", b"b,c"))
    base.value("both on a value", APPLY, effect_spelling(("fold", b"b,c")), some(b"a"), wanted=b"a,b,c")
    base.effect("an operand on no value", THEN, clear, fold_d, wanted=("set", b"d"))
    base.effect("nothing after nothing", THEN, keep, keep, wanted=KEEP)
    base.effect("an operand after nothing", FOLDED, keep, text(b"e"), wanted=("fold", b"e"))
    base.effect("an operand after another", FOLDED, effect_spelling(("fold", b"e")), text(b"f"), wanted=("fold", b"e,f"))
    for at, value in [(0, None), (1, b"a"), (2, b"a,b"), (3, b"a,b"), (4, None), (5, b"c"), (9, b"c")]:
        base.read(MERGES, b"k", at, value)
    base.read(MERGES, b"l", 5, b"x")
    # The empty key, set to the empty text and merged into; and a merge alone.
    base.read([Write(1, PUT, b""), Write(2, MERGE, b"", b"b")], b"", 2, b",b", ("set", b",b"))
    base.read([Write(1, MERGE, b"", b"b")], b"", 1, b"b", ("fold", b"b"))
    base.read([Write(1, MERGE, b"", b"b")], b"k", 1, None, KEEP)


def add_counts(base: Base) -> None:
    """Thousands of parts, folded in threads, and a lone operand that is no number."""
    base.read([Write(1, MERGE, b"k", b"\1\2\3")], b"k", 1, counter(0))
    one = effect_spelling(("fold", counter(1)))
    base.effect("5,000 ones", FOLD_ALL, number(5000) + 5000 * one, wanted=("fold", counter(5000)))
    base.effect("no effects", FOLD_ALL, number(0), wanted=KEEP)


def add_folds(base: Base) -> None:
    """Strings keep their order, and a set hides what is older."""
    letters = b"".join(effect_spelling(("fold", letter)) for letter in (b"a", b"b", b"c"))
    joined = b",".join(1000 * [b"a", b"b", b"c"])
    base.effect("3,000 letters", FOLD_ALL, number(3000) + 1000 * letters, wanted=("fold", joined))
    hidden = 3000 * effect_spelling(("fold", b"a"))
    last = effect_spelling(CLEAR) + effect_spelling(("fold", b"b")) + effect_spelling(KEEP)
    base.effect("a set", FOLD_ALL, number(3003) + hidden + last, wanted=("set", b"b"))


Totals = Tuple[int, int, int]


def totals_spelling(*totals: Totals) -> bytes:
    return b"".join(number(one) for total in totals for one in total)


def add_sums(base: Base) -> None:
    """Totals, each sum of which stops at the greatest number."""
    rows: List[Tuple[Totals, Totals, Totals, List[Totals], Totals]] = [
        ((0, 0, 0), (0, 0, 0), (0, 0, 0), [], (0, 0, 0)),
        ((MOST, 2, MOST - 1), (0, 3, 1), (MOST, 5, MOST), [(1, 4, MOST)], (1, 4, MOST)),
        ((MOST, 5, MOST), (1, 4, MOST), (MOST, 9, MOST), [(7, 8, 9), (1, 1, 1)], (8, 9, 10)),
        (
            (1, 2, 3),
            (4, 5, 6),
            (5, 7, 9),
            5000 * [(2, 3_689_348_814_741_910, 3_690_000_000_000_000)],
            (10_000, 18_446_744_073_709_550_000, MOST),
        ),
    ]
    for one, other, both, listed, total in rows:
        spelling = totals_spelling(one, other) + number(len(listed)) + totals_spelling(*listed)

        def check(reply: Reply, both: Totals = both, total: Totals = total) -> None:
            wants((tuple(reply.numbers()), tuple(reply.numbers())), (both, total))

        base.row(f"sums of {one}", base.desk.call(SUM, Raw(spelling), name="sum"), check)


# Keys out of order. `b` is deleted again, and only deletions name `d`.
DELETIONS = [
    Write(1, PUT, b"c", b"3"),
    Write(2, PUT, b"b", b"2"),
    Write(3, DELETE, b"b"),
    Write(4, DELETE, b"d"),
    Write(5, RANGE, b"d", b"e"),
    Write(6, PUT, b"a", b"1"),
    Write(7, PUT, b"c", b"4"),
    Write(8, PUT, b"ca", b"5"),
]

# The sequences 2 and 5, in any order and repeated.
KEEPS = [[2, 5], [5, 2], [2, 5, 2], [5, 5, 2]]


def ask(base: Base, writes: List[Write], keeps: List[int], query: Query, wanted: Answer) -> None:
    spelling = number(len(writes)) + b"".join(write_spelling(write) for write in writes)
    reply = base.desk.call(ASK, Raw(spelling), keeps, Raw(query_spelling(query)), name="ask")
    base.row(f"{query} under {keeps}", reply, lambda reply: wants(answer_in(reply), wanted))


def add_lookups(base: Base) -> None:
    """Lookups and scans of a key that a range deletion clears and of another that it leaves."""
    gets = [(b"k", 5, b"c"), (b"k", 2, b"a,b"), (b"l", 5, b"x"), (b"l", 2, None)]
    scans = [
        (b"", None, 5, 10, [(b"k", b"c"), (b"l", b"x")]),
        (b"", None, 5, 0, []),
        (b"k", b"l", 2, 10, [(b"k", b"a,b")]),
    ]
    for keeps in KEEPS:
        for key, at, value in gets:
            ask(base, MERGES, keeps, Get(key, at), ("value", value))
        for low, high, at, limit, rows in scans:
            ask(base, MERGES, keeps, Scan(low, high, at, limit), ("rows", rows))
        ask(base, MERGES, keeps, Get(b"k", 3), ("not protected", 3))
        ask(base, MERGES, keeps, Scan(b"", None, 4, 10), ("not protected", 4))


def add_scans(base: Base) -> None:
    """Scans after deletions: a key without a value has no row."""
    for low, high, at, limit, rows in [
        (b"", None, 8, 9, [(b"a", b"1"), (b"c", b"4"), (b"ca", b"5")]),
        (b"", None, 8, 2, [(b"a", b"1"), (b"c", b"4")]),
        (b"", None, 2, 9, [(b"b", b"2"), (b"c", b"3")]),
        (b"b", None, 8, 1, [(b"c", b"4")]),
        (b"c", b"ca", 8, 9, [(b"c", b"4")]),
        (b"c", b"b", 8, 9, []),
        (b"c", b"c", 8, 9, []),
        (b"d", None, 8, 9, []),
    ]:
        ask(base, DELETIONS, [2, 8], Scan(low, high, at, limit), ("rows", rows))
    # Sequences that don't rise are no writes of a store.
    refused = base.desk.call(ASK, Raw(number(2) + 2 * write_spelling(MERGES[0])), [1], Raw(query_spelling(Get(b"k", 1))))
    base.row("writes that don't rise", refused, lambda reply: wants(reply.is_made, False))


# The ends of a range deletion, a key, and whether the range touches the key.
TOUCHED = [
    (b"b", b"d", b"b", True),
    (b"b", b"d", b"c", True),
    (b"b", b"d", b"cz", True),
    (b"b", b"d", b"d", False),
    (b"b", b"d", b"a", False),
    (b"b", b"d", b"az", False),
    (b"c", b"c", b"c", False),
    (b"d", b"b", b"c", False),
    (b"", b"b", b"", True),
]


def add_touches(base: Base) -> None:
    rows = [(Write(0, RANGE, begin, end), key, touched) for begin, end, key, touched in TOUCHED]
    rows += [(Write(0, kind, b"k"), key, key == b"k") for kind in (PUT, DELETE, MERGE) for key in (b"k", b"kk")]
    for write, key, touched in rows:
        reply = base.desk.call(TOUCH, Raw(op_spelling(write)), key, name="touch")
        base.row(f"{write} and {key!r}", reply, lambda reply, touched=touched: wants(reply.flag(), touched))


# Two rows as bytes: `a` with `1`, and `bc` with nothing.
TWO = [(b"a", b"1"), (b"bc", b"")]
TWO_BYTES = b"\1\0\0\0\0\0\0\0a\1\0\0\0\0\0\0\0001\2\0\0\0\0\0\0\0bc\0\0\0\0\0\0\0\0"

# Lists of keys with values, and whether their keys rise.
ORDERS = [
    ([], True),
    ([(b"k", b"v")], True),
    ([(b"", b"v"), (b"k", b"v"), (b"ka", b"")], True),
    ([(b"k", b"v"), (b"k", b"w")], False),
    ([(b"a", b"v"), (b"c", b"v"), (b"b", b"v")], False),
]

# The number of rows of `TWO` that fit a number of bytes, and their size.
FITTING = [(0, 0, 0), (17, 0, 0), (18, 1, 18), (35, 1, 18), (36, 2, 36), (99, 2, 36)]


def rows_call(base: Base, rows: List[Tuple[bytes, bytes]], passed: int, most: int) -> Reply:
    spelling = number(len(rows)) + b"".join(text(key) + text(value) for key, value in rows)
    return base.desk.call(ROWS, Raw(spelling + number(passed) + number(most)), name="rows")


def row_bytes(rows: List[Tuple[bytes, bytes]]) -> bytes:
    return b"".join(len(part).to_bytes(8, "little") + part for row in rows for part in row)


def rows_are(reply: Reply, rows: List[Tuple[bytes, bytes]], passed: int, fitting: Tuple[int, int]) -> None:
    """An answer about rows whose keys rise: those after the first ones, all as bytes, and which fit."""
    wants((reply.number(), reply.flag()), (len(rows), True), "rows")
    wants([(reply.bytes(), reply.bytes()) for _ in range(reply.number())], rows[passed:], "rows ahead")
    key = reply.some()
    wants((key, reply.bytes()) if key is not None else None, rows[passed] if passed < len(rows) else None, "the row there")
    wants(reply.bytes(), row_bytes(rows), "bytes")
    count, size = fitting
    wants((reply.bytes(), reply.number()), (row_bytes(rows)[:size], count), "what fits")


def add_rows(base: Base) -> None:
    wants(row_bytes(TWO), TWO_BYTES, "two rows")
    for rows, rise in ORDERS:
        fits = (len(rows), len(row_bytes(rows)))

        def check(reply: Reply, rows=rows, rise=rise, fits=fits) -> None:
            if rise:
                rows_are(reply, rows, 1, fits)
            else:
                wants((reply.number(), reply.flag()), (len(rows), False), "whether they rise")

        base.row(f"rows {rows}", rows_call(base, rows, 1, 1000), check)
    for most, count, size in FITTING:
        reply = rows_call(base, TWO, most % 3, most)
        base.row(f"fit {most}", reply, lambda reply, m=most, c=count, s=size: rows_are(reply, TWO, m % 3, (c, s)))
    spelled = base.desk.call(SPELL, b"a", name="spell")
    base.row("a text", spelled, lambda reply: wants(reply.bytes(), TWO_BYTES[:9]))


# Strings that rise in byte order.
RISING = [b"", b"\x00", b"a", b"ab", b"b", b"\xff"]


def add_orders(base: Base) -> None:
    for place, one in enumerate(RISING):
        for other_place, other in enumerate(RISING):
            order = (place == other_place, place < other_place, other_place < place)
            reply = base.desk.call(COMPARE, one, other, name="compare")
            base.row(f"{one!r}, {other!r}", reply, lambda reply, order=order: wants((reply.flag(), reply.flag(), reply.flag()), order))


def drawn_bytes(draws: Random, bound: int) -> bytes:
    """Fewer bytes than a bound."""
    return bytes(draws.randrange(256) for _ in range(draws.randrange(bound)))


def add_tails(base: Base, count: int, pairs: int) -> None:
    """Drawn strings of no bytes to about twice as many as stay: the last ones stay."""
    draws = seeded(7)
    for _ in range(pairs):
        older, newer = (drawn_bytes(draws, 3 + 2 * count) for _ in range(2))
        both = older + newer
        base.operate(older, newer, newer[max(0, len(newer) - count) :], both[max(0, len(both) - count) :])


def drawn_effect(draws: Random, count: int) -> Effect:
    kind = draws.randrange(8)
    operand = drawn_bytes(draws, 3 + 2 * count)
    return KEEP if kind == 0 else CLEAR if kind == 1 else ("set" if kind == 2 else "fold", operand)


def add_groups(base: Base, count: int, rows: int) -> None:
    """Drawn effects in turn, of which the program composes two neighbours in any group of them."""
    draws, operator = seeded(11), OPERATORS[base.desk.operator]
    for _ in range(rows):
        older, newer, value = drawn_effect(draws, count), drawn_effect(draws, count), drawn_effect(draws, count)
        both = effect_spelling(older) + effect_spelling(newer)
        base.effect(f"{older} and {newer}", THEN, both, wanted=then(operator, older, newer))
        listed = [value, older, newer, value]
        whole = KEEP
        for one in listed:
            whole = then(operator, whole, one)
        base.effect(f"all of {listed}", FOLD_ALL, number(4), *(effect_spelling(one) for one in listed), wanted=whole)
        begun = applied(operator, value, None)
        wanted = applied(operator, newer, applied(operator, older, begun))
        base.value(f"{older} then {newer} on {begun!r}", APPLY, effect_spelling(then(operator, older, newer)), some(begun), wanted=wanted)


class Part(NamedTuple):
    """The steps that a story has more under an operator."""

    operator: str
    add: Callable[[Base], None]


PARTS = [Part(operator, add_operators) for operator in BOTH] + [
    Part("append", add_effects),
    Part("append", add_folds),
    Part("append", add_lookups),
    Part("counter", add_counts),
    Part("counter", add_sums),
    Part("counter", add_touches),
    Part("counter", add_rows),
    Part("counter", add_scans),
    Part("counter", add_orders),
    Part("maximum", lambda base: base.read(GREATEST, b"k", 3, b"ab")),
    Part("tail4", lambda base: [base.read(CUT, b"k", at, value) for at, value in LAST_BYTES]),
    Part("tail4", lambda base: base.read([Write(1, MERGE, b"k", b"abcde")], b"k", 1, b"bcde")),
]

# A value, a greater one, and one that is less.
GREATEST = [Write(1, PUT, b"k", b"a"), Write(2, MERGE, b"k", b"ab"), Write(3, MERGE, b"k", b"`")]

# A value of five bytes, which stays whole until an operand meets it; and the values at each sequence.
CUT = [Write(1, PUT, b"k", b"abcde"), Write(2, MERGE, b"k", b"f"), Write(3, MERGE, b"k", b"g")]
LAST_BYTES = [(1, b"abcde"), (2, b"cdef"), (3, b"defg")]

# Drawn work: how many bytes stay, how many pairs are drawn, and how many groups.
DRAWN = [("tail0", 0, 100, 300), ("tail1", 1, 300, 300), ("tail4", 4, 1000, 600), ("tail1000", 1000, 40, 40)]


# The calls that have to be refused memory somewhere.
REFUSES = {OPERATE, MERGED, THEN, FOLDED, APPLY, FOLD_ALL, SUM, READ, TOUCH, ROWS, SPELL, ASK}


def play(refuse: bool = False) -> Tuple[int, List[str], int]:
    """Plays all rows. Returns how many there are, what is wrong, and how many requests were refused."""
    parts = list(PARTS)
    if not refuse:
        parts += [Part(name, lambda base, c=count, p=pairs: add_tails(base, c, p)) for name, count, pairs, _ in DRAWN]
        parts += [Part(name, lambda base, c=count, r=rows: add_groups(base, c, r)) for name, count, _, rows in DRAWN]
    total, failures, refused = 0, [], 0
    for part in parts:
        base = Base(part.operator, refuse)
        part.add(base)
        failures += base.desk.play()
        total += base.count
        refused += base.desk.refused
    return total, failures, refused
