"""Queries and answers, as the program spells them and as the plain writes give them."""

from typing import List, NamedTuple, Optional, Sequence, Tuple, Union

from model import MERGE, PUT, Operator, Write, value_at
from play import Reply, number, some, text


class Get(NamedTuple):
    """The value of a key at a sequence."""

    key: bytes
    at: int


class Scan(NamedTuple):
    """The first rows of the keys from `low` on, below `high` if there is one, at a sequence."""

    low: bytes
    high: Optional[bytes]
    at: int
    limit: int


Query = Union[Get, Scan]

# An answer: a value or none, rows, or that a sequence isn't protected.
Answer = Tuple[str, Union[None, bytes, int, List[Tuple[bytes, bytes]]]]


def query_spelling(query: Query) -> bytes:
    if isinstance(query, Get):
        return number(0) + text(query.key) + number(query.at)
    return number(1) + text(query.low) + some(query.high) + number(query.at) + number(query.limit)


def answer_in(reply: Reply) -> Answer:
    kind = reply.number()
    if kind == 0:
        return "value", None
    if kind == 1:
        return "value", reply.bytes()
    if kind == 2:
        return "rows", [(reply.bytes(), reply.bytes()) for _ in range(reply.number())]
    return "not protected", reply.number()


def answer_of(operator: Operator, writes: Sequence[Write], keeps: Sequence[int], query: Query) -> Answer:
    """The answers of plain writes, of which the oldest is the first, where reads at these keeps are protected."""
    if query.at not in keeps:
        return "not protected", query.at
    if isinstance(query, Get):
        return "value", value_at(operator, writes, query.key, query.at)
    rows: List[Tuple[bytes, bytes]] = []
    for key in sorted({write.first for write in writes if write.kind in (PUT, MERGE)}):
        if len(rows) < query.limit and query.low <= key and (query.high is None or key < query.high):
            value = value_at(operator, writes, key, query.at)
            if value is not None:
                rows.append((key, value))
    return "rows", rows
