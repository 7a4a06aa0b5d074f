"""The right answers, by the definitions: operators, effects, writes, and the runs that these become.

Everything here goes over plain lists and is slow. It shares nothing with the program that it judges.
"""

from bisect import bisect_right
from typing import Callable, Dict, Iterable, List, NamedTuple, Optional, Sequence, Tuple

PUT, DELETE, MERGE, RANGE = 0, 1, 2, 3
KINDS = {"put": PUT, "delete": DELETE, "merge": MERGE, "range": RANGE}

Effect = Tuple
KEEP: Effect = ("keep",)
CLEAR: Effect = ("clear",)


class Operator(NamedTuple):
    """The results of a merge for a lone operand, of a value and an operand, and of an older operand and a newer one."""

    first: Callable[[bytes], bytes]
    join: Callable[[bytes, bytes], bytes]
    pair: Callable[[bytes, bytes], bytes]


def counted(value: bytes) -> int:
    """The number of a counter: eight bytes, the low one first. Others are zero."""
    return int.from_bytes(value, "little") if len(value) == 8 else 0


def counter(value: int) -> bytes:
    return (value % 2**64).to_bytes(8, "little")


def tail(count: int) -> Operator:
    """The last bytes of what stands in a row."""

    def last(older: bytes, newer: bytes = b"") -> bytes:
        both = older + newer
        return both[len(both) - min(count, len(both)) :]

    return Operator(last, last, last)


def joined(older: bytes, newer: bytes) -> bytes:
    return older + b"," + newer


def summed(older: bytes, newer: bytes) -> bytes:
    return counter(counted(older) + counted(newer))


OPERATORS: Dict[str, Operator] = {
    "append": Operator(lambda operand: operand, joined, joined),
    "counter": Operator(lambda operand: counter(counted(operand)), summed, summed),
    "maximum": Operator(lambda operand: operand, max, max),
    "tail0": tail(0),
    "tail1": tail(1),
    "tail2": tail(2),
    "tail4": tail(4),
    "tail1000": tail(1000),
}


def merged(operator: Operator, value: Optional[bytes], operand: bytes) -> bytes:
    return operator.first(operand) if value is None else operator.join(value, operand)


def then(operator: Operator, older: Effect, newer: Effect) -> Effect:
    """Two effects on one key, one after the other."""
    if newer[0] == "keep":
        return older
    if newer[0] != "fold" or older[0] == "keep":
        return newer
    if older[0] == "fold":
        return ("fold", operator.pair(older[1], newer[1]))
    return ("set", merged(operator, older[1] if older[0] == "set" else None, newer[1]))


def applied(operator: Operator, effect: Effect, value: Optional[bytes]) -> Optional[bytes]:
    """A value after an effect."""
    if effect[0] == "keep":
        return value
    if effect[0] == "fold":
        return merged(operator, value, effect[1])
    return effect[1] if effect[0] == "set" else None


class Write(NamedTuple):
    """A change and its sequence. The second byte string of a delete is empty."""

    seq: int
    kind: int
    first: bytes
    second: bytes = b""

    def touches(self, key: bytes) -> bool:
        if self.kind == RANGE:
            return self.first <= key < self.second
        return self.first == key

    def effect(self) -> Effect:
        if self.kind == PUT:
            return ("set", self.second)
        return ("fold", self.second) if self.kind == MERGE else CLEAR

    def size(self) -> int:
        """The bytes of a memtable that it takes: its byte strings and 8, and nothing for a range without keys."""
        if self.kind == RANGE and self.first >= self.second:
            return 0
        return len(self.first) + len(self.second) + 8


def effect_at(operator: Operator, writes: Iterable[Write], key: bytes, at: int) -> Effect:
    """The effect on a key of the writes at or below a sequence, the oldest first."""
    effect = KEEP
    for write in writes:
        if write.seq <= at and write.touches(key):
            effect = then(operator, effect, write.effect())
    return effect


def value_at(operator: Operator, writes: Iterable[Write], key: bytes, at: int) -> Optional[bytes]:
    """A key's value at a sequence, write by write."""
    value = None
    for write in writes:
        if write.seq <= at and write.touches(key):
            value = applied(operator, write.effect(), value)
    return value


class Fragment(NamedTuple):
    """A stretch of keys, and the sequences of the range deletions over it, the newest first."""

    seqs: Tuple[int, ...]
    begin: bytes
    end: bytes


class Run(NamedTuple):
    """A run: the range of its sequences, its points in order of key, the newest of a key first, and its fragments."""

    low: int
    high: int
    points: Tuple[Write, ...]
    fragments: Tuple[Fragment, ...]

    def size(self) -> int:
        points = sum(len(point.first) + len(point.second) + 8 for point in self.points)
        return points + sum(len(one.begin) + len(one.end) + 8 * len(one.seqs) for one in self.fragments)

    def blocks(self) -> int:
        return (len(self.points) + 3) // 4

    def writes(self) -> List[Write]:
        """The plain writes that it stands for, the oldest first."""
        ranges = [Write(seq, RANGE, one.begin, one.end) for one in self.fragments for seq in one.seqs]
        return sorted(list(self.points) + ranges, key=lambda write: write.seq)


def fragments_of(ranges: Sequence[Write]) -> List[Fragment]:
    """Range deletions, cut at all their ends."""
    ranges = [one for one in ranges if one.first < one.second]
    ends = sorted({end for one in ranges for end in (one.first, one.second)})
    fragments = []
    for begin, end in zip(ends, ends[1:]):
        seqs = tuple(sorted({one.seq for one in ranges if one.touches(begin)}, reverse=True))
        if seqs:
            fragments.append(Fragment(seqs, begin, end))
    return fragments


def in_order(points: Iterable[Write]) -> List[Write]:
    return sorted(points, key=lambda point: (point.first, -point.seq))


def flushed(writes: Sequence[Write]) -> Run:
    """The run that writes become."""
    points = in_order(write for write in writes if write.kind != RANGE)
    ranges = [write for write in writes if write.kind == RANGE]
    return Run(writes[0].seq, writes[-1].seq, tuple(points), tuple(fragments_of(ranges)))


def is_run(run: Run) -> bool:
    """Whether these make a run: all in order, in the range, and no point with the sequence of a range deletion over it."""
    within = range(max(run.low, 1), min(run.high, 2**56 - 1) + 1)
    if not (1 <= run.low <= run.high < 2**56):
        return False
    keys = [(point.first, -point.seq) for point in run.points]
    if keys != sorted(set(keys)) or any(point.seq not in within for point in run.points):
        return False
    for one in run.fragments:
        falling = tuple(sorted(set(one.seqs), reverse=True))
        if one.begin >= one.end or not one.seqs or one.seqs != falling or any(seq not in within for seq in one.seqs):
            return False
    ends = [end for one in run.fragments for end in (one.begin, one.end)]
    return ends == sorted(ends) and not any(
        one.begin <= point.first < one.end and point.seq in one.seqs for point in run.points for one in run.fragments
    )


def stripe_of(keeps: Sequence[int], seq: int) -> int:
    """The number of a sequence's stripe: how many keeps are below it."""
    return sum(keep < seq for keep in keeps)


def kept_point(operator: Operator, points: Sequence[Write], ranges: Sequence[int], is_bottom: bool) -> List[Write]:
    """The rest of one key's points of one stripe, the newest first, under the range deletions over it."""
    newest = max(ranges, default=0)
    points = [point for point in points if point.seq > newest]
    if not points:
        return []
    effect = CLEAR if newest else KEEP
    for point in reversed(points):
        effect = then(operator, effect, point.effect())
    if is_bottom:
        value = applied(operator, effect, None)
        effect = CLEAR if value is None else ("set", value)
    if effect == CLEAR:
        return [] if is_bottom else [Write(points[0].seq, DELETE, points[0].first)]
    return [Write(points[0].seq, PUT if effect[0] == "set" else MERGE, points[0].first, effect[1])]


def kept_seqs(seqs: Iterable[int], keeps: Sequence[int], bottom: Optional[int]) -> Tuple[int, ...]:
    """The rest of the sequences over a stretch of keys: the newest of each stripe, and none of the one at the bottom."""
    newest: Dict[int, int] = {}
    for seq in seqs:
        newest[stripe_of(keeps, seq)] = max(seq, newest.get(stripe_of(keeps, seq), 0))
    return tuple(sorted((seq for stripe, seq in newest.items() if stripe != bottom), reverse=True))


def compacted(operator: Operator, runs: Sequence[Run], keeps: Sequence[int], oldest: bool) -> Run:
    """The run that runs become, of which the newest is the first: reads at the keeps and above all see no difference."""
    keeps = sorted(set(keeps))
    low, high = min(run.low for run in runs), max(run.high for run in runs)
    # With the oldest run nothing lies below the stripe of the lowest sequence.
    bottom = stripe_of(keeps, low) if oldest else None
    by_key: Dict[bytes, List[Write]] = {}
    for point in in_order(point for run in runs for point in run.points):
        by_key.setdefault(point.first, []).append(point)
    ranges = [Write(seq, RANGE, one.begin, one.end) for run in runs for one in run.fragments for seq in one.seqs]
    points: List[Write] = []
    for key, all_points in by_key.items():
        over = [one.seq for one in ranges if one.touches(key)]
        for stripe in range(len(keeps), -1, -1):
            here = [point for point in all_points if stripe_of(keeps, point.seq) == stripe]
            under = [seq for seq in over if stripe_of(keeps, seq) == stripe]
            points += kept_point(operator, here, under, stripe == bottom)
    fragments = [one._replace(seqs=kept_seqs(one.seqs, keeps, bottom)) for one in fragments_of(ranges)]
    return Run(low, high, tuple(points), tuple(one for one in fragments if one.seqs))


class Along:
    """The effect of writes on a key at each sequence, found by one walk over them."""

    def __init__(self, operator: Operator, writes: Sequence[Write], key: bytes) -> None:
        self.seqs, self.effects = [0], [KEEP]
        for write in writes:
            if write.touches(key):
                self.seqs.append(write.seq)
                self.effects.append(then(operator, self.effects[-1], write.effect()))

    def at(self, seq: int) -> Effect:
        return self.effects[bisect_right(self.seqs, seq) - 1]
