#!/usr/bin/env python3
"""Draws transactions beside each other, and looks whether those that commit are serial.

    tests/serial.py

The definitions of crates/uc_serial stand here as ordinary code: what was written since a sequence, and whether a read is unchanged. Clients
read at snapshots, and commit in a drawn order, by one of two judges: nothing that a transaction read was written since, or all of it has
the values that it had. Three tests look at each history: each committed transaction read the state right before its own writes; the graph of
what came before what, drawn from keys and their values, has no cycle; and no transaction was refused
without need: without a write above its snapshot to a key that it read, or with all values as they were.

Then the definitions are changed: the tests have to find each of `PLANTS`. The last line counts.
"""

import random
import sys
from dataclasses import dataclass, field
from typing import Dict, List, Optional, Set, Tuple

KEYS = [b"", b"\x00", b"a", b"a\x00", b"b", b"c", b"\xff", b"\xff\xff"]
HISTORIES, MOST_HISTORIES = 3000, 20000
PLANTS = (
    "a range deletion touches no key",
    "a merge touches no key",
    "a deletion touches no key",
    "a key without a value isn't noted",
    "of a scan its rows alone are noted",
    "a write right above the snapshot is no write since",
    "a write at the snapshot is one since",
    "the last key of a range isn't noted",
)
VALUE_PLANTS = (
    "the read of a key that wasn't there is forgotten",
    "the read of a key that isn't there any more is forgotten",
    "of a range the keys that it had are compared alone",
    "of a range the keys that it has are compared alone",
    "of a range the values aren't compared",
    "the first read alone is judged",
    "the snapshot is compared with itself",
)

planted = ""

Op = Tuple[str, bytes, bytes]
Write = Tuple[int, Op]
Rows = Tuple[Tuple[bytes, bytes], ...]


def touches(key: bytes, op: Op) -> bool:
    kind, first, second = op
    return first <= key < second if kind == "delete_range" else first == key


def value_of(log: List[Write], key: bytes, at: int) -> Optional[bytes]:
    """The value of a key at a sequence: merges append."""
    value: Optional[bytes] = None
    for seq, op in log:
        if seq <= at and touches(key, op):
            kind, _, new = op
            value = new if kind == "put" else (value or b"") + new if kind == "merge" else None
    return value


def is_in_range(low: bytes, high: Optional[bytes], key: bytes) -> bool:
    return low <= key and (high is None or key < high)


def rows_of(log: List[Write], low: bytes, high: Optional[bytes], at: int) -> Rows:
    found = ((key, value_of(log, key, at)) for key in KEYS if is_in_range(low, high, key))
    return tuple((key, value) for key, value in found if value is not None)


def counts(op: Op) -> bool:
    """Whether an operation counts as a write: always, but for a plant."""
    return planted != f"a {op[0].replace('_', ' ').replace('delete range', 'range deletion').replace('delete', 'deletion')} touches no key"


def is_since(seq: int, since: int) -> bool:
    if planted == "a write right above the snapshot is no write since":
        return seq > since + 1
    return seq >= since if planted == "a write at the snapshot is one since" else seq > since


def is_written_since(log: List[Write], key: bytes, since: int) -> bool:
    return any(is_since(seq, since) and counts(op) and touches(key, op) for seq, op in log)


def touches_range(low: bytes, high: Optional[bytes], op: Op) -> bool:
    kind, first, second = op
    if kind != "delete_range":
        return is_in_range(low, high, first)
    begin = max(low, first)
    return begin < second and (high is None or begin < high)


def is_written_in(log: List[Write], low: bytes, high: Optional[bytes], since: int) -> bool:
    return any(is_since(seq, since) and counts(op) and touches_range(low, high, op) for seq, op in log)


@dataclass
class Transaction:
    """A transaction: its snapshot, what it read, and what it writes."""

    snapshot: int
    gets: Dict[bytes, Optional[bytes]] = field(default_factory=dict)
    scans: Dict[Tuple[bytes, Optional[bytes]], Rows] = field(default_factory=dict)
    ops: List[Op] = field(default_factory=list)
    last: int = 0

    def keys_read(self) -> Set[bytes]:
        return set(self.gets) | {key for low, high in self.scans for key in KEYS if is_in_range(low, high, key)}


def may_commit(log: List[Write], one: Transaction) -> bool:
    """Whether nothing that a transaction read was written since its snapshot."""
    for key, value in one.gets.items():
        if (value is not None or planted != "a key without a value isn't noted") and is_written_since(log, key, one.snapshot):
            return False
    for (low, high), rows in one.scans.items():
        if planted == "of a scan its rows alone are noted":
            if any(is_written_since(log, key, one.snapshot) for key, _ in rows):
                return False
        elif planted == "the last key of a range isn't noted" and rows:
            if is_written_in(log, low, rows[-1][0], one.snapshot):
                return False
        elif is_written_in(log, low, high, one.snapshot):
            return False
    return True


def is_unchanged(log: List[Write], one: Transaction, key: bytes, last: int) -> bool:
    """Whether a key that was looked up has the value that it had."""
    before = value_of(log, key, one.snapshot)
    now = before if planted == "the snapshot is compared with itself" else value_of(log, key, last)
    if planted == "the read of a key that wasn't there is forgotten" and before is None:
        return True
    if planted == "the read of a key that isn't there any more is forgotten" and now is None:
        return True
    return now == before


def is_unchanged_range(log: List[Write], one: Transaction, bounds: Tuple[bytes, Optional[bytes]], last: int) -> bool:
    """Whether a range has the rows that it had."""
    before, now = dict(rows_of(log, *bounds, one.snapshot)), dict(rows_of(log, *bounds, last))
    if planted == "the snapshot is compared with itself":
        now = before
    if planted == "of a range the keys that it had are compared alone":
        return all(now.get(key) == value for key, value in before.items())
    if planted == "of a range the keys that it has are compared alone":
        return all(before.get(key) == value for key, value in now.items())
    if planted == "of a range the values aren't compared":
        return before.keys() == now.keys()
    return before == now


def first_changed(log: List[Write], one: Transaction) -> Optional[int]:
    """The place of the first read that is changed, keys first."""
    last = log[-1][0] if log else 0
    unchanged = [is_unchanged(log, one, key, last) for key in one.gets]
    unchanged += [is_unchanged_range(log, one, bounds, last) for bounds in one.scans]
    if planted == "the first read alone is judged":
        unchanged = unchanged[:1]
    return unchanged.index(False) if False in unchanged else None


def drawn_op(draw: random.Random) -> Op:
    kind = draw.choice(("put", "put", "merge", "delete", "delete_range"))
    return (kind, draw.choice(KEYS), draw.choice(KEYS) if kind == "delete_range" else b"%d" % draw.randrange(9))


def reads(log: List[Write], one: Transaction, draw: random.Random) -> None:
    if draw.random() < 0.6:
        key = draw.choice(KEYS)
        one.gets[key] = value_of(log, key, one.snapshot)
    else:
        bounds = (draw.choice(KEYS), draw.choice(KEYS + [None]))
        one.scans[bounds] = rows_of(log, *bounds, one.snapshot)


def needs_refusal(log: List[Write], one: Transaction, by_value: bool) -> bool:
    """Whether a judge has to refuse a transaction: one of the keys that it read was written since, or has another value."""
    last = log[-1][0] if log else 0
    if by_value:
        return any(value_of(log, key, last) != value_of(log, key, one.snapshot) for key in one.keys_read())
    return any(seq > one.snapshot and touches(key, op) for seq, op in log for key in one.keys_read())


def history(draw: random.Random, by_value: bool) -> Tuple[List[Write], List[Transaction], Optional[str]]:
    """Transactions beside each other: the log, those that committed, in order, and the first law that is broken."""
    log: List[Write] = []
    open_ones: List[Transaction] = []
    committed: List[Transaction] = []
    for _ in range(draw.randint(5, 40)):
        last = log[-1][0] if log else 0
        if len(open_ones) < 3 and draw.random() < 0.4:
            open_ones.append(Transaction(snapshot=last))
        elif open_ones and draw.random() < 0.6:
            one = draw.choice(open_ones)
            reads(log, one, draw) if draw.random() < 0.6 else one.ops.append(drawn_op(draw))
        elif open_ones:
            one = open_ones.pop(draw.randrange(len(open_ones)))
            if not (first_changed(log, one) is None if by_value else may_commit(log, one)):
                if not needs_refusal(log, one, by_value):
                    return log, committed, "refused without need"
                continue
            if any(value_of(log, key, last) != value for key, value in one.gets.items()) or any(rows_of(log, *bounds, last) != rows for bounds, rows in one.scans.items()):
                return log, committed, "read another state than that before its writes"
            log.extend((last + 1 + place, op) for place, op in enumerate(one.ops))
            one.last = log[-1][0] if log else 0
            committed.append(one)
    return log, committed, None


def has_cycle(log: List[Write], committed: List[Transaction], by_value: bool) -> bool:
    """Whether some transactions come before themselves: by keys that one wrote and another read or wrote. Where a transaction read a key at
    its snapshot, it comes after those that had written the key by then, and before those that wrote it later. By value, if those that committed
    before it left the key as it was, it comes after these too."""
    after: Dict[int, Set[int]] = {place: set() for place in range(len(committed))}
    for key in KEYS:
        writers = [place for place, one in enumerate(committed) if any(touches(key, op) for op in one.ops)]
        for first, second in zip(writers, writers[1:]):
            after[first].add(second)
        for place, one in enumerate(committed):
            if key in one.keys_read():
                end = committed[place - 1].last if place > 0 else 0
                is_as_it_was = by_value and value_of(log, key, end) == value_of(log, key, one.snapshot)
                for writer in writers:
                    if writer != place:
                        is_before = committed[writer].last <= one.snapshot or writer < place and is_as_it_was
                        first, second = (writer, place) if is_before else (place, writer)
                        after[first].add(second)
    done: Set[int] = set()
    path: Set[int] = set()

    def visit(place: int) -> bool:
        if place in path:
            return True
        if place in done:
            return False
        path.add(place)
        if any(visit(other) for other in after[place]):
            return True
        path.remove(place)
        done.add(place)
        return False

    return any(visit(place) for place in after)


def broken(seed: int, by_value: bool) -> Tuple[int, Optional[str]]:
    """Returns the number of transactions of a drawn history that committed, and the law that it breaks."""
    log, committed, law = history(random.Random(seed), by_value)
    return len(committed), law or ("a cycle" if has_cycle(log, committed, by_value) else None)


def main() -> int:
    global planted
    failures: List[str] = []
    commits = 0
    for by_value in (False, True):
        for seed in range(HISTORIES):
            count, law = broken(seed, by_value)
            commits += count
            if law is not None:
                failures.append(f"history {seed} breaks: {law}")
    plants = [(plant, False) for plant in PLANTS] + [(plant, True) for plant in VALUE_PLANTS]
    found = 0
    for planted, by_value in plants:
        if any(broken(seed, by_value)[1] for seed in range(MOST_HISTORIES)):
            found += 1
        else:
            failures.append(f"not found: {planted}")
    for failure in failures:
        print(failure)
    print(f"serial: {2 * HISTORIES:,} histories, {commits:,} commits; {found} of {len(plants)} plants found")
    return 1 if failures else 0


if __name__ == "__main__":
    sys.exit(main())
