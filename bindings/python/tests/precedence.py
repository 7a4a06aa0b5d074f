"""Whether committed transactions are serial, told from what each one read and wrote alone.

Each write of a key has a value of its own, and a transaction that writes a key has read it before. So each version of a key is known, and the
one after it. A transaction comes after those that wrote what it read, and before those that wrote the next versions. They are serial if
and only if this order has no cycle.
"""

from typing import Dict, List, NamedTuple, Optional, Tuple

Version = Tuple[bytes, Optional[bytes]]


class Committed(NamedTuple):
    """A transaction that has committed: the value of each key that it read, None for none, and of each key that it wrote."""

    reads: Dict[bytes, Optional[bytes]]
    writes: Dict[bytes, bytes]


def _edges(history: List[Committed]) -> List[List[int]]:
    """For each transaction those that come after it. Raises `ValueError` if two wrote the next version after the same one."""
    writers: Dict[Version, int] = {}
    next_writers: Dict[Version, int] = {}
    for place, one in enumerate(history):
        for key, value in one.writes.items():
            writers[key, value] = place
            if next_writers.setdefault((key, one.reads[key]), place) != place:
                raise ValueError(f"two transactions replaced {one.reads[key]!r} of {key!r}: an update is lost")
    after: List[List[int]] = [[] for _ in history]
    for place, one in enumerate(history):
        for version in one.reads.items():
            if version[1] is not None:
                after[writers[version]].append(place)
            following = next_writers.get(version, place)
            if following != place:
                after[place].append(following)
    return after


def cycle(history: List[Committed]) -> Optional[List[int]]:
    """Returns the places of transactions each of which comes before the next, and the last before the first, or None."""
    after = _edges(history)
    state = [0] * len(history)
    for root in range(len(history)):
        path: List[int] = []
        stack = [(root, iter(after[root]))] if state[root] == 0 else []
        while stack:
            place, rest = stack[-1]
            if state[place] == 0:
                state[place] = 1
                path.append(place)
            following = next(rest, None)
            if following is None:
                state[place] = 2
                path.pop()
                stack.pop()
            elif state[following] == 1:
                return path[path.index(following):]
            elif state[following] == 0:
                stack.append((following, iter(after[following])))
    return None
