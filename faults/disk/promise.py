"""The promises of a store, by the marks of its trace, and whether an opening keeps that."""

from __future__ import annotations

import signal
from pathlib import Path
from typing import List, Optional, Tuple

from drive import batches_of
from leftovers import leftovers_of
from stores import STORES

# The longest time of an opening, in seconds.
PATIENCE = 20


class Wrong(Exception):
    """A state that isn't what was promised."""


class Promise:
    """The writes that were acknowledged so far."""

    def __init__(self, acknowledged: List[int]) -> None:
        self.acknowledged, self.kept = list(acknowledged), len(acknowledged)
        self.pending: Optional[int] = None

    def hear(self, mark: str) -> None:
        """Takes what the process marked."""
        word, *rest = mark.split()
        if word == "try":
            self.pending = int(rest[0])
        elif word == "ack":
            self.acknowledged.append(int(rest[0]))
            self.pending = None
            if rest[1] == "1":
                self.kept = len(self.acknowledged)
        elif word == "refused":
            # One that was refused for good may be there at the next opening.
            self.pending = self.pending if rest[1] == "1" else None
        elif word == "synced":
            self.kept = len(self.acknowledged)
        elif word == "stuck":
            raise Wrong("a checkpoint or a sync fails once more than calls of the system")
        elif word == "opened":
            found = [int(number) for number in rest[0].split(",")] if rest else []
            self.check(found, True)
            self.acknowledged, self.kept, self.pending = found, len(found), None

    def check(self, found: List[int], has_all: bool) -> None:
        """Checks the batches that an opening found; all, if the machine didn't crash."""
        if self.pending is not None and found == self.acknowledged + [self.pending]:
            return
        least = len(self.acknowledged) if has_all else self.kept
        if len(found) < least or found != self.acknowledged[:len(found)]:
            lacks = [number for number in self.acknowledged[:least] if number not in found]
            raise Wrong(f"it has {len(found)} batches up to {found[-1:]}, and lacks {lacks[:5]} of {least}")

    def key(self) -> Tuple[int, int, Optional[int]]:
        """The key of promises that ask for the same."""
        return (self.kept, len(self.acknowledged), self.pending)


def open_batches(store: str, folder: Path, mode: str, seed: int) -> List[int]:
    """The batches that an opening finds. A second one finds the same, also if the first one changed the directory."""
    # One that hangs ends all.
    signal.alarm(PATIENCE)
    try:
        opened = STORES[store](folder, mode)
        found = batches_of(seed, opened.rows())
        # By the first of these an opening removes what is left over.
        work = (None, opened.next_log, opened.checkpoint)[len(found) % 3]
        is_done = work is None or work()
        opened.close()
        if not is_done:
            raise Wrong("a directory can't be written to")
        left = leftovers_of({file.name: file.read_bytes() for file in folder.iterdir()}) if work == opened.checkpoint else []
        if left:
            raise Wrong(f"a checkpoint leaves {left}")
        again = STORES[store](folder, mode)
        second = batches_of(seed, again.rows())
        again.close()
        if second != found:
            raise Wrong(f"a second opening has {len(second)} batches, and not {len(found)}")
        return found
    except Wrong:
        raise
    except Exception as error:
        raise Wrong(f"{type(error).__name__}: {error}") from None
    finally:
        signal.alarm(0)
