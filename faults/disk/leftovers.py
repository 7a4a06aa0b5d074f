"""The files of a database's directory that no opening reads, by their names and by the newest list of run files."""

from __future__ import annotations

import re
import struct
from typing import List, Mapping, Tuple

# The bytes of a list before its entries, those of an entry, which begins with the number of its run file, and those after the entries.
HEAD, ENTRY, CHECKSUM = 32, 36, 4

CHECKPOINT = re.compile(r"([0-9]+)-([0-9]+)\.(base|runs)")


def runs_of(data: bytes) -> List[int]:
    """The numbers of the run files that a list names."""
    return [struct.unpack_from("<Q", data, offset)[0] for offset in range(HEAD, len(data) - CHECKSUM - ENTRY + 1, ENTRY)]


def _place(name: str) -> Tuple[int, int, str]:
    """The place of a checkpoint among others, of which the greatest is read."""
    found = CHECKPOINT.fullmatch(name)
    assert found is not None
    return int(found[1]), int(found[2]), found[3]


def leftovers_of(files: Mapping[str, bytes]) -> List[str]:
    """The checkpoints, logs and run files that the newest checkpoint doesn't need, and files that were being written."""
    checkpoints = sorted(filter(CHECKPOINT.fullmatch, files), key=_place)
    newest = checkpoints[-1] if checkpoints else ""
    log = _place(newest)[0] if newest else 0
    runs = runs_of(files[newest]) if newest.endswith(".runs") else []
    found = checkpoints[:-1]
    for name in files:
        number, _, kind = name.partition(".")
        if kind.endswith("new") or (kind == "log" and int(number) < log) or (kind == "run" and int(number) not in runs):
            found.append(name)
    return sorted(found)
