"""Logs and batches as the files of `cases/formats` spell them, and how what is read of them is printed."""

import re
from typing import Callable, Iterable, List, Optional, Tuple

from logs import BLOCK, FIRST, FULL, HEADER, LAST, MIDDLE, add_payload, batch_of, record
from model import DELETE, MERGE, PUT, RANGE, Write
from play import Wrong

RECORDS = {"full": FULL, "first": FIRST, "middle": MIDDLE, "last": LAST}
OPS = {"put": PUT, "delete": DELETE, "merge": MERGE, "range": RANGE}
WORDS = {kind: word for word, kind in OPS.items()}

# From how many on bytes that repeat are counted.
MANY = 3


def word_bytes(word: str) -> bytes:
    if word.startswith('"'):
        return word[1:-1].encode()
    return bytes.fromhex(word)


def spelled_bytes(line: str) -> bytes:
    found = b""
    for word in line.split():
        times, _, unit = word.rpartition("*")
        found += word_bytes(unit) * (int(times) if times else 1)
    return found


def spell(value: bytes) -> str:
    """Bytes as words: text, in hexadecimal, and counted where they repeat."""
    words: List[str] = []
    for run in re.finditer(rb"(.)\1{2,}|[0-9A-Za-z]|.", value, re.DOTALL):
        count, byte = len(run[0]), run[0][:1]
        is_text = byte.isalnum()
        if count >= MANY:
            words.append(f'{count}*"{byte.decode()}"' if is_text else f"{count}*{byte.hex()}")
        elif is_text and words and words[-1].startswith('"'):
            words[-1] = words[-1][:-1] + byte.decode() + '"'
        else:
            words.append(f'"{byte.decode()}"' if is_text else byte.hex())
    return " ".join(words) or '""'


def op_of(words: str) -> Write:
    """A change, as `put "a" "1"`, without a sequence."""
    kind, *texts = words.split()
    first, second = [spelled_bytes(text) for text in texts + ['""']][:2]
    return Write(0, OPS[kind], first, second)


def ops_of(words: str) -> List[Write]:
    return [op_of(op) for op in words.split(",") if op.strip()]


def batch_of_line(rest: str) -> bytes:
    first, _, changes = rest.partition(" ")
    return batch_of([Write(int(first) + place, *op[1:]) for place, op in enumerate(ops_of(changes))])


def payload_of(line: str) -> Optional[bytes]:
    word, _, rest = line.partition(" ")
    if word == "payload":
        return spelled_bytes(rest)
    return batch_of_line(rest) if word == "batch" else None


def payloads_of_lines(lines: Iterable[str]) -> List[bytes]:
    payloads = []
    for line in lines:
        payload = payload_of(line)
        if payload is None:
            raise Wrong(f"{line} is no payload")
        payloads.append(payload)
    return payloads


def log_of_lines(front: bytes, lines: Iterable[str]) -> bytes:
    log = bytearray(front)
    for line in lines:
        word, _, rest = line.partition(" ")
        payload = payload_of(line)
        if payload is not None:
            add_payload(log, payload)
        elif word == "bytes":
            log += spelled_bytes(rest)
        else:
            log += record(RECORDS[word], spelled_bytes(rest))
    return bytes(log)


def record_lines(log: bytes) -> List[str]:
    """The records of a log, each by its checksum as it is stored, its length, its type and its data. Checksums aren't looked at."""
    names = {kind: word for word, kind in RECORDS.items()}
    lines, offset = [], 0
    while offset < len(log):
        room = BLOCK - offset % BLOCK
        header = log[offset : offset + HEADER]
        if room < HEADER or len(header) < HEADER:
            part = log[offset : offset + room]
            lines.append(f"{offset}: {spell(part)}")
        else:
            length = int.from_bytes(header[4:6], "little")
            part = log[offset : offset + HEADER + length]
            lines.append(f"{offset}: {header[:4].hex()} {length} {names.get(header[6], 'other')} {spell(part[HEADER:])}")
            part = bytes(HEADER + length)
        offset += len(part)
    return lines


def write_line(write: Write, spelling: Callable[[bytes], str] = spell) -> str:
    texts = [write.first] if write.kind == DELETE else [write.first, write.second]
    return " ".join([str(write.seq), WORDS[write.kind]] + [spelling(text) for text in texts])


def ended_words(name: str) -> str:
    """The end of a log's reading, in words: `Log(BadChecksum, 5)` is `log fault bad checksum 5`."""
    name = re.sub(r"^(?:Fault|Log)\(", "LogFault(", name)
    name = re.sub(r"^Batch\(", "BatchFault(", name)
    words = re.sub(r"(?<!^)([A-Z])", r" \1", re.sub(r"[(),]", " ", name))
    return " ".join(words.lower().split())


def rows_of(tries: Iterable[Tuple[str, str]]) -> List[str]:
    """A row for each try, by its place. Neighbours of which the same came are one row."""
    rows: List[Tuple[str, str, str]] = []
    for place, came in tries:
        if rows and rows[-1][2] == came:
            rows[-1] = (rows[-1][0], place, came)
        else:
            rows.append((place, place, came))
    return [f"{first}: {came}" if first == last else f"{first}-{last}: {came}" for first, last, came in rows]
