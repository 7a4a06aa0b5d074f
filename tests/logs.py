"""Write-ahead logs, written from their definitions: records (LevelDB, `log_format.md`) whose payloads are batches of writes (RocksDB,
`write_batch.cc`)."""

from typing import List, Sequence, Tuple

from model import DELETE, MERGE, PUT, RANGE, Write

BLOCK = 32768
HEADER = 7

# The kinds of records: a whole payload, and the parts of one.
FULL, FIRST, MIDDLE, LAST = 1, 2, 3, 4

# Tags of a batch's records.
TAGS = {DELETE: 0, PUT: 1, MERGE: 2, RANGE: 15}


def table_of(polynomial: int) -> List[int]:
    table = []
    for byte in range(256):
        for _ in range(8):
            byte = byte >> 1 ^ (polynomial if byte & 1 else 0)
        table.append(byte)
    return table


# CRC-32C's polynomial, bits reversed.
TABLE = table_of(0x82F63B78)


def crc32c(data: bytes) -> int:
    crc = 0xFFFFFFFF
    for byte in data:
        crc = crc >> 8 ^ TABLE[(crc ^ byte) & 0xFF]
    return crc ^ 0xFFFFFFFF


def masked(crc: int) -> int:
    return ((crc >> 15 | crc << 17) + 0xA282EAD8) & 0xFFFFFFFF


def record(kind: int, part: bytes) -> bytes:
    checksum = masked(crc32c(bytes([kind]) + part))
    return checksum.to_bytes(4, "little") + len(part).to_bytes(2, "little") + bytes([kind]) + part


def add_payload(log: bytearray, payload: bytes) -> None:
    """Appends the records of a payload: where a block has no more room for a header, it is filled with zeros."""
    is_first = True
    while True:
        room = BLOCK - len(log) % BLOCK
        if room < HEADER:
            log += bytes(room)
            room = BLOCK
        part, payload = payload[: room - HEADER], payload[room - HEADER :]
        kind = (FULL if not payload else FIRST) if is_first else LAST if not payload else MIDDLE
        log += record(kind, part)
        is_first = False
        if not payload:
            return


def log_of_payloads(payloads: Sequence[bytes]) -> bytes:
    log = bytearray()
    for payload in payloads:
        add_payload(log, payload)
    return bytes(log)


def varint(value: int) -> bytes:
    found = b""
    while value >= 128:
        found += bytes([value & 127 | 128])
        value >>= 7
    return found + bytes([value])


def batch_of(writes: Sequence[Write]) -> bytes:
    """A batch of writes whose sequences follow each other."""
    found = writes[0].seq.to_bytes(8, "little") + len(writes).to_bytes(4, "little")
    for write in writes:
        texts = [write.first] if write.kind == DELETE else [write.first, write.second]
        found += bytes([TAGS[write.kind]]) + b"".join(varint(len(text)) + text for text in texts)
    return found


def batches_of(writes: Sequence[Write], most: int) -> List[List[Write]]:
    """Writes in batches of at most a number. A gap between sequences ends a batch."""
    batches: List[List[Write]] = []
    for write in writes:
        if batches and len(batches[-1]) < most and batches[-1][-1].seq + 1 == write.seq:
            batches[-1].append(write)
        else:
            batches.append([write])
    return batches


def log_of(writes: Sequence[Write], most: int) -> Tuple[bytes, List[int]]:
    """The log of writes, and where each batch ends in it."""
    log, ends = bytearray(), []
    for batch in batches_of(writes, most):
        add_payload(log, batch_of(batch))
        ends.append(len(log))
    return bytes(log), ends
