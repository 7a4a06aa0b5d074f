#!/usr/bin/env python3
"""Writes a write-ahead log of many MiB to standard output, which test.sh opens with the example:

    long_log.py BATCHES

Each batch adds 1 to the counter `a`, behind a MiB of log data, which a store passes over (docs/FORMATS.md). A batch fills
32 blocks of the log.
"""

import functools
import struct
import sys

BLOCK, HEADER, BLOCKS = 32768, 7, 32
FIRST, MIDDLE, LAST = 2, 3, 4
LOG_DATA, MERGE = 3, 2


def table_row(index):
    for _ in range(8):
        index = index >> 1 ^ (0x82F63B78 if index & 1 else 0)
    return index


TABLE = [table_row(index) for index in range(256)]


@functools.lru_cache(maxsize=None)
def checksum(data):
    """The masked CRC-32C of a record's type and data."""
    crc = 0xFFFFFFFF
    for byte in data:
        crc = crc >> 8 ^ TABLE[(crc ^ byte) & 0xFF]
    crc ^= 0xFFFFFFFF
    return ((crc >> 15 | crc << 17) + 0xA282EAD8) & 0xFFFFFFFF


def varint(number):
    groups = [number >> shift & 0x7F for shift in range(0, number.bit_length(), 7)]
    return bytes([*(group | 0x80 for group in groups[:-1]), groups[-1]])


def batch(sequence, length):
    """A batch of `length` bytes: log data, and a merge of `a` with 1."""
    merge = bytes([MERGE, 1]) + b"a" + bytes([8]) + struct.pack("<Q", 1)
    head = struct.pack("<QI", sequence, 1) + bytes([LOG_DATA])
    filler = length - len(head) - len(varint(length)) - len(merge)
    return head + varint(filler) + b"-" * filler + merge


def records(payload):
    """The blocks that a payload fills."""
    parts = [payload[at:at + BLOCK - HEADER] for at in range(0, len(payload), BLOCK - HEADER)]
    for place, data in enumerate(parts):
        kind = FIRST if place == 0 else LAST if place == len(parts) - 1 else MIDDLE
        yield struct.pack("<IHB", checksum(bytes([kind]) + data), len(data), kind) + data


for sequence in range(1, int(sys.argv[1]) + 1):
    for record in records(batch(sequence, BLOCKS * (BLOCK - HEADER))):
        sys.stdout.buffer.write(record)
