"""The operator `mixed` as ordinary code: parts, operands, and what they do to a value.

A part is a payload, its length and its kind, in this order, so that the last part of an operand is found from its end. Bytes that are left
before the first part replace the value, and so do bytes that end with no part.
"""

from dataclasses import dataclass
from typing import Callable, Iterable, List, NamedTuple, Optional

ADD, MAX_BYTES, MIN_BYTES, SET, APPEND, OR, AND, XOR, MAX_REGISTERS, TAIL = range(1, 11)
MAX_U64, MIN_U64, ADD_U64, SET_UNION = 11, 12, 13, 14
NUMBERS = range(ADD, SET_UNION + 1)
OF_NUMBERS = (ADD, MAX_U64, MIN_U64, ADD_U64)
LIMIT = 2**64


@dataclass(frozen=True)
class Lengths:
    """How lengths are spelled: one byte below `marker`, else four bytes and the marker."""

    marker: int = 255


class Kind(NamedTuple):
    """The number of an operator, and its parameter: the delimiter of `append`, the number of bytes that `tail` keeps, or 0."""

    number: int
    parameter: int = 0


class Part(NamedTuple):
    kind: Kind
    payload: bytes


class Cut(NamedTuple):
    """An operand's last part, and the bytes before it."""

    part: Part
    rest: bytes


def number_of(value: bytes) -> int:
    return int.from_bytes(value, "little") if len(value) == 8 else 0


def counted(number: int) -> bytes:
    return (number % LIMIT).to_bytes(8, "little")


def members(value: bytes) -> List[bytes]:
    """The members that are whole, in the order in which they stand: each is two bytes of its length, low byte first, and its bytes."""
    found = []
    while len(value) >= 2:
        end = 2 + int.from_bytes(value[:2], "little")
        if len(value) < end:
            break
        found.append(value[2:end])
        value = value[end:]
    return found


def set_bytes(those: Iterable[bytes]) -> bytes:
    return b"".join(len(member).to_bytes(2, "little") + member for member in those)


def union(older: bytes, newer: bytes) -> bytes:
    """The lesser of the first members comes first, and once if both have it."""
    left, right = members(older), members(newer)
    merged = []
    while left and right:
        least = min(left[0], right[0])
        merged.append(least)
        left = left[left[0] == least :]
        right = right[right[0] == least :]
    return set_bytes(merged + left + right)


def is_set(value: bytes) -> bool:
    """Whether the bytes are members that ascend, and nothing else."""
    those = members(value)
    return set_bytes(those) == value and those == sorted(set(those))


def bytewise(function: Callable[[int, int], int], older: bytes, newer: bytes) -> bytes:
    """Byte by byte; the shorter one is filled with zeros."""
    longest = max(len(older), len(newer))
    pairs = zip(older.ljust(longest, b"\0"), newer.ljust(longest, b"\0"))
    return bytes(function(a, b) for a, b in pairs)


def first(kind: Kind, payload: bytes) -> bytes:
    """The value that a part makes if there is none."""
    if kind.number in OF_NUMBERS:
        return counted(number_of(payload))
    if kind.number == TAIL:
        return payload[max(0, len(payload) - kind.parameter) :]
    return payload


def combined(kind: Kind, older: bytes, newer: bytes) -> bytes:
    """The value that a part makes of the one before it, and the payload that replaces two."""
    number, parameter = kind
    if number == ADD:
        return counted(number_of(older) + number_of(newer))
    if number == MAX_U64:
        return counted(max(number_of(older), number_of(newer)))
    if number == MIN_U64:
        return counted(min(number_of(older), number_of(newer)))
    if number == ADD_U64:
        return counted(min(number_of(older) + number_of(newer), LIMIT - 1))
    if number == SET_UNION:
        return union(older, newer)
    if number == MAX_BYTES:
        return max(older, newer)
    if number == MIN_BYTES:
        return min(older, newer)
    if number == SET:
        return newer
    if number == APPEND:
        return older + bytes([parameter]) + newer
    if number == OR:
        return bytewise(lambda a, b: a | b, older, newer)
    if number == AND:
        return bytewise(lambda a, b: a & b, older, newer)
    if number == XOR:
        return bytewise(lambda a, b: a ^ b, older, newer)
    if number == MAX_REGISTERS:
        return bytewise(max, older, newer)
    both = older + newer
    return both[max(0, len(both) - parameter) :]


def width_of(number: int) -> int:
    """The number of bytes of an operator's parameter."""
    return {APPEND: 1, TAIL: 2}.get(number, 0)


def spelled(part: Part, lengths: Lengths = Lengths()) -> bytes:
    (number, parameter), payload = part
    size = len(payload)
    length = bytes([size]) if size < lengths.marker else size.to_bytes(4, "little") + bytes([lengths.marker])
    return payload + length + parameter.to_bytes(width_of(number), "little") + bytes([number])


def cut(operand: bytes, lengths: Lengths = Lengths()) -> Optional[Cut]:
    """The last part, if the operand ends with one."""
    if not operand or operand[-1] not in NUMBERS:
        return None
    number, rest = operand[-1], operand[:-1]
    width = width_of(number)
    if len(rest) < width:
        return None
    rest, parameter = rest[: len(rest) - width], int.from_bytes(rest[len(rest) - width :], "little")
    if not rest:
        return None
    size, rest = rest[-1], rest[:-1]
    if size == lengths.marker:
        if len(rest) < 4:
            return None
        size, rest = int.from_bytes(rest[-4:], "little"), rest[:-4]
        if size < lengths.marker:
            return None
    elif size > lengths.marker:
        return None
    if len(rest) < size:
        return None
    place = len(rest) - size
    return Cut(Part(Kind(number, parameter), rest[place:]), rest[:place])


def parts_of(operand: bytes, lengths: Lengths = Lengths()) -> tuple[Optional[bytes], List[Part]]:
    """The bytes before the first part, if they replace the value, and the parts, the first one first."""
    parts: List[Part] = []
    rest = operand
    while (found := cut(rest, lengths)) is not None:
        parts.insert(0, found.part)
        rest = found.rest
    return (rest if rest or not parts else None), parts


def value_after(value: Optional[bytes], operand: bytes, lengths: Lengths = Lengths()) -> bytes:
    """The value that an operand makes of a value, or of none: each part in turn."""
    front, parts = parts_of(operand, lengths)
    after = value if front is None else front
    for kind, payload in parts:
        after = first(kind, payload) if after is None else combined(kind, after, payload)
    assert after is not None
    return after


def joined(older: bytes, part: Part, lengths: Lengths = Lengths()) -> bytes:
    """An operand, and then one part."""
    if part.kind.number == SET:
        return spelled(part, lengths)
    if not older:
        return spelled(Part(Kind(SET), b""), lengths) + spelled(part, lengths)
    last = cut(older, lengths)
    if last is None or last.part.kind != part.kind:
        return older + spelled(part, lengths)
    both = combined(part.kind, last.part.payload, part.payload)
    return last.rest + spelled(Part(part.kind, both), lengths)


def pair(older: bytes, newer: bytes, lengths: Lengths = Lengths()) -> bytes:
    """One operand that replaces an older and a newer one: only the parts at the seam meet."""
    front, parts = parts_of(newer, lengths)
    if front is not None:
        return newer
    return joined(older, parts[0], lengths) + b"".join(spelled(part, lengths) for part in parts[1:])


def has_shape(part: Part) -> bool:
    """Numbers have 8 bytes, and a set its members in order."""
    if part.kind.number in OF_NUMBERS:
        return len(part.payload) == 8
    return part.kind.number != SET_UNION or is_set(part.payload)


def is_operand(operand: bytes) -> bool:
    """Whether the bytes are parts and nothing else, each with a payload of its shape."""
    front, parts = parts_of(operand)
    return front is None and all(has_shape(part) for part in parts)
