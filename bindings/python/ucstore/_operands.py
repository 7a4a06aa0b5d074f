"""Merges by the operators that `Operator.MIXED` knows."""

from __future__ import annotations

import enum
from typing import TYPE_CHECKING, Iterable, Optional, Set


class Part(enum.IntEnum):
    """Operators of a merge under `Operator.MIXED`.

    A number has 8 bytes, little-endian; a value of another length counts as 0. "Byte by byte" fills the shorter byte string with zeros.
    """

    ADD = 1
    """Adds a number. Sums wrap at 2^64."""
    MAX_BYTES = 2
    """Keeps the greater byte string."""
    MIN_BYTES = 3
    """Keeps the lesser byte string."""
    SET = 4
    """Replaces the value, as a put does."""
    APPEND = 5
    """Appends the delimiter, which is the parameter, and then the payload."""
    OR = 6
    """Byte by byte, the bits of either."""
    AND = 7
    """Byte by byte, the bits of both."""
    XOR = 8
    """Byte by byte, the bits of one of both."""
    MAX_REGISTERS = 9
    """Byte by byte, the greater byte."""
    TAIL = 10
    """Appends the payload, and keeps the last bytes, at most as many as the parameter, below 2^16."""
    MAX_U64 = 11
    """Keeps the greater number."""
    MIN_U64 = 12
    """Keeps the lesser number."""
    ADD_U64 = 13
    """Adds a number without a sign. A sum is at most 2^64 - 1."""
    SET_UNION = 14
    """Adds members to a set, as `set_bytes` encodes them. It takes time in the size of both sets."""


def checked(parameter: int) -> int:
    """Returns a parameter. Raises `UnknownOperator` for one that its field would truncate."""
    if not 0 <= parameter < 2**32:
        from . import UnknownOperator

        raise UnknownOperator()
    return parameter


class MergesParts:
    """Calls that merge by an operator of `Part`. They raise what `merge` does."""

    def merge_part(self, part: Part, key: bytes, payload: bytes, parameter: int = 0) -> None:
        """Merges a payload into a key's value. Raises `UnknownOperator` for a parameter out of range, and `BadOperand` for a number that
        does not have 8 bytes or a set that is not in order."""
        raise NotImplementedError

    def add(self, key: bytes, amount: int) -> None:
        """Adds a number, modulo 2^64."""
        self.merge_part(Part.ADD, key, (amount % 2**64).to_bytes(8, "little"))

    def append(self, key: bytes, payload: bytes, delimiter: bytes = b",") -> None:
        """Appends a delimiter of one byte, and then bytes. The first bytes of a key have no delimiter before them."""
        self.merge_part(Part.APPEND, key, payload, ord(delimiter))

    def maximum(self, key: bytes, payload: bytes) -> None:
        """Keeps the greater byte string."""
        self.merge_part(Part.MAX_BYTES, key, payload)

    def minimum(self, key: bytes, payload: bytes) -> None:
        """Keeps the lesser byte string."""
        self.merge_part(Part.MIN_BYTES, key, payload)

    def bit_or(self, key: bytes, bits: bytes) -> None:
        """Sets bits of a byte string."""
        self.merge_part(Part.OR, key, bits)

    def union(self, key: bytes, members: Iterable[bytes]) -> None:
        """Adds members to a set. Raises `TooLong` for a member of 2^16 bytes or more."""
        self.merge_part(Part.SET_UNION, key, set_bytes(members))


class ReadsParts:
    """Reads of values that merges by `Part` make. They raise what `get` does."""

    if TYPE_CHECKING:

        def get(self, key: bytes) -> Optional[bytes]: ...

    def get_int(self, key: bytes) -> Optional[int]:
        """Returns the number that a key's value encodes, as `int_of` reads it, or `None` for no value."""
        return int_of(self.get(key))

    def get_set(self, key: bytes) -> Optional[Set[bytes]]:
        """Returns the members of a key's value, as `set_of` reads them, or `None` for no value."""
        return set_of(self.get(key))


def set_bytes(members: Iterable[bytes]) -> bytes:
    """Encodes a set: its members in ascending order, each 2 bytes of its length, little-endian, and its bytes. Raises `TooLong` for a
    member of 2^16 bytes or more."""
    ordered = sorted({bytes(memoryview(member)) for member in members})
    if any(len(member) >= 2**16 for member in ordered):
        from . import TooLong

        raise TooLong()
    return b"".join(len(member).to_bytes(2, "little") + member for member in ordered)


def set_of(value: Optional[bytes]) -> Optional[Set[bytes]]:
    """Returns the members of a value, or `None` for no value. Bytes that encode no member end them."""
    if value is None:
        return None
    members, place = set(), 0
    while place + 2 <= len(value):
        start = place + 2
        place = start + int.from_bytes(value[place:start], "little")
        if place > len(value):
            break
        members.add(value[start:place])
    return members


def int_of(value: Optional[bytes]) -> Optional[int]:
    """Returns the signed number that a value encodes, or `None` for no value. A value of another length than 8 bytes counts as 0."""
    if value is None:
        return None
    return int.from_bytes(value, "little", signed=True) if len(value) == 8 else 0
