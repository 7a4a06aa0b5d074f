#!/usr/bin/env python3
"""Tries the laws of the operator `mixed` on its plain model: exhaustively on short byte strings, and on drawn ones.

    tests/mixed.py

Short strings take every byte that means something, with a marker of long lengths that is small. Then the model is changed: the tests have
to find each of `PLANTS`. The last line counts.
"""

import inspect
import itertools
import random
import sys
import types
from typing import Any, Iterable, List, Optional, Tuple

import mixed_model as model
from mixed_model import Kind, Lengths, Part

SMALL = Lengths(marker=2)

# Faults of the model, as edits of its source: the tests have to find each.
PLANTS = {
    "a seam joins parts of two delimiters": ("last.part.kind != part.kind", "last.part.kind.number != part.kind.number"),
    "a seam joins parts of two operators": ("last.part.kind != part.kind", "last.part.kind.parameter != part.kind.parameter"),
    "an operand without bytes is no part": ("    if not older:\n        return spelled(Part(Kind(SET), b\"\"), lengths) + ", "    if not older:\n        return "),
    "a part that sets follows the others": ("    if part.kind.number == SET:\n", "    if False:\n"),
    "a length has two spellings": ("        if size < lengths.marker:\n", "        if False:\n"),
    "a first part is joined with no bytes": ("first(kind, payload) if after is None else combined(kind, after, payload)", "combined(kind, after or b\"\", payload)"),
    "bytes before the first part are ignored": ("(rest if rest or not parts else None)", "(None if parts else rest)"),
    "the parts are read from the end": ("parts.insert(0, found.part)", "parts.append(found.part)"),
    "a tail that begins a value is whole": ("payload[max(0, len(payload) - kind.parameter) :]", "payload"),
    "a union keeps a twin": ("left = left[left[0] == least :]", "left = left[left[0] == least < right[0] :]"),
    "a union loses the last members": ("set_bytes(merged + left + right)", "set_bytes(merged + left)"),
    "a union takes the newer members first": ("least = min(left[0], right[0])", "least = right[0]"),
    "a member that is cut off is a member": ("        if len(value) < end:\n", "        if len(value) < 2:\n"),
    "a limited sum wraps": ("counted(min(number_of(older) + number_of(newer), LIMIT - 1))", "counted(number_of(older) + number_of(newer))"),
    "the sum of large numbers is cut": ("counted(number_of(older) + number_of(newer))", "counted(min(number_of(older) + number_of(newer), LIMIT - 1))"),
}


def fails(of: Any, x: bytes, y: bytes, z: bytes, marker: int) -> Optional[str]:
    """The law of a model that three byte strings break."""
    lengths = of.Lengths(marker)

    def pair(a: bytes, b: bytes) -> bytes:
        return of.pair(a, b, lengths)

    def after(value: Optional[bytes], operand: bytes) -> bytes:
        return of.value_after(value, operand, lengths)

    if pair(pair(x, y), z) != pair(x, pair(y, z)):
        return "pair_assoc"
    if after(x, pair(y, z)) != after(after(x, y), z):
        return "join_pair"
    if after(None, pair(x, y)) != after(after(None, x), y):
        return "first_pair"
    return None


def short_strings() -> List[bytes]:
    letters = [0, 1, 2, 4, 5]
    return [bytes(word) for size in range(4) for word in itertools.product(letters, repeat=size)]


def drawn_members(rng: random.Random) -> bytes:
    """Members, mostly in order, and sometimes cut off."""
    those = [bytes(rng.choice([0, 1, 255]) for _ in range(rng.randrange(3))) for _ in range(rng.randrange(5))]
    whole = model.set_bytes(those if rng.random() < 0.2 else sorted(set(those)))
    return whole if rng.random() < 0.8 else whole[: rng.randrange(len(whole) + 1)]


def drawn_payload(rng: random.Random, number: int = 0) -> bytes:
    if number == model.SET_UNION and rng.random() < 0.9:
        return drawn_members(rng)
    size = rng.choice([0, 1, 2, 3, 7, 8, 8, 8, 9, 12])
    return bytes(rng.choice([0, 1, 2, 4, 5, 10, 127, 128, 255]) for _ in range(size))


def drawn_part(rng: random.Random) -> Part:
    number = rng.choice(model.NUMBERS)
    parameter = {model.APPEND: rng.choice([0, 44]), model.TAIL: rng.choice([0, 1, 3, 300])}.get(number, 0)
    return Part(Kind(number, parameter), drawn_payload(rng, number))


def drawn_operand(rng: random.Random, lengths: Lengths) -> bytes:
    """Some parts, of which neighbours often have one kind, and sometimes with a byte changed, cut or added."""
    parts: List[Part] = []
    for _ in range(rng.randrange(5)):
        again = parts and rng.random() < 0.4
        kind = parts[-1].kind if again else drawn_part(rng).kind
        parts.append(Part(kind, drawn_payload(rng, kind.number)))
    whole = bytearray(b"".join(model.spelled(part, lengths) for part in parts))
    for _ in range(rng.choice([0, 0, 0, 1, 2])):
        place = rng.randrange(len(whole) + 1)
        whole[place : place + rng.randrange(2)] = bytes(rng.randrange(14) for _ in range(rng.randrange(3)))
    return bytes(whole)


def triples(seed: int, drawn: int) -> Iterable[Tuple[bytes, bytes, bytes, Lengths]]:
    strings = short_strings()
    rng = random.Random(seed)
    for _ in range(drawn):
        lengths = rng.choice([SMALL, Lengths(marker=9), Lengths()])
        yield drawn_operand(rng, lengths), drawn_operand(rng, lengths), drawn_operand(rng, lengths), lengths
    for x, y in itertools.product(strings, strings):
        yield x, y, rng.choice(strings), SMALL
        yield rng.choice(strings), x, y, SMALL
    tiny = [s for s in strings if len(s) < 3]
    for x, y, z in itertools.product(tiny, repeat=3):
        yield x, y, z, SMALL


def broken(of: Any, drawn: int) -> Optional[str]:
    for x, y, z, lengths in triples(2, drawn):
        law = fails(of, x, y, z, lengths.marker)
        if law:
            return f"{law}: {x!r} {y!r} {z!r} with a marker of {lengths.marker}"
    return None


# A value or none, parts, and the value after them.
WORKED: List[Tuple[Optional[bytes], List[Part], bytes]] = [
    (None, [Part(Kind(model.ADD), b"\x05"), Part(Kind(model.ADD), bytes([255] * 8))], bytes([255] * 8)),
    (bytes([255] * 8), [Part(Kind(model.ADD), bytes([2, 0, 0, 0, 0, 0, 0, 0]))], bytes([1, 0, 0, 0, 0, 0, 0, 0])),
    (None, [Part(Kind(model.MIN_BYTES), b"b")], b"b"),
    (b"", [Part(Kind(model.MIN_BYTES), b"b")], b""),
    (None, [Part(Kind(model.APPEND, 44), b"a"), Part(Kind(model.APPEND, 59), b"b")], b"a;b"),
    (b"", [Part(Kind(model.APPEND, 44), b"a")], b",a"),
    (None, [Part(Kind(model.TAIL, 2), b"abc")], b"bc"),
    (b"\x07\x01", [Part(Kind(model.AND), b"\x06")], b"\x06\x00"),
    (b"abc", [Part(Kind(model.MAX_U64), bytes([1] + [0] * 7))], bytes([1] + [0] * 7)),
    (bytes([254] + [255] * 7), [Part(Kind(model.ADD_U64), bytes([2] + [0] * 7))], bytes([255] * 8)),
    (bytes([254] + [255] * 7), [Part(Kind(model.ADD_U64), bytes([1] + [0] * 7))], bytes([255] * 8)),
    (b"\1\0a\2\0bb\1\0d", [Part(Kind(model.SET_UNION), b"\2\0bb\1\0c")], b"\1\0a\2\0bb\1\0c\1\0d"),
    (b"\1\0b\1\0a\3\0cd", [Part(Kind(model.SET_UNION), b"\1\0a\1\0e")], b"\1\0a\1\0b\1\0a\1\0e"),
    (None, [Part(Kind(model.SET_UNION), b"\1\0b"), Part(Kind(model.SET_UNION), b"\0\0")], b"\0\0\1\0b"),
]


def unworked(of: Any) -> Optional[str]:
    """A worked case in which a model has another value."""
    for value, parts, wanted in WORKED:
        operand = b"".join(of.spelled(part) for part in parts)
        if of.value_after(value, operand) != wanted:
            return f"{parts} over {value!r} give {of.value_after(value, operand)!r}"
    return None


def round_trips(of: Any) -> Optional[str]:
    """A part that isn't read as it was written, or that isn't written as it was read."""
    rng = random.Random(1)
    for _ in range(20000):
        lengths = rng.choice([SMALL, Lengths()])
        part, rest = drawn_part(rng), drawn_operand(rng, lengths)
        found = of.cut(rest + of.spelled(part, lengths), lengths)
        if found is None or found.part != part or found.rest != rest:
            return f"{part} after {rest!r} is read as {found}"
        again = of.cut(rest, lengths)
        if again is not None and again.rest + of.spelled(again.part, lengths) != rest:
            return f"{rest!r} is written as another operand"
    return None


def fault_of(of: Any) -> Optional[str]:
    """The first test that a model fails."""
    return unworked(of) or round_trips(of) or broken(of, 40000)


def changed(old: str, new: str) -> Any:
    """The model with an edit of its source."""
    source = inspect.getsource(model)
    assert source.count(old) == 1, old
    made = types.ModuleType("changed")
    sys.modules["changed"] = made
    exec(compile(source.replace(old, new), "changed", "exec"), made.__dict__)
    return made


def main() -> int:
    fault = fault_of(model)
    if fault:
        print(f"mixed: {fault}")
        return 1
    missed = [name for name, edit in PLANTS.items() if not fault_of(changed(*edit))]
    for name in missed:
        print(f"mixed: not found: {name}")
    print(f"mixed: the laws hold, and {len(PLANTS) - len(missed)} of {len(PLANTS)} faults were found")
    return 1 if missed else 0


if __name__ == "__main__":
    sys.exit(main())
