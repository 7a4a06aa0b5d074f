"""Merges by the operators of `Operator.MIXED`, beside their plain model in tests/mixed_model.py."""

import random
import struct
import sys
import unittest
from pathlib import Path
from tempfile import TemporaryDirectory
from typing import Dict, List, Optional, Tuple

sys.path.insert(0, str(Path(__file__).resolve().parents[3] / "tests"))

import mixed_model as model  # noqa: E402
import ucstore  # noqa: E402
from mixed_model import Kind  # noqa: E402
from ucstore import BadOperand, Db, Operator, Options, Part, Store, UnknownOperator  # noqa: E402

KEYS = [b"", b"a", b"a\x00", b"b", b"c"]
Values = Dict[bytes, bytes]


def drawn_payload(rng: random.Random, longest: int = 12) -> bytes:
    size = rng.choice([0, 1, 2, 7, 8, 8, 8, longest])
    return bytes(rng.choice([0, 1, 2, 4, 5, 10, 127, 255]) for _ in range(size))


def drawn_part(rng: random.Random) -> model.Part:
    number = rng.choice(model.NUMBERS)
    parameter = {model.APPEND: rng.choice([0, 44]), model.TAIL: rng.choice([0, 1, 3, 300])}.get(number, 0)
    long = rng.choice([12, 254, 255, 256, 300, 70000]) if rng.random() < 0.05 else 12
    return model.Part(Kind(number, parameter), drawn_payload(rng, long))


def shaped(part: model.Part) -> bytes:
    """A payload of the shape that the operator asks for."""
    if part.kind.number in model.OF_NUMBERS:
        return part.payload[:8].ljust(8, b"\0")
    if part.kind.number == model.SET_UNION:
        return ucstore.set_bytes(part.payload[at : at + 2] for at in range(0, len(part.payload), 2))
    return part.payload


def drawn_operand(rng: random.Random) -> bytes:
    """One part, several, or several with bytes changed."""
    operand = bytearray(b"".join(model.spelled(drawn_part(rng)) for _ in range(rng.choice([1, 1, 1, 2, 3, 0]))))
    if rng.random() < 0.1:
        place = rng.randrange(len(operand) + 1)
        operand[place : place + rng.randrange(2)] = bytes(rng.randrange(14) for _ in range(rng.randrange(3)))
    return bytes(operand)


class Operands(unittest.TestCase):
    def test_each_part_is_spelled_as_the_model_spells_it(self) -> None:
        rng = random.Random(11)
        for _ in range(3000):
            part = drawn_part(rng)
            payload = shaped(part)
            wanted = model.spelled(model.Part(part.kind, payload))
            found = ucstore.operand_bytes(Part(part.kind.number), payload, part.kind.parameter)
            self.assertEqual(found, wanted)
            self.assertTrue(ucstore.is_operand(found))

    def test_bytes_are_operands_as_the_model_says(self) -> None:
        rng = random.Random(12)
        counts = [0, 0]
        for _ in range(20000):
            operand = drawn_operand(rng)
            self.assertEqual(ucstore.is_operand(operand), model.is_operand(operand), operand)
            counts[ucstore.is_operand(operand)] += 1
        self.assertGreater(min(counts), 1000)

    def test_bad_payloads_are_rejected(self) -> None:
        for part in (Part.ADD, Part.MAX_U64, Part.MIN_U64, Part.ADD_U64):
            for size in (0, 7, 9):
                with self.assertRaises(BadOperand):
                    ucstore.operand_bytes(part, bytes(size))
        for part, parameter in ((0, 0), (15, 0), (Part.ADD, 1), (Part.APPEND, 256), (Part.TAIL, 2**16), (Part.SET, 2**32), (Part.OR, -1)):
            with self.assertRaises(UnknownOperator):
                ucstore.operand_bytes(part, bytes(8), parameter)


def merged(values: Values, key: bytes, operand: bytes) -> None:
    values[key] = model.value_after(values.get(key), operand)


class Stores(unittest.TestCase):
    def play(self, rng: random.Random, steps: int) -> None:
        options = Options(write_buffer_size=rng.choice([1, 200, 2000, 10**6]), compaction_trigger=rng.choice([2, 4]))
        with Store(Operator.MIXED, options) as store:
            values: Values = {}
            kept: List[Tuple[int, Values]] = []
            for _ in range(steps):
                self.step(rng, store, values, kept)
            self.compare(store, values, kept)
            store.flush()
            store.compact()
            self.compare(store, values, kept)

    def step(self, rng: random.Random, store: Store, values: Values, kept: List[Tuple[int, Values]]) -> None:
        key, kind = rng.choice(KEYS), rng.randrange(20)
        if kind < 13:
            operand = drawn_operand(rng)
            store.merge(key, operand)
            merged(values, key, operand)
        elif kind < 15:
            value = drawn_payload(rng)
            store.put(key, value)
            values[key] = value
        elif kind == 15:
            store.delete(key)
            values.pop(key, None)
        elif kind == 16:
            end = rng.choice(KEYS)
            store.delete_range(key, end)
            for gone in [held for held in values if key <= held < end]:
                del values[gone]
        elif kind == 17:
            kept.append((store.take_snapshot(), dict(values)))
        elif kind == 18:
            store.flush()
        else:
            store.compact()

    def compare(self, store: Store, values: Values, kept: List[Tuple[int, Values]]) -> None:
        self.assertEqual({key: store.get(key) for key in KEYS}, {key: values.get(key) for key in KEYS})
        self.assertEqual(dict(store.items()), values)
        for sequence, then in kept:
            self.assertEqual({key: store.get_at(key, sequence) for key in KEYS}, {key: then.get(key) for key in KEYS})

    def test_drawn_writes(self) -> None:
        rng = random.Random(13)
        for _ in range(1200):
            self.play(rng, rng.choice([5, 30, 120]))

    def test_calls_for_parts(self) -> None:
        with Store(Operator.MIXED) as store:
            for amount in (5, -7, 2**63):
                store.add(b"visits", amount)
            store.append(b"feed", b"a")
            store.append(b"feed", b"b")
            store.maximum(b"best", b"010")
            store.maximum(b"best", b"009")
            store.minimum(b"least", b"b")
            store.minimum(b"least", b"a")
            store.bit_or(b"seen", b"\x01")
            store.bit_or(b"seen", b"\x04\x80")
            self.assertEqual(store.get_int(b"visits"), 2**63 - 2)
            self.assertIsNone(store.get_int(b"none"))
            store.union(b"tags", [b"new", b"", b"new"])
            view = store.view()
            store.union(b"tags", [b"a", b"new"])
            self.assertEqual((store.get_set(b"tags"), view.get_set(b"tags")), ({b"", b"a", b"new"}, {b"", b"new"}))
            self.assertEqual(store.get(b"tags"), b"\0\0\1\0a\3\0new")
            self.assertIsNone(store.get_set(b"none"))
            view.close()
            wanted = {b"feed": b"a,b", b"best": b"010", b"least": b"a", b"seen": b"\x05\x80"}
            self.assertEqual({key: store.get(key) for key in wanted}, wanted)

    def test_sets_are_read_as_the_model_reads_them(self) -> None:
        rng = random.Random(15)
        for _ in range(20000):
            value = bytes(rng.choice([0, 0, 1, 2, 3]) for _ in range(rng.randrange(12)))
            self.assertEqual(ucstore.set_of(value), set(model.members(value)))
            self.assertEqual(ucstore.is_operand(model.spelled(model.Part(Kind(model.SET_UNION), value))), model.is_set(value), value)
        self.assertEqual(ucstore.set_of(ucstore.set_bytes([bytes(2**16 - 1), b"a"])), {bytes(2**16 - 1), b"a"})
        with self.assertRaises(ucstore.TooLong):
            ucstore.set_bytes([bytes(2**16)])

    def test_many_additions(self) -> None:
        with Store(Operator.MIXED) as store:
            for _ in range(100_000):
                store.add(b"k", 1)
            store.compact()
            self.assertEqual(store.get(b"k"), struct.pack("<q", 100_000))


class Databases(unittest.TestCase):
    def test_a_new_directory_is_mixed_and_others_keep_their_operator(self) -> None:
        for made, word in ((None, b"mixed"), (Operator.COUNTER, b"counter"), (Operator.TAIL, b"tail")):
            with TemporaryDirectory() as folder:
                Db(folder, made).close()
                self.assertEqual((Path(folder) / "OPERATOR").read_bytes(), word + b"\n")
                with Db(folder) as db:
                    if made is None:
                        db.add(b"k", 2)
                        db.union(b"tags", [b"b", b"a"])
                        self.assertEqual((db.get_int(b"k"), db.get_set(b"tags")), (2, {b"a", b"b"}))
                        with db.snapshot() as snapshot, db.transaction() as t:
                            self.assertEqual((snapshot.get_int(b"k"), t.get_set(b"tags")), (2, {b"a", b"b"}))
                        with self.assertRaises(BadOperand):
                            db.merge(b"k", b"text")
                    else:
                        db.merge(b"k", bytes(8))
                        self.assertEqual(db[b"k"], bytes(8) if made == Operator.COUNTER else bytes(4))
                with self.assertRaises(ucstore.OtherOperator):
                    Db(folder, Operator.MAXIMUM)

    def test_one_database_has_a_counter_a_maximum_and_a_feed(self) -> None:
        with TemporaryDirectory() as folder:
            with Db(folder, operator=Operator.MIXED) as db:
                with db.write_batch() as batch:
                    batch.add(b"visits", 2)
                    batch.maximum(b"last", b"2026-01-02")
                    batch.append(b"feed", b"login")
                db.add(b"visits", 3)
                snapshot = db.snapshot()
                db.append(b"feed", b"logout")
                db.maximum(b"last", b"2026-01-01")
                with self.assertRaises(BadOperand):
                    db.merge_part(Part.ADD, b"visits", b"1")
                with self.assertRaises(UnknownOperator):
                    db.merge_part(Part.APPEND, b"feed", b"1", 256)
                self.assertEqual((db.get_int(b"visits"), snapshot[b"feed"], snapshot[b"last"]), (5, b"login", b"2026-01-02"))
                snapshot.close()
                db.compact()
            with self.assertRaises(ucstore.OtherOperator):
                Db(folder, operator=Operator.COUNTER)
            with Db(folder, operator=Operator.MIXED) as db:
                wanted = {b"feed": b"login,logout", b"last": b"2026-01-02", b"visits": struct.pack("<q", 5)}
                self.assertEqual(dict(db.items()), wanted)

    def test_drawn_writes_and_openings(self) -> None:
        rng = random.Random(14)
        with TemporaryDirectory() as folder:
            values: Values = {}
            for _ in range(20):
                with Db(folder, operator=Operator.MIXED) as db:
                    self.assertEqual(dict(db.items()), values)
                    for _ in range(rng.randrange(60)):
                        self.step(rng, db, values)
                    self.assertEqual(dict(db.items()), values)

    def step(self, rng: random.Random, db: Db, values: Values) -> None:
        key, part = rng.choice(KEYS), drawn_part(rng)
        kind = rng.randrange(12)
        if kind == 0:
            db.put(key, part.payload)
            values[key] = part.payload
        elif kind == 1:
            db.delete(key)
            values.pop(key, None)
        elif kind == 2:
            db.compact()
        else:
            operand = drawn_operand(rng)
            if not model.is_operand(operand):
                with self.assertRaises(BadOperand):
                    db.merge(key, operand)
                return
            db.merge(key, operand)
            merged(values, key, operand)


if __name__ == "__main__":
    unittest.main()
