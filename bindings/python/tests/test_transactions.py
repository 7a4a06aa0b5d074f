"""Tests of transactions of `ucstore.Db`: their calls, drawn schedules beside a serial model, and threads, checked by what came before what."""

import os
import random
import tempfile
import threading
import unittest

from precedence import Committed, cycle
from ucstore import Closed, Conflict, Db, DbOptions, Operator, Sync

KEYS = [b"", b"\x00", b"a", b"a\x00", b"b", b"c", b"\xff", b"\xff\xff"]
LONG = bool(os.environ.get("LONG"))
SEED = int(os.environ.get("SEED", "1"))


def is_in(key, low, high):
    return low <= key and (high is None or key < high)


class Calls(unittest.TestCase):
    def test_a_block_commits(self):
        with Db.in_memory(Operator.APPEND) as db:
            with db.transaction() as t:
                t[b"a"] = b"1"
                t.merge(b"a", b"2")
                t.put(b"b", b"1")
                del t[b"b"]
                self.assertEqual((t[b"a"], b"b" in t, t.get(b"c", b"none")), (b"1,2", False, b"none"))
                with self.assertRaises(KeyError):
                    t[b"b"]
                self.assertNotIn(b"a", db)
            self.assertEqual(dict(db.items()), {b"a": b"1,2"})

    def test_a_block_that_raises_writes_nothing(self):
        with Db.in_memory() as db:
            with self.assertRaises(ZeroDivisionError), db.transaction() as t:
                t.put(b"a", b"1")
                1 // 0
            with db.transaction() as t:
                t.put(b"a", b"1")
                t.rollback()
            self.assertEqual(len(db), 0)

    def test_a_conflict_is_raised_once(self):
        with Db.in_memory() as db:
            with self.assertRaises(Conflict) as raised, db.transaction() as t:
                self.assertIsNone(t.get(b"k"))
                t.put(b"r", b"1")
                db[b"k"] = b"1"
            self.assertEqual(str(raised.exception), 'conflict: key "k" has changed')
            with db.transaction() as t:
                t.get(b"k")
                t.put(b"r", b"1")
                db[b"k"] = b"2"
                with self.assertRaises(Conflict):
                    t.commit()
                with self.assertRaises(Closed):
                    t.commit()
            self.assertNotIn(b"r", db)

    def test_a_closed_database_takes_no_transaction(self):
        db = Db.in_memory()
        t = db.transaction()
        t.put(b"a", b"1")
        db.close()
        with self.assertRaises(Closed):
            t.commit()
        t.close()
        for call in (db.transaction, lambda: db.transact(lambda t: None), lambda: db.insert_if_absent(b"a", b"1")):
            with self.assertRaises(Closed):
                call()

    def test_rows_have_own_writes(self):
        with Db.in_memory(Operator.APPEND) as db:
            db.update((b"key %04d" % number, b"%d" % number) for number in range(3000))
            with db.transaction() as t:
                t.delete_range(b"key 0010", b"key 2990")
                t.put(b"key 1500", b"own" * 100000)
                t.merge(b"key 0001", b"more")
                rows = dict(t.items())
                self.assertEqual(len(rows), 21)
                self.assertEqual((rows[b"key 0001"], len(rows[b"key 1500"])), (b"1,more", 300000))
                self.assertEqual(len(list(t.items(prefix=b"key 00"))), 10)
                self.assertEqual(list(t.items(b"key 2998", b"key 2999")), [(b"key 2998", b"2998")])
                with self.assertRaises(TypeError):
                    t.items(b"a", prefix=b"b")
            self.assertEqual(len(db), 21)

    def test_a_key_is_compared_and_put(self):
        with Db.in_memory() as db:
            self.assertTrue(db.insert_if_absent(b"k", b"1"))
            self.assertFalse(db.insert_if_absent(b"k", b"2"))
            self.assertFalse(db.compare_and_put(b"k", None, b"2"))
            self.assertTrue(db.compare_and_put(b"k", b"1", b"2"))
            self.assertEqual(db[b"k"], b"2")

    def test_a_function_is_tried_again(self):
        with Db.in_memory() as db:
            tries = []

            def count(t):
                tries.append(t.get(b"k"))
                t.put(b"r", b"%d" % len(tries))
                if len(tries) < 4:
                    db[b"k"] = b"%d" % len(tries)
                return len(tries)

            self.assertEqual(db.transact(count), 4)
            self.assertEqual((tries, db[b"r"]), ([None, b"1", b"2", b"3"], b"4"))

            def lose(t):
                tries.append(t.get(b"k"))
                t.put(b"r", b"lost")
                db[b"k"] = b"%d" % len(tries)

            with self.assertRaises(Conflict):
                db.transact(lose)
            self.assertEqual((len(tries), db[b"r"]), (104, b"4"))


class Drawn:
    """A transaction of a drawn schedule, with a model of what it sees."""

    def __init__(self, db, model):
        self.t, self.model, self.begun = db.transaction(), dict(model), dict(model)
        self.ops, self.gets, self.ranges = [], {}, []

    def is_own(self, key):
        """Whether the own writes decide the value of a key."""
        owned = False
        for kind, first, second in self.ops:
            if kind == "delete_range":
                owned = owned or first <= key < second
            elif kind != "merge" and first == key:
                owned = True
        return owned

    def read(self, draw):
        if draw.random() < 0.6:
            key = draw.choice(KEYS)
            assert self.t.get(key) == self.model.get(key), key
            if not self.is_own(key):
                self.gets[key] = self.begun.get(key)
        else:
            low, high = draw.choice(KEYS), draw.choice(KEYS + [None])
            wanted = sorted(row for row in self.model.items() if is_in(row[0], low, high))
            assert list(self.t.items(low, high)) == wanted, (low, high)
            self.ranges.append((low, high))

    def write(self, draw, value):
        kind = draw.choice(("put", "put", "merge", "delete", "delete_range"))
        first, second = draw.choice(KEYS), draw.choice(KEYS) if kind == "delete_range" else value
        if kind == "delete":
            self.t.delete(first)
        else:
            getattr(self.t, kind)(first, second)
        self.ops.append((kind, first, second))
        apply(self.model, self.ops[-1])

    def is_unchanged(self, model):
        def rows(of, low, high):
            return {key: value for key, value in of.items() if is_in(key, low, high)}

        return all(model.get(key) == value for key, value in self.gets.items()) and all(
            rows(model, *bounds) == rows(self.begun, *bounds) for bounds in self.ranges
        )


def apply(model, op):
    kind, first, second = op
    if kind == "put":
        model[first] = second
    elif kind == "merge":
        model[first] = model[first] + b"," + second if first in model else second
    elif kind == "delete":
        model.pop(first, None)
    else:
        for key in [key for key in model if first <= key < second]:
            del model[key]


class Schedules(unittest.TestCase):
    def draw(self, db, draw, steps):
        """A drawn schedule. Each commit succeeds if and only if what the transaction read is unchanged in the model."""
        model, opened, outcomes = dict(db.items()), [], {True: 0, False: 0}
        for step in range(steps):
            kind = draw.random()
            if kind < 0.02:
                draw.choice((db.flush, db.compact, db.checkpoint))()
            elif kind < 0.25 and len(opened) < 4:
                opened.append(Drawn(db, model))
            elif kind < 0.85 and opened:
                one = draw.choice(opened)
                # Few values, so that some keys have theirs again.
                one.read(draw) if draw.random() < 0.6 else one.write(draw, b"%d" % draw.randrange(4))
            elif opened:
                one = opened.pop(draw.randrange(len(opened)))
                wanted = not one.ops or one.is_unchanged(model)
                try:
                    one.t.commit()
                    done = True
                except Conflict:
                    done = False
                one.t.close()
                self.assertEqual(done, wanted, step)
                outcomes[done] += 1
                if done:
                    for op in one.ops:
                        apply(model, op)
                self.assertEqual(dict(db.items()), model)
        for one in opened:
            one.t.close()
        return outcomes

    def test_drawn_schedules_are_serial(self):
        for number in range(200 if LONG else 10):
            draw = random.Random(SEED * 1000 + number)
            options = DbOptions(write_buffer_size=draw.choice((200, 4096, 1 << 20)))
            with Db.in_memory(Operator.APPEND, options=options) as db:
                outcomes = self.draw(db, draw, 400)
            self.assertTrue(all(outcomes.values()), outcomes)

    def test_drawn_schedules_go_on_after_openings(self):
        with tempfile.TemporaryDirectory() as folder:
            for number in range(40 if LONG else 5):
                with Db(folder, Operator.APPEND, options=DbOptions(sync=Sync.NEVER)) as db:
                    self.draw(db, random.Random(SEED * 1000 + number), 200)


class Threads(unittest.TestCase):
    def history(self, db, threads, count, is_checked=True):
        """Lets threads read and write keys, and returns the transactions that committed."""
        committed, lock = [], threading.Lock()
        keys = [b"key %d" % number for number in range(6)]

        def run(thread):
            draw = random.Random(SEED * 1000 + thread)
            for number in range(count):
                value = b"%d.%d" % (thread, number)
                with db.transaction() as t:
                    reads = {}
                    for _ in range(draw.randint(1, 3)):
                        if draw.random() < 0.3:
                            low, high = sorted(draw.sample(keys, 2))
                            found = dict(t.items(low, high)) if is_checked else dict(db.items(low, high))
                            reads.update((key, found.get(key)) for key in keys if is_in(key, low, high))
                        else:
                            key = draw.choice(keys)
                            reads[key] = t.get(key) if is_checked else t.get_unchecked(key)
                    writes = {key: value for key in reads if draw.random() < 0.5}
                    for key in writes:
                        t.put(key, value)
                    try:
                        t.commit()
                    except Conflict:
                        continue
                with lock:
                    committed.append(Committed(reads, writes))

        workers = [threading.Thread(target=run, args=(thread,)) for thread in range(threads)]
        for worker in workers:
            worker.start()
        for worker in workers:
            worker.join()
        return committed

    def test_threads_are_serial(self):
        for threads in (2, 8):
            with Db.in_memory() as db:
                history = self.history(db, threads, 2000 if LONG else 200)
            self.assertGreater(len(history), 100)
            self.assertIsNone(cycle(history))

    def test_unchecked_reads_are_found(self):
        with Db.in_memory() as db, self.assertRaises((ValueError, AssertionError)):
            for _ in range(20):
                db.clear()
                self.assertIsNone(cycle(self.history(db, 8, 100, is_checked=False)))

    def test_the_checker_finds_each_anomaly(self):
        none = {b"x": None, b"y": None}
        skew = [Committed(none, {b"x": b"1"}), Committed(none, {b"y": b"2"})]
        self.assertEqual(sorted(cycle(skew)), [0, 1])
        with self.assertRaises(ValueError):
            cycle([Committed({b"x": None}, {b"x": b"1"}), Committed({b"x": None}, {b"x": b"2"})])
        reader = [
            Committed(none, {b"x": b"-11"}),
            Committed({b"y": None}, {b"y": b"20"}),
            Committed({b"x": None, b"y": b"20"}, {}),
        ]
        self.assertEqual(sorted(cycle(reader)), [0, 1, 2])
        self.assertIsNone(cycle(reader[1:]))


if __name__ == "__main__":
    unittest.main()
