"""Tests of the results and errors of each call, and of random operations compared with a plain dictionary."""

import doctest
import random
import struct
import threading
import time
import unittest

import ucstore
from ucstore import (
    BadOption, BatchFault, Delete, DeleteRange, End, Ended, LogFault, LookupSource, Merge, NoCheckpoint, NoJob, NoStore,
    NoView, NotABatch, NotProtected, Operator, Options, Put, SequenceBack, SequencesSpent, Store, UnknownOperator,
    WriteBatch, batch_bytes, log_writes,
)


def compact(store):
    while store.compact():
        pass


class Calls(unittest.TestCase):
    def setUp(self):
        self.store = Store(Operator.APPEND)
        self.addCleanup(self.store.close)

    def test_a_store_reads_what_was_written(self):
        store = self.store
        store.put(b"a", b"1")
        store.merge(b"a", b"2")
        store.put(b"b", b"3")
        store.delete(b"b")
        store.put(b"", b"")
        self.assertEqual([store.get(key) for key in (b"a", b"b", b"")], [b"1,2", None, b""])
        store.delete_range(b"a", b"b")
        self.assertIsNone(store.get(b"a"))
        self.assertEqual(store.last, 6)

    def test_a_long_value_comes_whole(self):
        for length in (511, 512, 513, 100000):
            value = bytes(place % 256 for place in range(length))
            self.store.put(b"k", value)
            self.assertEqual(self.store.get(b"k"), value)

    def test_a_batch_has_the_bytes_that_rocksdb_writes(self):
        batch = batch_bytes([Put(b"k", b"v"), Delete(b"d"), Merge(b"m", b"\7" * 128), DeleteRange(b"", b"z")], 5)
        records = b"\1\1k\1v" + b"\0\1d" + b"\2\1m\x80\1" + b"\7" * 128 + b"\x0f\0\1z"
        self.assertEqual(batch, struct.pack("<QI", 5, 4) + records)

    def test_a_batch_is_written_as_often_as_it_is_asked(self):
        batch = WriteBatch()
        self.assertEqual((batch.to_bytes(), len(batch)), (bytes(12), 0))
        batch.merge(b"k", b"a")
        batch.add([Merge(b"k", b"b")])
        self.store.write(batch)
        self.store.prepare(0, batch)
        self.store.commit()
        self.assertEqual((self.store[b"k"], len(batch)), (b"a,b,a,b", 2))
        batch.clear()
        self.assertEqual((batch.to_bytes(), len(batch)), (bytes(12), 0))
        self.assertRaises(TypeError, batch.put, b"k", "v")
        self.assertRaises(KeyError, batch.add, [("k", "v")])
        with batch:
            batch.put(b"k", b"v")
        self.assertEqual((len(batch), self.store.last), (0, 4))

    def test_many_keys_are_looked_up_at_once(self):
        store, long = self.store, bytes(100000)
        store.write([Put(b"a", b"1"), Put(b"b", long), Put(b"", b"")])
        self.assertEqual(store.get_many([b"b", b"z", b"", b"b", b"a"]), [long, None, b"", long, b"1"])
        self.assertEqual(store.get_many(iter([])), [])
        self.assertRaises(TypeError, store.get_many, ["b"])

    def test_a_snapshot_stays_until_the_last_one_ends(self):
        store = self.store
        store.put(b"k", b"old")
        with store.snapshot() as first:
            with store.snapshot() as second:
                store.put(b"k", b"new")
                compact(store)
                self.assertEqual(second.get(b"k"), b"old")
            self.assertEqual(store.snapshots, [first.sequence])
            self.assertEqual(first.get(b"k"), b"old")
        self.assertEqual(store.snapshots, [])
        self.assertRaises(NotProtected, store.get_at, b"k", first.sequence)

    def test_snapshots_are_counted(self):
        store = self.store
        self.assertRaises(NotProtected, store.release, 0)
        sequence = store.take_snapshot()
        self.assertEqual(store.take_snapshot(), sequence)
        store.release(sequence)
        self.assertIsNone(store.get_at(b"k", sequence))
        store.release(sequence)
        self.assertRaises(NotProtected, store.release, sequence)
        self.assertRaises(NotProtected, store.get_at, b"k", 1 << 64)

    def test_a_scan_goes_over_many_pages(self):
        sizes = {b"%04d" % place: 40000 if place % 100 == 7 else place % 50 for place in range(1000)}
        self.store.write(Put(key, b"x" * size) for key, size in sizes.items())
        with self.store.snapshot() as snapshot:
            self.store.delete_range(b"", b"9")
            rows = {key: len(value) for key, value in snapshot.scan(b"0005", b"0995")}
            self.assertEqual(rows, {key: size for key, size in sizes.items() if b"0005" <= key < b"0995"})
            self.assertEqual(list(snapshot.scan(b"", b"")), [])

    def test_a_report_counts(self):
        self.store.put(b"k", b"v")
        with self.store.snapshot():
            report = self.store.report()
            self.store.put(b"k", b"w")
            gathered = self.store.report().gathered
        self.assertEqual((report.runs, report.snapshots, report.points, report.last), (1, 1, 1, 1))
        self.assertEqual((report.gathered, gathered), (0, 1))

    def test_a_store_is_read_as_a_dict(self):
        store = self.store
        with store.write_batch() as batch:
            for key in (b"a/1", b"a/2", b"a\xff", b"b"):
                batch.put(key, key)
            batch.merge(b"b", b"2")
            batch.delete(b"a/1")
            batch.delete_range(b"a/", b"a/2")
        self.assertEqual((list(store), store[b"b"], store.last), ([b"a/2", b"a\xff", b"b"], b"b,2", 7))
        self.assertEqual(list(store.prefix(b"a/")), [(b"a/2", b"a/2")])
        self.assertEqual(len(list(store.prefix(b""))), 3)
        self.assertEqual([key for key, _ in store.prefix(b"a\xff")], [b"a\xff"])
        self.assertEqual(list(store.prefix(b"\xff")), [])
        del store[b"b"]
        self.assertRaises(KeyError, lambda: store[b"b"])
        self.assertEqual((b"b" in store, store.get(b"b", b"none")), (False, b"none"))
        with store.snapshot() as snapshot:
            store.delete_range(b"", b"z")
            self.assertEqual(list(snapshot.items()), [(b"a/2", b"a/2"), (b"a\xff", b"a\xff")])
        self.assertEqual(list(store.items()), [])

    def test_a_batch_that_fails_is_not_written(self):
        with self.assertRaises(ZeroDivisionError):
            with self.store.write_batch() as batch:
                batch.put(b"k", b"v")
                1 // 0
        self.assertEqual(self.store.last, 0)

    def test_a_prepared_batch_is_unseen_until_it_is_committed(self):
        store = self.store
        store.prepare(0, [Put(b"k", b"v")])
        self.assertEqual((store.get(b"k"), store.last), (None, 0))
        store.commit()
        store.commit()
        self.assertEqual((store.get(b"k"), store.last), (b"v", 1))
        store.prepare(0, [Put(b"k", b"w")])
        store.give_up()
        store.commit()
        self.assertEqual((store.get(b"k"), store.last), (b"v", 1))

    def test_runs_stay_few(self):
        with Store(Operator.APPEND, Options(write_buffer_size=64)) as store:
            for number in range(3000):
                store.put(b"%d" % number, b"v")
                self.assertLess(store.report().runs, 36)
            self.assertEqual(len(list(store)), 3000)

    def test_a_million_puts_need_no_other_call(self):
        store, begun = self.store, time.monotonic()
        for number in range(1000000):
            store[b"%06d" % (number % 300000)] = b"%d" % number
        print(f"a million puts in {time.monotonic() - begun:.1f} s")
        self.assertEqual(store[b"000007"], b"900007")
        self.assertEqual((sum(1 for _ in store), store.last), (300000, 1000000))

    def test_a_store_compacts_by_itself_only_if_asked(self):
        with Store(Operator.APPEND, Options(compacts_itself=False)) as store:
            for number in range(8):
                store.put(b"%d" % number, b"v")
                store.flush()
            self.assertEqual(store.report().runs, 8)
            self.assertTrue(store.compact())
            self.assertLess(store.report().runs, 8)

    def test_refusals(self):
        for options in (
            Options(min_merge_width=1), Options(compaction_trigger=1 << 32), Options(write_buffer_size=-1),
            Options(compaction_trigger=5, stop_trigger=4), Options(stop_trigger=256),
        ):
            self.assertRaises(BadOption, Store, Operator.TAIL, options)
        self.assertRaises(UnknownOperator, Store, 5)
        self.assertRaises(TypeError, self.store.put, b"k", "v")
        self.assertRaises(TypeError, self.store.put, b"k", None)
        self.assertRaises(KeyError, self.store.write, [("k", "v")])
        self.assertRaises(NotProtected, next, self.store.scan_at(b"", None, 7))

    def test_sequences_may_be_given(self):
        operations = [Put(b"a", b"1"), Put(b"b", b"2")]
        self.store.write(operations, 10)
        self.assertEqual(self.store.last, 11)
        for sequence in (-1, 1, 11):
            self.assertRaises(SequenceBack, self.store.write, operations, sequence)
            self.assertRaises(SequenceBack, self.store.prepare, 0, operations, sequence)
        for sequence in ((1 << 56) - 1, 1 << 56, 1 << 64):
            self.assertRaises(SequencesSpent, self.store.write, operations, sequence)
            self.assertRaises(SequencesSpent, self.store.prepare, 0, operations, sequence)
        self.store.write(operations)
        self.assertEqual(self.store.last, 13)

    def test_a_closed_store_says_so(self):
        with self.store as store, store.snapshot() as snapshot:
            scan = snapshot.scan()
            store.close()
            self.assertRaises(NoStore, store.put, b"k", b"v")
            self.assertRaises(NoStore, snapshot.get, b"k")
            self.assertRaises(NoStore, next, scan)

    def test_each_operator_merges(self):
        def number(value):
            return value.to_bytes(8, "little")

        for operator, operands, wanted in (
            (Operator.APPEND, (b"one", b"two"), b"one,two"),
            (Operator.COUNTER, (number(7), number(8)), number(15)),
            (Operator.MAXIMUM, (b"one", b"two"), b"two"),
            (Operator.TAIL, (b"one", b"two"), b"etwo"),
        ):
            with Store(operator) as store:
                store.write(Merge(b"k", operand) for operand in operands)
                self.assertEqual(store.get(b"k"), wanted)

    def test_threads_share_a_store(self):
        def write(thread):
            for number in range(200):
                self.store.merge(b"k%d" % thread, b"%d" % number)
                with self.store.snapshot() as snapshot:
                    self.assertEqual(snapshot.get(b"k%d" % thread).count(b","), number)

        threads = [threading.Thread(target=write, args=(thread,)) for thread in range(4)]
        for thread in threads:
            thread.start()
        for thread in threads:
            thread.join()
        self.assertEqual((self.store.last, self.store.snapshots), (800, []))

    def test_a_view_stays_what_it_is(self):
        with Store(Operator.APPEND, Options(compacts_itself=False)) as store:
            store.write([Put(b"a", b"1"), Put(b"b", b"2")])
            view = store.view()
            store.delete_range(b"", b"z")
            compact(store)
            with view, view.again() as again:
                self.assertEqual(dict(again.items()), {b"a": b"1", b"b": b"2"})
        self.assertRaises(NoView, view.get, b"a")
        self.assertRaises(NoView, view.again)
        self.assertRaises(NoStore, store.view)
        with Store(Operator.APPEND) as store:
            store.write([Put(b"a", b"1"), Put(b"b", b"2")])
            sequence = store.take_snapshot()
            view = store.view()
        self.assertEqual((view[b"a"], view.get(b"c"), view.last, view.report().last), (b"1", None, 2, 2))
        self.assertEqual(view.get_many([b"b", b"c"]), [b"2", None])
        self.assertEqual((view.get_at(b"b", sequence), list(view.prefix(b"b"))), (b"2", [(b"b", b"2")]))
        self.assertRaises(NotProtected, view.get_at, b"b", 7)
        view.close()
        view.close()

    def test_a_store_and_its_views_say_where_they_look(self):
        store, source = self.store, LookupSource
        store.write([Put(b"flushed", b"1"), Put(b"merged", b"1")])
        store.flush()
        store.write([Merge(b"merged", b"2"), Merge(b"alone", b"1"), Put(b"put", b"1"), DeleteRange(b"r", b"s")])
        keys = [b"flushed", b"merged", b"alone", b"nowhere", b"put", b"range"]
        wanted = [source.RUNS, source.RUNS, source.FILTERS, source.FILTERS, source.MEMTABLE, source.MEMTABLE]
        with store.view() as view:
            self.assertEqual([store.source(key) for key in keys], wanted)
            store.flush()
            self.assertEqual([view.source(key) for key in keys], wanted)
        self.assertEqual({store.source(key) for key in keys if key != b"nowhere"}, {source.RUNS})
        self.assertEqual(store.source(b"nowhere"), source.FILTERS)
        self.assertRaises(NoView, view.source, b"put")
        self.assertRaises(TypeError, store.source, "put")

    def test_a_checkpoint_is_a_log_of_a_view(self):
        rows = {b"%05d" % number: b"v" * (number % 50) for number in range(9000)}
        rows[b"long"] = bytes(200_000)
        self.store.write([Put(b"gone", b"1"), Delete(b"gone"), *(Put(*row) for row in rows.items())])
        with self.store.view() as view:
            checkpoint = view.checkpoint()
        self.store.delete_range(b"", b"z")
        pieces = list(checkpoint)
        self.assertEqual(list(checkpoint), [])
        self.assertTrue(all(len(piece) <= 1 << 16 for piece in pieces if len(piece) < 200_000))
        self.assertLess(len(pieces), 40)
        with Store.open(Operator.APPEND, b"".join(pieces)) as again:
            self.assertEqual((dict(again.items()), again.last, str(again.ended)), (rows, 9001, "clean"))
        checkpoint.close()
        checkpoint.close()
        with self.store.view() as view, view.checkpoint() as empty:
            self.assertEqual(list(empty), [])
        with self.store.view() as view:
            closed = view.checkpoint()
            closed.close()
            self.assertRaises(NoCheckpoint, next, closed)
            self.assertRaises(StopIteration, next, closed)
        self.assertRaises(NoView, view.checkpoint)

    def test_threads_read_views_while_the_store_is_written(self):
        newest, is_done = [self.store.view()], threading.Event()
        failures = []

        def read():
            least = 0
            while not is_done.is_set():
                with newest[0].again() as view:
                    rows = sum(1 for _ in view)
                    if rows != view.last or rows < least:
                        failures.append((rows, view.last, least))
                    least = rows

        threads = [threading.Thread(target=read) for _ in range(3)]
        for thread in threads:
            thread.start()
        for number in range(2000):
            self.store.put(b"%d" % number, b"v")
            if number % 20 == 0:
                newest[0] = self.store.view()
        is_done.set()
        for thread in threads:
            thread.join()
        self.assertEqual(failures, [])

    def test_jobs_run_beside_writes(self):
        with Store(Operator.APPEND, Options(compacts_itself=False)) as store:
            self.assertIsNone(store.take_job())
            for number in range(8):
                store.put(b"%d" % number, b"v")
                store.flush()
            with store.take_job():
                pass
            self.assertEqual(store.report().runs, 8)
            job = store.take_job()
            # Each run has a key of one byte with a value of one byte, and 8 bytes of sequence number.
            self.assertEqual(job.input_bytes, 8 * 10)
            worker = threading.Thread(target=job.run)
            worker.start()
            store.put(b"k", b"v")
            worker.join()
            self.assertTrue(job.end())
            self.assertFalse(job.end())
            self.assertRaises(NoJob, job.run)
            self.assertRaises(NoJob, lambda: job.input_bytes)
            self.assertLess(store.report().runs, 8)
            self.assertEqual(len(list(store)), 9)
            for number in range(8):
                store.put(b"%d" % number, b"w")
                store.flush()
            left = store.take_job()
        left.run()
        self.assertFalse(left.end())

    def test_the_examples_of_the_module(self):
        self.assertEqual(doctest.testmod(ucstore).failed, 0)


class Logs(unittest.TestCase):
    def write(self, store, log, *operations):
        record = store.prepare(len(log), operations)
        store.commit()
        return log + record

    def test_a_log_opens_with_what_was_written(self):
        log = b""
        with Store(Operator.APPEND) as store:
            for length in (0, 1, 32700, 40000, 100000, 5):
                log = self.write(store, log, Put(b"k", b"x" * length))
                with Store.open(Operator.APPEND, log) as again:
                    self.assertEqual((str(again.ended), again.last), ("clean", store.last))
                    self.assertEqual(len(again.get(b"k")), length)

    def test_each_write_comes_back(self):
        operations = [Put(b"a", b"1"), Delete(b"b"), Merge(b"c", b"2"), DeleteRange(b"d", b"e")]
        with Store(Operator.APPEND) as store:
            log = self.write(store, b"", *operations[:2])
            log = self.write(store, log)
            log = self.write(store, log, *operations[2:])
        writes = log_writes(log)
        self.assertEqual([tuple(write) for write in writes], list(enumerate(operations, 1)))
        self.assertEqual((writes.ended, writes.offset), (Ended(End.CLEAN, None, 0), len(log)))
        self.assertEqual(list(writes), [])

    def test_a_log_has_the_sequences_that_were_given(self):
        with Store(Operator.APPEND) as store:
            log = store.prepare(0, [Put(b"a", b"1")], 7)
            store.commit()
            log = self.write(store, log, Put(b"b", b"2"))
        self.assertEqual([write.sequence for write in log_writes(log)], [7, 8])
        with Store.open(Operator.APPEND, log) as store:
            self.assertEqual(store.last, 8)

    def test_a_torn_log_goes_on_where_it_is_cut(self):
        with Store(Operator.APPEND) as store:
            first = self.write(store, b"", Put(b"a", b"1"))
            whole = self.write(store, first, Put(b"b", b"x" * 50000))
        for length in (len(first) + 1, len(first) + 7, 32768, len(whole) - 1):
            offset, ended = log_writes(whole[:length]).end()
            self.assertEqual((ended.end, offset), (End.TORN, len(first)))
            with Store.open(Operator.APPEND, whole[:length]) as store:
                self.assertEqual(store.ended, ended)
                log = self.write(store, whole[:offset], Put(b"c", b"2"))
            with Store.open(Operator.APPEND, log) as store:
                self.assertEqual((store.get(b"b"), store.get(b"c")), (None, b"2"))

    def test_a_log_goes_on_before_zeros(self):
        with Store(Operator.APPEND) as store:
            first = self.write(store, b"", Put(b"a", b"1"))
            offset, ended = log_writes(first + bytes(100000)).end()
            self.assertEqual((offset, ended.end), (len(first), End.CLEAN))
            log = self.write(store, first[:offset], Put(b"b", b"2"))
        with Store.open(Operator.APPEND, log) as store:
            self.assertEqual((store.last, store.ended.end), (2, End.CLEAN))

    def test_faults_are_named(self):
        with Store(Operator.APPEND) as store:
            first = self.write(store, b"", Put(b"a", b"1"))
            log = bytearray(self.write(store, first, Put(b"b", b"2")))
        log[len(first) + 20] ^= 1
        with Store.open(Operator.APPEND, bytes(log)) as store:
            self.assertEqual(store.ended, Ended(End.LOG_FAULT, LogFault.BAD_CHECKSUM, len(first)))
            self.assertEqual(str(store.ended), f"a fault at {len(first)}: BAD_CHECKSUM")
        with Store.open(Operator.APPEND, first + first) as store:
            self.assertEqual(store.ended, Ended(End.BATCH_FAULT, BatchFault.SEQUENCE_BACK, 2))
            self.assertFalse(store.ended.is_sound)
        self.assertEqual(NotABatch.status, 12)


def merged(operator, old, operand):
    """Returns the value of a key after an operand, given its older value or None."""
    def number(text):
        return int.from_bytes(text, "little") if text is not None and len(text) == 8 else 0

    if operator == Operator.APPEND:
        return operand if old is None else old + b"," + operand
    if operator == Operator.COUNTER:
        return ((number(old) + number(operand)) % (1 << 64)).to_bytes(8, "little")
    if operator == Operator.MAXIMUM:
        return max(old or b"", operand)
    return ((old or b"") + operand)[-4:]


class Soak:
    """A store with the dictionaries that it should equal, now and at each snapshot, and its log."""

    def __init__(self, operator, seed):
        self.operator = operator
        self.random = random.Random(seed)
        self.store = Store(operator, Options(write_buffer_size=64))
        self.held, self.keeps, self.written, self.log = {}, [], [], bytearray()

    def key(self):
        return b"k%d" % self.random.randrange(40)

    def operation(self):
        kind = self.random.choices((Put, Merge, Delete, DeleteRange), (9, 7, 3, 1))[0]
        if kind is Delete:
            return Delete(self.key())
        if kind is DeleteRange:
            return DeleteRange(self.key(), self.key())
        length = self.random.choice((8, self.random.randrange(12)))
        return kind(self.key(), bytes(self.random.randrange(256) for _ in range(length)))

    def apply(self, operation):
        if isinstance(operation, Put):
            self.held[operation.key] = operation.value
        elif isinstance(operation, Merge):
            self.held[operation.key] = merged(self.operator, self.held.get(operation.key), operation.operand)
        elif isinstance(operation, Delete):
            self.held.pop(operation.key, None)
        else:
            self.held = {key: value for key, value in self.held.items() if not operation.begin <= key < operation.end}

    def write(self):
        operations = [self.operation() for _ in range(self.random.randrange(9))]
        self.log += self.store.prepare(len(self.log), operations)
        if self.random.randrange(2):
            self.store.commit()
        else:
            self.store.write(operations)
        for operation in operations:
            self.apply(operation)
        self.written += operations
        assert self.store.last == len(self.written)

    def keep(self):
        if len(self.keeps) < 12:
            self.keeps.append((self.store.take_snapshot(), dict(self.held)))

    def release(self):
        if self.keeps:
            self.store.release(self.keeps.pop(self.random.randrange(len(self.keeps)))[0])
        assert self.store.snapshots == sorted({sequence for sequence, _ in self.keeps})

    def get(self):
        key = self.key()
        assert self.store.get(key) == self.held.get(key)
        keys = [self.key() for _ in range(self.random.randrange(9))]
        assert self.store.get_many(keys) == [self.held.get(one) for one in keys]
        for sequence, held in self.keeps:
            assert self.store.get_at(key, sequence) == held.get(key)

    def scan(self):
        low, high = self.key(), self.key()
        assert list(self.store) == sorted(self.held)
        for sequence, held in self.keeps:
            wanted = sorted(row for row in held.items() if low <= row[0] < high)
            assert list(self.store.scan_at(low, high, sequence)) == wanted
            assert list(self.store.scan_at(b"", None, sequence)) == sorted(held.items())

    def step(self):
        steps = (self.write, self.keep, self.release, self.get, self.scan, self.store.compact)
        self.random.choices(steps, (40, 8, 8, 35, 6, 3))[0]()

    def reopen(self):
        """Opens the complete log, and reads a truncated one."""
        with Store.open(self.operator, bytes(self.log)) as store, store.snapshot() as snapshot:
            assert (store.ended.end, store.last) == (End.CLEAN, len(self.written))
            assert dict(snapshot.scan()) == self.held
        torn = log_writes(bytes(self.log[:self.random.randrange(len(self.log))]))
        for place, write in enumerate(torn):
            assert tuple(write) == (place + 1, self.written[place])


class Model(unittest.TestCase):
    def test_drawn_operations(self):
        # test_mixed.py draws operands of the other one.
        for operator in set(Operator) - {Operator.MIXED}:
            with self.subTest(operator=operator):
                soak = Soak(operator, int(operator))
                for _ in range(4000):
                    soak.step()
                soak.reopen()
                soak.store.close()


if __name__ == "__main__":
    unittest.main()
