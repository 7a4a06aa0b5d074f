"""Tests of readers in other processes and in tasks, of snapshots that are sent, and of writes as futures."""

import pickle
import subprocess
import sys
import threading
import time
import unittest

import reader
import test_cluster
from test_cluster import OnCluster
from ucstore import Merge, NoStore, NotProtected, Put
from ucstore.sharded import Scan, ShardedStore, ShardTimeout

KEYS = 50


def setUpModule():
    test_cluster.setUpModule()


def puts(number):
    return [Put(b"k%03d" % key, b"%d" % number) for key in range(KEYS)]


def value_of(snapshot, key):
    """Reads in a task, on the only thread of its worker."""
    return snapshot.get(key), dict(snapshot.scan())


class Readers(OnCluster):
    def reader(self, **options):
        return ShardedStore.reader(self.connect(), self.folder, **options)

    def test_processes_read_whole_batches_while_workers_are_killed(self):
        store, number = self.create(), 1
        store.write(puts(1))
        command = [sys.executable, reader.__file__, test_cluster.cluster.address, str(self.folder), str(KEYS)]
        readers = [subprocess.Popen(command, stdin=subprocess.PIPE, stdout=subprocess.PIPE) for _ in range(2)]
        until = time.monotonic() + 8
        while time.monotonic() < until or number < 300:
            number += 1
            store.write(puts(number))
            if number % 200 == 0:
                test_cluster.cluster.kill_worker(self.client)
        for process in readers:
            reads, last = process.communicate()[0].split()
            self.assertEqual(process.returncode, 0)
            self.assertGreater(int(reads), 0)
            self.assertGreater(int(last), 1)

    def test_what_was_acknowledged_is_read_at_once(self):
        store, other = self.create(), self.reader()
        for number in range(1, 50):
            self.assertEqual(store.write(puts(number)), other.last)
            self.assertEqual(other.get(b"k007"), b"%d" % number)
        self.assertEqual(other.answers([b"none", Scan(b"k000", b"k002", 1)]), [None, [(b"k000", b"49")]])
        self.assertEqual([report.snapshots for report in store.report()], [0] * 4)

    def test_a_snapshot_is_sent_to_tasks_and_stays_until_the_writer_releases_it(self):
        store = self.create()
        store.write(puts(1))
        snapshot = store.snapshot()
        store.write(puts(2))
        wanted = b"1", {put.key: put.value for put in puts(1)}
        futures = self.client.map(value_of, [snapshot] * 8, [b"k003"] * 8, pure=False)
        self.assertEqual(self.client.gather(futures), [wanted] * 8)
        with self.connect().as_current():
            sent = pickle.loads(pickle.dumps(snapshot))
            self.assertEqual(sent.sequence, KEYS)
            # The writer reopens lost shards even when it is not called.
            test_cluster.cluster.kill_workers()
            test_cluster.cluster.fill()
            test_cluster.cluster.wait(self.client)
            self.assertEqual(value_of(sent, b"k003"), wanted)
            time.sleep(1)
            store.write(puts(3))
            store.write(puts(4))
            self.assertEqual(value_of(pickle.loads(pickle.dumps(sent)), b"k003"), wanted)
            snapshot.release()
            time.sleep(0.6)
            store.write(puts(5))
            with self.assertRaises(NotProtected):
                sent.get(b"k003")

    def test_a_readers_snapshot_ends_if_it_isnt_read(self):
        store, other = self.create(), self.reader()
        store.write(puts(1))
        snapshot = other.snapshot(4.0)
        self.assertEqual(snapshot.sequence, KEYS)
        for number in range(2, 8):
            store.write(puts(number))
            time.sleep(1)
            self.assertEqual(set(dict(snapshot.scan()).values()), {b"1"})
        self.assertEqual(list(snapshot.scan(b"k010", None, 2)), [(b"k010", b"1"), (b"k011", b"1")])
        time.sleep(4.1)
        store.write(puts(9))
        with self.assertRaises(NotProtected):
            snapshot.get(b"k000")
        self.assertEqual(other.get(b"k000"), b"9")

    def test_a_reader_of_a_store_that_nobody_has_open_is_told_so(self):
        store = self.create()
        store.write(puts(1))
        other = self.reader(patience=60.0)
        self.assertEqual(other.get(b"k001"), b"1")
        snapshot = other.snapshot()
        store.close()
        begun = time.monotonic()
        for call in (lambda: other.get(b"k001"), other.snapshot, lambda: snapshot.get(b"k001")):
            with self.assertRaisesRegex(NoStore, f"no writer has {self.folder} open"):
                call()
        self.assertLess(time.monotonic() - begun, 20.0)
        store = self.open()
        self.assertEqual(other.get(b"k001"), b"1")
        with self.assertRaises(TypeError):
            other.get("k001")

    def test_an_older_writer_that_ends_hides_no_newer_one(self):
        old = self.create(patience=1.0)
        old.write(puts(1))
        # As on another machine, whose file system has no locks that both see.
        old._claim.release()
        owners = self.client.run_on_scheduler(lambda dask_scheduler: dask_scheduler.extensions["locks"].ids.clear())
        self.assertIsNone(owners)
        old._forget(range(4))
        new = self.open(patience=10.0)
        other = self.reader(patience=5.0)
        old.close()
        new.write(puts(2))
        self.assertEqual(other.get(b"k001"), b"2")

    def test_a_stopped_worker_holds_no_reader_longer_than_it_says(self):
        store, other = self.create(), self.reader()
        store.write(puts(1))
        snapshot = other.snapshot()
        with test_cluster.cluster.stopped_workers():
            for call in (
                lambda: other.get(b"k001", timeout=0.5), lambda: other.snapshot(timeout=0.5),
                lambda: snapshot.answers([b"k001"], timeout=0.5), lambda: next(snapshot.scan(timeout=0.5)),
            ):
                begun = time.monotonic()
                with self.assertRaisesRegex(ShardTimeout, "a shard hasn't answered for [0-9.]+ s"):
                    call()
                self.assertLess(time.monotonic() - begun, 5.0)
        self.assertEqual(other.get(b"k001", timeout=30), b"1")


class Submitted(OnCluster):
    def test_batches_are_written_in_their_order(self):
        store = self.create()
        written = [store.submit([Merge(b"%d" % key, b"%d" % number) for key in range(20)]) for number in range(100)]
        snapshot = store.snapshot()
        self.assertEqual([future.result() for future in written], [20 * number for number in range(1, 101)])
        self.assertEqual(snapshot.sequence, 2000)
        self.assertEqual(snapshot.get(b"3"), b",".join(b"%d" % number for number in range(100)))
        for wrong in (["ab"], [Put("a", b"b")]):
            with self.assertRaises(TypeError):
                store.submit(wrong)
        last = [store.submit(puts(number)) for number in range(2)]
        store.close()
        self.assertEqual([future.result() for future in last], [2050, 2100])
        with self.assertRaises(NoStore):
            store.submit(puts(3))
        self.assertEqual(self.open().get(b"k001"), b"1")

    def test_one_that_fails_isnt_there_and_those_behind_it_are(self):
        store = self.create()
        store.write(puts(1))
        apply = store._ask
        failing = [1]

        def ask(method, *arguments):
            if method == "apply" and failing and not failing.pop():
                raise ShardTimeout("refused")
            return apply(method, *arguments)

        store._ask, failing[:] = ask, [0]
        written = [store.submit([Merge(b"k000", b"%d" % number)]) for number in range(3)]
        self.assertIsInstance(written[0].exception(), ShardTimeout)
        self.assertEqual([future.result() for future in written[1:]], [KEYS + 1, KEYS + 2])
        self.assertEqual(store.get(b"k000"), b"1,1,2")

    def test_a_batch_is_placed_while_another_is_written(self):
        store = self.create()
        store.write(puts(1))
        begun, placed = threading.Event(), threading.Event()
        apply = store._ask

        def ask(method, *arguments):
            if method == "apply":
                begun.set()
                self.assertTrue(placed.wait(10))
            return apply(method, *arguments)

        store._ask = ask
        first = store.submit(puts(2))
        self.assertTrue(begun.wait(10))
        second = store.submit(puts(3))
        self.assertFalse(first.done())
        # Reads continue.
        self.assertEqual(store.get(b"k001"), b"1")
        with self.assertRaisesRegex(ShardTimeout, "the batch before hasn't answered"):
            store.submit(puts(4), timeout=0.2)
        placed.set()
        self.assertEqual((first.result(), second.result()), (2 * KEYS, 3 * KEYS))
        self.assertEqual(store.get(b"k001"), b"3")


if __name__ == "__main__":
    unittest.main()
