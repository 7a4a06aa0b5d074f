"""Tests of a sharded store, compared with one store, while its workers, its writer and its scheduler are killed.

SEED is the seed of random operations, WRITES the number of writes to each of two stores, and KILLS the number of workers killed.
"""

import json
import os
import random
import resource
import shutil
import signal
import subprocess
import sys
import tempfile
import threading
import time
import unittest
from contextlib import contextmanager
from itertools import takewhile
from pathlib import Path
from unittest import mock

import drawn
import writer
from cluster import Cluster
from ucstore import Merge, NoStore, NotProtected, Operator, Put
from ucstore._shard import sealed
from ucstore.sharded import AnotherWriter, BadManifest, LogDamaged, NoWorkers, Scan, ShardedError, ShardedStore, ShardTimeout

SEED = int(os.environ.get("SEED", "1"))
WRITES = int(os.environ.get("WRITES", "50000"))
KILLS = int(os.environ.get("KILLS", "30"))


def setUpModule():
    global cluster, work
    work = Path(tempfile.mkdtemp())
    unittest.addModuleCleanup(shutil.rmtree, work)
    cluster = Cluster(work, 4, SEED)
    unittest.addModuleCleanup(cluster.close)
    cluster.start()
    signal.signal(signal.SIGTERM, end)


def end(*_):
    """Ends the processes if this one is ended from outside."""
    cluster.close()
    os._exit(1)


def limit_files(size):
    """Sets the maximum size of this process's files, and returns the previous limits."""
    limits = resource.getrlimit(resource.RLIMIT_FSIZE)
    resource.setrlimit(resource.RLIMIT_FSIZE, (size, limits[1]))
    return limits


@contextmanager
def limited_files(size):
    """Limits the size of this process's files. Only the sequencer's log reaches the limit."""
    limits = limit_files(size)
    try:
        yield
    finally:
        limit_files(limits[0])


class OnCluster(unittest.TestCase):
    """Tests that start with all workers."""

    direct = True

    def setUp(self):
        self.client = self.connect()
        cluster.fill()
        cluster.wait(self.client)
        self.folder = work / self.id().rpartition(".")[2]
        self.draws = random.Random(f"{SEED} {self.id()}")

    def connect(self):
        client = cluster.client(self.direct)
        self.addCleanup(client.close)
        return client

    def create(self, client=None, splits=None, patience=30.0):
        store = ShardedStore.create(
            client or self.client, self.folder, 4, Operator.APPEND, drawn.OPTIONS, splits, patience=patience)
        self.addCleanup(store.close)
        return store

    def open(self, client=None, patience=30.0):
        store = ShardedStore.open(client or self.client, self.folder, patience=patience)
        self.addCleanup(store.close)
        return store

    def rows(self, store):
        with store.snapshot() as snapshot:
            return dict(snapshot.scan())


class Drawn(OnCluster):
    def test_by_hash(self):
        self.soak(None)

    def soak(self, splits):
        """Kills workers between batches and within them."""
        beside = drawn.Beside(self.create(splits=splits), self.draws)
        kills = sorted(self.draws.randrange(WRITES) for _ in range(KILLS // 2))
        done = 0
        while done < WRITES:
            within = None
            while kills and kills[0] <= done:
                kills.pop(0)
                within = threading.Timer(self.draws.choice((0, 0.005, 0.02)), cluster.kill_worker, [self.client])
                within.start()
                if self.draws.random() < 0.5:
                    within.join()
            done += beside.write()
            beside.step()
            if within:
                within.join()
        beside.compare_all()
        self.assertEqual(sum(report.snapshots > 0 for report in beside.sharded.report()), 4)
        while beside.snapshots:
            beside.release()
        self.assertEqual([report.snapshots for report in beside.sharded.report()], [0] * 4)
        beside.sharded.close()
        self.assertEqual(self.rows(self.open()), dict(beside.single.scan_at(b"", None, beside.single.take_snapshot())))


class DrawnThroughTheScheduler(Drawn):
    direct = False
    test_by_hash = None

    def test_by_split_points(self):
        self.soak(drawn.SPLITS)


class Calls(OnCluster):
    def test_calls_of_a_closed_store_and_snapshot_are_refused(self):
        store = self.create()
        self.assertEqual(store.write([]), 0)
        for wrong in ([Put(b"a", "text")], [(b"a", b"b")], [Merge("a", b"b")]):
            with self.assertRaises(TypeError):
                store.write(wrong)
        self.assertEqual(store.write([Put(b"a", b"1")]), 1)
        snapshot = store.snapshot()
        with store.snapshot() as other:
            snapshot.release()
            snapshot.release()
            self.assertEqual(other.answers([b"a", b"b", Scan(b"b", b"a"), Scan()]), [b"1", None, [], [(b"a", b"1")]])
            with self.assertRaises(NotProtected):
                snapshot.get(b"a")
            with self.assertRaises(NotProtected):
                snapshot.scan()
            store.close()
            with self.assertRaises(NoStore):
                other.get(b"a")
        with self.assertRaises(NoStore):
            store.write([Put(b"a", b"2")])
        with self.assertRaises(NoStore):
            store.snapshot()
        self.assertEqual(self.rows(self.open()), {b"a": b"1"})

    def test_wrong_arguments_are_refused_at_once(self):
        store = self.create()
        store.write([Put(b"a", b"1")])
        with store.snapshot() as snapshot, mock.patch.object(store, "_ask", side_effect=AssertionError("a shard was asked")):
            for error, call in (
                (ValueError, lambda: snapshot.answers([b"a", Scan(limit=-1)])), (ValueError, lambda: snapshot.scan(limit=-1)),
                (TypeError, lambda: snapshot.answers(["a"])), (TypeError, lambda: snapshot.answers([(b"a", b"b")])),
                (TypeError, lambda: snapshot.answers([Scan("a")])), (TypeError, lambda: snapshot.scan(b"a", 7)),
                (TypeError, lambda: snapshot.get("a")), (TypeError, lambda: snapshot.get(Scan())),
                (TypeError, lambda: store.write([Put("a", b"1")])),
            ):
                with self.assertRaises(error):
                    call()
            store._snapshots.clear()

    def test_an_error_of_a_shard_is_told_and_loses_no_worker(self):
        store = self.create(patience=2.0)
        store.write([Put(b"%d" % number, b"v") for number in range(100)])
        futures = dict(store._futures)
        with store.snapshot() as snapshot:
            for error, method, argument in (
                (ValueError, "answers", b"?"), (EOFError, "answers", b""), (AttributeError, "no such method", b""),
            ):
                with self.subTest(error=error), self.assertRaises(error):
                    store._ask(method, {0: (argument, snapshot.sequence)})
            self.assertEqual(snapshot.get(b"7"), b"v")
        store.write([Put(b"7", b"w")])
        self.assertEqual(store._futures, futures)

    def test_the_last_sequence_is_read_without_a_snapshot(self):
        store = self.create()
        store.write([Put(b"%d" % number, b"v") for number in range(20)])
        before = store.snapshot()
        store.write([Merge(b"7", b"w")])
        self.assertEqual((store.get(b"7"), store.get(b"none"), before.get(b"7")), (b"v,w", None, b"v"))
        self.assertEqual(store.answers([b"7", Scan(b"1", b"12")]), [b"v,w", [(b"1", b"v"), (b"10", b"v"), (b"11", b"v")]])
        self.assertEqual([report.snapshots for report in store.report()], [1] * 4)
        with self.assertRaises(TypeError):
            store.get("7")

    def test_a_stopped_worker_ends_no_call_late(self):
        store = ShardedStore.create(self.client, self.folder, 4, Operator.APPEND, timeout=1.0)
        self.addCleanup(store.close)
        store.write([Put(b"%d" % number, b"v") for number in range(20)])
        with cluster.stopped_workers():
            begun = time.monotonic()
            with self.assertRaisesRegex(ShardTimeout, "hasn't answered"):
                store.write([Put(b"%d" % number, b"w") for number in range(20)])
            self.assertLess(time.monotonic() - begun, 10.0)
        self.assertEqual([store.get(b"%d" % number) for number in range(20)], [b"v"] * 20)
        store.write([Put(b"7", b"w")])
        self.assertEqual(store.get(b"7"), b"w")

    def test_a_scan_has_many_pages(self):
        store = self.create()
        rows = {b"%06d" % number: b"v" * (number % 50) for number in range(9000)}
        rows[b"large"] = b"v" * 3_000_000
        store.write([Put(key, value) for key, value in rows.items()])
        with store.snapshot() as snapshot:
            self.assertEqual(dict(snapshot.scan()), rows)
            self.assertEqual(list(snapshot.scan(b"004000", None, 3000)), sorted(rows.items())[4000:7000])

    def test_a_store_isnt_made_over_another(self):
        self.create().close()
        with self.assertRaises(BadManifest):
            self.create()
        with self.assertRaisesRegex(BadManifest, "4 shards have 3"):
            ShardedStore.create(self.client, work / "other", 4, Operator.APPEND, splits=[b"a"])
        self.assertFalse((work / "other").exists())

    def test_nothing_is_left_of_a_store_that_cant_be_opened(self):
        with self.connect() as client:
            cluster.kill_workers()
            with self.assertRaises(NoWorkers):
                self.create(client, patience=0.5)
            self.assertFalse(self.folder.exists())
            with self.with_library("/nowhere.so"), self.assertRaisesRegex(OSError, "/nowhere.so"):
                self.create(client)
            self.assertFalse(self.folder.exists())
            cluster.fill()
            cluster.wait(client)
            self.create(client)

    @contextmanager
    def with_library(self, path):
        """Starts workers without the library."""
        with mock.patch.dict(os.environ, {"UCSTORE_LIBRARY": path}):
            cluster.fill()
        cluster.wait(self.client)
        yield
        cluster.kill_workers()


class Refused(OnCluster):
    def test_damage_names_its_shard_and_file(self):
        with self.create() as store:
            store.write([Put(b"%d" % number, b"v") for number in range(100)])
        path = self.folder / "shard-2" / "000001.log"
        log = path.read_bytes()
        for damaged in (log[:-1], log[:20] + bytes([log[20] ^ 1]) + log[21:], b""):
            path.write_bytes(damaged)
            with self.assertRaisesRegex(LogDamaged, f"shard 2: {path} (is damaged|can't be recovered) at 0: "):
                self.open()
        path.write_bytes(log + b"torn")
        with self.open() as store:
            self.assertEqual(len(self.rows(store)), 100)
            store.write([Put(b"%d" % number, b"w") for number in range(100)])
        self.assertTrue(path.read_bytes().startswith(log) and b"torn" not in path.read_bytes())
        self.assertEqual(self.rows(self.open()), {b"%d" % number: b"w" for number in range(100)})

    def test_a_lost_acknowledgement_is_no_crash(self):
        path = self.folder / "sequencer.log"
        with self.create() as store:
            for number in range(3):
                store.write([Put(b"%d" % key, b"%d" % number) for key in range(100)])
        log, shards = path.read_bytes(), {shard: shard.read_bytes() for shard in self.folder.glob("shard-*/*.log")}
        size = len(log) // 4
        for damaged, wrong in (
            (log[:-1] + bytes([log[-1] ^ 1]), f"sequencer.log is damaged at byte {3 * size}"),
            (log[:2 * size], "begins at sequence 201, so that 200 was acknowledged, and sequencer.log ends at 100"),
            (log[:2 * size + 5], "begins at sequence 201, so that 200 was acknowledged, and sequencer.log ends at 100"),
        ):
            path.write_bytes(damaged)
            with self.subTest(wrong=wrong), self.assertRaisesRegex(LogDamaged, wrong):
                self.open()
            self.assertEqual({shard: shard.read_bytes() for shard in shards}, shards)
        path.write_bytes(log)
        self.assertEqual(self.rows(self.open()), {b"%d" % key: b"2" for key in range(100)})

    def test_a_manifest_of_another_shape(self):
        self.create().close()
        path = self.folder / "manifest.json"
        shape = json.loads(path.read_text())
        shape.pop("sha256")
        for changes, wrong in (
            ({"shards": 5}, "shard-4 isn't there"),
            ({"shards": 3}, None),
            ({"format": 6}, "its format is 6"),
            ({"placement": "sha1"}, "neither by crc32 nor by split points"),
        ):
            path.write_bytes(sealed({**shape, **changes}))
            refused = (BadManifest, wrong) if wrong else (LogDamaged, "sequencer.log is damaged at byte 0")
            with self.subTest(changes=changes), self.assertRaisesRegex(*refused):
                self.open()


class Killed(OnCluster):
    def test_a_batch_that_fails_is_on_no_shard(self):
        store = self.create(patience=1.0)
        batches = [drawn.batch(self.draws) for _ in range(6)]
        for operations in batches[:3]:
            store.write(operations)
        before = store.snapshot()
        killer = threading.Timer(self.draws.random() * 0.01, cluster.kill_workers)
        killer.start()
        with self.assertRaisesRegex(NoWorkers, "no worker is left"):
            while True:
                store.write(batches[3])
                batches.insert(3, batches[3])
        killer.join()
        with self.assertRaises(NoWorkers):
            before.get(b"k000")
        cluster.fill()
        cluster.wait(self.client, 1)
        self.assertEqual(self.rows(store), drawn.fed(batches[:-3]))
        self.assertEqual(dict(before.scan()), drawn.fed(batches[:3]))
        for operations in batches[-3:]:
            store.write(operations)
        self.assertEqual(self.rows(store), drawn.fed(batches))

    def test_a_batch_that_a_shard_refuses_is_on_no_shard(self):
        store = self.create()
        first = [Put(b"%d" % number, b"1" * 100) for number in range(1000)]
        store.write(first)
        with store.snapshot() as before:
            worker = next(iter(self.client.scheduler_info()["workers"]))
            limits = self.client.run(limit_files, 20000, workers=[worker])[worker]
            with self.assertRaisesRegex(ShardedError, "shard [0-3]: .*shard-[0-3]: .*000001.log: File too large"):
                store.write([Put(b"%d" % number, b"2" * 100) for number in range(1000)])
            self.client.run(limit_files, limits[0], workers=[worker])
            self.assertEqual(dict(before.scan()), dict(first))
        self.assertEqual((store.last, self.rows(store)), (1000, dict(first)))
        store.write([Put(b"0", b"3")])
        store.close()
        self.assertEqual(self.rows(self.open()), {**dict(first), b"0": b"3"})

    def test_a_full_device_of_the_sequencer_closes_the_store(self):
        batch = [Put(b"%d" % number, b"1") for number in range(100)]
        for room in (0, 5):
            with self.subTest(room=room):
                store = self.open() if room else self.create()
                store.write(batch)
                snapshot = store.snapshot()
                size = (self.folder / "sequencer.log").stat().st_size
                with limited_files(size + room), self.assertRaisesRegex(OSError, "File too large"):
                    store.write([Put(b"0", b"2")])
                for call in (lambda: store.last, store.snapshot, store.report, lambda: store.write(batch), snapshot.scan):
                    with self.assertRaisesRegex(NoStore, "store is not open"):
                        call()
                store.close()
                with self.open(self.connect(), patience=10.0) as again:
                    self.assertEqual(self.rows(again), {put.key: put.value for put in batch})

    def test_a_writer_is_killed(self):
        self.create().close()
        seed, there = self.draws.randrange(1000), 0
        for _ in range(6):
            acknowledged = self.run_writer(seed, there)
            with self.open() as store:
                self.assertGreaterEqual(store.last, acknowledged)
                written = list(takewhile(lambda found: found[1] <= store.last, writer.batches(seed)))
                # At most the batch in progress is there too.
                self.assertLessEqual(len([last for _, last in written if last > acknowledged]), 1)
                self.assertEqual(written[-1][1] if written else 0, store.last)
                self.assertEqual(self.rows(store), drawn.fed(operations for operations, _ in written))
                there = store.last

    def run_writer(self, seed, there):
        """Kills a writer some time after its first batch. Returns the last sequence number that it printed as acknowledged."""
        command = [sys.executable, writer.__file__, cluster.address, str(self.folder), str(seed)]
        with subprocess.Popen(command, stdout=subprocess.PIPE) as process:
            said = [process.stdout.readline()]
            killer = threading.Timer(self.draws.random(), process.kill)
            killer.start()
            said += process.stdout.readlines()
            killer.join()
        return max([there, *(int(line) for line in said if line.endswith(b"\n"))])

    def test_the_scheduler_is_started_again(self):
        store = self.create()
        batches = [drawn.batch(self.draws) for _ in range(6)]
        for operations in batches[:3]:
            store.write(operations)
        before = store.snapshot()
        store.write(batches[3])
        cluster.kill_scheduler()
        cluster.kill_workers()
        threading.Timer(self.draws.random(), cluster.start).start()
        store.write(batches[4])
        self.assertEqual(dict(before.scan()), drawn.fed(batches[:3]))
        self.assertEqual(self.rows(store), drawn.fed(batches[:5]))
        with self.assertRaises(AnotherWriter):
            self.open(self.connect(), patience=1.0)
        store.write(batches[5])
        self.assertEqual(self.rows(store), drawn.fed(batches))


class Writers(OnCluster):
    def test_a_second_writer_is_refused(self):
        store = self.create()
        for client in (self.client, self.connect()):
            with self.assertRaisesRegex(AnotherWriter, "another writer has .* open"):
                self.open(client, patience=1.0)
        store.write([Put(b"a", b"1")])
        store.close()
        self.assertEqual(self.rows(self.open(client)), {b"a": b"1"})

    def test_a_writer_with_another_path_or_scheduler_is_refused(self):
        store = self.create()
        store.write([Put(b"a", b"1")])
        link = work / "link"
        link.symlink_to(self.folder)
        self.addCleanup(link.unlink)
        folder = work / "other scheduler"
        folder.mkdir()
        other = Cluster(folder, 1, SEED)
        self.addCleanup(other.close)
        other.start()
        with other.client() as client:
            other.wait(client)
            for which, path in (
                (self.client, link), (self.client, self.folder / ".." / self.folder.name), (client, self.folder), (client, link),
            ):
                with self.assertRaisesRegex(AnotherWriter, f"another writer has {path} open"):
                    ShardedStore.open(which, path, patience=0.3)
                store.write([Merge(b"a", b"2")])
            self.assertEqual(self.rows(store), {b"a": b"1,2,2,2,2"})
            store.close()
            with ShardedStore.open(client, link, patience=10.0) as store:
                self.assertEqual(self.rows(store), {b"a": b"1,2,2,2,2"})

    def test_a_writer_that_was_thought_dead_writes_no_more(self):
        old = self.create(patience=1.0)
        # As on another machine, whose file system has no locks that both see.
        old._claim.release()
        old.write([Put(b"a", b"1")])
        snapshot = old.snapshot()
        # A restarted scheduler knows nothing of the first writer, nor do its workers.
        cluster.kill_scheduler()
        cluster.kill_workers()
        cluster.start()
        other = self.connect()
        new = self.open(other)
        new.write([Put(b"a", b"2"), Put(b"b", b"3")])
        with self.assertRaises(AnotherWriter):
            old.write([Put(b"a", b"4")])
        with self.assertRaises(AnotherWriter):
            snapshot.get(b"a")
        old.close()
        self.assertEqual(self.rows(new), {b"a": b"2", b"b": b"3"})
        new.write([Put(b"c", b"5")])
        new.close()
        self.assertEqual(self.rows(self.open(other)), {b"a": b"2", b"b": b"3", b"c": b"5"})


if __name__ == "__main__":
    unittest.main()
