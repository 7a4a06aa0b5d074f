"""Tests of a sharded store with stopped workers, a full disk, a read-only directory, and damaged files."""

import contextlib
import json
import os
import resource
import subprocess
import threading
import time
import unittest

import drawn
import test_cluster
from test_cluster import OnCluster
from ucstore import Operator, Put
from ucstore._shard import sealed
from ucstore.sharded import BadManifest, LogDamaged, OlderFormat, ShardedError, ShardedStore, ShardTimeout

LEAST = 20_000


def setUpModule():
    test_cluster.setUpModule()


def puts(number, count=40, size=20):
    """Returns a batch that sets `count` keys to a number."""
    return [Put(b"k%03d" % key, b"%d" % number * size) for key in range(count)]


class WithBases(OnCluster):
    """Tests of stores whose logs are cut often."""

    def create(self, **options):
        store = ShardedStore.create(
            self.client, self.folder, 4, Operator.APPEND, drawn.OPTIONS, checkpoint_least=LEAST, **options)
        self.addCleanup(store.close)
        return store

    def open(self, client=None, **options):
        store = ShardedStore.open(client or self.client, self.folder, checkpoint_least=LEAST, **options)
        self.addCleanup(store.close)
        return store

    def files(self):
        return {str(path.relative_to(self.folder)): path.read_bytes() for path in self.folder.rglob("*") if path.is_file()}

    def shards(self):
        """Returns the files of the shards."""
        return {name: text for name, text in self.files().items() if name.startswith("shard-")}


class Cut(WithBases):
    def test_logs_stay_short_while_workers_are_killed(self):
        beside, cluster = drawn.Beside(self.create(), self.draws), test_cluster.cluster
        for number in range(400):
            beside.write()
            beside.step()
            if len(beside.snapshots) > 3:
                beside.release()
            if number % 40 == 20:
                threading.Timer(self.draws.random() * 0.02, cluster.kill_worker, [self.client]).start()
        beside.compare_all()
        while beside.snapshots:
            beside.release()
        beside.write()
        beside.write()
        beside.sharded.close()
        # A batch has some 17 bytes per write.
        self.assertGreater(17 * beside.single.last, 2 * sum(map(len, self.shards().values())))
        self.assertTrue([name for name in self.files() if name.endswith((".base", ".runs"))])
        self.assertEqual(self.rows(self.open()), dict(beside.single.scan_at(b"", None, beside.single.take_snapshot())))

    def test_a_worker_needs_memory_for_the_data_and_not_for_all_that_was_written(self):
        store, value, cluster = self.create(sync=False), b"v" * 16000, test_cluster.cluster
        for number in range(250):
            store.write([Put(b"%d" % key, b"%d" % number + value) for key in range(40)])
        store.close()
        self.assertLess(sum(map(len, self.files().values())), 15_000_000)
        cluster.kill_workers()
        cluster.fill()
        cluster.wait(self.client)
        before = self.client.run(peak)
        store = self.open()
        self.assertEqual(store.get(b"7"), b"249" + value)
        for worker, after in self.client.run(peak).items():
            self.assertLess(after - before[worker], 30_000_000)

    def test_a_store_of_an_older_format_is_refused_as_it_is(self):
        store = self.create()
        store.write(puts(1))
        store.close()
        path = self.folder / "manifest.json"
        new, shape = path.read_bytes(), json.loads(path.read_text())
        shape.pop("sha256")
        for number in (2, 3, 4):
            path.write_bytes(sealed({**shape, "format": number}))
            before = self.files()
            with self.assertRaisesRegex(OlderFormat, f"manifest.json is refused: its format is {number}, and only 5 is known"):
                self.open()
            with self.assertRaises(OlderFormat):
                ShardedStore.reader(self.client, self.folder)
            self.assertEqual(self.files(), before)
        path.write_bytes(new)
        self.assertEqual(set(self.rows(self.open()).values()), {b"1" * 20})


def peak():
    """Returns the peak memory of a worker in bytes."""
    return resource.getrusage(resource.RUSAGE_SELF).ru_maxrss * 1024


class Stopped(WithBases):
    def test_workers_are_stopped_for_five_seconds_and_continued(self):
        store, cluster = self.create(patience=20.0), test_cluster.cluster
        for number, count in enumerate((1, 2, 4)):
            store.write(puts(number, 400))
            before = store.snapshot()
            with cluster.stopped_workers(count):
                until = time.monotonic() + 5
                for call in (
                    lambda: store.write(puts(90), timeout=0.5), lambda: store.answers([b"k000", *keys()], timeout=0.5),
                    lambda: store.submit(puts(91), timeout=0.5).result(), lambda: store.snapshot(timeout=0.5),
                    lambda: before.answers(keys(), timeout=0.5),
                ):
                    begun = time.monotonic()
                    with self.subTest(count=count), self.assertRaisesRegex(ShardTimeout, "hasn't answered for [0-9.]+ s"):
                        call()
                    self.assertLess(time.monotonic() - begun, 5.0)
                time.sleep(max(until - time.monotonic(), 0))
            wanted = {put.key: put.value for put in puts(number, 400)}
            self.assertEqual((self.rows(store), dict(before.scan())), (wanted, wanted))
            before.release()
        store.close()
        self.assertEqual(self.rows(self.open()), wanted)

    def test_a_call_without_a_timeout_waits_until_they_are_continued(self):
        store, cluster = self.create(), test_cluster.cluster
        store.write(puts(1))
        with cluster.stopped_workers():
            written = store.submit(puts(2))
            with self.assertRaisesRegex(ShardTimeout, "the batch before|the step before"):
                [store.write(puts(3), timeout=0.3) for _ in range(3)]
            time.sleep(5)
            self.assertFalse(written.done())
        self.assertEqual(written.result(60), 80)
        self.assertEqual(self.rows(store), {put.key: put.value for put in puts(2)})


def keys():
    return [b"k%03d" % number for number in range(40)]


@contextlib.contextmanager
def small_disk(folder):
    """Mounts a file system of two MiB."""
    folder.mkdir()
    mounted = subprocess.run(["mount", "-t", "tmpfs", "-o", "size=2m", "tmpfs", str(folder)], capture_output=True)
    if mounted.returncode != 0:
        raise unittest.SkipTest(f"no file system can be mounted: {mounted.stderr.decode().strip()}")
    try:
        yield
    finally:
        subprocess.run(["umount", "--lazy", str(folder)], check=True)


class FullDisk(WithBases):
    def test_a_full_disk_loses_nothing_that_was_acknowledged(self):
        disk = test_cluster.work / "disk"
        with small_disk(disk):
            self.folder = disk / "store"
            store, refused = self.create(patience=2.0), 0
            for number in range(1, 300):
                store.write(puts(number, 200, 60))
            fill(disk / "other")
            while refused < 5:
                try:
                    store.write(puts(number + 1, 200, 60))
                    number += 1
                except (ShardedError, OSError) as error:
                    self.assertIn("No space left on device", str(error))
                    refused += 1
                    if store._log is None:
                        os.truncate(disk / "other", (disk / "other").stat().st_size - 20_000)
                        store = self.open(patience=2.0)
                self.assertEqual(self.rows(store), {put.key: put.value for put in puts(number, 200, 60)})
            (disk / "other").unlink()
            store.write(puts(7))
            store.close()
            self.assertEqual(self.rows(self.open())[b"k007"], puts(7)[7].value)


def fill(path):
    """Writes a file until its disk is full."""
    with open(path, "wb", buffering=0) as file, contextlib.suppress(OSError):
        while True:
            file.write(bytes(4096))


class ReadOnly(WithBases):
    def test_a_folder_that_may_only_be_read_is_refused_as_it_is(self):
        with self.create() as store:
            store.write(puts(1))
        before = self.files()
        with only_read(self.folder):
            for call in (self.open, lambda: ShardedStore.create(self.client, self.folder / "inner", 2, Operator.APPEND)):
                with self.assertRaises(PermissionError) as raised:
                    call()
                self.assertIn(str(self.folder), str(raised.exception))
        self.assertEqual(self.files(), before)
        self.assertEqual(len(self.rows(self.open())), 40)


@contextlib.contextmanager
def only_read(folder):
    """Makes a directory read-only for this process. Modes do not limit the superuser, so another user is taken then."""
    is_root = os.geteuid() == 0
    for path in [folder, *folder.rglob("*")]:
        path.chmod(0o555 if path.is_dir() else 0o444)
    if is_root:
        above = [path for path in folder.parents if path.stat().st_mode & 0o005 != 0o005]
        for path in above:
            path.chmod(path.stat().st_mode | 0o055)
        os.seteuid(65534)
    try:
        yield
    finally:
        if is_root:
            os.seteuid(0)
        for path in [folder, *folder.rglob("*")]:
            path.chmod(0o755 if path.is_dir() else 0o644)


class Damaged(WithBases):
    def test_a_byte_that_is_damaged_in_a_file_is_refused_and_named(self):
        store = self.create()
        for number in range(60):
            store.write(puts(number, 60, 30))
        # Wait until all checkpoints in progress are written.
        time.sleep(0.5)
        store.close()
        files, wanted = self.files(), {put.key: put.value for put in puts(59, 60, 30)}
        self.assertGreater(sum(name.endswith((".base", ".runs")) for name in files), 3)
        for name, text in sorted(files.items()):
            # These are not read, and logs that were cut are empty.
            places = self.draws.sample(range(len(text)), min(3, len(text))) if name not in ("lock", "epoch") else []
            for place in places:
                (self.folder / name).write_bytes(text[:place] + bytes([text[place] ^ 0x10]) + text[place + 1:])
                with self.subTest(name=name, place=place), self.assertRaisesRegex((LogDamaged, BadManifest), f"{self.folder}/{name} "):
                    self.open(patience=5.0)
                (self.folder / name).write_bytes(text)
        kept = {name: text for name, text in self.files().items() if name != "epoch"}
        self.assertEqual(kept["manifest.json"], files["manifest.json"])
        self.assertEqual(self.shards(), {name: files[name] for name in files if name.startswith("shard-")})
        self.assertEqual(self.rows(self.open()), wanted)


if __name__ == "__main__":
    unittest.main()
