"""Tests of a shard, the sequencer's log and the manifest, without Dask."""

import errno
import importlib.metadata
import json
import marshal
import os
import random
import resource
import shutil
import signal
import struct
import subprocess
import sys
import tempfile
import threading
import time
import unittest
import uuid
from contextlib import contextmanager, suppress
from pathlib import Path
from unittest import mock

import drawn
from ucstore import Db, Delete, DeleteRange, FileFault, Merge, NotProtected, Operator, Options, Put, Store, batch_bytes
from ucstore._shard import Claim, Manifest, Sequencer, _record, acknowledged, batch_of, dumps, last_numbers, packed, sealed, unsealed
from ucstore._shard_files import Writer
from ucstore._shard_part import Refusal, Shard
from ucstore.sharded import AnotherWriter, BadManifest, LogDamaged, OlderFormat, Scan, ShardedError


def part(*operations):
    """Returns operations as they are sent."""
    return dumps([packed(list(operations))])


def new_epoch(folder):
    """Begins an epoch, as a newer writer does."""
    epoch = uuid.uuid4().hex
    (folder / "epoch").write_text(epoch)
    return epoch


def make(manifest, folder):
    """Creates the files of an empty store, without a writer."""
    with manifest.created(folder) as claim:
        claim.release()


def flips(text):
    """Yields the bytes with each of their bits flipped in turn, and the offset of the bit's byte."""
    for place in range(len(text)):
        for bit in range(8):
            yield place, text[:place] + bytes([text[place] ^ 1 << bit]) + text[place + 1:]


@contextmanager
def files_of_at_most(size):
    """Limits the size of this process's files, as if its device were full."""
    soft, hard = resource.getrlimit(resource.RLIMIT_FSIZE)
    handler = signal.signal(signal.SIGXFSZ, signal.SIG_IGN)
    resource.setrlimit(resource.RLIMIT_FSIZE, (size, hard))
    try:
        yield
    finally:
        resource.setrlimit(resource.RLIMIT_FSIZE, (soft, hard))
        signal.signal(signal.SIGXFSZ, handler)


def can_build():
    """True if there is a setuptools that reads pyproject.toml."""
    with suppress(importlib.metadata.PackageNotFoundError):
        return int(importlib.metadata.version("setuptools").partition(".")[0]) >= 61
    return False


class Folder(unittest.TestCase):
    """Tests in an empty directory."""

    def setUp(self):
        self.folder = Path(tempfile.mkdtemp())
        self.addCleanup(shutil.rmtree, self.folder)


class Manifests(Folder):
    def shape(self, **changes):
        shape = {"format": 5, "shards": 3, "placement": "crc32", "operator": "TAIL", "options": Options()._asdict()}
        return {**shape, **changes}

    def test_each_wrong_shape_is_named(self):
        for wrong, changes in (
            ("its format is 6, and only 5 is known", {"format": 6}),
            ("0 isn't a number of shards", {"shards": 0}),
            ("'3' isn't a number of shards", {"shards": "3"}),
            ("there is no operator 'SUM'", {"operator": "SUM"}),
            ("there is no operator \\['TAIL'\\]", {"operator": ["TAIL"]}),
            ("neither by crc32 nor by split points: 'md5'", {"placement": "md5"}),
            ("neither by crc32 nor by split points: 7", {"placement": 7}),
            ("there are 1 split points, and 3 shards have 2", {"placement": ["61"]}),
            ("the split points don't rise", {"placement": ["62", "61"]}),
            ("the split points don't rise", {"placement": ["61", "61"]}),
            ("there are no options", {"options": {"write_buffer_size": 0}}),
            ("there are no options", {"options": {"memory": 1}}),
            ("there are no options", {"options": "usual"}),
            ("isn't an object of format, operator", {"splits": []}),
        ):
            with self.subTest(wrong=wrong), self.assertRaisesRegex(BadManifest, wrong):
                Manifest.of(self.shape(**changes))
        for shape in ([], None, "crc32", {}):
            with self.assertRaisesRegex(BadManifest, "isn't an object of format, operator"):
                Manifest.of(shape)

    def test_a_file_that_is_missing_or_wrong_is_named(self):
        manifest = Manifest(2, (b"m",), Operator.APPEND, Options(compaction_trigger=9))
        make(manifest, self.folder)
        self.assertEqual(Manifest.read(self.folder), manifest)
        with self.assertRaisesRegex(BadManifest, "isn't empty"):
            make(manifest, self.folder)
        for name in ("shard-1", "epoch", "sequencer.log", "lock"):
            (self.folder / name).rename(self.folder / "moved")
            with self.assertRaisesRegex(BadManifest, f"manifest.json is refused: .*{name} isn't there"):
                Manifest.read(self.folder)
            (self.folder / "moved").rename(self.folder / name)
        (self.folder / "manifest.json").write_text("{")
        with self.assertRaisesRegex(BadManifest, "manifest.json is refused: Expecting"):
            Manifest.read(self.folder)
        (self.folder / "manifest.json").unlink()
        with self.assertRaisesRegex(BadManifest, "manifest.json is refused: .*No such file"):
            Manifest.read(self.folder)

    def test_a_store_of_an_older_format_is_refused_and_stays_as_it_is(self):
        make(Manifest(3, None, Operator.TAIL, Options()), self.folder)
        path = self.folder / "manifest.json"
        old = {"memtable": 4096, "trigger": 40, "ratio": 2, "percent": 100, "least": 3, "greatest": 9, "first_id": 7}
        for text in (
            sealed(self.shape(format=2, options=old)), sealed(self.shape(format=3)), sealed(self.shape(format=4)),
            json.dumps(self.shape(format=4)).encode(),
        ):
            path.write_bytes(text)
            with self.assertRaisesRegex(OlderFormat, f"^{path} is refused: its format is [234], and only 5 is known: write a scan"):
                Manifest.read(self.folder)
            self.assertEqual(path.read_bytes(), text)

    def test_each_flipped_bit_is_refused(self):
        make(Manifest(3, (b"key-3", b"key-6"), Operator.APPEND, Options()), self.folder)
        path = self.folder / "manifest.json"
        for place, text in flips(path.read_bytes()):
            with self.subTest(place=place), self.assertRaises((BadManifest, ValueError)):
                unsealed(text)
        path.write_bytes(path.read_bytes().replace(b"6b65792d33", b"6b65792d32"))
        with self.assertRaisesRegex(BadManifest, f"^{path} is refused: it doesn't have its checksum"):
            Manifest.read(self.folder)

    def test_a_text_of_another_format_or_without_a_checksum_is_refused(self):
        make(Manifest(3, None, Operator.TAIL, Options()), self.folder)
        path, shape = self.folder / "manifest.json", self.shape()
        for text, wrong in (
            (json.dumps({**shape, "format": 1}), "its format is 1, and only 5 is known"),
            (sealed({**shape, "format": 6}).decode(), "its format is 6, and only 5 is known"),
            (json.dumps(shape), "it doesn't have its checksum"),
            (sealed(shape).decode().replace('"shards": 3', '"shards": 2'), "it doesn't have its checksum"),
            ("[]", "it isn't an object"),
        ):
            path.write_text(text)
            with self.subTest(wrong=wrong), self.assertRaisesRegex(BadManifest, f"^{path} is refused: {wrong}"):
                Manifest.read(self.folder)
        path.write_bytes(sealed(shape))
        self.assertEqual(Manifest.read(self.folder).shards, 3)

    def test_wrong_arguments_are_named(self):
        folder = self.folder / "store"
        for wrong, arguments in (
            ("an operator is one like Operator.APPEND, not 'APPEND'", (2, None, "APPEND", Options())),
            ("an operator is one like Operator.APPEND, not 0", (2, None, 0, Options())),
            ("options are Options, not None", (2, None, Operator.TAIL, None)),
            ("a split point is bytes, not 'm'", (2, ("m",), Operator.TAIL, Options())),
            ("a split point is bytes, not 109", (2, tuple(b"m"), Operator.TAIL, Options())),
        ):
            with self.subTest(wrong=wrong), self.assertRaisesRegex(TypeError, wrong):
                make(Manifest(*arguments), folder)
            self.assertFalse(folder.exists())

    def test_what_was_made_is_removed_upon_an_error(self):
        manifest, outer = Manifest(2, None, Operator.APPEND, Options()), self.folder / "outer"
        with self.assertRaises(KeyboardInterrupt), manifest.created(outer / "inner"):
            self.assertEqual(Manifest.read(outer / "inner"), manifest)
            # Files that a worker creates for a shard are removed too.
            Db(outer / "inner" / "shard-1").close()
            raise KeyboardInterrupt
        self.assertFalse(outer.exists())
        with self.assertRaises(OSError), mock.patch("os.replace", side_effect=OSError(errno.ENOSPC, "no space")):
            make(manifest, outer)
        self.assertFalse(outer.exists())
        with self.assertRaises(OSError), mock.patch("fcntl.flock", side_effect=OSError(errno.ENOLCK, "no locks")):
            make(manifest, outer)
        self.assertFalse(outer.exists())
        # A directory that existed stays, and so do files that others created.
        with self.assertRaises(KeyError), manifest.created(self.folder):
            raise KeyError
        self.assertEqual(list(self.folder.iterdir()), [])
        (self.folder / "theirs").touch()
        with self.assertRaisesRegex(BadManifest, "isn't empty"):
            make(manifest, self.folder)
        self.assertEqual([path.name for path in self.folder.iterdir()], ["theirs"])

    def test_what_another_machine_has_opened_stays(self):
        manifest, folder = Manifest(2, None, Operator.APPEND, Options()), self.folder / "store"
        with self.assertRaises(AnotherWriter), manifest.created(folder):
            new_epoch(folder)
            raise AnotherWriter
        self.assertEqual(Manifest.read(folder), manifest)

    def test_a_key_has_its_place(self):
        by_hash = Manifest(4, None, Operator.APPEND, Options())
        # The check value of CRC-32 is the CRC of these digits, 0xCBF43926.
        self.assertEqual(by_hash.owner(b"123456789"), 0xCBF43926 % 4)
        self.assertEqual(list(by_hash.touched(b"a", None)), [0, 1, 2, 3])
        by_splits = Manifest(4, (b"c", b"f", b"k"), Operator.APPEND, Options())
        self.assertEqual(list(map(by_splits.owner, [b"", b"bz", b"c", b"e", b"f", b"k", b"z"])), [0, 0, 1, 1, 2, 3, 3])
        for low, high, touched in (
            (b"", None, [0, 1, 2, 3]), (b"a", b"c", [0]), (b"a", b"c\0", [0, 1]), (b"c", b"k", [1, 2]), (b"d", b"e", [1]),
            (b"x", None, [3]), (b"x", b"x", []), (b"x", b"a", []),
        ):
            self.assertEqual(list(by_splits.touched(low, high)), touched)

    def test_parts_have_all_operations_in_their_order(self):
        draws = random.Random(1)
        operations = [drawn.operation(draws) for _ in range(7001)]
        for splits in (None, (b"k100", b"k250")):
            manifest = Manifest(3, splits, Operator.APPEND, Options())
            wanted = {0: [], 1: [], 2: []}
            for one in operations:
                ranged = manifest.touched(*one) if type(one) is DeleteRange else (manifest.owner(one[0]),)
                for number in ranged:
                    wanted[number].append(one)
            self.assertEqual({type(one) for one in wanted[1]}, {Put, Merge, Delete, DeleteRange})
            batches = {number: batch_of(found, 7) for number, found in manifest.parts(operations).items()}
            self.assertEqual(batches, {number: batch_bytes(found, 7) for number, found in wanted.items()})

    def test_a_part_has_texts_of_each_length(self):
        operations = [Put(b"k" * length, b"v" * length) for length in (0, 1, 127, 128, 16383, 16384, 2097152)]
        self.assertEqual(batch_of(part(*operations), 1), batch_bytes(operations, 1))


class Sequencers(Folder):
    def setUp(self):
        super().setUp()
        self.manifest = Manifest(2, None, Operator.APPEND, Options())
        make(self.manifest, self.folder)
        self.path = self.folder / "sequencer.log"
        self.epoch = new_epoch(self.folder)

    def opened(self):
        sequencer = Sequencer(Writer(self.folder, self.manifest, self.epoch, True, 0.1))
        self.addCleanup(sequencer.close)
        return sequencer

    def test_a_record_without_some_of_its_sectors_is_torn(self):
        records = [_record([number, *range(1, 101)]) for number in (7, 8)]
        text = b"".join(records)
        # The second record spans three sectors: a crash may leave zeros for any of them.
        for first, end in ((812, 1024), (1024, 1536), (1536, 1624)):
            self.path.write_bytes(text[:first] + bytes(end - first) + text[end:])
            self.assertEqual(last_numbers(self.path, 101)[0], 7)
        # Other bytes than zeros are damage, and so is a zero sector of a record that is not the last one.
        for damaged in (text[:1100] + b"\xff" + text[1101:], bytes(512) + text[512:]):
            self.path.write_bytes(damaged)
            with self.assertRaisesRegex(LogDamaged, "sequencer.log is damaged at byte"):
                last_numbers(self.path, 101)

    def test_a_torn_record_is_cut_off_and_damage_is_named(self):
        sequencer = self.opened()
        sequencer.append(5, {1: 70})
        sequencer.append(9, {0: 40})
        text = self.path.read_bytes()
        size = len(text) // 3
        self.assertEqual(size, 28)
        for cut in range(size + 1):
            self.path.write_bytes(text[:len(text) - cut])
            found = self.opened()
            self.assertEqual((found.last, found.reached), (5, [0, 70]) if cut else (9, [40, 70]))
        # A crash may leave the length of a file without its contents.
        self.path.write_bytes(text[:-size] + bytes(size))
        self.assertEqual(self.opened().last, 5)
        for place, damaged in flips(text):
            self.path.write_bytes(damaged)
            with self.assertRaisesRegex(LogDamaged, f"sequencer.log is damaged at byte {place // size * size}"):
                last_numbers(self.path, 3)
        for damaged in (bytes(size), text[:size - 1], text[:size] + bytes(size + 1), text[:size] + bytes(2 * size)):
            self.path.write_bytes(damaged)
            with self.assertRaisesRegex(LogDamaged, "sequencer.log is damaged at byte"):
                self.opened()
        self.path.write_bytes(b"")
        with self.assertRaisesRegex(LogDamaged, "damaged at byte 0"):
            self.opened()

    def test_a_full_device_acknowledges_nothing(self):
        sequencer = self.opened()
        sequencer.append(5, {1: 70})
        size = self.path.stat().st_size
        for room in (0, 1, 27):
            with self.subTest(room=room):
                with files_of_at_most(size + room), self.assertRaises(OSError):
                    sequencer.append(9, {0: 40})
                self.assertEqual((sequencer.last, sequencer.reached), (5, [0, 70]))
                # There is space again, but nothing is written at the end.
                sequencer.close()
                self.assertEqual(self.path.stat().st_size, size + room)
                sequencer = self.opened()
                self.assertEqual((sequencer.last, sequencer.reached), (5, [0, 70]))
                size = self.path.stat().st_size

    def test_a_device_that_fails_acknowledges_nothing(self):
        for call in ("os.fsync", "ucstore._shard.Writer.check"):
            sequencer = self.opened()
            before = sequencer.last, sequencer.reached
            with mock.patch(call, side_effect=OSError(errno.EIO, "broken")), self.assertRaisesRegex(OSError, "broken"):
                sequencer.append(before[0] + 1, {0: 40})
            self.assertEqual((sequencer.last, sequencer.reached), before)
            sequencer.close()

    def test_a_long_log_is_begun_anew(self):
        sequencer = self.opened()
        with mock.patch("ucstore._shard.MOST_RECORDS", 280):
            for last in range(1, 100):
                sequencer.append(last, {last % 2: 10 * last})
                self.assertLessEqual(self.path.stat().st_size, 280 + 28)
                self.assertEqual(list(last_numbers(self.path, 3)), [last, *sequencer.reached])
            self.epoch = new_epoch(self.folder)
            new = self.opened()
            # A writer that was thought dead must not replace the newer one's file.
            for last in range(100, 120):
                with self.assertRaises((AnotherWriter, ValueError)):
                    sequencer.append(last, {})
        self.assertEqual((new.last, new.reached), (99, [980, 990]))
        self.assertEqual(list(last_numbers(self.path, 3)), [99, 980, 990])

    def test_readers_see_the_last_record_that_is_whole(self):
        sequencer = self.opened()
        self.assertEqual(list(acknowledged(self.folder, 3)), [0, 0, 0])
        sequencer.append(5, {1: 70})
        sequencer.append(9, {0: 40})
        text = self.path.read_bytes()
        for cut in range(28 + 1):
            self.path.write_bytes(text[:len(text) - cut])
            self.assertEqual(list(acknowledged(self.folder, 3)), [5, 0, 70] if cut else [9, 40, 70])
        self.path.write_bytes(text[:-1] + bytes([text[-1] ^ 1]))
        self.assertEqual(list(acknowledged(self.folder, 3)), [5, 0, 70])
        for damaged in (b"", bytes(27), b"\1" * 28, b"\1" * 56):
            self.path.write_bytes(damaged)
            with self.assertRaisesRegex(LogDamaged, "sequencer.log is damaged at its end"):
                acknowledged(self.folder, 3)

    def test_readers_see_no_record_of_a_file_that_was_replaced(self):
        sequencer, fsync, newer = self.opened(), os.fsync, []
        sequencer.append(5, {1: 70})

        def replaced(file):
            fsync(file)
            if not newer:
                newer.append(None)
                newer[0] = self.opened()
                newer[0].append(9, {0: 40})

        with mock.patch("os.fsync", replaced):
            self.assertEqual(list(acknowledged(self.folder, 3)), [9, 40, 70])

    def test_an_older_writer_acknowledges_nothing(self):
        old = self.opened()
        old.append(5, {1: 70})
        self.epoch = new_epoch(self.folder)
        new = self.opened()
        with self.assertRaises(AnotherWriter):
            old.append(9, {0: 40})
        new.append(7, {1: 90})
        found = self.opened()
        self.assertEqual((found.last, found.reached), (7, [0, 90]))


class Claims(Folder):
    """Another writer's program prints that it has the directory, and waits to be killed."""

    other = """
import sys, time
from pathlib import Path
from ucstore._shard import Claim
claim = Claim(Path(sys.argv[1]), 0)
print(flush=True)
time.sleep(100)
"""

    def setUp(self):
        super().setUp()
        self.store = self.folder / "store"
        make(Manifest(2, None, Operator.APPEND, Options()), self.store)

    def test_one_writer_has_a_folder_by_whatever_name(self):
        claim = Claim(self.store, 0)
        (self.folder / "link").symlink_to(self.store)
        for path in (self.store, self.folder / "link", self.store / ".." / "store"):
            with self.subTest(path=path), self.assertRaisesRegex(AnotherWriter, "another writer has .* open"):
                Claim(path, 0)
        claim.release()
        claim.release()
        Claim(self.folder / "link", 0).release()

    def test_a_process_that_is_killed_has_nothing(self):
        with subprocess.Popen([sys.executable, "-c", self.other, str(self.store)], stdout=subprocess.PIPE) as process:
            process.stdout.readline()
            with self.assertRaises(AnotherWriter):
                Claim(self.store, 0)
            process.kill()
        Claim(self.store, 0).release()

    def test_a_forked_child_neither_ends_nor_keeps_a_claim(self):
        claim = Claim(self.store, 0)
        told, tell = os.pipe()
        child = os.fork()
        if child == 0:
            os.close(tell)
            os.read(told, 1)
            claim.release()
            os.read(told, 1)
            os._exit(0)
        os.close(told)
        os.write(tell, b"release")
        with self.assertRaises(AnotherWriter):
            Claim(self.store, 0.2)
        claim.release()
        Claim(self.store, 0).release()
        os.close(tell)
        os.waitpid(child, 0)

    def test_the_lock_of_a_file_that_was_removed_is_none(self):
        """The store's creator fails, and removes its files, while another process waits for the lock."""
        lock = self.store / "lock"

        def replaced(*_):
            lock.rename(self.store / "old")
            lock.touch()
            return True

        def removed(*_):
            lock.unlink()
            return True

        for meanwhile, refusal in ((replaced, AnotherWriter), (removed, FileNotFoundError)):
            with mock.patch("ucstore._shard.locked", meanwhile), self.assertRaises(refusal):
                Claim(self.store, 0)

    def test_a_folder_that_is_no_store_is_left_as_it_is(self):
        with self.assertRaises(FileNotFoundError):
            Claim(self.folder, 0)
        self.assertEqual([path.name for path in self.folder.iterdir()], ["store"])


class Shards(Folder):
    def setUp(self):
        super().setUp()
        make(Manifest(4, None, Operator.APPEND, drawn.OPTIONS), self.folder)
        self.path = self.folder / "shard-3"
        self.log = self.path / "000001.log"
        self.epoch = new_epoch(self.folder)

    def opened(self, place=0, keeps=(), options=drawn.OPTIONS, last=1000, least=1 << 30):
        manifest = Manifest(4, None, Operator.APPEND, options)
        return Shard.start(Writer(self.folder, manifest, self.epoch, True, 0.1, least), 3, place, last, keeps)

    def rows(self, shard, at):
        """Returns the state of a shard at a place."""
        return list(shard._view_at(at).items())

    def value(self, shard, key):
        return shard._view_at(shard.last).get(key)

    def test_a_log_is_cut_at_each_of_its_last_hundred_bytes(self):
        shard = self.opened()
        first = shard.apply(0, 1, part(Put(b"a", b"1" * 80), Put(b"b", b"2")))
        acknowledged = shard.apply(first, 5, part(Merge(b"a", b"3" * 30)))
        self.assertEqual((first, acknowledged), (2, 5))
        end = self.log.stat().st_size
        shard.apply(acknowledged, 10, part(Put(b"a", b"4" * 70), Put(b"c", b"5" * 9)))
        del shard
        log = self.log.read_bytes()
        self.assertGreater(len(log) - end, 100)
        for cut in range(101):
            self.log.write_bytes(log[:len(log) - cut])
            shard = self.opened(acknowledged, last=9)
            self.assertEqual(self.value(shard, b"a"), b"1" * 80 + b"," + b"3" * 30)
            self.assertEqual(shard.last, 5)
            self.assertEqual(shard.apply(acknowledged, 10, part(Put(b"a", b"6"))), 10)
            del shard
            self.assertEqual(self.log.read_bytes()[:end], log[:end])
            self.assertLess(self.log.stat().st_size, end + 50)
            self.assertEqual(self.value(self.opened(10), b"a"), b"6")
        for cut in range(1, 101):
            self.log.write_bytes(log[:end - cut])
            with self.assertRaises(LogDamaged) as raised:
                self.opened(acknowledged)
            said = f"shard 3: {self.log} .*the batches end at sequence [02], before 5, and sequencer.log ends at 1000"
            self.assertRegex(str(raised.exception), said)
            self.assertEqual(self.log.stat().st_size, end - cut)

    def test_each_byte_that_is_changed_is_damage(self):
        shard = self.opened()
        first = shard.apply(0, 1, part(Put(b"a", b"1"), Put(b"b", b"2")))
        last = shard.apply(first, 5, part(Merge(b"a", b"3")))
        del shard
        log = self.log.read_bytes()
        for place in range(len(log)):
            self.log.write_bytes(log[:place] + bytes([log[place] ^ 1]) + log[place + 1:])
            with self.assertRaisesRegex(LogDamaged, f"shard 3: {self.log} "):
                self.opened(last)

    def test_a_batch_is_appended_once(self):
        shard = self.opened()
        last = shard.apply(0, 7, part(Merge(b"a", b"1")))
        size = self.log.stat().st_size
        self.assertEqual(shard.apply(0, 7, part(Merge(b"a", b"1"))), last)
        self.assertEqual(self.log.stat().st_size, size)
        self.assertEqual(self.value(shard, b"a"), b"1")

    def test_a_shard_that_refuses_lets_go_of_its_log(self):
        shard = self.opened()
        last = shard.apply(0, 1, part(Put(b"a", b"1")))
        size = self.log.stat().st_size
        # The error is kept, and with it the shard.
        with files_of_at_most(size + 10), self.assertRaisesRegex(ShardedError, f"shard 3: {self.path}: .*000001.log: File too") as raised:
            shard.apply(last, 2, part(Put(b"a", b"2")))
        shard = self.opened(last)
        self.assertEqual(self.value(shard, b"a"), b"1")
        # The part of the batch that it had written was cut off.
        self.assertEqual(self.log.stat().st_size, size)
        self.assertEqual(shard.apply(last, 2, part(Put(b"a", b"3"))), 2)
        del shard
        self.assertEqual(self.value(self.opened(2), b"a"), b"3")
        del raised

    def test_a_batch_behind_one_that_isnt_acknowledged_is_damage(self):
        shard = self.opened()
        first = shard.apply(0, 1, part(Put(b"a", b"1"), Put(b"b", b"2")))
        second = shard.apply(first, 5, part(Put(b"a", b"3")))
        shard.apply(second, 9, part(Put(b"a", b"4")))
        del shard
        log = self.log.read_bytes()
        for place, last, begun in ((0, 0, 5), (first, 4, 9), (first, 3, 5), (second, 7, 9)):
            lost = f"shard 3: {self.log} .*begins at sequence {begun}, so that {begun - 1} was acknowledged, and .* ends at {last}$"
            with self.subTest(place=place), self.assertRaisesRegex(LogDamaged, lost):
                self.opened(place, last=last)
            self.assertEqual(self.log.read_bytes(), log)
        # One batch may be in progress when a writer ends.
        self.assertEqual(self.value(self.opened(second, last=8), b"a"), b"3")
        self.log.write_bytes(log[:-1])
        self.assertEqual(self.value(self.opened(first, last=4), b"a"), b"1")
        # An older one that failed stays in a log that no later batch touched.
        self.assertEqual(self.value(self.opened(first, last=20), b"a"), b"1")

    def test_a_log_is_cut_by_the_first_batch(self):
        shard = self.opened()
        last = shard.apply(0, 1, part(Put(b"a", b"1")))
        shard.apply(last, 2, part(Put(b"a", b"2" * 1000)))
        del shard
        log = self.log.read_bytes()
        shard = self.opened(last)
        self.assertEqual(self.log.read_bytes(), log)
        end = shard.apply(last, 2, part(Put(b"a", b"3")))
        self.assertLess(self.log.stat().st_size, 100)
        del shard
        self.assertEqual(self.value(self.opened(end), b"a"), b"3")

    def test_an_error_of_a_call_is_its_answer(self):
        shard = self.opened()
        at = shard.call("apply", 0, 1, part(Put(b"a", b"1")))
        self.assertIsNone(shard.call("keep", at))
        wrong_limit, wrong_text = dumps([(0, (b"", None, -1))]), dumps([(0, ("a", None, 1))])
        for kind, call in (
            (ValueError, ("answers", wrong_limit, at)), (TypeError, ("answers", wrong_text, at)),
            (struct.error, ("apply", at, -1, part(Put(b"a", b"2")))), (LookupError, ("release", at + 1)),
        ):
            answer = shard.call(*call)
            self.assertIsInstance(answer, Refusal)
            with self.subTest(kind=kind), self.assertRaises(kind):
                raise answer.error.with_traceback(None)
            answer = shard.call(*call)
        self.assertEqual(self.value(shard, b"a"), b"1")
        # The error is kept, but neither the shard nor the lock of its database.
        del shard
        self.assertIsNone(answer.error.__traceback__)
        self.opened(at)

    def test_one_process_has_the_log_open(self):
        shard = self.opened()
        with self.assertRaisesRegex(ShardedError, f"shard 3: {self.path} is open in another process"):
            self.opened()
        del shard
        self.opened()

    def test_an_older_writer_appends_nothing(self):
        shard = self.opened()
        last = shard.apply(0, 1, part(Put(b"a", b"1")))
        size = self.log.stat().st_size
        old, self.epoch = self.epoch, new_epoch(self.folder)
        with self.assertRaises(AnotherWriter):
            shard.apply(last, 2, part(Put(b"a", b"2")))
        self.assertEqual(self.log.stat().st_size, size)
        del shard
        self.opened(last)
        self.epoch = old
        with self.assertRaises(AnotherWriter):
            self.opened(last)

    def test_a_long_log_is_opened_with_a_snapshot(self):
        options = Options(write_buffer_size=1)
        shard, last, at = self.opened(options=options), 0, 0
        for number in range(700):
            if number == 600:
                at = last
                shard.keep(at)
            last = shard.apply(last, number + 1, part(Merge(b"%d" % (number % 3), b"%d" % number)))
        rows = self.rows(shard, last), self.rows(shard, at)
        self.assertNotEqual(*rows)
        del shard
        shard = self.opened(last, [at], options)
        self.assertEqual((self.rows(shard, last), self.rows(shard, at)), rows)

    def test_snapshots_are_taken_again(self):
        for seed in range(10):
            draws = random.Random(seed)
            shutil.rmtree(self.path)
            shard, single, last, place, keeps = self.opened(), Store(Operator.APPEND, drawn.OPTIONS), 0, 0, []
            for _ in range(12):
                for _ in range(draws.randrange(3)):
                    shard.keep(place)
                    keeps.append((place, single.take_snapshot()))
                first, operations = last + draws.randrange(1, 4), drawn.batch(draws, 100)
                last = first + len(operations) + draws.randrange(3)
                place = shard.apply(place, first, part(*operations))
                single.write(operations, first)
            shard.keep(place)
            keeps.append((place, single.take_snapshot()))
            alive = [keep for keep in keeps if draws.random() < 0.6]
            del shard
            shard = self.opened(place, [keep[0] for keep in alive], last=last)
            self.assertEqual(shard.last, single.last)
            for at, same in alive:
                self.assertEqual(self.rows(shard, at), list(single.scan_at(b"", None, same)))
            for at, _ in alive:
                shard.release(at)
            with self.assertRaises(NotProtected):
                shard.release(place)
            self.assertEqual(shard.report().snapshots, 0)
            single.close()
            del shard


class Cuts(Folder):
    """Tests of cutting a shard's logs by checkpoints."""

    def setUp(self):
        super().setUp()
        make(Manifest(1, None, Operator.APPEND, drawn.OPTIONS), self.folder)
        self.path = self.folder / "shard-0"
        self.epoch, self.first, self.place, self.wanted = new_epoch(self.folder), 1, 0, {}

    def opened(self, keeps=(), least=2000):
        writer = Writer(self.folder, Manifest(1, None, Operator.APPEND, drawn.OPTIONS), self.epoch, True, 5.0, least)
        return Shard.start(writer, 0, self.place, self.first - 1, keeps)

    def put(self, shard, count, size=90):
        """Writes a number of batches over ten keys, and waits until no checkpoint is being written."""
        for _ in range(count):
            key, value = b"k%d" % (self.first % 10), b"%d" % self.first * (size // 4)
            self.place = shard.apply(self.place, self.first, part(Put(key, value)))
            self.first += 1
            self.wanted[key] = value
            self.wait(shard)

    def wait(self, shard):
        if shard._base is not None:
            shard._base.join(20)
            self.assertFalse(shard._base.is_alive())

    def files(self):
        return {path.name: path.read_bytes() for path in self.path.iterdir() if path.name != "LOCK"}

    def base(self):
        """Returns the last sequence number of the newest checkpoint: 0 if there is none."""
        return max((int(name[7:-5]) for name in self.files() if name.endswith((".base", ".runs"))), default=0)

    def restore(self, files):
        for path in self.path.iterdir():
            path.unlink()
        for name, text in files.items():
            (self.path / name).write_bytes(text)

    def rows(self, shard, at=None):
        return dict(shard._view_at(self.place if at is None else at).items())

    def test_a_log_is_cut_while_batches_come(self):
        shard, written = self.opened(), 0
        for _ in range(40):
            self.put(shard, 10)
            self.assertLess(sum(map(len, self.files().values())), 20000)
        self.assertGreater(shard._logged, 30000)
        self.assertEqual(self.rows(shard), self.wanted)
        del shard
        before = self.files()
        self.assertNotIn("000001.log", before)
        shard = self.opened()
        self.assertEqual((self.rows(shard), self.files()), (self.wanted, before))
        self.put(shard, 30)
        del shard
        self.assertEqual(self.rows(self.opened()), self.wanted)

    # The measured size of the data depends on compactions, and so on their speed.
    @mock.patch("ucstore._shard_part.RATIO", 0)
    def test_a_base_has_the_rows_of_the_oldest_snapshot(self):
        shard = self.opened()
        self.put(shard, 100)
        old, at = dict(self.wanted), self.place
        shard.keep(at)
        self.put(shard, 100)
        newer, then = dict(self.wanted), self.place
        shard.keep(then)
        self.put(shard, 100)
        self.assertLessEqual(self.base(), at)
        for _ in range(2):
            found = self.rows(shard, at), self.rows(shard, then), self.rows(shard)
            self.assertEqual(found, (old, newer, self.wanted))
            del shard
            shard = self.opened([then, at])
        self.put(shard, 200)
        self.assertEqual(self.base(), at)
        shard.release(at)
        self.put(shard, 200)
        self.assertEqual(self.base(), then)
        self.assertEqual(self.rows(shard, then), newer)
        shard.release(then)
        self.put(shard, 200)
        self.assertGreater(self.base(), then)
        del shard
        self.assertEqual(self.rows(self.opened()), self.wanted)

    def test_each_byte_that_is_changed_is_damage(self):
        shard = self.opened()
        self.put(shard, 60)
        del shard
        files, refused = self.files(), 0
        self.assertEqual(sorted(name[6:] for name in files), [f"-{self.base()}.base", ".log", "OR"])
        for name, text in files.items():
            for place in range(len(text)):
                self.restore({**files, name: text[:place] + bytes([text[place] ^ 1 << place % 8]) + text[place + 1:]})
                with self.subTest(name=name, place=place), self.assertRaisesRegex(LogDamaged, f"shard 0: {self.path}/{name} "):
                    self.opened()
                refused += 1
        self.assertEqual(refused, sum(map(len, files.values())))

    def test_each_file_that_is_cut_or_missing_is_damage(self):
        shard = self.opened()
        self.put(shard, 60)
        del shard
        files = self.files()
        for name, text in files.items():
            for size in range(len(text)):
                self.restore({**files, name: text[:size]})
                with self.subTest(name=name, size=size), self.assertRaisesRegex(LogDamaged, f"shard 0: {self.path}/{name} "):
                    self.opened()
            # A directory without an operator file gets one: it has no data.
            if name != "OPERATOR":
                self.restore({other: files[other] for other in files if other != name})
                with self.subTest(name=name), self.assertRaises(ShardedError):
                    self.opened()

    def test_a_full_device_writes_no_base_and_loses_nothing(self):
        shard = self.opened()

        # A new error each time: a kept error keeps the shard.
        def refuse(*_):
            raise FileFault("no space")

        with mock.patch.object(Db, "checkpoint_to", refuse), mock.patch("threading.excepthook") as said:
            self.put(shard, 100)
        self.assertEqual((self.base(), said.call_count, self.rows(shard)), (0, 0, self.wanted))
        with mock.patch.object(Db, "next_log", refuse):
            self.put(shard, 100)
        self.assertEqual((self.base(), self.rows(shard)), (0, self.wanted))
        self.put(shard, 160)
        self.assertGreater(self.base(), 0)
        del shard
        self.assertEqual(self.rows(self.opened()), self.wanted)

    def test_a_shard_that_ends_while_a_base_is_written_loses_nothing(self):
        shard, checkpoint, reached, go_on = self.opened(), Db.checkpoint_to, threading.Event(), threading.Event()

        def stopped(*arguments):
            reached.set()
            self.assertTrue(go_on.wait(30))
            checkpoint(*arguments)

        with mock.patch.object(Db, "checkpoint_to", stopped):
            while shard._base is None:
                self.place = shard.apply(self.place, self.first, part(Put(b"a", b"%d" % self.first * 99)))
                self.first += 1
            self.assertTrue(reached.wait(30))
            base = shard._base
            del shard
            again = self.opened()
            go_on.set()
            base.join(30)
            self.assertEqual(self.rows(again), {b"a": b"%d" % (self.first - 1) * 99})

    def test_what_is_large_is_read_again(self):
        draws, shard, keeps, single = random.Random(1), self.opened(), [], Store(Operator.APPEND, drawn.OPTIONS)
        for number in range(60):
            operations = [Put(b"%d" % draws.randrange(40), bytes([number]) * draws.choice((0, 9, 900, 70000))) for _ in range(9)]
            self.place = shard.apply(self.place, self.first, part(*operations))
            self.first += 9
            single.write(operations)
            self.wait(shard)
            if number in (30, 45):
                shard.keep(self.place)
                keeps.append((self.place, single.take_snapshot()))
        self.assertGreater(self.base(), 0)
        del shard
        shard = self.opened([at for at, _ in keeps])
        for at, same in [*keeps, (self.place, single.take_snapshot())]:
            self.assertEqual(self.rows(shard, at), dict(single.scan_at(b"", None, same)))

    def test_a_log_behind_what_was_acknowledged_is_damage(self):
        shard = self.opened()
        self.put(shard, 15)
        early = self.place, self.first
        self.put(shard, 60)
        del shard
        files, (self.place, self.first) = self.files(), early
        with self.assertRaisesRegex(LogDamaged, f"-{self.base()}.base .* no batch ends at sequence 15: .* sequencer.log ends at 15"):
            self.opened()
        self.assertEqual(self.files(), files)

    def test_what_was_held_stays_for_readers_for_a_while(self):
        shard = self.opened()
        self.put(shard, 5)
        at, old = self.place, dict(self.wanted)
        self.put(shard, 5)
        self.assertEqual(self.rows(shard, at), old)
        shard.lease(at, 1.5)
        time.sleep(0.6)
        self.put(shard, 2)
        self.assertEqual(marshal.loads(shard.answers(dumps([(7, b"k1"), (8, (b"", None, 1))]), at)), [
            (7, old[b"k1"]), (8, sorted(old.items())[:1])])
        time.sleep(1.0)
        self.put(shard, 2)
        with self.assertRaises(NotProtected):
            self.rows(shard, at)


class Queries(unittest.TestCase):
    def test_wrong_ones_are_refused(self):
        for error, wrong, query in (
            (ValueError, "from 0 to", Scan(limit=-1)), (ValueError, "from 0 to", Scan(limit=1 << 70)),
            (TypeError, "float", Scan(limit=1.5)), (TypeError, "str", Scan(limit="1")),
            (TypeError, "expected bytes, not str", Scan("a")), (TypeError, "expected bytes, not int", Scan(b"", 7)),
        ):
            with self.subTest(query=query), self.assertRaisesRegex(error, wrong):
                query._checked()
        for query in (Scan(), Scan(b"a", b"b", 0), Scan(b"a", None, 1 << 40)):
            self.assertEqual(query._checked(), query)


class Package(Folder):
    @unittest.skipUnless(can_build(), "there is no setuptools that reads pyproject.toml")
    def test_what_is_installed_has_types(self):
        source, built = self.folder / "source", self.folder / "built"
        shutil.copytree(Path(__file__).resolve().parents[1], source)
        command = [sys.executable, "-c", "import setuptools; setuptools.setup()", "--quiet", "build", "--build-lib", str(built)]
        subprocess.run(command, cwd=source, check=True, stderr=subprocess.DEVNULL)
        self.assertTrue((built / "ucstore" / "py.typed").exists())


if __name__ == "__main__":
    unittest.main()
