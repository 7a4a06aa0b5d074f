"""Tests of `ucstore.Db`: results and errors of its calls, threads, forks, callbacks, and the speed of scans."""

import collections.abc
import ctypes
import doctest
import os
import resource
import subprocess
import sys
import tempfile
import threading
import time
import unittest
from pathlib import Path

import ucstore
from ucstore import (
    BadOption, BatchFull, Closed, Damaged, Db, DbOptions, Delete, EventKind, FileFault, Forked, Locked, Merge, Missing, NotABatch,
    NotProtected, NotRecoverable, Operator, OtherDatabase, OtherOperator, Progress, Put, ReadOnly, SequenceBack, Sync, TooLong,
    UcstoreError, UnknownOperator, _db, _db_library, _db_reader, _db_transaction, batch_bytes,
)

THREADS = 8
ONE = (1).to_bytes(8, "little")


def number(value):
    """Returns a counter's number."""
    return int.from_bytes(value or b"", "little")


# Puts a value and reads it, with a limited number of additional bytes of address space.
WITHOUT_MEMORY = """
import os, resource, sys, time
from ucstore import Db, DbOptions, OutOfMemory
folder, size, allowed = sys.argv[1], int(sys.argv[2]), int(sys.argv[3])

def states():
    tasks = [task for task in os.listdir("/proc/self/task") if int(task) != os.getpid()]
    return {open(f"/proc/self/task/{task}/stat").read().rpartition(")")[2].split()[0] for task in tasks}

with Db(folder, options=DbOptions(compactors=0)) as db:
    # A thread's first call allocates something for it, which ends the process if there is none: let each thread begin, and wait.
    db[b"first"] = b"v"
    assert db[b"first"] == b"v"
    while states() - {"S"}:
        time.sleep(0.001)
    value = bytes(size)
    now = int(open("/proc/self/statm").read().split()[0]) * 4096
    resource.setrlimit(resource.RLIMIT_AS, (now + allowed, resource.RLIM_INFINITY))
    try:
        db[b"k"] = value
        found = len(db[b"k"])
    except (OutOfMemory, MemoryError):
        found = None
    resource.setrlimit(resource.RLIMIT_AS, (resource.RLIM_INFINITY, resource.RLIM_INFINITY))
    assert found in (None, size), found
    db[b"after"] = b"v"
    assert db[b"after"] == b"v"
"""


class InFolder(unittest.TestCase):
    """A test with its own directory."""

    def setUp(self):
        temporary = tempfile.TemporaryDirectory()
        self.addCleanup(temporary.cleanup)
        self.folder = Path(temporary.name) / "db"


class Calls(InFolder):
    def test_it_is_used_like_a_dict(self):
        with Db(self.folder, Operator.APPEND) as db:
            db[b"b"] = b"2"
            db[b"a"] = b"1"
            db.merge(b"a", b"more")
            db[b""] = b""
            self.assertEqual(db[b"a"], b"1,more")
            self.assertEqual((b"b" in db, b"c" in db, db.get(b"c"), db.get(b"c", b"none")), (True, False, None, b"none"))
            self.assertEqual(list(db), [b"", b"a", b"b"])
            self.assertEqual(db.get_many([b"b", b"c", b""]), [b"2", None, b""])
            self.assertEqual(db.get_many([]), [])
            del db[b"b"]
            with self.assertRaises(KeyError) as refused:
                db[b"b"]
            self.assertEqual(refused.exception.args, (b"b",))
        with Db(self.folder) as db:
            self.assertEqual(dict(db.items()), {b"": b"", b"a": b"1,more"})

    def test_it_is_a_mapping(self):
        with Db(self.folder) as db:
            self.assertIsInstance(db, collections.abc.MutableMapping)
            self.assertEqual((len(db), bool(db)), (0, False))
            db.update({b"a": b"1", b"b": b"2"})
            db.update([(b"c", bytearray(b"3")), (b"a", b"4")])
            self.assertEqual(db.stats().batches, 2)
            db.update()
            self.assertEqual((len(db), bool(db)), (3, True))
            with db.snapshot() as snapshot:
                self.assertIsInstance(snapshot, collections.abc.Mapping)
                self.assertNotIsInstance(snapshot, collections.abc.MutableMapping)
                self.assertEqual(db.pop(b"a"), b"4")
                self.assertEqual((db.pop(b"a", None), b"a" in db), (None, False))
                with self.assertRaises(KeyError):
                    db.pop(b"a")
                self.assertEqual((db.setdefault(b"b", b"5"), db.setdefault(b"d", b"6")), (b"2", b"6"))
                self.assertEqual(db.popitem(), (b"b", b"2"))
                self.assertEqual(dict(db.items()), {b"c": b"3", b"d": b"6"})
                self.assertEqual(dict(db), {b"c": b"3", b"d": b"6"})
                self.assertEqual((len(snapshot), dict(snapshot), bool(snapshot)), (3, {b"a": b"4", b"b": b"2", b"c": b"3"}, True))
                db.clear()
                self.assertEqual((list(db), len(db), bool(db), len(snapshot)), ([], 0, False, 3))
                db.clear()
                with self.assertRaises(KeyError):
                    db.popitem()
        with Db(self.folder) as db:
            self.assertEqual(list(db.items()), [])

    def test_an_idle_database_compacts_to_one_run(self):
        told = []
        options = DbOptions(compact_when_idle_milliseconds=20)
        with Db(self.folder, options=options, events=told.append) as db:
            for number in range(3):
                db[b"%d" % number] = b"v"
                db.flush()
            begun = time.monotonic()
            while db.stats().runs > 1 and time.monotonic() < begun + 20:
                time.sleep(0.01)
            self.assertEqual((db.stats().runs, db.stats().last, list(db.keys())), (1, 3, [b"0", b"1", b"2"]))
        self.assertIn(1, [event.runs for event in told if event.kind == EventKind.COMPACTED])
        with Db.in_memory(options=DbOptions(compact_when_idle_milliseconds=0)) as db:
            for number in range(2):
                db[b"%d" % number] = b"v"
                db.flush()
            time.sleep(0.1)
            self.assertEqual((db.stats().runs, db.stats().compactions), (2, 0))

    def test_an_update_is_written_whole_or_not_at_all(self):
        with Db.in_memory() as db:
            for pairs in [(b"a", b"1"), (b"b", None)], [(b"a", b"1"), (b"b",)], {b"a": b"1", "b": b"2"}, [b"ab", 7]:
                with self.assertRaises((TypeError, ValueError)):
                    db.update(pairs)
                self.assertEqual((list(db.items()), db.stats().batches), ([], 0))
            with Db.in_memory() as other:
                other.update({b"%d" % key: b"v" for key in range(1000)})
                db.update(other)
                self.assertEqual((list(db.items()), db.stats().batches), (list(other.items()), 1))

    def test_a_clear_is_one_range_deletion(self):
        with Db.in_memory() as db:
            keys = [b"", b"\0", b"\0\xff", b"k" * 3000, b"\xff", b"\xff\xff", b"\xff\xff\0"]
            db.update(dict.fromkeys(keys, b"v"))
            last = db.stats().last
            db.clear()
            self.assertEqual((list(db.keys()), db.stats().last), ([], last + 1))
            db[b"later"] = b"v"
            self.assertEqual(list(db), [b"later"])

    def test_equality_is_identity(self):
        with Db.in_memory() as db, Db.in_memory() as other, db.snapshot() as snapshot:
            self.assertTrue(db == db and not db != db and db != other and db != {} and db != snapshot)
            self.assertEqual(len({db, other, snapshot, db}), 3)

    def test_lengths_of_many_and_of_large_rows(self):
        with Db.in_memory() as db:
            db.update((b"%06d" % key, b"v" * (key % 30)) for key in range(20_000))
            db[b"large"] = bytes(3_000_000)
            self.assertEqual(len(db), 20_001)
            db.delete_range(b"000100", b"010000")
            self.assertEqual(len(db), 10_101)
        with self.assertRaises(Closed):
            len(db)
        with self.assertRaises(Closed):
            bool(db)

    def test_keys_and_values_are_like_bytes(self):
        with Db.in_memory() as db:
            db[bytearray(b"key")] = memoryview(b"-value-")[1:-1]
            self.assertEqual(db[memoryview(b"key")], b"value")
            self.assertEqual(db[memoryview(b"kxexyx")[::2]], b"value")
            self.assertEqual(list(db.items(prefix=bytearray(b"k"))), [(b"key", b"value")])
            for other in "key", 7, None, [1]:
                with self.assertRaises(TypeError):
                    db[other] = b"v"
                with self.assertRaises(TypeError):
                    db.get(other)

    def test_values_of_any_size(self):
        with Db(self.folder) as db:
            for size in 0, 1, 511, 512, 513, 100_000, 3_000_000:
                value = os.urandom(size)
                db[b"k"] = value
                self.assertEqual(db[b"k"], value)
                self.assertEqual(db.get_many([b"k", b"k"]), [value, value])
                self.assertEqual(list(db.values()), [value])

    def test_scans_have_bounds_or_a_prefix(self):
        with Db.in_memory() as db:
            rows = [(b"%05d" % key, b"v" * (key % 50)) for key in range(3000)] + [(b"\xff", b"1"), (b"\xff\xff", b"2")]
            for key, value in reversed(rows):
                db[key] = value
            self.assertEqual(list(db.items()), rows)
            self.assertEqual(list(db.keys(b"00100", b"00203")), [b"%05d" % key for key in range(100, 203)])
            self.assertEqual(list(db.items(b"02999")), rows[-3:])
            self.assertEqual(list(db.values(prefix=b"\xff")), [b"1", b"2"])
            self.assertEqual(list(db.keys(prefix=b"0012")), [b"%05d" % key for key in range(120, 130)])
            self.assertEqual(list(db.keys(prefix=b"")), [key for key, _ in rows])
            self.assertEqual(list(db.items(b"5", b"4")), [])
            self.assertEqual(list(db.items(reverse=True)), rows[::-1])
            self.assertEqual(list(reversed(db.items(b"00100", b"02999"))), rows[100:2999][::-1])
            self.assertEqual(list(reversed(db)), [key for key, _ in rows[::-1]])
            self.assertEqual(list(db.values(prefix=b"\xff", reverse=True)), [b"2", b"1"])
            self.assertEqual(list(db.items(b"5", b"4", reverse=True)), [])
            self.assertEqual(list(db.keys(prefix=b"0012", reverse=True)), [b"%05d" % key for key in range(129, 119, -1)])
            few = db.items()
            self.assertEqual(next(few), rows[0])
            few.close()
            self.assertEqual(list(few), [])
            for bounds in (b"a", None), (b"", b"b"):
                with self.assertRaises(TypeError):
                    db.items(*bounds, prefix=b"p")

    def test_a_scan_is_of_its_moment(self):
        with Db.in_memory() as db:
            for key in range(1000):
                db[b"%03d" % key] = b"old"
            rows = db.items()
            self.assertEqual(next(rows), (b"000", b"old"))
            db.delete_range(b"", b"z")
            self.assertEqual(sum(value == b"old" for _, value in rows), 999)
            self.assertEqual(list(db), [])

    def test_snapshots(self):
        db = Db.in_memory(Operator.COUNTER)
        db.merge(b"k", ONE)
        with db.snapshot() as before:
            db.merge(b"k", ONE)
            self.assertEqual((number(before[b"k"]), number(db[b"k"])), (1, 2))
            self.assertEqual(before.get_many([b"k", b"l"]), [ONE, None])
            rows = before.items()
            db.close()
            self.assertEqual((before.sequence, list(before.keys(prefix=b"k"))), (1, [b"k"]))
        self.assertEqual(list(rows), [(b"k", ONE)])
        with self.assertRaises(Closed):
            before[b"k"]
        with self.assertRaises(Closed):
            before.keys()
        before.close()

    def test_batches_are_taken_whole(self):
        with Db(self.folder, Operator.APPEND) as db:
            with db.write_batch() as batch:
                batch[b"a"] = b"1"
                batch.put(b"b", b"2")
                batch.merge(b"b", b"3")
                del batch[b"a"]
                batch.delete_range(b"x", b"z")
                self.assertEqual((len(batch), list(db)), (5, []))
            self.assertEqual(list(db.items()), [(b"b", b"2,3")])
            with self.assertRaises(ZeroDivisionError):
                with db.write_batch() as batch:
                    batch.put(b"c", b"never")
                    1 / 0
            self.assertNotIn(b"c", db)
            with self.assertRaises(Closed):
                batch.put(b"c", b"never")
            batch = db.write_batch()
            batch.put(b"d", b"4")
            for synced in None, True, False:
                db.write(batch, synced)
            batch.clear()
            db.write(batch)
            self.assertEqual((db[b"d"], db.stats().batches), (b"4", 4))

    def test_options_are_those_of_the_library(self):
        default = _db_library.Options()
        self.assertEqual(init_options()(ctypes.byref(default), ctypes.c_size_t(ctypes.sizeof(default))), 0)
        self.assertEqual(default.size, ctypes.sizeof(default))
        for name, value in zip(DbOptions._fields, DbOptions()):
            self.assertEqual(getattr(default, name), value, name)
        every_none = DbOptions(sync=Sync.EVERY, sync_milliseconds=0)
        for options in DbOptions(write_buffer_size=0), DbOptions(compactors=1 << 32), DbOptions(sync=7), every_none:
            with self.assertRaises(BadOption):
                Db(self.folder, options=options)
        self.assertFalse(self.folder.exists())
        with self.assertRaises(UnknownOperator):
            Db(self.folder, 9)
        with self.assertRaises(ValueError):
            Db("a\0b")

    def test_texts_may_be_too_long(self):
        """Uses a value of 2^32 bytes, which takes as much memory. With less memory a caller fails earlier."""
        if os.environ.get("LONG"):
            with Db.in_memory() as db:
                with self.assertRaises(TooLong):
                    db[b"k"] = bytes(1 << 32)
                self.assertEqual(list(db), [])

    def test_an_allocation_that_fails_is_an_error(self):
        """In a child with a limited address space a call raises an exception, and the database stays usable."""
        for size in 1, 20, 60:
            for allowed in range(0, 260 * size // 40, max(1, size // 4)):
                child = subprocess.run(
                    [sys.executable, "-c", WITHOUT_MEMORY, str(self.folder), str(size << 20), str(allowed << 20)],
                    capture_output=True, text=True, check=False,
                )
                self.assertEqual((child.returncode, child.stderr), (0, ""), (size, allowed))

    def test_the_database_needs_no_library_of_the_store(self):
        child = subprocess.run(
            [sys.executable, "-c", "from ucstore import Db\nprint(list(Db.in_memory()))"],
            env={**os.environ, "UCSTORE_LIBRARY": "none.so"}, capture_output=True, text=True, check=True,
        )
        self.assertEqual(child.stdout, "[]\n")

    def test_other_calls(self):
        with Db(self.folder, options=DbOptions(sync=Sync.NEVER)) as db:
            for key in range(20):
                db[b"%d" % key] = b"v"
                db.flush()
            db.delete(b"7")
            db.sync()
            db.compact()
            db.checkpoint()
            stats = db.stats()
            self.assertEqual((stats.last, stats.batches, stats.checkpoints), (21, 21, 1))
            # The checkpoint flushes what is left.
            self.assertTrue(stats.flushes == 21 and stats.base_bytes > 0 and stats.sync_p50 <= stats.sync_p99)
            self.assertTrue(stats.run_files >= 1 and stats.kept_bytes == 0)
            self.assertIn("write amplification", db.stats_text())
            self.assertIsNone(db.failure())
            self.assertEqual(len(list(db)), 19)

    def test_lookups_are_counted_by_where_they_are_answered(self):
        with Db(self.folder) as db:
            db[b"run"] = b"v"
            db.flush()
            db[b"memtable"] = b"v"
            for _ in range(640):
                self.assertEqual((db[b"run"], db[b"memtable"], db.get(b"nowhere")), (b"v", b"v", None))
            stats = db.stats()
            self.assertEqual(stats.lookups, 3 * 640)
            for estimate in stats.lookups_by_memtable, stats.lookups_by_filters, stats.lookups_by_runs:
                self.assertLessEqual(abs(estimate - 640), 3 * 64)


def init_options():
    """Returns the library's function that sets the default options."""
    name = os.environ.get("UCSTORE_DB_LIBRARY") or "libucstore_db.so.2"
    return ctypes.CDLL(name).ucstore_db_options_init


class Refusals(InFolder):
    def test_a_folder_is_opened_once(self):
        with Db(self.folder, Operator.COUNTER):
            with self.assertRaisesRegex(Locked, "LOCK is locked"):
                Db(self.folder, Operator.COUNTER)
        with self.assertRaisesRegex(OtherOperator, "OPERATOR names counter: .* append"):
            Db(self.folder, Operator.APPEND)
        file = self.folder / "LOCK" / "x"
        with self.assertRaises(FileFault):
            Db(file)

    def test_a_directory_may_have_to_exist(self):
        for _ in range(2):
            with self.assertRaises(Missing):
                Db(self.folder, must_exist=True)
            self.assertFalse(self.folder.exists())
        self.folder.mkdir()
        with self.assertRaises(Missing):
            Db(self.folder, must_exist=True)
        self.assertEqual(os.listdir(self.folder), [])
        with Db(self.folder) as db:
            db[b"k"] = b"v"
        with Db(self.folder, must_exist=True) as db:
            self.assertEqual(db[b"k"], b"v")

    def test_a_reader_catches_up_with_the_owner(self):
        with self.assertRaises(Missing):
            Db(self.folder, read_only=True)
        self.assertFalse(self.folder.exists())
        with Db(self.folder) as owner:
            owner[b"k"] = b"1"
            with Db(self.folder, read_only=True) as reader, Db(self.folder, read_only=True) as other:
                owner[b"k"] = b"2"
                self.assertEqual(reader[b"k"], b"1")
                self.assertEqual(reader.refresh(), 2)
                self.assertEqual(reader[b"k"], b"2")
                owner.checkpoint()
                with owner.write_batch() as batch:
                    batch.put(b"l", b"3")
                    batch.delete(b"k")
                for db in (reader, other):
                    self.assertEqual(db.refresh(), 4)
                    self.assertEqual(dict(db), {b"l": b"3"})
                with self.assertRaisesRegex(ReadOnly, "opened to be read"):
                    reader[b"k"] = b"4"
                with self.assertRaisesRegex(FileFault, "wasn't opened to be read"):
                    owner.refresh()
            with self.assertRaises(Closed):
                reader.refresh()

    def test_what_a_crash_left_is_set_aside(self):
        with Db(self.folder, options=DbOptions(sync=Sync.NEVER)) as db:
            db[b"k"] = b"v"
            db[b"l"] = b"w" * 100
            size = (self.folder / "000001.log").stat().st_size
            kept = (self.folder / "000001.log").read_bytes()
        (self.folder / "000001.log").write_bytes(kept[:size - 50] + b"x" * 50)
        told = []
        with Db(self.folder, events=told.append) as db:
            self.assertEqual((db.get(b"k"), db.get(b"l")), (b"v", None))
            stats = db.stats()
        asides = [(event.text, event.bytes) for event in told if event.kind == EventKind.SET_ASIDE]
        self.assertEqual([aside for _, aside in asides], [stats.set_aside_bytes])
        self.assertGreater(stats.set_aside_bytes, 100)
        self.assertEqual((self.folder / asides[0][0]).stat().st_size, stats.set_aside_bytes)

    def test_damage_is_named(self):
        with Db(self.folder) as db:
            for key in b"a", b"b", b"c":
                db[key] = b"value"
        log = self.folder / "000001.log"
        text = bytearray(log.read_bytes())
        text[40] ^= 0xFF
        log.write_bytes(text)
        with self.assertRaisesRegex(Damaged, "000001.log is damaged at 32: a fault at 32"):
            Db(self.folder)
        with self.assertRaises(ReadOnly):
            with Db(self.folder, options=DbOptions(recovers_to_fault=True)) as db:
                self.assertEqual(list(db), [b"a"])
                self.assertIsInstance(db.failure(), ReadOnly)
                db[b"k"] = b"v"
        self.assertEqual(log.read_bytes(), text)

    def test_a_closed_one_is_refused(self):
        db = Db(self.folder)
        rows = db.items()
        batch = db.write_batch()
        db.close()
        db.close()
        for call in db.stats, db.flush, db.snapshot, db.items, lambda: db[b"k"], lambda: db.put(b"k", b"v"):
            with self.assertRaises(Closed):
                call()
        with self.assertRaises(Closed):
            db.write(batch)
        self.assertEqual(list(rows), [])
        Db(self.folder).close()

    def test_errors_are_of_their_kinds(self):
        for error in Locked, Damaged, FileFault, Forked, BatchFull:
            self.assertTrue(issubclass(error, UcstoreError))
        self.assertTrue(issubclass(FileFault, OSError))

    def test_a_child_is_refused_by_name(self):
        db, memory = Db(self.folder), Db.in_memory()
        db[b"k"] = b"v"
        snapshot, rows = db.snapshot(), db.items()
        child = os.fork()
        if child == 0:
            os._exit(0 if self.is_forked(db, memory, snapshot, rows) else 1)
        db[b"k"] = b"w"
        self.assertEqual(os.waitpid(child, 0)[1], 0)
        self.assertEqual((db[b"k"], snapshot[b"k"]), (b"w", b"v"))
        db.close()
        Db(self.folder).close()

    def is_forked(self, db, memory, snapshot, rows):
        """True if each call fails in the child, and calls of its own database do not."""
        calls = (
            lambda: db.put(b"k", b"v"), lambda: db[b"k"], lambda: memory.stats(), lambda: snapshot[b"k"], lambda: list(rows),
            db.close, db.write_batch().__len__,
        )
        for call in calls[:-1]:
            try:
                call()
            except Forked as error:
                if "forked" not in str(error):
                    return False
            else:
                return False
        with Db(self.folder.with_name("child")) as own:
            own[b"k"] = b"v"
            return own[b"k"] == b"v" and calls[-1]() == 0


def batch_at(first, *operations):
    """Encodes operations in RocksDB's format, starting at a sequence number."""
    return batch_bytes(operations, first)


class Recovered(InFolder):
    """Tests of a database that is a part of a larger store, whose own log says what was acknowledged."""

    def files(self):
        return {path.name: path.read_bytes() for path in self.folder.iterdir()}

    def test_batches_have_their_own_sequences(self):
        with Db(self.folder) as db:
            db.write_bytes(batch_at(7, Put(b"a", b"1"), Put(b"b", b"2")))
            db.write_bytes(batch_at(0, Put(b"c", b"3")), synced=False)
            db.write_bytes(bytearray(batch_at(20, Delete(b"a"))))
            for wrong, refusal in (b"", NotABatch), (b"?" * 11, NotABatch), (batch_at(20, Put(b"a", b"4")), SequenceBack):
                with self.assertRaises(refusal):
                    db.write_bytes(wrong)
            with self.assertRaises(TypeError):
                db.write_bytes("text")
        with Db(self.folder) as db, db.snapshot() as snapshot:
            self.assertEqual((snapshot.sequence, dict(db.items())), (20, {b"b": b"2", b"c": b"3"}))

    def test_what_is_behind_a_sequence_is_given_up(self):
        with Db(self.folder, Operator.APPEND) as db:
            for first in 1, 5, 9:
                db.write_bytes(batch_at(first, Merge(b"k", b"%d" % first), Put(b"l", b"")))
        before = self.files()
        for to, until, text in ((1, None, "no batch ends at sequence 1"), (11, None, "the batches end at sequence 10, before 11"),
                                (2, 8, "a batch begins at sequence 9, so that 8 was acknowledged")):
            with self.assertRaisesRegex(NotRecoverable, f"^000001.log can't be recovered at [0-9]+: {text}"):
                Db(self.folder, recover_to=to, give_up_until=until)
        for wrong in ({"recover_to": -1}, {"recover_to": 1 << 64}, {"give_up_until": (1 << 64) - 1}, {"marks": [1 << 64]}):
            with self.assertRaises(BadOption):
                Db(self.folder, **wrong)
        with Db(self.folder, recover_to=6, give_up_until=9) as db:
            self.assertEqual(db[b"k"], b"1,5")
        self.assertEqual(self.files(), before)
        with Db(self.folder, recover_to=6) as db:
            db.merge(b"k", b"more")
        with Db(self.folder) as db:
            self.assertEqual((db[b"k"], db.stats().last), (b"1,5,more", 7))

    def test_marks_are_made_again_behind_a_base_of_a_snapshot(self):
        with Db(self.folder, Operator.APPEND, DbOptions(checkpoint_least=(1 << 64) - 1)) as db, Db.in_memory() as other:
            db.merge(b"k", b"1")
            with db.snapshot() as old:
                db.merge(b"k", b"2")
                db.merge(b"k", b"3")
                with old.again() as again:
                    old.close()
                    self.assertEqual(again[b"k"], b"1")
                    db.checkpoint_to(again)
                    with self.assertRaises(OtherDatabase):
                        other.checkpoint_to(again)
                for call in (old.again, lambda: db.checkpoint_to(old)):
                    with self.assertRaises(Closed):
                        call()
        self.assertIn("000001-1.base", self.files())
        with Db(self.folder, recover_to=3, marks=[2, 1, 2]) as db:
            with db.take_mark(2) as snapshot, db.take_mark(1) as older:
                self.assertEqual((snapshot.sequence, snapshot[b"k"], older[b"k"], db[b"k"]), (2, b"1,2", b"1", b"1,2,3"))
            for sequence in 1, 2, 3:
                with self.assertRaises(NotProtected):
                    db.take_mark(sequence)
        with self.assertRaisesRegex(NotRecoverable, "before 4"):
            Db(self.folder, marks=[4])


class Backups(InFolder):
    def test_a_backup_is_a_database(self):
        backup = self.folder.parent / "backup"
        with Db(self.folder) as db:
            db[b"k"] = b"1"
            db.checkpoint()
            db[b"k"] = b"2"
            self.assertEqual(db.backup(backup), 2)
            db[b"k"] = b"3"
            with self.assertRaisesRegex(FileFault, "backup"):
                db.backup(backup)
            with self.assertRaises(ValueError):
                db.backup("a\0b")
            for name in "000002-1.runs", "000001.run":
                self.assertEqual(os.stat(backup / name).st_ino, os.stat(self.folder / name).st_ino)
        with self.assertRaises(Closed):
            db.backup(self.folder.parent / "late")
        with Db(backup, must_exist=True) as db:
            self.assertEqual((db[b"k"], db.stats().last), (b"2", 2))
        self.assertEqual(sorted(os.listdir(self.folder.parent)), ["backup", "db"])

    def test_a_database_in_memory(self):
        with Db.in_memory(Operator.MAXIMUM) as db:
            db.update({b"a": b"1", b"b": b"2"})
            db.backup(self.folder)
        with Db(self.folder, Operator.MAXIMUM) as db:
            self.assertEqual(dict(db), {b"a": b"1", b"b": b"2"})


class Told(InFolder):
    def test_events(self):
        told = []
        with Db(self.folder, events=told.append) as db:
            db[b"k"] = b"v"
            db.flush()
            db.checkpoint()
        self.assertEqual([event.kind for event in told], [EventKind.FLUSHED, EventKind.CHECKPOINTED])
        flushed, checkpointed = told
        self.assertTrue(flushed.runs == 1 and flushed.bytes > 0 and flushed.error is None and flushed.seconds >= 0)
        written = sum(os.path.getsize(self.folder / name) for name in ("000002-1.runs", "000001.run"))
        self.assertEqual((checkpointed.text, checkpointed.bytes), ("000002-1.runs", written))

    def test_a_function_that_is_told_may_call(self):
        seen = []

        def tell(event):
            seen.append((db[b"k"], db.stats().flushes, event.kind))

        db = Db(self.folder, events=tell)
        db[b"k"] = b"v"
        db.flush()
        db.close()
        self.assertEqual(seen, [(b"v", 1, EventKind.FLUSHED)])

    def test_the_progress_of_an_opening(self):
        with Db(self.folder, options=DbOptions(sync=Sync.NEVER)) as db:
            for key in range(40):
                db[b"%d" % key] = bytes(100_000)
        told = []
        with Db(self.folder, progress=told.append) as db:
            self.assertEqual(len(list(db)), 40)
        size = os.path.getsize(self.folder / "000001.log")
        self.assertTrue(len(told) >= 4 and told == sorted(told, key=lambda progress: progress.read))
        self.assertEqual(told[-1], Progress("000001.log", size, size))

    def test_a_failure_is_told(self):
        told = []
        db = Db(self.folder, events=told.append)
        db[b"k"] = b"v"
        limits = resource.getrlimit(resource.RLIMIT_FSIZE)
        resource.setrlimit(resource.RLIMIT_FSIZE, (2000, limits[1]))
        try:
            for _ in range(2):
                with self.assertRaisesRegex(FileFault, "000001.log: File too large"):
                    db[b"l"] = bytes(3000)
            self.assertEqual([type(event.error) for event in told], [FileFault])
            # A smaller value fits.
            db[b"k"] = b"w"
        finally:
            resource.setrlimit(resource.RLIMIT_FSIZE, limits)
        db[b"l"] = bytes(3000)
        self.assertEqual((db[b"k"], len(db[b"l"])), (b"w", 3000))
        # A checkpoint fails where no file can be created, and writes continue.
        os.rename(self.folder, self.folder.with_name("gone"))
        with self.assertRaisesRegex(FileFault, "000002.log: No such file"):
            db.checkpoint()
        db[b"k"] = b"x"
        db.close()


class Threads(InFolder):
    def test_counters_agree_at_each_moment(self):
        options = DbOptions(write_buffer_size=2000, checkpoint_least=20_000, sync=Sync.EVERY, sync_milliseconds=5)
        rounds, failures = 200, []
        with Db(self.folder, Operator.COUNTER, options) as db:

            def count(thread):
                for turn in range(rounds):
                    with db.write_batch() as batch:
                        batch.merge(b"k%d" % ((7 * thread + turn) % 16), ONE)
                        batch.merge(b"whole", ONE)
                    if turn % 20 == thread:
                        with db.snapshot() as snapshot:
                            whole = number(snapshot.get(b"whole"))
                            if whole != sum(map(number, snapshot.values(prefix=b"k"))):
                                failures.append(whole)
                    if turn % 100 == 10 * thread:
                        (db.flush, db.compact, db.checkpoint)[thread % 3]()

            run_all(count)
        with Db(self.folder, Operator.COUNTER) as db:
            self.assertEqual((number(db[b"whole"]), failures), (rounds * THREADS, []))

    def test_a_close_beside_calls(self):
        for _ in range(20):
            db = Db(self.folder)
            kinds = []

            def work(thread):
                try:
                    while True:
                        db[b"%d" % thread] = b"v"
                        list(db.items())
                except Closed:
                    kinds.append(thread)

            def close():
                time.sleep(0.005)
                db.close()

            closer = threading.Thread(target=close)
            closer.start()
            run_all(work)
            closer.join()
            self.assertEqual(len(kinds), THREADS)

    def test_other_threads_run_meanwhile(self):
        """A long call of the library lets another thread count."""
        with Db(self.folder, options=DbOptions(sync=Sync.NEVER)) as db:
            counted, is_done = [0], threading.Event()

            def count():
                while not is_done.is_set():
                    counted[0] += 1

            with db.write_batch() as batch:
                for key in range(100_000):
                    batch.put(b"%d" % key, b"v" * 20)
            counter = threading.Thread(target=count)
            counter.start()
            try:
                before, begun = counted[0], time.perf_counter()
                db.checkpoint()
                took, rounds = time.perf_counter() - begun, counted[0] - before
            finally:
                is_done.set()
                counter.join()
            self.assertGreater(rounds, 1000 * took)


def run_all(work):
    """Runs a function in threads, each with its number."""
    threads = [threading.Thread(target=work, args=(number,)) for number in range(THREADS)]
    for thread in threads:
        thread.start()
    for thread in threads:
        thread.join()


class Ends(InFolder):
    def test_an_interpreter_that_ends_closes_what_is_open(self):
        program = (
            "import sys, ucstore\n"
            "options = ucstore.DbOptions(write_buffer_size=100)\n"
            "db = ucstore.Db(sys.argv[1], options=options, events=lambda event: None)\n"
            "for key in range(1000): db[b'%d' % key] = b'v'\n"
            "rows = db.items()\n"
            "next(rows)\n"
        )
        subprocess.run([sys.executable, "-c", program, self.folder], check=True, timeout=60)
        with Db(self.folder) as db:
            self.assertEqual(len(list(db)), 1000)


class Speed(InFolder):
    def test_a_row_of_a_scan(self):
        """Measures processor time. While other work runs, a row takes up to three times as long."""
        count, options = 200_000, DbOptions(sync=Sync.NEVER)
        with Db(self.folder, options=options) as db:
            with db.write_batch() as batch:
                for key in range(count):
                    batch.put(b"%08d" % key, b"v" * 20)
            db.flush()
            self.assertEqual(sum(1 for _ in db.items()), count)
            best = min(self.seconds(db) for _ in range(9))
        nanoseconds = 1e9 * best / count
        print(f"a row of a scan takes {nanoseconds:.0f} ns")
        self.assertLess(nanoseconds, 300 if os.environ.get("QUIET") else 900)

    def seconds(self, db):
        """Returns the time of reading all rows."""
        begun = time.thread_time()
        collections.deque(db.items(), maxlen=0)
        return time.thread_time() - begun


class Pages(unittest.TestCase):
    def test_the_examples_of_the_pages(self):
        for module in _db, _db_reader, _db_transaction, ucstore:
            failures, tried = doctest.testmod(module)
            self.assertEqual(failures, 0)
        self.assertGreater(tried, 0)

    def test_what_is_given_out_is_there(self):
        for name in ucstore.__all__:
            self.assertTrue(hasattr(ucstore, name), name)


if __name__ == "__main__":
    unittest.main()
