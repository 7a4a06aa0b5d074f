"""Uses each call of `ucstore.Db` as a typed program does. mypy checks it, and nothing runs it."""

from pathlib import Path
from typing import Dict, Iterator, List, Mapping, MutableMapping, Optional, Tuple, Union

from ucstore import Db, DbBatch, DbOptions, DbSnapshot, DbStats, Event, EventKind, Operator, Progress, Sync, UcstoreError


def hear(event: Event) -> None:
    kind: EventKind = event.kind
    error: Optional[UcstoreError] = event.error
    print(kind.name, event.runs, event.bytes, event.seconds, event.text, error)


def watch(progress: Progress) -> None:
    print(progress.file, progress.read / progress.whole)


def write(db: Db, batch: DbBatch) -> None:
    db[b"key"] = bytearray(b"value")
    db.put(memoryview(b"key"), b"value")
    db.merge(b"key", b"operand")
    db.delete(b"key")
    del db[b"key"]
    db.delete_range(b"a", b"b")
    batch.put(b"key", b"value")
    batch[b"key"] = b"value"
    batch.merge(b"key", b"operand")
    batch.delete(b"key")
    batch.delete_range(b"a", b"b")
    db.write(batch)
    db.write(batch, synced=True)
    db.write_bytes(b"batch", synced=False)


def read(db: Db, snapshot: DbSnapshot) -> Dict[bytes, bytes]:
    value: bytes = db[b"key"]
    perhaps: Optional[bytes] = snapshot.get(b"key", value)
    many: List[Optional[bytes]] = db.get_many([b"a", bytearray(b"b")])
    rows: Iterator[Tuple[bytes, bytes]] = snapshot.items(b"a", high=b"b")
    keys: Iterator[bytes] = db.keys(prefix=b"a")
    values: Iterator[bytes] = db.values()
    print(perhaps, many, list(keys), list(values), b"key" in db, [key for key in db], snapshot.sequence)
    return dict(rows)


def use_as_mappings(db: Db, snapshot: DbSnapshot) -> int:
    changed: MutableMapping[bytes, bytes] = db
    held: Mapping[bytes, bytes] = snapshot
    value: bytes = changed.setdefault(b"key", b"value")
    db.update({b"a": b"1"})
    db.update([(b"b", bytearray(b"2"))])
    other: Union[bytes, int] = db.get(b"key", 7)
    print(value, other, db.pop(b"a"), db.popitem(), held.get(b"b"), bool(db), db == snapshot, {db: 1})
    db.clear()
    return len(db) + len(held)


def main(folder: Path) -> None:
    options = DbOptions(sync=Sync.EVERY, sync_milliseconds=100)
    with Db(folder, Operator.COUNTER, options, progress=watch, events=hear) as db, Db.in_memory() as other:
        with db.write_batch() as batch, db.snapshot() as snapshot:
            write(other, batch)
            print(read(other, snapshot), use_as_mappings(other, snapshot))
        stats: DbStats = db.stats()
        text: str = db.stats_text()
        failure: Optional[UcstoreError] = db.failure()
        print(stats.sync_p99, text, failure)
        db.sync()
        db.flush()
        db.compact()
        db.checkpoint()
        last: int = db.backup(folder.with_name("backup"))
        print(last)
    with Db(folder, must_exist=True, read_only=True) as reader:
        reached: int = reader.refresh()
        print(reached)
    with Db(folder, recover_to=7, give_up_until=8, marks=[3, 5]) as again, again.take_mark(3) as mark:
        again.checkpoint_to(mark.again())
        again.next_log()
