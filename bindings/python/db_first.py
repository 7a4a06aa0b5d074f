"""Counts visits in a directory, and prints the number before and after."""

from ucstore import Db, Operator

with Db("visits", Operator.COUNTER) as db:
    db.merge(b"visits", (2).to_bytes(8, "little"))
    with db.snapshot() as before:
        db.merge(b"visits", (3).to_bytes(8, "little"))
        now = int.from_bytes(db[b"visits"], "little")
        then = int.from_bytes(before[b"visits"], "little")
    print(f"{now} visits, {then} before")
