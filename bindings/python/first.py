"""Counts visits, and prints the number before and after."""

from ucstore import Operator, Store

with Store(Operator.COUNTER) as store:
    store.merge(b"visits", (2).to_bytes(8, "little"))
    with store.snapshot() as before:
        store.merge(b"visits", (3).to_bytes(8, "little"))
        now = int.from_bytes(store[b"visits"], "little")
        then = int.from_bytes(before[b"visits"], "little")
    print(f"{now} visits, {then} before")
