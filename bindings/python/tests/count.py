"""Counts in eight threads until it is killed, and prints each number once it is acknowledged:

    count.py FOLDER          counts
    count.py FOLDER read     prints the last number of each thread
    count.py FOLDER follow   reads beside the process that counts: for each line of input it catches up, and prints `followed`, the sequence
                             number, and the number of each thread

Each thread writes the same number under two keys at once, so both always have the same number.
"""

import os
import sys
import threading

from ucstore import Db, DbOptions, Operator

THREADS = 8
ONE = (1).to_bytes(8, "little")


def counted(db, thread):
    """Returns the number that a thread has written under both of its keys."""
    first, second = db.get_many([b"a%d" % thread, b"b%d" % thread])
    if first != second:
        os.write(2, b"thread %d has half of a batch\n" % thread)
        os._exit(1)
    return int.from_bytes(first or b"", "little")


def count(db, thread):
    number = counted(db, thread)
    while True:
        with db.write_batch() as batch:
            batch.merge(b"a%d" % thread, ONE)
            batch.merge(b"b%d" % thread, ONE)
        number += 1
        # One call writes a line.
        os.write(1, b"counted %d %d\n" % (thread, number))
        if thread == 0 and number % 20 == 0:
            db.checkpoint()
        counted(db, (thread + 1) % THREADS)


def follow(folder):
    with Db(folder, Operator.COUNTER, read_only=True) as db:
        for _ in sys.stdin.buffer:
            least = db.refresh()
            with db.snapshot() as snapshot:
                if snapshot.sequence < least:
                    sys.exit("a snapshot is older than a refresh before it")
                values = snapshot.get_many([b"%c%d" % (kind, thread) for kind in b"ab" for thread in range(THREADS)])
                numbers = [int.from_bytes(value or b"", "little") for value in values]
                if numbers[:THREADS] != numbers[THREADS:]:
                    sys.exit("a reader has half of a batch")
                print("followed", snapshot.sequence, *numbers[:THREADS], flush=True)


def main():
    if sys.argv[2:] == ["follow"]:
        return follow(sys.argv[1])
    options = DbOptions(write_buffer_size=2000, checkpoint_least=20_000)
    with Db(sys.argv[1], Operator.COUNTER, options) as db:
        if len(sys.argv) > 2:
            for thread in range(THREADS):
                print("counted", thread, counted(db, thread))
            return
        threads = [threading.Thread(target=count, args=(db, thread)) for thread in range(THREADS)]
        for thread in threads:
            thread.start()
        for thread in threads:
            thread.join()


main()
