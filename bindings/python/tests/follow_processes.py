"""Reads a directory beside a program that counts and is killed repeatedly by signal 9, and checks each state that readers see:

    follow_processes.py SECONDS FOLDER PROGRAM..

`PROGRAM FOLDER` counts in several threads, and prints `counted THREAD NUMBER` once a number is acknowledged. `PROGRAM FOLDER follow`
opens the directory to read it. For each line of its input it catches up, and prints `followed SEQUENCE NUMBER..` with the number of each thread
at one moment. A reader sees each number that was acknowledged before it was asked, never goes back, and after the owner's end sees one more
for each thread at most.
"""

import random
import subprocess
import sys
import threading
import time

THREADS = 8
READERS = 3


class Fault(Exception):
    """Something that isn't as it should be."""


def stop(why):
    raise Fault(why)


class Owner:
    """The process that counts."""

    def __init__(self, program, acknowledged):
        self.acknowledged = acknowledged
        self.process = subprocess.Popen(program, stdout=subprocess.PIPE)
        self.noting = threading.Thread(target=self._note)
        self.noting.start()

    def _note(self):
        for line in self.process.stdout:
            words = line.split()
            # The last line may be cut off.
            if line.endswith(b"\n") and words[0] == b"counted":
                self.acknowledged[int(words[1])] = int(words[2])

    def kill(self):
        self.process.kill()
        if self.process.wait(timeout=60) != -9:
            stop("the owner ended by itself")
        self.noting.join()
        self.process.stdout.close()


class Reader:
    """A process that reads beside the owner."""

    def __init__(self, program):
        self.process = subprocess.Popen([*program, "follow"], stdin=subprocess.PIPE, stdout=subprocess.PIPE)
        self.sequence, self.numbers, self.asked = 0, [0] * THREADS, 0

    def check(self, acknowledged, is_ended):
        """Catches up, and checks what is there."""
        least = list(acknowledged)
        self.process.stdin.write(b"\n")
        self.process.stdin.flush()
        line = self.process.stdout.readline().split()
        if len(line) != 2 + THREADS or line[0] != b"followed":
            stop(f"a reader ends by {self.process.wait(timeout=60)}")
        sequence, *numbers = map(int, line[1:])
        if sequence < self.sequence or any(now < before for now, before in zip(numbers, self.numbers)):
            stop(f"a reader goes back from {self.sequence} {self.numbers} to {sequence} {numbers}")
        if any(now < said for now, said in zip(numbers, least)):
            stop(f"a reader has {numbers}, and {least} were acknowledged")
        if is_ended and any(now > said + 1 for now, said in zip(numbers, least)):
            stop(f"a reader has {numbers}, and only {least} were acknowledged")
        # Each batch has two writes.
        if sequence != 2 * sum(numbers):
            stop(f"a reader has {numbers} at the sequence {sequence}")
        self.sequence, self.numbers, self.asked = sequence, numbers, self.asked + 1

    def end(self):
        self.process.stdin.close()
        if self.process.wait(timeout=60) != 0:
            stop(f"a reader ends by {self.process.returncode}")
        self.process.stdout.close()
        return self.asked


def follow(readers, pauses, acknowledged, is_over):
    """Asks readers in turn until the time is over."""
    drawn = random.Random(pauses)
    while not is_over.is_set():
        for reader in readers:
            reader.check(acknowledged, False)
        # Logs that a reader hasn't read are removed meanwhile.
        time.sleep(drawn.uniform(0, pauses))


def beside(owner, readers, pauses, acknowledged):
    """Lets readers follow an owner until it is killed."""
    is_over, faults = threading.Event(), []
    threading.excepthook = faults.append
    threads = [threading.Thread(target=follow, args=(it, pause, acknowledged, is_over)) for it, pause in zip(readers, pauses)]
    for thread in threads:
        thread.start()
    time.sleep(random.uniform(0.1, 0.6))
    owner.kill()
    is_over.set()
    for thread in threads:
        thread.join()
    if faults:
        raise faults[0].exc_value


def run():
    seconds, program = float(sys.argv[1]), [*sys.argv[3:], sys.argv[2]]
    acknowledged, ends, asked, readers = [0] * THREADS, 0, 0, []
    until = time.monotonic() + seconds
    while time.monotonic() < until:
        before = sum(acknowledged)
        owner = Owner(program, acknowledged)
        try:
            while sum(acknowledged) == before:
                if owner.process.poll() is not None:
                    stop("the owner doesn't count")
                time.sleep(0.005)
            # The first ones stay over all owners, and one begins anew beside each.
            readers = readers or [Reader(program) for _ in range(READERS - 1)]
            newest = Reader(program)
            # They have opened it then.
            for reader in [*readers, newest]:
                reader.check(acknowledged, False)
            beside(owner, [[readers[0], newest], readers[1:]], (0.005, 0.2), acknowledged)
        finally:
            owner.process.kill()
        for reader in [*readers, newest]:
            reader.check(acknowledged, True)
        # Numbers that are there without being acknowledged are counted on.
        acknowledged[:] = newest.numbers
        asked += newest.end()
        ends += 1
    asked += sum(reader.end() for reader in readers)
    if not asked > 6 * ends:
        stop(f"readers were asked {asked} times only beside {ends} owners")
    print(f"{ends} owners ended, {sum(acknowledged)} batches, readers caught up {asked} times")


def main():
    try:
        run()
    except Fault as fault:
        sys.exit(f"follow_processes: {fault}")


main()
