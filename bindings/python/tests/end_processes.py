"""Kills a program repeatedly by signal 9 while it counts, and checks that a directory has the acknowledged numbers:

    end_processes.py TIMES FOLDER PROGRAM..

`PROGRAM FOLDER` counts in several threads, and prints `counted THREAD NUMBER` once a number is acknowledged.
`PROGRAM FOLDER read` prints the contents of the directory. When it is killed, each thread has at most one write in progress.
"""

import random
import subprocess
import sys
import time


def numbers_of(output):
    """Returns the last number of each thread. The last line may be cut off."""
    found = {}
    for line in output[:output.rfind(b"\n") + 1].splitlines():
        word, thread, number = line.split()
        if word == b"counted":
            found[int(thread)] = int(number)
    return found


def end_once(program, folder, seconds, is_counting):
    """Returns the output of the program, killed a while after its first number, or after its start."""
    process = subprocess.Popen([*program, folder], stdout=subprocess.PIPE)
    first = process.stdout.readline() if is_counting else b""
    time.sleep(seconds)
    process.kill()
    output = first + process.stdout.read()
    process.stdout.close()
    if process.wait(timeout=60) != -9:
        sys.exit("end_processes: the program ended by itself")
    return numbers_of(output)


def check(said, had, before):
    """Checks that a directory has the printed numbers, and at most one more for each thread."""
    for thread, number in had.items():
        least = said.get(thread, before.get(thread, 0))
        if not least <= number <= least + 1:
            sys.exit(f"end_processes: thread {thread} said {least}, and the folder has {number}")


def main():
    times, folder, program = int(sys.argv[1]), sys.argv[2], sys.argv[3:]
    drawn, before = random.Random(times), {}
    for _ in range(times):
        said = end_once(program, folder, drawn.uniform(0, 0.15), drawn.random() < 0.8)
        run = subprocess.run([*program, folder, "read"], stdout=subprocess.PIPE, check=True, timeout=60)
        had = numbers_of(run.stdout)
        check(said, had, before)
        before = had
    whole = sum(before.values())
    if whole == 0:
        sys.exit("end_processes: nothing was ever counted")
    print(f"{times} processes ended, {whole} batches kept")


main()
