"""A program's output, and the most memory that it held.

`getrusage` counts the memory of the process that starts a program too. So the program's own mark is read, again and again until it ends:
what it takes in its last two milliseconds may be missed.
"""

import subprocess
import tempfile
import time
from pathlib import Path
from typing import Tuple

EVERY = 0.002


def high_water(status: Path) -> int:
    """Returns the most memory so far of a process in KiB, or 0 once it has ended."""
    try:
        lines = status.read_text().splitlines()
    except OSError:
        return 0
    return next((int(line.split()[1]) for line in lines if line.startswith("VmHWM:")), 0)


def run(program: str, given: bytes) -> Tuple[int, bytes, int]:
    """Returns the exit status of a program that reads these bytes, what it prints, and the most memory that it held, in KiB."""
    with tempfile.TemporaryFile() as file, tempfile.TemporaryFile() as said:
        file.write(given)
        file.seek(0)
        process = subprocess.Popen([program], stdin=file, stdout=said)
        status, kib = Path(f"/proc/{process.pid}/status"), 0
        while process.poll() is None:
            kib = max(kib, high_water(status))
            time.sleep(EVERY)
        said.seek(0)
        return process.returncode, said.read(), kib
