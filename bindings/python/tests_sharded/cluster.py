"""A Dask scheduler and workers as processes on the loopback address, which tests kill and restart."""

import json
import random
import signal
import subprocess
import sys
import threading
import time
from contextlib import contextmanager
from pathlib import Path
from typing import Dict, Iterator, Optional, Set

from distributed import Client
from distributed.security import Security


class Cluster:
    """Each process is ended by its id. `close` ends all that are left. With `security`, all of them use TLS."""

    def __init__(self, folder: Path, count: int, seed: int, security: Optional[Security] = None) -> None:
        self.folder, self.count, self.random = folder, count, random.Random(seed)
        self.security = security
        self.address = ""
        self.scheduler: Optional[subprocess.Popen] = None
        self.workers: Dict[str, subprocess.Popen] = {}
        self.started = 0
        self.guard = threading.Lock()
        self.log = open(folder / "dask.log", "wb")

    def start(self) -> None:
        """Starts the scheduler at its earlier address, and the workers."""
        port, said = self.address.rpartition(":")[2] or "0", self.folder / "scheduler.json"
        said.unlink(missing_ok=True)
        self.scheduler = self._run("dask_scheduler", "--host", "127.0.0.1", "--port", port, "--scheduler-file", str(said))
        until = time.monotonic() + 60
        while not said.exists() or not said.read_text():
            assert self.scheduler.poll() is None and time.monotonic() < until, "the scheduler doesn't start"
            time.sleep(0.05)
        self.address = json.loads(said.read_text())["address"]
        self.fill()

    def fill(self) -> None:
        """Starts the missing workers, without waiting for them."""
        options = ("--host", "127.0.0.1", "--nthreads", "1", "--no-nanny", "--memory-limit", "0")
        local = str(self.folder / "local")
        while len(self.workers) < self.count:
            self.started += 1
            name = f"w{self.started}"
            self.workers[name] = self._run("dask_worker", self.address, *options, "--name", name, "--local-directory", local)

    def _run(self, name: str, *options: str) -> subprocess.Popen:
        command = [sys.executable, "-m", f"distributed.cli.{name}", *options, "--dashboard-address", "127.0.0.1:0"]
        if self.security:
            files = self.security.get_tls_config_for_role(name.rpartition("_")[2])
            command += ["--protocol", "tls", "--tls-ca-file", files["ca_file"], "--tls-cert", files["cert"], "--tls-key", files["key"]]
        return subprocess.Popen(command, stdin=subprocess.DEVNULL, stdout=self.log, stderr=self.log)

    def client(self, direct: bool = True) -> Client:
        """Returns a client, whose calls go to the workers directly or through the scheduler."""
        return Client(self.address, direct_to_workers=direct, set_as_default=False, timeout=30, security=self.security)

    def known(self, client: Client) -> Set[str]:
        """Returns the names of the workers that the scheduler knows."""
        return {worker["name"] for worker in client.scheduler_info().get("workers", {}).values()}

    def wait(self, client: Client, count: Optional[int] = None) -> None:
        """Waits until a number of workers, or all of them, are there."""
        until = time.monotonic() + 60
        while len(self.known(client) & self.workers.keys()) < (count or self.count):
            assert time.monotonic() < until, "the workers don't come"
            time.sleep(0.05)

    def kill_worker(self, client: Client) -> None:
        """Kills one of the running workers, and starts another."""
        with self.guard:
            names = sorted(self.known(client) & self.workers.keys())
            if names:
                self._kill(self.workers.pop(self.random.choice(names)))
            self.fill()

    def kill_workers(self) -> None:
        """Kills all workers."""
        while self.workers:
            self._kill(self.workers.popitem()[1])

    @contextmanager
    def stopped_workers(self, count: Optional[int] = None) -> Iterator[None]:
        """Stops a number of workers, or all of them, for a while: their processes exist, and do nothing."""
        processes = self.random.sample(list(self.workers.values()), count or len(self.workers))
        for process in processes:
            process.send_signal(signal.SIGSTOP)
        try:
            yield
        finally:
            for process in processes:
                process.send_signal(signal.SIGCONT)

    def kill_scheduler(self) -> None:
        """Kills the scheduler."""
        if self.scheduler is not None:
            self._kill(self.scheduler)
            self.scheduler = None

    @staticmethod
    def _kill(process: subprocess.Popen) -> None:
        process.kill()
        process.wait()

    def close(self) -> None:
        """Ends all processes."""
        self.kill_workers()
        self.kill_scheduler()
        self.log.close()
