"""Tests of a sharded store on a scheduler and workers that authenticate one another by TLS, and refuse others."""

import os
import shutil
import subprocess
import tempfile
import unittest
from pathlib import Path

from cluster import Cluster
from distributed import Client
from distributed.security import Security
from ucstore import Merge, Operator, Put
from ucstore.sharded import ShardedStore

SEED = int(os.environ.get("SEED", "1"))


def certificate(folder, name):
    """Makes a key and a certificate of its own, and returns the security that they give."""
    key, cert = str(folder / f"{name}.key"), str(folder / f"{name}.pem")
    words = ["openssl", "req", "-x509", "-newkey", "rsa:2048", "-nodes", "-days", "1", "-subj", f"/CN={name}"]
    subprocess.run([*words, "-keyout", key, "-out", cert], check=True, capture_output=True)
    roles = {f"tls_{role}_{kind}": file for role in ("client", "scheduler", "worker") for kind, file in (("key", key), ("cert", cert))}
    return Security(require_encryption=True, tls_ca_file=cert, **roles)


class Tls(unittest.TestCase):
    def setUp(self):
        self.folder = Path(tempfile.mkdtemp())
        self.addCleanup(shutil.rmtree, self.folder)
        self.security = certificate(self.folder, "ucstore")
        self.cluster = Cluster(self.folder, 2, SEED, self.security)
        self.addCleanup(self.cluster.close)
        self.cluster.start()

    def test_a_store_over_tls(self):
        with self.cluster.client() as client:
            self.cluster.wait(client)
            self.assertTrue(client.scheduler.address.startswith("tls://"))
            wanted = {b"key %d" % number: b"%d,more" % number for number in range(200)}
            with ShardedStore.create(client, self.folder / "store", 4, Operator.APPEND) as store:
                store.write([Put(key, value.partition(b",")[0]) for key, value in wanted.items()])
                store.write([Merge(key, b"more") for key in wanted])
                reader = ShardedStore.reader(client, self.folder / "store")
                self.assertEqual(dict(reader.snapshot(60).scan()), wanted)
                self.cluster.kill_worker(client)
                with store.snapshot() as snapshot:
                    self.assertEqual(dict(snapshot.scan()), wanted)

    def test_others_are_refused(self):
        other = certificate(self.folder, "other")
        for security in (None, other):
            with self.assertRaises((OSError, TypeError)):
                Client(self.cluster.address, security=security, set_as_default=False, timeout=2)
        address = self.cluster.address.replace("tls://", "tcp://")
        with self.assertRaises(OSError):
            Client(address, set_as_default=False, timeout=2)


if __name__ == "__main__":
    unittest.main()
