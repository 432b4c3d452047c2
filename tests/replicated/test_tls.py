"""Replicas with TLS to their clients, over an etcd with TLS: VLM_KEYS names the folder of the keys."""

import os
import subprocess
import unittest

import etcd3
from etcd3.exceptions import ConnectionFailedError, ConnectionTimeoutError

from local import CALL, HOST, Local

KEYS = os.environ["VLM_KEYS"]
VLM = os.environ["VLM_PREFIX"] + "/bin/vlm"
ALICE = {**os.environ, "VLM_TLS_CERTIFICATE": f"{KEYS}/alice.pem", "VLM_TLS_KEY": f"{KEYS}/alice.key",
         "VLM_TLS_AUTHORITY": f"{KEYS}/locks.pem"}
# How long a command may take, in seconds.
PATIENCE = 60
# The exit status of a daemon with wrong files.
WRONG = 2


class Secured(unittest.TestCase):
    local: Local

    @classmethod
    def setUpClass(cls):
        with open(f"{KEYS}/rights", "w") as rights:
            rights.write("alice uid=1000 group=1\n")
        cls.local = Local(1, 2, keys=KEYS)
        cls.addClassCleanup(cls.local.close)
        cls.local.wait()
        cls.address = "tls:" + ",".join(f"{HOST}:{port}" for port in cls.local.ports)

    def vlm(self, *words):
        """How a command of the client ends."""
        ended = subprocess.run([VLM, *words], env={**ALICE, "VLM_SOCKET": self.address}, capture_output=True, text=True,
                               timeout=PATIENCE)
        return ended.returncode, ended.stdout

    def test_a_lock_outlives_the_replica_of_its_client(self):
        script = "echo held; read line; echo done"
        with subprocess.Popen([VLM, "lock", "--connect", self.address, "A", "sh", "-c", script], env=ALICE, text=True,
                              stdin=subprocess.PIPE, stdout=subprocess.PIPE) as holder:
            self.assertEqual(holder.stdout.readline(), "held\n")
            (row,) = self.vlm("who", "A")[1].splitlines()[1:]
            self.assertEqual(row.split()[6], "1000")
            self.local.kill("replica 0")
            self.assertEqual(self.vlm("lock", "-n", "A", "true"), (1, ""))
            # (its answer comes by another replica)
            holder.stdin.write("\n")
            holder.stdin.flush()
            self.assertEqual(holder.stdout.readline(), "done\n")
            self.assertEqual(holder.wait(PATIENCE), 0)
        self.assertEqual(self.vlm("lock", "-n", "A", "echo", "mine"), (0, "mine\n"))
        self.local.start_replica(0)
        self.local.wait()

    def test_etcd_wants_a_certificate_of_its_own_authority(self):
        host, port = self.local.members[0].split(":")
        secured = {"ca_cert": f"{KEYS}/etcd.pem", "cert_cert": f"{KEYS}/list.pem", "cert_key": f"{KEYS}/list.key"}
        stranger = {**secured, "cert_cert": f"{KEYS}/alice.pem", "cert_key": f"{KEYS}/alice.key"}
        self.assertTrue(list(etcd3.client(host, int(port), timeout=CALL, **secured).get_prefix("vlm/")))
        for files in ({}, stranger, {"ca_cert": f"{KEYS}/etcd.pem"}):
            with self.assertRaises((ConnectionFailedError, ConnectionTimeoutError)):
                etcd3.client(host, int(port), timeout=CALL, **files).get("vlm/")

    def replica(self, **settings):
        """A replica beside the others that has other files for etcd, and what it says."""
        before, conf = (self.local.folder / "conf").read_text().splitlines(), self.local.folder / "other conf"
        changed = [words for words in map(str.split, before) if words[0] not in settings]
        changed += [[setting, str(file)] for setting, file in settings.items()]
        conf.write_text("".join(f"{' '.join(words)}\n" for words in changed))
        made = subprocess.Popen([f"{os.environ['VLM_PREFIX']}/bin/vlmd", "-c", str(conf), "-s", self.local.socket(9),
                                 "--etcd", ",".join(self.local.members)], stderr=subprocess.PIPE, text=True)
        self.addCleanup(made.stderr.close)
        self.addCleanup(made.wait)
        self.addCleanup(made.kill)
        return made

    def test_a_member_that_is_not_trusted_is_told_in_one_line(self):
        made = self.replica(**{"etcd-authority": f"{KEYS}/locks.pem"})
        said = made.stderr.readline()
        self.assertRegex(said, "^vlm-list: read: no member of etcd answers: .*certificate verify failed")

    def test_wrong_files_for_etcd_are_told_and_end_the_replica(self):
        for setting, file in (("etcd-authority", "none.pem"), ("etcd-authority", "rights"), ("etcd-key", "none.key"),
                              ("etcd-key", "rights"), ("etcd-key", "alice.key")):
            with self.subTest(f"{setting} {file}"):
                made = self.replica(**{setting: f"{KEYS}/{file}"})
                said = made.stderr.readline()
                self.assertTrue(said.startswith("vlm-list: ") and f"{KEYS}/{file}: " in said, said)
                self.assertEqual(made.wait(PATIENCE), WRONG)


if __name__ == "__main__":
    unittest.main()
