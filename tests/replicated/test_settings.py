"""Settings of replicas: limits that all of them have, another list, and another program that keeps it."""

import os
import signal
import subprocess
import time
import unittest

from local import HOST, free_ports
from test_service import PATIENCE, Lines, OverReplicas

# The exit status of a replica whose list is lost.
LOST = 1


class Settings(OverReplicas):
    def daemon(self, *words, **env):
        """A replica beside the others."""
        made = subprocess.Popen([f"{os.environ['VLM_PREFIX']}/bin/vlmd", "-c", "/dev/null", "-s",
                                 self.local.socket(9), "--etcd", ",".join(self.local.members), *words],
                                stderr=subprocess.DEVNULL, env={**os.environ, **env})
        self.addCleanup(made.wait)
        self.addCleanup(made.kill)
        return made

    def test_a_replica_that_reads_its_limits_again_has_all_use_them(self):
        conf = self.local.folder / "conf"
        before = conf.read_text()
        p = self.lines(1, "open seconds=60", "declare P")

        def answer():
            found = p.ask("enq P NL name=A block=1")
            if ": NORMAL lock " in found:
                p.ask("deq P @1")
            return found.split(" lock ")[0]

        self.assertEqual(answer(), "P: NORMAL")
        for setting, wanted in (("locks 0", "P: EXENQLM"), ("", "P: NORMAL")):
            conf.write_text(f"{before}{setting}\n")
            self.local.signal("replica 0", signal.SIGHUP)
            self.eventually(lambda: answer() == wanted)

    def test_another_prefix_is_another_list(self):
        p = self.lines(0, "open seconds=60", "declare P", "enq P EX name=prefixed block=1")
        self.assertIn("NORMAL", p.answers[2])
        self.assertEqual(len(self.lines(1).texts("who prefixed")), 1)
        (port,) = free_ports(1)
        self.daemon("--prefix", "other/", "--listen", f"{HOST}:{port}")
        self.local.wait_for(port)
        other = Lines((HOST, port))
        self.addCleanup(other.close)
        self.assertEqual(other.texts("who prefixed"), [])

    def test_a_replica_ends_with_the_program_that_keeps_its_list(self):
        self.assertEqual(self.daemon(VLM_LIST="/bin/false").wait(PATIENCE), LOST)

    def test_clients_of_tcp_are_nobody(self):
        p = self.lines(0, "open seconds=60", "declare P", "enq P EX name=mine block=1 system")
        self.assertEqual(p.answers[2], "P: NOSYSLCK")
        self.assertRegex(p.ask("enq P EX name=mine block=1"), "^P: NORMAL lock")
        (who,) = self.lines(1).texts("who mine")
        self.assertEqual((who.split()[3], who.split()[10]), ("1", "65534"))
        self.assertEqual(p.ask("kill 0000000000000000"), "not allowed")


class Identifications(OverReplicas):
    """Replicas whose IDs of locks run out."""

    # Of a lease.
    SECONDS = 10

    def epochs(self):
        """The epoch of each replica."""
        told = [self.lines(number).texts("metrics") for number in range(2)]
        return [int(it.split()[1]) for metrics in told for it in metrics if it.startswith("vlmd_epoch ")]

    def granted(self, connection, line):
        """The handle of a lock, and its token."""
        answer = connection.ask(line)
        self.assertIn(": NORMAL lock ", answer)
        lock = answer.split()[-1]
        return int(lock), int(connection.texts(f"token {lock}")[0].split()[1])

    def test_replicas_change_their_lock_managers_at_one_place(self):
        with (self.local.folder / "conf").open("a") as conf:
            conf.write("identifications 100\ndrain 1000\n")
        self.local.signal("replica 0", signal.SIGHUP)
        p, q = self.lines(0, f"open seconds={self.SECONDS}", "declare P"), self.lines(1, "open seconds=60", "declare Q")
        last = 0
        # A change without locks, which no client sees.
        while p.ask("alive") == "alive" and self.epochs() != [1, 1]:
            for _ in range(10):
                lock, token = self.granted(p, "enq P EX name=A block=1")
                self.assertGreater(token, last)
                last = token
                self.assertEqual(p.ask("deq P @1"), "P: NORMAL")
        # One under a holder, whose locks stay until its lease is over. A session without locks goes on.
        self.granted(p, "enq P EX name=held block=1")
        while "NORMAL" in (answer := q.ask("enq Q EX name=B block=1")):
            self.assertEqual(q.ask("deq Q @1"), "Q: NORMAL")
        self.assertEqual((answer, p.next(), p.next()), ("no identifications left", "lost", None))
        begun = time.monotonic()
        while (answer := q.ask("enq Q EX name=held block=1 noqueue")) == "no identifications left":
            time.sleep(0.1)
        self.assertGreater(time.monotonic() - begun, 1)
        self.assertEqual((answer.split()[:2], self.epochs()), (["Q:", "NORMAL"], [2, 2]))
        self.assertGreater(int(answer.split()[-1]), 2 << 32)
        # (a replica that starts from chunks goes through the same changes)
        self.local.kill("replica 1")
        self.local.start_replica(1)
        self.local.wait()
        shown = [[self.lines(number).texts(line) for line in ("show", "locks", f"token {answer.split()[-1]}")]
                 for number in range(2)]
        self.assertEqual(shown[0], shown[1])
        self.assertGreater(int(shown[0][2][0].split()[1]), last)
        self.assertEqual(self.epochs(), [2, 2])


if __name__ == "__main__":
    unittest.main()
