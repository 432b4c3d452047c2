"""Two replicas of vlmd over one member of etcd, as processes, and clients of their lines. A thousand races of two
connections for a session, with VLM_PREFIX=PREFIX for what `./vlm install PREFIX` left:
VLM_RACES=1000 /usr/bin/python3 -m unittest test_service.Service.test_two_connections_of_a_session_race"""

import os
import random
import re
import select
import signal
import socket
import sys
import tempfile
import time
import unittest
from pathlib import Path
from unittest import mock

import etcd3
import grpc

from local import CALL, Local

sys.path.insert(0, str(Path(__file__).resolve().parents[2] / "service" / "list"))
from etcd_list import EtcdList  # noqa: E402

sys.path.append(str(Path(__file__).resolve().parents[1]))
from time_of_day import FAKED_TIME, TimeOfDay  # noqa: E402

# How long an answer, an AST or a change may take.
PATIENCE = 20.0
# Bytes of a chunk, and steps that fill it.
CHUNK, STEPS = 3_000, 60
VALUE = "00112233445566778899aabbccddeeff"
# The quota of a small etcd, and the value of a key that fills it.
SMALL, FILLING = 4 << 20, 100_000 * "x"
# How often two connections of one session race, and the longest head start of either in seconds.
RACES, HEAD_START = int(os.environ.get("VLM_RACES", "80")), 0.004


class Lines:
    """A connection, line by line."""

    def __init__(self, place, *lines):
        self._socket = socket.create_connection(place, PATIENCE)
        self._file = self._socket.makefile("rb")
        self.greeting = self.next()
        self.answers = [self.ask(line) for line in lines]

    def ask(self, line):
        self.send(line)
        return self.next()

    def send(self, line):
        self._socket.sendall(line.encode("latin-1") + b"\n")

    def next(self):
        """The next line, or None at the end."""
        line = self._file.readline()
        return line.decode().rstrip("\n") if line else None

    def is_quiet(self, seconds=1.0):
        """Whether nothing comes for a while."""
        return not select.select([self._socket], [], [], seconds)[0]

    def texts(self, line):
        """The lines up to a blank one."""
        self.send(line)
        return list(iter(self.next, ""))

    def close(self):
        self._file.close()
        self._socket.close()


class OverReplicas(unittest.TestCase):
    """Tests over two replicas."""

    @classmethod
    def setUpClass(cls):
        cls.local = Local(1, 2, CHUNK)
        cls.addClassCleanup(cls.local.close)
        cls.local.wait()

    def lines(self, replica, *lines):
        connection = Lines(self.local.places[replica], *lines)
        self.addCleanup(connection.close)
        return connection

    def eventually(self, is_so):
        end = time.monotonic() + PATIENCE
        while not is_so():
            self.assertLess(time.monotonic(), end, "it takes too long")
            time.sleep(0.1)


class Service(OverReplicas):
    def begun(self, replica, name="P", seconds=60):
        """A connection with a session and a process."""
        made = self.lines(replica, f"open seconds={seconds}", f"declare {name}")
        self.session = made.answers[0].split()[1]
        self.assertRegex(made.answers[0], f"^session [0-9a-f]{{16}} seconds {seconds} number 0 asts 0$")
        self.assertRegex(made.answers[1], f"^{name}: process [0-9]+$")
        return made

    def lock_of(self, answer, name="P"):
        self.assertRegex(answer, f"^{name}: NORMAL lock [0-9]+$")
        return answer.split()[-1]

    def test_clients_of_two_replicas_hand_a_value_over(self):
        p, q = self.begun(0), self.begun(1, "Q")
        held = self.lock_of(p.ask("enq P EX name=handed block=1 bast=9 param=4"))
        asked = self.lock_of(q.ask("enq Q PR name=handed block=1 valblk ast=8"), "Q")
        self.assertEqual(p.next(), f"P: blocking 9 param 4 lock {held}")
        self.assertEqual(p.ask(f"deq P {held} value={VALUE}"), "P: NORMAL")
        self.assertEqual(q.next(), f"Q: completion 8 param 0 lock {asked}")
        self.assertEqual(q.next(), f"Q: block 1 status 1 lock {asked} value {VALUE}")

    def test_a_wrong_line_gets_its_fault_and_ends_nothing(self):
        self.assertEqual(self.lines(0, "declare P").answers, ["no session"])
        self.assertEqual(self.lines(0, "open seconds=1").answers, ["number out of range"])
        p = self.begun(0)
        for line, text in (("frobnicate", "unknown command"), ("ast P", "unknown command"), ("open", "session open"),
                           ("leave node=1", "unknown command"), ("search node=1", "unknown command"),
                           ("enq P XX name=A block=1", "wrong word"), ("alive now", "wrong word"),
                           ("x" * 256, "too long"),
                           ("y" * 100_000, "too long"), ("block P 256", "number out of range"),
                           ("enq Q EX name=A block=1", "unknown name"), ("end Q", "unknown name"),
                           ("declare P", "name used"), ("7 cvt P", "7 wrong word"),
                           ("deq P 4294967295", "P: IVLOCKID"), ("enq P EX name=A block=5", "P: ACCVIO")):
            self.assertEqual(p.ask(line), text, line[:40])
        p.send("")
        p.send(" # a comment")
        self.lock_of(p.ask("enq P EX name=after-faults block=1"))
        self.assertEqual(p.ask("alive"), "alive")

    def test_answers_come_in_the_order_of_the_lines(self):
        p = self.begun(0)
        p.send("\n".join(["set P block=1 value=" + VALUE, "block P 1", "alive", "deq P 7", "7", "cvt P 7 EX block=1"]))
        self.assertEqual([p.next() for _ in range(6)],
                         ["P: NORMAL", f"P: block 1 status 0 lock 0 value {VALUE}", "alive", "P: IVLOCKID",
                          "unknown command", "P: IVLOCKID"])

    def test_replicas_tell_how_far_they_are(self):
        p, watchers = self.begun(0), [self.lines(0), self.lines(1)]
        before = max(map(self.revision, watchers))
        self.assertEqual(p.ask("set P block=1 value=" + VALUE), "P: NORMAL")
        self.assertGreater(self.revision(watchers[0]), before)
        self.eventually(lambda: self.revision(watchers[1]) > before)

    def revision(self, connection):
        """The revision of the list that the replica of a connection has run."""
        told = connection.texts("metrics")
        return int(next(it for it in told if it.startswith("vlmd_list_revision ")).split()[1])

    def test_a_number_names_one_step(self):
        p = self.begun(0)
        first = p.ask("5 enq P CR name=numbered block=1")
        self.assertRegex(first, "^5 P: NORMAL lock [0-9]+$")
        self.assertEqual(p.ask("5 enq P CR name=numbered block=1"), first)
        for other in ("5 enq P CR name=another block=1", "5 enq  P CR name=numbered block=1",
                      "4 enq P CR name=numbered block=1"):
            self.assertEqual(p.ask(other), f"{other[0]} old number")
        shown = "\n".join(p.texts("show")).partition(" name numbered ")[2].split("resource")[0]
        self.assertEqual(shown.count(" CR"), 1)

    def locks_on(self, connection, resource):
        """The locks that `show` has on a resource."""
        texts = "\n".join(connection.texts("show")).partition(f" name {resource} ")[2].split("resource")[0]
        return re.findall(r"^  granted ([0-9]+) ", texts, re.M)

    def test_two_connections_of_a_session_race(self):
        rng = random.Random(RACES)
        for race in range(RACES):
            first, then = self.begun(0), self.lines(1)
            sends = [(first, f"2 enq P CR name=first{race} block=1"), (then, f"resume {self.session}")]
            for connection, line in rng.sample(sends, 2):
                connection.send(line)
                time.sleep(rng.uniform(0.0, HEAD_START))
            self.end_race(race, then, is_told=race % 2)
            first.close()
            then.close()

    def end_race(self, race, then, is_told):
        """The connection that resumed sends another line, under the number that it is told or under one of its own. It
        is told a lock on the resource that it named, or that its own number is old."""
        number = int(then.next().split()[5]) + 1 if is_told else 2
        then.send(f"{number} enq P CR name=then{race} block=1")
        if not is_told:
            self.assertRegex(then.next(), f"^session {self.session} ")
        answer = then.next()
        if is_told or answer != "2 old number":
            lock = self.lock_of(answer[len(f"{number} "):])
            self.assertEqual(self.locks_on(then, f"then{race}"), [lock], f"race {race} of {RACES}")
        self.assertEqual(then.ask("close"), "closed")

    def test_a_session_goes_on_at_another_replica(self):
        p = self.begun(0)
        session, first = self.session, p.ask("7 enq P EX name=moved block=1 ast=3")
        asts = [p.next(), p.next()]
        again = self.lines(1, f"resume {session} asts=0")
        self.assertEqual(again.answers, [f"session {session} seconds 60 number 7 asts 1"])
        self.assertEqual([again.next(), again.next()], asts)
        self.assertEqual((p.next(), p.next()), ("session moved", None))
        self.assertEqual(again.ask("7 enq P EX name=moved block=1 ast=3"), first)
        self.assertEqual(again.ask("deq P @1"), "P: NORMAL")

    def test_a_deadlock_is_found_by_the_service(self):
        p, q = self.begun(0), self.begun(1, "Q")
        locks = [self.lock_of(it.ask(f"enq {name} PR name=cycle block=1"), name) for it, name in ((p, "P"), (q, "Q"))]
        self.lock_of(p.ask(f"cvt P {locks[0]} EX block=1 ast=1"))
        self.lock_of(q.ask(f"cvt Q {locks[1]} EX block=1 ast=1"), "Q")
        self.assertEqual(q.next(), f"Q: completion 1 param 0 lock {locks[1]}")
        # Condition 6 is DEADLOCK: the most recent request is the victim.
        self.assertEqual(q.next().split()[:5], ["Q:", "block", "1", "status", "6"])

    def test_a_silent_session_ends_with_its_locks(self):
        lost, other = self.begun(0, seconds=2), self.begun(1, "Q")
        session = self.session_of(lost)
        self.lock_of(lost.ask("enq P EX name=silent block=1"))
        asked = self.lock_of(other.ask("enq Q PR name=silent block=1 valblk ast=1"), "Q")
        self.assertEqual(other.next(), f"Q: completion 1 param 0 lock {asked}")
        # Condition 7 is VALNOTVALID.
        self.assertEqual(other.next().split()[:5], ["Q:", "block", "1", "status", "7"])
        self.assertEqual((lost.next(), lost.next()), ("session ended", None))
        again = self.lines(1, f"resume {session}")
        self.assertEqual((again.answers, again.next()), (["session ended"], None))

    def session_of(self, connection):
        return connection.answers[0].split()[1]

    def test_a_closed_session_leaves_nothing(self):
        p = self.begun(0)
        self.lock_of(p.ask("enq P EX name=closed block=1"))
        self.assertEqual(p.ask("close"), "closed")
        self.assertNotIn(" name closed ", "\n".join(p.texts("show")))
        self.assertEqual(p.ask("enq P EX name=closed block=1"), "no session")
        self.assertRegex(p.ask("open"), "^session [0-9a-f]{16} seconds 10 number 0 asts 0$")
        p.ask("close")

    def make_steps(self, connection, count):
        """Makes steps, the last one refused, and waits until chunks have taken most of them up."""
        for number in range(count):
            self.assertEqual(connection.ask(f"set P block=1 value={number:032x}"), "P: NORMAL")
        self.assertEqual(connection.ask("deq P 4294967295"), "P: IVLOCKID")
        self.eventually(self.is_packed)

    def is_packed(self):
        """Whether there are several chunks, and little beside them."""
        store = EtcdList(self.local.members)
        revision = store.revision()
        chunks = list(store.chunks(0, revision))
        left = sum(len(it.entries) for it in store.batches(chunks[-1].covered if chunks else 0, revision))
        return len(chunks) >= 3 and left < 3 * CHUNK

    def assert_equal_replicas(self, connection, count):
        """Replica 1 shows what the other one shows, and the last value that was set."""
        shown = [connection.texts(line) for line in ("show", "tails", "locks")]
        again = self.lines(1, f"resume {self.session_of(connection)}")
        self.assertEqual(again.ask("block P 1"), f"P: block 1 status 0 lock 0 value {count - 1:032x}")
        self.assertEqual([again.texts(line) for line in ("show", "tails", "locks")], shown)

    def test_a_replica_that_ends_in_order_tells_the_others(self):
        there, here = self.begun(0), self.lines(1)
        before = self.connections(here)
        ended = self.local.processes["replica 0"]
        # (its list has the signal too, as at the end of a unit)
        os.killpg(ended.pid, signal.SIGTERM)
        self.assertEqual((ended.wait(PATIENCE), there.next()), (0, None))
        # (a silent replica would have its connections for 30 seconds more)
        end = time.monotonic() + 15
        while self.connections(here) == before:
            self.assertLess(time.monotonic(), end, "its connections go on")
            time.sleep(0.1)
        self.local.start_replica(0)
        self.local.wait()

    def connections(self, reader):
        """How many connections a replica counts, those of all replicas."""
        told = reader.texts("metrics")
        return next(int(it.split()[1]) for it in told if it.startswith("vlmd_connections "))

    def test_a_new_replica_starts_from_the_chunks(self):
        p = self.begun(0)
        self.make_steps(p, 6 * STEPS)
        self.local.kill("replica 1")
        self.local.start_replica(1)
        self.local.wait()
        self.assert_equal_replicas(p, 6 * STEPS)

    def test_a_replica_that_was_away_reads_on(self):
        p, count = self.begun(0), 20 * STEPS
        self.local.signal("replica 1", signal.SIGSTOP)
        self.addCleanup(self.local.signal, "replica 1", signal.SIGCONT)
        self.make_steps(p, count)
        # Etcd has forgotten where the replica was. Its watch breaks, so it can't go on with what was on its way.
        self.local.kill("etcd 0")
        self.local.start_member(0)
        self.local.signal("replica 1", signal.SIGCONT)
        self.assert_equal_replicas(p, count)


class Away(unittest.TestCase):
    def test_a_replica_finds_etcd_soon_after_an_outage(self):
        with Local(1, 1) as local:
            local.wait()
            there = Lines(local.places[0], "open seconds=60", "declare P")
            self.addCleanup(there.close)
            local.kill("etcd 0")
            time.sleep(4)
            local.start_member(0)
            begun = time.monotonic()
            self.assertRegex(there.ask("enq P EX name=A block=1"), "^P: NORMAL lock")
            self.assertLess(time.monotonic() - begun, 8)


class Lost(unittest.TestCase):
    def test_a_replica_ends_where_the_list_lacks_batches(self):
        with Local(1, 2) as local:
            local.wait()
            there = Lines(local.places[0], "open seconds=60", "declare P", "enq P EX name=A block=1")
            self.addCleanup(there.close)
            store = EtcdList(local.members)
            # (the last batch of the other replica is not its first)
            store.drop(store.revision() - 1, 0)
            local.kill("replica 1")
            local.start_replica(1)
            self.assertNotEqual(there.ask("enq P EX name=B block=1"), None)
            self.assertEqual(local.processes["replica 1"].wait(PATIENCE), 3)
            self.assertIn("the list lacks a batch", (local.folder / "replica 1.log").read_text())

    def test_no_replica_goes_on_or_starts_on_a_list_that_was_emptied(self):
        with Local(1, 3) as local:
            local.wait()
            there = Lines(local.places[0], "open seconds=60", "declare P", "enq P EX name=A block=1")
            self.addCleanup(there.close)
            local.kill("replica 2")
            host, port = local.members[0].split(":")
            etcd3.client(host, int(port), timeout=CALL).delete_prefix("vlm/")
            for number in range(2):
                self.assertEqual(local.processes[f"replica {number}"].wait(PATIENCE), 3)
            local.start_replica(2)
            self.assertEqual(local.processes["replica 2"].wait(PATIENCE), 3)
            self.assertEqual((local.folder / "replica 2.log").read_text().count("ready"), 1)
            self.assertIn("etcd has lost what it had told", local.logs())


@unittest.skipUnless(FAKED_TIME.exists(), "libfaketime is not there")
class Jumping(unittest.TestCase):
    """Replicas whose clocks that tell the time of day jump."""

    # Of a lease, and how much longer a session may take to end.
    SECONDS, LATE = 4, 6

    def setUp(self):
        self.clock = TimeOfDay()
        self.addCleanup(self.clock.close)
        with mock.patch.dict(os.environ, {**self.clock.env, "VLM_LIST": self.true_list()}):
            self.local = Local(1, 2)
        self.addCleanup(self.local.close)
        self.local.wait()

    def true_list(self):
        """The list's program with the true time: Python's sleep fails with another one."""
        folder = tempfile.TemporaryDirectory()
        self.addCleanup(folder.cleanup)
        program = Path(folder.name) / "list"
        installed = os.environ["VLM_PREFIX"] + "/libexec/vlm/list/vlm-list"
        program.write_text(f'#!/bin/sh\nunset LD_PRELOAD\nexec "{installed}" "$@"\n')
        program.chmod(0o700)
        return str(program)

    def test_a_lease_knows_no_time_of_day(self):
        holder = Lines(self.local.places[0], f"open seconds={self.SECONDS}", "declare P", "enq P EX name=A block=1")
        other = Lines(self.local.places[1], "open seconds=60", "declare Q")
        self.addCleanup(other.close)
        for seconds in (86_400, -86_400):
            self.clock.jump(seconds)
            for _ in range(self.SECONDS + 1):
                self.assertRegex(holder.ask("alive"), "^alive")
                time.sleep(1)
            self.assertEqual(other.ask("enq Q EX name=A block=1 noqueue"), "Q: NOTQUEUED")
        begun = time.monotonic()
        other.ask("enq Q EX name=A block=1 ast=7")
        holder.close()
        self.clock.jump(86_400)
        self.assertRegex(other.next(), "^Q: completion 7")
        took = time.monotonic() - begun
        self.assertTrue(self.SECONDS - 2 < took < self.SECONDS + self.LATE, took)


class Full(unittest.TestCase):
    """A replica over an etcd that has no room any more."""

    def setUp(self):
        with mock.patch.dict(os.environ, ETCD_QUOTA_BACKEND_BYTES=str(SMALL)):
            self.local = Local(1, 1)
        self.addCleanup(self.local.close)
        self.local.wait()
        host, port = self.local.members[0].split(":")
        self.etcd = etcd3.client(host, int(port), timeout=CALL)

    def fill(self):
        with self.assertRaises(grpc.RpcError) as refused:
            # (etcd looks at its size ten times a second)
            for number in range(10 * SMALL // len(FILLING)):
                self.etcd.put(f"other {number}", FILLING)
        self.assertEqual(refused.exception.code(), grpc.StatusCode.RESOURCE_EXHAUSTED)

    def make_room(self):
        self.etcd.delete_prefix("other ")
        self.etcd.compact(self.etcd.get_response("other").header.revision, physical=True)
        self.etcd.defragment()
        for alarm in list(self.etcd.list_alarms()):
            list(self.etcd.disarm_alarm(alarm.member_id))

    def test_the_list_goes_on_once_there_is_room(self):
        p = Lines(self.local.places[0], "open seconds=60", "declare P", "enq P EX name=A block=1")
        self.addCleanup(p.close)
        self.fill()
        p.send("enq P EX name=B block=2")
        self.assertTrue(p.is_quiet())
        self.make_room()
        self.assertRegex(p.next(), "^P: NORMAL lock")
        self.assertEqual(len(p.texts("who")), 2)


if __name__ == "__main__":
    unittest.main()
