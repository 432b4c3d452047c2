"""Connections to the lock service, over a vlmd of its own: the one in VLM_PREFIX/bin, or the one that VLMD names."""

import gc
import os
import resource
import shutil
import signal
import socket
import subprocess
import tempfile
import threading
import time
import unittest
from concurrent.futures import ThreadPoolExecutor
from contextlib import suppress
from pathlib import Path
from unittest import mock

from vlm import (BadParamError, Condition, DeadlockError, DequeueFlags, Flags, IvLockIdError, LostError, Mode,
                 NonExprError, NotQueuedError, SubLocksError, TimedOutError, _client, connect)

from forks import status_of_child

VLMD = os.environ.get("VLMD") or os.path.join(os.environ.get("VLM_PREFIX", ""), "bin", "vlmd")
SECONDS = 30


class Replica:
    """Looks like a replica: carries bytes between a port and the socket of a vlmd."""

    def __init__(self, path):
        self.path = path
        self.sockets = []
        self.listener = socket.create_server(("127.0.0.1", 0))
        self.address = f"127.0.0.1:{self.listener.getsockname()[1]}"
        threading.Thread(target=self.accept, daemon=True).start()

    def accept(self):
        while True:
            try:
                ours = self.listener.accept()[0]
            except OSError:
                return
            theirs = socket.socket(socket.AF_UNIX)
            theirs.connect(self.path)
            self.sockets += [ours, theirs]
            for pair in ((ours, theirs), (theirs, ours)):
                threading.Thread(target=self.carry, args=pair, daemon=True).start()

    def carry(self, one, other):
        try:
            while found := one.recv(4096):
                other.sendall(found)
        except OSError:
            pass

    def end(self):
        self.listener.shutdown(socket.SHUT_RDWR)
        self.listener.close()
        for it in self.sockets:
            it.shutdown(socket.SHUT_RDWR)
            it.close()


@unittest.skipUnless(shutil.which(VLMD), "there is no vlmd")
class Connections(unittest.TestCase):
    def setUp(self):
        self.room = tempfile.TemporaryDirectory()
        self.addCleanup(self.room.cleanup)
        self.socket = str(Path(self.room.name) / "socket")
        config = Path(self.room.name) / "conf"
        config.write_text("search 100\ngrace 0\n")
        self.words = [VLMD, "-s", self.socket, "-c", str(config)]
        self.start()

    def start(self):
        self.daemon = subprocess.Popen(self.words, stderr=subprocess.DEVNULL)
        self.addCleanup(self.kill)

    def kill(self):
        self.daemon.kill()
        self.daemon.wait()

    def connection(self, on_lost=None):
        end = time.monotonic() + SECONDS
        while True:
            try:
                made = connect(self.socket, on_lost)
                self.addCleanup(made.close)
                return made
            except LostError:
                if time.monotonic() > end:
                    raise
                time.sleep(0.01)

    def pair(self):
        """Processes of two connections."""
        return self.connection().declare(quota=9), self.connection().declare(quota=9)

    def test_locks_exclude_each_other(self):
        p, q = self.pair()
        with p.lock("A", Mode.EX) as held:
            self.assertEqual((held.lock, held.mode, held.is_valid), (1, Mode.EX, True))
            self.assertRaises(TimedOutError, q.lock, "A", Mode.EX, 0.02)
            self.assertRaises(NotQueuedError, q.lock, "A", Mode.EX, flags=Flags.NOQUEUE)
        with q.lock("A", Mode.PR, 1), p.lock("A", Mode.PR, 1):
            pass

    def test_a_wait_ends_with_the_grant_and_brings_the_value(self):
        p, q = self.pair()
        with ThreadPoolExecutor(1) as pool, p.lock("A", Mode.NL), p.lock("A", Mode.EX) as held:
            asked = pool.submit(q.lock, "A", Mode.PR, SECONDS, flags=Flags.WIDE)
            held.write(b"version 7", b"tail")
            held.release()
            with asked.result(SECONDS) as other:
                self.assertEqual(other.value, b"version 7".ljust(16, b"\0"))
                self.assertEqual(other.tail, b"tail".ljust(48, b"\0"))

    def test_conversions_write_and_read_values(self):
        p, q = self.pair()
        with p.lock("A", Mode.EX) as held, q.lock("A", Mode.NL) as other:
            held.write(b"one")
            held.convert(Mode.PR)
            other.convert(Mode.PR, 1)
            self.assertEqual(other.value, b"one".ljust(16, b"\0"))
            self.assertRaises(TimedOutError, other.convert, Mode.EX, 0.02)
            self.assertEqual((other.mode, held.mode), (Mode.PR, Mode.PR))

    def test_refusals(self):
        p, q = self.pair()
        with p.lock("A", Mode.EX) as held:
            self.assertRaises(IvLockIdError, q.deq, held.lock)
            with p.lock("B", Mode.NL, parent=held.lock):
                self.assertRaises(SubLocksError, p.deq, held.lock)
            self.assertRaises(ValueError, p.lock, "A", Mode.EX, -1)
            self.assertRaises(ValueError, held.write, bytes(17))
            self.assertRaises(BadParamError, p.deq, held.lock, tail=b"x")
        self.assertRaises(BadParamError, self.connection().declare, requests=0)
        p.rundown()
        self.assertRaises(NonExprError, p.lock, "A", Mode.EX)

    def test_a_release_that_is_refused_is_made_again(self):
        p, q = self.pair()
        held = p.lock("A", Mode.EX)
        sublock = p.lock("B", Mode.NL, parent=held.lock)
        self.assertRaises(SubLocksError, held.release)
        sublock.release()
        held.release()
        q.lock("A", Mode.EX, flags=Flags.NOQUEUE).release()

    def test_an_exception_in_a_with_block_stays_the_one(self):
        p = self.connection().declare()
        with self.assertRaises(KeyError), p.lock("A", Mode.EX) as held:
            p.lock("B", Mode.NL, parent=held.lock)
            raise KeyError

    def interrupted(self, q, held, call, *arguments):
        """Makes a call that waits for a lock of q, and interrupts it just before the lock is given up."""
        def interrupt(_number, _frame):
            raise KeyboardInterrupt

        def end():
            q.connection.wait(SECONDS)
            os.kill(os.getpid(), signal.SIGALRM)
            held.release()

        self.addCleanup(signal.signal, signal.SIGALRM, signal.signal(signal.SIGALRM, interrupt))
        with ThreadPoolExecutor(1) as pool:
            pool.submit(end)
            self.assertRaises(KeyboardInterrupt, call, *arguments)

    def test_a_close_grants_nothing_to_a_wait(self):
        connection = self.connection()
        p, q = connection.declare(), connection.declare()
        p.lock("A", Mode.EX, blocking=print)
        with ThreadPoolExecutor(1) as pool:
            asked = pool.submit(q.lock, "A", Mode.EX)
            self.assertTrue(connection.wait(SECONDS))
            connection.close()
            self.assertRaises(LostError, asked.result, SECONDS)

    def test_an_interrupt_at_the_end_of_a_block_leaves_no_lock(self):
        p, q = self.pair()
        deq = mock.Mock(wraps=p.deq, side_effect=[KeyboardInterrupt, mock.DEFAULT])
        with mock.patch.object(p, "deq", deq), self.assertRaises(KeyboardInterrupt):
            with p.lock("A", Mode.EX):
                pass
        q.lock("A", Mode.EX, flags=Flags.NOQUEUE).release()

    def test_an_interrupted_wait_leaves_no_lock(self):
        p, q = self.pair()
        self.interrupted(q, q.lock("A", Mode.EX, blocking=print), p.lock, "A", Mode.EX, SECONDS)
        q.lock("A", Mode.EX, flags=Flags.NOQUEUE).release()

    def test_an_interrupted_conversion_may_have_been_granted(self):
        p, q = self.pair()
        with p.lock("A", Mode.NL) as held:
            self.interrupted(q, q.lock("A", Mode.EX, blocking=print), held.convert, Mode.PR, SECONDS)
            self.assertEqual(held.mode, Mode.PR)

    def test_tokens_rise_with_grants(self):
        p, q = self.pair()
        with p.lock("A", Mode.EX) as held:
            first = held.token()
            waiting = q.start("A", Mode.EX, lambda _: None)
            self.assertRaises(IvLockIdError, q.connection.token, waiting)
            held.convert(Mode.PR)
            self.assertGreater(held.token(), first)
            self.assertEqual(held.token(), q.connection.token(held.lock))
            last = held.token()
        self.assertTrue(q.connection.wait(SECONDS))
        self.assertGreater(q.connection.token(waiting), last)
        self.assertRaises(IvLockIdError, held.token)

    def test_a_deadlock_ends(self):
        p, q = self.pair()
        with ThreadPoolExecutor(1) as pool, p.lock("A", Mode.EX), q.lock("B", Mode.EX) as other:
            asked = pool.submit(p.lock, "B", Mode.EX, SECONDS)
            time.sleep(0.5)
            self.assertRaises(DeadlockError, q.lock, "A", Mode.EX, SECONDS)
            other.release()
            asked.result(SECONDS).release()

    def test_routines_are_called_by_deliver(self):
        p, q = self.pair()
        told = []
        with p.lock("A", Mode.EX, blocking=told.append) as held:
            self.assertFalse(p.connection.wait(0))
            lock = q.start("A", Mode.PR, told.append)
            self.assertTrue(p.connection.wait(SECONDS))
            self.assertEqual((p.connection.deliver(), told[0].is_blocking, told[0].lock), (1, True, held.lock))
            held.write(b"x")
        self.assertTrue(q.connection.wait(SECONDS))
        self.assertEqual((q.connection.deliver(), told[1].is_blocking, told[1].lock), (1, False, lock))
        self.assertEqual((told[1].status, told[1].value), (Condition.NORMAL, b"x".ljust(16, b"\0")))
        q.deq(lock)
        q.deq(0, DequeueFlags.DEQALL)

    def test_routines_are_callables(self):
        p = self.connection().declare()
        self.assertRaises(TypeError, connect, self.socket, on_lost=5)
        self.assertRaises(TypeError, p.start, "A", Mode.EX, 5)
        self.assertRaises(TypeError, p.lock, "A", Mode.EX, blocking=5)
        with p.lock("A", Mode.EX) as held:
            self.assertRaises(TypeError, held.convert, Mode.PR, blocking=5)
            self.assertEqual(held.mode, Mode.EX)

    def test_a_grant_at_once_is_told_alike(self):
        p, told = self.connection().declare(), []
        lock = p.start("A", Mode.EX, told.append, flags=Flags.SYNCSTS)
        self.assertTrue(p.connection.wait(SECONDS))
        self.assertEqual((p.connection.deliver(), [it.lock for it in told]), (1, [lock]))

    def test_routines_go_with_their_process(self):
        p = self.connection().declare()
        with p.lock("A", Mode.EX, blocking=print):
            p.start("A", Mode.EX, print)
            p.rundown()
        self.assertEqual(p.connection._routines, {})

    def test_a_great_descriptor_is_waited_for(self):
        connection, limits = self.connection(), resource.getrlimit(resource.RLIMIT_NOFILE)
        self.addCleanup(resource.setrlimit, resource.RLIMIT_NOFILE, limits)
        resource.setrlimit(resource.RLIMIT_NOFILE, (1025, limits[1]))
        great = os.dup2(connection.fileno(), 1024)
        self.addCleanup(os.close, great)
        with mock.patch.object(connection, "fileno", return_value=great):
            self.assertFalse(connection.wait(0))

    def test_a_loss_is_told(self):
        losses, told = [], []
        connection = self.connection(lambda: losses.append(True))
        p, q = connection.declare(), connection.declare()
        with self.assertRaises(LostError):
            with p.lock("A", Mode.EX), ThreadPoolExecutor(1) as pool:
                q.start("A", Mode.EX, told.append)
                asked = pool.submit(connection.declare().lock, "A", Mode.EX, SECONDS)
                time.sleep(0.05)
                self.kill()
                self.assertRaises(LostError, asked.result, SECONDS)
        self.assertTrue(connection.wait(SECONDS))
        connection.deliver()
        self.assertEqual((losses, [it.is_lost for it in told]), ([True], [True]))
        self.assertRaises(LostError, connection.declare)
        self.assertRaises(LostError, connection.reopen)
        self.start()
        self.connection().close()
        connection.reopen()
        self.assertRaises(NonExprError, p.lock, "A", Mode.EX)
        with connection.declare().lock("A", Mode.EX, 1):
            pass

    def test_an_exception_of_the_program_hides_no_loss(self):
        p = self.connection().declare()
        with self.assertRaises(KeyError):
            with p.lock("A", Mode.EX):
                self.kill()
                raise KeyError

    def test_a_session_goes_on_at_another_replica(self):
        self.connection().declare()
        one, two = Replica(self.socket), Replica(self.socket)
        self.addCleanup(two.end)
        with connect(f"tcp:{one.address},{two.address}", lease=120) as connection:
            with connection.declare().lock("A", Mode.EX) as held:
                one.end()
                held.convert(Mode.PR)
        with self.connection().declare().lock("A", Mode.EX, SECONDS):
            pass
        for lease in (1, 601):
            self.assertRaises(BadParamError, connect, f"tcp:{two.address}", lease=lease)

    def test_an_opening_in_vain_says_why(self):
        for address, files, why in (("tcp:127.0.0.1:1", {}, "no connection: Connection refused"),
                                    ("/nowhere", {}, "no connection: No such file or directory"),
                                    ("tcp:nowhere", {}, "no such address"),
                                    ("tls:127.0.0.1:1", {"certificate": "a"}, "no key is named")):
            with self.subTest(address), self.assertRaisesRegex(LostError, why):
                connect(address, **files)

    def assert_freed(self, connection, descriptor):
        """The connection is closed, and the client in C is freed with its descriptor."""
        self.assertTrue(connection.is_closed)
        self.assertRaises(LostError, connection.deliver)
        self.assertRaises(OSError, os.fstat, descriptor)

    def test_closing_ends_waits_of_other_threads(self):
        call, under_way, freed_under = _client.call, [], []

        def counted(name):
            def made(*arguments):
                freed_under.extend(under_way if name == "close" else ())
                under_way.append(name)
                try:
                    return call(name)(*arguments)
                finally:
                    under_way.remove(name)
            return made

        with mock.patch.object(_client, "call", counted):
            p, q = self.pair()
            descriptor = p.connection.fileno()
            with ThreadPoolExecutor(1) as pool, q.lock("A", Mode.EX, blocking=print):
                asked = pool.submit(p.lock, "A", Mode.EX, SECONDS)
                self.assertTrue(q.connection.wait(SECONDS))
                p.connection.close()
                self.assertRaises(LostError, asked.result, SECONDS)
            self.assert_freed(p.connection, descriptor)
            self.assertEqual(freed_under, [])

    def test_closing_during_calls_of_other_threads(self):
        def use(process):
            with suppress(LostError):
                while True:
                    process.lock("A", Mode.EX, SECONDS).release()

        for _ in range(20):
            connection = self.connection()
            descriptor = connection.fileno()
            with ThreadPoolExecutor(3) as pool:
                asked = [pool.submit(use, connection.declare()) for _ in range(3)]
                connection.declare().lock("A", Mode.EX).release()
                connection.close()
            self.assertEqual([it.result() for it in asked], [None] * 3)
            self.assert_freed(connection, descriptor)

    def test_a_routine_closes_its_connection(self):
        p, q = self.pair()
        descriptor = p.connection.fileno()
        p.lock("A", Mode.EX, blocking=lambda event: p.connection.close())
        q.start("A", Mode.EX, lambda event: None)
        self.assertTrue(p.connection.wait(SECONDS))
        self.assertEqual(p.connection.deliver(), 1)
        self.assertTrue(q.connection.wait(SECONDS))
        self.assert_freed(p.connection, descriptor)

    def test_a_loss_closes_its_connection(self):
        connection = self.connection(lambda: connection.close())
        descriptor = connection.fileno()
        connection.declare()
        self.kill()
        self.assertTrue(connection.wait(SECONDS))
        self.assertEqual(connection.deliver(), 1)
        self.assert_freed(connection, descriptor)

    def test_a_connection_without_references_is_closed(self):
        q = self.connection().declare()
        connect(self.socket).declare().lock("A", Mode.EX)
        gc.collect()
        q.lock("A", Mode.EX, SECONDS).release()

    def test_a_child_closes_nothing(self):
        p, q = self.pair()
        with p.lock("A", Mode.EX):
            self.assertEqual(status_of_child(p.connection.close), 0)
            self.assertRaises(NotQueuedError, q.lock, "A", Mode.EX, flags=Flags.NOQUEUE)

    def test_a_closed_connection_and_a_child_are_refused(self):
        p = self.connection().declare()
        self.assertEqual(status_of_child(self.assertRaises, BadParamError, p.lock, "A", Mode.EX), 0)
        p.connection.close()
        p.connection.close()
        self.assertRaises(LostError, p.lock, "A", Mode.EX)
        self.assertRaises(LostError, connect, "/nowhere")


if __name__ == "__main__":
    unittest.main()
