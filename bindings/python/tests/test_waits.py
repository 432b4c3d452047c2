"""Waits for grants, among threads."""

import os
import random
import signal
import subprocess
import sys
import threading
import time
import unittest
from concurrent.futures import ThreadPoolExecutor
from contextlib import suppress
from functools import partial
from pathlib import Path
from unittest import mock

from vlm import (AbortError, CancelError, ClosedError, DeadlockError, DepartedError, ExEnqLmError, Mode, NonExprError,
                 Shared, TimedOutError)
from vlm._asks import Asked

EXAMPLES = Path(__file__).resolve().parents[1] / "examples"
SECONDS = 30
# A wait that is woken ends by then. One that is not ends late, with the same result.
SOON = SECONDS / 2
# How often a time-out races with a grant.
RACES = 1000


class Waits(unittest.TestCase):
    def setUp(self):
        self.pool = ThreadPoolExecutor(4)
        self.addCleanup(self.pool.shutdown)
        self.shared = Shared()
        # (it comes before the shutdown, and ends waits)
        self.addCleanup(self.shared.close)
        self.p = self.shared.declare(node=1)
        self.q = self.shared.declare(node=2)

    def count(self, name="waiting"):
        return self.shared.counters()[name]

    def waiting(self, call, *arguments, **named):
        """Makes a call in another thread. Returns when one more request waits."""
        count = self.count()
        asked = self.pool.submit(call, *arguments, **named)
        while not asked.done() and self.count() == count:
            time.sleep(0.001)
        return asked

    def lock_of(self, client):
        """The last lock of a process."""
        return self.shared.look(lambda manager: [it.lock for it in manager.locks_of(client)][-1])

    def test_a_wait_ends_with_the_grant(self):
        with self.p.lock("A", Mode.NL), self.p.lock("A", Mode.EX, value=b"handed over"):
            asked = self.waiting(self.q.lock, "A", Mode.PR, SECONDS)
        with asked.result(SOON) as held:
            self.assertEqual(held.value, b"handed over".ljust(16, b"\0"))

    def test_a_wait_ends_with_the_time(self):
        with self.p.lock("A", Mode.EX):
            self.assertRaises(TimedOutError, self.q.lock, "A", Mode.EX, 0.01)
            self.assertRaises(TimeoutError, self.q.lock, "A", Mode.EX, 0)
            self.assertEqual((self.count(), self.count("locks")), (0, 1))

    def test_a_conversion_that_waits_too_long_leaves_the_lock_as_it_was(self):
        with self.p.lock("A", Mode.PR), self.q.lock("A", Mode.PR) as held:
            self.assertRaises(TimedOutError, held.convert, Mode.EX, 0.01)
            self.assertEqual((held.mode, self.count(), self.count("locks")), (Mode.PR, 0, 2))

    def test_a_conversion_waits_for_its_grant(self):
        with self.q.lock("A", Mode.PR) as held:
            with self.p.lock("A", Mode.PR):
                asked = self.waiting(held.convert, Mode.EX, SECONDS)
            asked.result(SOON)
            self.assertEqual(held.mode, Mode.EX)

    def test_a_deadlock_ends_a_wait(self):
        with self.p.lock("A", Mode.EX), self.q.lock("B", Mode.EX):
            asked = self.waiting(self.q.lock, "A", Mode.EX, SECONDS)
            other = self.pool.submit(self.p.lock, "B", Mode.EX, SECONDS)
            while not self.shared.search():
                time.sleep(0.001)
            self.assertRaises(DeadlockError, other.result, SOON)
            self.assertFalse(asked.done())
        asked.result(SOON).release()

    def test_a_lock_that_is_given_up_ends_its_wait(self):
        with self.p.lock("A", Mode.EX):
            asked = self.waiting(self.q.lock, "A", Mode.EX)
            self.q.deq(self.lock_of(self.q))
            self.assertRaises(AbortError, asked.result, SOON)

    def test_a_lock_behind_another_is_given_up(self):
        with self.p.lock("A", Mode.EX):
            first, second = [self.waiting(self.q.lock, "A", Mode.EX, SECONDS) for _ in range(2)]
            self.q.deq(self.lock_of(self.q))
            self.assertRaises(AbortError, second.result, SOON)
        first.result(SOON).release()

    def test_a_cancelled_conversion_ends_its_wait(self):
        with self.p.lock("A", Mode.PR), self.q.lock("A", Mode.PR) as held:
            asked = self.waiting(held.convert, Mode.EX, SECONDS)
            self.q.cancel(held.lock)
            self.assertRaises(CancelError, asked.result, SOON)

    def test_the_end_of_the_process_ends_a_wait(self):
        for end, error in ((self.q.rundown, NonExprError), (lambda: self.shared.leave(2), DepartedError)):
            with self.p.lock("A", Mode.EX):
                asked = self.waiting(self.q.lock, "A", Mode.EX)
                end()
                self.assertRaises(error, asked.result, SOON)
            if error is NonExprError:
                self.q = self.shared.declare(node=2)

    def test_all_waits_of_a_process_end_at_once(self):
        with self.p.lock("A", Mode.EX):
            asked = [self.waiting(self.q.lock, "A", Mode.EX) for _ in range(3)]
            self.assertEqual(self.q.cancel_all(), 3)
            for one in asked:
                self.assertRaises(AbortError, one.result, SOON)

    def test_closing_ends_a_wait(self):
        held = self.p.lock("A", Mode.EX)
        asked = self.waiting(self.q.lock, "A", Mode.EX)
        self.shared.close()
        self.assertRaises(DepartedError, asked.result, SOON)
        self.assertRaises(ClosedError, self.p.lock, "A", Mode.EX)
        self.assertRaises(ClosedError, held.release)
        self.assertEqual(repr(self.shared), "<Shared, closed>")

    def test_a_process_has_as_many_requests_as_it_declared(self):
        client = self.shared.declare(requests=1)
        with self.p.lock("A", Mode.EX):
            asked = self.waiting(client.lock, "A", Mode.EX)
            self.assertRaises(ExEnqLmError, client.lock, "B", Mode.EX)
        asked.result(SOON).release()

    def test_time_outs_that_are_no_times(self):
        for timeout in (-1, float("nan"), -0.5, -10**400):
            self.assertRaises(ValueError, self.p.lock, "A", Mode.EX, timeout)
        for timeout in (float("inf"), 1e300, 10**400):
            self.p.lock("A", Mode.EX, timeout).release()

    def interrupt(self, before=lambda: None):
        """Once a request waits, the main thread makes a call, and is interrupted."""
        def interrupt(_number, _frame):
            signal.setitimer(signal.ITIMER_REAL, 0)
            before()
            raise KeyboardInterrupt

        self.addCleanup(signal.signal, signal.SIGALRM, signal.signal(signal.SIGALRM, interrupt))
        # (a signal just before the thread sleeps does not wake it, and the next one does)
        self.pool.submit(self.do_once_it_waits, partial(signal.setitimer, signal.ITIMER_REAL, 0.001, 0.05))

    def assert_interrupted(self, call, *arguments):
        """Interrupts a wait of the main thread. One lock is left, and no request."""
        self.interrupt()
        self.assertRaises(KeyboardInterrupt, call, *arguments)
        self.assertEqual((self.count(), self.count("locks")), (0, 1))

    def test_an_interrupted_wait_leaves_no_request(self):
        with self.p.lock("A", Mode.EX):
            self.assert_interrupted(self.q.lock, "A", Mode.EX, SECONDS)

    def test_an_interrupted_conversion_may_have_been_granted(self):
        for by_program in (False, True):
            self.shared = Shared(by_program=by_program)
            self.addCleanup(self.shared.close)
            with self.shared.declare().lock("A", Mode.NL) as held:
                self.interrupt(self.shared.declare().lock("A", Mode.EX, value=b"new").release)
                self.assertRaises(KeyboardInterrupt, held.convert, Mode.PR, SECONDS)
                self.assertEqual((held.mode, held.value), (Mode.PR, b"new".ljust(16, b"\0")))

    def test_an_interrupt_after_the_grant_leaves_no_lock(self):
        make = Asked.make

        def interrupted(asked, timeout):
            make(asked, timeout)
            raise KeyboardInterrupt

        with mock.patch.object(Asked, "make", interrupted):
            self.assertRaises(KeyboardInterrupt, self.p.lock, "A", Mode.EX)
        self.assertEqual(self.count("locks"), 0)

    def test_an_interrupt_at_the_end_of_a_block_leaves_no_lock(self):
        deq = mock.Mock(wraps=self.p.deq, side_effect=[KeyboardInterrupt, mock.DEFAULT])
        with mock.patch.object(self.p, "deq", deq), self.assertRaises(KeyboardInterrupt):
            with self.p.lock("A", Mode.EX):
                pass
        self.assertEqual(self.count("locks"), 0)

    def test_an_interrupt_at_the_start_of_a_wait_leaves_no_request(self):
        start = threading.Thread.start

        def interrupted(thread):
            start(thread)
            self.do_once_it_waits(lambda: None)
            raise KeyboardInterrupt

        with self.p.lock("A", Mode.EX):
            with mock.patch.object(threading.Thread, "start", interrupted):
                self.assertRaises(KeyboardInterrupt, self.q.lock, "A", Mode.EX, SECONDS)
            self.assertEqual((self.count(), self.count("locks")), (0, 1))

    def test_an_interrupt_after_closing_stays_one(self):
        self.p.lock("A", Mode.EX)
        self.interrupt(self.shared.close)
        self.assertRaises(KeyboardInterrupt, self.q.lock, "A", Mode.EX, SECONDS)

    def test_a_wait_ends_while_a_routine_runs(self):
        runs, goes_on, ends = threading.Event(), threading.Event(), []

        def give_way(_event):
            runs.set()
            ends.append(goes_on.wait(SOON))
            held.release()

        held = self.p.lock("A", Mode.EX, blocking=give_way)
        asked = self.waiting(self.q.lock, "A", Mode.PR, SECONDS)
        runs.wait(SOON)
        with self.q.lock("B", Mode.EX):
            self.assertRaises(TimedOutError, self.p.lock, "B", Mode.EX, 0.01)
        self.assertEqual(ends, [])
        goes_on.set()
        asked.result(SOON).release()

    def test_the_main_thread_waits_where_the_program_calls_routines(self):
        other = Shared(by_program=True)
        self.addCleanup(other.close)
        for self.shared, own_queue in ((self.shared, True), (other, False)):
            p, q = (self.shared.declare(own_queue=own_queue) for _ in range(2))
            with p.lock("A", Mode.EX):
                self.assert_interrupted(q.lock, "A", Mode.EX, SECONDS)
                self.assertRaises(TimedOutError, q.lock, "A", Mode.EX, 0.01)
            with p.lock("A", Mode.NL) as held:
                blocker = q.lock("A", Mode.EX)
                self.assertRaises(TimedOutError, held.convert, Mode.PR, 0.01)
                later = self.pool.submit(self.do_once_it_waits, blocker.release)
                held.convert(Mode.PR, SECONDS)
                later.result(SOON)
            self.assertEqual((self.count(), self.count("locks")), (0, 0))

    def do_once_it_waits(self, call):
        while not self.count():
            time.sleep(0.001)
        call()

    def test_the_main_thread_waits(self):
        for end, error in ((lambda: self.q.rundown(), NonExprError), (lambda: self.q.cancel_all(), AbortError)):
            with self.p.lock("A", Mode.EX):
                later = self.pool.submit(self.do_once_it_waits, end)
                self.assertRaises(error, self.q.lock, "A", Mode.EX, SECONDS)
                later.result(SOON)
            self.q = self.shared.declare(node=2)
        held = self.p.lock("A", Mode.EX)
        later = self.pool.submit(self.do_once_it_waits, held.release)
        with self.q.lock("A", Mode.PR, SECONDS) as other, self.p.lock("A", Mode.PR):
            self.assertRaises(TimedOutError, other.convert, Mode.EX, 0.01)
        later.result(SOON)
        self.assertEqual((self.count(), self.count("locks")), (0, 0))
        self.p.lock("A", Mode.EX)
        later = self.pool.submit(self.do_once_it_waits, self.shared.close)
        self.assertRaises(DepartedError, self.q.lock, "A", Mode.EX, SECONDS)
        later.result(SOON)

    def test_a_time_out_races_with_a_grant(self):
        granted = timed_out = 0
        for _ in range(RACES):
            held = self.p.lock("A", Mode.EX)
            timeout, seconds = 0.001, random.uniform(0, 0.0024)
            asked = self.pool.submit(self.q.lock, "A", Mode.EX, timeout)
            time.sleep(seconds)
            held.release()
            try:
                asked.result(SOON).release()
                granted += 1
            except TimedOutError:
                timed_out += 1
            self.assertEqual(self.count("locks"), 0)
        self.assertGreater(granted, 0)
        self.assertGreater(timed_out, 0)

    def test_threads_count_under_a_lock(self):
        counted = [0]

        def count():
            process = self.shared.declare()
            for _ in range(300):
                with process.lock("counter", Mode.EX, SECONDS):
                    before = counted[0]
                    time.sleep(0)
                    counted[0] = before + 1

        for made in [self.pool.submit(count) for _ in range(4)]:
            made.result()
        self.assertEqual(counted, [1200])

    def test_threads_share_a_process(self):
        held = set()

        def use():
            for _ in range(300):
                name = f"{random.randrange(3)}"
                with self.p.lock(name, Mode.EX, SECONDS):
                    self.assertNotIn(name, held)
                    held.add(name)
                    time.sleep(0)
                    held.remove(name)

        for made in [self.pool.submit(use) for _ in range(4)]:
            made.result()

    def test_no_wait_is_forgotten(self):
        def use(seed):
            process, chance = self.shared.declare(), random.Random(seed)
            for _ in range(150):
                with process.lock(f"{chance.randrange(3)}", chance.choice(list(Mode)), SECONDS) as held:
                    with suppress(TimedOutError):
                        held.convert(chance.choice(list(Mode)), chance.choice((0, 0.002)))

        with ThreadPoolExecutor(12) as pool:
            for made in [pool.submit(use, seed) for seed in range(12)]:
                made.result()
        self.assertEqual(self.count("locks"), 0)

    def test_the_cache_protocol(self):
        ended = subprocess.run([sys.executable, EXAMPLES / "cache.py"], capture_output=True, text=True, timeout=120,
                               env={**os.environ, "PYTHONPATH": str(EXAMPLES.parent)})
        self.assertEqual((ended.stdout, ended.stderr), ((EXAMPLES / "cache.out").read_text(), ""))


if __name__ == "__main__":
    unittest.main()
