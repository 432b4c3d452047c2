"""What `Shared` has of the library's layer for threads: held locks, routines, hooks, queues, counters, asyncio."""

import asyncio
import copy
import gc
import os
import queue
import select
import sys
import threading
import time
import unittest
import weakref
from unittest import mock

import vlm
from vlm import (AbortError, AstKind, BadParamError, CancelError, ClosedError, Condition, DeadlockError, DepartedError,
                 Event, Flags, Mode, NonExprError, NotQueuedError, Shared, _contexts)
from vlm._library import LIBRARY

from forks import status_of_child

EMPTY = bytes(16)
SECONDS = 30


class Threads(unittest.TestCase):
    def setUp(self):
        self.open()

    def open(self, **options):
        self.shared = Shared(**options)
        self.addCleanup(self.shared.close)
        self.p = self.shared.declare(node=1, label="Paul")
        self.q = self.shared.declare(node=2, label="Rosa")

    def count(self, name):
        return self.shared.counters()[name]

    def test_a_lock_is_held_in_a_with_block(self):
        with self.p.lock("A", Mode.NL) as kept, self.p.lock("A", Mode.EX, value=b"one") as held:
            self.assertEqual((held.mode, held.value, held.tail, held.is_valid), (Mode.EX, EMPTY, None, True))
            self.assertEqual(repr(held), f"<Held lock 2 of {self.p!r} at EX>")
            held.release()
            held.release()
            self.assertEqual(repr(held), f"<Held lock 2 of {self.p!r} at EX, given up>")
            kept.convert(Mode.PW)
            self.assertEqual((kept.mode, kept.value), (Mode.PW, b"one".ljust(16, b"\0")))
            kept.write(b"two", b"more")
            kept.convert(Mode.CR)
            kept.convert(Mode.PR, flags=Flags.WIDE)
            self.assertEqual((kept.value, kept.tail), (b"two".ljust(16, b"\0"), b"more".ljust(48, b"\0")))
            self.assertTrue(kept.is_tail_valid)
        self.assertEqual(self.shared.counters()["locks"], 0)

    def test_a_short_write_leaves_no_tail(self):
        with self.p.lock("A", Mode.NL) as kept, self.q.lock("A", Mode.EX) as held:
            held.write(b"one", b"tail")
            held.convert(Mode.PW)
            held.write(b"two")
            held.convert(Mode.NL, flags=Flags.WIDE)
            kept.convert(Mode.PR, flags=Flags.WIDE)
            self.assertEqual(kept.value, b"two".ljust(16, b"\0"))
            self.assertEqual((kept.is_valid, kept.is_tail_valid), (True, False))

    def test_a_lock_after_an_exception_writes_nothing(self):
        with self.p.lock("A", Mode.NL) as kept:
            with self.assertRaises(KeyError), self.p.lock("A", Mode.EX, value=b"one"):
                raise KeyError
            kept.convert(Mode.PR)
            self.assertEqual(kept.value, EMPTY)

    def test_an_exception_in_a_with_block_stays_the_one(self):
        with self.assertRaises(KeyError), self.p.lock("A", Mode.EX) as held:
            self.p.lock("B", Mode.NL, parent=held.lock)
            raise KeyError
        with self.assertRaises(vlm.SubLocksError), self.p.lock("C", Mode.EX) as held:
            self.p.lock("D", Mode.NL, parent=held.lock)

    def test_an_ended_writer_leaves_an_invalid_value(self):
        with self.p.lock("A", Mode.NL) as kept:
            with self.q.lock("A", Mode.EX):
                self.q.rundown()
            kept.convert(Mode.PR)
            self.assertFalse(kept.is_valid)
            self.assertFalse(kept.is_tail_valid)

    def test_a_request_is_refused(self):
        with self.p.lock("A", Mode.EX):
            self.assertRaises(NotQueuedError, self.q.lock, "A", Mode.EX, flags=Flags.NOQUEUE)
        self.assertRaises(vlm.IvBufLenError, self.p.lock, "", Mode.EX)
        self.assertRaises(vlm.IvLockIdError, self.p.lock, "A", Mode.EX, parent=77)
        self.assertRaises(BadParamError, self.p.lock, "A", 6)
        self.assertRaises(ValueError, self.p.lock, "A", 1 << 32)
        self.assertRaises(BadParamError, self.shared.declare, label=32 * "x")
        self.assertRaises(BadParamError, self.p.deq, 1, tail=b"x")
        # (a bit that is no flag)
        self.assertRaises(BadParamError, self.p.start, "A", Mode.EX, print, flags=1 << 15)
        with self.p.lock("A", Mode.EX) as held:
            self.assertRaises(BadParamError, held.convert, Mode.NL, flags=1 << 15)
        self.p.rundown()
        self.assertRaises(NonExprError, self.p.start, "A", Mode.EX, print)
        self.shared.leave(2)
        self.assertRaises(DepartedError, self.q.label)

    def test_routines_are_called(self):
        told = queue.Queue()
        lock = self.p.start("A", Mode.EX, told.put, blocking=told.put)
        self.assertEqual(told.get(timeout=SECONDS),
                         Event(AstKind.COMPLETION, self.p.pid, lock, Condition.NORMAL, EMPTY, None, None))
        other = self.q.start("A", Mode.PR, told.put)
        self.assertEqual(told.get(timeout=SECONDS),
                         Event(AstKind.BLOCKING, self.p.pid, lock, None, None, None, Mode.PR))
        self.p.start_convert(lock, Mode.NL, told.put)
        ends = {told.get(timeout=SECONDS).lock for _ in range(2)}
        self.assertEqual(ends, {lock, other})
        self.q.deq(other)
        self.p.deq(lock)

    def test_a_grant_at_once_is_told_alike(self):
        told = queue.Queue()
        lock = self.p.start("A", Mode.EX, told.put, flags=Flags.SYNCSTS)
        self.assertEqual(told.get(timeout=SECONDS).lock, lock)
        self.p.start_convert(lock, Mode.NL, told.put, flags=Flags.SYNCSTS)
        self.assertEqual(told.get(timeout=SECONDS).lock, lock)

    def test_a_routine_may_be_false(self):
        class Log(list):
            __call__ = list.append

        blocked, completed = Log(), Log()
        with self.p.lock("A", Mode.NL, blocking=blocked) as held:
            held.convert(Mode.EX)
            self.q.start("A", Mode.PR, completed)
            self.await_fact(lambda: len(blocked) == 1)
        self.await_fact(lambda: len(completed) == 1)

    def test_a_routine_goes_with_its_lock(self):
        class Routine:
            def __call__(self, event):
                pass

        routine = Routine()
        known = weakref.ref(routine)
        held = self.p.lock("A", Mode.EX, blocking=routine)
        held.convert(Mode.PR)
        del routine
        gc.collect()
        self.assertIsNotNone(known())
        held.release()
        del held
        self.await_fact(lambda: gc.collect() >= 0 and known() is None)

    def await_fact(self, fact):
        end = time.monotonic() + SECONDS
        while not fact() and time.monotonic() < end:
            time.sleep(0.001)
        self.assertTrue(fact())

    def test_an_exception_of_a_routine_is_reported(self):
        told = queue.Queue()
        self.addCleanup(setattr, sys, "unraisablehook", sys.unraisablehook)
        sys.unraisablehook = lambda args: told.put(args.exc_type)
        self.p.start("A", Mode.EX, lambda event: 1 // 0)
        self.assertIs(told.get(timeout=SECONDS), ZeroDivisionError)
        self.p.start("B", Mode.EX, told.put)
        self.assertEqual(told.get(timeout=SECONDS).status, Condition.NORMAL)

    def test_the_program_calls_routines(self):
        self.open(by_program=True)
        told = []
        self.p.start("A", Mode.EX, told.append)
        self.assertEqual(select.select([self.shared], [], [], SECONDS)[0], [self.shared])
        self.assertEqual((self.shared.dispatch(), self.shared.dispatch(), len(told)), (1, 0, 1))
        with self.q.lock("B", Mode.EX):
            self.assertRaises(vlm.TimedOutError, self.p.lock, "B", Mode.EX, 0.01)

    def test_a_process_has_a_queue_of_its_own(self):
        client, told = self.shared.declare(own_queue=True), []
        client.start("A", Mode.EX, told.append)
        self.assertEqual(select.select([client], [], [], SECONDS)[0], [client])
        self.assertEqual((client.dispatch(), len(told)), (1, 1))
        self.assertRaises(BadParamError, self.p.fileno)
        self.assertRaises(BadParamError, self.p.dispatch)
        self.assertRaises(BadParamError, self.shared.fileno)

    def test_the_watchdog_tells_of_a_deadlock(self):
        told = []
        self.open(search_every=0.005, victims_after=0.02, on_deadlock=told.append)
        ends = []

        def use(client, first, second, both):
            with client.lock(first, Mode.EX):
                both.wait(SECONDS)
                try:
                    client.lock(second, Mode.EX, SECONDS).release()
                except DeadlockError as error:
                    ends.append(error)

        both = threading.Barrier(2)
        threads = [threading.Thread(target=use, args=(*it, both)) for it in ((self.p, "A", "B"), (self.q, "B", "A"))]
        for thread in threads:
            thread.start()
        for thread in threads:
            thread.join(SECONDS)
        self.assertEqual((len(ends), len(told), told[0].length), (1, 1, 2))
        self.assertEqual(told[0].waits[0].lock.lock, told[0].victim)
        self.assertEqual(set(told[0].waits[0].labels), {"Paul", "Rosa"})
        self.assertRegex(told[0].text, "^A circle: .*Paul waits for Rosa on B.* The victim is lock ")

    def test_a_victim_has_waited_long(self):
        for seconds in (5_000_000, float("inf")):
            self.open(victims_after=seconds)
            for client, other, name in ((self.p, self.q, "A"), (self.q, self.p, "B")):
                client.lock(name, Mode.EX)
                other.start(name, Mode.EX, lambda event: None)
            self.assertEqual((self.shared.search(), self.count("waiting")), (0, 2))

    def test_long_waits_are_told(self):
        told = queue.Queue()
        self.open(long_wait=0.01, on_long_wait=told.put)
        held = self.p.lock("A", Mode.EX)
        lock = self.q.start("A", Mode.PR, lambda event: None)
        wait = told.get(timeout=SECONDS)
        self.assertEqual((wait.lock.lock, wait.blocker.lock, wait.name), (lock, held.lock, b"A"))
        self.assertEqual((wait.labels, wait.seconds >= 0.01), (("Rosa", "Paul"), True))
        self.assertRegex(wait.text, "^Rosa waits for Paul on A ")

    def test_counters_and_labels(self):
        self.p.lock("A", Mode.EX).release()
        counters = self.shared.counters()
        self.assertEqual((counters["requests"], counters["dequeues"], len(counters["times"])), (1, 1, 32))
        self.assertIn("granted_at_once  1", self.shared.counters_text())
        self.assertIn("vlm_requests_total 1", self.shared.prometheus_text())
        self.assertEqual((self.p.label(), repr(self.p)), ("Paul", f"<Client {self.p.pid}>"))
        self.assertEqual(repr(self.shared), "<Shared with 2 processes and 0 locks>")
        self.shared.settle()

    def test_a_reader_looks(self):
        with self.p.lock("A", Mode.PR):
            names = self.shared.look(lambda manager: [it.name for it in manager.resources()])
            self.assertEqual(names, [b"A"])
            self.assertRaises(ZeroDivisionError, self.shared.look, lambda manager: 1 // 0)

    def test_an_interrupt_before_a_reader_is_raised(self):
        with mock.patch.object(self.shared, "_call", lambda name: lambda *arguments: Condition.NORMAL):
            self.assertRaises(KeyboardInterrupt, self.shared.look, len)

    def test_a_refused_call_keeps_nothing(self):
        self.shared.close()
        kept = set(_contexts._kept)
        self.assertRaises(ClosedError, self.shared.look, len)
        self.assertRaises(BadParamError, Shared, long_wait=1)
        self.assertLessEqual(set(_contexts._kept), kept)

    def test_there_are_no_copies(self):
        self.assertRaises(TypeError, copy.copy, self.shared)

    def test_a_shared_is_closed(self):
        self.p.start("A", Mode.EX, lambda event: None)
        self.shared.close()
        self.shared.close()
        self.assertTrue(self.shared.is_closed)
        for call in (self.p.rundown, self.shared.declare, self.shared.counters, self.shared.search, self.p.fileno):
            self.assertRaises(ClosedError, call)

    def test_a_closed_one_is_freed_with_the_owner_of_its_hook(self):
        class Owner:
            def __init__(self):
                self.shared = Shared(on_deadlock=self.told)

            def told(self, deadlock):
                pass

        owner = Owner()
        owner.shared.close()
        known = weakref.ref(owner)
        del owner
        gc.collect()
        self.assertIsNone(known())

    def test_a_forked_child_frees_nothing(self):
        kept = [Shared()]

        def close():
            LIBRARY.vlm_threads_close = LIBRARY.vlm_threads_stop = lambda layer: os._exit(1)
            kept.pop().close()

        self.assertEqual(status_of_child(close), 0)

    def test_it_is_closed_in_a_forked_child(self):
        client = Shared().declare()
        with client.lock("A", Mode.EX):
            self.assertEqual(status_of_child(self.assertRaises, ClosedError, client.lock, "B", Mode.EX), 0)
        client.lock("A", Mode.EX).release()

    def test_it_is_freed_by_its_own_routine(self):
        ended = threading.Event()
        shared = Shared()
        shared.declare().start("A", Mode.EX, lambda event, it=[shared]: (it.clear(), ended.set()))
        del shared
        self.assertTrue(ended.wait(SECONDS))


class Tasks(unittest.IsolatedAsyncioTestCase):
    def setUp(self):
        self.shared = Shared()
        self.addCleanup(self.shared.close)
        self.p, self.q = self.shared.declare(), self.shared.declare()

    def count(self, name):
        return self.shared.counters()[name]

    async def test_a_task_waits(self):
        kept = await self.q.lock_async("A", Mode.NL)
        async with self.p.lock_async("A", Mode.EX) as held:
            held.write(b"handed over")
            asked = asyncio.ensure_future(self.q.lock_async("A", Mode.PR)._granted())
            await asyncio.sleep(0.01)
            self.assertEqual((asked.done(), self.count("waiting")), (False, 1))
        with await asked as other:
            self.assertEqual(other.value, b"handed over".ljust(16, b"\0"))
        kept.release()
        self.assertEqual(self.count("locks"), 0)

    async def test_a_cancelled_wait_leaves_nothing(self):
        async def use():
            async with self.q.lock_async("A", Mode.EX):
                pass

        with self.p.lock("A", Mode.EX):
            with self.assertRaises(asyncio.TimeoutError):
                await asyncio.wait_for(use(), 0.02)
            self.assertEqual((self.count("waiting"), self.count("locks")), (0, 1))
            task = asyncio.ensure_future(use())
            await asyncio.sleep(0.01)
        # (it is granted by now, and has not been told)
        task.cancel()
        with self.assertRaises(asyncio.CancelledError):
            await task
        self.assertEqual(self.count("locks"), 0)

    async def test_a_task_converts(self):
        with self.p.lock("A", Mode.CR) as held, self.q.lock("A", Mode.PR) as other:
            task = asyncio.ensure_future(held.convert_async(Mode.PW))
            await asyncio.sleep(0.01)
            self.assertEqual((task.done(), self.count("waiting"), held.mode), (False, 1, Mode.CR))
            await other.convert_async(Mode.NL)
            await task
            self.assertEqual((held.mode, other.mode), (Mode.PW, Mode.NL))
            held.write(b"by a task")
            await held.convert_async(Mode.CR)
            await other.convert_async(Mode.PR)
            self.assertEqual(other.value, b"by a task".ljust(16, b"\0"))

    async def test_a_cancelled_conversion_leaves_nothing(self):
        with self.p.lock("A", Mode.NL) as held:
            with self.q.lock("A", Mode.EX):
                with self.assertRaises(asyncio.TimeoutError):
                    await asyncio.wait_for(held.convert_async(Mode.EX), 0.02)
                self.assertEqual((self.count("waiting"), held.mode), (0, Mode.NL))
                task = asyncio.ensure_future(held.convert_async(Mode.EX))
                await asyncio.sleep(0.01)
            # (it is granted by now, and has not been told)
            task.cancel()
            with self.assertRaises(asyncio.CancelledError):
                await task
            self.assertEqual(held.mode, Mode.EX)
            with self.assertRaises(NotQueuedError):
                self.q.lock("A", Mode.CR, flags=Flags.NOQUEUE)

    async def test_a_conversion_that_was_granted_is_cancelled_twice(self):
        held, other = self.p.lock("A", Mode.PR), self.q.lock("A", Mode.PR)
        # (a routine that runs keeps the grant from being told)
        ends = threading.Event()
        self.p.lock("B", Mode.EX, blocking=lambda event: ends.wait(SECONDS))
        self.q.start("B", Mode.EX, lambda event: None)
        task = asyncio.ensure_future(held.convert_async(Mode.EX))
        await asyncio.sleep(0.01)
        other.release()
        for _ in range(2):
            task.cancel()
            await asyncio.sleep(0)
        ends.set()
        with self.assertRaises(asyncio.CancelledError):
            await task
        self.assertEqual(held.mode, Mode.EX)

    async def test_a_grant_at_once_is_told_alike(self):
        async def use():
            async with self.p.lock_async("A", Mode.EX, flags=Flags.SYNCSTS) as held:
                await held.convert_async(Mode.NL, flags=Flags.SYNCSTS)

        await asyncio.wait_for(use(), SECONDS)
        self.assertEqual(self.count("locks"), 0)

    async def test_closing_ends_waits(self):
        self.p.lock("A", Mode.EX)
        tasks = [asyncio.ensure_future(self.q.lock_async("A", Mode.EX)._granted()) for _ in range(2)]
        await asyncio.sleep(0.01)
        self.shared.close()
        tasks[0].cancel()
        for task, error in zip(tasks, (asyncio.CancelledError, DepartedError)):
            with self.assertRaises(error):
                await task

    async def test_a_conversion_ends_as_its_request_does(self):
        with self.p.lock("A", Mode.PR), self.q.lock("A", Mode.CR) as held:
            task = asyncio.ensure_future(held.convert_async(Mode.EX))
            await asyncio.sleep(0.01)
            self.q.cancel_all()
            with self.assertRaises(CancelError):
                await task
            self.assertEqual(held.mode, Mode.CR)
            task = asyncio.ensure_future(held.convert_async(Mode.EX))
            await asyncio.sleep(0.01)
            self.q.cancel_all()
            task.cancel()
            with self.assertRaises(asyncio.CancelledError):
                await task
            with self.assertRaises(NotQueuedError):
                await held.convert_async(Mode.EX, flags=Flags.NOQUEUE)

    async def test_a_wait_ends_as_its_request_does(self):
        with self.p.lock("A", Mode.EX):
            for end, error in ((self.q.cancel_all, AbortError), (self.q.rundown, NonExprError)):
                task = asyncio.ensure_future(self.q.lock_async("A", Mode.EX)._granted())
                await asyncio.sleep(0.01)
                end()
                with self.assertRaises(error):
                    await task
        with self.assertRaises(NonExprError):
            await self.q.lock_async("A", Mode.EX)

    async def test_many_tasks_count(self):
        counted = 0

        async def count():
            nonlocal counted
            client = self.shared.declare()
            for _ in range(20):
                async with client.lock_async("counter", Mode.EX):
                    before = counted
                    await asyncio.sleep(0)
                    counted = before + 1

        await asyncio.gather(*(count() for _ in range(20)))
        self.assertEqual((counted, self.count("locks")), (400, 0))


if __name__ == "__main__":
    unittest.main()
