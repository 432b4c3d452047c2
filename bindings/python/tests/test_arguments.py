"""Arguments that are no sense: each call answers, or raises an exception, and the lock manager stays whole."""

import random
import sys
import unittest

from vlm import (AccVioError, DequeueFlags, Flags, InBlock, LockManager, Mode, Process, Queue, Resource, Shared,
                 VlmError)

NUMBERS = (0, 1, 2, 3, 5, 6, 8, 9, 255, 256, 511, 65_535, 65_536, 65_537, 131_073, (1 << 31) - 1, 1 << 31,
           (1 << 32) - 1, 1 << 32, 1 << 64, 10 ** 5000, -1, -(1 << 63))
TEXTS = (b"", b"A", b"\0" * 31, b"B" * 32, b"C" * 49, "", "A", "\ud800", "\U0001f512", bytearray(b"A"),
         memoryview(b"AB"))
OTHERS = (None, True, 1.5, float("nan"), [], (), {}, object(), Mode.EX, Flags.VALBLK, InBlock(1), InBlock(0),
          InBlock(-1), InBlock("x"), repr, len, type)
ANY = (*NUMBERS, *TEXTS, *OTHERS)
# What a call may raise.
REFUSALS = (VlmError, ValueError, TypeError, OverflowError, AttributeError, LookupError, RuntimeError, TimeoutError)
# The rounds, and the calls of each: most lock managers end in a round.
ROUNDS, CALLS = 200, 150
NAMES, MODES, BLOCKS = ("A", b"B"), tuple(Mode), (1, 2, 3)
LOCKS = (*range(9), InBlock(1), InBlock(2))
REQUEST = {"flags": tuple(Flags), "completion": (7, None), "blocking": (8, None), "param": NUMBERS[:9]}


def calls_of(manager, process):
    """Each call that takes arguments, none of which waits: with what makes sense for each argument."""
    return [
        (manager.declare, [(1, 2)], {"group": NUMBERS, "quota": NUMBERS, "blocks": BLOCKS, "syslck": (True, False)}),
        (manager.search, [(1, 2)], {}), (manager.rows, [[*manager.resources(), None], tuple(Queue)], {}),
        (manager.take_any, [], {}),
        (manager.find, [NAMES], {"group": NUMBERS, "parent": NUMBERS}),
        (manager.find_lock, [NUMBERS], {}), (manager.resource_of, [NUMBERS], {}), (manager.sublocks, [NUMBERS], {}),
        (manager.blockers, [NUMBERS], {}), (manager.blocked, [NUMBERS], {}), (manager.locks_of, [(process, None)], {}),
        (process.enq, [NAMES, MODES, BLOCKS], {**REQUEST, "parent": LOCKS}),
        (process.convert, [LOCKS, MODES, BLOCKS], REQUEST),
        (process.deq, [LOCKS], {"flags": tuple(DequeueFlags), "value": TEXTS, "tail": TEXTS}),
        (process.cancel, [LOCKS], {}), (process.set_value, [BLOCKS, TEXTS], {"tail": TEXTS}),
        (process.status_block, [BLOCKS], {}), (process.take, [], {}), (process.pending, [], {}),
        *[(manager.leave, [(1, 2)], {}), (process.rundown, [], {})] * (random.random() < 0.02),
    ]


def calls_of_threads(shared, client):
    """The same for a lock manager for threads. None waits for long."""
    def lock(*given, **named):
        client.lock(*given, timeout=0.001, **named).write(b"B")

    request = {"flags": tuple(Flags), "parent": LOCKS[:9], "blocking": (len, None)}
    return [
        (shared.declare, [(1, 2)], {"group": NUMBERS, "quota": NUMBERS, "requests": BLOCKS, "label": NAMES[:1],
                                    "tied": (True, False), "own_queue": (True, False)}),
        (shared.search, [], {}), (shared.counters, [], {}), (shared.look, [(len, repr)], {}),
        (lock, [NAMES, MODES], request), (client.start, [NAMES, MODES, (repr, len)], request),
        (client.start_convert, [LOCKS[:9], MODES, (repr,)], {"flags": tuple(Flags), "blocking": (len, None)}),
        (client.deq, [LOCKS[:9]], {"flags": tuple(DequeueFlags), "value": TEXTS, "tail": TEXTS}),
        (client.cancel, [LOCKS[:9]], {}), (client.cancel_all, [], {}), (client.label, [], {}),
        *[(shared.leave, [(1, 2)], {}), (client.rundown, [], {})] * (random.random() < 0.02),
    ]


def chosen(sense):
    """An argument, which mostly makes sense."""
    return random.choice(sense if random.random() < 0.9 else ANY)


def answered(call, given, named):
    """Makes a call with some of its named arguments. Its name, if it is not refused."""
    by_name = {name: chosen(sense) for name, sense in named.items() if random.random() < 0.3}
    try:
        call(*map(chosen, given), **by_name)
        return {call.__name__}
    except REFUSALS:
        return set()


class Arguments(unittest.TestCase):
    def test_any_argument_is_answered(self):
        random.seed(60)
        made = set()
        for _ in range(ROUNDS):
            with LockManager() as manager:
                processes = [manager.declare(node, quota=20, blocks=3) for node in (1, 1, 2)]
                for _ in range(CALLS):
                    made |= answered(*random.choice(calls_of(manager, random.choice(processes))))
                self.shows_all(manager)
        self.assertEqual(len(made), 21)

    def test_any_argument_is_answered_to_threads(self):
        random.seed(61)
        # (callables that make no sense of an event raise an exception)
        self.addCleanup(setattr, sys, "unraisablehook", sys.unraisablehook)
        sys.unraisablehook = lambda args: None
        made = set()
        for _ in range(ROUNDS // 4):
            with Shared() as shared:
                clients = [shared.declare(node, quota=20, requests=3) for node in (1, 1, 2)]
                for _ in range(CALLS):
                    made |= answered(*random.choice(calls_of_threads(shared, random.choice(clients))))
        self.assertEqual(len(made), 13)

    def shows_all(self, manager):
        for resource in manager.resources():
            for queue in Queue:
                for row in manager.rows(resource, queue):
                    list(manager.blockers(row.lock))
                    list(manager.blocked(row.lock))

    def test_numbers_out_of_range_are_named(self):
        with LockManager() as manager:
            process = manager.declare(blocks=1)
            for call, what in ((lambda: manager.declare(1 << 32), "the node"), (lambda: manager.leave(-1), "the node"),
                               (lambda: process.enq("A", Mode.EX, 1 << 40), "block"),
                               (lambda: process.enq("A", Mode.EX, 1, param=-1), "param"),
                               (lambda: process.deq(1 << 32), "the lock")):
                with self.assertRaisesRegex(ValueError, f"^{what} does not fit into 32 bits$"):
                    call()
            with self.assertRaisesRegex(ValueError, "^the value has 17 bytes: it has 16 at most$"):
                process.deq(1, value=bytes(17))
            self.assertRaises(AccVioError, process.deq, InBlock(0))
            self.assertRaises(AccVioError, process.deq, InBlock(2))

    def test_resources_that_are_gone(self):
        with LockManager() as manager:
            process = manager.declare(blocks=1)
            process.enq("A", Mode.EX, 1)
            resource, = manager.resources()
            self.assertEqual(len(list(manager.rows(resource, Queue.GRANTED))), 1)
            for name, group, parent in ((b"B", 0, None), (b"A", 1, None), (b"A", None, None), (b"A", 0, 1),
                                        (b"", 0, None), (b"A" * 99, 0, None)):
                gone = Resource(1, parent, group, name, b"", True, b"", True)
                self.assertEqual(list(manager.rows(gone, Queue.GRANTED)), [])
            self.assertRaises(ValueError, manager.rows, resource, 3)

    def test_a_process_that_nobody_declared(self):
        with LockManager() as manager:
            for pid in (0, 1, (1 << 32) - 1):
                stranger = Process(manager, pid)
                for call in (stranger.pending, stranger.take, stranger.rundown):
                    self.assertRaises(VlmError, call)


if __name__ == "__main__":
    unittest.main()
