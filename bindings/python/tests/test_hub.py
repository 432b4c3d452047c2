"""Each call of a hub and its ports once, and what it tells."""

import os
import pickle
import random
import subprocess
import sys
import time
import unittest
from concurrent.futures import ThreadPoolExecutor
from pathlib import Path

import vlm
from test_arguments import ANY, REFUSALS
from vlm import (Answer, Ast, AstItem, AstKind, BadParamError, ClosedError, Condition, DepartedError, DequeueFlags,
                 Flags, FullError, Hub, InBlock, InsfMemError, IvLockIdError, Mode, StatusBlock, StepKind,
                 TurnEndedError)

SECONDS = 30
NODES, ROUNDS = 4, 50
# Fills the journal until memory is refused, to the turns and then to a cut. With memory again nothing is lost.
FILLS = """
import resource
from vlm import Hub, TurnEndedError
with open("/proc/self/statm") as statm:
    taken = int(statm.read().split()[0]) * resource.getpagesize()
hub, made = Hub(1), 0
port = hub.port(1)
resource.setrlimit(resource.RLIMIT_AS, (taken + (16 << 20), resource.RLIM_INFINITY))
try:
    while True:
        port.search()
        made += hub.turn()
        port.take()
except TurnEndedError as ended:
    print("refused", made + ended.made == hub.entry_count())
try:
    hub.cut()
except MemoryError:
    print("refused", made == hub.entry_count())
resource.setrlimit(resource.RLIMIT_AS, (resource.RLIM_INFINITY,) * 2)
print(hub.turn(), len(hub.cut()) == made + 1, hub.entry_count())
"""
# The places between a port and its hub, each way.
PLACES = 64


class Calls(unittest.TestCase):
    def setUp(self):
        self.hub = Hub(2, keys=b"0123456789abcdef")
        self.addCleanup(self.hub.close)
        self.first, self.second = self.hub.port(1), self.hub.port(2)
        self.addCleanup(self.first.close)
        self.addCleanup(self.second.close)

    def answer(self, port):
        """Makes turns until a port has an answer. ASTs before it are dropped."""
        while True:
            item = port.take()
            if isinstance(item, Answer):
                return item
            if item is None:
                self.assertGreater(self.hub.turn(), 0)

    def made(self, port, post, *arguments, **named):
        """Posts a step. Returns what its answer has, or raises its refusal."""
        post(*arguments, **named)
        return self.answer(port).result()

    def declared(self):
        """A process of each node."""
        return [self.made(port, port.declare, group=7, quota=9, blocks=2) for port in (self.first, self.second)]

    def test_each_step_is_posted_and_answered(self):
        first, second = self.first, self.second
        p, q = self.declared()
        self.assertEqual(self.made(first, first.set_value, p, 2, b"seven", b"tail"), 0)
        self.assertEqual(self.made(first, first.enq, p, "A", Mode.PR, 1), 1)
        self.assertEqual(self.made(second, second.enq, q, b"A", Mode.PR, 1), 2)
        self.assertEqual(self.made(first, first.convert, p, 1, Mode.EX, 1), 1)
        self.assertEqual(self.made(second, second.convert, q, InBlock(1), Mode.EX, 1), 2)
        self.assertEqual(self.made(first, first.search), 2)
        self.assertEqual(self.made(first, first.search), 0)
        self.assertEqual(self.made(second, second.deq, q, 0, DequeueFlags.DEQALL), 0)
        self.assertRaises(IvLockIdError, self.made, second, second.deq, q, 2)
        self.assertEqual(self.made(first, first.rundown, p), 0)
        self.assertEqual(self.made(second, second.bye), 0)
        self.assertRaises(DepartedError, self.made, second, second.rundown, q)

    def test_asts_are_items(self):
        p, q = self.declared()
        for port, pid in ((self.first, p), (self.second, q)):
            self.made(port, port.enq, pid, "A", Mode.EX, 1, Flags.VALBLK, completion=8, blocking=9, param=5)
        self.assertEqual(self.hub.turn(), 1)
        self.assertEqual(self.first.take(), AstItem(p, Ast(AstKind.COMPLETION, 8, 5, 1)))
        self.assertEqual(self.hub.status_block(p, 1), StatusBlock(Condition.NORMAL, 1, bytes(16), bytes(48)))
        self.assertEqual(self.hub.status_block(q, 1), StatusBlock(None, 2, bytes(16), bytes(48)))
        self.assertRaises(BadParamError, self.hub.status_block, p, 3)
        self.hub.turn()
        self.assertEqual(self.first.take(), AstItem(p, Ast(AstKind.BLOCKING, 9, 5, 1)))
        self.assertEqual((self.first.take(), self.hub.turn()), (None, 0))

    def test_the_rings_have_64_places(self):
        for _ in range(PLACES):
            self.first.search()
        self.assertRaises(FullError, self.first.search)
        self.assertRaises(BadParamError, self.hub.waiting, 3)
        self.assertEqual((self.hub.waiting(1), self.first.waiting()), (PLACES, 0))
        self.assertEqual(self.hub.turn(), 1)
        self.assertEqual((self.hub.waiting(1), self.first.waiting()), (PLACES - 1, 1))
        self.answer(self.first)
        self.first.search()

    def test_a_step_of_another_node_or_a_malformed_one_is_refused(self):
        p, q = self.declared()
        self.assertRaises(BadParamError, self.first.rundown, q)
        self.assertRaises(BadParamError, self.second.enq, p, "A", Mode.EX, 1)
        self.assertRaises(BadParamError, self.first.enq, p, "A", 6, 1)
        self.assertRaises(BadParamError, self.first.declare, blocks=256)
        self.assertRaises(ValueError, self.first.rundown, 1 << 32)
        self.assertRaises(TypeError, self.first.enq, p, "A", Mode.EX, 1, completion=repr)
        self.assertEqual(self.hub.turn(), 0)

    def test_a_port_is_given_once(self):
        self.assertEqual((self.hub.nodes(), self.first.node(), self.second.node()), (2, 1, 2))
        for node in (0, 1, 2, 3):
            self.assertRaises(BadParamError, self.hub.port, node)
        for nodes in (0, 9):
            self.assertRaises(BadParamError, Hub, nodes)
        self.assertRaises(BadParamError, Hub, 1, keys=b"short")

    def test_a_node_is_lost(self):
        p, _ = self.declared()
        self.first.rundown(p)
        self.hub.lost(1)
        self.assertEqual(self.answer(self.first), Answer(Condition.DEPARTED, 0))
        self.assertRaises(DepartedError, self.hub.lost, 1)
        self.assertRaises(BadParamError, self.hub.lost, 9)

    def test_a_journal_is_cut(self):
        p, q = self.declared()
        self.made(self.first, self.first.enq, p, b"\0\xff", Mode.EX, 1, completion=8)
        self.made(self.first, self.first.deq, p, 1, value=b"one")
        self.assertRaises(IvLockIdError, self.made, self.second, self.second.convert, q, 3, Mode.NL, 1)
        self.hub.lost(2)
        count = self.hub.entry_count()
        entries = self.hub.entries()
        self.assertEqual((self.hub.cut(), self.hub.cut(), self.hub.entries()), (entries, [], []))
        declared, _, asked, taken, given_up, refused, lost = entries
        self.assertEqual((count, self.hub.entry_count()), (7, 0))
        self.assertEqual((declared.sender, declared.step), (1, StepKind.DECLARE))
        self.assertEqual((declared.answer, declared.ast), (Answer(Condition.NORMAL, p), None))
        self.assertEqual(declared.given, {"node": 1, "group": 7, "syslck": 0, "quota": 9, "blocks": 2})
        self.assertEqual((asked.given["name"], asked.given["mode"], asked.answer.number), (b"\0\xff", Mode.EX, 1))
        self.assertEqual((taken.sender, taken.given, taken.ast.routine), (None, {"pid": p}, 8))
        self.assertEqual((given_up.step, given_up.given["value"]), (StepKind.DEQ, b"one".ljust(16, b"\0")))
        self.assertEqual((refused.given["lock"], refused.answer.condition), (3, Condition.IVLOCKID))
        self.assertEqual((lost.sender, lost.step, lost.given), (None, StepKind.LEAVE, {"node": 2}))

    def test_handles_are_closed(self):
        with Hub(1) as hub, hub.port(1) as port:
            port.search()
            self.assertEqual((repr(hub), repr(port)), ("<Hub of 1 nodes>", "<Port of node 1>"))
            hub.close()
            self.assertEqual(repr(hub), "<Hub, closed>")
            self.assertEqual(port.take(), None)
            for call in (hub.turn, hub.cut):
                self.assertRaises(ClosedError, call)
            self.assertRaises(ClosedError, hub.nodes)
            self.assertRaises(ClosedError, hub.entries)
        for call in (port.node, port.take, port.search):
            self.assertRaises(ClosedError, call)
        port.close()

    def test_any_argument_is_answered(self):
        random.seed(60)
        p, _ = self.declared()
        port, routines = self.first, ("flags", "completion", "blocking", "param")
        calls = [(port.declare, 0, ("group", "quota", "blocks", "syslck")), (port.set_value, 3, ("tail",)),
                 (port.enq, 4, ("parent", *routines)), (port.convert, 4, routines), (port.rundown, 1, ()),
                 (port.deq, 2, ("flags", "value", "tail")), (self.hub.port, 1, ()), (Hub, 1, ("keys",))]
        made = set()
        for _ in range(20_000):
            call, count, named = random.choice(calls)
            given = [random.choice((p, 1, "A", Mode.EX, *ANY)) for _ in range(count)]
            by_name = {name: random.choice(ANY) for name in named if random.random() < 0.3}
            try:
                call(*given, **by_name)
                made.add(call.__name__)
            except (FullError, *REFUSALS):
                pass
            self.hub.turn()
            port.take()
        self.assertEqual(made, {"declare", "set_value", "enq", "convert", "rundown", "deq", "Hub"})
        self.assertGreater(len(self.hub.cut()), 100)

    def test_errors(self):
        error = pickle.loads(pickle.dumps(TurnEndedError(3)))
        self.assertEqual((error.made, error.condition, isinstance(error, InsfMemError)), (3, Condition.INSFMEM, True))
        self.assertIs(vlm.VlmError.by_condition[Condition.INSFMEM], InsfMemError)


class Memory(unittest.TestCase):
    def test_a_journal_without_memory_loses_nothing(self):
        ended = subprocess.run([sys.executable, "-c", FILLS], capture_output=True, text=True, timeout=120,
                               env={**os.environ, "PYTHONPATH": str(Path(vlm.__file__).parents[1])})
        self.assertEqual((ended.stdout, ended.stderr), ("refused True\nrefused True\n1 True 0\n", ""))


class Node:
    """A node in a thread of its own."""

    counted = 0

    def __init__(self, port):
        self.port, self.told = port, []

    def item(self):
        """The next item. It gives up after a while."""
        end = time.monotonic() + SECONDS
        while time.monotonic() < end:
            item = self.port.take()
            if item is not None:
                return item
            time.sleep(0)
        raise TimeoutError

    def answer(self):
        while not isinstance(item := self.item(), Answer):
            self.told.append(item)
        return item.result()

    def count(self):
        self.port.declare(quota=9, blocks=1)
        pid = self.answer()
        for _ in range(ROUNDS):
            self.port.enq(pid, "counter", Mode.EX, 1, completion=8)
            lock = self.answer()
            while not self.told:
                self.told.append(self.item())
            self.told.clear()
            last = Node.counted
            time.sleep(0)
            Node.counted = last + 1
            self.port.deq(pid, lock)
            self.answer()


class Threads(unittest.TestCase):
    def test_threads_count_under_a_lock(self):
        with Hub(NODES) as hub, ThreadPoolExecutor(NODES) as pool:
            nodes = [pool.submit(Node(hub.port(node)).count) for node in range(1, NODES + 1)]
            while not all(it.done() for it in nodes):
                if hub.turn() == 0:
                    time.sleep(0)
            for it in nodes:
                it.result()
            self.assertEqual(Node.counted, NODES * ROUNDS)
            self.assertEqual(sum(it.step is StepKind.TAKE for it in hub.cut()), NODES * ROUNDS)


if __name__ == "__main__":
    unittest.main()
