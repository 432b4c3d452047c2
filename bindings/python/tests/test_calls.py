"""Each public call once, and what it tells."""

import unittest

from vlm import (Accepted, Ast, AstKind, BadParamError, ClosedError, Condition, DequeueFlags, Flags, InBlock,
                 LockManager, LockView, Mode, ProcessView, Queue)

EMPTY = bytes(16)


class Calls(unittest.TestCase):
    def setUp(self):
        self.manager = LockManager(keys=b"0123456789abcdef")
        self.addCleanup(self.manager.close)
        self.p = self.manager.declare(node=1, group=7, quota=9, blocks=3)
        self.q = self.manager.declare(node=2, group=7, quota=9, blocks=3, syslck=True)

    def rows(self, queue, resource=None):
        """The locks in a queue, of the first resource if none is named."""
        rows = self.manager.rows(resource or next(self.manager.resources()), queue)
        return [(it.lock, it.pid, it.held, it.want) for it in rows]

    def test_processes_are_shown(self):
        views = [ProcessView(self.p.pid, 1, 7, False, 9, 3, 0, 0), ProcessView(self.q.pid, 2, 7, True, 9, 3, 0, 0)]
        self.assertEqual(list(self.manager.processes()), views)

    def test_a_request_is_granted_and_given_up(self):
        self.assertEqual(self.p.enq("A", Mode.EX, 1, Flags.SYNCSTS), Accepted(1, True))
        self.assertEqual(self.q.enq(b"A", Mode.PR, 1), Accepted(2, False))
        self.assertEqual(self.rows(Queue.GRANTED), [(1, self.p.pid, Mode.EX, None)])
        self.assertEqual(self.rows(Queue.WAITING), [(2, self.q.pid, None, Mode.PR)])
        self.assertEqual(self.q.status_block(1).status, None)
        self.p.deq(1)
        self.assertEqual(self.q.status_block(1).status, Condition.NORMAL)
        self.assertEqual(self.q.status_block(1).lock, 2)
        self.assertEqual(self.p.status_block(2).lock, None)

    def test_a_conversion_writes_the_value_block(self):
        self.p.enq("A", Mode.EX, 1)
        self.p.set_value(1, b"seven", b"tail")
        self.p.convert(InBlock(1), Mode.NL, 1, Flags.VALBLK | Flags.WIDE)
        self.q.enq("A", Mode.PR, 2, Flags.VALBLK | Flags.WIDE)
        block = self.q.status_block(2)
        self.assertEqual((block.value, block.tail), (b"seven".ljust(16, b"\0"), b"tail".ljust(48, b"\0")))
        self.assertEqual(self.rows(Queue.CONVERSION), [])
        self.p.convert(1, Mode.EX, 1)
        self.assertEqual(self.rows(Queue.CONVERSION), [(1, self.p.pid, Mode.NL, Mode.EX)])
        self.p.cancel(1)
        self.assertEqual(self.p.status_block(1).status, Condition.CANCEL)

    def test_resources_are_shown(self):
        root = self.q.enq("A", Mode.NL, 1, Flags.SYSTEM).lock
        self.p.enq(b"\0\xff", Mode.EX, 1)
        self.q.enq("below", Mode.EX, 2, parent=root)
        self.q.deq(InBlock(2), DequeueFlags.INVVALBLK)
        system, own = self.manager.resources()
        self.assertEqual((system.serial, system.parent, system.group, system.name), (1, None, None, b"A"))
        self.assertEqual((own.serial, own.group, own.name, own.value), (2, 7, b"\0\xff", EMPTY))
        self.assertEqual((own.value_valid, own.tail_valid, own.tail), (True, True, bytes(48)))
        self.q.deq(0, DequeueFlags.DEQALL)
        self.assertEqual(self.rows(Queue.GRANTED, own), [(2, self.p.pid, Mode.EX, None)])
        self.p.deq(2)
        self.assertEqual(self.rows(Queue.GRANTED, own), [])

    def test_resources_are_found(self):
        root = self.q.enq("A", Mode.NL, 1, Flags.SYSTEM).lock
        self.p.enq("A", Mode.EX, 1)
        self.q.enq(b"\0\xff", Mode.EX, 2, parent=root)
        self.assertEqual([it.serial for it in self.manager.resources()], [1, 2, 3])
        system, own = self.manager.find("A"), self.manager.find("A", group=7)
        below = self.manager.find(b"\0\xff", parent=system.serial)
        self.assertEqual([it.serial for it in (system, own, below)], [1, 2, 3])
        self.assertEqual((below.parent, below.group), (1, None))
        self.assertEqual(self.rows(Queue.GRANTED, own), [(2, self.p.pid, Mode.EX, None)])
        absent = [("B", {}), ("A", {"group": 8}), ("A", {"group": 1 << 31}), ("A", {"parent": 1}), ("A", {"parent": 0}),
                  ("", {}), ("A" * 32, {}), ("A" * 33, {})]
        self.assertEqual([self.manager.find(name, **where) for name, where in absent], [None] * len(absent))
        self.p.deq(2)
        self.assertEqual(self.manager.find("A", group=7), None)
        self.assertEqual(self.rows(Queue.GRANTED, own), [])

    def test_locks_are_found_and_walked(self):
        parent = self.p.enq("A", Mode.CR, 1).lock
        first, second = (self.p.enq(name, Mode.NL, 2, parent=parent).lock for name in ("S", "T"))
        waiting = self.q.enq("A", Mode.EX, 3).lock
        manager = self.manager
        self.assertEqual((manager.lock_count(), manager.queued_count()), (4, 1))
        self.assertEqual((manager.process_count(), manager.resource_count()), (2, 3))
        self.assertEqual([it.lock for it in manager.locks_of(self.p)], [parent, first, second])
        self.assertEqual([it.lock for it in manager.sublocks(parent)], [first, second])
        self.assertEqual([it.lock for it in manager.blockers(waiting)], [parent])
        self.assertEqual(list(manager.blockers(parent)), [])
        self.assertEqual([it.lock for it in manager.blocked(parent)], [waiting])
        self.assertEqual(list(manager.blocked(waiting)), [])
        self.assertEqual(manager.find_lock(waiting),
                         LockView(waiting, self.q.pid, None, Mode.EX, Queue.WAITING, 1, None, 3))
        self.assertEqual((manager.find_lock(first).parent, manager.find_lock(first).block), (parent, 2))
        self.assertEqual(manager.resource_of(second).name, b"T")
        self.assertEqual([it.locks for it in manager.processes()], [3, 1])
        self.assertEqual((manager.find_lock(99), manager.resource_of(99)), (None, None))
        walks = [manager.sublocks, manager.blockers, manager.blocked, manager.rows_after]
        self.assertEqual([it for walk in walks for it in walk(99)], [])
        last = self.q.enq("A", Mode.CR, 3).lock
        self.assertEqual([it.lock for it in manager.rows_after(waiting)], [last])
        self.assertEqual([*manager.rows_after(last), *manager.rows_after(parent)], [])
        self.p.rundown()
        self.assertEqual(list(manager.locks_of(self.p)), [])

    def test_a_walk_takes_constant_time_a_step(self):
        process = self.manager.declare(blocks=1)
        for number in range(20_000):
            process.enq(number.to_bytes(4, "little"), Mode.NL, 1)
        # (a walk by place would take minutes)
        self.assertEqual([it.serial for it in self.manager.resources()], list(range(1, 20_001)))

    def test_asts_of_any_process_are_taken(self):
        self.q.enq("A", Mode.NL, 1, completion=7, param=1)
        self.p.enq("A", Mode.NL, 1, completion=8, param=2)
        self.assertEqual(self.manager.take_any(), (self.p.pid, Ast(AstKind.COMPLETION, 8, 2, 2)))
        self.assertEqual(self.manager.take_any(), (self.q.pid, Ast(AstKind.COMPLETION, 7, 1, 1)))
        self.assertEqual(self.manager.take_any(), None)

    def test_asts_of_a_process_are_taken(self):
        self.p.enq("A", Mode.EX, 1, completion=4, blocking=9, param=5)
        self.assertEqual((self.p.pending(), self.p.take().routine, self.p.pending()), (1, 4, 0))
        self.q.enq("A", Mode.EX, 1, completion=8, param=6)
        self.assertEqual(self.p.take(), Ast(AstKind.BLOCKING, 9, 5, 1))
        self.p.deq(1)
        self.assertEqual((self.p.take(), self.q.take()), (None, Ast(AstKind.COMPLETION, 8, 6, 2)))

    def test_a_deadlock_has_a_victim(self):
        self.p.enq("A", Mode.PR, 1)
        self.q.enq("A", Mode.PR, 1)
        self.p.convert(1, Mode.EX, 1)
        self.assertEqual(self.manager.find_victim(), None)
        self.q.convert(2, Mode.EX, 1)
        self.assertEqual((self.manager.find_victim(), self.manager.queued_count()), (2, 2))
        self.assertEqual(self.manager.search(1), 2)
        self.assertEqual(self.q.status_block(1).status, Condition.DEADLOCK)
        self.assertEqual((self.manager.find_victim(), self.manager.search(1)), (None, None))

    def test_processes_and_nodes_end(self):
        self.p.rundown()
        self.assertEqual([it.pid for it in self.manager.processes()], [self.q.pid])
        self.manager.leave(2)
        self.assertEqual(list(self.manager.processes()), [])

    def test_a_manager_is_closed(self):
        with LockManager() as manager:
            process = manager.declare(blocks=1)
            process.enq("A", Mode.EX, 1)
            self.assertEqual(repr(manager), "<LockManager with 1 locks>")
        manager.close()
        self.assertEqual((manager.is_closed, repr(manager)), (True, "<LockManager, closed>"))
        for call in (process.pending, manager.declare, manager.take_any, manager.processes, manager.resources,
                     lambda: manager.find("A")):
            self.assertRaises(ClosedError, call)

    def test_keys_have_16_bytes(self):
        self.assertRaises(BadParamError, LockManager, keys=b"short")
        self.assertRaises(TypeError, LockManager, keys=16)


if __name__ == "__main__":
    unittest.main()
