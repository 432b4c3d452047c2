"""Finds out what a step changed.

A step touches few of the locks, so only these are read again. A second lock manager, the witness, tells which: it makes
the same steps, except that each of its requests has a completion routine and its ASTs are taken after each step. So its
ASTs name each lock whose request has ended, and they are all ASTs that the step queued. Nothing else depends on an AST.
"""

from dataclasses import replace
from typing import Dict, List, Optional, Set, Tuple

from .._lines import STEPS
from ..errors import BadParamError
from ..manager import LockManager
from ..process import Process
from ..script import Convert, Declare, Deq, Enq, Leave, Line, Outcome, Rundown, Search, SetValue, Step, Take, make
from ..values import AstKind, DequeueFlags, InBlock, LockView, Queue, Resource, Which
from .state import UNUSED, Declared, State
from .waits import follow_waits

# A queue of a resource.
_Place = Tuple[int, Queue]


class Tracer:
    """Keeps a state that follows a lock manager."""

    def __init__(self, manager: LockManager) -> None:
        self.manager, self._witness = manager, LockManager()
        self.state = State()
        # The locks whose last accepted request has a completion routine of the script.
        self._has_completion: Set[int] = set()

    def close(self) -> None:
        self._witness.close()

    def search(self, step: Search) -> int:
        """The victim's lock of a search that comes next, or 0."""
        return make(self._witness, 0, step).number

    def note(self, line: Line, pid: int, outcome: Outcome) -> None:
        """Follows an accepted step, of which a search is told to `search` first. Other lines change nothing."""
        step = line.does
        if not isinstance(step, STEPS):
            return
        if isinstance(step, Take):
            self.state.splice_asts(pid, 0, [outcome.ast] if outcome.ast else [], [])
            return
        named = self._named(pid, step, outcome.number)
        self._follow(pid, step, outcome.number)
        if isinstance(step, Declare):
            self.state.set_process(outcome.number, Declared(str(line.name), step.node, step.group, step.syslck,
                                                            step.quota, step.blocks))
        self._note_locks(named | self._note_asts(), {(pid, step.block)} if isinstance(step, SetValue) else set())
        for ended in self._ended(pid, step):
            self.state.set_process(ended, None)

    def _follow(self, pid: int, step: Step, number: int) -> None:
        """Has the witness make a step too, a request with a completion routine. It has made a search already."""
        if isinstance(step, (Enq, Convert)) and step.ast is None:
            self._has_completion.discard(number)
            make(self._witness, pid, replace(step, ast=0))
        elif isinstance(step, (Enq, Convert)):
            self._has_completion.add(number)
            make(self._witness, pid, step)
        elif not isinstance(step, Search):
            make(self._witness, pid, step)

    def _named(self, pid: int, step: Step, number: int) -> Set[int]:
        """The locks that a step names."""
        if isinstance(step, (Enq, Convert, Search)):
            return {number} if number else set()
        if isinstance(step, Deq):
            return self._given_up(pid, step)
        return {lock for ended in self._ended(pid, step) for lock in self.state.own.get(ended, ())}

    def _given_up(self, pid: int, step: Deq) -> Set[int]:
        """The locks of a dequeue."""
        lock = self._lock_of(pid, step.lock)
        if not step.flags & DequeueFlags.DEQALL:
            return {lock}
        return set(self.state.all_below(lock)) if lock else set(self.state.own.get(pid, ()))

    def _lock_of(self, pid: int, which: Which) -> int:
        """The lock that is named by itself or by a status block."""
        if isinstance(which, InBlock):
            return self.state.blocks.get(pid, {}).get(which.block, UNUSED).lock or 0
        return which

    def _ended(self, pid: int, step: Step) -> List[int]:
        """The processes that a step ends."""
        if isinstance(step, Leave):
            return [pid for pid, process in self.state.processes.items() if process.node == step.node]
        return [pid] if isinstance(step, Rundown) else []

    def _note_asts(self) -> Set[int]:
        """Notes the ASTs that a step queued, and returns the locks whose requests it ended."""
        ended = set()
        for pid, ast in iter(self._witness.take_any, None):
            if ast.kind is AstKind.COMPLETION:
                ended.add(ast.lock)
            if ast.kind is AstKind.BLOCKING or ast.lock in self._has_completion:
                self.state.splice_asts(pid, len(self.state.asts.get(pid, ())), [], [ast])
        return ended

    def _note_locks(self, locks: Set[int], blocks: Set[Tuple[int, int]]) -> None:
        """Reads these locks again, with their resources, status blocks and waits, and these status blocks."""
        state, old = self.state, {lock: self.state.locks[lock] for lock in locks if lock in self.state.locks}
        new = {lock: self.manager.find_lock(lock) for lock in sorted(locks)}
        there = {lock: view for lock, view in new.items() if view}
        for (serial, queue), gone in _by_place(old).items():
            state.cut_queue(serial, queue, set(gone))
        for lock, view in new.items():
            state.set_lock(lock, view)
        serials = {view.resource: lock for views in (old, there) for lock, view in views.items()}
        for serial in sorted(serials):
            state.set_resource(serial, self._resource(serial, serials[serial]))
        for place, come in _by_place(there).items():
            state.append_to_queue(*place, self._in_order(place, come))
        blocks |= {(view.pid, view.block) for views in (old, there) for view in views.values()}
        for pid, number in sorted(blocks):
            self._note_block(pid, number)
        self._note_waits(old, there, set(serials))

    def _resource(self, serial: int, lock: int) -> Optional[Resource]:
        """A resource as it is: one that is known by its name, a new one by its lock."""
        known = self.state.resources.get(serial)
        if known is None:
            return self.manager.resource_of(lock)
        found = self.manager.find(known.name, group=known.group, parent=known.parent)
        return found if found and found.serial == serial else None

    def _in_order(self, place: _Place, come: List[int]) -> List[int]:
        """Locks that have come to the end of a queue, in their order there."""
        if len(come) == 1:
            return come
        serial, queue = place
        before = self.state.queues[serial][queue]
        rows = self.manager.rows_after(before[-1]) if before else self.manager.rows(self.state.resources[serial], queue)
        return [row.lock for row in rows]

    def _note_block(self, pid: int, number: int) -> None:
        try:
            self.state.set_block(pid, number, Process(self.manager, pid).status_block(number))
        except BadParamError:
            # The process has ended, and its status blocks go with it.
            return

    def _note_waits(self, old: Dict[int, LockView], there: Dict[int, LockView], serials: Set[int]) -> None:
        """Follows the waits on these resources. A lock that joins the waiting queue changes no other's waits."""
        locks = set(old) | set(there)
        if old or any(view.queue is not Queue.WAITING for view in there.values()):
            queues = [self.state.queues[serial] for serial in serials if serial in self.state.queues]
            locks.update(*(it[queue] for it in queues for queue in (Queue.CONVERSION, Queue.WAITING)))
        follow_waits(self.manager, self.state, locks)


def _by_place(locks: Dict[int, LockView]) -> Dict[_Place, List[int]]:
    """Locks by their queues."""
    places: Dict[_Place, List[int]] = {}
    for lock, view in locks.items():
        places.setdefault((view.resource, view.queue), []).append(lock)
    return places
