"""What is there after a line of a script, and the changes that led from line to line, as the page reads them.

A change is a list that JSON can hold. Its first item is its kind. Each has what was there and what is there, so that a
page can go back too. None says that nothing is there.

    ["p", pid, old, new]                    a process: [NAME, node, group, syslck, quota, blocks]
    ["b", pid, number, old, new]            a status block: [status, lock, value, tail]; None is one that is not used
    ["a", pid, at, gone, come]              the pending ASTs of a process: [kind, routine, param, lock]
    ["r", serial, old, new]                 a resource: [parent, group, name, value, valid, tail, tail valid]
    ["l", lock, old, new]                   a lock: [pid, resource, held, wanted, block, parent]
    ["q", serial, queue, at, gone, come]    locks in a queue of a resource
    ["w", lock, gone, come]                 the locks for which the request of a lock waits
    ["m", old, new]                         whether there are too many waits to follow them

A group is None in the domain of the system. Bytes are hexadecimal digits, and zeros alone are an empty text.
"""

from dataclasses import dataclass
from sys import maxsize
from typing import Any, Dict, FrozenSet, List, Optional, Set

from ..script import name_text
from ..values import Ast, AstKind, LockView, Queue, Resource, StatusBlock

Change = List[Any]
UNUSED = StatusBlock(None, None, bytes(16), bytes(48))


@dataclass(frozen=True)
class Declared:
    """What the declaration of a process said, and its NAME in the script."""

    name: str
    node: int
    group: int
    syslck: bool
    quota: int
    blocks: int


class State:
    """What is there. Each call that changes it notes the change, which `taken` hands out."""

    def __init__(self) -> None:
        self.processes: Dict[int, Declared] = {}
        # The status blocks of each process that are not as at the start, by number.
        self.blocks: Dict[int, Dict[int, StatusBlock]] = {}
        self.asts: Dict[int, List[Ast]] = {}
        self.resources: Dict[int, Resource] = {}
        self.queues: Dict[int, Dict[Queue, List[int]]] = {}
        self.locks: Dict[int, LockView] = {}
        # The locks of each process in the order of making, and the sublocks of each lock.
        self.own: Dict[int, Dict[int, None]] = {}
        self.below: Dict[int, Set[int]] = {}
        # The locks whose requests are queued, and for which locks each of them waits.
        self.queued: Set[int] = set()
        self.waits: Dict[int, FrozenSet[int]] = {}
        # Whether there are so many waits that `waits` is out of date, and from how many queued requests on that is so.
        self.has_many_waits = False
        self.too_many_requests = maxsize
        self._changes: List[Change] = []

    def taken(self) -> List[Change]:
        """The changes since the last call."""
        changes, self._changes = self._changes, []
        return changes

    def set_process(self, pid: int, new: Optional[Declared]) -> None:
        """Notes a process that is declared, or that ends with its status blocks and ASTs."""
        old = self.processes.get(pid)
        if new is None:
            for number in list(self.blocks.get(pid, {})):
                self.set_block(pid, number, UNUSED)
            self.splice_asts(pid, 0, self.asts.pop(pid, []), [])
            self.processes.pop(pid, None)
        else:
            self.processes[pid] = new
        self._changes.append(["p", pid, _process(old), _process(new)])

    def set_block(self, pid: int, number: int, new: StatusBlock) -> None:
        blocks = self.blocks.setdefault(pid, {})
        old = blocks.get(number, UNUSED)
        if new == old:
            return
        if new == UNUSED:
            del blocks[number]
        else:
            blocks[number] = new
        self._changes.append(["b", pid, number, _block(old), _block(new)])

    def splice_asts(self, pid: int, at: int, gone: List[Ast], come: List[Ast]) -> None:
        """Takes these ASTs out of those of a process, at this place, and puts others there."""
        if gone or come:
            self.asts.setdefault(pid, [])[at:at + len(gone)] = come
            self._changes.append(["a", pid, at, [_ast(it) for it in gone], [_ast(it) for it in come]])

    def set_resource(self, serial: int, new: Optional[Resource]) -> None:
        old = self.resources.get(serial)
        if new == old:
            return
        if new is None:
            del self.resources[serial], self.queues[serial]
        else:
            self.resources[serial] = new
            self.queues.setdefault(serial, {queue: [] for queue in Queue})
        self._changes.append(["r", serial, _resource(old), _resource(new)])

    def set_lock(self, lock: int, new: Optional[LockView]) -> None:
        """Notes a lock without its place in a queue."""
        old = self.locks.get(lock)
        if new == old:
            return
        if new is None:
            self._forget(lock)
        else:
            self.locks[lock] = new
            self.own.setdefault(new.pid, {})[lock] = None
            if new.parent is not None:
                self.below.setdefault(new.parent, set()).add(lock)
        self.queued.discard(lock)
        if new is not None and new.want is not None:
            self.queued.add(lock)
        self._changes.append(["l", lock, _lock(old), _lock(new)])

    def _forget(self, lock: int) -> None:
        gone = self.locks.pop(lock)
        del self.own[gone.pid][lock]
        self.below.get(gone.parent or 0, set()).discard(lock)
        self.below.pop(lock, None)

    def cut_queue(self, serial: int, queue: Queue, gone: Set[int]) -> None:
        """Takes locks out of a queue, from its end to its head."""
        locks = self.queues[serial][queue]
        places = [locks.index(next(iter(gone)))] if len(gone) == 1 else \
            [place for place, lock in enumerate(locks) if lock in gone]
        while places:
            end = places.pop() + 1
            at = end - 1
            while places and places[-1] == at - 1:
                at = places.pop()
            self._changes.append(["q", serial, int(queue), at, locks[at:end], []])
            del locks[at:end]

    def append_to_queue(self, serial: int, queue: Queue, come: List[int]) -> None:
        locks = self.queues[serial][queue]
        self._changes.append(["q", serial, int(queue), len(locks), [], come])
        locks += come

    def set_waits(self, lock: int, new: FrozenSet[int]) -> None:
        """Notes for which locks the request of a lock waits."""
        old = self.waits.get(lock, frozenset())
        if new:
            self.waits[lock] = new
        else:
            self.waits.pop(lock, None)
        if new != old:
            self._changes.append(["w", lock, sorted(old - new), sorted(new - old)])

    def set_many_waits(self) -> None:
        """Notes that with as many queued requests as there are, there are too many waits."""
        self.too_many_requests = min(self.too_many_requests, len(self.queued))
        self._set_has_many_waits(True)

    def set_few_waits(self) -> None:
        self.too_many_requests = maxsize
        self._set_has_many_waits(False)

    def _set_has_many_waits(self, new: bool) -> None:
        if new != self.has_many_waits:
            self._changes.append(["m", self.has_many_waits, new])
            self.has_many_waits = new

    def all_below(self, lock: int) -> List[int]:
        """The locks below a lock, at any depth."""
        found: List[int] = []
        rest = [lock]
        while rest:
            lower = self.below.get(rest.pop(), set())
            found += lower
            rest += lower
        return found


def _hex(value: bytes) -> str:
    return value.hex() if any(value) else ""


def _process(it: Optional[Declared]) -> Optional[List[Any]]:
    return None if it is None else [it.name, it.node, it.group, it.syslck, it.quota, it.blocks]


def _block(it: StatusBlock) -> Optional[List[Any]]:
    return None if it == UNUSED else [int(it.status or 0), it.lock or 0, _hex(it.value), _hex(it.tail)]


def _ast(it: Ast) -> List[Any]:
    return ["completion" if it.kind is AstKind.COMPLETION else "blocking", it.routine, it.param, it.lock]


def _resource(it: Optional[Resource]) -> Optional[List[Any]]:
    return None if it is None else [it.parent or 0, it.group, name_text(it.name), _hex(it.value), it.value_valid,
                                    _hex(it.tail), it.tail_valid]


def _lock(it: Optional[LockView]) -> Optional[List[Any]]:
    return None if it is None else [it.pid, it.resource, it.held.name if it.held is not None else None,
                                    it.want.name if it.want is not None else None, it.block, it.parent or 0]
