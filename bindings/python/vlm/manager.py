"""The lock manager."""

from ctypes import c_uint32
from typing import Any, Iterator, Optional, Sequence, Tuple

from . import _library as raw
from . import _words
from ._arguments import mark, name_bytes, word
from ._owner import Owner
from .errors import checked
from .process import Process, ast_of
from .values import Ast, Condition, LockView, Mode, Name, ProcessView, Queue, Resource


class LockManager(Owner):
    """A lock manager of its own: two of them share nothing. Threads may share it, since each call takes a mutex.

    No call waits: `Shared` has calls that do. Closing it frees all that it has; leaving a `with` block closes it.
    """

    def __init__(self, keys: Optional[bytes] = None) -> None:
        """Opens a lock manager. 16 bytes of keys hash its names; without them they are random."""
        super().__init__("vlm_close")
        self._step("vlm_open", _words.options(keys))

    @classmethod
    def _over(cls, handle: raw.Handle) -> "LockManager":
        """A lock manager that somebody else closes."""
        made = cls.__new__(cls)
        made._own(handle, lambda: None)
        return made

    def _told(self) -> str:
        return f" with {self.lock_count()} locks"

    def _step(self, name: str, *arguments: Any) -> Condition:
        """Makes a call that answers a condition value. Raises its exception if it is a refusal."""
        return checked(self._call(name, *arguments))

    def declare(self, node: int = 1, *, group: int = 0, quota: int = 65_535, blocks: int = 16,
                syslck: bool = False) -> Process:
        """Declares a process of a node from 1 to 8: how many locks it may have, and how many status blocks it has."""
        words, pid = _words.declaration(node, group, quota, blocks, syslck), c_uint32()
        self._step("vlm_declare", words, pid)
        return Process(self, pid.value)

    def leave(self, node: int) -> None:
        """A node departs, with all its processes. It stays departed."""
        self._step("vlm_leave", word(node, "the node"))

    def search(self, node: int) -> Optional[int]:
        """Searches for a deadlock and ends the request of its victim. Returns the victim's lock, or None without one.
        There may be another deadlock: search until the answer is None."""
        victim = c_uint32()
        self._step("vlm_search", word(node, "the node"), victim)
        return victim.value or None

    def find_victim(self) -> Optional[int]:
        """The lock whose request a search would end now, or None without a deadlock. Nothing changes. It takes as long
        as a search that finds a victim."""
        victim = c_uint32()
        self._step("vlm_find_victim", victim)
        return victim.value or None

    def take_any(self) -> Optional[Tuple[int, Ast]]:
        """Takes the oldest AST of the first process that has one, with the ID of that process: of the first
        node with such a process, the first in order of making. It takes constant time."""
        pid, words = c_uint32(), raw.Ast()
        checked(self._call("vlm_take_any", pid, words))
        return (pid.value, ast_of(words)) if words.kind else None

    def processes(self) -> Iterator[ProcessView]:
        """The living processes, as they are at the call."""
        with self._mutex:
            return iter(list(self._walk_processes()))

    def resources(self) -> Iterator[Resource]:
        """The resources, by rising serial, as they are at the call."""
        with self._mutex:
            return iter([_resource(words) for words in self._walk_resources()])

    def process_count(self) -> int:
        """How many processes live."""
        return self._call("vlm_process_count")

    def resource_count(self) -> int:
        """How many resources have locks."""
        return self._call("vlm_resource_count")

    def lock_count(self) -> int:
        """How many locks there are, waiting ones included."""
        return self._call("vlm_lock_count")

    def queued_count(self) -> int:
        """How many requests are queued: conversions and waiting locks."""
        return self._call("vlm_queued_count")

    def find(self, name: Name, *, group: Optional[int] = None, parent: Optional[int] = None) -> Optional[Resource]:
        """The resource of a root's name in a group, or without a group in the domain of the system; or the resource of
        this name below the resource with the serial `parent`. It takes constant time."""
        words = _key(name_bytes(name), group, parent or 0)
        return None if parent == 0 else self._resource_by("vlm_find", words)

    def find_lock(self, lock: int) -> Optional[LockView]:
        """The lock of this ID. It takes constant time."""
        return next(map(lock_of, self._lock_words("vlm_find_lock", None, word(lock, "the lock"))), None)

    def resource_of(self, lock: int) -> Optional[Resource]:
        """The resource of a lock. It takes constant time."""
        return self._resource_by("vlm_lock_resource", raw.Resource(), word(lock, "the lock"))

    def rows(self, resource: Resource, queue: Queue) -> Iterator[LockView]:
        """The locks in a queue of a resource, as they are at the call. A resource that is gone has none."""
        words = _key(resource.name, resource.group, resource.parent or 0)
        return self._walk_locks("vlm_first_row", "vlm_next_row", words, int(Queue(queue)))

    def rows_after(self, lock: int) -> Iterator[LockView]:
        """The locks after this one in its queue, as they are at the call."""
        return self._walk_locks("vlm_next_row", "vlm_next_row", word(lock, "the lock"))

    def locks_of(self, process: Process) -> Iterator[LockView]:
        """The locks of a process, in the order in which they were made, as they are at the call."""
        return self._walk_locks("vlm_first_own", "vlm_next_own", process.pid)

    def sublocks(self, lock: int) -> Iterator[LockView]:
        """The sublocks of a lock, in the order in which they were made, as they are at the call."""
        return self._walk_locks("vlm_first_sublock", "vlm_next_sublock", word(lock, "the lock"))

    def blockers(self, lock: int) -> Iterator[LockView]:
        """The locks for which the queued request of a lock waits, as a search for a deadlock follows them: granted ones
        first, then converting, then waiting ones. A granted lock waits for none."""
        number = word(lock, "the lock")
        return self._walk_locks("vlm_first_blocker", "vlm_next_blocker", number, also=[number])

    def blocked(self, lock: int) -> Iterator[LockView]:
        """The locks whose queued requests wait for a lock: those that have it among their blockers, converting ones
        first, then waiting ones."""
        number = word(lock, "the lock")
        return self._walk_locks("vlm_first_blocked", "vlm_next_blocked", number, also=[number])

    def _walk_processes(self) -> Iterator[ProcessView]:
        words = raw.Process()
        while self._goes_on("vlm_next_process", words.pid, words) and words.pid:
            yield ProcessView(words.pid, words.node, words.group, words.syslck == 1, words.quota, words.blocks,
                              words.pending, words.locks)

    def _walk_resources(self) -> Iterator[raw.Sized]:
        """The words of each resource. The same words serve for all."""
        words = raw.Resource()
        while self._goes_on("vlm_next_resource", words) and words.serial:
            yield words

    def _goes_on(self, name: str, *arguments: Any) -> bool:
        """Makes a step of a walk."""
        return self._call(name, *arguments) == Condition.NORMAL

    def _resource_by(self, name: str, words: raw.Sized, *arguments: Any) -> Optional[Resource]:
        """The resource that a call reads, if there is one."""
        return _resource(words) if self._goes_on(name, *arguments, words) else None

    def _lock_words(self, first: str, following: Optional[str], *arguments: Any,
                    also: Sequence[int] = ()) -> Iterator[raw.Sized]:
        """The words of each lock of a walk, by its first call and its following calls, which also take these numbers.
        The same words serve for all."""
        words = raw.Lock()
        goes_on = self._goes_on(first, *arguments, words)
        while goes_on and words.lkid:
            yield words
            goes_on = following is not None and self._goes_on(following, *also, words.lkid, words)

    def _walk_locks(self, first: str, following: str, *arguments: Any, also: Sequence[int] = ()) -> Iterator[LockView]:
        with self._mutex:
            return iter(list(map(lock_of, self._lock_words(first, following, *arguments, also=also))))


def _mode(number: int) -> Optional[Mode]:
    """The mode of a number. 255 is no mode."""
    return None if number == 255 else Mode(number)


def lock_of(words: raw.Sized) -> LockView:
    """The lock of these words."""
    return LockView(words.lkid, words.pid, _mode(words.held), _mode(words.want), Queue(words.queue), words.resource,
                    words.parent or None, words.block)


def _key(name: bytes, group: Optional[int], parent: int) -> raw.Sized:
    """The words that name a resource. A name that does not fit names none."""
    words = raw.Resource(parent=word(parent, "the parent"), is_system=mark(group is None and not parent),
                         group=word(group or 0, "the group"), name_len=len(name))
    fitting = name[:len(words.name)]
    words.name[:len(fitting)] = fitting
    return words


def _resource(words: raw.Sized) -> Resource:
    return Resource(words.serial, words.parent or None, None if words.is_system else words.group,
                    bytes(words.name)[:words.name_len], bytes(words.value), words.value_valid == 1,
                    bytes(words.tail), words.tail_valid == 1)
