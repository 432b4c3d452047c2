"""A process, with its locks and status blocks."""

from ctypes import c_size_t, c_uint32
from typing import TYPE_CHECKING, Optional

from . import _library as raw
from . import _words
from ._arguments import name_bytes, word
from .errors import checked
from .values import Accepted, Ast, AstKind, Condition, DequeueFlags, Flags, Mode, Name, StatusBlock, Which

if TYPE_CHECKING:
    from .manager import LockManager


class Process:
    """A process of a lock manager: `LockManager.declare` makes it. Threads may share it."""

    def __init__(self, manager: "LockManager", pid: int) -> None:
        self.manager = manager
        self.pid = pid

    def __repr__(self) -> str:
        return f"<Process {self.pid}>"

    def enq(self, name: Name, mode: Mode, block: int, flags: Flags = Flags.NONE, *, parent: Optional[Which] = None,
            completion: Optional[int] = None, blocking: Optional[int] = None, param: int = 0) -> Accepted:
        """Asks for a new lock ($ENQ) on a resource, below a parent lock if one is named. It does not wait: the status
        block tells when the request ends. The routine `completion` is for its end, and `blocking` for when the lock is
        in the way of another request."""
        text, lkid = name_bytes(name), c_uint32()
        words = _words.request(self.pid, parent, completion, blocking, mode=mode, flags=flags, block=block, param=param)
        condition = self.manager._step("vlm_enq", words, text, len(text), lkid)
        return Accepted(lkid.value, condition is Condition.SYNCH)

    def convert(self, lock: Which, mode: Mode, block: int, flags: Flags = Flags.NONE, *,
                completion: Optional[int] = None, blocking: Optional[int] = None, param: int = 0) -> Accepted:
        """Asks for another mode of a granted lock ($ENQ with CONVERT). Its routines take the place of the old ones."""
        lkid = c_uint32()
        words = _words.request(self.pid, lock, completion, blocking, mode=mode, flags=flags, block=block, param=param)
        condition = self.manager._step("vlm_convert", words, lkid)
        return Accepted(lkid.value, condition is Condition.SYNCH)

    def deq(self, lock: Which, flags: DequeueFlags = DequeueFlags.NONE, *, value: Optional[bytes] = None,
            tail: Optional[bytes] = None) -> None:
        """Gives a lock up, or several with DEQALL, or cancels its request ($DEQ). A lock that holds PW or EX writes the
        value into the value block; shorter ones are filled up with zeros."""
        self.manager._step("vlm_deq", _words.dequeue(self.pid, lock, flags, value, tail))

    def cancel(self, lock: Which) -> None:
        """Cancels the queued request of a lock. A lock that was converting holds what it held."""
        self.deq(lock, DequeueFlags.CANCEL)

    def set_value(self, block: int, value: bytes, tail: Optional[bytes] = None) -> None:
        """Sets the value part of a status block, and its tail if one is given."""
        self.manager._step("vlm_set_value", _words.setting(self.pid, block, value, tail))

    def take(self) -> Optional[Ast]:
        """Takes the oldest pending AST, if there is one."""
        words = raw.Ast()
        checked(self.manager._call("vlm_take", self.pid, words))
        return ast_of(words) if words.kind else None

    def rundown(self) -> None:
        """Ends the process, with all that it has."""
        self.manager._step("vlm_rundown", self.pid)

    def status_block(self, number: int) -> StatusBlock:
        """The status block of this number, from 1. BadParamError without one."""
        words = raw.Lksb()
        checked(self.manager._call("vlm_block", self.pid, word(number, "the status block"), words))
        return status_block_of(words)

    def pending(self) -> int:
        """How many ASTs are pending. BadParamError after the end of the process."""
        pending = c_size_t()
        checked(self.manager._call("vlm_pending", self.pid, pending))
        return pending.value


def ast_of(words: raw.Sized) -> Ast:
    """The AST of these words."""
    return Ast(AstKind(words.kind), words.routine, words.param, words.lkid)


def status_block_of(words: raw.Sized) -> StatusBlock:
    """The status block of these words."""
    status = Condition(words.status) if words.status else None
    return StatusBlock(status, words.lkid or None, bytes(words.value), bytes(words.tail))
