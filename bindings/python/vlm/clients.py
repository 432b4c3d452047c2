"""A process of a lock manager for threads, with its locks."""

from ctypes import c_int, c_uint32
from types import TracebackType
from typing import TYPE_CHECKING, Any, Generator, Optional, Type

from . import _library as raw
from ._arguments import flags_word, name_bytes, part, word
from ._asks import Asked
from ._contexts import Call
from .errors import BadParamError, checked, error_of
from .held import Held
from .values import Condition, DequeueFlags, Flags, Mode, Name

if TYPE_CHECKING:
    from .shared import Shared


class Client:
    """A process: `Shared.declare` makes it. Threads may share it."""

    def __init__(self, shared: "Shared", pid: int) -> None:
        self.shared, self.pid = shared, pid

    def __repr__(self) -> str:
        return f"<Client {self.pid}>"

    def _asked(self, name: Name, mode: Mode, flags: Flags, parent: int, blocking: Optional[Call]) -> Asked:
        words = raw.ThreadsRequest(pid=self.pid, mode=word(mode, "mode"), flags=flags_word(flags) | Flags.VALBLK,
                                   lock=word(parent, "parent"))
        return Asked(self, words, name_bytes(name), blocking)

    def lock(self, name: Name, mode: Mode, timeout: Optional[float] = None, value: Optional[bytes] = None, *,
             flags: Flags = Flags.NONE, parent: int = 0, blocking: Optional[Call] = None) -> Held:
        """Asks for a lock on a resource, below a parent lock if one is named, and waits for the grant, at most for
        these seconds, rounded up to milliseconds. `with` gives the lock up at its end, and writes the value, if one is
        given here or by `Held.write`.

        TimedOutError says that the request was cancelled. A grant that came too late counts as granted. DeadlockError
        says that a search chose the request. `blocking` is called once the lock is in the way of another request."""
        asked = self._asked(name, mode, flags, parent, blocking)
        given = None if value is None else part(value, 16, "the value")
        try:
            status = asked.wait(timeout)
            if status != Condition.NORMAL:
                raise error_of(status)
            held = Held(self, mode, asked)
        except BaseException:
            asked.give_up()
            raise
        held._value = given
        return held

    def lock_async(self, name: Name, mode: Mode, *, flags: Flags = Flags.NONE, parent: int = 0,
                   blocking: Optional[Call] = None) -> "AsyncLock":
        """The same for asyncio: `async with client.lock_async("A", Mode.EX) as held`, or `await`. A task that is
        cancelled leaves nothing queued; asyncio's time-outs do so. The events of the process must be called by a thread
        of the layer, or by one that dispatches."""
        return AsyncLock(self._asked(name, mode, flags, parent, blocking), mode)

    def start(self, name: Name, mode: Mode, completion: Call, *, flags: Flags = Flags.NONE, parent: int = 0,
              blocking: Optional[Call] = None) -> int:
        """Asks for a lock and does not wait: the lock. The completion routine is called once with an Event, also if it
        was granted at once; not if its process ends first. `deq` gives the lock up."""
        return self._started(self._asked(name, mode, flags, parent, blocking), completion)

    def start_convert(self, lock: int, mode: Mode, completion: Call, *, flags: Flags = Flags.NONE,
                      blocking: Optional[Call] = None) -> None:
        """The same for another mode of a lock. Without a blocking routine it has none after the grant."""
        words = raw.ThreadsRequest(pid=self.pid, mode=word(mode, "mode"), flags=flags_word(flags),
                                   lock=word(lock, "the lock"))
        self._started(Asked(self, words, None, blocking), completion)

    def _started(self, asked: Asked, completion: Call) -> int:
        checked(asked.start(completion))
        return int(asked.words.lkid)

    def _deq(self, lock: int, flags: int) -> int:
        words = raw.ThreadsDequeue(pid=self.pid, lock=lock, flags=flags)
        answer: int = self.shared._call("deq")(self.shared._open_layer(), words)
        return answer

    def deq(self, lock: int = 0, flags: DequeueFlags = DequeueFlags.NONE, *, value: Optional[bytes] = None,
            tail: Optional[bytes] = None) -> None:
        """Gives a lock up, or with DEQALL all locks below it, or without one all of the process, or cancels its
        request ($DEQ). A lock that holds PW or EX writes the value into the value block."""
        words = raw.ThreadsDequeue(pid=self.pid, lock=word(lock, "the lock"), flags=word(flags, "flags"))
        if value is None and tail is not None:
            raise BadParamError
        if value is not None:
            given = part(value, 16, "the value") + part(tail, 48, "the tail")
            written = raw.Value(*given)
            words.value, words.wide = raw.address_of(written), int(tail is not None)
        checked(self.shared._call("deq")(self.shared._open_layer(), words))

    def cancel(self, lock: int) -> None:
        """Cancels the queued request of a lock. A lock that was converting holds what it held."""
        self.deq(lock, DequeueFlags.CANCEL)

    def cancel_all(self) -> int:
        """Cancels all queued requests of the process, and returns how many there were."""
        return self._number("cancel")

    def rundown(self) -> None:
        """Ends the process, with all that it has. Waits for it raise NonExprError."""
        checked(self.shared._call("rundown")(self.shared._open_layer(), self.pid))

    def label(self) -> str:
        """The label of the process."""
        label = raw.Label()
        checked(self.shared._call("label")(self.shared._open_layer(), self.pid, label))
        return bytes(label).rstrip(b"\0").decode(errors="replace")

    def dispatch(self) -> int:
        """Calls the routines that are pending, of a process with a queue of its own. Returns how many there were."""
        return self._number("process_dispatch")

    def fileno(self) -> int:
        """The descriptor that is readable while `dispatch` has something to do. It is closed with the process."""
        descriptor = c_int()
        checked(self.shared._call("process_fd")(self.shared._open_layer(), self.pid, descriptor))
        return descriptor.value

    def _number(self, call: str) -> int:
        """The number that a call for this process writes."""
        number = c_uint32()
        checked(self.shared._call(call)(self.shared._open_layer(), self.pid, number))
        return number.value


class AsyncLock:
    """A request that a task awaits."""

    def __init__(self, asked: Asked, mode: Mode) -> None:
        self._asked, self._mode = asked, mode
        self._held: Optional[Held] = None

    def __await__(self) -> Generator[Any, None, Held]:
        return self._granted().__await__()

    async def __aenter__(self) -> Held:
        self._held = await self
        return self._held

    async def __aexit__(self, kind: Optional[Type[BaseException]], error: Optional[BaseException],
                        trace: Optional[TracebackType]) -> None:
        if self._held is not None:
            self._held.__exit__(kind, error, trace)

    async def _granted(self) -> Held:
        ended = self._asked.start_in_task()
        try:
            status = self._asked.end(await ended)
        except BaseException:
            self._asked.undo()
            raise
        if status != Condition.NORMAL:
            raise error_of(status)
        return Held(self._asked.client, self._mode, self._asked)
