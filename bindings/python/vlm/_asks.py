"""Requests to the layer for threads, and waits for their ends."""

import threading
from contextlib import suppress
from ctypes import c_uint32
from math import ceil
from typing import TYPE_CHECKING, Any, Callable, Optional

from . import _library as raw
from ._arguments import seconds
from ._contexts import Call, Context, forget, give
from .errors import ClosedError, checked
from .values import Condition, DequeueFlags, Event, Flags

if TYPE_CHECKING:
    import asyncio

    from .clients import Client

# Seconds between two attempts to cancel an interrupted wait. The first one may come before the wait begins.
_AGAIN = 0.01
_NORMAL, _SYNCH, _NOTQUEUED = int(Condition.NORMAL), int(Condition.SYNCH), int(Condition.NOTQUEUED)
# The statuses of a request that was granted.
GRANTS = (_NORMAL, int(Condition.VALNOTVALID), int(Condition.WIDENOTVALID))


def milliseconds(timeout: Optional[float]) -> int:
    """The longest wait in milliseconds, rounded up; 0 for one without an end."""
    longest = seconds(timeout)
    count = 0 if longest is None else max(1, ceil(longest * 1000))
    return count if count < 1 << 32 else 0


class Asked:
    """A request: for a new lock if it has a name, or for another mode of a lock."""

    def __init__(self, client: "Client", words: raw.Sized, name: Optional[bytes], blocking: Optional[Call]) -> None:
        self.client, self.words, self.name, self.blocking = client, words, name, blocking
        # (the words refer to it by its address)
        self.value = raw.Value()
        words.value = raw.address_of(self.value)

    def wait(self, timeout: Optional[float]) -> int:
        """Makes the request and waits for its end: the answer, NORMAL for a grant. After an exception it is not queued,
        but it may have been granted.

        A wait in the library can't be interrupted. So the main thread, which gets Python's signals, waits for another
        thread that waits there."""
        if threading.current_thread() is not threading.main_thread():
            return self.make(timeout)
        # (a wrong time is refused before anything is asked for)
        milliseconds(timeout)
        flags = self.words.flags
        self.words.flags = flags | Flags.NOQUEUE
        status = self.make(None)
        self.words.flags = flags
        if status != _NOTQUEUED or flags & Flags.NOQUEUE:
            return status
        return Waiting(self, timeout).wait()

    def make(self, timeout: Optional[float]) -> int:
        """Makes the request and waits for its end in the library."""
        self.words.milliseconds = milliseconds(timeout)
        return self._make(self.client.shared._call("enq" if self.name is not None else "convert"), None)

    def start_in_task(self) -> "asyncio.Future[Optional[Event]]":
        """Makes the request for a task: a future of the event that ends it, or of None if its process ends."""
        # (a program without tasks needs no asyncio, which takes long to import)
        import asyncio
        loop = asyncio.get_running_loop()
        ended: "asyncio.Future[Optional[Event]]" = loop.create_future()

        def end(event: Optional[Event]) -> None:
            if not ended.done():
                ended.set_result(event)

        def tell(event: Optional[Event] = None) -> None:
            # (the loop may have ended)
            with suppress(RuntimeError):
                loop.call_soon_threadsafe(end, event)

        checked(self.start(tell, tell))
        return ended

    def start(self, completion: Call, released: Optional[Callable[[], object]] = None) -> int:
        """Makes the request, and does not wait: NORMAL if the completion routine is called."""
        call = self.client.shared._call("start_enq" if self.name is not None else "start_convert")
        return self._make(call, Context(completion, self.blocking, released))

    def _make(self, call: Any, context: Optional[Context]) -> int:
        words, layer, number = self.words, self.client.shared._open_layer(), 0
        if context is not None or self.blocking is not None:
            number = give(context or Context(None, self.blocking), words)
        status: int = (call(layer, words) if self.name is None else
                       call(layer, words, self.name, len(self.name)))
        # (a request that was accepted has a status, or a success as its answer)
        if number and not words.status and status not in (_NORMAL, _SYNCH):
            forget(number)
        return _NORMAL if status == _SYNCH else status

    def end(self, event: Optional[Event]) -> int:
        """The answer to a request that ended so; without an event its process did."""
        if event is None:
            # (a call for the process is answered how that ended)
            return self._deq(self.words.lkid, DequeueFlags.CANCEL)
        status = self.words.status = int(event.status or 0)
        self.value[:] = (event.value or bytes(16)) + (event.tail or bytes(48))
        return _NORMAL if status in GRANTS else status

    def _deq(self, lock: int, flags: int) -> int:
        """Gives the lock up, or cancels its request. Closing the lock manager ended its process as a departure does."""
        try:
            return self.client._deq(lock, flags)
        except ClosedError:
            return int(Condition.DEPARTED)

    def cancel(self) -> bool:
        """Cancels the request: whether it has not been granted."""
        return self._deq(self.words.lkid, DequeueFlags.CANCEL) != Condition.CANCELGRANT

    def undo(self) -> None:
        """Cancels the request. A new lock that was granted meanwhile is given up."""
        if not self.cancel():
            self.give_up()

    def give_up(self) -> None:
        """Gives up a new lock, if it was granted."""
        if self.name is not None and self.words.lkid:
            self._deq(self.words.lkid, DequeueFlags.NONE)

    def cancel_wait(self) -> None:
        """Cancels the request for which another thread waits in the library, if it waits already."""
        shared, lock = self.client.shared, c_uint32()
        shared._call("lkid")(shared._layer, self.words, lock)
        if lock.value:
            self._deq(lock.value, DequeueFlags.CANCEL)


class Waiting:
    """A wait of this thread for another one, which makes a request and waits in the library."""

    def __init__(self, asked: Asked, timeout: Optional[float]) -> None:
        self._asked, self._timeout = asked, timeout
        self._ended = threading.Event()
        # The other thread makes no request for a wait that was given up before.
        self._mutex, self._has_begun, self._is_given_up = threading.Lock(), False, False
        self._status = 0
        self._error: Optional[BaseException] = None

    def wait(self) -> int:
        try:
            threading.Thread(target=self._make, daemon=True).start()
            self._ended.wait()
        except BaseException:
            self._end()
            raise
        if self._error is not None:
            raise self._error
        return self._status

    def _make(self) -> None:
        with self._mutex:
            if self._is_given_up:
                return
            self._has_begun = True
        try:
            self._status = self._asked.make(self._timeout)
        except BaseException as error:  # (the thread that waits raises it)
            self._error = error
        self._ended.set()

    def _end(self) -> None:
        """Ends the wait, if it has begun."""
        with self._mutex:
            self._is_given_up = True
        while self._has_begun and not self._ended.is_set():
            self._asked.cancel_wait()
            self._ended.wait(_AGAIN)
