"""A connection to vlmd, the lock service for the processes of a machine."""

import os
import select
import weakref
from contextlib import suppress
from ctypes import addressof, byref, c_int, c_uint32, c_uint64, c_void_p, create_string_buffer
from dataclasses import dataclass
from itertools import count
from math import ceil
from typing import Any, Callable, Dict, Optional, Set

from . import _client as raw
from ._arguments import flags_word, name_bytes, need_routines, part, seconds, word
from ._asks import GRANTS, milliseconds
from ._library import LOST, ROUTINE, VERSION, address_of
from ._owner import Closing
from .errors import BadParamError, LostError, VlmError, checked
from .held import HeldLock
from .values import Condition, DequeueFlags, Flags, Mode, Name


@dataclass(frozen=True)
class ServedEvent:
    """What a routine of a connection is told: how its request ended, or that its lock is in the way of another."""

    pid: int
    lock: int
    is_blocking: bool
    # The request ended because the locks are lost. It has no status then.
    is_lost: bool
    status: Optional[Condition]
    # The value block that a grant returned: 16 bytes, or 64 with WIDE.
    value: Optional[bytes]


# What a routine of a connection is called with.
Routine = Callable[[ServedEvent], object]
# Calls that make a process or a lock. A close of the connection ends what they make.
_ASKS = ("declare", "enq", "convert", "start_enq")
# The longest wait for a descriptor, in milliseconds.
_LONGEST = (1 << 31) - 1


class _Client:
    """A client in C. It is freed once it was closed and no call is under way. It has no mutex, so that routines, signal
    handlers and the garbage collector may close it during a call."""

    def __init__(self, handle: c_void_p) -> None:
        self._handle = handle
        self.is_closed = False
        # The processes, whose ends end waits.
        self.processes: Set[int] = set()
        # The calls under way: one is added before it looks whether the client is closed.
        self._calls: Set[object] = set()
        # What is to be freed: the one call that takes it out frees it.
        self._kept = [handle]

    def call(self, name: str, *arguments: Any) -> int:
        """Makes a call of vlm_client.h."""
        this = object()
        try:
            self._calls.add(this)
            if self.is_closed:
                return LOST
            status: int = raw.call(name)(self._handle, *arguments)
        finally:
            self._end(this)
        # (a close ends one process after another, so the end of one may have granted this request)
        return LOST if self.is_closed and (status == Condition.NONEXPR or name in _ASKS) else status

    def close(self) -> None:
        """Ends all calls that wait. The last call that is under way frees the client. A forked child frees nothing:
        each call is refused there."""
        this = object()
        try:
            self._calls.add(this)
            if not self.is_closed:
                self.is_closed = True
                for pid in list(self.processes) if len(self._calls) > 1 else ():
                    raw.call("rundown")(self._handle, pid)
        finally:
            self._end(this)

    def _end(self, call: object) -> None:
        self._calls.discard(call)
        if self.is_closed and not self._calls:
            with suppress(IndexError):
                raw.call("close")(self._kept.pop())


class Connection(Closing):
    """A session of the lock service: `connect` makes it. Threads may share it. A forked child may not use it.

    Once the service or the session has ended, each call raises LostError: the locks are gone. `reopen` begins a new
    session, in which nothing is held."""

    def __init__(self, socket: Optional[str] = None, on_lost: Optional[Callable[[], object]] = None,
                 lease: int = 0, *, certificate: Optional[str] = None, key: Optional[str] = None,
                 authority: Optional[str] = None) -> None:
        """Connects to the socket, by default that of VLM_SOCKET or /run/vlm/lock.sock, or to the replicas at
        `tcp:HOST:PORT,HOST:PORT..` with a lease of 2 to 600 seconds: 0 means 10. At `tls:HOST:PORT,HOST:PORT..` it
        shows a certificate. These files in PEM's form are those of VLM_TLS_CERTIFICATE, VLM_TLS_KEY and
        VLM_TLS_AUTHORITY if they are not named. `deliver` calls `on_lost` once the locks are lost. LostError says why
        there is no connection."""
        need_routines(on_lost)
        self._routines: Dict[int, Routine] = {}
        self._numbers = count(1)
        self._on_lost = on_lost
        # (C calls these, so they live as long as the connection)
        self._called = ROUTINE(self._run)
        self._told = raw.LOSS(self._tell_loss)
        handle = c_void_p()
        path, *files = [None if it is None else os.fsencode(it) for it in (socket, certificate, key, authority)]
        reason = create_string_buffer(raw.REASON)
        options = raw.Options(version=VERSION, delivery=raw.BY_PROGRAM, lease_seconds=word(lease, "the lease"),
                              socket=path, on_lost=self._told, reason=addressof(reason), reason_len=raw.REASON,
                              **dict(zip(("certificate", "key", "authority"), files)))
        try:
            checked(raw.call("open")(byref(options), byref(handle)))
        except LostError:
            raise LostError(reason.value.decode(errors="replace")) from None
        self._client = _Client(handle)
        weakref.finalize(self, self._client.close).atexit = False

    def call(self, name: str, *arguments: Any) -> Condition:
        """Makes a call of vlm_client.h."""
        return checked(self._client.call(name, *arguments))

    def close(self) -> None:
        """Ends the session with all its locks. While other calls are under way, or in a routine, it ends the processes
        with their locks, and the last of these calls ends the session. A second call does nothing. Waits for locks, and
        calls after it, raise LostError."""
        self._client.close()

    @property
    def is_closed(self) -> bool:
        return self._client.is_closed

    def reopen(self) -> None:
        """Begins a new session after a loss. The processes of the old one are gone: declare new ones."""
        self.call("reopen")

    def declare(self, *, quota: int = 1000, requests: int = 16) -> "ServedProcess":
        """Gives the session a process: how many locks it may have, and how many requests may be under way at once."""
        pid = c_uint32()
        words = raw.Declaration(quota=word(quota, "the quota"), requests=word(requests, "the number of requests"))
        self.call("declare", byref(words), byref(pid))
        self._client.processes.add(pid.value)
        return ServedProcess(self, pid.value)

    def rundown(self, pid: int) -> None:
        """Ends a process with all its locks."""
        self.call("rundown", pid)
        self._client.processes.discard(pid)

    def token(self, lock: int) -> int:
        """Tells the fencing token of a lock: of its last request that was granted. A later grant has a greater one.
        IvLockIdError: there is no such lock, or it waits for its first grant."""
        token = c_uint64()
        self.call("token", word(lock, "the lock"), byref(token))
        return token.value

    def fileno(self) -> int:
        """The file descriptor that is readable while a routine is to be called."""
        descriptor = c_int()
        self.call("fd", byref(descriptor))
        return descriptor.value

    def wait(self, timeout: Optional[float] = None) -> bool:
        """Waits until a routine is to be called, at most for these seconds. Returns whether one is. It does not notice
        that another thread closes the connection."""
        poll, longest = select.poll(), seconds(timeout)
        poll.register(self.fileno(), select.POLLIN)
        return bool(poll.poll(None if longest is None else min(ceil(longest * 1000), _LONGEST)))

    def deliver(self) -> int:
        """Calls the routines whose requests have ended or whose locks are in the way, oldest first. Returns how many
        it called. An exception of a routine is printed."""
        delivered = c_uint32()
        self.call("dispatch", byref(delivered))
        return delivered.value

    def keep(self, routine: Routine) -> int:
        """The number by which C knows a routine from here on."""
        number = next(self._numbers)
        self._routines[number] = routine
        return number

    def forget(self, number: int) -> None:
        """C uses this number no more."""
        self._routines.pop(number, None)

    def _run(self, context: int, event: Any) -> None:
        words = event.contents
        value = bytes(words.value)[:words.value_len] if words.value_len else None
        is_lost = words.status == LOST
        status = Condition(words.status) if words.status and not is_lost else None
        routine = self._routines.get(context)
        # (another thread may have given its lock up, or run its process down)
        if routine is not None:
            routine(ServedEvent(words.pid, words.lkid, words.kind == 2, is_lost, status, value))

    def _tell_loss(self, _context: int) -> None:
        if self._on_lost is not None:
            self._on_lost()


class ServedProcess:
    """A process of a session, which owns locks. Threads may share it."""

    def __init__(self, connection: Connection, pid: int) -> None:
        self.connection = connection
        self.pid = pid
        # The numbers of its routines.
        self._routines: Set[int] = set()

    def __repr__(self) -> str:
        return f"<process {self.pid} of the lock service>"

    def lock(self, name: Name, mode: Mode, timeout: Optional[float] = None, value: Optional[bytes] = None, *,
             flags: Flags = Flags.NONE, parent: Optional[int] = None,
             blocking: Optional[Routine] = None) -> "ServedLock":
        """Asks for a lock and waits for the grant, at most for these seconds. `with` gives the lock up at its end, and
        writes the value, if one is given here or by `write`. Ctrl-C ends a wait of the main thread only with its
        request.

        TimedOutError says that the request was cancelled; a grant that came too late counts as granted. DeadlockError
        says that a search of the service chose the request. LostError says that the service or the session has
        ended."""
        text, given = name_bytes(name), None if value is None else part(value, 16, "the value")
        request = self.request(mode, flags | Flags.VALBLK, timeout, lock=0 if parent is None else parent,
                               blocking=blocking)
        try:
            self.connection.call("enq", byref(request.words), text, len(text))
            held = ServedLock(self, request, mode)
        except BaseException:
            if request.words.lkid:
                # (it was granted, and then interrupted)
                with suppress(VlmError, LostError):
                    self.deq(request.words.lkid)
            self.forget(request.routine)
            raise
        if given is not None:
            held.write(given)
        return held

    def start(self, name: Name, mode: Mode, completion: Routine, *, flags: Flags = Flags.NONE) -> int:
        """Asks for a lock without waiting, and returns it. `Connection.deliver` calls the routine once the request has
        ended."""
        text = name_bytes(name)
        need_routines(completion)
        request = self.request(mode, flags | Flags.VALBLK, None)

        def completed(event: ServedEvent) -> None:
            self.forget(number)
            completion(event)

        number = self.keep(completed)
        request.words.completion, request.words.completion_context = self.connection._called, number
        try:
            self.connection.call("start_enq", byref(request.words), text, len(text))
        except BaseException:
            self.forget(number)
            raise
        return int(request.words.lkid)

    def deq(self, lock: int, flags: DequeueFlags = DequeueFlags.NONE, *, value: Optional[bytes] = None,
            tail: Optional[bytes] = None) -> None:
        """Gives a lock up, or several with DEQALL, or cancels its request, as `Process.deq`."""
        words = raw.Dequeue(pid=self.pid, flags=word(flags, "flags"), lock=word(lock, "the lock"))
        if value is None and tail is not None:
            raise BadParamError
        if value is not None:
            whole = part(value, 16, "the value") + part(tail, 48, "the tail")
            room = raw.room_of(whole)
            words.value, words.wide = address_of(room), 0 if tail is None else 1
        self.connection.call("deq", byref(words))

    def rundown(self) -> None:
        """Ends the process with all its locks."""
        self.connection.rundown(self.pid)
        for number in list(self._routines):
            self.forget(number)

    def keep(self, routine: Routine) -> int:
        """The number by which C knows a routine, until it is forgotten or the process is run down."""
        number = self.connection.keep(routine)
        self._routines.add(number)
        return number

    def forget(self, number: int) -> None:
        """C uses this number no more."""
        self._routines.discard(number)
        self.connection.forget(number)

    def request(self, mode: Mode, flags: int, timeout: Optional[float], *, lock: int = 0,
                blocking: Optional[Routine] = None, value: bytes = b"") -> "_Request":
        return _Request(self, mode, flags, timeout, lock, blocking, value)


class _Request:
    """The words of a request, the 64 bytes of its value block, and the number of its blocking routine."""

    def __init__(self, process: ServedProcess, mode: Mode, flags: int, timeout: Optional[float], lock: int,
                 blocking: Optional[Routine], value: bytes) -> None:
        need_routines(blocking)
        self.value = raw.room_of(value)
        self.words = raw.Request(pid=process.pid, mode=word(mode, "mode"),
                                 flags=flags_word(flags), lock=word(lock, "the lock"),
                                 milliseconds=milliseconds(timeout), value=address_of(self.value))
        self.routine = 0 if blocking is None else process.keep(blocking)
        if blocking is not None:
            self.words.blocking, self.words.blocking_context = process.connection._called, self.routine


class ServedLock(HeldLock):
    """A lock that `ServedProcess.lock` was granted. Leaving its `with` block gives it up; after a loss that raises
    LostError, since what was done in the block was not done under a lock to its end."""

    def __init__(self, process: ServedProcess, request: _Request, mode: Mode) -> None:
        super().__init__(process, mode, request)
        self.process = process
        self._routine = request.routine

    def __repr__(self) -> str:
        given_up = "" if self._is_held else ", given up"
        return f"<lock {self.lock} of {self.process} at {self.mode.name}{given_up}>"

    def convert(self, mode: Mode, timeout: Optional[float] = None, *, flags: Flags = Flags.NONE,
                blocking: Optional[Routine] = None) -> None:
        """Asks for another mode and waits for the grant. If it fails, the lock holds what it held. The blocking routine
        takes the place of the old one; without one the lock has none."""
        process, value = self.process, self._written() if self._is_written_by(mode) else b""
        request = process.request(mode, self._flags_to(mode, flags), timeout, lock=self.lock, blocking=blocking,
                                  value=value)
        try:
            process.connection.call("convert", byref(request.words))
        finally:
            # (one that was granted may have been interrupted then)
            if request.words.status in GRANTS:
                process.forget(self._routine)
                self._hold(mode, request)
                self._routine = request.routine
            else:
                process.forget(request.routine)

    def token(self) -> int:
        """Tells the fencing token of the lock, for storage that refuses a smaller one than it has seen. A conversion
        takes another one."""
        return self.process.connection.token(self.lock)

    def release(self) -> None:
        """Gives the lock up, and writes the value that was named. A second call does nothing."""
        super().release()
        self.process.forget(self._routine)


def connect(socket: Optional[str] = None, on_lost: Optional[Callable[[], object]] = None, *, lease: int = 0,
            certificate: Optional[str] = None, key: Optional[str] = None,
            authority: Optional[str] = None) -> Connection:
    """Connects to the lock service of this machine, or to replicas of it. LostError: there is none, or it refuses the
    connection. BadParamError: the lease is none of 2 to 600 seconds, or 0."""
    return Connection(socket, on_lost, lease, certificate=certificate, key=key, authority=authority)
