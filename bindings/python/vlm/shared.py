"""A lock manager that threads share: the library's layer for threads."""

import os
import threading
import weakref
from ctypes import byref, c_int, c_uint32, c_void_p
from dataclasses import dataclass
from typing import Any, Callable, Dict, List, NoReturn, Optional, Tuple, TypeVar, Union

from . import _library as raw
from ._arguments import mark, word
from ._asks import milliseconds
from ._contexts import forget, keep, printed, read, replace, told_deadlock, told_wait
from ._owner import Closing
from ._words import options
from .clients import Client
from .errors import BadParamError, ClosedError, checked
from .manager import LockManager, lock_of
from .values import Condition, LockView

_T = TypeVar("_T")


@dataclass(frozen=True)
class Wait:
    """A request that waits, and a lock that it waits for."""

    lock: LockView
    # None if it waits for nobody.
    blocker: Optional[LockView]
    # The name of the resource of both.
    name: bytes
    # The labels of the two processes.
    labels: Tuple[str, str]
    # How long it has waited.
    seconds: float
    # All of it as a sentence.
    text: str


@dataclass(frozen=True)
class Deadlock:
    """A deadlock whose victim is about to end."""

    # The lock whose request is the victim, and its process.
    victim: int
    pid: int
    # How many waits the cycle has, and the first 16 of them, the victim's first.
    length: int
    waits: Tuple[Wait, ...]
    # All of it as a sentence.
    text: str


@dataclass(frozen=True)
class _Hooks:
    """What the layer tells of waits."""

    on_deadlock: Optional[Callable[[Deadlock], object]]
    on_long_wait: Optional[Callable[[Wait], object]]

    def deadlock(self, words: raw.Sized) -> None:
        waits = tuple(map(_wait_of, words.waits[:words.length]))
        told = Deadlock(words.victim, words.pid, words.length, waits, _sentence("deadlock", words))
        if self.on_deadlock is not None:
            self.on_deadlock(told)

    def long_wait(self, words: raw.Sized) -> None:
        if self.on_long_wait is not None:
            self.on_long_wait(_wait_of(words))


def _sentence(what: str, words: raw.Sized) -> str:
    return printed(f"vlm_threads_print_{what}", words).rstrip("\n")


def _wait_of(words: raw.Sized) -> Wait:
    waits, blocks = (bytes(it).rstrip(b"\0").decode(errors="replace") for it in (words.waits_label, words.blocks_label))
    return Wait(lock_of(words.waits), lock_of(words.blocks) if words.blocks.lkid else None,
                bytes(words.name)[:words.name_len], (waits, blocks), words.milliseconds / 1000,
                _sentence("wait", words))


def _age(time: Optional[float]) -> int:
    """The milliseconds of an age, at most the longest that there is; 0 without one."""
    return 0 if time is None else milliseconds(time) or (1 << 32) - 1


def _close(layer: c_void_p, hooks: int, owner: int) -> None:
    """Frees a layer that nobody can call any more. In a forked child it is the parent's."""
    if os.getpid() != owner:
        return
    if raw.LIBRARY.vlm_threads_close(layer) == Condition.NORMAL:
        forget(hooks)
    else:
        # (a routine of the layer had the last name of it, and the close waits for that routine)
        threading.Thread(target=_close, args=(layer, hooks, owner), daemon=True).start()


# Those that were opened.
_opened: "weakref.WeakSet[Shared]" = weakref.WeakSet()


def _leave_to_parent() -> None:
    """A forked child has no thread of the layers, so its calls would wait for ever, and its locks would keep nobody
    out."""
    for shared in list(_opened):
        shared._is_closed = True


os.register_at_fork(after_in_child=_leave_to_parent)


class Shared(Closing):
    """A lock manager of its own, which threads share: its calls wait for grants, wake each other and call routines. In
    a forked child it is closed.

    Routines run one at a time, in a thread of the layer, or by `by_program` in one that calls `dispatch`. What they
    raise goes to sys.unraisablehook."""

    def __init__(self, *, keys: Optional[bytes] = None, by_program: bool = False, search_every: Optional[float] = None,
                 victims_after: Optional[float] = None, on_deadlock: Optional[Callable[[Deadlock], object]] = None,
                 long_wait: Optional[float] = None, on_long_wait: Optional[Callable[[Wait], object]] = None) -> None:
        """Opens a lock manager. 16 bytes of keys hash its names; without them they are random. Times are in seconds.

        `search_every` is the time between two searches for deadlocks, while a request waits; without it only `search`
        searches. A request that has waited less than `victims_after` is no victim. `on_deadlock` is called before a
        victim ends, and `on_long_wait` once for each wait that is longer than `long_wait`. Both may make calls."""
        self.is_by_program, self._is_closed, self._owner = by_program, False, os.getpid()
        words = raw.ThreadsOptions(version=raw.VERSION, delivery=mark(by_program), has_keys=1,
                                   search_milliseconds=milliseconds(search_every),
                                   victim_milliseconds=_age(victims_after), long_milliseconds=milliseconds(long_wait))
        words.keys[:] = options(keys).keys
        self._hooks = hooks = words.deadlock_context = words.long_wait_context = keep(_Hooks(on_deadlock, on_long_wait))
        if on_deadlock is not None:
            words.deadlock = told_deadlock
        if on_long_wait is not None:
            words.long_wait = told_wait
        self._layer = c_void_p()
        try:
            checked(raw.LIBRARY.vlm_threads_open(words, byref(self._layer)))
        except BaseException:
            forget(hooks)
            raise
        _opened.add(self)
        # (at the end of the program a thread may still be in a call, so nothing is freed then)
        weakref.finalize(self, _close, self._layer, hooks, self._owner).atexit = False

    def __reduce__(self) -> NoReturn:
        """There are no copies: the memory goes with the one that was opened."""
        raise TypeError("a Shared can't be copied or pickled")

    def __repr__(self) -> str:
        if self._is_closed:
            return "<Shared, closed>"
        counters = self.counters()
        return f"<Shared with {counters['processes']} processes and {counters['locks']} locks>"

    def _open_layer(self) -> c_void_p:
        if self._is_closed:
            is_own = os.getpid() == self._owner
            raise ClosedError("the lock manager is closed" if is_own else "a forked child can't use its parent's")
        return self._layer

    def _call(self, name: str) -> Any:
        return getattr(raw.LIBRARY, "vlm_threads_" + name)

    def close(self) -> None:
        """Ends all processes: waits raise DepartedError, and later calls ClosedError. A second call does nothing. The
        memory is freed with the last reference. A forked child ends nothing, since the processes are its parent's."""
        if self._is_closed:
            return
        if os.getpid() == self._owner:
            self._call("stop")(self._open_layer())
            if self.is_by_program:
                self.dispatch()
        self._is_closed = True
        # (a hook may be a method of what has this)
        replace(self._hooks, _Hooks(None, None))

    @property
    def is_closed(self) -> bool:
        """Whether `close` was called."""
        return self._is_closed

    def declare(self, node: int = 1, *, group: int = 0, quota: int = 65_535, requests: int = 16, syslck: bool = False,
                tied: bool = False, own_queue: bool = False, label: str = "") -> Client:
        """Declares a process of a node from 1 to 8: how many locks it may have, and how many of its requests may be
        under way at once. A tied one ends with the calling thread. With a queue of its own its routines are called by
        `Client.dispatch`. The label, of at most 31 bytes, is for people."""
        words = raw.ThreadsDeclaration(node=word(node, "the node"), group=word(group, "the group"),
                                       quota=word(quota, "the quota"), requests=word(requests, "the requests"),
                                       syslck=mark(syslck), tied=mark(tied), own_queue=mark(own_queue))
        text = label.encode()
        if len(text) > 31:
            raise BadParamError
        words.label[:len(text)] = text
        pid = c_uint32()
        checked(self._call("declare")(self._open_layer(), words, pid))
        return Client(self, pid.value)

    def leave(self, node: int) -> None:
        """A node departs, with all its processes. It stays departed."""
        checked(self._call("leave")(self._open_layer(), word(node, "the node")))

    def search(self) -> int:
        """Searches until no request is deadlocked. Returns how many ended by DEADLOCK."""
        return self._number("search")

    def dispatch(self) -> int:
        """With `by_program`, calls the routines that are pending, oldest first. Returns how many there were."""
        return self._number("dispatch")

    def _number(self, call: str) -> int:
        """The number that a call writes."""
        number = c_uint32()
        checked(self._call(call)(self._open_layer(), number))
        return number.value

    def fileno(self) -> int:
        """With `by_program`, the descriptor that is readable while `dispatch` has something to do."""
        descriptor = c_int()
        checked(self._call("fd")(self._open_layer(), descriptor))
        return descriptor.value

    def settle(self) -> None:
        """Waits until each routine and hook that runs has returned."""
        checked(self._call("settle")(self._open_layer()))

    def look(self, reader: Callable[[LockManager], _T]) -> _T:
        """Lets a callable read the lock manager, under the mutex: it makes no call of this `Shared`, and keeps nothing
        of the lock manager."""
        told: List[_T] = []
        failed: List[BaseException] = []

        def run(handle: raw.Handle) -> None:
            try:
                told.append(reader(LockManager._over(handle)))
            except BaseException as error:
                failed.append(error)

        layer, number = self._open_layer(), keep(run)
        try:
            checked(self._call("look")(layer, read, number))
        finally:
            forget(number)
        if failed:
            raise failed[0]
        if not told:
            # (`run` was interrupted before it began: ctypes, which called it, has printed that and gone on)
            raise KeyboardInterrupt
        return told[0]

    def _counters(self) -> raw.Sized:
        words = raw.ThreadsCounters()
        checked(self._call("read_counters")(self._open_layer(), words))
        return words

    def counters(self) -> Dict[str, Union[int, List[int]]]:
        """All counters at one moment, by their names in `vlm_threads.h`."""
        words = self._counters()
        values = {name: getattr(words, name) for name in raw.COUNTERS}
        return {name: it if isinstance(it, int) else list(it) for name, it in values.items()}

    def counters_text(self) -> str:
        """The counters as lines of text."""
        return printed("vlm_threads_print", self._counters())

    def prometheus_text(self) -> str:
        """The counters in the text format of Prometheus."""
        return printed("vlm_threads_print_prometheus", self._counters())
