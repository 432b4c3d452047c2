"""What the layer for threads calls: it knows each callable by a number, until it releases that number."""

from ctypes import c_size_t, c_void_p, pointer, string_at
from itertools import count
from typing import Any, Callable, Dict, Optional

from . import _library as raw
from ._arguments import need_routines
from .values import AstKind, Condition, Event, Mode

Call = Callable[[Event], object]


class Context:
    """The callables of a request."""

    def __init__(self, completion: Optional[Call], blocking: Optional[Call],
                 released: Optional[Callable[[], object]] = None) -> None:
        need_routines(completion, blocking)
        self.completion, self.blocking, self.released = completion, blocking, released


# The contexts of all layers, and hooks and readers. A number is used once.
_kept: Dict[int, Any] = {}
_numbers = count(1)
# No function.
_NONE = raw.ROUTINE()


def keep(context: Any) -> int:
    """The number of a context from now on."""
    number = next(_numbers)
    _kept[number] = context
    return number


def replace(number: int, context: Any) -> None:
    """Gives a number another context."""
    _kept[number] = context


def forget(number: int) -> None:
    _kept.pop(number, None)


def give(context: Context, words: raw.Sized) -> int:
    """Writes the callables of a request into its words, and returns their number."""
    number = keep(context)
    words.completion_context = words.blocking_context = number
    words.completion = _completed if context.completion is not None else _NONE
    words.blocking = _blocked if context.blocking is not None else _NONE
    words.released = _released
    return number


def event_of(words: raw.Sized) -> Event:
    kind, length = AstKind(words.kind), words.value_len
    value = bytes(words.value)
    return Event(kind, words.pid, words.lkid, Condition(words.status) if words.status else None,
                 value[:16] if length else None, value[16:] if length == 64 else None,
                 None if words.wanted == 255 else Mode(words.wanted))


# (an exception of a callable goes to sys.unraisablehook)

def _complete(number: int, event: Any) -> None:
    _kept[number].completion(event_of(event.contents))


def _block(number: int, event: Any) -> None:
    _kept[number].blocking(event_of(event.contents))


def _release(number: int, _number: int) -> None:
    released = _kept.pop(number).released
    if released is not None:
        released()


_completed, _blocked, _released = raw.ROUTINE(_complete), raw.ROUTINE(_block), raw.RELEASED(_release)
told_deadlock = raw.DEADLOCK_HOOK(lambda number, words: _kept[number].deadlock(words.contents))
told_wait = raw.WAIT_HOOK(lambda number, words: _kept[number].long_wait(words.contents))
read = raw.READER(lambda number, handle: _kept[number](handle.contents))


def printed(call: str, words: raw.Sized) -> str:
    """What a call of the library prints of a struct to a stream."""
    text, length = c_void_p(), c_size_t()
    raw.C.open_memstream.restype = c_void_p
    stream = c_void_p(raw.C.open_memstream(pointer(text), pointer(length)))
    getattr(raw.LIBRARY, call)(words, stream)
    raw.C.fclose(stream)
    told = string_at(text.value or 0, length.value).decode(errors="replace")
    raw.C.free(text)
    return told
