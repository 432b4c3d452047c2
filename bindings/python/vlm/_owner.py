"""What owns a handle of the library."""

import threading
import weakref
from types import TracebackType
from typing import Any, Callable, Optional, Type, TypeVar

from . import _library as raw
from .errors import ClosedError

_T = TypeVar("_T", bound="Closing")


class Closing:
    """Leaving a `with` block closes it."""

    def close(self) -> None:
        raise NotImplementedError

    def __enter__(self: _T) -> _T:
        return self

    def __exit__(self, kind: Optional[Type[BaseException]], error: Optional[BaseException],
                 trace: Optional[TracebackType]) -> None:
        self.close()


class Owner(Closing):
    """Owns a handle. Each call takes its mutex."""

    def __init__(self, close: str) -> None:
        # (without the library nothing is made, and nothing is to be closed)
        handle, call = raw.Handle(), getattr(raw.LIBRARY, close)
        self._own(handle, lambda: call(handle))

    def _own(self, handle: raw.Handle, close: Callable[[], object]) -> None:
        self._handle, self._mutex = handle, threading.RLock()
        self._closing = weakref.finalize(self, close)
        # At the end of the program a thread may still be in a call, so nothing is freed then.
        self._closing.atexit = False

    def __repr__(self) -> str:
        return f"<{type(self).__name__}{', closed' if self.is_closed else self._told()}>"

    def _told(self) -> str:
        """What a repr tells of it while it is open."""
        return ""

    def _call(self, name: str, *arguments: Any) -> int:
        with self._mutex:
            if not self._closing.alive:
                raise ClosedError
            answer: int = getattr(raw.LIBRARY, name)(self._handle, *arguments)
            return answer

    def close(self) -> None:
        """Frees it. A second call does nothing. After it calls raise ClosedError."""
        with self._mutex:
            self._closing()

    @property
    def is_closed(self) -> bool:
        """Whether `close` was called."""
        return not self._closing.alive
