"""Locks that are held, for `with`."""

from contextlib import suppress
from types import TracebackType
from typing import TYPE_CHECKING, Any, Optional, Type, TypeVar

from . import _library as raw
from ._arguments import flags_word, part, word
from ._asks import GRANTS, Asked
from ._contexts import Call
from .errors import ClosedError, DepartedError, LostError, NonExprError, VlmError, error_of
from .values import Condition, Flags, Mode

if TYPE_CHECKING:
    from .clients import Client

_VALUE_FLAGS = int(Flags.VALBLK | Flags.WIDE)
_T = TypeVar("_T", bound="HeldLock")


class HeldLock:
    """A held lock with its value block."""

    def __init__(self, owner: Any, mode: Mode, granted: Any) -> None:
        """The owner is the process. `granted` is the request that was granted: its words, and the 64 bytes of its value
        block."""
        self._owner = owner
        self.lock: int = granted.words.lkid
        self.mode = Mode(mode)
        self._is_held = True
        # The last request whose grant returned the value block.
        self._granted = granted
        # What is to be written into the value block.
        self._value: Optional[bytes] = None
        self._tail: Optional[bytes] = None

    @property
    def value(self) -> bytes:
        """The 16 bytes of the value block at the last grant that returned it."""
        return bytes(self._granted.value[:16])

    @property
    def tail(self) -> Optional[bytes]:
        """The other 48 bytes, or None if that request had no flag WIDE."""
        return bytes(self._granted.value[16:]) if self._granted.words.flags & Flags.WIDE else None

    @property
    def is_valid(self) -> bool:
        """Whether the value was valid. It is not after its last writer ended without giving its lock up."""
        return bool(self._granted.words.status != Condition.VALNOTVALID)

    @property
    def is_tail_valid(self) -> bool:
        """Whether there is a tail, and it was valid."""
        return self.tail is not None and self._granted.words.status == Condition.NORMAL

    def write(self, value: bytes, tail: Optional[bytes] = None) -> None:
        """Names what is written into the value block when the lock is given up, or goes to a weaker mode. At modes
        below PW nothing is written."""
        self._value = part(value, 16, "the value")
        self._tail = None if tail is None else part(tail, 48, "the tail")

    def _is_read_by(self, mode: Mode) -> bool:
        """Whether a conversion to a mode returns the value block with VALBLK. Others write it, or do neither."""
        return mode >= self.mode and self.mode < Mode.PW or (self.mode, mode) == (Mode.PW, Mode.EX)

    def _is_written_by(self, mode: Mode) -> bool:
        """Whether a conversion to a mode writes the value that was named."""
        return not self._is_read_by(mode) and self.mode >= Mode.PW and self._value is not None

    def _flags_to(self, mode: Mode, flags: Flags) -> int:
        """The flags of a conversion, by which it returns the value block, or writes the value that was named."""
        given = flags_word(flags)
        if self._is_read_by(mode):
            return given | Flags.VALBLK
        if not self._is_written_by(mode):
            return given & ~_VALUE_FLAGS
        return given & ~_VALUE_FLAGS | (Flags.VALBLK if self._tail is None else _VALUE_FLAGS)

    def _hold(self, mode: Mode, granted: Any) -> None:
        """A request for another mode was granted."""
        if self._is_read_by(mode):
            self._granted = granted
        elif self._is_written_by(mode):
            self._value = self._tail = None
        self.mode = Mode(mode)

    def _written(self) -> bytes:
        """The 64 bytes of what is to be written."""
        return (self._value or bytes(16)) + (self._tail or bytes(48))

    def release(self) -> None:
        """Gives the lock up, and writes the value that was named. A second call does nothing."""
        if self._is_held:
            self._owner.deq(self.lock, value=self._value, tail=self._tail)
            self._is_held = False

    def __enter__(self: _T) -> _T:
        return self

    def __exit__(self, kind: Optional[Type[BaseException]], error: Optional[BaseException],
                 trace: Optional[TracebackType]) -> None:
        """Gives the lock up. After an exception it writes nothing, and raises no other one. A lock that went with its
        process is no error, and one that is lost is."""
        silenced = (VlmError, LostError) if kind is not None else ()
        try:
            if kind is not None:
                self._value = self._tail = None
            with suppress(NonExprError, DepartedError, ClosedError, *silenced):
                self.release()
        except BaseException:
            # (Ctrl-C may have come before the lock was given up)
            with suppress(VlmError, LostError, ClosedError):
                self.release()
            raise


class Held(HeldLock):
    """A lock that `Client.lock` was granted. Leaving its `with` block gives it up."""

    def __init__(self, client: "Client", mode: Mode, asked: Asked) -> None:
        super().__init__(client, mode, asked)
        self.client = client
        self._blocking = asked.blocking

    def __repr__(self) -> str:
        return f"<Held lock {self.lock} of {self.client} at {self.mode.name}{'' if self._is_held else ', given up'}>"

    def convert(self, mode: Mode, timeout: Optional[float] = None, *, flags: Flags = Flags.NONE,
                blocking: Optional[Call] = None) -> None:
        """Asks for another mode and waits for the grant. If it fails, the lock holds what it held. After Ctrl-C it
        holds the new mode if that was granted by then. Without another blocking routine the old one stays: the grant
        arms it again."""
        asked = self._conversion(mode, flags, blocking)
        try:
            status = asked.wait(timeout)
        except BaseException:
            if asked.words.status in GRANTS:
                self._converted(mode, asked, Condition.NORMAL)
            raise
        self._converted(mode, asked, status)

    async def convert_async(self, mode: Mode, *, flags: Flags = Flags.NONE, blocking: Optional[Call] = None) -> None:
        """The same for asyncio. A task that is cancelled leaves nothing queued. If the conversion was granted by then,
        the lock holds the new mode, and `value` does not change."""
        import asyncio
        asked = self._conversion(mode, flags, blocking)
        ended = asked.start_in_task()
        try:
            status = asked.end(await asyncio.shield(ended))
        except BaseException:
            if not asked.cancel():
                self._read_mode(mode, asked)
            raise
        self._converted(mode, asked, status)

    def _conversion(self, mode: Mode, flags: Flags, blocking: Optional[Call]) -> Asked:
        words = raw.ThreadsRequest(pid=self.client.pid, mode=word(mode, "mode"), lock=self.lock,
                                   flags=self._flags_to(mode, flags))
        asked = Asked(self.client, words, None, self._blocking if blocking is None else blocking)
        if self._is_written_by(mode):
            asked.value[:] = self._written()
        return asked

    def _converted(self, mode: Mode, asked: Asked, status: int) -> None:
        """The request for another mode has ended so."""
        if status != Condition.NORMAL:
            raise error_of(status)
        self._hold(mode, asked)
        self._blocking = asked.blocking

    def _read_mode(self, mode: Mode, asked: Asked) -> None:
        """Looks whether a request for another mode was granted whose end is not told yet."""
        with suppress(ClosedError):
            view = self.client.shared.look(lambda manager: manager.find_lock(self.lock))
            if view is not None and view.held == mode != self.mode:
                if self._is_written_by(mode):
                    self._value = self._tail = None
                self.mode, self._blocking = Mode(mode), asked.blocking
