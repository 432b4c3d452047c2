"""The exceptions: VlmError, with a subclass for each condition by which a call or a request can fail."""

from typing import ClassVar, Dict, Optional, Type

from . import _library as raw
from .values import Condition


class VlmError(Exception):
    """A call was refused, or a request ended without a grant. `condition` says why."""

    condition: ClassVar[Condition]
    # The subclass of each condition.
    by_condition: ClassVar[Dict[Condition, Type["VlmError"]]] = {}

    def __init_subclass__(cls, condition: Optional[Condition] = None) -> None:
        if condition is not None:
            cls.condition = condition
            cls.by_condition[condition] = cls

    def __str__(self) -> str:
        return f"{self.condition.name}: {self.__doc__ or ''}"


class TimedOutError(TimeoutError):
    """A wait for a grant took too long. The request was cancelled."""


class ClosedError(ValueError):
    """The lock manager, hub or port is closed."""


class LostError(ConnectionError):
    """The lock service or the session has ended: its locks are gone. A new session holds nothing."""


class FullError(Exception):
    """The port knows no free place, and nothing was posted. Take items, and post again."""


class NotQueuedError(VlmError, condition=Condition.NOTQUEUED):
    """With NOQUEUE, the request cannot be granted at once."""


class AbortError(VlmError, condition=Condition.ABORT):
    """The lock was given up while its request was queued."""


class CancelError(VlmError, condition=Condition.CANCEL):
    """The conversion was cancelled."""


class DeadlockError(VlmError, condition=Condition.DEADLOCK):
    """The request was the victim of a search for a deadlock."""


class CancelGrantError(VlmError, condition=Condition.CANCELGRANT):
    """The lock is granted: there is no request to cancel."""


class SubLocksError(VlmError, condition=Condition.SUBLOCKS):
    """The lock has sublocks."""


class IvLockIdError(VlmError, condition=Condition.IVLOCKID):
    """No lock of the process has this ID."""


class CvtUngrantError(VlmError, condition=Condition.CVTUNGRANT):
    """The lock waits or converts already."""


class ParNotGrantError(VlmError, condition=Condition.PARNOTGRANT):
    """The parent lock waits."""


class ExDepthError(VlmError, condition=Condition.EXDEPTH):
    """The parent lock's resource is at the lowest level."""


class ExEnqLmError(VlmError, condition=Condition.EXENQLM):
    """The process has as many locks as its quota."""


class NoLockIdError(VlmError, condition=Condition.NOLOCKID):
    """The numbers of locks or requests are used up."""


class InsfMemError(VlmError, condition=Condition.INSFMEM):
    """Memory was refused."""


class TurnEndedError(InsfMemError):
    """The journal got no more memory after `made` entries of a turn. No post is lost, and another turn may go on."""

    def __init__(self, made: int) -> None:
        super().__init__(made)
        self.made = made


class IvBufLenError(VlmError, condition=Condition.IVBUFLEN):
    """The name has no byte, or more than 31."""


class BadParamError(VlmError, condition=Condition.BADPARAM):
    """An argument is malformed, or there is no such thing."""


class UnsupportedError(VlmError, condition=Condition.UNSUPPORTED):
    """EXPEDITE goes with mode NL alone."""


class NoSysLckError(VlmError, condition=Condition.NOSYSLCK):
    """The process lacks the privilege SYSLCK."""


class AccVioError(VlmError, condition=Condition.ACCVIO):
    """The process has no such status block."""


class NonExprError(VlmError, condition=Condition.NONEXPR):
    """No living process has this ID."""


class DepartedError(VlmError, condition=Condition.DEPARTED):
    """The node has departed."""


_SUCCESSES = {it.value: it for it in (Condition.NORMAL, Condition.SYNCH)}
_OTHERS = {raw.TIMEOUT: TimedOutError, raw.LOST: LostError, raw.FULL: FullError}


def error_of(status: int) -> Exception:
    """The exception of an answer that is not a success."""
    if status in _OTHERS:
        return _OTHERS[status]()
    return VlmError.by_condition[Condition(status)]()


def checked(status: int) -> Condition:
    """The condition of an answer. Raises its exception if it is a refusal."""
    condition = _SUCCESSES.get(status)
    if condition is None:
        raise error_of(status)
    return condition
