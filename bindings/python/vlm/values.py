"""What a program gives to a lock manager, and what it is told."""

from dataclasses import dataclass
from enum import IntEnum, IntFlag
from typing import Optional, Union

from . import _library as raw


class Condition(IntEnum):
    """A condition value: an answer, or the status in a status block."""

    NORMAL = 1
    SYNCH = 2
    NOTQUEUED = 3
    ABORT = 4
    CANCEL = 5
    DEADLOCK = 6
    VALNOTVALID = 7
    CANCELGRANT = 8
    SUBLOCKS = 9
    IVLOCKID = 10
    CVTUNGRANT = 11
    PARNOTGRANT = 12
    EXDEPTH = 13
    EXENQLM = 14
    NOLOCKID = 15
    INSFMEM = 16
    IVBUFLEN = 17
    BADPARAM = 18
    UNSUPPORTED = 19
    NOSYSLCK = 20
    ACCVIO = 21
    NONEXPR = 22
    DEPARTED = 23
    WIDENOTVALID = 24

    @property
    def manual_name(self) -> str:
        """Its name in the manual, such as SS$_DEADLOCK, or the plain one of this project's own."""
        return str(raw.LIBRARY.vlm_condition_name(self).decode())


class Mode(IntEnum):
    """The mode of a lock, from weak to strong."""

    NL = 0
    CR = 1
    CW = 2
    PR = 3
    PW = 4
    EX = 5


class Queue(IntEnum):
    """A queue of a resource."""

    GRANTED = 0
    CONVERSION = 1
    WAITING = 2


class AstKind(IntEnum):
    """Why an AST was queued: a request has ended, or a lock is in the way."""

    COMPLETION = 1
    BLOCKING = 2


class Flags(IntFlag):
    """Flags of enq and convert."""

    NONE = 0
    VALBLK = 1
    NOQUEUE = 2
    SYNCSTS = 4
    SYSTEM = 8
    EXPEDITE = 16
    QUECVT = 32
    NODLCKWT = 64
    NODLCKBLK = 128
    WIDE = 256


class DequeueFlags(IntFlag):
    """Flags of deq."""

    NONE = 0
    DEQALL = 1
    CANCEL = 2
    INVVALBLK = 4


@dataclass(frozen=True)
class InBlock:
    """Names the lock whose ID is in this status block of the caller."""

    block: int


@dataclass(frozen=True)
class Accepted:
    """An accepted request. It may wait: its status block tells."""

    lock: int
    # With SYNCSTS: whether the request was granted at once (SYNCH).
    at_once: bool


@dataclass(frozen=True)
class Ast:
    """An AST that was taken. The request gave `routine` and `param`."""

    kind: AstKind
    routine: int
    param: int
    lock: int


@dataclass(frozen=True)
class Event:
    """What a routine of the layer for threads is told."""

    # Why: a request has ended, or a lock is in the way.
    kind: AstKind
    pid: int
    # The lock. It may have gone since.
    lock: int
    # Of a completion: how the request ended.
    status: Optional[Condition]
    # Of a completion: the value block that the grant returned, and with WIDE its tail.
    value: Optional[bytes]
    tail: Optional[bytes]
    # Of a warning: the mode that the first request wants that the lock is in the way of, if there still is one.
    wanted: Optional[Mode]


@dataclass(frozen=True)
class StatusBlock:
    """A status block."""

    # None while a request is pending, and before the first.
    status: Optional[Condition]
    # The lock of the last accepted request, or None.
    lock: Optional[int]
    value: bytes
    tail: bytes


@dataclass(frozen=True)
class ProcessView:
    """A living process, as the lock manager shows it."""

    pid: int
    node: int
    group: int
    syslck: bool
    quota: int
    blocks: int
    # How many ASTs are pending for it.
    pending: int
    # How many locks it has, waiting ones included.
    locks: int


@dataclass(frozen=True)
class Resource:
    """A resource, without its queues."""

    # Counts the resources from 1, in the order in which they were made.
    serial: int
    # The serial of the parent resource, or None for a root.
    parent: Optional[int]
    # The UIC group, or None in the domain of the system.
    group: Optional[int]
    name: bytes
    value: bytes
    value_valid: bool
    tail: bytes
    tail_valid: bool


@dataclass(frozen=True)
class LockView:
    """A lock with its place, as the system service $GETLKI tells of it."""

    lock: int
    pid: int
    # The mode that it holds, or None while it waits.
    held: Optional[Mode]
    # The mode that its queued request wants, or None while it is granted.
    want: Optional[Mode]
    queue: Queue
    # The serial of its resource.
    resource: int
    # Its parent lock, or None on a root.
    parent: Optional[int]
    # The status block of its last accepted request.
    block: int


# A resource name; a str is encoded as UTF-8.
Name = Union[str, bytes]
# A lock, by its ID or by a status block.
Which = Union[int, InBlock]
