"""The lines of a script: the manual page vlm(1) has the language and its faults. The library reads them."""

from ctypes import byref
from dataclasses import dataclass
from enum import Enum
from typing import Any, Callable, Dict, List, Optional, Tuple, Union

from . import _library as raw
from .values import DequeueFlags, Flags, InBlock, Mode, Which

# The longest script and the longest line, in bytes. A line feed is no part of its line.
LONGEST_SCRIPT, LONGEST_LINE = 16_777_216, 255


class Fault(Enum):
    """A fault of a line, with its text."""

    TOO_LONG = "too long"
    UNKNOWN_COMMAND = "unknown command"
    WRONG_WORD = "wrong word"
    NUMBER_OUT_OF_RANGE = "number out of range"
    UNKNOWN_NAME = "unknown name"
    NAME_USED = "name used"


class LineFault(ValueError):
    """A line has a fault. Its text is that of the fault."""

    def __init__(self, fault: Fault) -> None:
        super().__init__(fault)
        self.fault = fault

    def __str__(self) -> str:
        return str(self.fault.value)


# The steps, by their names in docs/MACHINE.md. A field is the word of the line with the same key, or the word in its
# place. A field with a default is a word that may be missing. InBlock(0) is the lock `@0`.

@dataclass(frozen=True)
class Declare:
    """Declares a process."""

    node: int
    group: int
    quota: int
    blocks: int
    syslck: bool = False


@dataclass(frozen=True)
class Enq:
    """Asks for a new lock on the resource `name`. Parent 0 is no parent."""

    mode: Mode
    name: bytes
    block: int
    parent: Which = 0
    ast: Optional[int] = None
    bast: Optional[int] = None
    param: int = 0
    flags: Flags = Flags.NONE


@dataclass(frozen=True)
class Convert:
    """Asks for another mode of a lock (`cvt`)."""

    lock: Which
    mode: Mode
    block: int
    ast: Optional[int] = None
    bast: Optional[int] = None
    param: int = 0
    flags: Flags = Flags.NONE


@dataclass(frozen=True)
class Deq:
    """Gives locks up, or cancels a request."""

    lock: Which
    value: Optional[bytes] = None
    tail: Optional[bytes] = None
    flags: DequeueFlags = DequeueFlags.NONE


@dataclass(frozen=True)
class SetValue:
    """Sets the value part of a status block, and its tail if one is given (`set`)."""

    block: int
    value: bytes
    tail: Optional[bytes] = None


@dataclass(frozen=True)
class Rundown:
    """Ends a process (`end`)."""


@dataclass(frozen=True)
class Leave:
    """A node departs."""

    node: int


@dataclass(frozen=True)
class Search:
    """A node searches for a deadlock."""

    node: int


@dataclass(frozen=True)
class Take:
    """Takes the oldest pending AST (`ast`)."""


# The lines that make no step: they print what is there.

@dataclass(frozen=True)
class ShowBlock:
    """Prints a status block (`block`)."""

    number: int


@dataclass(frozen=True)
class ShowTail:
    """Prints the tail of a status block (`tail`)."""

    number: int


@dataclass(frozen=True)
class Show:
    """Prints every resource with its queues."""


@dataclass(frozen=True)
class ShowTails:
    """Prints the tail of every resource's value block (`tails`)."""


Step = Union[Declare, SetValue, Enq, Convert, Deq, Rundown, Leave, Search, Take]
View = Union[ShowBlock, ShowTail, Show, ShowTails]
# The steps and views by the numbers of their lines, from 1.
STEPS = (Declare, SetValue, Enq, Convert, Deq, Rundown, Leave, Search, Take)
VIEWS = (ShowBlock, ShowTail, Show, ShowTails)


@dataclass(frozen=True)
class Line:
    """A line that does something: the step that it makes, or what it shows."""

    # The NAME of its process; None in `leave`, `search`, `show` and `tails`.
    name: Optional[str]
    does: Union[Step, View]


def lines_of(script: bytes) -> List[bytes]:
    """The lines of a script, without their line feeds. Raises ValueError if it has more than LONGEST_SCRIPT bytes."""
    if len(script) > LONGEST_SCRIPT:
        raise ValueError("script too long")
    lines = script.split(b"\n")
    return lines if lines[-1] else lines[:-1]


def read_line(line: bytes) -> Optional[Line]:
    """Reads a line. None is a blank line or a comment. Raises LineFault with the first fault, except those of names. A
    resource's name of no bytes or of more than 31 is read as one of no bytes, which `enq` refuses."""
    words = raw.Line()
    raw.LIBRARY.vlm_read_line(line, len(line), byref(words))
    if words.fault:
        raise LineFault(_FAULTS[words.fault])
    if words.kind == 0:
        return None
    # (a later library may read commands that this package does not know)
    if words.kind not in _READERS:
        raise LineFault(Fault.UNKNOWN_COMMAND)
    name = bytes(words.name[:words.name_len]).decode("ascii") or None
    return Line(name, _READERS[words.kind](words))


# The faults that a line alone can have, by their numbers.
_FAULTS = dict(enumerate((Fault.TOO_LONG, Fault.UNKNOWN_COMMAND, Fault.WRONG_WORD, Fault.NUMBER_OUT_OF_RANGE), 1))


def _which(words: raw.Sized) -> Which:
    return InBlock(words.lock) if words.lock_kind else int(words.lock)


def _given(mark: int, value: Any) -> Any:
    """The value, or None where the line has none."""
    if not mark:
        return None
    return value if isinstance(value, int) else bytes(value)


def _routines(request: raw.Sized) -> Tuple[Optional[int], Optional[int], int, Flags]:
    """The last fields of a request."""
    return (_given(request.has_ast, request.ast), _given(request.has_bast, request.bast), request.param,
            Flags(request.flags))


def _declare(words: raw.Sized) -> Declare:
    told = words.declaration
    return Declare(told.node, told.group, told.quota, told.blocks, bool(told.syslck))


def _set_value(words: raw.Sized) -> SetValue:
    told = words.setting
    return SetValue(told.block, bytes(told.value), _given(told.has_tail, told.tail))


def _enq(words: raw.Sized) -> Enq:
    told = words.request
    return Enq(Mode(told.mode), bytes(words.resource[:words.resource_len]), told.block, _which(told), *_routines(told))


def _convert(words: raw.Sized) -> Convert:
    told = words.request
    return Convert(_which(told), Mode(told.mode), told.block, *_routines(told))


def _deq(words: raw.Sized) -> Deq:
    told = words.dequeue
    return Deq(_which(told), _given(told.has_value, told.value), _given(told.has_tail, told.tail),
               DequeueFlags(told.flags))


# What reads the struct of a line, by the kind of the line.
_READERS: Dict[int, Callable[[raw.Sized], Union[Step, View]]] = {
    1: _declare, 2: _set_value, 3: _enq, 4: _convert, 5: _deq, 6: lambda _: Rundown(),
    7: lambda words: Leave(words.number), 8: lambda words: Search(words.number), 9: lambda _: Take(),
    10: lambda words: ShowBlock(words.number), 11: lambda words: ShowTail(words.number), 12: lambda _: Show(),
    13: lambda _: ShowTails(),
}
