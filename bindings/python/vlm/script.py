"""Reads and runs the lines of a script, and prints what `vlm play` prints: the manual page vlm(1) has the language.
The library's proved `vlm_read_line` reads a line, and its `vlm_print` calls print; nothing else is proved.

    with LockManager() as manager:
        for text in play(manager, script):
            print(text, end="")

A `Session` runs line by line. Its parts can be used alone: `read_line` reads a line, `Names` binds its NAME to a
process, and `make` makes its step for the process of an ID. Managers that make the same steps in the same order give
the same answers.
"""

from dataclasses import dataclass
from typing import Any, Callable, Dict, Iterator, Optional

from ._lines import (LONGEST_LINE, LONGEST_SCRIPT, STEPS, VIEWS, Convert, Declare, Deq, Enq, Fault, Leave, Line,
                     LineFault, Rundown, Search, SetValue, Show, ShowBlock, ShowTail, ShowTails, Step, Take, View,
                     lines_of, read_line)
from . import _library as raw
from .errors import VlmError
from .manager import LockManager
from .process import Process
from .values import Accepted, Ast, Condition

__all__ = ["LONGEST_LINE", "LONGEST_SCRIPT", "Convert", "Declare", "Deq", "Enq", "Fault", "Leave", "Line",
           "LineFault", "Names", "Outcome", "Ran", "Rundown", "ScriptFault", "Search", "Session", "SetValue", "Show",
           "ShowBlock", "ShowTail", "ShowTails", "Step", "Take", "View", "ast_text", "lines_of", "make", "name_text",
           "play", "printed", "read_line", "show_lines", "shown", "tails_lines"]


@dataclass(frozen=True)
class Outcome:
    """The answer to a step. A refusal has its condition alone."""

    condition: Condition
    # The process of a declaration, the lock of a request, or the victim's lock of a search; else 0.
    number: int = 0
    # The AST that a take gave.
    ast: Optional[Ast] = None

    @property
    def is_refusal(self) -> bool:
        return self.condition not in (Condition.NORMAL, Condition.SYNCH)


@dataclass(frozen=True)
class Ran:
    """What a line did: its printed text, with line feeds, and the answer to its step, if it makes one."""

    text: str
    outcome: Optional[Outcome] = None


class Names:
    """The names that accepted declarations have bound, each to the ID of its process."""

    def __init__(self) -> None:
        self.pids: Dict[str, int] = {}

    def pid_of(self, line: Line) -> int:
        """The process of a line, or 0 for a declaration and for a line without a NAME. Raises LineFault for an unknown
        name, and in a declaration for a used one."""
        is_bound = line.name in self.pids
        if isinstance(line.does, Declare):
            if is_bound:
                raise LineFault(Fault.NAME_USED)
            return 0
        if line.name is None:
            return 0
        if not is_bound:
            raise LineFault(Fault.UNKNOWN_NAME)
        return self.pids[line.name]

    def learn(self, line: Line, outcome: Outcome) -> None:
        """Binds the name of an accepted declaration. A name stays bound after its process has ended."""
        if isinstance(line.does, Declare) and not outcome.is_refusal:
            self.pids[str(line.name)] = outcome.number


class Session:
    """A run of a script on a lock manager, line by line."""

    def __init__(self, manager: LockManager) -> None:
        self.manager = manager
        self.names = Names()

    def run(self, line: bytes) -> str:
        """Runs a line, and returns what it prints. A line with a fault raises LineFault, and does nothing."""
        read = read_line(line)
        return "" if read is None else self.run_read(read).text

    def run_read(self, line: Line) -> Ran:
        """Runs a line that was read."""
        pid = self.names.pid_of(line)
        if not isinstance(line.does, STEPS):
            return Ran(shown(self.manager, pid, line))
        outcome = make(self.manager, pid, line.does)
        self.names.learn(line, outcome)
        return Ran(printed(line, outcome), outcome)


class ScriptFault(ValueError):
    """A line of a script has a fault. Its text is what `vlm play` writes to standard error."""

    def __init__(self, number: int, fault: Fault) -> None:
        super().__init__(number, fault)
        self.number, self.fault = number, fault

    def __str__(self) -> str:
        return f"line {self.number}: {self.fault.value}"


def play(manager: LockManager, script: bytes) -> Iterator[str]:
    """Runs a script, and yields what each line prints. Raises ScriptFault at the first line with a fault."""
    session = Session(manager)
    for number, line in enumerate(lines_of(script), 1):
        try:
            text = session.run(line)
        except LineFault as failed:
            raise ScriptFault(number, failed.fault) from None
        yield text


def make(manager: LockManager, pid: int, step: Step) -> Outcome:
    """Makes a step of this process. A step of a node or a declaration has none, and `pid` does not matter."""
    try:
        return _MAKERS[type(step)](Process(manager, pid), step)
    except VlmError as refusal:
        return Outcome(refusal.condition)


def _declare(process: Process, step: Declare) -> Outcome:
    made = process.manager.declare(step.node, group=step.group, quota=step.quota, blocks=step.blocks,
                                   syslck=step.syslck)
    return Outcome(Condition.NORMAL, made.pid)


def _enq(process: Process, step: Enq) -> Outcome:
    return _accepted(process.enq(step.name, step.mode, step.block, step.flags, parent=step.parent or None,
                                 completion=step.ast, blocking=step.bast, param=step.param))


def _convert(process: Process, step: Convert) -> Outcome:
    return _accepted(process.convert(step.lock, step.mode, step.block, step.flags, completion=step.ast,
                                     blocking=step.bast, param=step.param))


def _accepted(request: Accepted) -> Outcome:
    return Outcome(Condition.SYNCH if request.at_once else Condition.NORMAL, request.lock)


def _deq(process: Process, step: Deq) -> Outcome:
    process.deq(step.lock, step.flags, value=step.value, tail=step.tail)
    return Outcome(Condition.NORMAL)


def _set_value(process: Process, step: SetValue) -> Outcome:
    process.set_value(step.block, step.value, step.tail)
    return Outcome(Condition.NORMAL)


def _rundown(process: Process, _step: Rundown) -> Outcome:
    process.rundown()
    return Outcome(Condition.NORMAL)


def _leave(process: Process, step: Leave) -> Outcome:
    process.manager.leave(step.node)
    return Outcome(Condition.NORMAL)


def _search(process: Process, step: Search) -> Outcome:
    return Outcome(Condition.NORMAL, process.manager.search(step.node) or 0)


def _take(process: Process, _step: Take) -> Outcome:
    return Outcome(Condition.NORMAL, ast=process.take())


_MAKERS: Dict[type, Callable[[Process, Any], Outcome]] = {
    Declare: _declare, Enq: _enq, Convert: _convert, Deq: _deq, SetValue: _set_value, Rundown: _rundown, Leave: _leave,
    Search: _search, Take: _take}


_KINDS = {it: kind for kind, it in enumerate((*STEPS, *VIEWS), 1)}


def _line_words(line: Line) -> raw.Sized:
    """The words of a line, as far as a text needs them."""
    name, does = (line.name or "").encode(), line.does
    number = does.node if isinstance(does, (Leave, Search)) else getattr(does, "number", 0)
    words = raw.Line(kind=_KINDS[type(does)], name_len=len(name), number=number)
    words.name[:len(name)] = name
    return words


def _told(text: raw.Sized) -> str:
    """The line that the library has printed, with its line feed."""
    return bytes(text.bytes)[:text.len].decode("ascii")


def printed(line: Line, outcome: Outcome) -> str:
    """What a line prints for the answer to its step."""
    words, text, ast = _line_words(line), raw.Text(), outcome.ast
    if isinstance(line.does, Take):
        taken = raw.Ast()
        if ast is not None:
            taken = raw.Ast(kind=ast.kind, routine=ast.routine, param=ast.param, lkid=ast.lock)
        raw.LIBRARY.vlm_print_ast(words, outcome.condition, taken, text)
    else:
        raw.LIBRARY.vlm_print_answer(words, outcome.condition, outcome.number, text)
    return _told(text)


def ast_text(ast: Optional[Ast]) -> str:
    """An AST that was taken, or that none was pending, as a line prints it after the name."""
    return printed(Line("P", Take()), Outcome(Condition.NORMAL, ast=ast))[len("P: "):-1]


def name_text(name: bytes) -> str:
    """The name of a resource: as it is, if a script can have it as a word, else in hexadecimal digits."""
    is_word = all(33 <= byte <= 126 for byte in name) and not name.startswith(b"x:")
    return name.decode("ascii") if is_word else "x:" + name.hex()


def shown(manager: LockManager, pid: int, line: Line) -> str:
    """What a line without a step prints. `pid` is its process, if it names one."""
    if isinstance(line.does, (Show, ShowTails)):
        return "".join(show_lines(manager) if isinstance(line.does, Show) else tails_lines(manager))
    call, text = "vlm_print_block" if isinstance(line.does, ShowBlock) else "vlm_print_tail", raw.Text()
    manager._call(call, pid, _line_words(line), text)
    return _told(text)


def show_lines(manager: LockManager) -> Iterator[str]:
    """What `show` prints: every resource, with the locks in its queues."""
    def lines(resource: raw.Sized) -> Iterator[str]:
        text = raw.Text()
        manager._call("vlm_print_resource", resource, text)
        yield _told(text)
        for queue in range(3):
            for lock in manager._lock_words("vlm_first_row", "vlm_next_row", resource, queue):
                raw.LIBRARY.vlm_print_lock(lock, text)
                yield _told(text)

    return _of_resources(manager, lines)


def tails_lines(manager: LockManager) -> Iterator[str]:
    """What `tails` prints: the tail of every resource's value block."""
    def lines(resource: raw.Sized) -> Iterator[str]:
        text = raw.Text()
        manager._call("vlm_print_resource_tail", resource, text)
        yield _told(text)

    return _of_resources(manager, lines)


def _of_resources(manager: LockManager, lines: Callable[[raw.Sized], Iterator[str]]) -> Iterator[str]:
    """The lines of each resource."""
    is_there = False
    for resource in manager._walk_resources():
        is_there = True
        yield from lines(resource)
    if not is_there:
        yield "no resources\n"
