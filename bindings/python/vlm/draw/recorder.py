"""Runs a script, and records what each line did."""

from dataclasses import dataclass
from itertools import islice
from typing import Iterator, List, Optional, Tuple

from ..manager import LockManager
from ..script import (Line, LineFault, Ran, ScriptFault, Search, Session, Show, ShowTails, lines_of, read_line,
                      show_lines, tails_lines)
from .state import Change, State
from .tracer import Tracer
from .waits import Cycle, cycle_of

# The most lines of what `show` and `tails` print that a record has.
MOST_PRINTED = 40


@dataclass(frozen=True)
class Record:
    """A line of the script, and what it did."""

    number: int
    # The line as it can be shown.
    text: str
    # Whether it does something: a blank line or a comment does not.
    is_run: bool
    printed: str = ""
    changes: Tuple[Change, ...] = ()
    # What a search found.
    cycle: Optional[Cycle] = None


class Recorder:
    """Runs the lines of a script. `state` is what is there after the last line."""

    def __init__(self) -> None:
        self.manager = LockManager()
        self._session = Session(self.manager)
        self._tracer = Tracer(self.manager)

    @property
    def state(self) -> State:
        return self._tracer.state

    def __enter__(self) -> "Recorder":
        return self

    def __exit__(self, *_error: object) -> None:
        self._tracer.close()
        self.manager.close()

    def run(self, script: bytes) -> Tuple[List[Record], Optional[str]]:
        """The records of a script up to its first fault, and the text of that fault."""
        records: List[Record] = []
        try:
            records.extend(self.records(script))
        except ScriptFault as fault:
            return records, str(fault)
        return records, None

    def records(self, script: bytes) -> Iterator[Record]:
        """The record of each line. Raises ScriptFault at the first line with a fault."""
        for number, line in enumerate(lines_of(script), 1):
            try:
                record = self._record(number, line)
            except LineFault as failed:
                raise ScriptFault(number, failed.fault) from None
            yield record

    def _record(self, number: int, line: bytes) -> Record:
        read, text = read_line(line), shown_line(line)
        if read is None:
            return Record(number, text, False)
        pid = self._session.names.pid_of(read)
        cycle = self._cycle(read.does) if isinstance(read.does, Search) else None
        ran = self._run(read)
        if ran.outcome is not None and not ran.outcome.is_refusal:
            self._tracer.note(read, pid, ran.outcome)
        return Record(number, text, True, ran.text, tuple(self.state.taken()), cycle)

    def _cycle(self, step: Search) -> Optional[Cycle]:
        """What a search will find."""
        victim = self._tracer.search(step)
        return cycle_of(self.manager, self.state, victim) if victim else None

    def _run(self, line: Line) -> Ran:
        """Runs a line. What `show` and `tails` print is cut after some lines."""
        if not isinstance(line.does, (Show, ShowTails)):
            return self._session.run_read(line)
        state, is_show = self.state, isinstance(line.does, Show)
        printed = list(islice(show_lines(self.manager) if is_show else tails_lines(self.manager), MOST_PRINTED))
        more = len(state.resources) + (len(state.locks) if is_show else 0) - len(printed)
        return Ran("".join(printed) + (f"... and {more} more lines\n" if more > 0 else ""))


def shown_line(line: bytes) -> str:
    """A line as text. Bytes and characters that can't be seen are escaped."""
    text = line.decode("utf-8", "backslashreplace").replace("\t", " ").rstrip("\r")
    if text.isprintable():
        return text
    return "".join(it if it.isprintable() else it.encode("unicode_escape").decode() for it in text)
