"""The command vlm-draw."""

import argparse
import os
import sys
from collections import deque
from itertools import islice
from pathlib import Path
from typing import List, Optional, Tuple

from ..script import LONGEST_SCRIPT, ScriptFault, lines_of
from .graph import Graph, dot, graph_of
from .page import page
from .picture import picture
from .recorder import Recorder

HELP = """Runs a script of lock requests, and prints a page that shows it line by line: the resources with their
queues, the processes with their status blocks and pending ASTs, and who waits for whom. Open the page in a browser. It
is one file and loads nothing."""
STATUSES = """The lines of a script are those of `vlm play`. A line with a fault ends the run: the page shows the lines
before it, standard error gets `line N: TEXT`, and the status is 1. Refused words give status 2. If the script can't be
read, the page can't be written or the library is not found, the status is 3."""
FAULT, REFUSED, BROKEN = 1, 2, 3


class Stopped(Exception):
    """The command ends with this status, and its text goes to standard error."""

    def __init__(self, status: int, text: str) -> None:
        super().__init__(text)
        self.status = status


def main(words: Optional[List[str]] = None) -> int:
    """Runs the command, and returns its exit status."""
    given = _parser().parse_args(words)
    try:
        script = _read(given.script)
        if given.dot:
            _write(*_dot(script))
        elif given.svg is not None:
            _write(svg(script, given.svg))
        else:
            _write(*_page(script, given.script))
    except Stopped as stopped:
        _tell(str(stopped))
        return stopped.status
    except ImportError as failed:  # (of the library)
        _tell(str(failed))
        return BROKEN
    return 0


def _tell(text: str) -> None:
    """Writes a line to standard error, if it takes one: the status is the same without it."""
    if sys.stderr is None:
        return
    try:
        print(text, file=sys.stderr, flush=True)
    except OSError:
        # What is left in the buffer would be written again at the end of the program.
        os.dup2(os.open(os.devnull, os.O_WRONLY), sys.stderr.fileno())


def _parser() -> argparse.ArgumentParser:
    parser = argparse.ArgumentParser(prog="vlm-draw", description=HELP, epilog=STATUSES)
    parser.add_argument("script", metavar="SCRIPT", help="the file of the script; - is standard input")
    forms = parser.add_mutually_exclusive_group()
    forms.add_argument("--dot", action="store_true",
                       help="print the graph of who waits for whom at the end of the script, for Graphviz")
    forms.add_argument("--svg", metavar="N", type=int,
                       help="print a picture of line N instead, as SVG; N counts all lines of the script from 1, blank "
                            "lines and comments too; later lines are not run")
    return parser


def _read(name: str) -> bytes:
    if name == "-" and sys.stdin is None:
        raise Stopped(BROKEN, "read: standard input is closed")
    try:
        if name == "-":
            script = sys.stdin.buffer.read(LONGEST_SCRIPT + 1)
        else:
            with open(name, "rb") as file:
                script = file.read(LONGEST_SCRIPT + 1)
    except OSError as failed:
        raise Stopped(BROKEN, f"read: {failed}") from None
    if len(script) > LONGEST_SCRIPT:
        raise Stopped(BROKEN, "script too long")
    return script


def _write(text: str, fault: Optional[str] = None) -> None:
    """Prints a text. The fault that ended the script comes after it."""
    if sys.stdout is None:
        raise Stopped(BROKEN, "write: standard output is closed")
    try:
        # (the name of a file may have other bytes than UTF-8)
        sys.stdout.buffer.write(text.encode("utf-8", "replace"))
        sys.stdout.buffer.flush()
    except OSError:
        # What is left in the buffer would be written again at the end of the program.
        os.dup2(os.open(os.devnull, os.O_WRONLY), sys.stdout.fileno())
        raise Stopped(BROKEN, "write") from None
    if fault:
        raise Stopped(FAULT, fault)


def _page(script: bytes, name: str) -> Tuple[str, Optional[str]]:
    with Recorder() as recorder:
        records, fault = recorder.run(script)
    return page("Script" if name == "-" else Path(name).name, records, fault), fault


def _dot(script: bytes) -> Tuple[str, Optional[str]]:
    with Recorder() as recorder:
        _, fault = recorder.run(script)
        return dot(graph_of(recorder.manager, recorder.state)), fault


def svg(script: bytes, number: int) -> str:
    """The picture of a line of a script."""
    count = len(lines_of(script))
    if not 1 <= number <= count:
        raise Stopped(REFUSED, f"there is no line {number}: the script has {count}")
    with Recorder() as recorder:
        records = recorder.records(script)
        try:
            deque(islice(records, number - 1), maxlen=0)
            before = _graph(recorder)
            record = next(records)
        except ScriptFault as fault:
            raise Stopped(FAULT, str(fault)) from None
        graph = before.searched(record.cycle) if before and record.cycle else _graph(recorder)
        return picture(record, recorder.state, graph)


def _graph(recorder: Recorder) -> Optional[Graph]:
    """The graph of the present state, if it is small enough for a picture."""
    return None if recorder.state.has_many_waits else graph_of(recorder.manager, recorder.state)
