"""What the workers of the fault test told, and what has to be true of it."""

import json
import socket
import threading
from collections import defaultdict
from typing import NamedTuple

VALNOTVALID = 7
# How many problems of a kind are named.
NAMED = 5


class Hold(NamedTuple):
    """When a worker believed that it held a lock: until it gave it up, but no longer than its lease lasted by its own
    clock. All processes of a machine share that clock."""

    begin: float
    end: float
    mode: str
    session: str


class Witness:
    """Listens to the workers. Each connection is one process of a worker."""

    def __init__(self):
        self._listener = socket.create_server(("127.0.0.1", 0), backlog=200)
        self.port = self._listener.getsockname()[1]
        # What each process told, in order.
        self._told = []
        threading.Thread(target=self._accept, daemon=True).start()

    def _accept(self):
        while True:
            connection, _ = self._listener.accept()
            lines = []
            self._told.append(lines)
            threading.Thread(target=self._listen, args=(connection, lines), daemon=True).start()

    @staticmethod
    def _listen(connection, lines):
        with connection, connection.makefile("rb") as file:
            for line in file:
                lines.append(line)

    def count(self, kind):
        """How many processes have told something of a kind."""
        start = b'["%s"' % kind.encode()
        return sum(any(line.startswith(start) for line in lines) for lines in list(self._told))

    def holders(self):
        """The writers that hold their own counter and have not begun to write it."""
        last = {json.loads(lines[0])[3]: lines[-1] for lines in list(self._told) if lines and b'"writer"' in lines[0]}
        return [f"writer {number}" for number, line in last.items() if line.startswith(b'["read"') and b'"own' in line]

    def told(self):
        """Each process's words, as lists. Of a killed process the last line may be cut off."""
        return [[json.loads(line) for line in lines if line.endswith(b"\n")] for lines in self._told]


def of_kind(told, kind):
    """All that was told of a kind, without its name."""
    return [words[1:] for lines in told for words in lines if words[0] == kind]


def holds_of(told):
    """The holds of each resource."""
    holds = defaultdict(list)
    for lines in told:
        open_hold = None
        for kind, session, *words in lines:
            if open_hold and (kind in ("hold", "drop") or session != open_hold[0]):
                held, name, mode, begin, until = open_hold
                holds[name].append(Hold(begin, min(until, words[0]) if kind == "drop" else until, mode, held))
                open_hold = None
            if kind == "hold":
                open_hold = [session, *words]
            elif kind == "until" and open_hold:
                open_hold[4] = words[0]
        if open_hold:
            session, name, mode, begin, until = open_hold
            holds[name].append(Hold(begin, until, mode, session))
    return holds


def conflicts(told):
    """No two workers ever believed to hold one resource in conflicting modes: EX goes with no other. A worker that
    heard of its grant after the end of its lease did not believe it."""
    for name, holds in holds_of(told).items():
        active = []
        for hold in sorted(it for it in holds if it.begin < it.end):
            active = [it for it in active if it.end > hold.begin] + [hold]
            yield from (f"{name}: {it} and {hold}" for it in active[:-1] if "EX" in (it.mode, hold.mode))


def fallen_tokens(told):
    """The fencing token of a grant is greater than those of all earlier grants that it excludes."""
    grants = defaultdict(list)
    for _, name, mode, heard, until, token in of_kind(told, "token"):
        if heard < until:
            grants[name].append((heard, mode, token))
    for name, known in grants.items():
        greatest = writers = 0
        for _, mode, token in sorted(known):
            if token <= (greatest if mode == "EX" else writers):
                yield f"{name}: token {token} after {greatest}"
            greatest = max(greatest, token)
            writers = max(writers, token if mode == "EX" else 0)


def others_answers(told):
    """Of two connections that race for a session, the later one is told a lock on the resource that it named, or that
    its number is old: it is then one of the first connection's."""
    for _, sent, number, answer, locked, named in of_kind(told, "race"):
        if locked != named and not (sent <= number and answer == f"{sent} old number"):
            yield f"{answer}, after number {number}, for a lock on {named} and not on {locked}"


def lost_updates(told, shown):
    """Each acknowledged value of a counter was written once, and the counter has counted them all. It may have counted
    writes that were not acknowledged."""
    done, tried = defaultdict(list), defaultdict(list)
    for _, name, value in of_kind(told, "done"):
        done[name].append(value)
    for _, name, value in of_kind(told, "try"):
        tried[name].append(value)
    for name, values in done.items():
        if len(values) != len(set(values)):
            yield f"{name}: two writers were told that they wrote one value"
        value = int(shown[name].split(" value ")[1].split()[0], 16) if name in shown else -1
        if not max(len(values), max(values)) <= value <= len(tried[name]):
            yield f"{name} is {value} after {len(values)} acknowledged of {len(tried[name])} writes"


def statuses_after_kills(told):
    """Writers have counters of their own. If one was killed while it held EX there, and had not begun to write, this is
    the status of the first grant after it."""
    by_writer = defaultdict(list)
    for lines in told:
        if lines and lines[0][2] == "writer":
            by_writer[f"own{lines[0][3]:02}"] += lines[1:]
    for own, lines in by_writer.items():
        held = None
        for kind, session, *words in lines:
            if kind == "read" and words[0] == own:
                if held not in (None, session):
                    yield words[2]
                held = session
            elif kind == "try":
                held = None


def still_valid(told):
    """The value block of a killed writer is marked invalid."""
    yield from (f"status {status} after a kill" for status in statuses_after_kills(told) if status != VALNOTVALID)


def left_behind(told, show):
    """Only workers that live have locks, each in its last session."""
    living = {[words[2] for words in lines if words[0] == "process"][-1]
              for lines in told if any(words[0] == "idle" for words in lines)}
    yield from (line for line in show if line.startswith("  ") and int(line.split()[3]) not in living)
