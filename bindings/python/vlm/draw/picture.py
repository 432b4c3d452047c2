"""The picture of one line of a script, as SVG."""

from typing import List, Optional, Set
from xml.sax.saxutils import escape

from ..script import ast_text, name_text
from ..values import Condition, LockView, Queue, Resource, StatusBlock
from .graph import Graph, graph_svg
from .recorder import Record
from .state import State
from .waits import MOST_REQUESTS, MOST_WAITS

WIDTH, MARGIN, COLUMN = 960, 24, 300
# The most resources and processes, and the most locks of a queue, in a picture.
MOST_SHOWN, MOST_IN_QUEUE = 40, 30
QUEUES = {Queue.GRANTED: "granted", Queue.CONVERSION: "converting", Queue.WAITING: "waiting"}
STYLE = """
svg { background: #fff; color: #1d2129; }
text { font: 13px ui-monospace, Menlo, Consolas, "DejaVu Sans Mono", monospace; fill: #1d2129; }
.title { font-weight: bold; font-size: 15px; }
.soft { fill: #565d6b; font-size: 12px; }
.middle { text-anchor: middle; }
.halo { paint-order: stroke; stroke: #fff; stroke-width: 5px; }
.granted { fill: #e9f5ec; stroke: #23713a; }
.converting { fill: #fdf2e0; stroke: #8a5300; stroke-dasharray: 8 2; }
.waiting { fill: #e8f0fb; stroke: #2b5ea8; stroke-dasharray: 4 3; }
.changed { stroke: #6b2fa0; stroke-width: 3; stroke-dasharray: none; }
.process { fill: #f5f6f8; stroke: #1d2129; stroke-width: 1.5; }
.victim { stroke: #b3261e; stroke-width: 4; stroke-dasharray: 7 3; }
.wait { fill: none; stroke: #565d6b; stroke-width: 1.6; }
.head { fill: #565d6b; }
.wait.cycle { stroke: #b3261e; stroke-width: 4; }
.head.cycle { fill: #b3261e; }
"""


def picture(record: Record, state: State, graph: Optional[Graph]) -> str:
    """The picture of a line, with the state after it. Without a graph there are too many waits for one."""
    sheet = _Sheet(record)
    sheet.text(f"Line {record.number}: {record.text}", "title")
    for line in record.printed.splitlines()[:MOST_SHOWN]:
        sheet.text(line)
    sheet.head("Resources" if state.resources else "No resources")
    for resource in list(state.resources.values())[:MOST_SHOWN]:
        sheet.resource(resource, state)
    sheet.more(len(state.resources) - MOST_SHOWN)
    sheet.head("Processes" if state.processes else "No processes")
    for pid in list(state.processes)[:MOST_SHOWN]:
        sheet.process(pid, state)
    sheet.more(len(state.processes) - MOST_SHOWN)
    sheet.graph(graph)
    return sheet.svg()


class _Sheet:
    """A sheet that is filled from its top on."""

    def __init__(self, record: Record) -> None:
        self._drawn: List[str] = []
        self._y = float(MARGIN)
        self._title = f"Line {record.number}: {record.text}"
        self._changed = _changed_locks(record)

    def text(self, text: str, style: str = "", indent: int = 0) -> None:
        self._y += 18
        self._drawn.append(f'<text class="{style}" x="{MARGIN + indent}" y="{self._y:.0f}">{escape(text)}</text>')

    def head(self, text: str) -> None:
        self._y += 16
        self.text(text, "title")

    def more(self, count: int) -> None:
        if count > 0:
            self.text(f"and {count} more", "soft")

    def resource(self, resource: Resource, state: State) -> None:
        """A resource with its queues side by side."""
        self._y += 6
        parent = f", below resource {resource.parent}" if resource.parent else ""
        domain = "system" if resource.group is None else f"group {resource.group}"
        self.text(f"{name_text(resource.name)}  (resource {resource.serial}, {domain}{parent})")
        self.text(f"value {resource.value.hex()} {'valid' if resource.value_valid else 'invalid'}", "soft")
        top = self._y
        lows = [self._queue(state, queue, state.queues[resource.serial][queue], top) for queue in Queue]
        self._y = max(lows)

    def _queue(self, state: State, queue: Queue, locks: List[int], top: float) -> float:
        """Draws a queue below `top`, and returns where it ends."""
        x, y = MARGIN + COLUMN * int(queue), top + 18
        self._drawn.append(f'<text class="soft" x="{x}" y="{y:.0f}">{QUEUES[queue]}</text>')
        for lock in locks[:MOST_IN_QUEUE]:
            y += 6
            self._lock(state, state.locks[lock], x, y)
            y += 24
        if len(locks) > MOST_IN_QUEUE:
            y += 18
            self._drawn.append(f'<text class="soft" x="{x}" y="{y:.0f}">and {len(locks) - MOST_IN_QUEUE} more</text>')
        return y + 4

    def _lock(self, state: State, lock: LockView, x: float, y: float) -> None:
        is_changed = lock.lock in self._changed
        modes = " → ".join(mode.name for mode in (lock.held, lock.want) if mode is not None)
        text = f"{modes} {state.processes[lock.pid].name}, lock {lock.lock}{' ●' if is_changed else ''}"
        style = QUEUES[lock.queue] + (" changed" if is_changed else "")
        self._drawn.append(f'<rect class="{style}" x="{x}" y="{y:.0f}" width="{COLUMN - 20}" height="24" rx="5"/>'
                           f'<text x="{x + 10}" y="{y + 17:.0f}">{escape(text)}</text>')

    def process(self, pid: int, state: State) -> None:
        """A process with its status blocks and ASTs."""
        it = state.processes[pid]
        self.text(f"{it.name}  (process {pid}, node {it.node}, group {it.group}{', SYSLCK' if it.syslck else ''})")
        for number, block in sorted(state.blocks.get(pid, {}).items()):
            text = f"block {number}: {_status(block)}, lock {block.lock or 'none'}, value {block.value.hex()}"
            self.text(text, "soft", 20)
        for ast in state.asts.get(pid, [])[:MOST_IN_QUEUE]:
            self.text(f"AST: {ast_text(ast)}", "soft", 20)

    def graph(self, graph: Optional[Graph]) -> None:
        if graph is None:
            self.head("Who waits for whom")
            self.text(f"With more than {MOST_REQUESTS} requests or {MOST_WAITS} waits a graph can't be read.", "soft")
        elif graph.arrows:
            self.head("Who waits for whom" + ("" if graph.victim is None else ", before the search"))
            drawn, self._y = graph_svg(graph, WIDTH / 2, self._y)
            self._drawn += drawn

    def svg(self) -> str:
        height = self._y + MARGIN
        return (f'<svg xmlns="http://www.w3.org/2000/svg" width="{WIDTH}" height="{height:.0f}" '
                f'viewBox="0 0 {WIDTH} {height:.0f}" role="img">\n<title>{escape(self._title)}</title>\n'
                f'<style>{STYLE}</style>\n<rect width="{WIDTH}" height="{height:.0f}" fill="#fff"/>\n'
                + "\n".join(self._drawn) + "\n</svg>\n")


def _changed_locks(record: Record) -> Set[int]:
    return {change[1] for change in record.changes if change[0] == "l"} | \
        {lock for change in record.changes if change[0] == "q" for lock in change[5]}


def _status(block: StatusBlock) -> str:
    if block.status is not None:
        return Condition(block.status).name
    return "pending" if block.lock else "none"
