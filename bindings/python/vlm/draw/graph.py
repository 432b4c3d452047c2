"""The graph of who waits for whom: for Graphviz, and as a picture."""

from dataclasses import dataclass, field, replace
from math import cos, hypot, pi, sin
from typing import Dict, List, Optional, Tuple
from xml.sax.saxutils import escape

from ..manager import LockManager
from ..script import name_text
from .state import State
from .waits import Cycle, Wait, all_waits, waits_in_cycles

Point = Tuple[float, float]


@dataclass
class Arrow:
    """The waits of one process for another."""

    source: int
    target: int
    waits: List[Wait] = field(default_factory=list)
    # The resources on which it waits.
    resources: List[str] = field(default_factory=list)
    # Whether it is part of a cycle of processes.
    in_cycle: bool = False


@dataclass(frozen=True)
class Graph:
    """The processes that wait or are waited for, by their NAMEs, and the arrows between them."""

    names: Dict[int, str]
    arrows: List[Arrow]
    # The process of a search's victim.
    victim: Optional[int] = None

    def searched(self, cycle: Cycle) -> "Graph":
        """The graph with what a search found in it: this cycle alone is marked, and the victim."""
        arrows = [replace(it, in_cycle=not set(cycle.waits).isdisjoint(it.waits)) for it in self.arrows]
        victims = [it.source for it in self.arrows if any(lock == cycle.victim for lock, _ in it.waits)]
        return Graph(self.names, arrows, victims[0])


def graph_of(manager: LockManager, state: State) -> Graph:
    """The graph of a state, with all cycles marked."""
    waits = all_waits(manager, state)
    in_cycles = waits_in_cycles(state, waits)
    arrows: Dict[Tuple[int, int], Arrow] = {}
    for lock, blocker in waits:
        ends = state.locks[lock].pid, state.locks[blocker].pid
        arrow = arrows.setdefault(ends, Arrow(*ends))
        arrow.waits.append((lock, blocker))
        name = name_text(state.resources[state.locks[lock].resource].name)
        if name not in arrow.resources:
            arrow.resources.append(name)
        arrow.in_cycle = arrow.in_cycle or (lock, blocker) in in_cycles
    names = {pid: state.processes[pid].name for pid in sorted({pid for ends in arrows for pid in ends})}
    return Graph(names, list(arrows.values()))


def dot(graph: Graph) -> str:
    """The graph in the language of Graphviz. Arrows in a cycle are red and thick."""
    lines = ["digraph waits {", "  node [shape=box, style=rounded];"]
    lines += [f"  p{pid} [label={_quoted(name)}];" for pid, name in graph.names.items()]
    for arrow in graph.arrows:
        mark = ", color=red, penwidth=3" if arrow.in_cycle else ""
        lines.append(f"  p{arrow.source} -> p{arrow.target} [label={_quoted(', '.join(arrow.resources))}{mark}];")
    return "\n".join([*lines, "}"]) + "\n"


def _quoted(text: str) -> str:
    return '"' + text.replace("\\", "\\\\").replace('"', '\\"') + '"'


def graph_svg(graph: Graph, middle: float, top: float) -> Tuple[List[str], float]:
    """The elements of a picture of the graph, from `top` on, and where it ends. Processes stand on a circle, from the
    top on and clockwise. (page.js draws them so too, since a page draws each of its graphs when it is looked at.)"""
    count = len(graph.names)
    radius = 0 if count < 2 else max(90, 26 * count)
    height = 0 if count == 2 else radius
    turn = pi if count == 2 else 1.5 * pi
    angles = [turn + 2 * pi * place / max(count, 1) for place in range(count)]
    centre = top + height + 100
    places = {pid: (middle + 1.5 * radius * cos(angle), centre + radius * sin(angle))
              for pid, angle in zip(graph.names, angles)}
    drawn = [_arrow(it, places, graph.names) for it in graph.arrows]
    drawn += [_node(graph, pid, place) for pid, place in places.items()]
    drawn += [_label(it, places, graph.names) for it in graph.arrows]
    return drawn, centre + height + 60


def _half(name: str) -> float:
    """Half of the width of a process's box."""
    return max(30, 4.5 * len(name) + 10)


def _node(graph: Graph, pid: int, place: Point) -> str:
    (x, y), name = place, graph.names[pid]
    half, is_victim = _half(name), pid == graph.victim
    box = (f'<rect class="process{" victim" if is_victim else ""}" x="{x - half:.1f}" y="{y - 18:.1f}" '
           f'width="{2 * half:.1f}" height="36" rx="9"/>')
    told = f'<text class="soft middle" x="{x:.1f}" y="{y + 13:.1f}">victim</text>' if is_victim else ""
    return f'{box}<text class="middle" x="{x:.1f}" y="{y + (0 if is_victim else 5):.1f}">{escape(name)}</text>{told}'


def _curve(arrow: Arrow, places: Dict[int, Point], names: Dict[int, str]) -> Tuple[Point, Point, Point]:
    """Where an arrow begins, its bend, and where it ends."""
    (ax, ay), (bx, by) = places[arrow.source], places[arrow.target]
    if arrow.source == arrow.target:
        return (ax - 14, ay - 18), (ax, ay - 84), (ax + 14, ay - 20)
    length = hypot(bx - ax, by - ay)
    bend = (ax + bx) / 2 - (by - ay) / length * 34, (ay + by) / 2 + (bx - ax) / length * 34
    x, y = bend[0] - bx, bend[1] - by
    part = min((_half(names[arrow.target]) + 4) / max(abs(x), 1e-9), 22 / max(abs(y), 1e-9))
    return (ax, ay), bend, (bx + x * part, by + y * part)


def _arrow(arrow: Arrow, places: Dict[int, Point], names: Dict[int, str]) -> str:
    (ax, ay), (bx, by), (cx, cy) = _curve(arrow, places, names)
    length, size = hypot(cx - bx, cy - by) or 1.0, 15 if arrow.in_cycle else 11
    dx, dy = (cx - bx) / length, (cy - by) / length
    tx, ty, half = cx - dx * size, cy - dy * size, size / 2.4
    mark = " cycle" if arrow.in_cycle else ""
    return (f'<path class="wait{mark}" d="M{ax:.1f} {ay:.1f}Q{bx:.1f} {by:.1f} {tx:.1f} {ty:.1f}"/>'
            f'<path class="head{mark}" d="M{cx:.1f} {cy:.1f}L{tx - dy * half:.1f} {ty + dx * half:.1f}'
            f'L{tx + dy * half:.1f} {ty - dx * half:.1f}Z"/>')


def _label(arrow: Arrow, places: Dict[int, Point], names: Dict[int, str]) -> str:
    (ax, ay), (bx, by), (cx, cy) = _curve(arrow, places, names)
    more = len(arrow.resources) - 1
    text = f"{arrow.resources[0]} and {more} more" if more > 1 else ", ".join(arrow.resources)
    # Nearer to the beginning, so that the labels of two arrows between the same processes are apart.
    x, y = .36 * ax + .48 * bx + .16 * cx, .36 * ay + .48 * by + .16 * cy
    return (f'<text class="soft middle halo" x="{x:.1f}" y="{y + 4:.1f}">'
            f'{escape(text if len(text) <= 24 else text[:23] + "…")}</text>')
