"""A hub and its ports: threads of several nodes share one lock manager, and no call of a node waits."""

from ctypes import Structure, c_size_t
from dataclasses import dataclass
from enum import IntEnum
from typing import Any, Dict, Iterable, List, Optional, Union

from . import _library as raw
from . import _words
from ._arguments import name_bytes, word
from ._owner import Owner
from .errors import TurnEndedError, checked
from .process import ast_of, status_block_of
from .values import Ast, Condition, DequeueFlags, Flags, Mode, Name, StatusBlock, Which

class StepKind(IntEnum):
    """A kind of step in a journal."""

    DECLARE = 1
    SET_VALUE = 2
    ENQ = 3
    CONVERT = 4
    DEQ = 5
    RUNDOWN = 6
    LEAVE = 7
    SEARCH = 8
    TAKE = 9


@dataclass(frozen=True)
class Answer:
    """The answer to a step."""

    condition: Condition
    # The process of a declaration, the lock of a request, or the victim's lock of a search; else 0.
    number: int

    def result(self) -> int:
        """The number. A refusal raises its exception."""
        checked(self.condition)
        return self.number


@dataclass(frozen=True)
class AstItem:
    """An AST of one of a node's processes, as an item."""

    pid: int
    ast: Ast


@dataclass(frozen=True)
class Entry:
    """An entry of a journal: a step that the hub made, with its answer."""

    # The node that posted the step, or None: the hub took an AST, or a node was lost.
    sender: Optional[int]
    step: StepKind
    # What the step was given, by the names of include/vlm_hub.h: of a request its pid, mode, flags, name and others.
    given: Dict[str, Any]
    answer: Answer
    # The AST that a take gave.
    ast: Optional[Ast]


class Hub(Owner):
    """A hub of 1 to 8 nodes with its lock manager and its journal. Its turns make the steps that the ports post.

    Closing it frees both; leaving a `with` block closes it. Ports that it has given live on, and nobody answers them.
    """

    def __init__(self, nodes: int, keys: Optional[bytes] = None) -> None:
        """16 bytes of keys hash the names of the lock manager; without them they are random."""
        super().__init__("vlm_hub_close")
        checked(self._call("vlm_hub_open", word(nodes, "the number of nodes"), _words.options(keys)))

    def _told(self) -> str:
        return f" of {self.nodes()} nodes"

    def port(self, node: int) -> "Port":
        """The port of a node. The hub gives it once."""
        port = Port()
        checked(self._call("vlm_hub_port", word(node, "the node"), port._handle))
        return port

    def turn(self) -> int:
        """Attends to each node once: sends it one of its pending ASTs, and makes and answers one of its posts. Returns
        how many entries it made: 0 says that there was nothing to do. Raises TurnEndedError without memory."""
        made = c_size_t()
        status = self._call("vlm_hub_turn", made)
        if status == Condition.INSFMEM:
            raise TurnEndedError(made.value)
        checked(status)
        return made.value

    def lost(self, node: int) -> None:
        """A node departs whose thread is gone: all its processes end. It had departed before if this raises
        DepartedError."""
        checked(self._call("vlm_hub_lost", word(node, "the node")))

    def waiting(self, node: int) -> int:
        """How many posts of a node the hub has not made."""
        posts = c_size_t()
        checked(self._call("vlm_hub_waiting", word(node, "the node"), posts))
        return posts.value

    def status_block(self, pid: int, number: int) -> StatusBlock:
        """The status block of this number, from 1, of a process: how its request ended, and the value. The items of a
        node bring no status blocks, so the hub's thread reads them for the threads of ports. BadParamError without
        one."""
        words = raw.Lksb()
        checked(self._call("vlm_hub_block", word(pid, "the process"), word(number, "the status block"), words))
        return status_block_of(words)

    def nodes(self) -> int:
        """How many nodes the hub serves."""
        return self._call("vlm_hub_nodes")

    def entry_count(self) -> int:
        """How many entries the journal has since the last cut."""
        return self._call("vlm_hub_entries")

    def entries(self) -> List[Entry]:
        """The entries since the last cut, in order."""
        with self._mutex:
            words = [raw.Entry() for _ in range(self.entry_count())]
            for place, entry in enumerate(words):
                checked(self._call("vlm_hub_entry", place, entry))
        return _entries(words)

    def cut(self) -> List[Entry]:
        """Hands out all entries since the last cut, in order, and begins a new part of the journal. A hub that runs for
        long must cut: nothing else shortens its journal."""
        with self._mutex:
            count = self.entry_count()
            words, cut = (raw.Entry * count)(), raw.Cut(entry_size=512)
            checked(self._call("vlm_hub_cut", words, count, cut))
        return _entries(words)


class Port(Owner):
    """The port of a node: `Hub.port` gives it. It posts steps of the node, and takes items.

    No call waits. A post raises FullError if the port knows no free place, and BadParamError if an argument is
    malformed or a process is not of the node. All else is answered by an item.
    """

    def __init__(self) -> None:
        super().__init__("vlm_port_close")

    def _told(self) -> str:
        return f" of node {self.node()}"

    def node(self) -> int:
        """Its node."""
        return self._call("vlm_port_node")

    def _post(self, name: str, *arguments: Any) -> None:
        checked(self._call(name, *arguments))

    def declare(self, *, group: int = 0, quota: int = 65_535, blocks: int = 16, syslck: bool = False) -> None:
        """Posts a declaration of a process of the node."""
        self._post("vlm_port_declare", _words.declaration(self.node(), group, quota, blocks, syslck))

    def set_value(self, pid: int, block: int, value: bytes, tail: Optional[bytes] = None) -> None:
        """Posts a setting of the value part of a status block, and of its tail if one is given."""
        self._post("vlm_port_set_value", _words.setting(word(pid, "the process"), block, value, tail))

    def enq(self, pid: int, name: Name, mode: Mode, block: int, flags: Flags = Flags.NONE, *,
            parent: Optional[Which] = None, completion: Optional[int] = None, blocking: Optional[int] = None,
            param: int = 0) -> None:
        """Posts a request for a new lock ($ENQ). A routine is a number."""
        text = name_bytes(name)
        words = _words.request(word(pid, "the process"), parent, completion, blocking, mode=mode, flags=flags,
                               block=block, param=param)
        self._post("vlm_port_enq", words, text, len(text))

    def convert(self, pid: int, lock: Which, mode: Mode, block: int, flags: Flags = Flags.NONE, *,
                completion: Optional[int] = None, blocking: Optional[int] = None, param: int = 0) -> None:
        """Posts a request for another mode of a lock ($ENQ with CONVERT)."""
        words = _words.request(word(pid, "the process"), lock, completion, blocking, mode=mode, flags=flags,
                               block=block, param=param)
        self._post("vlm_port_convert", words)

    def deq(self, pid: int, lock: Which, flags: DequeueFlags = DequeueFlags.NONE, *, value: Optional[bytes] = None,
            tail: Optional[bytes] = None) -> None:
        """Posts that a lock is given up, or several with DEQALL, or that a request is cancelled ($DEQ)."""
        self._post("vlm_port_deq", _words.dequeue(word(pid, "the process"), lock, flags, value, tail))

    def rundown(self, pid: int) -> None:
        """Posts the end of a process."""
        self._post("vlm_port_rundown", word(pid, "the process"))

    def search(self) -> None:
        """Posts a search for a deadlock."""
        self._post("vlm_port_search")

    def bye(self) -> None:
        """Posts the departure of the node, with all its processes."""
        self._post("vlm_port_bye")

    def take(self) -> Optional[Union[Answer, AstItem]]:
        """Takes the next item, if the port knows of one. Answers come in the order of the posts."""
        words = raw.Item()
        checked(self._call("vlm_port_take", words))
        if words.kind == 1:
            return Answer(Condition(words.status), words.number)
        return AstItem(words.pid, ast_of(words.ast)) if words.kind else None

    def waiting(self) -> int:
        """How many items have come that nobody has taken."""
        items = c_size_t()
        checked(self._call("vlm_port_waiting", items))
        return items.value


def _entries(words: Iterable[raw.Sized]) -> List[Entry]:
    return [_entry(entry) for entry in words]


def _entry(words: raw.Sized) -> Entry:
    answer = Answer(Condition(words.status), words.number)
    return Entry(words.sender or None, StepKind(words.step), _given(words), answer,
                 ast_of(words.ast) if words.ast.kind else None)


def _given(words: raw.Sized) -> Dict[str, Any]:
    """What a step was given."""
    step = StepKind(words.step)
    if step in (StepKind.RUNDOWN, StepKind.TAKE):
        return {"pid": words.pid}
    if step in (StepKind.LEAVE, StepKind.SEARCH):
        return {"node": words.node}
    members = {StepKind.DECLARE: "declaration", StepKind.SET_VALUE: "setting", StepKind.DEQ: "dequeue"}
    given = _members(getattr(words, members.get(step, "request")))
    if step is StepKind.ENQ:
        given["name"] = bytes(words.name)[:words.name_len]
    return given


def _members(words: Structure) -> Dict[str, Any]:
    """The members of a struct by their names: numbers, and bytes."""
    named = [name for name, *_ in words._fields_ if name not in ("size", "reserved")]
    values = {name: getattr(words, name) for name in named}
    return {name: value if isinstance(value, int) else bytes(value) for name, value in values.items()}
