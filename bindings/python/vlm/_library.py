"""Finds the shared library at its first call, and declares its structs and calls as its headers have them."""

import ctypes
import os
from ctypes import CFUNCTYPE, POINTER, c_bool, c_char_p, c_int, c_size_t, c_uint8, c_uint32, c_uint64, c_void_p
from pathlib import Path
from typing import TYPE_CHECKING, Any, Dict, List, Tuple, Type

FITS = "0.2"
FILE = f"libvlm.so.{FITS}"


class Handle(ctypes.Structure):
    """A handle of a lock manager, a hub or a port, or of nothing."""

    _fields_ = [("core", c_void_p), ("is_held", c_bool)]


class Sized(ctypes.Structure):
    """A struct of the library. Its first member is its size, which is set when it is made."""

    def __init__(self, **members: Any) -> None:
        super().__init__(ctypes.sizeof(type(self)), **members)

    if TYPE_CHECKING:
        def __getattr__(self, name: str) -> Any: ...


def _struct(name: str, size: int, *fields: Tuple[str, Any]) -> Type[Sized]:
    """A struct with these members after its size. The size is the one that the header asserts."""
    made = type(name, (Sized,), {"_fields_": [("size", c_uint32), *fields], "__module__": __name__})
    if ctypes.sizeof(made) != size:
        raise ImportError(f"{name} has {ctypes.sizeof(made)} bytes on this platform, and not {size}")
    return made


def _words(text: str) -> List[Tuple[str, Any]]:
    return [(name, c_uint32) for name in text.split()]


_VALUE = ("value", c_uint8 * 16)
_TAIL = ("tail", c_uint8 * 48)


def _reserved(count: int) -> Tuple[str, Any]:
    return ("reserved", c_uint32 * count)


# The version of the header that this file follows, 0.2.0: one byte for each of its numbers.
VERSION = 0x000200

Options = _struct("Options", 64, *_words("version has_keys"), ("keys", c_uint8 * 16), _reserved(9))
Declaration = _struct("Declaration", 32, *_words("node group syslck quota blocks"), _reserved(2))
Setting = _struct("Setting", 96, *_words("pid block has_tail"), _VALUE, _TAIL, _reserved(4))
Request = _struct("Request", 128, *_words("pid mode flags block lock lock_kind has_ast ast has_bast bast param"),
                  _reserved(20))
Dequeue = _struct("Dequeue", 128, *_words("pid flags lock lock_kind has_value has_tail"), _VALUE, _TAIL, _reserved(9))
Lksb = _struct("Lksb", 80, *_words("status lkid reserved"), _VALUE, _TAIL)
Process = _struct("Process", 64, *_words("pid node group syslck quota"), ("blocks", c_uint64), ("pending", c_uint64),
                  ("locks", c_uint64), _reserved(4))
Resource = _struct("Resource", 144, *_words("serial parent is_system group value_valid tail_valid name_len"),
                   ("name", c_uint8 * 32), _VALUE, _TAIL, _reserved(4))
Lock = _struct("Lock", 64, *_words("lkid pid held want queue resource parent block"), _reserved(7))
Ast = _struct("Ast", 32, *_words("kind routine param lkid"), _reserved(3))
Item = _struct("Item", 64, *_words("kind status number pid"), _reserved(3), ("ast", Ast))
Entry = _struct("Entry", 512, *_words("sender step pid node status number name_len"), ("ast", Ast),
                ("name", c_uint8 * 32), ("declaration", Declaration), ("setting", Setting), ("request", Request),
                ("dequeue", Dequeue), _reserved(8))
Line = _struct("Line", 464, *_words("kind fault number name_len resource_len"), ("name", c_uint8 * 16),
               ("resource", c_uint8 * 32), ("declaration", Declaration), ("setting", Setting), ("request", Request),
               ("dequeue", Dequeue), _reserved(2))
Text = _struct("Text", 256, *_words("len"), ("bytes", c_uint8 * 248))
Cut = _struct("Cut", 32, *_words("entry_size"), ("base", c_uint64), ("count", c_uint64), _reserved(2))
# What waits, connections and posts answer beside the condition values.
TIMEOUT, LOST, FULL = 100, 101, 256

# The layer for threads: the functions that it calls, and its structs.
# 64 bytes of a value block, and a label.
Value: Any = c_uint8 * 64
Label: Any = c_uint8 * 32
ThreadsEvent = _struct("ThreadsEvent", 92, *_words("kind pid lkid status value_len"), ("value", c_uint8 * 64),
                       *_words("wanted"))
ThreadsWait = _struct("ThreadsWait", 236, *_words("milliseconds"), ("waits", Lock), ("blocks", Lock),
                      *_words("name_len"), ("name", c_uint8 * 32), ("waits_label", Label), ("blocks_label", Label))
ThreadsDeadlock = _struct("ThreadsDeadlock", 3792, *_words("victim pid length"), ("waits", ThreadsWait * 16))
ROUTINE: Any = CFUNCTYPE(None, c_void_p, POINTER(ThreadsEvent))
RELEASED: Any = CFUNCTYPE(None, c_void_p, c_void_p)
WAIT_HOOK: Any = CFUNCTYPE(None, c_void_p, POINTER(ThreadsWait))
DEADLOCK_HOOK: Any = CFUNCTYPE(None, c_void_p, POINTER(ThreadsDeadlock))
READER: Any = CFUNCTYPE(None, c_void_p, POINTER(Handle))
ThreadsOptions = _struct("ThreadsOptions", 80, *_words("version delivery search_milliseconds has_keys"),
                         ("keys", c_uint8 * 16), *_words("victim_milliseconds long_milliseconds"),
                         ("deadlock", DEADLOCK_HOOK), ("deadlock_context", c_void_p), ("long_wait", WAIT_HOOK),
                         ("long_wait_context", c_void_p))
ThreadsDeclaration = _struct("ThreadsDeclaration", 64, *_words("node group syslck quota requests tied own_queue"),
                             ("label", Label))
ThreadsRequest = _struct("ThreadsRequest", 80, *_words("pid mode flags lock milliseconds"), ("value", c_void_p),
                         ("completion", ROUTINE), ("completion_context", c_void_p), ("blocking", ROUTINE),
                         ("blocking_context", c_void_p), *_words("lkid status"), ("released", RELEASED))
ThreadsDequeue = _struct("ThreadsDequeue", 32, *_words("pid flags lock"), ("value", c_void_p), *_words("wide"))
# The counters, in their order. Those of refused requests and of times have 32 entries.
COUNTERS = ("requests granted_at_once waited refused granted_later timed_out cancelled victims run_down dequeues"
            " searches completions blockings dropped times microseconds processes locks events waiting"
            " most_waiting").split()
ThreadsCounters = _struct("ThreadsCounters", 672, *_words("reserved"),
                          *((it, c_uint64 * 32 if it in ("refused", "times") else c_uint64) for it in COUNTERS))

_NUMBER = POINTER(c_uint32)
# What each call takes after the handle. Each call answers a condition value, except those in _ANSWERS.
_CALLS: Dict[str, List[Any]] = {
    "vlm_open": [POINTER(Options)],
    "vlm_close": [],
    "vlm_declare": [POINTER(Declaration), _NUMBER],
    "vlm_set_value": [POINTER(Setting)],
    "vlm_enq": [POINTER(Request), c_char_p, c_size_t, _NUMBER],
    "vlm_convert": [POINTER(Request), _NUMBER],
    "vlm_deq": [POINTER(Dequeue)],
    "vlm_take": [c_uint32, POINTER(Ast)],
    "vlm_take_any": [_NUMBER, POINTER(Ast)],
    "vlm_rundown": [c_uint32],
    "vlm_leave": [c_uint32],
    "vlm_search": [c_uint32, _NUMBER],
    "vlm_find_victim": [_NUMBER],
    "vlm_block": [c_uint32, c_uint32, POINTER(Lksb)],
    "vlm_pending": [c_uint32, POINTER(c_size_t)],
    "vlm_process_count": [],
    "vlm_resource_count": [],
    "vlm_next_process": [c_uint32, POINTER(Process)],
    "vlm_next_resource": [POINTER(Resource)],
    "vlm_find": [POINTER(Resource)],
    "vlm_lock_count": [],
    "vlm_queued_count": [],
    "vlm_find_lock": [c_uint32, POINTER(Lock)],
    "vlm_lock_resource": [c_uint32, POINTER(Resource)],
    "vlm_first_row": [POINTER(Resource), c_uint32, POINTER(Lock)],
    "vlm_next_row": [c_uint32, POINTER(Lock)],
    "vlm_first_own": [c_uint32, POINTER(Lock)],
    "vlm_next_own": [c_uint32, POINTER(Lock)],
    "vlm_first_sublock": [c_uint32, POINTER(Lock)],
    "vlm_next_sublock": [c_uint32, POINTER(Lock)],
    "vlm_first_blocker": [c_uint32, POINTER(Lock)],
    "vlm_next_blocker": [c_uint32, c_uint32, POINTER(Lock)],
    "vlm_first_blocked": [c_uint32, POINTER(Lock)],
    "vlm_next_blocked": [c_uint32, c_uint32, POINTER(Lock)],
    "vlm_print_block": [c_uint32, POINTER(Line), POINTER(Text)],
    "vlm_print_tail": [c_uint32, POINTER(Line), POINTER(Text)],
    "vlm_print_resource": [POINTER(Resource), POINTER(Text)],
    "vlm_print_resource_tail": [POINTER(Resource), POINTER(Text)],
    "vlm_hub_open": [c_uint32, POINTER(Options)],
    "vlm_hub_port": [c_uint32, POINTER(Handle)],
    "vlm_hub_turn": [POINTER(c_size_t)],
    "vlm_hub_lost": [c_uint32],
    "vlm_hub_waiting": [c_uint32, POINTER(c_size_t)],
    "vlm_hub_block": [c_uint32, c_uint32, POINTER(Lksb)],
    "vlm_hub_nodes": [],
    "vlm_hub_entries": [],
    "vlm_hub_entry": [c_size_t, POINTER(Entry)],
    "vlm_hub_cut": [POINTER(Entry), c_size_t, POINTER(Cut)],
    "vlm_hub_close": [],
    "vlm_port_waiting": [POINTER(c_size_t)],
    "vlm_port_node": [],
    "vlm_port_declare": [POINTER(Declaration)],
    "vlm_port_set_value": [POINTER(Setting)],
    "vlm_port_enq": [POINTER(Request), c_char_p, c_size_t],
    "vlm_port_convert": [POINTER(Request)],
    "vlm_port_deq": [POINTER(Dequeue)],
    "vlm_port_rundown": [c_uint32],
    "vlm_port_search": [],
    "vlm_port_bye": [],
    "vlm_port_take": [POINTER(Item)],
    "vlm_port_close": [],
}
# The calls that take no handle.
_FREE_CALLS: Dict[str, List[Any]] = {
    "vlm_read_line": [c_char_p, c_size_t, POINTER(Line)],
    "vlm_print_answer": [POINTER(Line), c_uint32, c_uint32, POINTER(Text)],
    "vlm_print_ast": [POINTER(Line), c_uint32, POINTER(Ast), POINTER(Text)],
    "vlm_print_lock": [POINTER(Lock), POINTER(Text)],
    "vlm_condition_name": [c_uint32],
}
# The calls of the layer, which take it first, and those that print, which take a stream last.
_LAYER_CALLS: Dict[str, List[Any]] = {
    "vlm_threads_open": [POINTER(c_void_p)],
    "vlm_threads_stop": [],
    "vlm_threads_close": [],
    "vlm_threads_declare": [POINTER(ThreadsDeclaration), _NUMBER],
    "vlm_threads_rundown": [c_uint32],
    "vlm_threads_leave": [c_uint32],
    "vlm_threads_label": [c_uint32, POINTER(Label)],
    "vlm_threads_enq": [POINTER(ThreadsRequest), c_char_p, c_size_t],
    "vlm_threads_convert": [POINTER(ThreadsRequest)],
    "vlm_threads_start_enq": [POINTER(ThreadsRequest), c_char_p, c_size_t],
    "vlm_threads_start_convert": [POINTER(ThreadsRequest)],
    "vlm_threads_lkid": [POINTER(ThreadsRequest), _NUMBER],
    "vlm_threads_deq": [POINTER(ThreadsDequeue)],
    "vlm_threads_cancel": [c_uint32, _NUMBER],
    "vlm_threads_fd": [POINTER(c_int)],
    "vlm_threads_dispatch": [_NUMBER],
    "vlm_threads_process_fd": [c_uint32, POINTER(c_int)],
    "vlm_threads_process_dispatch": [c_uint32, _NUMBER],
    "vlm_threads_settle": [],
    "vlm_threads_search": [_NUMBER],
    "vlm_threads_look": [READER, c_void_p],
    "vlm_threads_read_counters": [POINTER(ThreadsCounters)],
    "vlm_threads_print": [c_void_p],
    "vlm_threads_print_prometheus": [c_void_p],
    "vlm_threads_print_wait": [c_void_p],
    "vlm_threads_print_deadlock": [c_void_p],
}
# The first argument of the calls that take something else than a layer there.
_FIRST = {"vlm_threads_open": POINTER(ThreadsOptions), "vlm_threads_print": POINTER(ThreadsCounters),
          "vlm_threads_print_prometheus": POINTER(ThreadsCounters), "vlm_threads_print_wait": POINTER(ThreadsWait),
          "vlm_threads_print_deadlock": POINTER(ThreadsDeadlock)}
_ANSWERS = {"vlm_close": None, "vlm_process_count": c_size_t, "vlm_resource_count": c_size_t,
            "vlm_lock_count": c_size_t, "vlm_queued_count": c_size_t, "vlm_hub_nodes": c_size_t,
            "vlm_hub_entries": c_size_t, "vlm_hub_close": None, "vlm_port_close": None, "vlm_condition_name": c_char_p}


def _place() -> str:
    """The file of the library. A wheel may have it beside this file. A plain name is looked for where the loader
    looks."""
    if os.environ.get("VLM_LIBRARY"):
        return os.environ["VLM_LIBRARY"]
    installed = [Path(os.environ["VLM_PREFIX"], "lib", FILE)] if os.environ.get("VLM_PREFIX") else []
    return next((str(file) for file in [*installed, Path(__file__).with_name(FILE)] if file.exists()), FILE)


def _declared(library: ctypes.CDLL) -> ctypes.CDLL:
    """The library, with the types of its calls."""
    typed = {**{name: [POINTER(Handle), *arguments] for name, arguments in _CALLS.items()},
             **{name: [_FIRST.get(name, c_void_p), *arguments] for name, arguments in _LAYER_CALLS.items()},
             **_FREE_CALLS}
    for name, arguments in typed.items():
        call = getattr(library, name)
        call.argtypes, call.restype = arguments, _ANSWERS.get(name, c_uint32)
    return library


def _loaded() -> ctypes.CDLL:
    place = _place()
    try:
        library = ctypes.CDLL(place)
        version = library.vlm_version()
        if version >> 8 != VERSION >> 8:
            raise OSError(f"it is of version {version >> 16}.{version >> 8 & 255}, and the package of {FITS}")
        return _declared(library)
    except (OSError, AttributeError) as failed:
        raise ImportError(
            f"the library {place} of the lock manager can't be used: {failed}. Install Debian's package libvlm{FITS}, "
            f"or run ./vlm install PREFIX, and name the folder PREFIX by VLM_PREFIX, or the file itself by VLM_LIBRARY"
        ) from None


class _Library:
    """The calls of the library, which is found at the first one."""

    _name: str

    def __getattr__(self, name: str) -> Any:
        library = _loaded()
        for call in (*_CALLS, *_LAYER_CALLS, *_FREE_CALLS):
            setattr(self, call, getattr(library, call))
        self._name = library._name
        return getattr(self, name) if name in self.__dict__ else getattr(library, name)


LIBRARY = _Library()
# The C library, whose streams the library prints to.
C = ctypes.CDLL(None)
address_of = ctypes.addressof
