"""The structs and calls of include/vlm_client.h. They are looked for at the first connection."""

from ctypes import CFUNCTYPE, POINTER, c_char_p, c_int, c_size_t, c_uint32, c_uint64, c_void_p
from functools import lru_cache
from typing import Any, Dict, List

from ._library import LIBRARY, ThreadsDeclaration, ThreadsDequeue, ThreadsRequest, Value, _struct, _words

# The call of a loss.
LOSS = CFUNCTYPE(None, c_void_p)
BY_PROGRAM = 1
Declaration, Request, Dequeue = ThreadsDeclaration, ThreadsRequest, ThreadsDequeue

Options = _struct("Options", 80, *_words("version delivery lease_seconds"), ("socket", c_char_p), ("on_lost", LOSS),
                  ("lost_context", c_void_p), ("certificate", c_char_p), ("key", c_char_p), ("authority", c_char_p),
                  ("reason", c_void_p), ("reason_len", c_uint64))
# Bytes of the reason that an opening gets.
REASON = 256

_HANDLE, _NUMBER, _BYTES = c_void_p, POINTER(c_uint32), c_char_p
_CALLS: Dict[str, List[Any]] = {
    "open": [POINTER(Options), POINTER(c_void_p)],
    "reopen": [_HANDLE],
    "close": [_HANDLE],
    "declare": [_HANDLE, POINTER(Declaration), _NUMBER],
    "rundown": [_HANDLE, c_uint32],
    "enq": [_HANDLE, POINTER(Request), _BYTES, c_size_t],
    "convert": [_HANDLE, POINTER(Request)],
    "start_enq": [_HANDLE, POINTER(Request), _BYTES, c_size_t],
    "deq": [_HANDLE, POINTER(Dequeue)],
    "token": [_HANDLE, c_uint32, POINTER(c_uint64)],
    "fd": [_HANDLE, POINTER(c_int)],
    "dispatch": [_HANDLE, _NUMBER],
}


@lru_cache(maxsize=None)
def call(name: str) -> Any:
    """A call of the client. A library without it is an ImportError."""
    try:
        found = getattr(LIBRARY, "vlm_client_" + name)
    except AttributeError as failed:
        raise ImportError(f"the library {LIBRARY._name} has no client of the lock service: {failed}") from None
    found.argtypes, found.restype = _CALLS[name], c_uint32
    return found


def room_of(value: bytes) -> Any:
    """64 bytes for a value, which begin with this one."""
    return Value(*value)
