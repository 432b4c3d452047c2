"""The words of the steps that a caller describes."""

import os
from typing import Optional

from . import _library as raw
from ._arguments import lock_named, mark, part, word
from .errors import BadParamError
from .values import DequeueFlags, Which

# How many bytes a value part and a tail have.
_VALUE, _TAIL = 16, 48


def options(keys: Optional[bytes]) -> raw.Sized:
    """The options of a lock manager that hashes names by these 16 bytes of keys, or without them by random ones."""
    keys = os.urandom(16) if keys is None else bytes(memoryview(keys))
    if len(keys) != 16:
        raise BadParamError
    words = raw.Options(version=raw.VERSION, has_keys=1)
    words.keys[:] = keys
    return words


def declaration(node: int, group: int, quota: int, blocks: int, syslck: bool) -> raw.Sized:
    return raw.Declaration(node=word(node, "the node"), group=word(group, "the group"), syslck=mark(syslck),
                           quota=word(quota, "the quota"), blocks=word(blocks, "the number of status blocks"))


def setting(pid: int, block: int, value: bytes, tail: Optional[bytes]) -> raw.Sized:
    words = raw.Setting(pid=pid, block=word(block, "the status block"))
    words.value[:] = part(value, _VALUE, "the value")
    if tail is not None:
        words.has_tail, words.tail[:] = 1, part(tail, _TAIL, "the tail")
    return words


def request(pid: int, which: Optional[Which], completion: Optional[int], blocking: Optional[int],
            **numbers: int) -> raw.Sized:
    """The words of a request. Its routines are numbers."""
    lock, lock_kind = lock_named(which)
    given = {name: word(number, name) for name, number in numbers.items()}
    words = raw.Request(pid=pid, lock=lock, lock_kind=lock_kind, **given)
    if completion is not None:
        words.has_ast, words.ast = 1, word(completion, "the routine")
    if blocking is not None:
        words.has_bast, words.bast = 1, word(blocking, "the routine")
    return words


def dequeue(pid: int, lock: Which, flags: DequeueFlags, value: Optional[bytes], tail: Optional[bytes]) -> raw.Sized:
    number, lock_kind = lock_named(lock)
    words = raw.Dequeue(pid=pid, flags=word(flags, "flags"), lock=number, lock_kind=lock_kind)
    if value is not None:
        words.has_value, words.value[:] = 1, part(value, _VALUE, "the value")
    if tail is not None:
        words.has_tail, words.tail[:] = 1, part(tail, _TAIL, "the tail")
    return words
