"""Reads what a caller gives. What fits into the words of a call goes to the library, which checks it; all else is a
ValueError or a TypeError."""

import threading
from math import inf
from operator import index
from typing import Any, Optional, Tuple

from .values import Flags, InBlock, Name, Which


def word(number: int, what: str) -> int:
    """A number of 32 bits."""
    if not 0 <= index(number) < 1 << 32:
        raise ValueError(f"{what} does not fit into 32 bits")
    return index(number)


def flags_word(flags: int) -> int:
    """The flags of a request that waits or has a completion routine. Each grant is told alike, so without SYNCSTS."""
    return word(flags, "flags") & ~int(Flags.SYNCSTS)


def mark(flag: Any) -> int:
    return 1 if flag else 0


def need_routines(*routines: Any) -> None:
    """Wants callables, or None for no routine."""
    if not all(it is None or callable(it) for it in routines):
        raise TypeError("a routine is a callable")


def name_bytes(name: Name) -> bytes:
    """The bytes of a resource name."""
    return name.encode() if isinstance(name, str) else bytes(memoryview(name))


def part(value: Optional[bytes], size: int, what: str) -> bytes:
    """The bytes of a value part or a tail, with zeros up to its size."""
    given = b"" if value is None else bytes(memoryview(value))
    if len(given) > size:
        raise ValueError(f"{what} has {len(given)} bytes: it has {size} at most")
    return given.ljust(size, b"\0")


def lock_named(which: Optional[Which]) -> Tuple[int, int]:
    """The words `lock` and `lock_kind` that name a lock, or both 0 for no lock."""
    if isinstance(which, InBlock):
        return word(which.block, "the status block"), 1
    return (0 if which is None else word(which, "the lock")), 0


def seconds(timeout: Optional[float]) -> Optional[float]:
    """The longest wait, or None for one without an end."""
    if timeout is None:
        return None
    try:
        longest = float(timeout)
    except OverflowError:
        # (an int may be longer than any float)
        longest = inf if timeout > 0 else -inf
    if not longest >= 0:
        raise ValueError("a time-out is a number of seconds from 0 on")
    return longest if longest <= threading.TIMEOUT_MAX else None
