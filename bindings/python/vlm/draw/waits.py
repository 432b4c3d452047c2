"""Who waits for whom. All of it comes from the library's walk over the blockers of a request, which a search for a
deadlock follows too."""

from collections import deque
from ctypes import byref, sizeof
from dataclasses import dataclass
from sys import maxsize
from typing import Deque, Dict, List, Set, Tuple

from .. import _library as raw
from .._contexts import printed
from ..manager import LockManager
from ..values import Condition
from .state import State

# With more queued requests or more waits than this, a graph can't be read. Then the waits are not followed.
MOST_REQUESTS, MOST_WAITS = 60, 80
# The most blockers that are read to find a cycle.
MOST_READ = 1_000

# A request that waits for a lock: the lock of the request, and the other one.
Wait = Tuple[int, int]


@dataclass(frozen=True)
class Cycle:
    """What a search found: the lock of its victim, and the waits of a cycle, from the victim on. There are none if
    the cycle is too long to be found."""

    victim: int
    waits: Tuple[Wait, ...]
    # All of it as a sentence.
    text: str


def blockers_of(manager: LockManager, lock: int, most: int = maxsize) -> List[int]:
    """The locks for which the request of a lock waits, up to a limit. A page reads them so often that this calls the
    library itself: `LockManager.blockers` takes four times as long."""
    words = raw.Lock()
    found: List[int] = []
    handle, place, following = byref(manager._handle), byref(words), raw.LIBRARY.vlm_next_blocker
    with manager._mutex:
        status = raw.LIBRARY.vlm_first_blocker(handle, lock, place)
        while status == Condition.NORMAL and words.lkid and len(found) < most:
            found.append(words.lkid)
            status = following(handle, lock, words.lkid, place)
    return found


def follow_waits(manager: LockManager, state: State, locks: Set[int]) -> None:
    """Reads again for whom the requests of these locks wait. Where there were too many waits, all are read once fewer
    requests are queued."""
    if len(state.queued) > MOST_REQUESTS or len(state.queued) >= state.too_many_requests:
        return state.set_many_waits()
    if state.has_many_waits:
        locks = state.queued | state.waits.keys()
    count = sum(len(waits) for lock, waits in state.waits.items() if lock not in locks)
    found = {}
    for lock in sorted(locks):
        is_queued = lock in state.queued
        found[lock] = frozenset(blockers_of(manager, lock, MOST_WAITS + 1 - count) if is_queued else ())
        count += len(found[lock])
        if count > MOST_WAITS:
            return state.set_many_waits()
    for lock, waits in found.items():
        state.set_waits(lock, waits)
    state.set_few_waits()


def cycle_of(manager: LockManager, state: State, victim: int) -> Cycle:
    """A shortest cycle of processes that each wait for the next, by the victim's request first."""
    home = state.locks[victim].pid
    # The wait by which each process was reached, and the requests whose waits are still to be read.
    reached: Dict[int, Wait] = {}
    requests: Deque[int] = deque([victim])
    left = MOST_READ
    while requests and left > 0 and home not in reached:
        lock = requests.popleft()
        for blocker in blockers_of(manager, lock, left):
            left -= 1
            pid = state.locks[blocker].pid
            if pid not in reached:
                reached[pid] = lock, blocker
                requests += _requests_of(state, pid)
    waits = _way_home(state, reached, victim) if home in reached else []
    return Cycle(victim, tuple(waits), _sentence(manager, state, victim, waits))


def _sentence(manager: LockManager, state: State, victim: int, waits: List[Wait]) -> str:
    """What the library prints of a deadlock."""
    home = state.locks[victim].pid
    words = raw.ThreadsDeadlock(victim=victim, pid=home, length=len(waits))
    words.waits[0].waits_label[:] = _label(state, home)
    for wait, (lock, blocker) in zip(words.waits, waits):
        _fill_wait(manager, state, wait, (lock, blocker))
    too_long = "" if waits else "The circle is too long to be shown. "
    return too_long + printed("vlm_threads_print_deadlock", words).rstrip("\n")


def _fill_wait(manager: LockManager, state: State, words: raw.Sized, wait: Wait) -> None:
    request, other = (state.locks[lock] for lock in wait)
    name = state.resources[request.resource].name
    for lock, place in zip(wait, (words.waits, words.blocks)):
        place.size = sizeof(place)
        manager._call("vlm_find_lock", lock, place)
    words.name_len = len(name)
    words.name[:] = name.ljust(len(words.name), b"\0")
    words.waits_label[:], words.blocks_label[:] = _label(state, request.pid), _label(state, other.pid)


def _label(state: State, pid: int) -> bytes:
    return state.processes[pid].name.encode().ljust(sizeof(raw.Label), b"\0")


def _requests_of(state: State, pid: int) -> List[int]:
    return [lock for lock in state.own.get(pid, {}) if lock in state.queued]


def _way_home(state: State, reached: Dict[int, Wait], victim: int) -> List[Wait]:
    """The waits that lead from the victim's request to its own process."""
    way = [reached[state.locks[victim].pid]]
    while way[-1][0] != victim:
        way.append(reached[state.locks[way[-1][0]].pid])
    return way[::-1]


def all_waits(manager: LockManager, state: State) -> List[Wait]:
    """Every wait, by the locks of the requests and then in the order of the library's walk."""
    return [(lock, blocker) for lock in sorted(state.queued) for blocker in blockers_of(manager, lock)]


def waits_in_cycles(state: State, waits: List[Wait]) -> Set[Wait]:
    """The waits that are part of a cycle of processes: from the other lock's process waits lead back to the waiter."""
    following: Dict[int, Set[int]] = {}
    for lock, blocker in waits:
        following.setdefault(state.locks[lock].pid, set()).add(state.locks[blocker].pid)
    ahead = {pid: _all_ahead(following, pid) for pid in following}
    return {(lock, blocker) for lock, blocker in waits
            if state.locks[lock].pid in ahead.get(state.locks[blocker].pid, set()) | {state.locks[blocker].pid}}


def _all_ahead(following: Dict[int, Set[int]], pid: int) -> Set[int]:
    """The processes for which a process waits, by others too."""
    found: Set[int] = set()
    rest = [pid]
    while rest:
        new = following.get(rest.pop(), set()) - found
        found |= new
        rest += new
    return found
