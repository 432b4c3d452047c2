"""Batches that are in no chunk yet, and chunks as bytes.

When the list has a MiB (the setting `chunk`), a replica packs it into one compressed key, a chunk, and deletes the
batches. Where 16 times as much is in no chunk yet, appends wait. A chunk leaves out entries that did nothing, and
most beats. It keeps every step that changed something, since IDs and serials rise with each. A replica that starts runs
all chunks and then follows the list. A replica that was away until etcd forgot its place goes on from the chunk that it
needs.

A batch begins with 24 bytes: 8 that all have, the name of its replica, and its number. Its entries follow, each with a
head of 8 bytes: its number, its type and the length of its payload. Of the beats of each session a chunk keeps the last
one, which the end of the session names: later ones do nothing. A chunk also keeps the head of the last batch of each
replica, so that a new replica knows which number is next. If an entry ends the connections of a silent replica, the
chunk keeps the head of the batch that the entry names. All numbers are little-endian."""

import lzma
import struct
from concurrent.futures import ThreadPoolExecutor
from dataclasses import dataclass
from typing import Dict, Iterator, List, Set, Tuple, TypeVar

_Item = TypeVar("_Item")

_MARK = b"vlmlist1"
_HEAD, _REPLICA, _NUMBERED, _ENTRY = 24, slice(8, 16), slice(8, 24), struct.Struct("<IHH")
_BEAT, _END, _GONE = 4, 5, 7
# A batch in a chunk: its revision and its length. A chunk begins with the revision up to which it goes.
_PLACED, _COVERED = struct.Struct("<QI"), struct.Struct("<Q")
# How many chunks' bytes may wait to be packed.
_MOST_CHUNKS = 16
# How hard a chunk is compressed: more takes ten times as long, for a fifth less.
_PRESET = 3


class NoChunk(Exception):
    """A value that no replica has packed."""


@dataclass(frozen=True)
class Batch:
    """Entries that were appended together."""

    # etcd's revision of the append. It orders the batches.
    revision: int
    # The last part of its key; empty in a chunk.
    name: str
    entries: bytes


def is_batch(value: bytes) -> bool:
    """Whether a value begins as all batches do."""
    return value.startswith(_MARK)


def _entries(batch: bytes) -> Iterator[Tuple[int, int, int]]:
    """Where each entry of a batch begins and ends, and its type."""
    at = _HEAD
    while at < len(batch):
        _, kind, length = _ENTRY.unpack_from(batch, at)
        yield at, at + _ENTRY.size + length, kind
        at += _ENTRY.size + length


def _sessions(entry: bytes) -> List[bytes]:
    """The sessions of a beat. Its number comes before them."""
    names = entry[_ENTRY.size + 8:]
    return [names[at:at + 8] for at in range(0, len(names), 8)]


def _needed(batches: List[Batch]) -> Tuple[Dict[bytes, Tuple[int, int]], Set[bytes]]:
    """Where the last beat of each session is, and the batches that others had as the last one of a replica."""
    last: Dict[bytes, Tuple[int, int]] = {}
    ended, named = set(), set()
    for batch in batches:
        for begin, end, kind in _entries(batch.entries):
            payload = batch.entries[begin + _ENTRY.size:end]
            if kind == _BEAT:
                sessions = (it for it in _sessions(batch.entries[begin:end]) if it not in ended)
                last.update(dict.fromkeys(sessions, (batch.revision, begin)))
            elif kind == _END:
                ended.add(payload[:8])
            elif kind == _GONE:
                named.add(payload)
    return last, named


def _without_beats(batches: List[Batch]) -> Iterator[Batch]:
    """The batches with the last beat of each session alone, and without those of which nothing else is left."""
    newest = {batch.entries[_REPLICA]: batch for batch in batches}
    last, named = _needed(batches)
    for batch in batches:
        kept = bytearray(batch.entries[:_HEAD])
        for begin, end, kind in _entries(batch.entries):
            entry = batch.entries[begin:end]
            if kind == _BEAT:
                names = b"".join(it for it in _sessions(entry) if last.get(it) == (batch.revision, begin))
                number, _, _ = _ENTRY.unpack_from(entry)
                entry = _ENTRY.pack(number, _BEAT, 8 + len(names)) + bytes(8) + names if names else b""
            kept += entry
        if len(kept) > _HEAD or newest[batch.entries[_REPLICA]] is batch or batch.entries[_NUMBERED] in named:
            yield Batch(batch.revision, "", bytes(kept))


def pack(batches: List[Batch]) -> bytes:
    """Batches as one compressed value: a chunk. It goes up to the last of them."""
    parts = [_COVERED.pack(batches[-1].revision)]
    for batch in _without_beats(batches):
        parts += [_PLACED.pack(batch.revision, len(batch.entries)), batch.entries]
    return lzma.compress(b"".join(parts), preset=_PRESET)


def unpack(chunk: bytes) -> Tuple[int, List[Batch]]:
    """The revision up to which a chunk goes, and its batches. Raises NoChunk."""
    try:
        plain = lzma.decompress(chunk)
        (covered,) = _COVERED.unpack_from(plain)
    except (lzma.LZMAError, struct.error):
        raise NoChunk from None
    at, batches = _COVERED.size, []
    while at < len(plain):
        revision, length = _PLACED.unpack_from(plain, at)
        at += _PLACED.size
        batches.append(Batch(revision, "", plain[at:at + length]))
        at += length
    return covered, batches


def ahead(items: Iterator[_Item]) -> Iterator[_Item]:
    """The same items. Another thread gets the next one while the last one is used. So a chunk is read and unpacked
    while vlmd runs the one before it."""
    with ThreadPoolExecutor(1) as pool:
        following = pool.submit(lambda: next(items, None))
        while (item := following.result()) is not None:
            following = pool.submit(lambda: next(items, None))
            yield item


class Log:
    """The end of the list: what is to be kept of the batches after the last chunk. A chunk has about `size` bytes
    before it is compressed."""

    def __init__(self, size: int) -> None:
        self.size = size
        # How many chunks there are, and the revision up to which they go.
        self.chunks, self.covered = 0, 0
        self._batches: List[Batch] = []
        self._bytes = 0

    def add(self, batch: Batch) -> None:
        """Notes what is to be kept of a batch."""
        if batch.revision > self.covered:
            self._batches.append(batch)
            self._bytes += len(batch.entries)

    @property
    def is_full(self) -> bool:
        """Whether there is enough for a chunk."""
        return self._bytes >= self.size

    @property
    def is_long(self) -> bool:
        """Whether so much is in no chunk that appends have to wait: else the list might grow faster than it is packed,
        and then a replica that starts has ever more to read."""
        return self._bytes >= _MOST_CHUNKS * self.size

    def cover(self, chunks: int, covered: int) -> None:
        """The batches up to a revision are in this many chunks. Fewer than are known are no news."""
        if chunks > self.chunks:
            self.chunks, self.covered = chunks, covered
            self._batches = [it for it in self._batches if it.revision > covered]
            self._bytes = sum(len(it.entries) for it in self._batches)

    def next_batches(self) -> List[Batch]:
        """The batches of the next chunk; none if there is not enough for one."""
        size = 0
        for count, batch in enumerate(self._batches, 1):
            size += len(batch.entries)
            if size >= self.size:
                return self._batches[:count]
        return []
