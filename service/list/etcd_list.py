"""The list in etcd. Nothing else talks to etcd.

Each append is a key of its own, and the revision at which etcd made the key orders them: no two appends have the same
revision. Keys below the prefix:

    entries/WRITER-N   a batch of entries
    packed/N           chunk N of the packed batches

The client library knows one member of etcd. So each call here asks one member after another, each with a time-out.
Appends, reads and watches each have a member of their own, and leave it when it fails. A call may have taken effect
although its answer is lost: every call below may be repeated. An append is repeated under the same key, unless the
watch shows it.

A replica learns of batches by a watch, and of its own ones by the answer to the append too: if that has the next
revision, no other batch can come before it.

A call ends after two seconds, and is made again at the next member. That is too long where etcd's leader hangs, so
meanwhile `call` asks by `is_present` whether the member still answers, and whether another leader was elected. If all
members refuse, the replica ends, and its log has what etcd says.
"""

import logging
import os
import ssl
import time
from dataclasses import dataclass
from typing import Any, Callable, Dict, Iterator, List, Optional, Sequence, Set, Tuple

# Between calls gRPC looks at its connections only every five seconds, and needs several looks to connect again after an
# outage. Leases would run out meanwhile. (gRPC reads this variable when it is imported.)
os.environ.setdefault("GRPC_CLIENT_CHANNEL_BACKUP_POLL_INTERVAL_MS", "100")
# What gRPC says by itself would wait for somebody who reads standard error, and hold up all calls. Calls tell reasons.
os.environ.setdefault("GRPC_VERBOSITY", "NONE")

import etcd3
import grpc
from etcd3 import etcdrpc

from chunks import Batch, NoChunk, ahead, is_batch, unpack
from members import Place

# How long a member may take to answer, and the pause after no member did.
_SECONDS, _PAUSE = 2.0, 0.2
# The slowest line that works, in bytes a second. A put gets time for its length at this rate: else no try succeeds.
_SLOWEST = 128 << 10
# How often a call looks whether its answer will come, and how much time such a call gets at most: its bytes must not
# hold up the answer to that look.
_LOOK, _SHORT = 0.1, _SECONDS + 0.25
# After how long the log tells that no member does.
_LONG = 5.0
# How long a member may take to answer by what it has itself, in addition to the round trip. It needs no other member.
_PRESENT = 0.5
# A chunk may have 1.5 MB, and a page of entries several: the library's limit for answers is 4 MB.
_OPTIONS = [("grpc.max_receive_message_length", 1 << 26), ("grpc.keepalive_time_ms", 10_000),
            ("grpc.keepalive_timeout_ms", 3_000), ("grpc.initial_reconnect_backoff_ms", 200),
            ("grpc.max_reconnect_backoff_ms", 1_000)]
# How many batches a page has that is read, or one of batches so long that more do not fit into an answer; how long a
# member may take to send a page or a chunk; how many keys a transaction deletes: etcd's limit is 128.
_PAGE, _SHORT_PAGE, _PAGE_SECONDS, _DELETED = 500, 32, 20.0, 100
_PASSING = {grpc.StatusCode.UNAVAILABLE, grpc.StatusCode.DEADLINE_EXCEEDED, grpc.StatusCode.INTERNAL,
            grpc.StatusCode.RESOURCE_EXHAUSTED, grpc.StatusCode.CANCELLED, grpc.StatusCode.UNKNOWN}
# What a call raises if all members refuse it.
Refusal = grpc.RpcError
# What all members answer alike. Other refusals may be those of one member, or of a proxy before it.
_FINAL = {grpc.StatusCode.OUT_OF_RANGE, grpc.StatusCode.INVALID_ARGUMENT}


class Broken(Exception):
    """The list is not what it was, so a replica that starts on it may grant what others hold: etcd was restored, its
    members have lost their disks or are of several clusters, or somebody has deleted keys or written some."""


class WrongFiles(Exception):
    """Files of TLS that can't be used."""


class TooLong(Exception):
    """An answer is longer than the library takes."""


class Compacted(Exception):
    """etcd has forgotten the revisions that were asked for: read the chunks."""


class _Unanswered(Exception):
    """A member hangs, or has handed a call to a leader that leads no more. It may never answer."""


class Ended(Exception):
    """A watch has ended. What came since then is to be read: over a slow line, a long batch makes a watch seem to hang
    each time that it is opened, and a page of the list may take longer."""


@dataclass(frozen=True)
class Chunk:
    """A chunk of the list: its number, the revision up to which it goes, and what it keeps."""

    number: int
    covered: int
    batches: List[Batch]


def _is_passing(failed: Exception) -> bool:
    """Whether another member, or a later try, may do better."""
    return isinstance(failed, _Unanswered) or isinstance(failed, grpc.RpcError) and failed.code() in _PASSING


def _is_refusal(failed: Exception) -> bool:
    """Whether a member refuses what another one may do."""
    return isinstance(failed, grpc.RpcError) and failed.code() not in _FINAL


def _is_code(failed: Exception, code: grpc.StatusCode) -> bool:
    return isinstance(failed, grpc.RpcError) and failed.code() == code


def _is_too_long(failed: Exception) -> bool:
    return _is_code(failed, grpc.StatusCode.RESOURCE_EXHAUSTED) and "larger than max" in reason(failed)


def reason(failed: Exception) -> str:
    """What etcd says of a call that it has refused or that failed."""
    if not isinstance(failed, grpc.Call):
        return failed.code().name if isinstance(failed, grpc.RpcError) else repr(failed)
    return f"{failed.code().name}: {failed.details()}"


def _time_for(value: bytes) -> float:
    """How long a member may take to put a value."""
    return _SECONDS + len(value) / _SLOWEST


def look_at(files: Sequence[str]) -> None:
    """Raises WrongFiles if no connection can be made with these files. gRPC would try for ever, and not say why."""
    context, tried = ssl.SSLContext(ssl.PROTOCOL_TLS_CLIENT), files[:1]
    try:
        if tried:
            context.load_verify_locations(tried[0])
        tried = files[1:]
        if tried:
            # (Python would ask a terminal for the password of a key)
            context.load_cert_chain(tried[0], tried[1], "")
    except OSError as failed:
        raise WrongFiles(f"{', '.join(tried)}: {failed.strerror}") from None


def _after(prefix: bytes) -> bytes:
    """The end of the range of keys with a prefix."""
    return prefix[:-1] + bytes([prefix[-1] + 1])


class EtcdList:
    """The list of one lock service. Threads may share it."""

    def __init__(self, members: Sequence[str], prefix: str = "vlm/", files: Sequence[str] = ()) -> None:
        """Members are written HOST:PORT. With files all connections have TLS: the authority of the members, and then
        the own certificate and its key, if members ask for one."""
        pairs = [member.rsplit(":", 1) for member in members]
        secured = dict(zip(("ca_cert", "cert_cert", "cert_key"), files))
        self._clients = [etcd3.client(host, int(port), timeout=_SECONDS, grpc_options=_OPTIONS, **secured)
                         for host, port in pairs]
        self._places = {kind: Place(len(pairs)) for kind in ("append", "read", "watch")}
        self._entries, self._chunks = prefix + "entries/", prefix + "packed/"
        # How many seconds the last reading of each member took. Before one has ended, a member may be far away.
        self._ways: Dict[int, float] = {}
        # The last term that each member has told. A new leader begins a term.
        self._terms: Dict[int, int] = {}
        # The IDs of the clusters of all members that have answered.
        self._clusters: Set[int] = set()

    def note_cluster(self, header: Any) -> None:
        """Raises Broken if an answer is of another cluster than those before. Two clusters have two lists: replicas of
        which one asks the first and one the second would each grant what the other has granted."""
        self._clusters.add(int(header.cluster_id))
        if len(self._clusters) > 1:
            raise Broken("members of etcd are of different clusters")

    def compare(self) -> None:
        """Asks all members that answer of which cluster they are."""
        for member in range(len(self._clients)):
            self.is_present(member)

    def call(self, name: str, request: Any, seconds: float = _SECONDS,
             is_done: Callable[[], bool] = lambda: False) -> Any:
        """Makes a call of etcd, by its name, at one member after another until one answers. Returns None once it is
        done already. Raises what the members say if all of them refuse, or if an answer is too long."""
        kind, is_told, begun = "read" if name == "Range" else "append", False, time.monotonic()
        place = self._places[kind]
        while True:
            refusals = 0
            for _ in self._clients:
                at = place.at
                try:
                    answer = None if is_done() else self._ask(at, name, request, seconds)
                    if is_told:
                        logging.warning("%s: etcd answers again", kind)
                    return answer
                except Exception as failed:
                    if _is_too_long(failed):
                        raise TooLong from None
                    refusals += not _is_passing(failed)
                    if not _is_passing(failed) and (not _is_refusal(failed) or refusals == len(self._clients)):
                        raise
                    said = reason(failed)
                    logging.info("%s: etcd's member %d: %s", kind, at, said)
                self.leave(kind, at)
            if not is_told and time.monotonic() - begun > _LONG:
                logging.warning("%s: no member of etcd answers: %s", kind, said)
                is_told = True
            time.sleep(_PAUSE)

    def _ask(self, member: int, name: str, request: Any, seconds: float) -> Any:
        """Makes a call of a member. Raises _Unanswered as soon as it is seen that no answer may come: a leader that
        hangs, or was replaced, keeps what other members have handed to it."""
        method, begun = getattr(self._clients[member].kvstub, name), time.monotonic()
        looks = seconds <= _SHORT and member in self._ways
        answer = self._asked_at_once(member, method, request) if looks else None
        if answer is None:
            term = self._terms.get(member)
            answer = self._awaited(member, method.future(request, seconds), term, _LOOK if looks else None)
        if name == "Range":
            self._note_way(member, begun)
        self._note(member, answer.header)
        return answer

    def _asked_at_once(self, member: int, method: Any, request: Any) -> Any:
        """What a member answers before the first look, or None. Most answers come so, and a call that can be cancelled
        takes longer."""
        term = self._terms.get(member)
        try:
            return method(request, _LOOK + self._ways[member])
        except grpc.RpcError as failed:
            if not _is_code(failed, grpc.StatusCode.DEADLINE_EXCEEDED):
                raise
        self._look_at(member, term)
        return None

    def _awaited(self, member: int, asked: Any, term: Optional[int], look: Optional[float]) -> Any:
        """Waits for what a member answers, and looks at it meanwhile. The term was read before the call began: another
        thread may note the next one."""
        while True:
            try:
                return asked.result(look)
            except grpc.FutureTimeoutError:
                try:
                    term = self._look_at(member, term)
                except _Unanswered:
                    asked.cancel()
                    raise

    def _look_at(self, member: int, term: Optional[int]) -> int:
        """Raises _Unanswered if a member hangs, or tells of another leader than that of a term. Returns its term."""
        if not self.is_present(member):
            raise _Unanswered("it hangs")
        if term not in (None, self._terms[member]):
            raise _Unanswered("another leader")
        return self._terms[member]

    def _note(self, member: int, header: Any) -> None:
        """Notes what a member tells with each answer."""
        self.note_cluster(header)
        self._terms[member] = int(header.raft_term)

    def leave(self, kind: str, failed: int) -> None:
        """Has calls of a kind leave a member that failed. They go on at the next one that is present, so a hung one
        does not cost a call's whole time again."""
        place = self._places[kind]
        place.leave(failed)
        for _ in self._clients:
            at = place.at
            if at == failed or self.is_present(at):
                return
            place.leave(at)

    def is_present(self, member: int) -> bool:
        """Whether a member answers. One that does may still have no leader. Calls of each kind leave one that has
        answered before and does not now."""
        own, begun = etcdrpc.RangeRequest(key=self._entries.encode(), serializable=True), time.monotonic()
        try:
            answer = self._clients[member].kvstub.Range(own, _PRESENT + self._ways.get(member, 0.0))
        except grpc.RpcError:
            for place in self._places.values() if member in self._ways else ():
                place.leave(member)
            return False
        self._note_way(member, begun)
        self._note(member, answer.header)
        return True

    def _note_way(self, member: int, begun: float) -> None:
        """Notes how long a reading took. A member that is far away would seem to hang."""
        self._ways[member] = min(time.monotonic() - begun, _SECONDS)

    def append(self, name: str, batch: bytes, is_there: Callable[[], bool] = lambda: False) -> Optional[int]:
        """Appends a batch. Returns its revision, or None if it was there already: an earlier try may have put it. It is
        not tried again once it is there: etcd may be slower than a call may take."""
        request = etcdrpc.PutRequest(key=(self._entries + name).encode(), value=batch, prev_kv=True)
        put = self.call("Put", request, _time_for(batch), is_there)
        return None if put is None or put.HasField("prev_kv") else int(put.header.revision)

    def revision(self) -> int:
        """The last revision."""
        return int(self._range(self._chunks, count_only=True).header.revision)

    def chunks(self, known: int, revision: int) -> Iterator[Chunk]:
        """The chunks after those that are known, as they are at a revision. Raises Compacted if etcd has forgotten it.
        """
        return ahead(self._unpacked(known, revision))

    def _unpacked(self, known: int, revision: int) -> Iterator[Chunk]:
        while True:
            key = self._chunk_key(known + 1)
            # (the end is what follows all digits)
            found = self._range(key, range_end=self._chunks + ":", seconds=_PAGE_SECONDS, limit=1,
                                revision=revision).kvs
            if not found:
                return
            if found[0].key != key.encode():
                raise Broken(f"the list lacks chunk {known + 1}")
            known += 1
            try:
                covered, batches = unpack(found[0].value)
            except NoChunk:
                raise _foreign(found[0]) from None
            yield Chunk(known, covered, batches)

    def batches(self, after: int, revision: int) -> Iterator[Batch]:
        """The batches after a revision, in order, as they are at another revision. Raises Compacted as chunks does."""
        limit = _PAGE
        while True:
            try:
                page = self._range(self._entries, seconds=_PAGE_SECONDS, revision=revision, limit=limit,
                                   min_create_revision=after + 1, sort_order=etcdrpc.RangeRequest.ASCEND,
                                   sort_target=etcdrpc.RangeRequest.CREATE).kvs
            except TooLong:
                if limit == _SHORT_PAGE:
                    raise
                limit = _SHORT_PAGE
                continue
            for it in page:
                yield _batch(it)
            if len(page) < limit:
                return
            after = page[-1].create_revision

    def place(self, name: str, revision: int) -> Optional[int]:
        """Where a batch is in the list as it is at a revision, or None. Raises Compacted as chunks does."""
        found = self._range(self._entries + name, range_end="", keys_only=True, revision=revision).kvs
        return int(found[0].create_revision) if found else None

    def _range(self, prefix: str, range_end: Optional[str] = None, seconds: float = _SECONDS, **words: Any) -> Any:
        """The keys with a prefix, or up to an end; of an empty end, the key itself."""
        end = _after(prefix.encode()) if range_end is None else range_end.encode()
        request = etcdrpc.RangeRequest(key=prefix.encode(), range_end=end, **words)

        try:
            return self.call("Range", request, seconds)
        except grpc.RpcError as failed:
            if not _is_code(failed, grpc.StatusCode.OUT_OF_RANGE):
                raise
            raise Compacted from None

    def watch(self, revision: int) -> "Watch":
        """What comes from a revision on."""
        return Watch(self, self._entries.encode(), revision)

    def open_watch(self, request: Any) -> Tuple[Any, int]:
        """A stream of watch responses, and the number of its member. It ends if that member has no leader."""
        at = self._places["watch"].at
        stub = etcdrpc.WatchStub(self._clients[at].channel)
        return stub.Watch(iter([request]), metadata=(("hasleader", "true"),)), at

    def pack(self, number: int, chunk: bytes) -> bool:
        """Writes a chunk. Returns whether it was written: of several writers of one chunk, one writes it."""
        key = self._chunk_key(number).encode()
        is_new = etcdrpc.Compare(key=key, target=etcdrpc.Compare.CREATE, create_revision=0)
        put = etcdrpc.RequestOp(request_put=etcdrpc.PutRequest(key=key, value=chunk))
        request = etcdrpc.TxnRequest(compare=[is_new], success=[put])
        return bool(self.call("Txn", request, _time_for(chunk)).succeeded)

    def _chunk_key(self, number: int) -> str:
        return f"{self._chunks}{number:08}"

    def spoil(self) -> None:
        """Puts what is no batch. So no replica goes on or starts on what is left of the list."""
        request = etcdrpc.PutRequest(key=(self._entries + "deleted").encode(), value=b"a part of the list was deleted")
        self.call("Put", request)

    def drop(self, revision: int, forgotten: int) -> None:
        """Deletes the batches up to a revision, and has etcd forget what was before another revision."""
        keys = [it.key for it in self._range(self._entries, keys_only=True, max_create_revision=revision).kvs]
        for at in range(0, len(keys), _DELETED):
            deletions = [etcdrpc.RequestOp(request_delete_range=etcdrpc.DeleteRangeRequest(key=key))
                         for key in keys[at:at + _DELETED]]
            self.call("Txn", etcdrpc.TxnRequest(success=deletions))
        try:
            if forgotten:
                self.call("Compact", etcdrpc.CompactionRequest(revision=forgotten))
        except grpc.RpcError as failed:
            if not _is_code(failed, grpc.StatusCode.OUT_OF_RANGE):
                raise


def _foreign(pair: Any) -> Broken:
    return Broken(f"the list has {pair.key.decode(errors='replace')}, which no replica has written")


def _batch(pair: Any) -> Batch:
    """The batch of a key. Raises Broken if no replica has written it."""
    if not is_batch(pair.value):
        raise _foreign(pair)
    return Batch(pair.create_revision, _name(pair), pair.value)


def _name(pair: Any) -> str:
    return str(pair.key.decode(errors="replace")).rpartition("/")[2]


class Watch:
    """The batches from a revision on, up to its end. The next one is at the next member. One thread calls `next`."""

    def __init__(self, store: EtcdList, prefix: bytes, revision: int) -> None:
        self._store, self._prefix, self._revision = store, prefix, revision
        # The stream of responses, if there is one, and the number of the last one's member.
        self._responses: Any = None
        self._member = 0
        # The names of the batches that were deleted along with the last ones that came.
        self.deleted: Set[str] = set()

    def next(self) -> List[Batch]:
        """Waits for the next batches. Raises Compacted if etcd has forgotten them, and Ended."""
        while True:
            try:
                response = next(self._opened())
            except (grpc.RpcError, StopIteration) as ended:
                logging.info("a watch ended: %s", reason(ended))
                self._responses = None
                self._store.leave("watch", self._member)
                time.sleep(_PAUSE)
                if self._store.revision() < self._revision - 1:
                    raise Broken("etcd has lost what it had told") from None
                raise Ended from None
            self._store.note_cluster(response.header)
            if response.compact_revision:
                self.cancel()
                raise Compacted
            if response.canceled:
                self.cancel()
                time.sleep(_PAUSE)
            elif response.events:
                self._revision = response.events[-1].kv.mod_revision + 1
                self.deleted = {_name(it.kv) for it in response.events if it.type != it.PUT}
                return [_batch(it.kv) for it in response.events if it.type == it.PUT]

    def _opened(self) -> Any:
        if self._responses is None:
            create = etcdrpc.WatchCreateRequest(key=self._prefix, range_end=_after(self._prefix),
                                                start_revision=self._revision)
            self._responses, self._member = self._store.open_watch(etcdrpc.WatchRequest(create_request=create))
        return self._responses

    def check(self) -> None:
        """Ends the stream of responses if its member hangs: it would only be silent. Any thread may call it."""
        responses, member = self._responses, self._member
        if responses is not None and not self._store.is_present(member):
            responses.cancel()

    def cancel(self) -> None:
        """Ends the stream of responses. `next` opens another one. Any thread may call it."""
        responses, self._responses = self._responses, None
        if responses is not None:
            responses.cancel()
