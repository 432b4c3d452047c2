"""Which member of etcd is asked after one has failed, with members that are made up; and what chunks keep."""

import io
import itertools
import logging
import os
import random
import struct
import sys
import threading
import time
import unittest
from concurrent.futures import ThreadPoolExecutor
from importlib.machinery import SourceFileLoader
from pathlib import Path
from types import SimpleNamespace
from unittest import mock

LIST = Path(__file__).resolve().parents[2] / "service" / "list"
sys.path.insert(0, str(LIST))
# (the program has no ending, and what Python compiles of it is not to stay)
sys.dont_write_bytecode = True
import grpc  # noqa: E402
from etcd3 import etcdrpc  # noqa: E402
import etcd_list  # noqa: E402
from chunks import Batch, Log, ahead, pack, unpack  # noqa: E402
from etcd_list import Broken, Chunk, Compacted, Ended, EtcdList  # noqa: E402
from members import Place  # noqa: E402

vlm_list = SourceFileLoader("vlm_list", str(LIST / "vlm-list")).load_module("vlm_list")
# How long threads may take to meet.
PATIENCE = 10.0
MEMBERS = 3
# How a batch begins.
BATCH = b"vlmlist1"
# What an answer says of its cluster and its leader.
HEADER = SimpleNamespace(cluster_id=7, raft_term=3)
HEADER_OF_9 = etcdrpc.ResponseHeader(revision=9, cluster_id=7, raft_term=3)


class Failed(grpc.RpcError):
    def code(self):
        return grpc.StatusCode.UNAVAILABLE


class Late(grpc.RpcError):
    def code(self):
        return grpc.StatusCode.DEADLINE_EXCEEDED


class Refused(grpc.RpcError):
    def code(self):
        return grpc.StatusCode.PERMISSION_DENIED


class TooMuch(grpc.RpcError, grpc.Call):
    """What the library makes of an answer that is longer than it takes."""

    def code(self):
        return grpc.StatusCode.RESOURCE_EXHAUSTED

    def details(self):
        return "CLIENT: Received message larger than max (178257920 vs. 67108864)"


class Method:
    """A call of a member, which ends at once."""

    def __init__(self, member, name):
        self._member, self._name = member, name

    def __call__(self, request, seconds):
        return getattr(self._member, self._name)(request, seconds)

    def future(self, request, seconds):
        return SimpleNamespace(result=lambda _: self(request, seconds))


class Hanging:
    """A call that is never answered."""

    def __init__(self):
        self.cancel = mock.Mock()

    def result(self, seconds):
        assert seconds is not None
        raise grpc.FutureTimeoutError


class Member:
    """Counts what it is asked for, and fails what it is told to fail."""

    def __init__(self):
        self.kvstub = SimpleNamespace(**{name: Method(self, name) for name in ("Put", "Range", "Txn")})
        self.channel, self.has_put, self.term = self, set(), HEADER.raft_term
        self.fails, self.calls = set(), {"append": 0, "read": 0, "presence": 0}
        self.seconds, self.way = [], 0.0
        self.cluster = HEADER.cluster_id
        self.failure, self.before_failure = Failed, lambda: None

    def Put(self, request, seconds):
        assert request.prev_kv
        self.seconds.append(seconds)
        self._call("append")
        put = etcdrpc.PutResponse(header=etcdrpc.ResponseHeader(revision=9, cluster_id=self.cluster,
                                                                raft_term=self.term))
        if request.key in self.has_put:
            put.prev_kv.create_revision = 8
        self.has_put.add(request.key)
        return put

    def Range(self, request, seconds):
        self._call("presence" if request.serializable else "read")
        if seconds < self.way:
            raise Failed
        time.sleep(self.way)
        header = SimpleNamespace(revision=1, cluster_id=self.cluster, raft_term=self.term)
        return SimpleNamespace(header=header, kvs=[])

    def _call(self, kind):
        self.calls[kind] += 1
        if kind in self.fails:
            self.before_failure()
            raise self.failure


class Members(unittest.TestCase):
    def setUp(self):
        self.members = [Member() for _ in range(MEMBERS)]
        with mock.patch("etcd_list.etcd3.client", side_effect=self.members):
            self.store = EtcdList(["127.0.0.1:1"] * MEMBERS)

    def calls(self, kind):
        return [it.calls[kind] for it in self.members]

    def test_threads_that_fail_together_leave_a_member_once(self):
        self.members[0].fails = {"append", "presence"}
        self.members[0].before_failure = threading.Barrier(MEMBERS, timeout=PATIENCE).wait
        with ThreadPoolExecutor(MEMBERS) as threads:
            list(threads.map(lambda number: self.store.append(f"a-{number}", b""), range(MEMBERS)))
        self.assertEqual(self.calls("append"), [MEMBERS, MEMBERS, 0])

    def test_appends_that_fail_leave_reads_where_they_are(self):
        self.members[0].fails = {"append"}
        self.store.append("a", b"")
        self.store.revision()
        self.assertEqual([sum(it.calls[kind] for kind in ("read", "append")) > 0 for it in self.members],
                         [True, True, False])
        self.assertEqual(self.calls("read")[1:], [0, 0])

    def test_a_member_that_is_far_away_does_not_hang(self):
        self.members[0].way = etcd_list._PRESENT + 0.1
        self.assertFalse(self.store.is_present(0))
        self.store.revision()
        self.assertTrue(self.store.is_present(0))

    def test_a_member_that_hangs_is_passed_over(self):
        self.members[0].fails = {"append"}
        self.members[1].fails = {"append", "presence"}
        self.store.append("a", b"")
        self.assertEqual(self.calls("append"), [1, 0, 1])

    def hang(self, member):
        """Has no call of a member to append end."""
        hanging = Hanging()
        self.members[member].Put = mock.Mock(side_effect=Late)
        self.members[member].kvstub.Put.future = lambda *_: hanging
        return hanging

    def test_a_call_leaves_a_member_that_hangs_before_its_time_is_over(self):
        self.hang(0)
        self.store.revision()
        self.members[0].fails = {"presence"}
        self.assertEqual(self.store.append("a", b""), 9)
        self.store.revision()
        self.assertEqual((self.calls("append"), self.calls("read")), ([0, 1, 0], [1, 1, 0]))

    def test_a_call_waits_for_a_member_that_is_slow(self):
        answers = iter([grpc.FutureTimeoutError, grpc.FutureTimeoutError, etcdrpc.PutResponse(header=HEADER_OF_9)])
        self.members[0].Put = mock.Mock(side_effect=Late)
        self.members[0].kvstub.Put.future = lambda *_: SimpleNamespace(result=mock.Mock(side_effect=answers))
        self.store.revision()
        self.assertEqual(self.store.append("a", b""), 9)
        self.assertEqual(self.calls("presence"), [3, 0, 0])

    def test_a_call_is_repeated_once_another_member_leads(self):
        self.hang(0)
        self.store.revision()
        self.members[0].term += 1
        self.assertEqual(self.store.append("a", b""), 9)
        self.assertEqual(self.calls("append"), [0, 1, 0])

    def test_a_call_ends_once_its_member_hangs(self):
        hanging = self.hang(0)
        self.store.revision()
        with mock.patch.object(self.store, "is_present", side_effect=[True, True, False, True]):
            self.assertEqual(self.store.append("a", b""), 9)
        self.assertEqual((hanging.cancel.call_count, self.calls("append")), (1, [0, 1, 0]))

    def test_a_long_call_does_not_look_at_its_member(self):
        asked = SimpleNamespace(result=mock.Mock(return_value=etcdrpc.PutResponse(header=HEADER_OF_9)))
        self.members[0].kvstub.Put.future = lambda *_: asked
        self.store.revision()
        self.store.append("a", bytes(512 << 10))
        asked.result.assert_called_with(None)

    def test_an_append_that_is_repeated_has_no_revision(self):
        self.assertEqual([self.store.append(name, b"") for name in "aba"], [9, 9, None])

    def test_what_is_long_has_the_time_that_a_slow_line_needs(self):
        for length in (100, 512 << 10):
            self.store.append("a", bytes(length))
        short, long = self.members[0].seconds
        self.assertLess(short, 2.1)
        self.assertGreaterEqual(long, 6)
        self.members[0].Txn = mock.Mock(return_value=etcdrpc.TxnResponse(header=HEADER_OF_9, succeeded=True))
        self.assertTrue(self.store.pack(1, bytes(512 << 10)))
        self.members[0].Range = mock.Mock(return_value=SimpleNamespace(header=HEADER, kvs=[]))
        self.assertEqual(list(self.store.chunks(0, 9)), [])
        for call in (self.members[0].Txn, self.members[0].Range):
            self.assertGreaterEqual(call.call_args[0][1], 6)

    def test_a_member_that_refuses_is_passed_over_and_all_of_them_are_believed(self):
        for member in self.members[:2]:
            member.failure, member.fails = Refused, {"append"}
        self.store.append("a", b"")
        self.assertEqual(self.calls("append"), [1, 1, 1])
        self.members[2].failure, self.members[2].fails = Refused, {"append"}
        with self.assertRaises(Refused):
            self.store.append("b", b"")

    def test_a_watch_that_ends_finds_that_etcd_has_gone_back(self):
        watch = self.store.watch(3)  # (the members have revision 1)
        with mock.patch("etcd_list.etcdrpc.WatchStub", lambda _: SimpleNamespace(Watch=lambda *_, **__: iter([]))):
            self.assertRaises(Broken, watch.next)

    def test_a_member_of_another_cluster_is_not_believed(self):
        for kind in ("append", "read", "presence"):
            with self.subTest(kind):
                self.setUp()
                asks = {"append": lambda: self.store.append("b", b""), "read": self.store.revision,
                        "presence": self.store.compare}
                self.store.append("a", b"")
                self.store.revision()
                self.members[1].cluster += 1
                self.members[0].fails = {kind}
                self.assertRaises(Broken, asks[kind])

    def test_a_chunk_that_is_not_there_is_missed(self):
        found = SimpleNamespace(kvs=[SimpleNamespace(key=b"vlm/packed/00000002", value=pack([placed(1, 1, 1)]))])
        with mock.patch.object(self.store, "_range", return_value=found):
            self.assertEqual([it.number for it in itertools.islice(self.store._unpacked(1, 9), 1)], [2])
            self.assertRaises(Broken, next, self.store._unpacked(0, 9))

    def test_a_batch_has_its_place_and_one_that_is_not_there_has_none(self):
        self.members[0].Range = mock.Mock(return_value=SimpleNamespace(
            header=HEADER, kvs=[SimpleNamespace(create_revision=4)]))
        self.assertEqual(self.store.place("a", 9), 4)
        asked = self.members[0].Range.call_args[0][0]
        self.assertEqual((asked.key, asked.range_end, asked.revision), (b"vlm/entries/a", b"", 9))
        self.members[0].Range.return_value.kvs = []
        self.assertIsNone(self.store.place("a", 9))

    def test_a_page_of_the_longest_batches_fits_into_an_answer(self):
        longest = (512 << 10) + (1 << 16) + 1024
        most = dict(etcd_list._OPTIONS)["grpc.max_receive_message_length"]
        self.assertLess(etcd_list._SHORT_PAGE * longest, most)

    def test_a_page_that_is_too_long_is_asked_for_in_short_ones(self):
        keys = [SimpleNamespace(create_revision=at, key=b"vlm/entries/a", value=BATCH) for at in range(2, 40)]
        asked = []

        def answer(request, _):
            asked.append(request.limit)
            if request.limit == etcd_list._PAGE:
                raise TooMuch
            found = [it for it in keys if it.create_revision >= request.min_create_revision]
            return SimpleNamespace(header=HEADER, kvs=found[:request.limit])

        self.members[0].Range = answer
        self.assertEqual([it.revision for it in self.store.batches(1, 99)], list(range(2, 40)))
        self.assertEqual(asked, [500, 32, 32])
        self.assertEqual(self.calls("read"), [0, 0, 0])

    def test_what_no_replica_has_written_is_named(self):
        for key, value, named in ((b"x", b"hello", "x"), (b"y", b"", "y"), (b"\xff", b"hello", "\ufffd")):
            with self.subTest(named):
                pair = SimpleNamespace(create_revision=4, key=b"vlm/entries/" + key, value=value)
                self.members[0].Range = mock.Mock(return_value=SimpleNamespace(header=HEADER, kvs=[pair]))
                with self.assertRaisesRegex(Broken, f"vlm/entries/{named}, which no replica has written"):
                    list(self.store.batches(1, 9))

    def test_what_no_replica_has_packed_is_named(self):
        for value in (b"hello", b"", pack([placed(1, 1, 1)])[:-9]):
            found = SimpleNamespace(kvs=[SimpleNamespace(key=b"vlm/packed/00000001", value=value)])
            with mock.patch.object(self.store, "_range", return_value=found), self.subTest(value[:5]), \
                    self.assertRaisesRegex(Broken, "vlm/packed/00000001, which no replica has written"):
                next(self.store.chunks(0, 9))

    def test_an_append_that_is_there_is_not_tried_again(self):
        for member in self.members:
            member.fails = {"append"}
        self.assertIsNone(self.store.append("a", b"", lambda: sum(self.calls("append")) == 2))
        self.assertEqual(self.calls("append"), [1, 1, 0])

    def test_a_call_that_fails_late_moves_nothing(self):
        place = Place(MEMBERS)
        for failed, at in ((0, 1), (1, 2), (0, 2), (2, 0)):
            place.leave(failed)
            self.assertEqual(place.at, at)

    def test_a_watch_leaves_a_member_that_hangs(self):
        streams, opened = [Silent(), iter([a_batch("a")])], []

        def stub(member):
            opened.append(self.members.index(member))
            return SimpleNamespace(Watch=lambda *_, **__: streams.pop(0))

        self.members[0].fails = {"presence"}
        watch = self.store.watch(1)
        with mock.patch("etcd_list.etcdrpc.WatchStub", stub), ThreadPoolExecutor(1) as thread:
            events = thread.submit(watch.next)
            while not events.done():
                watch.check()
                time.sleep(0.01)
            self.assertIsInstance(events.exception(), Ended)
            self.assertEqual(self.store.watch(1).next(), [Batch(9, "a", BATCH)])
        self.assertEqual(opened, [0, 1])


class Silent:
    """A stream of watch responses, without any until it is cancelled."""

    def __init__(self):
        self._is_cancelled = threading.Event()
        self.cancel = self._is_cancelled.set

    def __next__(self):
        if not self._is_cancelled.wait(PATIENCE):
            raise AssertionError("nobody cancels a silent watch")
        raise Failed


def a_batch(name):
    """A watch response with a batch."""
    pair = SimpleNamespace(create_revision=9, mod_revision=9, key=b"vlm/entries/" + name.encode(),
                           value=BATCH)
    return SimpleNamespace(header=HEADER, compact_revision=0, canceled=False,
                           events=[SimpleNamespace(kv=pair, type=0, PUT=0)])


BEAT, LINE = 4, 2
A, B = b"session1", b"session2"


def an_entry(number, kind, payload):
    return struct.pack("<IHH", number, kind, len(payload)) + payload


def a_beat(number, *sessions, beat=7):
    """A beat of a replica. Chunks give it the number 0."""
    return an_entry(number, BEAT, struct.pack("<Q", beat) + b"".join(sessions))


def placed(revision, replica, number, *entries):
    """A batch of a replica, the one of this number, at a revision."""
    return Batch(revision, "", struct.pack("<8sQQ", b"vlmlist1", replica, number) + b"".join(entries))


class Chunks(unittest.TestCase):
    def packed(self, *batches):
        """What a chunk of batches keeps."""
        covered, kept = unpack(pack(list(batches)))
        self.assertEqual(covered, batches[-1].revision)
        return kept

    def test_a_chunk_keeps_lines_as_they_are(self):
        rng = random.Random(1)
        batches = [placed(2 * at + 5, rng.randrange(3), at, *(
            an_entry(number, LINE, rng.randbytes(rng.randrange(300))) for number in range(rng.randrange(1, 4))))
            for at in range(200)]
        self.assertEqual(self.packed(*batches), batches)

    def test_the_last_beat_of_each_session_stays(self):
        line = an_entry(1, LINE, b"line")
        kept = self.packed(placed(1, 1, 1, a_beat(0, A, B), line), placed(2, 2, 1, a_beat(3, A), a_beat(4, A), line))
        self.assertEqual(kept, [placed(1, 1, 1, a_beat(0, B, beat=0), line),
                                placed(2, 2, 1, a_beat(4, A, beat=0), line)])

    def test_a_batch_of_old_beats_goes(self):
        batches = (placed(1, 1, 1, a_beat(0, A)), placed(2, 2, 1, a_beat(0, B)), placed(3, 1, 2, a_beat(0, A, B)))
        kept = self.packed(*batches)
        self.assertEqual(kept, [placed(2, 2, 1), placed(3, 1, 2, a_beat(0, A, B, beat=0))])

    def test_the_head_of_the_last_batch_of_each_replica_stays(self):
        line = an_entry(0, LINE, b"line")
        kept = self.packed(placed(1, 1, 1), placed(2, 1, 2), placed(3, 2, 1, line), placed(4, 2, 2))
        self.assertEqual(kept, [placed(2, 1, 2), placed(3, 2, 1, line), placed(4, 2, 2)])

    def test_the_next_chunk_is_read_while_one_is_used(self):
        begun = [threading.Event() for _ in range(3)]

        def items():
            for number, event in enumerate(begun):
                event.set()
                yield number
            raise Compacted

        found = []
        with self.assertRaises(Compacted):
            for item in ahead(items()):
                found.append(item)
                self.assertTrue(begun[min(item + 1, 2)].wait(PATIENCE))
        self.assertEqual(found, [0, 1, 2])

    def test_a_chunk_ends_once_it_is_full(self):
        line = an_entry(0, LINE, bytes(100))
        batches = [placed(revision, 1, revision, line) for revision in range(1, 6)]
        log, later = Log(200), Log(200)
        later.cover(1, 2)
        for batch in batches:
            log.add(batch)
            later.add(batch)
        self.assertTrue(log.is_full)
        self.assertEqual(log.next_batches(), batches[:2])
        log.cover(1, 2)
        self.assertEqual((log.next_batches(), later.next_batches()), (batches[2:4], batches[2:4]))
        log.cover(2, 4)
        self.assertEqual((log.is_full, log.next_batches()), (False, []))
        log.cover(1, 2)
        self.assertEqual((log.chunks, log.covered), (2, 4))

    def test_much_that_is_in_no_chunk_has_appends_wait(self):
        log = Log(200)
        for revision in range(1, 40):
            log.add(placed(revision, 1, revision, an_entry(0, LINE, bytes(100))))
            self.assertEqual(log.is_long, revision * 132 >= 16 * 200)
        log.cover(1, 38)
        self.assertFalse(log.is_long)


class Ends(unittest.TestCase):
    def test_the_beat_that_an_end_names_stays(self):
        # (a beat that came late does nothing to the session, which has ended)
        early, end = self.batch(1, 1, 1, self.entry(4, 0, 77)), self.batch(2, 2, 1, self.entry(5, 77, 1 << 20))
        late = self.batch(3, 1, 2, self.entry(4, 0, 77))
        self.assertEqual(unpack(pack([early, end, late])), (3, [early, end, self.batch(3, 1, 2)]))

    def test_the_batch_that_was_the_last_of_a_replica_to_others_stays(self):
        batches = [self.batch(1, 1, 1, self.entry(3, 5)), self.batch(2, 1, 2),
                   self.batch(3, 2, 1, self.entry(7, 1, 2)), self.batch(4, 1, 3)]
        self.assertEqual(unpack(pack(batches)), (4, batches))

    @staticmethod
    def entry(kind, *numbers):
        payload = struct.pack(f"<{len(numbers)}Q", *numbers)
        return struct.pack("<IHH", 0, kind, len(payload)) + payload

    @staticmethod
    def batch(revision, replica, number, *entries):
        return Batch(revision, "", b"vlmlist1" + struct.pack("<QQ", replica, number) + b"".join(entries))


class Said(unittest.TestCase):
    def said(self, before=b""):
        """What standard error has after a line, where it is a pipe that has something already. None if that waits."""
        reader, writer = os.pipe()
        record = logging.LogRecord("", logging.WARNING, "", 0, "no member of etcd answers", None, None)
        with open(reader, "rb", 0) as told, mock.patch.object(vlm_list, "_ERRORS", writer):
            os.set_blocking(writer, False)
            os.write(writer, before)
            os.set_blocking(writer, True)
            saying = threading.Thread(target=vlm_list._Said().emit, args=(record,), daemon=True)
            saying.start()
            saying.join(1)
            has_said = not saying.is_alive()
            found = told.read(1 << 20)
            saying.join()
            os.close(writer)
        return found if has_said else None

    def test_a_line_is_said(self):
        self.assertEqual(self.said(), b"vlm-list: no member of etcd answers\n")

    def test_a_log_that_nobody_reads_holds_nothing_up(self):
        full = b"x" * (1 << 16)
        self.assertEqual(self.said(full), full)


class Keeping(unittest.TestCase):
    """A keeper that was told batch 1 while others have gone on."""

    def setUp(self):
        self.to, batch = io.BytesIO(), Ends.batch
        chunks = [Chunk(1, 3, [batch(2, 1, 2), batch(3, 1, 3)])]
        self.store = SimpleNamespace(revision=lambda: 3, batches=lambda after, _: [],
                                     chunks=lambda known, _: iter(chunks[known:]), place=lambda *_: 5,
                                     spoil=mock.Mock())
        self.keeper = vlm_list.Keeper(self.store, 1, self.to)
        self.keeper._tell_batch(batch(1, 1, 1))

    def told(self):
        """The revisions that vlmd was told, and `a` where its batch is in the list."""
        frames, told = io.BytesIO(self.to.getvalue()), []
        while head := frames.read(4):
            frame = frames.read(*struct.unpack("<I", head))
            told += "a" if frame == b"a" else struct.unpack_from("<Q", frame, 1)
        return told

    def test_what_was_not_told_is_read_from_a_chunk_that_is_known(self):
        self.keeper._learn()
        self.keeper._read()
        self.assertEqual(self.told(), [1, 2, 3])

    def test_what_came_before_a_watch_ended_is_read(self):
        reads = []
        self.store.batches = lambda after, _: reads.append(after) or [Ends.batch(5, 1, 4)]
        self.store.watch = lambda _: SimpleNamespace(
            next=mock.Mock(side_effect=[Ended, ValueError][len(reads) - 1]), deleted=set())
        self.assertRaises(ValueError, self.keeper._follow)
        # (what was told is not read again)
        self.assertEqual(reads, [3, 5])

    def test_a_list_that_has_lost_what_was_shown_is_broken(self):
        self.store.chunks = lambda *_: iter([])
        # (in the place of the batch is another one, or the batch was appended again, behind others)
        for place in (None, 2):
            self.store.place = lambda *_, place=place: place
            self.assertRaises(Broken, self.keeper._read)
        self.assertEqual(self.store.spoil.call_count, 2)
        self.store.place = lambda *_: 1
        self.assertEqual(self.keeper._read(), 3)

    def test_an_append_that_nothing_can_precede_is_told_at_once(self):
        own = Ends.batch(2, 1, 2)
        self.keeper._tell_appended(2, own.entries)
        self.keeper._tell_batch(own)
        self.assertEqual(self.told(), [1, 2, "a"])

    def test_an_append_after_what_others_may_have_done_is_told_in_order(self):
        own = Ends.batch(3, 1, 2)
        self.keeper._tell_appended(3, own.entries)
        self.keeper._tell_batch(Ends.batch(2, 2, 1))
        self.keeper._tell_batch(own)
        self.assertEqual(self.told(), [1, "a", 2, 3])

    def test_an_append_that_was_there_is_not_told_again(self):
        self.keeper._tell_appended(None, Ends.batch(2, 1, 1).entries)
        self.assertEqual(self.told(), [1, "a"])

    def test_an_append_that_is_older_than_what_was_told_ends_the_list(self):
        self.store.append = lambda *_: 1
        self.keeper._batches.put(b"batch")
        self.assertRaises(Broken, self.keeper._append)

    @staticmethod
    def status(keeper, frames):
        """The status of the program with a keeper that is made up."""
        with mock.patch.object(vlm_list, "Keeper", lambda *_: keeper), mock.patch.object(vlm_list, "EtcdList"), \
                mock.patch.object(vlm_list.os, "_exit", side_effect=SystemExit) as ends, \
                mock.patch.object(vlm_list.signal, "signal"), mock.patch.object(vlm_list.logging, "exception"), \
                mock.patch.object(vlm_list.sys, "argv", ["vlm-list", "127.0.0.1:1", "vlm/", "1"]), \
                mock.patch.object(vlm_list.sys, "stdin", SimpleNamespace(buffer=io.BytesIO(frames))):
            try:
                vlm_list.main()
            except SystemExit:
                return ends.call_args[0][0]

    def test_what_etcd_refuses_is_said_in_a_line(self):
        self.store.revision = mock.Mock(side_effect=Refused)
        with mock.patch.object(vlm_list.os, "_exit") as ends, self.assertLogs(level="ERROR") as said:
            self.keeper._watched(self.keeper._follow)
        self.assertEqual(([it.exc_info for it in said.records], ends.call_args[0]), ([None], (1,)))
        self.assertEqual(said.output, ["ERROR:root:etcd refuses: PERMISSION_DENIED"])

    def test_a_part_of_a_frame_is_not_heard(self):
        whole, heard = struct.pack("<I", 6) + b"abatch", []
        for cut in range(1, len(whole)):
            keeper = SimpleNamespace(start=lambda: None, hear=heard.append)
            self.assertEqual(self.status(keeper, whole + whole[:cut]), 0)
        self.assertEqual(heard, [b"abatch"] * (len(whole) - 1))

    def test_a_list_that_gets_no_thread_ends(self):
        # (others that have begun would hold the program up)
        keeper = SimpleNamespace(start=mock.Mock(side_effect=RuntimeError("can't start new thread")))
        self.assertEqual(self.status(keeper, b""), 1)

    def test_a_reading_that_etcd_overtakes_ends_no_list(self):
        self.store.chunks = mock.Mock(side_effect=Compacted)
        self.assertFalse(self.keeper._learn())


if __name__ == "__main__":
    unittest.main()
