"""Each exception once."""

import os
import pickle
import subprocess
import sys
import unittest
from pathlib import Path

import vlm
from vlm import Condition, DequeueFlags, Flags, InBlock, LockManager, Mode, VlmError
from vlm._library import FULL, LIBRARY, LOST, TIMEOUT
from vlm.errors import error_of

# Fills the lock manager until memory is refused. The program itself needs little more.
FILLS = """
import resource
from vlm import InsfMemError, LockManager, Mode
with open("/proc/self/statm") as statm:
    taken = int(statm.read().split()[0]) * resource.getpagesize()
manager = LockManager()
resource.setrlimit(resource.RLIMIT_AS, (taken + (48 << 20),) * 2)
try:
    for node in range(1, 9):
        process = manager.declare(node, blocks=1)
        for number in range(65535):
            process.enq(b"%d" % number, Mode.NL, 1)
except InsfMemError:
    print("refused")
"""


class Errors(unittest.TestCase):
    def setUp(self):
        self.manager = LockManager()
        self.addCleanup(self.manager.close)
        self.p = self.manager.declare(node=1, quota=40, blocks=2)
        self.q = self.manager.declare(node=2, quota=40, blocks=2)

    def refused(self, error, call, *arguments, **named):
        with self.assertRaises(error) as raised:
            call(*arguments, **named)
        self.assertEqual(raised.exception.condition.name.lower() + "error", error.__name__.lower())

    def test_not_queued(self):
        self.p.enq("A", Mode.EX, 1)
        self.refused(vlm.NotQueuedError, self.q.enq, "A", Mode.EX, 1, Flags.NOQUEUE)

    def test_cancel_grant(self):
        self.refused(vlm.CancelGrantError, self.p.cancel, self.p.enq("A", Mode.EX, 1).lock)

    def test_sub_locks(self):
        root = self.p.enq("A", Mode.EX, 1).lock
        self.p.enq("B", Mode.EX, 2, parent=root)
        self.refused(vlm.SubLocksError, self.p.deq, root)

    def test_iv_lock_id(self):
        self.refused(vlm.IvLockIdError, self.p.deq, 77)
        self.refused(vlm.IvLockIdError, self.p.convert, self.q.enq("A", Mode.NL, 1).lock, Mode.EX, 1)

    def test_waiting_locks(self):
        self.p.enq("A", Mode.EX, 1)
        waiting = self.q.enq("A", Mode.EX, 1).lock
        self.refused(vlm.CvtUngrantError, self.q.convert, waiting, Mode.PR, 1)
        self.refused(vlm.ParNotGrantError, self.q.enq, "B", Mode.EX, 2, parent=InBlock(1))

    def test_ex_depth(self):
        lock = 0
        for level in range(16):
            lock = self.p.enq(f"{level}", Mode.NL, 1, parent=lock).lock
        self.refused(vlm.ExDepthError, self.p.enq, "16", Mode.NL, 1, parent=lock)

    def test_ex_enq_lm(self):
        self.refused(vlm.ExEnqLmError, self.manager.declare(quota=0, blocks=1).enq, "A", Mode.NL, 1)

    def test_malformed_requests(self):
        self.refused(vlm.IvBufLenError, self.p.enq, "", Mode.EX, 1)
        self.refused(vlm.IvBufLenError, self.p.enq, 32 * "x", Mode.EX, 1)
        self.refused(vlm.UnsupportedError, self.p.enq, "A", Mode.EX, 1, Flags.EXPEDITE)
        self.refused(vlm.NoSysLckError, self.p.enq, "A", Mode.EX, 1, Flags.SYSTEM)
        self.refused(vlm.AccVioError, self.p.enq, "A", Mode.EX, 3)
        self.refused(vlm.BadParamError, self.p.enq, "A", 6, 1)
        self.refused(vlm.BadParamError, self.p.enq, "A", Mode.EX, 1, 1 << 15)
        self.refused(vlm.BadParamError, self.p.deq, 0, DequeueFlags.DEQALL | DequeueFlags.CANCEL)
        self.refused(vlm.BadParamError, self.manager.declare, 9)
        self.refused(vlm.BadParamError, self.manager.declare, blocks=256)

    def test_ended_processes(self):
        self.p.rundown()
        self.manager.leave(2)
        self.refused(vlm.NonExprError, self.p.enq, "A", Mode.EX, 1)
        self.refused(vlm.DepartedError, self.q.take)
        self.refused(vlm.DepartedError, self.manager.search, 2)
        self.refused(vlm.BadParamError, self.p.pending)

    def test_insf_mem(self):
        ended = subprocess.run([sys.executable, "-c", FILLS], capture_output=True, text=True, timeout=120,
                               env={**os.environ, "PYTHONPATH": str(Path(vlm.__file__).parents[1])})
        self.assertEqual((ended.stdout, ended.stderr), ("refused\n", ""))

    def test_there_is_one_for_each_condition_that_is_no_success(self):
        grants = {Condition.NORMAL, Condition.SYNCH, Condition.VALNOTVALID, Condition.WIDENOTVALID}
        self.assertEqual(set(VlmError.by_condition), set(Condition) - grants)
        for condition, error in VlmError.by_condition.items():
            self.assertEqual(error.condition, condition)
            self.assertIs(getattr(vlm, error.__name__), error)
            self.assertIn(condition.name, str(error()))
            self.assertIs(type(pickle.loads(pickle.dumps(error()))), error)

    def test_the_library_names_each_condition_as_its_number_says(self):
        named = {number: LIBRARY.vlm_condition_name(number) for number in range(1000)}
        ours = {it.value: it.name for it in Condition} | {TIMEOUT: "TIMEOUT", LOST: "LOST", FULL: "FULL"}
        self.assertEqual({number: name.decode().removeprefix("SS$_") for number, name in named.items() if name}, ours)
        self.assertEqual(Condition.DEADLOCK.manual_name, "SS$_DEADLOCK")
        self.assertEqual(Condition.DEPARTED.manual_name, "DEPARTED")
        for number, error in ((TIMEOUT, vlm.TimedOutError), (LOST, vlm.LostError), (FULL, vlm.FullError)):
            self.assertIs(type(error_of(number)), error)

    def test_a_program_names_its_own(self):
        class Busy(vlm.NotQueuedError):
            pass

        self.assertEqual(Busy.condition, Condition.NOTQUEUED)
        self.assertIs(VlmError.by_condition[Condition.NOTQUEUED], vlm.NotQueuedError)


if __name__ == "__main__":
    unittest.main()
