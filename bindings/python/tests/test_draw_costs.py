"""What pages of long scripts cost."""

import json
import re
import time
import unittest

from vlm.draw.page import page
from vlm.draw.recorder import Recorder


class Costs(unittest.TestCase):
    """A script of 10,000 lines makes a page in seconds. The bound is loose, for machines that do other work."""

    SECONDS, BYTES = 20, 8_000_000

    def page(self, lines):
        script = b"\n".join(lines)
        began = time.process_time()
        with Recorder() as recorder:
            text = page("long", *recorder.run(script))
        self.assertLess(time.process_time() - began, self.SECONDS)
        self.assertLess(len(text), self.BYTES)
        return json.loads(re.search(r'id="data">(.*?)</script>', text)[1])

    def test_many_resources(self):
        enqs = [b"enq P EX name=R%d block=1" % it for it in range(9_999)]
        self.page([b"declare P node=1 group=1 quota=65535 blocks=9", *enqs])

    def test_a_resource_with_many_locks(self):
        enqs = [b"enq P CR name=A block=1 ast=1 bast=2" for _ in range(5_000)]
        deqs = [b"deq P %d" % it for it in range(1, 5_000)]
        self.page([b"declare P node=1 group=1 quota=65535 blocks=9", *enqs, *deqs])

    def test_a_long_queue(self):
        declared = [b"declare P%d node=1 group=1 quota=9 blocks=1" % it for it in range(3_300)]
        enqs = [b"enq P%d EX name=A block=1 bast=1" % it for it in range(3_300)]
        data = self.page([*declared, *enqs, *(b"end P%d" % it for it in range(3_300)), b"show"])
        self.assertEqual(data["lines"][-1]["printed"], "no resources\n")

    def test_many_locks_at_once(self):
        both = [b"declare P node=1 group=1 quota=65535 blocks=9", b"declare Q node=2 group=1 quota=65535 blocks=9"]
        enqs = [b"enq %s EX name=R%d block=1 ast=1" % (name, it) for name in (b"P", b"Q") for it in range(4_900)]
        data = self.page([*both, *enqs, b"deq P 0 deqall", *98 * [b"show"], b"leave node=2", b"tails"])
        self.assertEqual(data["lines"][-1]["printed"], "no resources\n")

    def test_waits_that_change_all_the_time(self):
        lines = [b"declare P%d node=1 group=1 quota=9 blocks=1" % it for it in range(13)]
        lines += [b"enq P%d EX name=A block=1" % it for it in range(13)]
        turn = [line % it for it in range(13) for line in (b"deq P%d @1", b"enq P%d EX name=A block=1")]
        self.page([*lines, *400 * turn][:10_000])


if __name__ == "__main__":
    unittest.main()
