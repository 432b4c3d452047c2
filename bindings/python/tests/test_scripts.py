"""Plays scripts by vlm.script: the worked ones print what the program prints, and faulty ones end with their faults.
vlm(1) says what a line does."""

import pickle
import sys
import unittest
from pathlib import Path

from vlm import Condition, DequeueFlags, Flags, InBlock, LockManager, Mode
from vlm import _library as raw
from vlm.script import (LONGEST_SCRIPT, Convert, Declare, Deq, Enq, Fault, Leave, Line, LineFault, Names, Outcome,
                        Rundown, ScriptFault, Search, Session, SetValue, Show, ShowBlock, ShowTail, ShowTails, Take,
                        _line_words, lines_of, make, name_text, play, printed, read_line)

TESTS = Path(__file__).resolve().parents[3] / "tests"
SCRIPTS = TESTS / "scripts" / "play"
sys.path.insert(0, str(TESTS))
from faulty_scripts import FAULTY, WHOLE  # noqa: E402

VALUE, TAIL = bytes(range(16)), bytes(range(48))
# A line of each command with all its words, and what it does.
EACH_LINE = [
    (b"declare P node=1 group=2 quota=3 blocks=4 syslck", Line("P", Declare(1, 2, 3, 4, True))),
    (b"enq P EX name=A block=5 parent=@6 ast=7 bast=8 param=9 valblk bits=2",
     Line("P", Enq(Mode.EX, b"A", 5, InBlock(6), 7, 8, 9, Flags.VALBLK | Flags.NOQUEUE))),
    (b"enq P NL block=0 name=x:00ff", Line("P", Enq(Mode.NL, b"\0\xff", 0))),
    (b"cvt P @0 PW block=1 bits=65535", Line("P", Convert(InBlock(0), Mode.PW, 1, flags=Flags(65_535)))),
    (b"deq P 4294967295 value=" + VALUE.hex().encode() + b" tail=" + TAIL.hex().upper().encode() + b" cancel bits=3",
     Line("P", Deq(4_294_967_295, VALUE, TAIL, DequeueFlags.CANCEL | DequeueFlags.DEQALL))),
    (b"set P block=255 value=" + VALUE.hex().encode(), Line("P", SetValue(255, VALUE))),
    (b"end P", Line("P", Rundown())),
    (b"leave node=8", Line(None, Leave(8))),
    (b"search node=08", Line(None, Search(8))),
    (b"ast P", Line("P", Take())),
    (b"block P 1", Line("P", ShowBlock(1))),
    (b"tail P 2", Line("P", ShowTail(2))),
    (b"show", Line(None, Show())),
    (b"tails", Line(None, ShowTails())),
]
DECLARED = b"declare P node=1 group=1 quota=9 blocks=%d\n"


def played(script):
    """What a script prints, and the text of the fault that ends it, if one does."""
    texts = []
    with LockManager() as manager:
        try:
            texts.extend(play(manager, script))
        except ScriptFault as fault:
            return "".join(texts).encode(), f"{fault}\n".encode()
    return "".join(texts).encode(), b""


class Scripts(unittest.TestCase):
    def test_the_worked_scripts_print_what_the_program_prints(self):
        count = 0
        for expected in sorted(SCRIPTS.glob("*.stdout")):
            with self.subTest(expected.stem):
                self.assertEqual(played(expected.with_suffix("").read_bytes()), (expected.read_bytes(), b""))
            count += 1
        self.assertGreaterEqual(count, 60)

    def test_faulty_scripts_end_with_their_faults(self):
        for script, text, fault in FAULTY:
            with self.subTest(script):
                self.assertEqual(played(script), (text, fault))

    def test_whole_scripts(self):
        for script, text in WHOLE:
            with self.subTest(script):
                self.assertEqual(played(script), (text, b""))


class Reading(unittest.TestCase):
    def test_each_command_is_read(self):
        for text, line in EACH_LINE:
            with self.subTest(text):
                self.assertEqual(read_line(text), line)

    def test_a_line_has_the_kind_of_the_library(self):
        for text, line in EACH_LINE:
            with self.subTest(text):
                words = raw.Line()
                raw.LIBRARY.vlm_read_line(text, len(text), words)
                self.assertEqual(_line_words(line).kind, words.kind)

    def test_views_make_no_step(self):
        with LockManager() as manager:
            session = Session(manager)
            session.run(DECLARED[:-1] % 4)
            views = {type(line.does) for _, line in EACH_LINE
                     if not isinstance(line.does, Declare) and session.run_read(line).outcome is None}
        self.assertEqual(views, {ShowBlock, ShowTail, Show, ShowTails})

    def test_a_fault_says_what_it_is(self):
        with self.assertRaises(LineFault) as caught:
            read_line(b"leave node=256")
        self.assertEqual((caught.exception.fault, str(caught.exception)),
                         (Fault.NUMBER_OUT_OF_RANGE, "number out of range"))

    def test_only_three_bytes_are_blanks(self):
        self.assertEqual(read_line(b"\tsearch\rnode=1  "), Line(None, Search(1)))
        for byte in b"\0\n\v\f\x1c\x85\xa0":
            with self.assertRaises(LineFault, msg=byte):
                read_line(b"search" + bytes([byte]) + b"node=1")

    def test_a_line_has_at_most_255_bytes(self):
        self.assertIsNone(read_line(b"#" + 254 * b"\xff"))
        with self.assertRaises(LineFault):
            read_line(b"#" + 255 * b" ")

    def test_names_may_be_any_bytes(self):
        known = bytes(set(range(256)) - set(b" \t\r\n"))
        for at in range(0, len(known), 31):
            name = known[at:at + 31]
            self.assertEqual(read_line(b"enq P EX block=1 name=" + name), Line("P", Enq(Mode.EX, name, 1)))
        self.assertEqual(read_line(b"enq P EX block=1 name=" + 32 * b"A"), Line("P", Enq(Mode.EX, b"", 1)))

    def test_lines_end_at_line_feeds(self):
        self.assertEqual(lines_of(b""), [])
        self.assertEqual(lines_of(b"\n"), [b""])
        self.assertEqual(lines_of(b"a\r\n\nb"), [b"a\r", b"", b"b"])
        self.assertEqual(len(lines_of(LONGEST_SCRIPT * b"\n")), LONGEST_SCRIPT)
        with self.assertRaises(ValueError):
            lines_of((LONGEST_SCRIPT + 1) * b"\n")

    def test_a_printed_name_is_one_word(self):
        names = {b"A": "A", b"<i>": "<i>", b"x:": "x:783a", b"a b": "x:612062", b"\xe9": "x:e9", b"": ""}
        self.assertEqual({name: name_text(name) for name in names}, names)


class StatusBlockZero(unittest.TestCase):
    """`@0` is refused by ACCVIO in its place of the order of refusals, whatever the number of status blocks."""

    def refusals(self, words):
        """The answers to a line, of a process with 4 status blocks and of one with 255. A lock 1 exists."""
        return {played(DECLARED % blocks + b"enq P EX name=A block=1\n" + words)[0].splitlines()[-1]
                for blocks in (4, 255)}

    def test_a_parent_lock(self):
        self.assertEqual(self.refusals(b"enq P EX name=B block=1 parent=@0"), {b"P: ACCVIO"})
        self.assertEqual(self.refusals(b"enq P EX name= block=1 parent=@0 expedite"), {b"P: ACCVIO"})
        self.assertEqual(self.refusals(b"enq P EX name=B block=1 parent=@0 bits=512"), {b"P: BADPARAM"})

    def test_a_converted_lock(self):
        self.assertEqual(self.refusals(b"cvt P @0 NL block=1"), {b"P: ACCVIO"})
        self.assertEqual(self.refusals(b"cvt P @0 NL block=1 bits=512"), {b"P: BADPARAM"})

    def test_a_dequeued_lock(self):
        self.assertEqual(self.refusals(b"deq P @0"), {b"P: ACCVIO"})
        self.assertEqual(self.refusals(b"deq P @0 deqall"), {b"P: ACCVIO"})
        self.assertEqual(self.refusals(b"deq P @0 deqall cancel"), {b"P: BADPARAM"})
        self.assertEqual(self.refusals(b"end P\ndeq P @0 deqall cancel"), {b"P: NONEXPR"})
        self.assertEqual(self.refusals(b"leave node=1\ndeq P @0"), {b"P: DEPARTED"})


class Parts(unittest.TestCase):
    """What a program uses that makes the steps of others."""

    def test_a_name_is_bound_by_an_accepted_declaration(self):
        names, declare, end = Names(), read_line(b"declare P node=1 group=1 quota=1 blocks=1"), read_line(b"end P")
        names.learn(declare, Outcome(Condition.BADPARAM))
        self.assertRaises(LineFault, names.pid_of, end)
        names.learn(declare, Outcome(Condition.NORMAL, 65_537))
        self.assertEqual(names.pid_of(end), 65_537)
        self.assertRaises(LineFault, names.pid_of, declare)

    def test_a_step_is_made_for_a_process_that_is_known_by_its_number(self):
        with LockManager() as manager:
            pid = manager.declare(node=1, blocks=1).pid
            line = read_line(b"enq AnyName EX name=A block=1 syncsts ast=3")
            outcome = make(manager, pid, line.does)
            self.assertEqual(outcome, Outcome(Condition.SYNCH, 1))
            self.assertEqual(printed(line, outcome), "AnyName: SYNCH lock 1\n")
            self.assertEqual(make(manager, pid + 1, line.does), Outcome(Condition.NONEXPR))

    def test_a_line_with_a_fault_does_nothing(self):
        with LockManager() as manager:
            session = Session(manager)
            self.assertRaises(LineFault, session.run, b"enq P EX name=A block=1")
            self.assertEqual(session.run(b" # a comment"), "")
            self.assertEqual(session.run(DECLARED[:-1] % 1), "P: process 65537\n")
            self.assertRaises(LineFault, session.run, DECLARED[:-1] % 1)
            self.assertEqual(len(list(manager.processes())), 1)

    def test_faults_are_pickled(self):
        for fault in (LineFault(Fault.TOO_LONG), ScriptFault(3, Fault.TOO_LONG)):
            again = pickle.loads(pickle.dumps(fault))
            self.assertEqual((type(again), str(again), vars(again)), (type(fault), str(fault), vars(fault)))


if __name__ == "__main__":
    unittest.main()
