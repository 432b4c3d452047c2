"""The pages of vlm.draw. What a page holds of each line is compared with what `vlm.script` shows of the same script.
Expected graphs are written by hand."""

import json
import os
import random
import re
import shutil
import subprocess
import sys
import tempfile
import unittest
import xml.etree.ElementTree as ET
from pathlib import Path

from vlm import LockManager
from vlm.draw.command import svg
from vlm.draw.page import page_data
from vlm.draw.recorder import MOST_PRINTED, Recorder, shown_line
from vlm.script import LONGEST_SCRIPT, Session, ast_text, lines_of, play

HERE = Path(__file__).resolve().parent
TESTS = HERE.parents[2] / "tests"
SCRIPTS = sorted(it.with_suffix("") for it in (TESTS / "scripts" / "play").glob("*.stdout"))
sys.path.insert(0, str(TESTS))
from faulty_scripts import FAULTY  # noqa: E402

DRAW = (sys.executable, "-m", "vlm.draw")
QUEUES = ("granted", "converting", "waiting")
ZEROS, TAIL_ZEROS = 32 * "0", 96 * "0"
TWO = b"declare P node=1 group=1 quota=9 blocks=4\ndeclare Q node=2 group=1 quota=9 blocks=4\n"
DEADLOCK = TWO + b"""enq P EX name=A block=1
enq Q EX name="B\\ block=1
enq P EX name="B\\ block=2
enq Q EX name=A block=2 ast=5
"""


def data_of(script):
    """What the page of a script holds."""
    with Recorder() as recorder:
        return json.loads(json.dumps(page_data(*recorder.run(script))))


class Page:
    """Goes through what a page holds, as its own script does, and prints what is there as a script would."""

    def __init__(self, data):
        self.lines, self.at = data["lines"], 0
        self.processes, self.blocks, self.asts, self.resources = {}, {}, {}, {}
        self.queues, self.locks, self.waits, self.has_many_waits = {}, {}, {}, False

    def forward(self):
        for kind, *words in self.lines[self.at].get("changes", []):
            getattr(self, kind)(True, *words)
        self.at += 1

    def back(self):
        self.at -= 1
        for kind, *words in reversed(self.lines[self.at].get("changes", [])):
            getattr(self, kind)(False, *words)

    @staticmethod
    def put(things, key, old, new):
        """Each change says what was there, so that going back is right."""
        assert things.get(key) == old, (key, things.get(key), old)
        if new is None:
            things.pop(key, None)
        else:
            things[key] = new

    @staticmethod
    def splice(things, at, gone, come):
        assert things[at:at + len(gone)] == gone, (things, at, gone)
        things[at:at + len(gone)] = come

    def p(self, forward, pid, old, new):
        self.put(self.processes, pid, *((old, new) if forward else (new, old)))

    def b(self, forward, pid, number, old, new):
        assert pid in self.processes
        self.put(self.blocks, (pid, number), *((old, new) if forward else (new, old)))

    def a(self, forward, pid, at, gone, come):
        self.splice(self.asts.setdefault(pid, []), at, *((gone, come) if forward else (come, gone)))

    def r(self, forward, serial, old, new):
        self.put(self.resources, serial, *((old, new) if forward else (new, old)))
        self.queues.setdefault(serial, ([], [], []))

    def l(self, forward, lock, old, new):  # noqa: E743
        self.put(self.locks, lock, *((old, new) if forward else (new, old)))

    def q(self, forward, serial, queue, at, gone, come):
        assert serial in self.resources
        self.splice(self.queues[serial][queue], at, *((gone, come) if forward else (come, gone)))

    def w(self, forward, lock, gone, come):
        waits = self.waits.setdefault(lock, set())
        gone, come = (gone, come) if forward else (come, gone)
        assert waits >= set(gone) and waits.isdisjoint(come)
        waits.difference_update(gone)
        waits.update(come)

    def m(self, forward, old, new):
        assert self.has_many_waits == (old if forward else new)
        self.has_many_waits = new if forward else old

    def show(self):
        """What `show` prints."""
        lines = []
        for serial, (parent, group, name, value, valid, _, _) in sorted(self.resources.items()):
            domain = "system" if group is None else f"group {group}"
            validity = "valid" if valid else "invalid"
            lines.append(f"resource {serial} in {parent} {domain} name {name} value {value or ZEROS} {validity}")
            for word, locks in zip(QUEUES, self.queues[serial]):
                lines += [f"  {word} {lock} process {self.locks[lock][0]} {self.modes(lock)}" for lock in locks]
        return "".join(line + "\n" for line in lines or ["no resources"])

    def modes(self, lock):
        return " to ".join(filter(None, self.locks[lock][2:4]))

    def tails(self):
        """What `tails` prints."""
        lines = [f"tail {serial} value {it[5] or TAIL_ZEROS} {'valid' if it[6] else 'invalid'}"
                 for serial, it in sorted(self.resources.items())]
        return "".join(line + "\n" for line in lines or ["no resources"])

    def block(self, pid, number):
        """What `block` and `tail` print."""
        name, count = self.processes[pid][0], self.processes[pid][5]
        status, lock, value, tail = self.blocks.get((pid, number), [0, 0, "", ""])
        if not 1 <= number <= count:
            return f"{name}: block {number} none\n{name}: tail {number} none\n"
        return (f"{name}: block {number} status {status} lock {lock} value {value or ZEROS}\n"
                f"{name}: tail {number} {tail or TAIL_ZEROS}\n")

    def picture(self):
        """All of it, to compare."""
        return (self.show(), self.tails(), dict(self.processes), dict(self.blocks), self.has_many_waits,
                {pid: list(asts) for pid, asts in self.asts.items() if asts},
                {lock: set(it) for lock, it in self.waits.items() if it})


def pending_asts(script):
    """The pending ASTs of each process at the end of a script, which takes them."""
    found = {}
    with LockManager() as manager:
        list(play(manager, script))
        for pid, ast in iter(manager.take_any, None):
            found.setdefault(pid, []).append(ast_text(ast))
    return found


class Follows(unittest.TestCase):
    """What a page holds of each line is what the lock manager shows after it."""

    def follow(self, script, is_long=False):
        data, before = data_of(script), []
        page, lines = Page(data), lines_of(script)
        self.assertEqual(len(data["lines"]), len(lines))
        with LockManager() as manager:
            session = Session(manager)
            for number, line in enumerate(lines, 1):
                before.append(page.picture())
                text = session.run(line)
                page.forward()
                self.compare_line(data["lines"][number - 1], line, text)
                self.compare(page, session)
                if not is_long or number == len(lines):
                    asts = {pid: [ast_text_of(it) for it in asts] for pid, asts in page.asts.items() if asts}
                    self.assertEqual(asts, pending_asts(b"\n".join(lines[:number])), number)
        while page.at:
            page.back()
            self.assertEqual(page.picture(), before[page.at], f"back at line {page.at}")

    def compare_line(self, line, source, text):
        self.assertEqual(line["text"], shown_line(source))
        if text.count("\n") <= MOST_PRINTED:
            self.assertEqual(line.get("printed", ""), text)

    def compare(self, page, session):
        manager = session.manager
        self.assertEqual(page.show(), session.run(b"show"), page.at)
        self.assertEqual(page.tails(), session.run(b"tails"), page.at)
        living = list(manager.processes())
        self.assertEqual({it.pid for it in living}, set(page.processes), page.at)
        for process in living:
            name, *declared = page.processes[process.pid]
            self.assertEqual(declared, [process.node, process.group, process.syslck, process.quota, process.blocks])
            self.assertEqual(process.pending, len(page.asts.get(process.pid, [])), page.at)
            for number in (0, *range(1, process.blocks + 1), 255):
                words = f"{name} {number}".encode()
                self.assertEqual(page.block(process.pid, number),
                                 session.run(b"block " + words) + session.run(b"tail " + words), page.at)
        queued = [lock for lock, it in page.locks.items() if it[3]]
        if not page.has_many_waits:
            waits = {lock: {it.lock for it in manager.blockers(lock)} for lock in queued}
            self.assertEqual({lock: it for lock, it in page.waits.items() if it},
                             {lock: it for lock, it in waits.items() if it}, page.at)

    def test_the_worked_scripts(self):
        for script in SCRIPTS:
            with self.subTest(script.name):
                self.follow(script.read_bytes())
        self.assertGreaterEqual(len(SCRIPTS), 60)

    def test_random_scripts(self):
        for seed in range(12):
            with self.subTest(seed):
                self.follow(random_script(seed, 150), is_long=True)

    def test_several_grants_of_a_step(self):
        """R's lock 3 converts before Q's lock 2, so it is granted first. Lock 4 stays before both, if it is there."""
        for between in (b"", b"enq P NL name=A block=2\n"):
            self.follow(TWO + b"declare R node=3 group=1 quota=9 blocks=4\nenq P PR name=A block=1\n"
                        b"enq Q NL name=A block=1\nenq R NL name=A block=1\n" + between +
                        b"cvt R 3 CW block=1\ncvt Q 2 CW block=1\ndeq P 1\n")

    def test_a_long_queue(self):
        lines = [b"declare P%d node=1 group=1 quota=99 blocks=1" % it for it in range(80)]
        lines += [b"enq P%d EX name=A block=1" % it for it in range(80)]
        lines += [b"end P%d" % it for it in range(80)]
        self.follow(b"\n".join(lines), is_long=True)


def ast_text_of(ast):
    kind, routine, param, lock = ast
    return f"{kind} {routine} param {param} lock {lock}"


class RandomScript:
    """Makes lines that often fit together: few processes and names, and locks that exist."""

    MODES = (b"NL", b"CR", b"CW", b"PR", b"PW", b"EX")
    FLAGS = (b"valblk", b"noqueue", b"syncsts", b"expedite", b"quecvt", b"nodlckwt", b"nodlckblk", b"wide", b"system")
    STEPS = ("enq",) * 8 + ("cvt",) * 8 + ("deq",) * 5 + ("search",) * 3 + ("set", "ast", "ast", "end")

    def __init__(self, rng):
        self.rng, self.locks, self.names, self.declared = rng, 1, [], 0

    def line(self):
        if len(self.names) < 5:
            self.declared += 1
            self.names.append(b"P%d" % self.declared)
            return b"declare %s node=%d group=1 quota=40 blocks=3 syslck" % (self.names[-1], self.rng.randrange(1, 4))
        return getattr(self, self.rng.choice(self.STEPS))(self.rng.choice(self.names))

    def lock(self):
        return self.rng.choice((b"%d" % self.rng.randrange(1, self.locks + 1), b"@%d" % self.rng.randrange(4)))

    def words(self):
        """Routines and flags."""
        words = [word for word in (b"ast=7", b"bast=8 param=9") if self.rng.random() < 0.4]
        return words + [word for word in self.FLAGS if self.rng.random() < 0.12]

    def enq(self, name):
        self.locks += 1
        parent = [b"parent=" + self.lock()] if self.rng.random() < 0.2 else []
        words = [b"enq", name, self.rng.choice(self.MODES), b"name=%c" % self.rng.choice(b"ABC"),
                 b"block=%d" % self.rng.randrange(1, 4), *parent, *self.words()]
        return b" ".join(words)

    def cvt(self, name):
        words = [b"cvt", name, self.lock(), self.rng.choice(self.MODES), b"block=%d" % self.rng.randrange(1, 4)]
        return b" ".join([*words, *self.words()])

    def deq(self, name):
        words = [it for it in (b"deqall", b"cancel", b"invvalblk") if self.rng.random() < 0.15]
        value = [b"value=" + 16 * b"5a"] if self.rng.random() < 0.3 else []
        return b" ".join([b"deq", name, self.lock(), *words, *value])

    def set(self, name):
        value = 16 * (b"%02x" % self.rng.randrange(256))
        return b"set %s block=%d value=%s" % (name, self.rng.randrange(1, 4), value)

    def ast(self, name):
        return b"ast " + name

    def search(self, _name):
        return b"search node=1"

    def end(self, name):
        self.names.remove(name)
        return b"end " + name


def random_script(seed, count):
    maker = RandomScript(random.Random(seed))
    return b"\n".join(maker.line() for _ in range(count))


def drawn(script, *words):
    """How vlm-draw ends on a script from standard input: its status, what it printed, and what it told."""
    ended = subprocess.run([*DRAW, *words, "-"], input=script, capture_output=True, cwd=HERE.parent)
    return ended.returncode, ended.stdout.decode(), ended.stderr.decode()


def held_by(page):
    """What the data block of a page holds."""
    return json.loads(re.search(r'<script type="application/json" id="data">(.*?)</script>', page, re.S)[1])


class Command(unittest.TestCase):
    def test_a_page(self):
        status, page, told = drawn(DEADLOCK)
        self.assertEqual((status, told), (0, ""))
        self.assertEqual([it["text"] for it in held_by(page)["lines"]], DEADLOCK.decode().splitlines())

    def test_the_page_is_of_the_file(self):
        with tempfile.TemporaryDirectory() as folder:
            script = Path(folder) / "a & <b>"
            script.write_bytes(DEADLOCK)
            ended = subprocess.run([*DRAW, script], capture_output=True, cwd=HERE.parent)
        self.assertEqual(ended.returncode, 0)
        self.assertIn(b"<title>a &amp; &lt;b&gt;</title>", ended.stdout)

    def test_the_page_loads_nothing(self):
        page = drawn(DEADLOCK)[1]
        self.assertEqual(re.findall(r"(?:src|href)=|url\(|@import|https?://(?!www\.w3\.org/2000/svg)", page), [])

    def test_faulty_scripts_end_as_they_are_played(self):
        """The command is called within this process, since there are many."""
        for script, _, fault in FAULTY:
            with self.subTest(script), Recorder() as recorder:
                records, told = recorder.run(script)
                self.assertEqual(f"{told}\n".encode(), fault)
                self.assertEqual(len(records), int(re.match(rb"line (\d+)", fault)[1]) - 1)

    def test_a_fault_comes_after_the_page_of_the_lines_before_it(self):
        for words in ((), ("--dot",)):
            status, page, told = drawn(TWO + b"frob\nshow", *words)
            self.assertEqual((status, told), (1, "line 3: unknown command\n"))
            self.assertTrue(page)
        data = held_by(drawn(TWO + b"frob\nshow")[1])
        self.assertEqual((len(data["lines"]), data["fault"]), (2, "line 3: unknown command"))

    def test_a_picture_runs_the_lines_up_to_its_own(self):
        self.assertEqual(drawn(TWO + b"frob", "--svg", "2")[0], 0)
        self.assertEqual(drawn(TWO + b"frob\nshow", "--svg", "4"), (1, "", "line 3: unknown command\n"))

    def test_lines_that_are_not_there(self):
        for number in ("0", "3", "-1"):
            self.assertEqual(drawn(TWO, f"--svg={number}"), (2, "", f"there is no line {number}: the script has 2\n"))

    def test_refused_words(self):
        for words in (("--svg", "x"), ("--svg", "1", "--dot"), ("--frob",), ("a",)):
            self.assertEqual(drawn(TWO, *words)[:2], (2, ""))

    def test_help(self):
        status, text, told = drawn(b"", "--help")
        self.assertEqual((status, told), (0, ""))
        for word in ("--dot", "--svg N", "SCRIPT", "standard input"):
            self.assertIn(word, text)

    def test_what_cannot_be_read(self):
        ended = subprocess.run([*DRAW, "no/such/file"], capture_output=True, cwd=HERE.parent)
        self.assertEqual((ended.returncode, ended.stdout), (3, b""))
        self.assertTrue(ended.stderr.startswith(b"read: "), ended.stderr)
        self.assertEqual(drawn((LONGEST_SCRIPT + 1) * b"\n"), (3, "", "script too long\n"))

    def test_without_the_library(self):
        for words in ((), ("--dot",), ("--svg", "1")):
            ended = subprocess.run([*DRAW, *words, "-"], input=TWO, capture_output=True, cwd=HERE.parent,
                                   env={**os.environ, "VLM_LIBRARY": "/no/such/file"})
            self.assertEqual((ended.returncode, ended.stdout), (3, b""))
            self.assertRegex(ended.stderr, rb"^the library /no/such/file .* by VLM_LIBRARY\n$")

    @unittest.skipUnless(os.path.exists("/dev/full"), "there is no /dev/full")
    def test_what_cannot_be_written(self):
        with open("/dev/full", "wb") as full:
            ended = subprocess.run([*DRAW, "-"], input=TWO, stdout=full,
                                   stderr=subprocess.PIPE, cwd=HERE.parent)
        self.assertEqual((ended.returncode, ended.stderr), (3, b"write\n"))

    @unittest.skipUnless(os.path.exists("/dev/full"), "there is no /dev/full")
    def test_what_cannot_be_told(self):
        for target in ("/dev/full", "&-"):
            for words, status in ((["no/such/file"], 3), (["--svg", "1", "-"], 1), (["--svg", "7", "-"], 2)):
                ended = subprocess.run(["sh", "-c", f'exec "$@" 2>{target}', "sh", *DRAW, *words], input=b"frob\n",
                                       stdout=subprocess.PIPE, cwd=HERE.parent)
                self.assertEqual((target, ended.returncode, ended.stdout), (target, status, b""))

    def test_an_empty_script(self):
        self.assertEqual(held_by(drawn(b"")[1])["lines"], [])


class Names(unittest.TestCase):
    """Names and lines of any bytes."""

    HOSTILE = b"enq P EX block=1 name=<script>alert(1)</script>\n# <!-- <script> </script> & \"'\nshow\n"

    def test_names_are_escaped(self):
        page = drawn(TWO + self.HOSTILE)[1]
        self.assertEqual(page.count("<script"), 2)
        self.assertEqual(page.count("</script"), 2)
        self.assertNotIn("<!--", page)
        data = held_by(page)
        self.assertEqual(data["lines"][2]["changes"][1][3][2], "<script>alert(1)</script>")
        self.assertEqual(data["lines"][3]["text"], "# <!-- <script> </script> & \"'")

    def test_lines_are_shown(self):
        texts = {b"# caf\xc3\xa9": "# caf\u00e9", b"# \xff\x00": "# \\xff\\x00", b"a\tb\r": "a b",
                 "# \u202e".encode(): "# \\u202e"}
        self.assertEqual({it: shown_line(it) for it in texts}, texts)

    def test_pictures_are_xml(self):
        for number in range(1, 6):
            root = ET.fromstring(drawn(TWO + self.HOSTILE, "--svg", str(number))[1])
            self.assertEqual(root.tag, "{http://www.w3.org/2000/svg}svg")


class Graphs(unittest.TestCase):
    def arrows(self, text):
        """The arrows of a graph in the language of Graphviz, by the labels of their ends."""
        names = dict(re.findall(r'^  (p\d+) \[label="(\w+)"\];$', text, re.M))
        found = re.findall(r'^  (p\d+) -> (p\d+) \[label="(.*?)"(, color=red, penwidth=3)?\];$', text, re.M)
        return {(names[source], names[target], label, bool(mark)) for source, target, label, mark in found}

    def test_a_deadlock(self):
        text = drawn(DEADLOCK, "--dot")[1]
        self.assertEqual(self.arrows(text), {("P", "Q", '\\"B\\\\', True), ("Q", "P", "A", True)})

    def test_a_queue(self):
        """Q and R wait for P; R also waits for Q, whose request is queued before its own."""
        script = TWO + b"declare R node=3 group=1 quota=9 blocks=4\n" + b"".join(
            b"enq %s EX name=A block=1\n" % name for name in (b"P", b"Q", b"R"))
        self.assertEqual(self.arrows(drawn(script, "--dot")[1]),
                         {("Q", "P", "A", False), ("R", "P", "A", False), ("R", "Q", "A", False)})

    def test_nobody_waits(self):
        self.assertEqual(self.arrows(drawn(TWO, "--dot")[1]), set())

    @unittest.skipUnless(shutil.which("dot"), "there is no Graphviz")
    def test_graphviz_reads_it(self):
        for script in (DEADLOCK, TWO):
            ended = subprocess.run(["dot", "-Tsvg"], input=drawn(script, "--dot")[1].encode(), capture_output=True)
            self.assertEqual((ended.returncode, ended.stderr), (0, b""))
            ET.fromstring(ended.stdout)

    def test_a_search_finds_a_cycle(self):
        """The request of Q's lock 4 is the most recent one. It waits for P's lock 1, and P's lock 3 for Q's lock 2."""
        line = data_of(DEADLOCK + b"search node=1")["lines"][-1]
        self.assertEqual(line["printed"], "search: victim 4\n")
        text = ("A circle: Q waits for P on A (lock 4 wants EX, lock 1 holds EX), "
                'P waits for Q on "B\\ (lock 3 wants EX, lock 2 holds EX). The victim is lock 4 of Q.')
        self.assertEqual(line["cycle"], {"victim": 4, "waits": [[4, 1], [3, 2]], "text": text})

    def test_a_cycle_that_is_too_long_to_be_found(self):
        """Q's request, the last one, waits for 1,000 locks of X before it waits for P's, and P waits for Q."""
        many = b"declare X node=3 group=1 quota=1000 blocks=1\n" + 1_000 * b"enq X CR name=A block=1\n"
        held = b"enq P CR name=A block=1\nenq Q EX name=B block=1\n"
        script = TWO + many + held + b"enq P EX name=B block=2\nenq Q EX name=A block=2\nsearch node=1"
        text = "The circle is too long to be shown. The victim is lock 1004 of Q."
        self.assertEqual(data_of(script)["lines"][-1]["cycle"], {"victim": 1_004, "waits": [], "text": text})

    def test_a_process_in_its_own_way(self):
        line = data_of(TWO + b"enq P EX name=A block=1\nenq P EX name=A block=2\nsearch node=1")["lines"][-1]
        self.assertEqual((line["cycle"]["victim"], line["cycle"]["waits"]), (2, [[2, 1]]))

    def test_each_line_of_worked_scripts_has_a_picture(self):
        for name in ("conversion-deadlock", "blocked-by-oneself", "sublocks", "departure"):
            script = (TESTS / "scripts" / "play" / name).read_bytes()
            for number in range(1, len(lines_of(script)) + 1):
                texts = {it.text for it in ET.fromstring(svg(script, number)).iter("{http://www.w3.org/2000/svg}text")}
                self.assertIn(f"Line {number}: {shown_line(lines_of(script)[number - 1])}", texts)

    def test_a_picture_has_the_queues(self):
        """P holds A, and Q's request on it is the one that line 6 queues."""
        boxes = svg_boxes(svg(DEADLOCK, 6))
        self.assertEqual(boxes, {("granted", "EX P, lock 1"), ("granted", "EX Q, lock 2"), ("waiting", "EX P, lock 3"),
                                 ("waiting changed", "EX Q, lock 4 \u25cf")})

    def test_a_picture_marks_cycle_and_victim(self):
        classes = [it.get("class") for it in ET.fromstring(svg(DEADLOCK + b"search node=1", 7)).iter()]
        self.assertEqual((classes.count("wait cycle"), classes.count("process victim")), (2, 1))


def svg_boxes(text):
    """The class of each lock's box in a picture, with the text in it."""
    items = list(ET.fromstring(text))
    return {(box.get("class"), label.text) for box, label in zip(items, items[1:])
            if (box.get("class") or "").split(" ")[0] in QUEUES}


if __name__ == "__main__":
    unittest.main()
