"""The pages of vlm.draw in a browser: Chromium goes through them by buttons, keys and addresses, and what they show is
compared with what `vlm.script` shows of the same script. Without Chromium and its driver these tests are skipped."""

import json
import re
import shutil
import subprocess
import tempfile
import time
import unittest
from pathlib import Path
from urllib.request import ProxyHandler, Request, build_opener

from vlm import BadParamError, Condition, LockManager, Process
from vlm.draw.page import page
from vlm.draw.recorder import Recorder
from vlm.script import Session, lines_of, read_line

SCRIPTS = Path(__file__).resolve().parents[3] / "tests" / "scripts" / "play"
# The ways through a script: deadlocks, trees, value blocks, ASTs, ends of processes.
SHOWN = ("a-circle-of-three", "conversion-deadlock", "blocked-by-oneself", "sublocks", "value-block", "asts-in-order",
         "departure", "no-overtaking-of-a-blocked-head")
ARROW_LEFT, ARROW_RIGHT, HOME, END = "\ue012", "\ue014", "\ue011", "\ue010"
TWO = b"declare P node=1 group=1 quota=9 blocks=4\ndeclare Q node=2 group=1 quota=9 blocks=4\n"
# What the page shows, as a script would print it.
# How long a link may take.
SECONDS = 20
READ_QUEUES = """
return [...document.querySelectorAll("[data-resource]")].flatMap((card) => [
  `resource ${card.dataset.resource} name ${card.querySelector(".name").textContent}`,
  ...[...card.querySelectorAll("[data-lock]")].map((it) => `  ${it.dataset.queue} ${it.dataset.lock} ` +
    `process ${it.childNodes[1].textContent.trim()} ${it.querySelector("b").textContent.replace("→", "to")}`)]);"""
READ_BLOCKS = """
return [...document.querySelectorAll("[data-block]")].map((row) => {
  const [status, lock] = [...row.querySelectorAll("td")].map((it) => it.textContent);
  return `${row.closest("[data-process]").querySelector(".name").textContent} ${row.dataset.block} ${status} ${lock}`;
});"""


class Browser:
    """Chromium without a window. It is told what to do by the HTTP of its driver (WebDriver)."""

    def __init__(self):
        self._folder = tempfile.TemporaryDirectory()
        self._driver = subprocess.Popen(["chromedriver", "--port=0"], stdout=subprocess.PIPE, text=True)
        self._opener = build_opener(ProxyHandler({}))
        try:
            self._begin()
        except BaseException:
            self._end()
            raise

    def _begin(self):
        port = next(filter(None, (re.search(r"successfully on port (\d+)", line) for line in self._driver.stdout)))[1]
        self._at = f"http://127.0.0.1:{port}/session"
        words = ["--headless=new", "--no-sandbox", "--disable-gpu", "--disable-dev-shm-usage", "--window-size=1280,900",
                 f"--user-data-dir={self._folder.name}"]
        wanted = {"goog:chromeOptions": {"args": words}, "goog:loggingPrefs": {"browser": "ALL"}}
        self._at += "/" + self.tell("", capabilities={"alwaysMatch": wanted})["sessionId"]

    def tell(self, path, **words):
        request = Request(self._at + path, json.dumps(words).encode(), {"Content-Type": "application/json"})
        with self._opener.open(request, timeout=60) as answer:
            return json.load(answer)["value"]

    def close(self):
        try:
            self._opener.open(Request(self._at, method="DELETE"), timeout=60).close()
        finally:
            self._end()

    def _end(self):
        self._driver.terminate()
        self._driver.wait()
        self._driver.stdout.close()
        self._folder.cleanup()

    def open(self, address):
        self.tell("/url", url=address)

    def run(self, text, *words):
        return self.tell("/execute/sync", script=text, args=list(words))

    def click(self, selector):
        element = self.tell("/element", using="css selector", value=selector)
        self.tell(f"/element/{next(iter(element.values()))}/click")

    def press(self, key):
        keys = [{"type": "keyDown", "value": key}, {"type": "keyUp", "value": key}]
        self.tell("/actions", actions=[{"type": "key", "id": "keys", "actions": keys}])

    def faults(self):
        """What the console was told since the last call."""
        return self.tell("/se/log", type="browser")


@unittest.skipUnless(shutil.which("chromedriver") and shutil.which("chromium"), "there is no browser")
class InBrowser(unittest.TestCase):
    @classmethod
    def setUpClass(cls):
        cls.browser = Browser()
        cls.addClassCleanup(cls.browser.close)
        folder = tempfile.TemporaryDirectory()
        cls.addClassCleanup(folder.cleanup)
        cls.page = Path(folder.name, "page.html")

    def setUp(self):
        self.addCleanup(lambda: self.assertEqual(self.browser.faults(), []))

    def open(self, script, fragment=""):
        with Recorder() as recorder:
            self.page.write_text(page("a script", *recorder.run(script)), encoding="utf-8")
        # A fragment alone would not load the page again.
        self.browser.open("about:blank")
        self.browser.open(self.page.as_uri() + fragment)

    def at(self):
        return self.browser.run("return Number(document.getElementById('number').value)")

    def await_line(self, line):
        """A link changes the page a moment after its click."""
        end = time.monotonic() + SECONDS
        while self.at() != line and time.monotonic() < end:
            time.sleep(0.02)

    def text(self, selector):
        return self.browser.run("return document.querySelector(arguments[0]).textContent", selector)

    def texts(self):
        """What the page shows."""
        return self.browser.run(READ_QUEUES), self.browser.run(READ_BLOCKS)

    def test_each_line_forward_by_the_button_and_back_by_the_key(self):
        for name in SHOWN:
            with self.subTest(name):
                script = (SCRIPTS / name).read_bytes()
                self.open(script)
                expected = dict(expected_texts(script))
                passed = [self.at()]
                while self.browser.run("return !document.getElementById('next').disabled"):
                    self.browser.click("#next")
                    passed.append(self.at())
                    self.assertEqual(self.texts(), expected[passed[-1]], passed[-1])
                self.assertEqual(passed, [0, *sorted(it for it in expected if it)])
                for line in reversed(passed[:-1]):
                    self.browser.press(ARROW_LEFT)
                    self.assertEqual((self.at(), self.texts()), (line, expected[line]))

    def test_addresses_and_keys(self):
        script = (SCRIPTS / "a-circle-of-three").read_bytes()
        last, expected = len(lines_of(script)), dict(expected_texts(script))
        self.open(script, "#line=7")
        self.assertEqual((self.at(), self.texts()), (7, expected[7]))
        for key, line in ((END, last), (HOME, 0), (ARROW_RIGHT, 2)):
            self.browser.press(key)
            self.assertEqual((self.at(), self.texts()), (line, expected[line]))
        self.browser.click("#script li:nth-child(6) a")
        self.await_line(6)
        self.assertEqual((self.at(), self.texts()), (6, expected[6]))
        self.browser.click("#last")
        self.assertEqual(self.browser.run("return location.hash"), f"#line={last}")

    def test_a_deadlock_is_marked(self):
        granted = b"enq P PR name=A block=1\nenq Q PR name=A block=1\n"
        self.open(TWO + granted + b"cvt P 1 EX block=1\ncvt Q 2 EX block=1\nsearch node=1", "#line=7")
        text = self.text("#search")
        self.assertIn("The victim is lock 2 of Q.", text)
        self.assertIn("Q waits for P on A (lock 2 holds PR and wants EX, lock 1 holds PR and wants EX), P waits", text)
        waits = "return [...document.querySelectorAll('#search [data-wait]')].map((it) => it.dataset.wait).sort()"
        self.assertEqual(self.browser.run(waits), ["131073 65537", "65537 131073"])
        self.assertEqual(self.browser.run("return document.querySelectorAll('#search .wait.cycle').length"), 2)
        self.assertEqual(self.text("#search .victim.process + text"), "Q")

    def test_many_waits_are_a_table(self):
        """Of 15 requests in a queue the last one waits for 14 locks: more than 80 waits in all."""
        declared = b"".join(b"declare P%d node=1 group=1 quota=9 blocks=1\n" % it for it in range(15))
        self.open(declared + b"".join(b"enq P%d EX name=A block=1\n" % it for it in range(15)), "#line=30")
        self.assertIn("With more than 60 requests or 80 waits a graph can't be read.", self.text("#waits"))
        self.assertEqual(self.browser.run("return document.querySelectorAll('#waits tbody tr').length"), 14)
        self.assertIsNone(self.browser.run("return document.querySelector('#waits svg')"))
        self.browser.press(HOME)
        self.assertEqual(self.text("#waits"), "no request waits")

    def test_names_are_text(self):
        name = "<script>alert(1)</script>"
        self.open(TWO + f"enq P EX block=1 name={name}\nenq Q EX block=1 name={name}\n".encode(), "#line=4")
        self.assertEqual(self.text(".name"), name)
        self.assertEqual(self.browser.run("return document.scripts.length"), 2)
        self.assertIn(name, self.text("#waits table"))

    def test_a_fault_is_shown(self):
        self.open(TWO + b"frob", "#line=2")
        self.assertIn("line 3: unknown command", self.text("#fault"))

    def test_a_long_script_is_quick(self):
        lines = [b"declare P%d node=1 group=1 quota=99 blocks=1" % it for it in range(2_000)]
        lines += [b"enq P%d PW name=R%d block=1" % (it % 2_000, it % 1_000) for it in range(6_000)]
        lines += [b"end P%d" % it for it in range(2_000)]
        self.open(b"\n".join(lines))
        self.assertLess(self.browser.run("return performance.getEntriesByType('navigation')[0].domComplete"), 10_000)
        before = self.at()
        for line in (10_000, 9_999, 5_000, 8_000, 0):
            self.assertLess(self.least_time(before, line), 3_000)
            self.assertEqual(self.at(), line)
            before = line

    def least_time(self, before, line):
        """How long the page takes from one line to another, in milliseconds: the least of at most three tries, since
        other programs may have the processors."""
        passed = "const began = performance.now(); show(arguments[0]); return performance.now() - began"
        least = self.browser.run(passed, line)
        for _ in range(2):
            if least >= 3_000:
                self.browser.run(passed, before)
                least = min(least, self.browser.run(passed, line))
        return least


def expected_texts(script):
    """What the page is to show after each line that does something, and at the start."""
    yield 0, ([], [])
    with LockManager() as manager:
        session = Session(manager)
        lines = lines_of(script)
        for number, line in enumerate(lines, 1):
            session.run(line)
            if read_line(line) or number == len(lines):
                yield number, (queues(session), blocks(session))


def queues(session):
    """The queues as `show` prints them, by the names of processes."""
    names = {str(pid): name for name, pid in session.names.pids.items()}
    lines = [line for line in session.run(b"show").splitlines() if line != "no resources"]
    lines = [re.sub(r"^(resource \d+) .* (name \S+) .*", r"\1 \2", line) for line in lines]
    return [re.sub(r"(?<= process )\d+", lambda pid: names[pid[0]], line) for line in lines]


def blocks(session):
    """The status blocks that are in use, with the names of their statuses."""
    found = []
    for name, pid in sorted(session.names.pids.items(), key=lambda it: it[1]):
        for number in range(1, 256):
            try:
                block = Process(session.manager, pid).status_block(number)
            except BadParamError:
                break
            if block.status or block.lock or any(block.value + block.tail):
                status = Condition(block.status).name if block.status else "pending" if block.lock else "none"
                found.append(f"{name} {number} {status} {block.lock or 'none'}")
    return found


if __name__ == "__main__":
    unittest.main()
