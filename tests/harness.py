"""What all tests share: where things are, what a test is, and how programs are run."""

import re
import subprocess
import tempfile
import threading
from concurrent.futures import ThreadPoolExecutor
from functools import partial
from pathlib import Path
from typing import Callable, NamedTuple

TESTS = Path(__file__).resolve().parent
TOP = TESTS.parent
PLAY = TESTS / "scripts" / "play"
STORED = TOP / "crates" / "vlm"
# A run that takes longer has failed.
SECONDS = 20
# The longest script, in bytes.
LONGEST = 16_777_216
# How much a failure shows of what a program said: its beginning, which often has the reason, and its end.
FIRST_SHOWN, LAST_SHOWN = 300, 600


class Test(NamedTuple):
    """A test of a program: its name, and a function that yields what is wrong with the program at a path."""

    name: str
    check: Callable


class Result(NamedTuple):
    """What a test found: its name, and what is wrong, if anything."""

    name: str
    wrong: list


class Ended(NamedTuple):
    """How a run ended: its status, what it printed and what it wrote to standard error."""

    status: int
    printed: bytes
    told: bytes


def run(words, program=None, script=b"", seconds=SECONDS, **how):
    """Runs a program on a script given as bytes."""
    ended = subprocess.run(words, executable=program, input=script, capture_output=True, timeout=seconds, **how)
    return Ended(ended.returncode, ended.stdout, ended.stderr)


def difference(found, wanted):
    """What is wrong with a run that was to end so."""
    if found != wanted:
        yield f"{found} and not {wanted}"


def ends_of(text):
    """A text, or the beginning and the end of a long one."""
    is_short = len(text) <= FIRST_SHOWN + LAST_SHOWN
    return text if is_short else f"{text[:FIRST_SHOWN]} ... {text[-LAST_SHOWN:]}"


def result_of(test, program):
    """What a test found. A run that hangs, or that does not start, is wrong too, and so is a test that fails itself."""
    try:
        return Result(test.name, [str(it) for it in test.check(program)])
    except Exception as failed:
        return Result(test.name, [f"{type(failed).__name__}: {failed}"])


def chosen(cases):
    """Those of some tests, cases or results that are wanted: those with this text in their names."""
    return [it for it in cases if chosen.text in it.name]


chosen.text = ""


def results_of(tests, program, side_by_side):
    """Runs tests, several at once, and yields their results in order."""
    with ThreadPoolExecutor(side_by_side) as pool:
        yield from pool.map(lambda test: result_of(test, program), tests)


def kit_folder():
    """The folder of the kit."""
    told = subprocess.run(["rt", "doc"], capture_output=True, text=True, check=True).stdout.strip()
    return Path(told).parent


class Once:
    """A function without arguments that is called once, whichever thread comes first."""

    def __init__(self, function):
        self.function = function
        self.lock = threading.Lock()
        self.made = None

    def __call__(self):
        with self.lock:
            if self.made is None:
                self.made = self.function()
            return self.made


# A folder that lasts as long as this program, with blanks in its name.
ROOM = Once(lambda: tempfile.TemporaryDirectory(prefix="vlm tests "))
# Where the linker looks for libraries a blank parts names, so those of LD_PRELOAD have a folder of their own.
PLAIN_ROOM = Once(lambda: tempfile.TemporaryDirectory(prefix="vlm-tests-"))


def built_library(source):
    """Builds a shared library of a file of tests, and gives its path."""
    made = Path(PLAIN_ROOM().name) / f"{Path(source).stem}.so"
    clang = kit_folder() / "toolchain" / "bin" / "clang"
    subprocess.run([clang, "-shared", "-fPIC", "-nostdlib", "-O1", "-o", made, TESTS / source], check=True)
    return str(made)


# Libraries that come before the C library where LD_PRELOAD names them.
INTERPOSERS = {name: Once(partial(built_library, f"interpose/{name}.c"))
               for name in ("refuse_allocation", "refuse_thread", "no_random_bytes", "zero_random_bytes",
                            "single_bytes")}


class Case(NamedTuple):
    """A script, the words that the program is run with, and how that run ends. Refused words leave it unread."""

    name: str
    words: list
    script: bytes
    wanted: Ended
    is_read: bool = True

    def test(self):
        return Test(self.name, self.check)

    def check(self, program):
        """What is wrong with the run of a program, which is to read the whole script or nothing."""
        with tempfile.TemporaryFile() as script:
            script.write(self.script)
            script.seek(0)
            done = subprocess.run(["vlm", *self.words], executable=program, stdin=script, capture_output=True,
                                  timeout=SECONDS)
            count = script.seek(0, 1)
        yield from difference(Ended(done.returncode, done.stdout, done.stderr), self.wanted)
        if count != (len(self.script) if self.is_read else 0):
            yield f"it read {count} bytes of the script"


# A case's line, which comes after what the program wrote to standard error.
CASE = re.compile(rb"^case=(\S+) run=(\S+)(?: status=(\d+))?.*$")


class Progress:
    """Where a long run says how far it is. `note` gets how many of its cases are done, and how many there are."""

    note = staticmethod(lambda done, total: None)


def try_cases(crate, folder, total):
    """Runs the cases of a folder on the checked build. Gives what they printed and what was told, as the kit writes
    it."""
    words, told, done = ["rt", "try", "--cases", folder], [], 0
    with tempfile.TemporaryFile() as printed:
        with subprocess.Popen(words, cwd=crate, stdout=printed, stderr=subprocess.PIPE) as run:
            for line in run.stderr:
                told.append(line)
                done += bool(CASE.match(line))
                Progress.note(done, total)
        printed.seek(0)
        return printed.read(), b"".join(told)


def run_checked(crate, cases):
    """Runs cases on the kit's checked build, which is made once, and yields their results in order."""
    if not cases:
        return
    with tempfile.TemporaryDirectory() as folder:
        for number, case in enumerate(cases):
            (Path(folder) / f"{number:05}").write_bytes(case.script)
            (Path(folder) / f"{number:05}.args").write_text("".join(word + "\n" for word in case.words))
        output, errors = try_cases(crate, folder, len(cases))
    printed, told = texts_of(output), endings_of(errors)
    for number, case in enumerate(cases):
        name = b"%05d" % number
        if name not in told:
            yield Result(case.name, [f"it did not run: {errors[-300:]!r}"])
            continue
        found = Ended(told[name][0], printed.get(name, b""), told[name][1])
        yield Result(case.name, list(difference(found, case.wanted)))


def texts_of(output):
    """What each case printed, by its name."""
    texts, name = {}, None
    for line in output.splitlines(keepends=True):
        if re.fullmatch(rb"== \d{5}\n", line):
            name = line[3:-1]
            texts[name] = b""
        elif name:
            texts[name] += line
    return texts


def endings_of(output):
    """Each case's status and what it wrote to standard error, by its name."""
    endings, before = {}, b""
    for line in output.splitlines(keepends=True):
        case = CASE.match(line)
        if case:
            status = int(case[3]) if case[2] == b"ended" else -1
            endings[case[1]] = status, before
            before = b""
        else:
            before += line
    return endings
