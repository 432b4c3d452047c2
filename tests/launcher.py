"""./vlm itself, in a copy of the tree with blanks in its name and a stub in the place of rt: with a proved program and
without, as it proves, and where something is missing. The stub's answers come from the program that is tested."""

import fcntl
import os
import re
import signal
import subprocess
import tempfile
import time
from functools import partial
from pathlib import Path

from harness import SECONDS, TOP, Test

KIT = (TOP / "KIT").read_text().strip()
SCRIPT = b"show\nfrob\n"

# The stub of rt. It notes each call, and does what its environment says.
STUB = """#!/bin/bash
name=$(basename "$PWD")
case $1 in
    version) echo "$KIT" ;;
    try)
        shift 2
        [ -z "$SILENT" ] || { echo "checked: $SILENT" >&2; echo 'run=no-answer proved=no' >&2; exit 6; }
        "$PROGRAM" "$@"
        status=$?
        echo "checked: ended status=$status" >&2
        echo "races: not looked for, since a kit has no ThreadSanitizer" >&2
        echo "run=ended status=$status runners=1 races=unchecked proved=no" >&2
        exit $status ;;
    lib | run)
        echo "begun $name" >>"$CALLS"
        sleep "${PAUSE:-0}"
        [ "$name" != "$WRONG" ] || { echo "error: $name is wrong"; exit 1; }
        mkdir -p out
        if [ "$1" = run ]; then cp "$PROGRAM" out/vlm; else echo "$name" >"out/lib$name.a"; fi
        echo "ended $name" >>"$CALLS" ;;
esac
"""


def put_program(path, text):
    """Writes a program by a process of its own: the system runs no program that is open for writing, as it would be in
    what another thread starts meanwhile."""
    subprocess.run(["install", "-m", "755", "/dev/stdin", path], input=text.encode(), check=True)


class Tree:
    """A copy of what ./vlm reads, with a stub of rt on the path."""

    def __init__(self, folder, program):
        self.top = Path(folder) / "a folder"
        self.calls = Path(folder) / "calls"
        self.kit = Path(folder) / "bin"
        for name in crates_with_libraries():
            (self.top / "crates" / name / "src").mkdir(parents=True)
        copied = [TOP / name for name in ("vlm", "crates.txt", "KIT", "VERSION", "tools")]
        subprocess.run(["cp", "-r", *copied, self.top], check=True)
        self.kit.mkdir()
        self.stub = self.kit / "rt"
        put_program(self.stub, STUB)
        self.env = {"PATH": f"{self.kit}:{os.environ['PATH']}", "KIT": KIT, "CALLS": str(self.calls),
                    "PROGRAM": str(Path(program).resolve()), "WRONG": "", "SILENT": "", "TMPDIR": folder}

    def start(self, *words, script=subprocess.DEVNULL, path=None, **env):
        return subprocess.Popen([path or self.top / "vlm", *words], stdin=script, stdout=subprocess.PIPE,
                                stderr=subprocess.PIPE, cwd="/", env={**self.env, **env})

    def run(self, *words, script=b"", path=None, **env):
        """Runs ./vlm from another folder. Gives its status, what it printed and the lines that it told."""
        started = self.start(*words, script=subprocess.PIPE, path=path, **env)
        printed, told = started.communicate(script, timeout=SECONDS)
        return started.returncode, printed, told.decode().splitlines()

    def noted(self):
        return self.calls.read_text().splitlines() if self.calls.exists() else []


def crates_with_libraries():
    """Each crate of crates.txt, with those that it uses."""
    lines = [line.split("#")[0].split(":") for line in (TOP / "crates.txt").read_text().splitlines()]
    uses = {line[0].split()[0]: line[1].split() for line in lines if len(line) == 2}
    return {name: [low for low in below if low in uses] for name, below in uses.items()}


def unlike(ended, status, printed, *told):
    """What is wrong with a run: its status, what it printed, and each line that it told, by its parts."""
    if ended[:2] != (status, printed) or len(ended[2]) != len(told):
        yield f"{ended} and not {status}, {printed} and {len(told)} lines"
    for line, wanted in zip(ended[2], told):
        if not re.search(wanted, line):
            yield f"{line!r} has no {wanted!r}"


UNPROVED = "^vlm: this run is checked, not proved, .*: ./vlm prove proves [0-9]+ crates$"


def unproved_runs(tree):
    """Without a proved program the words run on the checked build, with the program's own text and status."""
    yield from unlike(tree.run("play", script=SCRIPT), 1, b"no resources\n", UNPROVED, "^line 2: unknown command$")
    yield from unlike(tree.run("play", script=b"show\n"), 0, b"no resources\n", UNPROVED)
    yield from unlike(tree.run("cluster", "--nodes", "1", script=b"search node=1\n"), 0,
                      b"node 1 item 1: victim none\nnode 1 item 2: NORMAL\njournal 2\n", UNPROVED)
    yield from unlike(tree.run("watch", "--name", "A", script=b"search node=1\n"), 0,
                      b"line 1 held 0 0 0 0 0 0 conversions 0 waiters 0 value " + 32 * b"0" + b" valid\n",
                      UNPROVED)
    yield from unlike(tree.run("--version"), 0, b"vlm: checked, not proved\n")
    status, printed, told = tree.run("frob")
    if (status, printed, told[1]) != (2, b"", "error: unrecognized subcommand 'frob'"):
        yield f"frob ends with {status}, {printed} and {told}"


def unanswered_runs(tree):
    """A run that is too much for the checked build ends with one line that says why."""
    for said, wanted in (("no-answer: the program wrote more than 1048576 bytes", "1 MiB"),
                         ("no-answer: the program did not end within the time limit", "60 seconds"),
                         ("fault", "no answer; .*/out/checked.log")):
        yield from unlike(tree.run("play", script=SCRIPT, SILENT=said), 6, b"", UNPROVED,
                          f"^vlm: the checked build .*{wanted}.*: ./vlm prove")


def full_disk(tree):
    """A full disk is reported in one line."""
    df = tree.kit / "df"
    put_program(df, "#!/bin/sh\necho Avail\necho 2048\n")
    yield from unlike(tree.run("play", script=SCRIPT, SILENT="fault"), 4, b"", UNPROVED,
                      "^vlm: the disk has 2 MB left, and the checked build gives no answer: make room there$")
    yield from unlike(tree.run("prove"), 4, b"",
                      "^vlm: the disk has 2 MB left, and a whole proof keeps .*: make room there$")
    if tree.noted():
        yield f"begun {tree.noted()}"


def slow_pipe(tree):
    """A script that comes late is read to its end."""
    started = tree.start("play", script=subprocess.PIPE)
    started.stdin.write(b"show\n")
    started.stdin.flush()
    time.sleep(0.5)
    printed, _ = started.communicate(b"show\n", timeout=SECONDS)
    if printed != b"no resources\n" * 2:
        yield f"{printed!r}"


def out_of_order(tree):
    """What began before a crate that it uses had ended."""
    ended = set()
    for line in tree.noted():
        event, name = line.split()
        if event == "begun":
            yield from (f"{name} began before {low}" for low in crates_with_libraries()[name] if low not in ended)
        else:
            ended.add(name)


def proofs(tree):
    """Each crate of what is delivered is proved after those below it, and from then on the program runs alone."""
    status, printed, told = tree.run("prove", PAUSE="0.1")
    names = [line.split()[1] for line in tree.noted() if line.startswith("begun")]
    yield from unlike((status, printed, told[:1]), 0, b"", f"^vlm: proving {len(names)} crates, up to ")
    last = f"^vlm: {len(names)} of {len(names)} crates proved, [0-9]+ seconds, done$"
    yield from unlike((0, b"", told[-1:]), 0, b"", last)
    yield from progress_of(told[1:-1], names)
    if len(set(names)) != len(names) or not {"vlm", "vlm_capi", "vlm_core"} <= set(names) or "vlm_core_tests" in names:
        yield f"proved {names}"
    yield from out_of_order(tree)
    yield from unlike(tree.run("play", script=SCRIPT), 1, b"no resources\n", "^line 2: unknown command$")
    yield from unlike(tree.run("--version"), 0, f"vlm: proved, no commit, {KIT}\n".encode())
    yield from unlike(tree.run("prove"), 0, b"", "^vlm: all is proved already$")


def progress_of(told, names):
    """Each line says how many crates are proved, no fewer than the line before, and what is being proved."""
    counts, seen = [], set()
    for line in told:
        parts = re.fullmatch(rf"vlm: ([0-9]+) of {len(names)} crates proved, [0-9]+ seconds, now (\w+(?:, \w+)*)", line)
        if not parts:
            yield f"told {line!r}"
            return
        counts.append(int(parts[1]))
        seen |= set(parts[2].split(", "))
    if counts != sorted(counts) or seen != set(names):
        yield f"counts {counts}; never told {set(names) - seen}"


def library_alone(tree):
    """After `rt ci` the program is proved, and the library for C alone is left to build."""
    tree.run("prove")
    began = len(tree.noted())
    (tree.top / "crates" / "vlm_capi" / "out" / "libvlm_capi.a").write_text("another\n")
    status, _, _ = tree.run("prove")
    begun = [line.split()[1] for line in tree.noted()[began:] if line.startswith("begun")]
    if status or "vlm_capi" not in begun or "vlm" in begun:
        yield f"status {status}, {begun}"
    yield from unlike(tree.run("prove"), 0, b"", "^vlm: all is proved already$")


def links_and_changes(tree):
    """The proved program runs through a symbolic link and without rt, and no more once a source is newer."""
    tree.run("prove")
    link = tree.kit / "linked"
    link.symlink_to(tree.top / "vlm")
    yield from unlike(tree.run("play", path=link, script=b"show\n", PATH="/usr/bin:/bin"), 0, b"no resources\n")
    (tree.top / "crates" / "vlm_core" / "src" / "lib.rt").touch()
    yield from unlike(tree.run("play", path=link, script=b"show\n"), 0, b"no resources\n", UNPROVED)


def other_programs(tree):
    """Only what a whole proof wrote is taken for proved."""
    tree.run("prove")
    (tree.top / "crates" / "vlm" / "out" / "vlm").write_text("#!/bin/sh\necho wrong\n")
    yield from unlike(tree.run("play", script=b"show\n"), 0, b"no resources\n", UNPROVED)


def failed_proof(tree):
    """A crate that is not proved is named, with the file that tells why; the program is not built."""
    status, printed, told = tree.run("prove", WRONG="vlm_locks")
    yield from unlike((status, printed, told[-2:]), 5, b"",
                      "^vlm: vlm_locks is not proved: .*a folder/out/vlm_locks.log ", "^error: vlm_locks is wrong$")
    if "begun vlm_core" in tree.noted() or tree.run("--version")[1] != b"vlm: checked, not proved\n":
        yield "it goes on"


def interrupted_proof(tree):
    """An interrupt ends what was started, and leaves no program."""
    started = tree.start("prove", PAUSE="10")
    while not tree.noted():
        time.sleep(0.02)
    started.send_signal(signal.SIGINT)
    started.communicate(timeout=SECONDS)
    if started.returncode != 130 or any(line.startswith("ended") for line in tree.noted()):
        yield f"status {started.returncode}, {tree.noted()}"
    yield from unlike(tree.run("--version"), 0, b"vlm: checked, not proved\n")


def two_starts(tree):
    """The second of two waits for the first, and then has nothing to do."""
    (tree.top / "out").mkdir()
    with open(tree.top / "out" / "prove.lock", "w") as lock:
        fcntl.flock(lock, fcntl.LOCK_EX)
        started = [tree.start("prove") for _ in range(2)]
        time.sleep(0.5)
        if tree.noted():
            yield "it does not wait"
    told = [it.communicate(timeout=SECONDS)[1].decode() for it in started]
    begun = [line for line in tree.noted() if line.startswith("begun")]
    if len(set(begun)) != len(begun) or sum("all is proved already" in it for it in told) != 1:
        yield f"{begun} and {told}"


def missing_parts(tree):
    """Each missing part is reported in one line that says what to do."""
    for words in (["play"], ["prove"]):
        yield from unlike(tree.run(*words, KIT="another-kit"), 4, b"", f"another-kit: put the rt of {KIT} first")
        yield from unlike(tree.run(*words, PATH="/usr/bin:/bin"), 4, b"", "no rt on the path: put ")
    (tree.top / "out").write_text("")
    yield from unlike(tree.run("prove"), 4, b"", "a folder/out can't be written: ")


def unprinted(tree):
    """A text that can't be passed on is reported, and is no success."""
    with open("/dev/full", "wb") as full:
        ended = subprocess.run([tree.top / "vlm", "play"], input=b"show\n", stdout=full, stderr=subprocess.PIPE,
                               env=tree.env, timeout=SECONDS)
    yield from unlike((ended.returncode, b"", ended.stderr.decode().splitlines()), 6, b"", UNPROVED,
                      "^vlm: standard output can't be written$")


def another_kit(tree):
    """A kit of another name and the same logic will do."""
    logic = KIT.partition(" ")[2]
    yield from unlike(tree.run("play", script=b"show\n", KIT=f"another-kit {logic}"), 0, b"no resources\n", UNPROVED)


def wrong_words(tree):
    """A tool refuses words that it does not take."""
    for words, wanted in ((["prove", "x"], "prove takes no words"), (["install"], "install takes one word"),
                          (["package"], "package takes one word")):
        yield from unlike(tree.run(*words), 2, b"", wanted)


def chosen_tests(_tree):
    """The option -k runs the tests alone whose names have its text, and there must be one."""
    for text, status, wanted in (("short readme", 0, "1 passed, 0 failed"), ("no such test", 2, "no test of these")):
        ended = subprocess.run([TOP / "vlm", "test", "docs", "-k", text], capture_output=True, text=True,
                               timeout=3 * SECONDS)
        if ended.returncode != status or wanted not in ended.stdout + ended.stderr:
            yield f"{text}: {ended}"


def in_tree(check, program):
    """A check in a tree of its own."""
    with tempfile.TemporaryDirectory() as folder:
        yield from check(Tree(folder, program))


def tests():
    checks = (unproved_runs, unanswered_runs, full_disk, slow_pipe, proofs, library_alone, links_and_changes,
              other_programs, failed_proof, interrupted_proof, two_starts, missing_parts, unprinted, another_kit,
              wrong_words, chosen_tests)
    return [Test(check.__name__.replace("_", " "), partial(in_tree, check)) for check in checks]
