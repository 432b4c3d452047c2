"""What the tools share: where things are, the kit, and how a tool fails."""

import hashlib
import os
import re
import shutil
import subprocess
import sys
from pathlib import Path

TOP = Path(__file__).resolve().parent.parent
PROGRAM = TOP / "crates" / "vlm" / "out" / "vlm"
# The proved archive of which the libraries for C are made.
LIBRARY = TOP / "crates" / "vlm_capi" / "out" / "libvlm_capi.a"
# What a whole proof left: the program's checksum, the commit, the kit, and if the library was built its checksum. It is
# as old as the proof's start.
RECORD = PROGRAM.with_name("vlm.proved")
LOGS = TOP / "out"
# The kit that the crates are proved with, as `rt version` names it: a name, and the checksum of its logic.
KIT = (TOP / "KIT").read_text().strip()
# The version of all that is delivered. What can't read it is compared with it by the tests of docs.
VERSION = (TOP / "VERSION").read_text().strip()

# The statuses of the tools' own failures. The program's are 0 to 3.
MISSING = 4  # something is not there that is needed
UNPROVED = 5  # a crate is not proved
UNANSWERED = 6  # the checked build gives no answer, or the answer can't be passed on
WRONG_WORDS = 2
INTERRUPTED = 130


def say(text):
    try:
        print(f"vlm: {text}", file=sys.stderr, flush=True)
    except OSError:
        pass


def fail(status, text):
    say(text)
    sys.exit(status)


def found_kit():
    """The kit on the path, as it names itself."""
    if not shutil.which("rt"):
        fail(MISSING, f"there is no rt on the path: put the folder bin of {KIT.split()[0]} on it")
    told = subprocess.run(["rt", "version"], capture_output=True, text=True).stdout.strip()
    return told or "a kit without a name"


def need_kit():
    """Wants a kit of the same logic, and gives its name. Kits of one logic check proofs alike."""
    found = found_kit()
    if found.partition(" ")[2] != KIT.partition(" ")[2]:
        fail(MISSING, f"rt is of {found}: put the rt of {KIT} first on the path")
    return found


def is_current():
    """Whether ./vlm runs the proved program."""
    told = subprocess.run([TOP / "vlm", "--version"], capture_output=True, text=True)
    return told.stdout.startswith("vlm: proved, ")


def is_library_current():
    """Whether the archive for C is the one that was proved, with the program, from the sources as they are."""
    if not is_current() or not LIBRARY.exists():
        return False
    return RECORD.read_text().splitlines()[3:] == [hashlib.sha256(LIBRARY.read_bytes()).hexdigest()]


def commit(*names):
    """The commit, and whether these files are as it has them, or all files without names."""
    git = ["git", "-C", str(TOP)]
    named = subprocess.run([*git, "rev-parse", "--short=12", "HEAD"], capture_output=True, text=True)
    if named.returncode:
        return "no commit"
    changed = subprocess.run([*git, "status", "--porcelain", "--", *names], capture_output=True)
    return f"commit {named.stdout.strip()}{' with changes' if changed.stdout else ''}"


def crates():
    """Each crate of crates.txt with those of the repository that it uses, the lowest first."""
    lines = [line.partition("#")[0].partition(":") for line in (TOP / "crates.txt").read_text().splitlines()]
    uses = {name.split()[0]: below.split() for name, colon, below in lines if colon}
    ordered = {}

    def visit(name):
        if name not in ordered and name in uses:
            for low in uses[name]:
                visit(low)
            ordered[name] = [low for low in uses[name] if low in uses]

    for name in uses:
        visit(name)
    return ordered


def crates_below(*names):
    """Some crates and all crates below them, the lowest first, each with those that it uses."""
    uses = crates()
    wanted, left = set(), list(names)
    while left:
        it = left.pop()
        if it not in wanted:
            wanted.add(it)
            left += uses[it]
    return {it: below for it, below in uses.items() if it in wanted}


def megabytes_free():
    """How many MB the disk has left."""
    told = subprocess.run(["df", "-k", "--output=avail", "--", TOP], capture_output=True, text=True, check=True)
    return int(told.stdout.split()[-1]) // 1024


def lanes():
    """How many checks run side by side: one a processor, each with up to 3 GB."""
    memory = int(re.search(r"MemAvailable:\s+(\d+)", Path("/proc/meminfo").read_text())[1])
    return max(1, min(len(os.sched_getaffinity(0)), memory // (3 * 1024 * 1024)))


def need_folders(*folders):
    """Makes these folders, in which files are to be made."""
    for folder in folders:
        probe = Path(folder) / f"probe.{os.getpid()}"
        try:
            os.makedirs(folder, exist_ok=True)
            probe.touch()
            probe.unlink()
        except OSError:
            fail(MISSING, f"{folder} can't be written: give yourself the right to, or use a clone of your own")
