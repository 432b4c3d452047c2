"""The kit's checked build beside the proved program: it stops at each bad access, so it runs the worked scripts too.
And ./vlm once in a copy without a proof, with the kit itself: the launcher's tests have a stub in its place."""

import shutil
import subprocess
import tempfile
from pathlib import Path

from harness import Case, Ended, STORED, TOP, Test, difference, run_checked
from scripts import stored_scripts

# The longest time of a checked build and its run.
SECONDS = 900


def worked_scripts(_program):
    """What is wrong with the worked scripts of `play` on the checked build."""
    cases = [Case(name, ["play"], script.read_bytes(), Ended(0, printed.read_bytes(), b""))
             for name, script, printed in stored_scripts()]
    for result in run_checked(STORED, cases):
        yield from (f"{result.name}: {wrong}" for wrong in result.wrong)


def without_a_proof(_program):
    """What is wrong with ./vlm where nothing is proved."""
    with tempfile.TemporaryDirectory() as folder:
        copy = Path(folder) / "copy"
        shutil.copytree(TOP, copy, ignore=shutil.ignore_patterns(".git", "out", "target", "__pycache__"))
        ended = subprocess.run([copy / "vlm", "play"], stdin=(STORED / "stdin").open("rb"), capture_output=True,
                               timeout=SECONDS)
    if b"this run is checked, not proved" not in ended.stderr:
        yield f"it says {ended.stderr!r}"
    yield from difference((ended.returncode, ended.stdout), (0, (STORED / "stdout").read_bytes()))


def once():
    return [Test("the worked scripts on the checked build", worked_scripts),
            Test("./vlm without a proof", without_a_proof)]
