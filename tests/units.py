"""The #[test] functions of the test crates: as `rt ci` proved and built them, or else by the kit's checked build."""

import os
import re
import subprocess
from concurrent.futures import ThreadPoolExecutor
from functools import partial

from harness import Result, SECONDS, TOP, Test, chosen, difference, results_of

CRATES = ("vlm_core_tests", "vlm_hub_tests")
# The longest time of a checked build of a crate's tests and of their runs.
CHECKED_SECONDS = 900


def tests_program(crate):
    return TOP / "crates" / crate / "out" / f"{crate}_tests"


def newest_source():
    """When a source of a crate was last written."""
    return max(os.stat(os.path.join(at, name)).st_mtime
               for part in ("src", "specs", "proofs")
               for folder in (TOP / "crates").glob(f"*/{part}")
               for at, _, names in os.walk(folder) for name in names)


def is_built():
    """The test crates whose proved tests are built, and no source is newer."""
    newest = newest_source()
    return [crate for crate in CRATES
            if tests_program(crate).exists() and tests_program(crate).stat().st_mtime > newest]


def names_of(crate):
    """The names of a crate's tests."""
    listed = subprocess.run([tests_program(crate), "--list"], capture_output=True, text=True, check=True).stdout
    return [line.removesuffix(": test") for line in listed.splitlines() if line.endswith(": test")]


def passes(crate, name, _program):
    """What is wrong with a test."""
    ended = subprocess.run([tests_program(crate), name], capture_output=True, timeout=3 * SECONDS)
    yield from difference(ended.returncode, 0)


def try_tests(crate):
    """The results of a crate's tests on the checked build."""
    ended = subprocess.run(["rt", "try", "--test"], cwd=TOP / "crates" / crate, capture_output=True, text=True,
                           timeout=CHECKED_SECONDS)
    found = re.findall(r"^test (\S+) \.\.\. (.*)$", ended.stdout, re.M)
    results = [Result(f"{crate} {name}", [] if how == "ok" else [how]) for name, how in found]
    if ended.returncode or not results:
        results.append(Result(f"{crate} on the checked build", [f"status {ended.returncode}: {ended.stderr[-400:]}"]))
    return results


def proved():
    """The results of the proved tests that are built."""
    tests = [Test(f"{crate} {name}", partial(passes, crate, name)) for crate in is_built() for name in names_of(crate)]
    return results_of(chosen(tests), None, os.cpu_count())


def checked():
    """The results, on the checked build, of the tests that are not built."""
    built = is_built()
    yield from proved()
    with ThreadPoolExecutor(max(1, os.cpu_count() // 2)) as pool:
        for results in pool.map(try_tests, [crate for crate in CRATES if crate not in built]):
            yield from chosen(results)
