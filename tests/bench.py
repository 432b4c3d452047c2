"""The programs of bench. Those over the crates are laid out as bench/run does it, and run once on the kit's checked
build, which proves nothing. What they are compared with is compiled. Berkeley DB's header may be missing."""

import importlib.machinery
import importlib.util
import shutil
import sys
import tempfile
from functools import partial
from pathlib import Path

from harness import ROOM, TOP, Test
from library import ran, STRICT

BENCH = TOP / "bench"
# The longest time of a checked build and its run.
SECONDS = 900
# The words of a short run of each program.
WORDS = {"lists": ("lists", 2, 4, 2), "loads": ("pairs", 4, 10), "long": ("steps", 8, 10),
         "watchers": ("both", 1, 4, 2), "requests": (4, 4, 0)}


def measuring():
    """The program bench/run, which has no suffix, as a module."""
    sys.path.insert(0, str(BENCH))
    loader = importlib.machinery.SourceFileLoader("bench_run", str(BENCH / "run"))
    made = importlib.util.module_from_spec(importlib.util.spec_from_loader("bench_run", loader))
    loader.exec_module(made)
    return made


def over_crates(name, _program):
    """What is wrong with a program over the crates."""
    with tempfile.TemporaryDirectory() as folder:
        crate = measuring().laid_out(Path(folder), name)
        yield from ran("rt", "try", "--", *WORDS[name], cwd=crate, seconds=SECONDS)


def by_hand(duties, _program):
    if not measuring().build_by_hand(Path(ROOM().name) / f"by hand {len(duties)}", duties):
        yield "rustc does not compile it"


def compiled(source, _program):
    words = ["-DWITH_DB"] * (source.name == "pairs.c" and has_db())
    yield from ran("cc", "-std=gnu11", "-fsyntax-only", *STRICT, *words, f"-I{TOP}/include", source)


def has_db():
    """Whether the header of Berkeley DB is there."""
    return Path("/usr/include/db.h").exists()


def missing():
    return ["db.h of libdb5.3-dev"] * (not has_db()) + [tool for tool in ("cc", "rustc") if not shutil.which(tool)]


def once():
    found = [Test(f"{name} over the crates", partial(over_crates, name)) for name in WORDS]
    if shutil.which("rustc"):
        found += [Test(name, partial(by_hand, duties)) for name, duties in
                  (("the machine by hand", ()), ("the machine by hand with all duties", measuring().DUTIES))]
    sources = sorted(BENCH.rglob("*.c")) if shutil.which("cc") else []
    return found + [Test(str(it.relative_to(BENCH)), partial(compiled, it)) for it in sources
                    if has_db() or it.name != "berkeley_db.c"]
