"""A search costs what waits: the instructions for each waiting request are as many beside a thousand as beside a few.
They are counted by valgrind, as the difference of a script with a search and the same script without."""

import shutil
import sys
from functools import partial

import chosen_names
from harness import TOP, Test

sys.path.insert(0, str(TOP / "bench"))
import searches  # noqa: E402

# A search that is not linear takes five times as many for each request, or more, where eight times as many wait.
FEW, MANY, FACTOR = 150, 1_200, 1.5


def is_whole(lines, printed):
    """Whether each line was answered, and the last one is a search if there is one."""
    return printed.count(b"\n") == lines and b"BADPARAM" not in printed


def each(program, case, count):
    """The instructions of a search for each of so many requests."""
    costs = [chosen_names.instructions([program, "play"], text.encode(), partial(is_whole, text.count("\n")))
             for text in searches.scripts(case, count)]
    return (costs[1] - costs[0]) / count


def is_linear(case, program):
    few, many = each(program, case, FEW), each(program, case, MANY)
    if many > FACTOR * few:
        yield f"a search takes {many:,.0f} instructions for each of {MANY:,} requests, and {few:,.0f} for each of {FEW}"


def missing():
    return [] if shutil.which("valgrind") else ["valgrind"]


def once():
    return [] if missing() else [Test(text, partial(is_linear, case)) for case, text in searches.LINEAR.items()]
