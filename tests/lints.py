"""What tools and rules say of the sources: layout, mistakes that a compiler lets pass, types, long lines and long
functions. None of these checks needs the program. Each missing tool is named, and its check is left out."""

import ast
import functools
import os
import re
import shutil
import subprocess
from concurrent.futures import ThreadPoolExecutor
from pathlib import Path

from bench import has_db
from daemons import DAEMON
from harness import ROOM, TOP, Test, kit_folder
from library import has_openssl, has_uv

TOOLS = ("clang-format", "clang-tidy", "mypy", "pyflakes3", "shellcheck", "cargo", "rustfmt", "cargo-clippy")
# The longest time of a tool.
SECONDS = 300
MOST_COLUMNS = 120
MOST_LINES = 40
MOST_PROOF_COLUMNS = 160
MOST_ANSWER_LINES = 150
BY_HAND = "bench/peers/by_hand/main.rs"
# How C and C++ are compiled for clang-tidy. In C it follows a third of the paths, in less than half of the time.
COMPILED_CXX = ["-std=c++17", "-Iinclude"]
COMPILED = ["-std=gnu11", "-Iinclude", "-Itests/c", "-Iservice", "-Ivms/include", "-Xclang",
            "-analyzer-config", "-Xclang", "max-nodes=75000"]
# Files whose lines are what is tested, are laid out by a prover's needs, or can't be broken.
FREE_FILES = re.compile(r".*\.(stdout|out|png|svg)|tests/scripts/play/.*|crates/\w+/proofs/.*|crates/vlm/std(in|out)"
                        r"|crates\.txt")
# Lines that nobody can break: rows of tables, imports and tactics that `rt fmt` lays out, what an edit is, addresses.
FREE_LINES = re.compile(r"\s*(//[/!] )?\||\s*(pub(\(\w+\))? )?(ghost )?use |\s*#!?\[tactic\(|(old|new): |.*https?://")
# Files whose functions may be longer, with the reason.
FREE_FUNCTIONS = {"bench/peers/by_hand/machine.rs": "it is measured as one would write it for speed"}
# The head of a function, and a line that ends it or begins its body.
HEADS = {"c": (r"()(?:[\w*]+ )+\**(\w+)\(", r".*[;{{}}]$"),
         "rust": (r"( *)(?:pub(?:\([\w: ]+\))? |const |async |unsafe |ghost |extern \"C\" )*fn (\w+)",
                  r"{}(?:\S.*)?[;{{}}]$")}
LANGUAGES = {".c": "c", ".h": "c", ".rs": "rust", ".rt": "rust", ".rattle": "rust"}


def missing():
    """What is not there that some checks need."""
    return [tool for tool in TOOLS if not shutil.which(tool)] + ["db.h of libdb5.3-dev"] * (not has_db()) \
        + ["uv.h of libuv1-dev"] * (not has_uv()) + ["openssl/ssl.h of libssl-dev"] * (not has_openssl())


@functools.lru_cache(maxsize=None)
def files(*suffixes):
    """The files of the repository with one of these suffixes."""
    listed = subprocess.run(["git", "ls-files", "-z", "-co", "--exclude-standard"], cwd=TOP, capture_output=True,
                            text=True, check=True).stdout
    return [name for name in listed.split("\0") if name and name.endswith(suffixes) and (TOP / name).is_file()]


def programs(language):
    """The programs without a suffix whose first line names a language."""
    heads = {name: (TOP / name).open("rb").readline(80) for name in files("") if "." not in Path(name).name}
    return [name for name, head in heads.items() if re.match(rb"#!.*\b%s\b" % language, head)]


def pythons():
    return [*files(".py"), *programs(b"python3")]


def c_files(*suffixes):
    """The files in C that can be compiled here."""
    absent = ["berkeley_db.c"] * (not has_db()) + [f"service/{name}" for name in DAEMON] * (not has_uv()) \
        + ["vlm_tls.c"] * (not has_openssl())
    return [name for name in files(*suffixes) if not name.endswith(tuple(absent))]


def said(*words, folder=TOP, **env):
    """What a tool says that does not end with 0: the lines that name a place, or else all."""
    ended = subprocess.run(words, cwd=folder, capture_output=True, text=True, timeout=SECONDS,
                           env={**os.environ, **env})
    if ended.returncode:
        lines = (ended.stdout + ended.stderr).replace(f"{TOP}/", "").splitlines()
        places = [line for line in lines if re.search(r"\.\w+:\d+|^\w[\w./]*:\d+", line) and ": note: " not in line]
        yield from places or lines or [f"{words[0]} ends with {ended.returncode}"]


def rattle_layout(_program):
    yield from said(str(kit_folder() / "bin" / "rattle"), "fmt", "--check", *files(".rt", ".antt"))


def c_layout(_program):
    yield from said("clang-format", "--dry-run", "-Werror", *files(".c", ".h", ".hpp", ".cc"))


def c_mistakes(_program):
    """(one file in each run, since the run of a file takes seconds)"""
    def run(name):
        return list(said("clang-tidy", "--quiet", "--header-filter=vlm.hpp", name, "--",
                         *(COMPILED if name.endswith(".c") else COMPILED_CXX)))

    with ThreadPoolExecutor(os.cpu_count()) as pool:
        for found in pool.map(run, c_files(".c", ".cc")):
            yield from found


def rust_layout(_program):
    yield from said("rustfmt", "--check", "--edition", "2021", BY_HAND)
    yield from said("cargo", "fmt", "--all", "--check", folder=TOP / "bindings" / "rust")


def cargo(*words, **env):
    """What cargo says of the packages, which have no library here to be linked with."""
    return said("cargo", *words, folder=TOP / "bindings" / "rust", DOCS_RS="1",
                CARGO_TARGET_DIR=str(Path(ROOM().name) / words[0]), **env)


def rust_mistakes(_program):
    yield from cargo("clippy", "--offline", "--workspace", "--all-targets", "--message-format=short", "--",
                     "-D", "warnings")
    listed = re.search(r"^DUTIES = \((.*)\)$", (TOP / "bench" / "run").read_text(), re.M)[1]
    duties = re.findall(r"\w+", listed)
    for chosen in ([], [word for duty in duties for word in ("--cfg", duty)]):
        # (each of its builds leaves out what others use)
        yield from said("clippy-driver", "--edition=2021", "--error-format=short", "-Dwarnings", "-Adead_code", *chosen,
                        "--emit=metadata", "-o", str(Path(ROOM().name) / "by_hand.rmeta"), BY_HAND)


def rust_pages(_program):
    yield from cargo("doc", "--offline", "--workspace", "--no-deps", "--message-format=short",
                     RUSTDOCFLAGS="-D warnings")


def python_types(_program):
    yield from said("mypy", "--strict", "--cache-dir", str(Path(ROOM().name) / "mypy"), "vlm",
                    folder=TOP / "bindings" / "python")
    # (the client library of etcd has no types)
    without_etcd3 = ("--ignore-missing-imports", "--no-warn-return-any", "--cache-dir", str(Path(ROOM().name) / "mypy"))
    yield from said("mypy", "--strict", *without_etcd3, "--scripts-are-modules", "vlm-list",
                    folder=TOP / "service" / "list")
    tests = TOP / "tests" / "replicated"
    yield from said("mypy", *without_etcd3, *(it.name for it in sorted(tests.glob("*.py"))), folder=tests)


def python_mistakes(_program):
    yield from said("pyflakes3", *pythons())


def shell_mistakes(_program):
    scripts = files(".sh", ".postinst", ".prerm", ".postrm")
    yield from said("shellcheck", "--format=gcc", *scripts, *programs(b"(?:ba)?sh"))


def long_lines(_program):
    """Lines have at most 120 columns."""
    for name in files(""):
        if not FREE_FILES.fullmatch(name):
            for number, line in enumerate((TOP / name).read_text(errors="replace").split("\n"), 1):
                if len(line) > MOST_COLUMNS and not FREE_LINES.match(line):
                    yield f"{name}:{number} has {len(line)} columns"


def braced_functions(text, language):
    """Each function between braces: its name, its line, and how many lines its body has. A contract is no part of
    it."""
    head, opening = HEADS[language]
    lines = text.splitlines()
    for at, line in enumerate(lines):
        begun = re.match(head, line)
        if begun:
            opens = re.compile(opening.format(begun[1]))
            first = next((it for it in range(at, len(lines)) if opens.match(lines[it])), at)
            if lines[first].endswith("{"):
                last = next(it for it in range(first + 1, len(lines)) if lines[it].startswith(begun[1] + "}"))
                yield begun[2], at + 1, last - first - 1


def python_functions(text):
    for node in ast.walk(ast.parse(text)):
        if isinstance(node, (ast.FunctionDef, ast.AsyncFunctionDef)):
            yield node.name, node.lineno, node.end_lineno - node.body[0].lineno + 1


def long_functions(_program):
    """Bodies of functions have at most 40 lines."""
    found = [(name, python_functions((TOP / name).read_text())) for name in pythons()]
    found += [(name, braced_functions((TOP / name).read_text(), LANGUAGES[Path(name).suffix]))
              for name in files(*LANGUAGES) if name not in FREE_FUNCTIONS]
    for name, functions in found:
        for function, line, count in functions:
            if count > MOST_LINES:
                yield f"{name}:{line} {function} has {count} lines"


def long_proofs(_program):
    """Lines of proofs have at most 160 columns, and the answers for a function at most 150 lines."""
    for name in files(".antt"):
        lines = (TOP / name).read_text().splitlines()
        for number, line in enumerate(lines, 1):
            if len(line) > MOST_PROOF_COLUMNS:
                yield f"{name}:{number} has {len(line)} columns"
        if name.endswith("/Answers.antt") and len(lines) > MOST_ANSWER_LINES:
            yield f"{name} has {len(lines)} lines"


# Each check, with its name and the tools that it needs.
CHECKS = (("the layout of Rattle", rattle_layout, ()),
          ("the layout of C, by clang-format", c_layout, ("clang-format",)),
          ("mistakes in C, by clang-tidy", c_mistakes, ("clang-tidy",)),
          ("the layout of Rust, by rustfmt", rust_layout, ("rustfmt", "cargo")),
          ("mistakes in Rust, by clippy", rust_mistakes, ("cargo", "cargo-clippy")),
          ("the pages of rustdoc", rust_pages, ("cargo",)),
          ("types in Python, by mypy", python_types, ("mypy",)),
          ("mistakes in Python, by pyflakes", python_mistakes, ("pyflakes3",)),
          ("mistakes in shell scripts, by shellcheck", shell_mistakes, ("shellcheck",)),
          ("lines of at most 120 columns", long_lines, ()),
          ("functions of at most 40 lines", long_functions, ()),
          ("proofs of at most 160 columns, answers of at most 150 lines", long_proofs, ()))


def once():
    absent = missing()
    return [Test(name, check) for name, check, needs in CHECKS if not any(it in absent for it in needs)]
