"""What `./vlm install` leaves, and programs in C, Rust and Python over it. The programs of examples/c and tests/c are
compiled by each C compiler that is there, plain and with each sanitizer that it links, and run, under valgrind too. One
finds the libraries by pkg-config and by CMake, and one plays the worked scripts. The headers are compiled as C++. The
tests of bindings/rust run where cargo is, those of bindings/python by the Python that runs this, with a browser where
Chromium and its driver are. Each missing tool is named."""

import functools
import os
import re
import shlex
import shutil
import subprocess
import sys
import tempfile
from functools import partial
from pathlib import Path

import chosen_names
from harness import PLAY, ROOM, Ended, Test, TOP, difference, ends_of, kit_folder, run

# The longest run of a test program, and of an installation, which may prove the library first.
SECONDS, INSTALL_SECONDS = 120, 3_600
SOURCES = sorted((TOP / "examples" / "c").glob("*.c")) + sorted((TOP / "tests" / "c").glob("*.c"))
# It plays a script. What it is to print is beside each script, so it has no file `.out` and a folder of its own.
PLAYER = TOP / "tests" / "c" / "scripts" / "play.c"
# It takes locks on the names that it reads.
ASKER = TOP / "tests" / "c" / "keys" / "ask.c"
COMPILERS = ("gcc", "clang")
SANITIZERS = ("none", "address,undefined", "thread")
TOOLS = (*COMPILERS, "g++", "clang++", "valgrind", "pkg-config", "cmake", "man", "cargo", "dot", "chromium",
         "chromedriver")
# The first two numbers of the version: libraries with the same ones fit each other.
SONAME = "libvlm.so.0.2"
STRICT = ["-Wall", "-Wextra", "-Wpedantic", "-Werror"]
# The files of the repository that an installation has too, at the same places below a folder.
COPIED = {"": (TOP / "include").glob("*.h*"),
          "share/doc/vlm/": [TOP / "README.md", TOP / "CHANGELOG.md", TOP / "SECURITY.md", *(TOP / "docs").iterdir(),
                             *(TOP / "examples" / "c").iterdir(), *(TOP / "vms" / "examples").iterdir()]}
# What an installation leaves, beside the shared library and the manual pages of the calls.
FILES = ("bin/vlm", *(f"{folder}{it.relative_to(TOP)}" for folder, files in COPIED.items() for it in files),
         *(f"include/vlm-vms/{it.name}" for it in (TOP / "vms" / "include").glob("*.h")),
         "lib/cmake/vlm/vlm-config-version.cmake", "lib/cmake/vlm/vlm-config.cmake", "lib/libvlm.a", "lib/libvlmvms.a",
         "lib/pkgconfig/vlm-vms.pc", "lib/pkgconfig/vlm.pc", "libexec/vlm/vlm", "share/bash-completion/completions/vlm",
         "share/man/man1/vlm-lock.1", "share/man/man1/vlm-who.1", "share/man/man1/vlm.1", "share/man/man3/vlm.3",
         "share/vlm/files", "share/vlm/proved")
# Of the lock service, where the header of libuv is.
SERVICE_FILES = ("bin/vlmd", "lib/systemd/system/vlmd.service", "lib/systemd/system/vlmd.socket",
                 *(f"libexec/vlm/list/{name}" for name in ("chunks.py", "etcd_list.py", "members.py", "vlm-list")),
                 "share/man/man7/vlm-protocol.7", "share/man/man8/vlmd.8", "share/vlm/vlmd.conf")
# For connections with TLS, where the headers of OpenSSL are.
TLS_FILES = ("lib/libvlm-tls.so.1",)
TLS = TOP / "bindings" / "c" / "tls" / "vlm_tls.c"
OPENSSL = ("-lssl", "-lcrypto")
VALGRIND = ["valgrind", "-q", "--leak-check=full", "--show-leak-kinds=all", "--error-exitcode=9"]
HELGRIND = ["valgrind", "-q", "--tool=helgrind", f"--suppressions={TOP}/tests/c/helgrind.supp", "--error-exitcode=9"]
# The layers for threads and for the threads of a hub, and the functions that some tests put their own in the place of.
LAYER_SOURCES = [it for it in sorted((TOP / "bindings" / "c").glob("*.c")) if not it.stem.startswith("vlm_client")]
WRAPPED = {"growths": ("malloc", "realloc"),
           "refused": ("malloc", "realloc", "free"),
           "hub_refused": ("malloc", "realloc"),
           "hub_starved": ("malloc", "realloc", "free"),
           "threads_refused": ("malloc", "realloc", "calloc", "free", "pthread_create", "eventfd")}


def missing():
    """The tools that are not there."""
    return [tool for tool in TOOLS if not shutil.which(tool)]


def room():
    return Path(ROOM().name)


def prefix():
    return room() / "a prefix"


def ran(*words, seconds=SECONDS, **how):
    """What is wrong with a command that was to end with 0."""
    ended = subprocess.run([str(word) for word in words], capture_output=True, text=True, timeout=seconds, **how)
    if ended.returncode:
        yield f"{shlex.join(map(str, words))}: {ended.returncode}: {ends_of(ended.stdout + ended.stderr)}"


@functools.lru_cache(maxsize=None)
def has_uv():
    """Whether the header of libuv is there."""
    return bool(shutil.which("cc")) and not subprocess.run(["cc", "-E", "-x", "c", "-"], input=b"#include <uv.h>\n",
                                                           capture_output=True).returncode


@functools.lru_cache(maxsize=None)
def has_openssl():
    """Whether the headers of OpenSSL 3 or later are there."""
    test = b"#include <openssl/ssl.h>\n#if OPENSSL_VERSION_NUMBER < 0x30000000L\n#error too old\n#endif\n"
    return bool(shutil.which("cc")) and not subprocess.run(["cc", "-E", "-x", "c", "-"], input=test,
                                                           capture_output=True).returncode


def tls_words():
    """The words by which vlmd has TLS, or none."""
    return [TLS, *OPENSSL] if has_openssl() else ["-DVLM_WITHOUT_TLS"]


def installed(_program):
    """The installation leaves its files, with each shared library under three names."""
    yield from ran(TOP / "vlm", "install", prefix(), seconds=INSTALL_SECONDS)
    left = {str(it.relative_to(prefix())): it for it in prefix().rglob("*") if it.is_symlink() or not it.is_dir()}
    links = {name: os.readlink(it) for name, it in left.items() if it.is_symlink()}
    shared = [f"{name}.so.{version()}" for name in ("libvlm", "libvlmvms")]
    named = {f"lib/{it.rpartition('.')[0]}": it for it in shared}
    named |= {f"lib/{it.partition('.')[0]}.so": it.rpartition(".")[0] for it in shared}
    pages = [f"share/man/man3/{call}.3" for call in calls()]
    service = (*SERVICE_FILES * has_uv(), *TLS_FILES * has_openssl())
    yield from difference(sorted(left), sorted([*FILES, *pages, *service, *(f"lib/{it}" for it in shared), *links]))
    yield from difference(links, named)


def staged_prefix():
    return room() / "staged" / "usr"


def staged(_program):
    """An installation for packagers goes into the folder DESTDIR. It lists its files, and those that an earlier version
    has left, so that it can be taken away."""
    (staged_prefix() / "share" / "vlm").mkdir(parents=True)
    (staged_prefix() / "share" / "vlm" / "earlier").touch()
    (staged_prefix() / "share" / "vlm" / "files").write_text("bin/vlm\nshare/vlm/earlier\nshare/vlm/gone\n")
    yield from ran(TOP / "vlm", "install", "/usr", seconds=INSTALL_SECONDS,
                   env={**os.environ, "DESTDIR": str(staged_prefix().parent)})
    there = staged_prefix()
    left = sorted(str(it.relative_to(there)) for it in there.rglob("*") if it.is_symlink() or not it.is_dir())
    yield from difference((there / "share" / "vlm" / "files").read_text().splitlines(), left)
    if any(str(there).encode() in (there / name).read_bytes() for name in left):
        yield "a file names the folder that it was put into"


def refused(_program):
    """An installation that can't make a folder leaves nothing: here a file has the folder's name."""
    full = room() / "full"
    full.mkdir()
    (full / "lib").write_text("here\n")
    ended = subprocess.run([TOP / "vlm", "install", full], capture_output=True, text=True, timeout=SECONDS)
    left = sorted(str(it.relative_to(full)) for it in full.rglob("*"))
    if (ended.returncode, left) != (4, ["lib"]) or f"vlm: {full}/lib can't be written: " not in ended.stderr:
        yield f"{ended} leaves {left}"


def uncompiled(_program):
    """An installation without a C compiler says so, and leaves nothing."""
    absent = room() / "no compiler"
    ended = subprocess.run([TOP / "vlm", "install", absent], capture_output=True, text=True, timeout=SECONDS,
                           env={**os.environ, "CC": "no-compiler"})
    if ended.returncode != 4 or "vlm: there is no C compiler no-compiler: " not in ended.stderr or absent.exists():
        yield f"{ended}"


def version():
    """The version that the installed program tells."""
    told = subprocess.run([prefix() / "bin" / "vlm", "--version"], capture_output=True, text=True).stdout
    return told.removeprefix("vlm ").strip()


def proof_told(_program):
    """`vlm --proof` prints the record of the installation, and says what is wrong without it."""
    folder = room() / "without a record"
    (folder / "bin").mkdir(parents=True)
    shutil.copy(prefix() / "bin" / "vlm", folder / "bin")
    record = (prefix() / "share" / "vlm" / "proved").read_bytes()
    for program, words, wanted in ((prefix(), [], (0, record, b"")),
                                   (prefix(), ["x"], (64, b"", b"usage: vlm --proof\n")),
                                   (folder, [], (69, b"", f"vlm: {folder}/share/vlm/proved can't be read\n".encode()))):
        yield from difference(tuple(run([str(program / "bin" / "vlm"), "--proof", *words])), wanted)


def told_by_kit(tool, *words):
    """What a tool of the kit says. One program is all of LLVM's tools, by the name that it is called by."""
    clang = kit_folder() / "toolchain" / "bin" / "clang"
    return subprocess.run([tool, *map(str, words)], executable=clang, capture_output=True, text=True, check=True).stdout


def calls():
    """The calls that the installed headers declare."""
    text = "".join(it.read_text() for it in (prefix() / "include").glob("*.h"))
    text = re.sub(r"/\*.*?\*/", "", text, flags=re.S)
    return set(re.findall(r"\b(vlm_\w+)\(", text))


def shown_names(library, *words):
    """What is wrong with the names that a library shows: they are the calls of the headers."""
    told = told_by_kit("llvm-nm", "--defined-only", "--extern-only", "-j", *words, prefix() / "lib" / library)
    # (of an archive it tells each member too, with a colon)
    yield from difference({word for word in told.split() if not word.endswith(":")}, calls())


def names_shown(_program):
    """Each library shows the calls alone, and the shared one has its name for the loader."""
    yield from shown_names("libvlm.a")
    yield from shown_names("libvlm.so", "-D")
    if f"Library soname: [{SONAME}]" not in told_by_kit("llvm-readelf", "-d", prefix() / "lib" / "libvlm.so"):
        yield f"the shared library has no soname {SONAME}"


def told_by_package(*words):
    """What pkg-config says of the package, of one that is not where it was made for."""
    env = {**os.environ, "PKG_CONFIG_PATH": str(staged_prefix() / "lib" / "pkgconfig")}
    return subprocess.run(["pkg-config", *words, "vlm"], capture_output=True, text=True, check=True, env=env).stdout


def versions(_program):
    """The program and the package have one version."""
    yield from difference(version() + "\n", told_by_package("--modversion"))


def package():
    """The words by which a program is compiled over the static library."""
    return [f"-I{prefix()}/include", prefix() / "lib" / "libvlm.a"]


def options(tool, standard="c11"):
    # (valgrind reads what clang tells a debugger by DWARF 4, and not by 5)
    words = [f"-std={standard}", "-O1", "-gdwarf-4", *STRICT, "-pthread"]
    return words if tool in ("none", "helgrind") else [*words, f"-fsanitize={tool}", "-fno-sanitize-recover=all"]


@functools.lru_cache(maxsize=None)
def links(compiler, sanitizer, *words):
    """Whether the compiler is there, and links with a sanitizer and with these words."""
    if not shutil.which(compiler):
        return False
    with tempfile.TemporaryDirectory() as folder:
        source = Path(folder) / "empty.c"
        source.write_text("int main(void) { return 0; }\n")
        return not subprocess.run([compiler, *options(sanitizer), *words, source, "-o", f"{folder}/empty"],
                                  capture_output=True).returncode


def printed(source, *words, **how):
    """What is wrong with what a program prints."""
    ended = subprocess.run([str(word) for word in words], capture_output=True, timeout=SECONDS, **how)
    yield from difference((ended.returncode, ended.stdout), (0, source.with_suffix(".out").read_bytes()))


def uses_layer(source):
    headers = "vlm_threads|threads_test|vlm_hub_wait|hub_service"
    return re.search(rf'#include ["<]({headers})\.h', source.read_text()) is not None


def is_for_helgrind(source):
    """Whether helgrind is to watch the threads of a program. A hub orders threads by atomics, and it sees none."""
    return uses_layer(source) and not source.stem.startswith("hub")


def layer(source, tool):
    """The words by which a program has the layers of bindings/c. A sanitizer is to see into it, and helgrind is to see
    mutexes that it knows; else it comes with the library, if that has it."""
    if not uses_layer(source) or (tool == "none" and (prefix() / "include" / "vlm_threads.h").exists()):
        return []
    return [*["-DVLM_THREADS_PLAIN_MUTEX"] * (tool == "helgrind"), f"-I{TOP}/include", *LAYER_SOURCES]


def shortened(share):
    """The words before those of a program that make its long tests do this share of their rounds."""
    return ["env", f"VLM_TEST_SHARE={share}"]


def compiled(source, compiler, tool):
    """A program over the library for a sanitizer, for helgrind or for none, and what is wrong with making it. It has a
    folder of its own: two tests may make the same program side by side."""
    built = Path(tempfile.mkdtemp(dir=room())) / source.stem
    wrapped = [f"-Wl,--wrap={name}" for name in WRAPPED.get(source.stem, ())]
    words = [*options(tool), *wrapped, source, *layer(source, tool), *package()]
    return built, list(ran(compiler, *words, "-o", built))


def over_library(source, compiler, sanitizer, _program):
    """What is wrong with a program over the library, and with its run. A plain one runs under valgrind too."""
    built, wrong = compiled(source, compiler, sanitizer)
    yield from wrong
    if wrong:
        return
    yield from printed(source, *([] if sanitizer == "none" else shortened(50)), built)
    if sanitizer == "none" and shutil.which("valgrind"):
        yield from printed(source, *shortened(200), *VALGRIND, built)
        if is_for_helgrind(source):
            built, wrong = compiled(source, compiler, "helgrind")
            yield from wrong or printed(source, *shortened(200), *HELGRIND, built)


def worked_scripts():
    """The worked scripts."""
    return [it.with_suffix("") for it in sorted(PLAY.glob("*.stdout"))]


def played(player):
    """What is wrong with what a player prints for the worked scripts."""
    for script in worked_scripts():
        ended = run([player], script=script.read_bytes())
        wanted = Ended(0, script.with_suffix(".stdout").read_bytes(), b"")
        yield from (f"{script.name}: {it}" for it in difference(ended, wanted))


def plays(compiler, _program):
    """What is wrong with the player of a compiler, plain and with sanitizers. It has one thread."""
    if len(worked_scripts()) < 60:
        yield f"the worked scripts are {worked_scripts()}"
    for sanitizer in SANITIZERS:
        if sanitizer != "thread" and links(compiler, sanitizer):
            player, wrong = compiled(PLAYER, compiler, sanitizer)
            yield from wrong or played(player)


def hashed_by_keys(call, _program):
    """What is wrong with names that meet with the library's fixed keys: with the caller's own they cost what others do,
    and with the fixed ones more."""
    asker, wrong = compiled(ASKER, next(it for it in COMPILERS if shutil.which(it)), "none")
    yield from wrong
    if wrong:
        return

    def cost(kind, keys):
        text = "".join(name + "\n" for name in chosen_names.resources()[kind]).encode()
        return chosen_names.COST([asker, call, keys], text, lambda it: it == b"%d locks\n" % chosen_names.NAMES)

    bound = chosen_names.FACTOR * cost("none", "own")
    own, fixed = cost("the fixed keys", "own"), cost("the fixed keys", "fixed")
    if own > bound or fixed <= bound:
        yield f"own keys cost {own:,} and fixed keys {fixed:,}: the bound between them is {bound:,}"


def readme(_program):
    """What is wrong with the lines of C that the README shows: they compile and run."""
    lines = re.search(r"^```c\n(.*?)^```", (TOP / "README.md").read_text(), re.M | re.S)[1]
    source = room() / "readme.c"
    source.write_text("#include <vlm.h>\nint main(void) {\nuint32_t pid, lock;\nconst uint8_t name[] = {'A'};\n"
                      + lines + "vlm_close(&handle);\nreturn 0;\n}\n")
    compiler = next(it for it in COMPILERS if shutil.which(it))
    yield from ran(compiler, "-std=c11", *STRICT, source, *package(), "-o", room() / "readme")
    yield from ran(room() / "readme")


FIRST = TOP / "examples" / "c" / "two.c"


def needed(program):
    """The shared libraries that a program needs."""
    return re.findall(r"Shared library: \[([^]]+)\]", told_by_kit("llvm-readelf", "-d", program))


def by_package(compiler, _program):
    """What is wrong with programs that pkg-config links: with the shared library, and with all static."""
    # (pkg-config writes a backslash before a blank, as a shell takes it)
    shared, static = room() / f"shared {compiler}", room() / f"static {compiler}"
    words = shlex.split(told_by_package("--cflags", "--libs"))
    wrong = list(ran(compiler, "-std=c11", FIRST, *words, "-o", shared))
    yield from wrong or printed(FIRST, shared, env={**os.environ, "LD_LIBRARY_PATH": str(prefix() / "lib")})
    if not wrong and SONAME not in needed(shared):
        yield f"it needs {needed(shared)}"
    if links(compiler, "none", "-static"):
        words = shlex.split(told_by_package("--static", "--cflags", "--libs"))
        wrong = list(ran(compiler, "-std=c11", "-static", FIRST, *words, "-o", static))
        yield from wrong or printed(FIRST, static)


PROJECT = """cmake_minimum_required(VERSION 3.10)
project(example C)
set(CMAKE_C_STANDARD 11)
find_package(vlm @VERSION@ EXACT REQUIRED)
find_package(vlm 0.2 REQUIRED)
add_executable(shared two.c)
target_link_libraries(shared vlm::vlm)
add_executable(static two.c)
target_link_libraries(static vlm::static)
"""


def refused_by_cmake(_program):
    """CMake takes no later version than a range has, and no component that is not there."""
    later, project = room() / "a later version", room() / "a project that asks"
    shutil.copytree(prefix() / "lib" / "cmake", later / "lib" / "cmake")
    file = later / "lib" / "cmake" / "vlm" / "vlm-config-version.cmake"
    file.write_text(file.read_text().replace(f'"{version()}"', '"0.2.5"'))
    project.mkdir()
    for asked, is_found in (("0.2...0.2.5", True), ("0.2...<0.3", True), ("0.2...<0.2.5", False),
                            ("0.2...0.2.4", False), ("0.2 COMPONENTS threads", False),
                            ("0.2 OPTIONAL_COMPONENTS threads", True)):
        (project / "CMakeLists.txt").write_text("cmake_minimum_required(VERSION 3.19)\nproject(example C)\n"
                                                f"find_package(vlm {asked})\nmessage(STATUS found=${{vlm_FOUND}}.)\n")
        made = subprocess.run(["cmake", "-S", project, "-B", project / "built", f"-DCMAKE_PREFIX_PATH={later}"],
                              capture_output=True, text=True, timeout=SECONDS)
        yield from difference((asked, "found=1." in made.stdout, made.returncode), (asked, is_found, 0))


def by_cmake(_program):
    """What is wrong with programs that CMake links, from a copy of the prefix in another place."""
    moved, project, built = room() / "a moved prefix", room() / "a project", room() / "built by CMake"
    shutil.copytree(prefix(), moved, symlinks=True)
    project.mkdir()
    shutil.copy(FIRST, project)
    (project / "CMakeLists.txt").write_text(PROJECT.replace("@VERSION@", version()))
    wrong = [*ran("cmake", "-S", project, "-B", built, f"-DCMAKE_PREFIX_PATH={moved}"), *ran("cmake", "--build", built)]
    yield from wrong
    for name, wanted in () if wrong else (("shared", True), ("static", False)):
        yield from printed(FIRST, built / name)
        if (SONAME in needed(built / name)) != wanted:
            yield f"{name} needs {needed(built / name)}"


# A second library with a heap of the same names, and a program over both.
SECOND = """#include <stddef.h>
int calls;
void *rattle_alloc(size_t a, size_t b) { calls++; return NULL; }
void *rattle_realloc(void *a, size_t b, size_t c) { calls++; return NULL; }
void rattle_dealloc(void *a, size_t b) { calls++; }
"""
OVER_BOTH = """#include <stddef.h>
#include <vlm.h>
extern int calls;
void *rattle_alloc(size_t a, size_t b);
int main(void) {
    vlm handle = VLM_CLOSED;
    vlm_options options = VLM_OPTIONS;
    uint32_t status = vlm_open(&handle, &options);
    vlm_close(&handle);
    return status != VLM_NORMAL || rattle_alloc(1, 1) != NULL || calls != 1;
}
"""


def two_heaps(compiler, _program):
    """What is wrong with a program over this library and another that Rattle made: each is to use its own heap."""
    folder = room() / f"two heaps {compiler}"
    folder.mkdir()
    (folder / "second.c").write_text(SECOND)
    (folder / "both.c").write_text(OVER_BOTH)
    yield from ran(compiler, "-c", folder / "second.c", "-o", folder / "second.o")
    told_by_kit("llvm-ar", "qcs", folder / "libsecond.a", folder / "second.o")
    include, library = package()
    for archives in ([library, folder / "libsecond.a"], [folder / "libsecond.a", library]):
        wrong = list(ran(compiler, "-std=c11", include, folder / "both.c", *archives, "-o", folder / "both"))
        yield from wrong or ran(folder / "both")


def shown_by_man(*words):
    """What man prints, and what is wrong: it ends badly, or warns."""
    env = {**os.environ, "MANPATH": str(prefix() / "share" / "man"), "MANWIDTH": "80"}
    ended = subprocess.run(["man", "--warnings", *words], capture_output=True, text=True, timeout=SECONDS, env=env)
    return ended.stdout, list(difference((ended.returncode, ended.stderr), (0, "")))


def call_manuals(_program):
    """What is wrong with the manual pages of the calls: man finds each by the name of its call, and shows the name, the
    declaration and what the header says, without a warning."""
    for call in sorted(calls()):
        text, wrong = shown_by_man("3", call)
        words = " ".join(text.split())
        yield from (f"{call}: {it}" for it in wrong)
        if not re.search(rf"NAME [^-]*\b{call}\b.* SYNOPSIS .*\b{call}\(.* DESCRIPTION .{{20}}", words):
            yield f"man 3 {call} shows {words[:400]}"


def manual(_program):
    """What is wrong with the manual page of the library: man shows it without a warning, and its example runs."""
    page = prefix() / "share" / "man" / "man3" / "vlm.3"
    yield from shown_by_man("-l", page)[1]
    source = room() / "manual.c"
    source.write_text(re.search(r"^\.EX\n(.*?)^\.EE", page.read_text(), re.M | re.S)[1].replace("\\e", "\\"))
    source.with_suffix(".out").write_text("lock 1: SS$_NORMAL\n")
    compiler = next(it for it in COMPILERS if shutil.which(it))
    wrong = list(ran(compiler, "-std=c11", *STRICT, source, *package(), "-o", room() / "manual"))
    yield from wrong or printed(source, room() / "manual")


def header(compiler, _program):
    """What is wrong with the headers as C++."""
    source = room() / f"header {compiler}.cc"
    source.write_text("".join(f'#include "{it.name}"\n' for it in sorted((TOP / "include").glob("*.h*"))))
    folders = [f"-I{prefix()}/include", f"-I{TOP}/include"]
    yield from ran(compiler, "-std=c++17", *STRICT, "-fsyntax-only", *folders, source)


def guards(compiler, sanitizer, _program):
    """What is wrong with the guards of vlm.hpp."""
    source = TOP / "tests" / "cpp" / "guards.cc"
    built = room() / f"guards {compiler} {sanitizer}"
    wrong = list(ran(compiler, *options(sanitizer, "c++17"), source, *package(), "-o", built))
    yield from wrong or printed(source, built)


def cpp_of_page(_program):
    """What is wrong with the program in C++ of docs/LIBRARY.md."""
    page = (TOP / "docs" / "LIBRARY.md").read_text()
    source = room() / "page.cc"
    source.write_text(re.search(r"^```cpp\n(.*?)^```", page, re.M | re.S)[1])
    source.with_suffix(".out").write_text("not queued\ngranted\n")
    compiler = next(filter(shutil.which, ("g++", "clang++")))
    wrong = list(ran(compiler, *options("none", "c++17"), source, *package(), "-o", room() / "page"))
    yield from wrong or printed(source, room() / "page")


# Members that a header did not have at first, by the structs.
LATER_MEMBERS = {"vlm_threads": {"options": "victim_milliseconds", "declaration": "own_queue", "request": "released"},
                 "vlm_client": {"options": "certificate"}}
# Programs that use none of them.
OLDER = ("count", "cache", "timed_wait", "event_loop")


def older_header(header="vlm_threads"):
    """A folder with a header as it would be without its later members."""
    folder = room() / f"an older header {header}"
    folder.mkdir(exist_ok=True)
    text = (TOP / "include" / f"{header}.h").read_text()
    for name, first in LATER_MEMBERS[header].items():
        text, count = re.subn(rf"\n {{4}}[^\n]*\b{first};.*?(?=\n}} {header}_{name};)", "", text, flags=re.S)
        if not count:
            raise LookupError(f"{first} of {header}_{name}")
        text = re.sub(rf"VLM_ASSERT\(sizeof\(struct {header}_{name}\).*", "", text)
    text, count = re.subn(rf"(#define {header.upper()}_OPTIONS ).*",
                          rf"\1{{ .size = sizeof({header}_options), .version = VLM_VERSION }}", text)
    if count != 1:
        raise LookupError(f"the usual options of {header}")
    (folder / f"{header}.h").write_text(text)
    return folder


def under_older_header(compiler, _program):
    """What is wrong with programs of an older header, whose structs are shorter than the library's."""
    folder = older_header()
    for name in OLDER:
        source, built = TOP / "examples" / "c" / f"{name}.c", room() / f"{name} of old by {compiler}"
        wrong = list(ran(compiler, "-std=c11", *STRICT, "-pthread", f"-I{folder}", source, *package(), "-o", built))
        yield from wrong or printed(source, built)


# Structs of the layer for threads that later versions may make longer. (A deadlock has an array of waits.)
GROWING = ("options", "declaration", "event", "request", "dequeue", "counters", "deadlock")
# Programs over a layer whose structs are longer than theirs. (threads_calls passes structs that are too long.)
OVER_NEWER = [it for it in SOURCES if re.search(r'#include ["<](vlm_threads|threads_test)\.h', it.read_text())
              and it.stem not in ("threads_calls", *WRAPPED)]


def newer_layer(compiler, sources):
    """A folder with objects of a layer as a later version may have it, with more members in structs of vlm_threads.h,
    and what is wrong with making them."""
    folder = Path(tempfile.mkdtemp(dir=room()))
    text = (TOP / "include" / "vlm_threads.h").read_text()
    for name in GROWING:
        text, count = re.subn(rf"\n}} vlm_threads_{name};", r"\n    uint64_t later[3];\g<0>", text)
        text, asserts = re.subn(rf"VLM_ASSERT\(sizeof\(struct vlm_threads_{name}\).*", "", text)
        if (count, asserts) != (1, 1):
            raise LookupError(f"vlm_threads_{name}")
    (folder / "vlm_threads.h").write_text(text)
    return folder, list(ran(compiler, "-std=c11", "-c", *STRICT, "-pthread", f"-I{folder}", f"-I{TOP}/include",
                            *sources, cwd=folder))


def over_newer_library(compiler, _program):
    """What is wrong with programs of this header over a layer with longer structs."""
    folder, wrong = newer_layer(compiler, LAYER_SOURCES)
    yield from wrong
    for source in () if wrong else OVER_NEWER:
        built = folder / source.stem
        words = [*options("none"), source, *folder.glob("*.o"), *package()]
        yield from list(ran(compiler, *words, "-o", built)) or printed(source, *shortened(50), built)


# What the library answers to headers of other versions.
OPENS = """#include <stdio.h>
#include <vlm.h>
#include <vlm_client.h>
#include <vlm_hub.h>
static void tell(uint32_t status) { printf(" %s", vlm_condition_name(status)); }
int main(void) {
    vlm handle = VLM_CLOSED;
    vlm_hub hub = VLM_HUB_CLOSED;
    vlm_options options = VLM_OPTIONS;
    vlm_threads_options threads_options = VLM_THREADS_OPTIONS;
    vlm_client_options client_options = VLM_CLIENT_OPTIONS;
    vlm_threads *layer;
    vlm_client *client;
    client_options.socket = "/nowhere";
    tell(vlm_open(&handle, &options));
    tell(vlm_hub_open(&hub, 1, &options));
    tell(vlm_threads_open(&threads_options, &layer));
    tell(vlm_client_open(&client_options, &client));
    vlm_close(&handle);
    vlm_hub_close(&hub);
    vlm_threads_close(layer);
    vlm_client_close(client);
    return 0;
}
"""


def other_versions(compiler, _program):
    """What is wrong with programs of other versions: those with the same first two numbers run, the library refuses
    others, and the loader takes no library of others."""
    folder = Path(tempfile.mkdtemp(dir=room()))
    (folder / "opens.c").write_text(OPENS)
    header, own = (TOP / "include" / "vlm.h").read_text(), re.compile(r"(?<=#define VLM_VERSION )0x000200")
    shared = [f"-L{prefix()}/lib", "-lvlm"]
    fits, refused = " SS$_NORMAL SS$_NORMAL SS$_NORMAL LOST", " SS$_BADPARAM" * 4
    for number, answers in ((0x200, fits), (0x2ff, fits), (0x100, refused), (0x300, refused), (0x10200, refused)):
        (folder / "vlm.h").write_text(own.sub(f"{number:#08x}", header))
        (folder / "opens.out").write_text(answers)
        yield from ran(compiler, "-std=c11", *STRICT, f"-I{folder}", package()[0], folder / "opens.c", *shared, "-o",
                       folder / "opens")
        yield from printed(folder / "opens.c", folder / "opens",
                           env={**os.environ, "LD_LIBRARY_PATH": str(prefix() / "lib")})
    shutil.copy(prefix() / "lib" / SONAME, folder / "libvlm.so.0.3")
    ended = subprocess.run([folder / "opens"], capture_output=True, text=True, timeout=SECONDS,
                           env={**os.environ, "LD_LIBRARY_PATH": str(folder)})
    if ended.returncode != 127 or f"{SONAME}: cannot open shared object file" not in ended.stderr:
        yield f"{ended}"


def rust(_program):
    """What is wrong with the tests of the package for Rust."""
    copy = room() / "rust"
    shutil.copytree(TOP / "bindings" / "rust", copy / "bindings" / "rust",
                    ignore=shutil.ignore_patterns("target", "Cargo.lock"))
    shutil.copytree(TOP / "tests" / "scripts", copy / "tests" / "scripts")
    # (the test of TLS is in service_tls.py; the others that cargo leaves out by itself need vlmd)
    more = ["--", "--include-ignored", "--skip", "sessions_by_tls"] if has_uv() else []
    yield from ran("cargo", "test", "--offline", "--quiet", *more, cwd=copy / "bindings" / "rust", seconds=600,
                   env={**os.environ, "VLM_PREFIX": str(prefix())})


def python_tests(package, env):
    """What is wrong with the tests of the package for Python. They are skipped only for want of a tool."""
    ended = subprocess.run([sys.executable, "-m", "unittest", "discover", "-v", "-s", "tests"], cwd=package, env=env,
                           capture_output=True, text=True, timeout=600)
    if ended.returncode:
        yield f"unittest: {ended.returncode}: {ends_of(ended.stderr)}"
    there = {"vlmd": has_uv(), "Graphviz": shutil.which("dot"),
             "browser": shutil.which("chromium") and shutil.which("chromedriver")}
    skipped = set(re.findall(r"\bskipped ['\"](.*)['\"]$", ended.stderr, re.M))
    absent = {f"there is no {name}" for name, found in there.items() if not found}
    yield from (f"tests are skipped: {it}" for it in sorted(skipped - absent))


def python(_program):
    """What is wrong with the package for Python: its tests, what pages show of it, and an installation by pip without a
    network."""
    copy = room() / "python"
    shutil.copytree(TOP / "bindings" / "python", copy / "bindings" / "python",
                    ignore=shutil.ignore_patterns("__pycache__", "build", "*.egg-info"))
    shutil.copytree(TOP / "tests" / "scripts", copy / "tests" / "scripts")
    shutil.copy(TOP / "tests" / "faulty_scripts.py", copy / "tests")
    package, env = copy / "bindings" / "python", {**os.environ, "VLM_PREFIX": str(prefix())}
    yield from python_tests(package, env)
    for page in (TOP / "docs" / "LIBRARY.md", package / "README.md"):
        for block in re.findall(r"^```python\n(.*?)^```", page.read_text(), re.M | re.S):
            yield from ran(sys.executable, "-c", block, cwd=package, env=env)
    if not subprocess.run([sys.executable, "-m", "pip", "--version"], capture_output=True).returncode:
        yield from by_pip(package, env)


def by_pip(package, env):
    """What is wrong with installations by pip without a network: from the packed sources, and an editable one."""
    there, editable, sources = room() / "installed by pip", room() / "editable", package / "sources.tar.gz"
    pack = "import os, wheels; os.rename(wheels.build_sdist('.'), 'sources.tar.gz')"
    yield from ran(sys.executable, "-c", pack, cwd=package)
    pip = [sys.executable, "-m", "pip", "install", "--no-index", "--quiet", "--target"]
    yield from ran(*pip, there, sources)
    env["PYTHONPATH"] = str(there)
    yield from ran(sys.executable, "-c", "import vlm; vlm.Shared().close()", cwd=room(), env=env)
    yield from ran(there / "bin" / "vlm-draw", PLAY / "a-circle-of-three", cwd=room(), env=env)
    yield from ran(*pip, editable, "--editable", package)
    del env["PYTHONPATH"]
    script = ("import site, sys; site.addsitedir(sys.argv[1]); import vlm; vlm.Shared().close(); "
              "sys.exit(vlm.__file__ != sys.argv[2])")
    yield from ran(sys.executable, "-c", script, editable, package / "vlm" / "__init__.py", cwd=room(), env=env)


def first():
    """Tests that come before all others: the rest use what they leave."""
    return [Test("./vlm install", installed), Test("an installation for packagers", staged),
            Test("an installation that is refused", refused),
            Test("an installation without a C compiler", uncompiled)]


def once():
    """Tests that run once, whatever the number of programs."""
    found = [Test(f"{source.stem} by {compiler} with the sanitizer {sanitizer}",
                  partial(over_library, source, compiler, sanitizer))
             for compiler in COMPILERS for sanitizer in SANITIZERS if links(compiler, sanitizer) for source in SOURCES]
    found += [Test(f"the worked scripts in C by {compiler}", partial(plays, compiler))
              for compiler in COMPILERS if shutil.which(compiler)]
    if shutil.which("g++") or shutil.which("clang++"):
        found.append(Test("the lines of C++ in LIBRARY.md", cpp_of_page))
    for compiler in filter(shutil.which, ("g++", "clang++")):
        found.append(Test(f"the headers by {compiler}", partial(header, compiler)))
        found += [Test(f"the guards of vlm.hpp by {compiler} with the sanitizer {sanitizer}",
                       partial(guards, compiler, sanitizer))
                  for sanitizer in SANITIZERS[:2] if sanitizer == "none" or links(compiler, sanitizer)]
    found += [Test(f"a program of an older header by {compiler}", partial(under_older_header, compiler))
              for compiler in COMPILERS if shutil.which(compiler)]
    found += [Test(f"{name} by {compiler}", partial(check, compiler))
              for name, check in (("a program over a newer library", over_newer_library),
                                  ("programs of other versions", other_versions))
              for compiler in COMPILERS if shutil.which(compiler)]
    found += [Test(f"two heaps in a program by {compiler}", partial(two_heaps, compiler))
              for compiler in COMPILERS if shutil.which(compiler)]
    found += [Test("the names that the libraries show", names_shown), Test("the tests of bindings/python", python),
              Test("vlm --proof", proof_told)]
    if any(map(shutil.which, COMPILERS)):
        found.append(Test("the lines of C in the README", readme))
        found += [Test(f"chosen names with keys of the caller by {call}", partial(hashed_by_keys, call))
                  for call in ("open", "hub")]
        if shutil.which("man"):
            found += [Test("the manual page of the library", manual),
                      Test("the manual pages of the calls", call_manuals)]
    if shutil.which("pkg-config"):
        found.append(Test("the versions of the program and the package", versions))
        found += [Test(f"pkg-config and {compiler}", partial(by_package, compiler))
                  for compiler in COMPILERS if shutil.which(compiler)]
    if shutil.which("cmake"):
        found += [Test("CMake", by_cmake), Test("what CMake refuses", refused_by_cmake)]
    if shutil.which("cargo"):
        found.append(Test("cargo test of bindings/rust", rust))
    return found
