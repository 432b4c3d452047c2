"""Makes the libraries for programs in C: libvlm.a and libvlm.so, from the archive of the proved crate and the layers in
C, and over them libvlmvms.a and libvlmvms.so for programs of OpenVMS. Makes the daemon of the lock service, its
commands, and the library by which its clients call OpenSSL. The kit's tools link and pack. The C compiler of the system
compiles the layers and makes the shared libraries, so that both fit its C library."""

import os
import shlex
import shutil
import subprocess
import tempfile
from pathlib import Path

from project import MISSING, TOP, fail

# The layers in C, and the sources of each. An object for each, so a program links only what it calls.
SOURCES = sorted((TOP / "bindings" / "c").glob("*.c"))
LAYERS = {layer: [it for it in SOURCES if it.stem.startswith(layer)]
          for layer in ("vlm_conditions", "vlm_threads", "vlm_hub_wait", "vlm_client")}
# The names that both libraries show. All others are local to them.
SHOWN = ("vlm_*",)
COMPILE = ["-std=c11", "-O2", "-fPIC", "-pthread", f"-I{TOP / 'include'}", "-c"]
# The layer for OpenVMS, and the names that its libraries show.
VMS = sorted((TOP / "vms").glob("*.c"))
VMS_SHOWN = ("sys$*", "lib$*")
# TLS over OpenSSL: a part of the daemon, and a library that the client loads. The number is VLM_TLS_VERSION.
TLS = TOP / "bindings" / "c" / "tls" / "vlm_tls.c"
TLS_LIBRARY = "libvlm-tls.so.1"
OPENSSL = ("-lssl", "-lcrypto")
# The daemon of the service, and the words by which its files are compiled as one.
DAEMON = sorted((TOP / "service").glob("*.c"))
AS_ONE = ("-flto", "-flto-partition=none")
# The commands of the service, which hand all other words to the proved program, and the layers that they need.
COMMANDS = [*sorted((TOP / "service" / "commands").glob("*.c")), *LAYERS["vlm_client"], *LAYERS["vlm_conditions"]]
SHARE = ["-shared", "-pthread", "-Wl,-Bsymbolic", "-Wl,-z,defs", "-Wl,-z,now", "-Wl,-z,relro"]


def kit():
    return Path(shutil.which("rt")).resolve().parent.parent


def compiler():
    """The words that call the C compiler."""
    return shlex.split(os.environ.get("CC", "")) or ["cc"]


def need_compiler():
    """Wants a C compiler, before anything that takes long."""
    if not shutil.which(compiler()[0]):
        fail(MISSING, f"there is no C compiler {compiler()[0]}: install gcc or clang, or name one by CC")


def make(file, *words, **how):
    """Makes a file by a command."""
    made = subprocess.run([str(word) for word in words], capture_output=True, text=True, **how)
    if made.returncode:
        fail(MISSING, f"{words[0]} can't make {file.name}: {made.stderr.strip()[:300] or 'it does not say why'}")


def make_by_kit(file, tool, *words):
    """Makes a file by a tool of the kit. One program is all of LLVM's tools, by the name that it is called by."""
    make(file, tool, *words, executable=kit() / "toolchain" / "bin" / "clang")


def hide_names(made, shown=SHOWN):
    """Makes all names of an object local, except those that are shown."""
    make_by_kit(made, "llvm-objcopy", "--wildcard", *(f"--keep-global-symbol={it}" for it in shown), made)


def make_core(made, archive):
    """Makes one object of the proved crate's archive and the kit's heap. Two libraries that Rattle made fit in one
    program, since each has a heap that no other sees."""
    make_by_kit(made, "ld.lld", "-r", "--whole-archive", archive, kit() / "c" / "liblibc_c.a", "-o", made)
    hide_names(made)


def make_layer(made, sources, shown=SHOWN, *words):
    """Makes one object of the sources of a layer."""
    parts = [made.with_name(f"{source.stem}.part.o") for source in sources]
    for source, part in zip(sources, parts):
        make(part, *compiler(), *COMPILE, *words, source, "-o", part)
    make_by_kit(made, "ld.lld", "-r", *parts, "-o", made)
    hide_names(made, shown)


def make_objects(folder, archive):
    """Makes the objects of both libraries in a folder."""
    core = folder / "vlm.o"
    make_core(core, archive)
    layers = [folder / f"{layer}.o" for layer in LAYERS]
    for made, sources in zip(layers, LAYERS.values()):
        make_layer(made, sources)
    return [core, *layers]


def has_uv():
    """Whether the compiler finds the header of libuv, by which the daemon waits."""
    return not subprocess.run([*compiler(), "-E", "-x", "c", "-"], input="#include <uv.h>\n", capture_output=True,
                              text=True).returncode


def has_openssl():
    """Whether the compiler finds the headers of OpenSSL 3 or later, by which connections have TLS."""
    test = "#include <openssl/ssl.h>\n#if OPENSSL_VERSION_NUMBER < 0x30000000L\n#error too old\n#endif\n"
    return not subprocess.run([*compiler(), "-E", "-x", "c", "-"], input=test, capture_output=True,
                              text=True).returncode


def tls_words():
    """The words by which the daemon has TLS, or none."""
    return [TLS, *OPENSSL] if has_openssl() else ["-DVLM_WITHOUT_TLS"]


def words_as_one():
    """The words by which all files of a program are compiled as one, or none if the compiler can't: clang often lacks
    the plugin of the linker for it."""
    with tempfile.TemporaryDirectory() as room:
        made = subprocess.run([*compiler(), *AS_ONE, "-x", "c", "-", "-o", f"{room}/made"],
                              input="int main(void) { return 0; }\n", capture_output=True, text=True)
    return AS_ONE if made.returncode == 0 else ()


def make_daemon(made, lib):
    """Makes the daemon over the static library in the folder lib."""
    make(made, *compiler(), "-std=gnu11", "-O2", *words_as_one(), "-pthread", f"-I{TOP / 'include'}", *DAEMON,
         lib / "libvlm.a", "-luv", *tls_words(), "-Wl,-z,now", "-Wl,-z,relro", "-o", made)


def make_commands(made):
    """Makes the command vlm, which finds the library of TLS from its own folder."""
    make(made, *compiler(), "-std=gnu11", "-O2", "-pthread", f"-I{TOP / 'include'}", '-DVLM_TLS_BESIDE="../lib/"',
         *COMMANDS, "-Wl,-z,now", "-Wl,-z,relro", "-o", made)


def make_tls(made):
    """Makes the library that the client loads for TLS. Nothing is linked with it, so it has one name."""
    with tempfile.TemporaryDirectory() as room:
        make_shared(made, Path(room), made.name, ("vlm_tls_calls",),
                    ["-std=c11", "-O2", "-fPIC", f"-I{TOP / 'include'}", TLS, *OPENSSL])


def fits_of(version):
    """The first two numbers of a version. Versions with the same ones fit each other."""
    return version.rpartition(".")[0]


def soname_of(version, name="libvlm"):
    """The name by which programs find a shared library."""
    return f"{name}.so." + fits_of(version)


def make_shared(made, folder, soname, shown, words):
    """Makes a shared library of objects and of what it is linked with. Its calls of itself stay in it."""
    names = folder / "names.map"
    names.write_text(f"{{ global: {'; '.join(shown)}; local: *; }};\n")
    make(made, *compiler(), *SHARE, f"-Wl,-soname,{soname}", f"-Wl,--version-script={names}", *words, "-o", made)


def link(name, file):
    """Makes a link of this name beside a file."""
    (file.parent / name).symlink_to(file.name)
    return file.parent / name


def make_pair(lib, name, version, objects, shown=SHOWN, needed=()):
    """Makes the static and the shared library of a name in the folder lib. The shared one needs others."""
    make_by_kit(lib / f"{name}.a", "llvm-ar", "qcs", lib / f"{name}.a", *objects)
    shared = lib / f"{name}.so.{version}"
    make_shared(shared, objects[0].parent, soname_of(version, name), shown, [*objects, *needed])
    link(f"{name}.so", link(soname_of(version, name), shared))


def make_libraries(lib, archive, version):
    """Makes all libraries in the folder lib, from the archive that the proof of the crate left."""
    with tempfile.TemporaryDirectory() as room:
        folder = Path(room)
        make_pair(lib, "libvlm", version, make_objects(folder, archive))
        layer = folder / "vlmvms.o"
        make_layer(layer, VMS, VMS_SHOWN, f"-I{TOP / 'vms' / 'include'}")
        make_pair(lib, "libvlmvms", version, [layer], VMS_SHOWN, [lib / "libvlm.so"])
