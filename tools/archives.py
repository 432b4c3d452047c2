"""Makes what is packed for other systems than Debian: an archive of an installation, the wheel and the sources for
Python, and the crates for Rust."""

import gzip
import os
import re
import shutil
import subprocess
import sys
import tarfile

from project import MISSING, TOP, fail

PYTHON = TOP / "bindings" / "python"
RUST = TOP / "bindings" / "rust"
# A folder of crates that stands for the registry, so that cargo needs no network.
REGISTRY = """[source.crates-io]
replace-with = "here"
[source.here]
directory = "{folder}"
"""


def pack_installation(staged, name, folder, epoch):
    """Packs the files of an installation into NAME.tar.gz, below a folder of this name."""
    def told(member):
        member.uid = member.gid = 0
        member.uname = member.gname = "root"
        member.mtime = epoch
        member.mode = 0o755 if member.isdir() or member.mode & 0o100 else 0o644
        return member

    with open(folder / f"{name}.tar.gz", "wb") as file, gzip.GzipFile("", "wb", 9, file, epoch) as zipped, \
            tarfile.open(fileobj=zipped, mode="w") as packed:
        for path in [staged, *sorted(staged.rglob("*"))]:
            packed.add(path, name / path.relative_to(staged), recursive=False, filter=told)


def platform_of(library):
    """The tag of the platforms where a shared library runs: those with its C library or a later one."""
    shown = subprocess.run(["objdump", "-T", library], capture_output=True, text=True, check=True).stdout
    numbers = [tuple(map(int, it.split("."))) for it in re.findall(r"\bGLIBC_([\d.]+)", shown)]
    return "manylinux_{}_{}_x86_64".format(*max(numbers)[:2])


def pack_python(staged, version, folder):
    """Packs the wheel with the shared library in it, and the sources."""
    sys.path.insert(0, str(PYTHON))
    import wheels
    library = staged / "lib" / f"libvlm.so.{version}"
    soname = f"libvlm.so.{version.rpartition('.')[0]}"
    more = {f"vlm/{soname}": library.read_bytes(), "vlm/proved": (staged / "share" / "vlm" / "proved").read_bytes()}
    wheels.build_with_library(str(folder), version, f"py3-none-{platform_of(library)}", more)
    wheels.build_sdist(str(folder))


def cargo_packed(source, *words, target):
    ended = subprocess.run(["cargo", "package", "--quiet", "--no-verify", "--offline", "--allow-dirty", *words],
                           cwd=source, capture_output=True, text=True,
                           env={**os.environ, "CARGO_TARGET_DIR": str(target), "DOCS_RS": "1"})
    if ended.returncode:
        fail(MISSING, f"cargo can't pack the crates: {ended.stderr.strip()[-600:]}")


def pack_crates(folder, room):
    """Packs both crates for Rust. The crate vlm uses vlm-sys, which cargo finds unpacked beside it."""
    source, target, registry = room / "rust", room / "target", room / "registry"
    shutil.copytree(RUST, source, ignore=shutil.ignore_patterns("target", "Cargo.lock"))
    cargo_packed(source, "-p", "vlm-sys", target=target)
    [low] = (target / "package").glob("vlm-sys-*.crate")
    with tarfile.open(low) as packed:
        packed.extractall(registry)
    (registry / low.stem / ".cargo-checksum.json").write_text('{"files":{}}')
    (source / ".cargo").mkdir()
    (source / ".cargo" / "config.toml").write_text(REGISTRY.format(folder=registry))
    cargo_packed(source, "-p", "vlm", target=target)
    for crate in sorted((target / "package").glob("*.crate")):
        shutil.copy(crate, folder)


def need_cargo():
    if not shutil.which("cargo"):
        fail(MISSING, "cargo is not there, which packs the crates for Rust")
