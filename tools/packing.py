"""Makes all packages in a folder: those of Debian, those for Python and Rust, the archive of an installation, the list
of what is in it, and the checksums of all. The same tree gives the same bytes: all files get the time of the commit, or
SOURCE_DATE_EPOCH."""

import hashlib
import os
import subprocess
import tempfile
from pathlib import Path

from archives import need_cargo, pack_crates, pack_installation, pack_python
from bill import write_bill
from debian import make_debian, need_tools
from libraries import has_openssl, has_uv, need_compiler
from project import MISSING, TOP, VERSION, fail
from staging import make_files


def need_epoch():
    """Sets the time that all packed files get."""
    if "SOURCE_DATE_EPOCH" in os.environ:
        return
    told = subprocess.run(["git", "-C", TOP, "log", "-1", "--format=%ct"], capture_output=True, text=True)
    if told.returncode:
        fail(MISSING, "there is no commit whose time the files can get: name one in SOURCE_DATE_EPOCH, in seconds")
    os.environ["SOURCE_DATE_EPOCH"] = told.stdout.strip()


def need_tools_of_packages():
    need_compiler()
    need_tools()
    need_cargo()
    if not has_uv():
        fail(MISSING, "there is no uv.h for the lock service: Debian has it in libuv1-dev")
    if not has_openssl():
        fail(MISSING, "there are no headers of OpenSSL 3 for TLS: Debian has them in libssl-dev")
    need_epoch()


def write_sums(folder):
    names = sorted(it.name for it in folder.iterdir())
    lines = [f"{hashlib.sha256((folder / name).read_bytes()).hexdigest()}  {name}\n" for name in names]
    (folder / "SHA256SUMS").write_text("".join(lines))


def make_packages(made, program, archive, version=VERSION):
    """Makes all packages in a folder, from a program and the archive of the crate for C."""
    need_tools_of_packages()
    os.umask(0o022)
    with tempfile.TemporaryDirectory(prefix="vlm-package-") as folder:
        room = Path(folder)
        staged = room / "staged"
        for it in (staged, room / "debian", room / "crates"):
            it.mkdir()
        make_files(staged, program, archive, version)
        make_debian(staged, version, made, room / "debian")
        pack_installation(staged, f"vlm-{version}-linux-x86_64", made, int(os.environ["SOURCE_DATE_EPOCH"]))
        pack_python(staged, version, made)
        pack_crates(made, room / "crates")
        write_bill(staged, version, made)
    write_sums(made)
