"""Packs the package vlm for pip, by what pyproject.toml says of it (PEP 517 and 660). It is Python alone, so nothing is
built. A wheel may have the shared library in it too. The same content gives the same bytes: all files get the time
SOURCE_DATE_EPOCH, or one that is always the same."""

import base64
import gzip
import hashlib
import io
import os
import re
import tarfile
import time
from pathlib import Path
from typing import Any, Dict, Optional
from zipfile import ZIP_DEFLATED, ZipFile, ZipInfo

HERE = Path(__file__).resolve().parent
PURE = "py3-none-any"
WHEEL = "Wheel-Version: 1.0\nGenerator: vlm\nRoot-Is-Purelib: {pure}\nTag: {tag}\n"
METADATA = ("Metadata-Version: 2.1\nName: {name}\nVersion: {version}\nSummary: {description}\n"
            "Requires-Python: {requires-python}\n")
# 1980, with which the times of a zip archive begin.
FIRST_TIME = 315_532_800


def _table(name: str) -> Dict[str, str]:
    """The lines of a table of pyproject.toml that name one text."""
    text = (HERE / "pyproject.toml").read_text()
    table = re.search(rf"^\[{re.escape(name)}\]\n(.*?)(?=^\[|\Z)", text, re.M | re.S)
    return dict(re.findall(r'^([\w-]+) = "(.*)"$', table[1], re.M)) if table else {}


def _info(version: str) -> str:
    return f"vlm-{version}.dist-info"


def _info_files(version: str) -> Dict[str, bytes]:
    """What an installation tells of the package."""
    metadata = METADATA.format_map({**_table("project"), "version": version})
    commands = "[console_scripts]\n" + "".join(f"{name} = {call}\n" for name, call in _table("project.scripts").items())
    return {f"{_info(version)}/METADATA": metadata.encode(), f"{_info(version)}/entry_points.txt": commands.encode()}


def _package() -> Dict[str, bytes]:
    """The files of the package and of the packages in it, without what Python leaves there."""
    files = [it for it in sorted((HERE / "vlm").rglob("*")) if it.is_file() and "__pycache__" not in it.parts]
    return {it.relative_to(HERE).as_posix(): it.read_bytes() for it in files}


def installed_files(version: str) -> Dict[str, bytes]:
    """The files of an installation without pip, by their places in the folder of the modules."""
    return {**_package(), **_info_files(version)}


def _row(name: str, text: bytes) -> str:
    """The row of a file in the list."""
    digest = base64.urlsafe_b64encode(hashlib.sha256(text).digest()).rstrip(b"=").decode()
    return f"{name},sha256={digest},{len(text)}\n"


def _time() -> int:
    return max(FIRST_TIME, int(os.environ.get("SOURCE_DATE_EPOCH", FIRST_TIME)))


def _wheel(folder: str, content: Dict[str, bytes], version: str, tag: str = PURE) -> str:
    """Makes a wheel with this content in a folder, and returns its name."""
    info = _info(version)
    files = {**content, **_info_files(version)}
    files[f"{info}/WHEEL"] = WHEEL.format(pure="true" if tag == PURE else "false", tag=tag).encode()
    files[f"{info}/RECORD"] = "".join([*(_row(*it) for it in files.items()), f"{info}/RECORD,,\n"]).encode()
    wheel = f"vlm-{version}-{tag}.whl"
    with ZipFile(Path(folder) / wheel, "w") as packed:
        for name, text in files.items():
            member = ZipInfo(name, time.gmtime(_time())[:6])
            member.external_attr = 0o100644 << 16
            packed.writestr(member, text, ZIP_DEFLATED)
    return wheel


def build_wheel(wheel_directory: str, config_settings: Optional[Dict[str, Any]] = None,
                metadata_directory: Optional[str] = None) -> str:
    """What pip calls to install the package."""
    return _wheel(wheel_directory, _package(), _table("project")["version"])


def build_editable(wheel_directory: str, config_settings: Optional[Dict[str, Any]] = None,
                   metadata_directory: Optional[str] = None) -> str:
    """What pip calls for an editable installation: Python finds the package in this folder."""
    return _wheel(wheel_directory, {"vlm.pth": f"{HERE}\n".encode()}, _table("project")["version"])


def build_with_library(folder: str, version: str, tag: str, more: Dict[str, bytes]) -> str:
    """Makes a wheel for one platform, which its tag names: `more` has the shared library and what belongs to it."""
    return _wheel(folder, {**_package(), **more}, version, tag)


def build_sdist(sdist_directory: str, config_settings: Optional[Dict[str, Any]] = None) -> str:
    """Packs the sources, from which pip installs the package too."""
    version = _table("project")["version"]
    name = f"vlm-{version}"
    content = {it: (HERE / it).read_bytes() for it in (*_package(), "pyproject.toml", "wheels.py", "README.md")}
    content["PKG-INFO"] = _info_files(version)[f"{_info(version)}/METADATA"]
    with open(Path(sdist_directory) / f"{name}.tar.gz", "wb") as file, \
            gzip.GzipFile("", "wb", 9, file, _time()) as zipped, tarfile.open(fileobj=zipped, mode="w") as packed:
        for path, text in content.items():
            member = tarfile.TarInfo(f"{name}/{path}")
            member.size, member.mtime = len(text), _time()
            packed.addfile(member, io.BytesIO(text))
    return f"{name}.tar.gz"
