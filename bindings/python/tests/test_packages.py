"""What pip is given: a wheel, an editable installation, and the sources."""

import os
import sys
import tarfile
import tempfile
import time
import unittest
import unittest.mock
from pathlib import Path
from zipfile import ZipFile

FOLDER = Path(__file__).resolve().parents[1]
sys.path.insert(0, str(FOLDER))

import wheels  # noqa: E402

NAME = "vlm-" + wheels._table("project")["version"]


class Packages(unittest.TestCase):
    def setUp(self):
        room = tempfile.TemporaryDirectory()
        self.addCleanup(room.cleanup)
        self.room = Path(room.name)

    def content(self, wheel):
        with ZipFile(self.room / wheel) as packed:
            return {name: packed.read(name) for name in packed.namelist()}

    def test_a_wheel_has_the_package(self):
        content = self.content(wheels.build_wheel(str(self.room)))
        self.assertEqual(content["vlm/__init__.py"], (FOLDER / "vlm" / "__init__.py").read_bytes())
        self.assertIn("vlm/py.typed", content)
        self.assertIn(b"vlm-draw = vlm.draw.command:main\n", content[f"{NAME}.dist-info/entry_points.txt"])

    def test_an_editable_installation_leads_to_the_sources(self):
        content = self.content(wheels.build_editable(str(self.room)))
        self.assertEqual(content["vlm.pth"].decode(), f"{FOLDER}\n")
        self.assertEqual([name for name in content if name.startswith("vlm/")], [])

    def test_a_wheel_with_the_library_is_of_a_platform(self):
        wheel = wheels.build_with_library(str(self.room), "1.2.3", "py3-none-some_platform", {"vlm/libvlm.so": b"code"})
        self.assertEqual(wheel, "vlm-1.2.3-py3-none-some_platform.whl")
        content = self.content(wheel)
        self.assertEqual(content["vlm/libvlm.so"], b"code")
        self.assertIn(b"Root-Is-Purelib: false\nTag: py3-none-some_platform\n", content["vlm-1.2.3.dist-info/WHEEL"])
        self.assertIn(b"\nVersion: 1.2.3\n", content["vlm-1.2.3.dist-info/METADATA"])
        self.assertIn(b"vlm/libvlm.so,sha256=", content["vlm-1.2.3.dist-info/RECORD"])

    def test_the_same_content_gives_the_same_bytes(self):
        for build in (wheels.build_wheel, wheels.build_sdist):
            first, again = self.room / "first", self.room / "again"
            for folder, epoch in ((first, "1700000000"), (again, "1700000000")):
                folder.mkdir(exist_ok=True)
                with unittest.mock.patch.dict(os.environ, SOURCE_DATE_EPOCH=epoch):
                    name = build(str(folder))
                time.sleep(1.1)
            self.assertEqual((first / name).read_bytes(), (again / name).read_bytes())

    def test_the_sources_have_all_that_a_wheel_needs(self):
        with tarfile.open(self.room / wheels.build_sdist(str(self.room))) as packed:
            packed.extractall(self.room)
        left = self.room / NAME
        needed = {"pyproject.toml", "wheels.py", "README.md", "vlm/__init__.py", "vlm/draw/page.css"}
        names = {it.relative_to(left).as_posix() for it in left.rglob("*") if it.is_file()}
        self.assertLessEqual(needed, names)
        self.assertTrue((left / "PKG-INFO").read_bytes().startswith(b"Metadata-Version: "))
        for name in names - {"PKG-INFO"}:
            self.assertEqual((left / name).read_bytes(), (FOLDER / name).read_bytes())


if __name__ == "__main__":
    unittest.main()
