"""The package installed: by pip, without a network, and as the wheel that pip gets; then it finds the library that went along."""
from __future__ import annotations

import base64
import hashlib
import importlib.util
import os
import pathlib
import subprocess
import sys
import tempfile
import unittest
import zipfile

import rafttwine

FOLDER = pathlib.Path(rafttwine.__file__).resolve().parents[1]
BUILT = FOLDER / "build_package.py"
LEFT_OUT = ("RAFTTWINE_LIBRARY", "PYTHONPATH", "LD_LIBRARY_PATH")
ASKED = """
import rafttwine, rafttwine.library
print(rafttwine.__version__, rafttwine.version(), rafttwine.__file__, rafttwine.library.library()._name)
"""


@unittest.skipUnless(BUILT.exists(), "this is an installed package itself")
class InstallingTest(unittest.TestCase):
    def setUp(self) -> None:
        made = tempfile.TemporaryDirectory()
        self.addCleanup(made.cleanup)
        self.folder = pathlib.Path(made.name).resolve()

    def run_in(self, *words: str, **environment: str) -> str:
        kept = {name: value for name, value in os.environ.items() if name not in LEFT_OUT}
        done = subprocess.run([sys.executable, "-B", *words], cwd=self.folder, env={**kept, **environment}, capture_output=True,
                              text=True)
        self.assertEqual(done.returncode, 0, done.stdout + done.stderr)
        return done.stdout

    def works(self, there: pathlib.Path) -> None:
        package = there / "rafttwine"
        said = self.run_in("-c", ASKED, PYTHONPATH=str(there)).split()
        self.assertEqual(said, [rafttwine.__version__] * 2 + [str(package / "__init__.py"), str(package / "librafttwine.so.2")])
        self.assertTrue((package / "py.typed").exists())

    @unittest.skipUnless(importlib.util.find_spec("pip"), "there is no pip")
    def test_by_pip(self) -> None:
        before = sorted(FOLDER.rglob("*"))
        self.run_in("-m", "pip", "install", "--quiet", "--no-index", "--no-cache-dir", "--target", "there", str(FOLDER))
        self.works(self.folder / "there")
        self.assertEqual(sorted(FOLDER.rglob("*")), before)

    def build(self, what: str) -> pathlib.Path:
        asked = f"import build_package; print(build_package.build_{what}('.'))"
        return self.folder / self.run_in("-c", asked, PYTHONPATH=str(FOLDER)).strip()

    def test_the_wheel(self) -> None:
        with zipfile.ZipFile(self.build("wheel")) as wheel:
            wheel.extractall(self.folder / "there")
            recorded = wheel.read(f"rafttwine-{rafttwine.__version__}.dist-info/RECORD").decode().splitlines()
            self.assertEqual([line.split(",")[0] for line in recorded], wheel.namelist())
            for name, said, size in (line.split(",") for line in recorded[:-1]):
                digest = base64.urlsafe_b64decode(said[len("sha256="):] + "=").hex()
                self.assertEqual((digest, int(size)), (hashlib.sha256(wheel.read(name)).hexdigest(), len(wheel.read(name))))
        self.works(self.folder / "there")
        installed = {file.name for file in (self.folder / "there" / "rafttwine").iterdir()} - {"librafttwine.so.2"}
        self.assertEqual(installed, {file.name for file in (FOLDER / "rafttwine").iterdir() if file.is_file()})

    def test_the_editable_wheel_leads_to_this_folder(self) -> None:
        with zipfile.ZipFile(self.build("editable")) as wheel:
            wheel.extractall(self.folder / "there")
        asked = "import site; site.addsitedir('there'); import rafttwine; print(rafttwine.__file__)"
        self.assertEqual(self.run_in("-c", asked).strip(), str(FOLDER / "rafttwine" / "__init__.py"))

    def test_the_sources_build_the_same_package(self) -> None:
        unpack = f"import tarfile; tarfile.open({str(self.build('sdist'))!r}).extractall('.')"
        self.run_in("-W", "ignore", "-c", unpack)
        sources = self.folder / f"rafttwine-{rafttwine.__version__}"
        made = self.run_in("-c", "import build_package; print(build_package.build_wheel('.'))", PYTHONPATH=str(sources)).strip()
        self.assertEqual(made, f"rafttwine-{rafttwine.__version__}-py3-none-any.whl")
        with zipfile.ZipFile(self.folder / made) as wheel:
            packed = {name for name in wheel.namelist() if name.startswith("rafttwine/")}
        self.assertEqual(packed, {f"rafttwine/{file.name}" for file in (FOLDER / "rafttwine").iterdir() if file.is_file()})
