"""Where the library is looked for, in which order, and what is said where it is not there or does not fit."""
from __future__ import annotations

import os
import pathlib
import shutil
import subprocess
import sys
import tempfile
import unittest

import rafttwine
from rafttwine import finding, library

PACKAGE = pathlib.Path(rafttwine.__file__).parent
LIBRARY = pathlib.Path(library.library()._name).resolve()
ASKED = "import rafttwine, rafttwine.library; print(rafttwine.version(), rafttwine.library.library()._name)"


class FindingTest(unittest.TestCase):
    """Each test has a copy of the package in a tree of its own, and asks it in a process of its own."""

    def setUp(self) -> None:
        made = tempfile.TemporaryDirectory()
        self.addCleanup(made.cleanup)
        self.tree = pathlib.Path(made.name).resolve()
        self.package = self.tree / "bindings" / "python" / "rafttwine"
        shutil.copytree(PACKAGE, self.package, ignore=shutil.ignore_patterns("__pycache__", "*.so*"))

    def put(self, *where: str) -> str:
        place = self.tree.joinpath(*where)
        place.parent.mkdir(parents=True, exist_ok=True)
        shutil.copy(LIBRARY, place)
        return str(place)

    def compiled(self, source: str) -> str:
        """A shared library that is none of ours."""
        made = self.tree / "another.so"
        subprocess.run(["cc", "-shared", "-fPIC", "-x", "c", "-", "-o", made], input=source, text=True, check=True)
        return str(made)

    def asked(self, **environment: str) -> str:
        """What the copy says: its library's version and file, or the last lines of its complaint."""
        kept = {name: value for name, value in os.environ.items() if name not in (finding.VARIABLE, "LD_LIBRARY_PATH")}
        there = {**kept, "PYTHONPATH": str(self.package.parent), **environment}
        done = subprocess.run([sys.executable, "-B", "-c", ASKED], env=there, capture_output=True, text=True, cwd=self.tree)
        return done.stdout.strip() or done.stderr[done.stderr.rindex("OSError: "):].strip()

    def test_the_order_of_places(self) -> None:
        """From the last place to the first: each one that is put there comes before those that are there already."""
        self.assertEqual(self.asked(LD_LIBRARY_PATH=str(LIBRARY.parent)), f"{rafttwine.__version__} {finding.FILE}")
        for where in (("target", "lib"), ("bindings", "python"), ("bindings", "python", "rafttwine")):
            place = self.put(*where, finding.FILE)
            with self.subTest(where):
                self.assertEqual(self.asked(LD_LIBRARY_PATH=str(LIBRARY.parent)), f"{rafttwine.__version__} {place}")
        named = self.put("elsewhere", "named.so")
        self.assertEqual(self.asked(RAFTTWINE_LIBRARY=named), f"{rafttwine.__version__} {named}")
        self.assertEqual(self.asked(RAFTTWINE_LIBRARY="elsewhere/named.so"), f"{rafttwine.__version__} {named}")

    def test_nowhere(self) -> None:
        said = self.asked(RAFTTWINE_LIBRARY="")
        if said.endswith(finding.FILE):
            self.skipTest("the library is installed in this system")
        for line in ("the library is nowhere. Looked for:", f"the file that {finding.VARIABLE} names: not set",
                     f"{self.package / finding.FILE}: not there", f"{self.package.parent / finding.FILE}: not there",
                     f"{self.tree / 'target' / 'lib' / finding.FILE}: not there", f"{finding.FILE} in the system: ",
                     "tools/shared-library makes it, tools/install PREFIX installs it"):
            self.assertIn(line, said)

    def test_without_the_library_all_but_calls_work(self) -> None:
        there = {"PYTHONPATH": str(self.package.parent), finding.VARIABLE: "/none"}
        asked = "from rafttwine import *; print(read_book(book(Article('A1'))))"
        done = subprocess.run([sys.executable, "-B", "-c", asked], env=there, capture_output=True, text=True)
        self.assertEqual(done.stdout, "(Article(number='A1', scheme=''),)\n", done.stderr)

    def test_the_named_file_is_not_there_or_no_library(self) -> None:
        self.put("target", "lib", finding.FILE)
        words = self.tree / "words.so"
        words.write_text("no library")
        for file in ("/none/librafttwine.so", str(words)):
            with self.subTest(file):
                said = self.asked(RAFTTWINE_LIBRARY=file)
                self.assertIn(f"rafttwine: {file} cannot be loaded as the library, and RAFTTWINE_LIBRARY names it: ", said)

    def test_another_version(self) -> None:
        other = self.compiled("unsigned rafttwine_version(void) { return 10305; }")
        self.assertIn(f"{other} has the version 1.3.5, and this package, {rafttwine.__version__}, needs 2.x; tools/shared-library",
                      self.asked(RAFTTWINE_LIBRARY=other))

    def test_no_version(self) -> None:
        other = self.compiled("int nothing;")
        self.assertIn(f"{other} does not say its version: it is older than 1.1.0, or no Rafttwine library; ",
                      self.asked(RAFTTWINE_LIBRARY=other))

    def test_a_call_is_missing(self) -> None:
        there = "".join(f"void rafttwine_{name}(void) {{}}\n" for name in library.CALLS if name not in ("version", "packaging"))
        other = self.compiled(f"unsigned rafttwine_version(void) {{ return 20300; }}\n{there}")
        self.assertIn(f"{other}, version 2.3.0, has no rafttwine_packaging, which this package needs; ",
                      self.asked(RAFTTWINE_LIBRARY=other))
