"""The version call: package, header and library have one version."""
import ast
import subprocess
import unittest
from ctypes import c_uint32

import rafttwine
from rafttwine.library import call


class VersionTest(unittest.TestCase):
    def test_the_library_has_the_version_of_the_package(self) -> None:
        self.assertEqual(rafttwine.version(), rafttwine.__version__)
        major, minor, patch = map(int, rafttwine.__version__.split("."))
        self.assertEqual(c_uint32(call("version")).value, major * 10_000 + minor * 100 + patch)

    def test_the_header_has_the_version_of_the_package(self) -> None:
        asked = '#include "include/rafttwine.h"\nRAFTTWINE_VERSION\n'
        expand = ["cc", "-E", "-P", "-I", ".", "-x", "c", "-"]
        said = subprocess.run(expand, input=asked, capture_output=True, text=True, check=True)
        self.assertEqual(ast.literal_eval(said.stdout.strip().splitlines()[-1]), rafttwine.__version__)
