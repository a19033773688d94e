"""Makes of the package what pip installs, a wheel. pip calls the functions `build_..` by these names.

The shared library goes along if tools/shared-library has made it in this tree; else the installed package looks for it elsewhere.
"""
from __future__ import annotations

import base64
import hashlib
import re
import sysconfig
import tarfile
import zipfile
from pathlib import Path
from typing import Any

HERE = Path(__file__).resolve().parent
PACKAGE = HERE / "rafttwine"
VERSION = re.search(r'^__version__ = "(.+)"$', (PACKAGE / "release.py").read_text(), re.M)[1]
LIBRARY = HERE.parents[1] / "target" / "lib" / f"librafttwine.so.{VERSION.partition('.')[0]}"
NAME = f"rafttwine-{VERSION}"
METADATA = f"""\
Metadata-Version: 2.1
Name: rafttwine
Version: {VERSION}
Summary: Prices of furniture from price books, by the Rafttwine library
Requires-Python: >=3.9
"""


def build_wheel(wheel_directory: str, config_settings: Any = None, metadata_directory: Any = None) -> str:
    files = {f"{PACKAGE.name}/{file.name}": file.read_bytes() for file in sorted(PACKAGE.iterdir()) if file.is_file()}
    if not LIBRARY.exists():
        return wheel(Path(wheel_directory), files, "any")
    files[f"{PACKAGE.name}/{LIBRARY.name}"] = LIBRARY.read_bytes()
    return wheel(Path(wheel_directory), files, re.sub("[-.]", "_", sysconfig.get_platform()))


def build_editable(wheel_directory: str, config_settings: Any = None, metadata_directory: Any = None) -> str:
    """The installed package is then the one of this folder."""
    return wheel(Path(wheel_directory), {"rafttwine.pth": f"{HERE}\n".encode()}, "any")


def build_sdist(sdist_directory: str, config_settings: Any = None) -> str:
    made = Path(sdist_directory) / f"{NAME}.tar.gz"
    described = Path(sdist_directory) / "PKG-INFO"
    described.write_text(METADATA)
    with tarfile.open(made, "w:gz") as archive:
        archive.add(described, f"{NAME}/PKG-INFO")
        for file in (HERE / "pyproject.toml", Path(__file__), *sorted(PACKAGE.glob("*.py")), PACKAGE / "py.typed"):
            archive.add(file, f"{NAME}/{file.relative_to(HERE)}")
    described.unlink()
    return made.name


def wheel(folder: Path, files: dict[str, bytes], platform: str) -> str:
    """Writes the files with what pip wants to know of them, and gives the wheel's name."""
    tag = f"py3-none-{platform}"
    pure = "true" if platform == "any" else "false"
    information = f"{NAME}.dist-info"
    files[f"{information}/METADATA"] = METADATA.encode()
    files[f"{information}/WHEEL"] = f"Wheel-Version: 1.0\nGenerator: rafttwine\nRoot-Is-Purelib: {pure}\nTag: {tag}\n".encode()
    recorded = [f"{name},sha256={digest(content)},{len(content)}\n" for name, content in files.items()]
    files[f"{information}/RECORD"] = "".join([*recorded, f"{information}/RECORD,,\n"]).encode()
    made = folder / f"{NAME}-{tag}.whl"
    with zipfile.ZipFile(made, "w", zipfile.ZIP_DEFLATED) as archive:
        for name, content in files.items():
            archive.writestr(zipfile.ZipInfo(name), content)  # of no date: the same files are the same wheel
    return made.name


def digest(content: bytes) -> str:
    return base64.urlsafe_b64encode(hashlib.sha256(content).digest()).rstrip(b"=").decode()
