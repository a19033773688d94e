"""Where the library is: the file that RAFTTWINE_LIBRARY names; else beside the package; else in the tree that the package stands
in, where tools/shared-library makes it; else in the system. The first that is there is loaded, and has to be one that fits."""
from __future__ import annotations

import os
from ctypes import CDLL, c_uint32
from pathlib import Path
from typing import Iterable, Iterator

from .release import __version__

VARIABLE = "RAFTTWINE_LIBRARY"
MAJOR = __version__.partition(".")[0]
FILE = f"librafttwine.so.{MAJOR}"
PACKAGE = Path(__file__).resolve().parent
BUILT_TREE = ("bindings", "python", PACKAGE.name)
REMEDY = f"tools/shared-library makes it, tools/install PREFIX installs it, and {VARIABLE} can name the file"


def places() -> Iterator[Path]:
    """The files that are looked for, in this order, where the variable names none."""
    yield PACKAGE / FILE
    yield PACKAGE.parent / FILE
    if PACKAGE.parts[-3:] == BUILT_TREE:
        yield PACKAGE.parents[2] / "target" / "lib" / FILE


def found(calls: Iterable[str]) -> CDLL:
    """The library, which has these calls. What is wrong with it, or where it was looked for in vain, is said by an OSError."""
    named = os.environ.get(VARIABLE)
    if named:
        return fitting(loaded(named, f"{VARIABLE} names it"), named, calls)
    for place in places():
        if place.exists():
            return fitting(loaded(str(place), "it is the first that is there"), str(place), calls)
    return fitting(installed(), FILE, calls)


def loaded(file: str, why: str) -> CDLL:
    # A name without a folder would be looked for in the system.
    path = os.path.abspath(file) if os.path.exists(file) else file
    try:
        return CDLL(path)
    except OSError as error:
        raise OSError(f"rafttwine: {file} cannot be loaded as the library, and {why}: {error}") from None


def installed() -> CDLL:
    try:
        return CDLL(FILE)
    except OSError as error:
        looked = "".join(f"\n  {place}: not there" for place in places())
        raise OSError(f"rafttwine: the library is nowhere. Looked for:\n  the file that {VARIABLE} names: not set{looked}"
                      f"\n  {FILE} in the system: {error}\n{REMEDY}.") from None


def fitting(library: CDLL, file: str, calls: Iterable[str]) -> CDLL:
    """The library, if it is one of the package's own first number and has every call."""
    if not hasattr(library, "rafttwine_version"):
        raise OSError(f"rafttwine: {file} does not say its version: it is older than 1.1.0, or no Rafttwine library; {REMEDY}")
    version = version_of(library)
    if version.partition(".")[0] != MAJOR:
        raise OSError(f"rafttwine: {file} has the version {version}, and this package, {__version__}, needs {MAJOR}.x; {REMEDY}")
    for call in calls:
        if not hasattr(library, f"rafttwine_{call}"):
            raise OSError(f"rafttwine: {file}, version {version}, has no rafttwine_{call}, which this package needs; {REMEDY}")
    return library


def version_of(library: CDLL) -> str:
    say = library.rafttwine_version
    say.restype, say.argtypes = c_uint32, []
    number = say()
    return f"{number // 10_000}.{number // 100 % 100}.{number % 100}"
