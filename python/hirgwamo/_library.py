"""Finds the shared library of the proved code, loads it, and says what its functions take and return.

Where it is looked for, in this order:

1. the path in the environment variable HIRGWAMO_LIBRARY, and nowhere else where that is set and not empty;
2. libhirgwamo.so.1 three folders above the package: PREFIX/lib/libhirgwamo.so.1 where the package is installed as
   PREFIX/lib/hirgwamo/python/hirgwamo;
3. target/part/libhirgwamo.so.1 two folders above the package: in the repository, where the package is python/hirgwamo;
4. wherever the system's loader finds the name libhirgwamo.so.1.

The first file of 2 and 3 that is there is taken; where it does not load it is an error, and no other one is tried.
"""

from __future__ import annotations

import ctypes
import os
from ctypes import POINTER, c_char_p, c_int64, c_size_t, c_uint32
from pathlib import Path
from typing import Dict, List, Tuple

MAJOR = 1
NAME = f"libhirgwamo.so.{MAJOR}"
VARIABLE = "HIRGWAMO_LIBRARY"

# A version is major * 1,000,000 + minor * 1,000 + patch.
MAJOR_UNIT = 1_000_000
MINOR_UNIT = 1_000

_BYTES = (c_char_p, c_size_t)
_NUMBERS = (POINTER(c_int64), c_size_t)
_BOOK_AND_PACK = (*_BYTES, *_BYTES)
_PAIR = (c_int64, c_int64)

# What each function takes. All of them return a 32-bit number without sign.
_TAKES: Dict[str, Tuple[object, ...]] = {
    "hirgwamo_version": (),
    "hirgwamo_build": (*_BOOK_AND_PACK, *_NUMBERS),
    "hirgwamo_between": (*_BOOK_AND_PACK, *_PAIR, *_PAIR, *_NUMBERS),
    "hirgwamo_add": (*_BOOK_AND_PACK, *_PAIR, *_PAIR, *_NUMBERS),
    "hirgwamo_sub": (*_BOOK_AND_PACK, *_PAIR, *_PAIR, *_NUMBERS),
    "hirgwamo_next_period": (*_BOOK_AND_PACK, *_PAIR, *_NUMBERS),
    "hirgwamo_previous_period": (*_BOOK_AND_PACK, *_PAIR, *_NUMBERS),
    "hirgwamo_next_period_marked": (*_BOOK_AND_PACK, *_PAIR, *_NUMBERS),
    "hirgwamo_previous_period_marked": (*_BOOK_AND_PACK, *_PAIR, *_NUMBERS),
    "hirgwamo_list": (*_BOOK_AND_PACK, *_PAIR, *_PAIR, *_NUMBERS, *_NUMBERS),
    "hirgwamo_hardest": (*_BOOK_AND_PACK, *_PAIR, *_NUMBERS, c_int64, *_NUMBERS),
    "hirgwamo_offset": (*_BYTES, *_PAIR, *_NUMBERS),
    "hirgwamo_next_change": (*_BYTES, *_PAIR, *_NUMBERS),
    "hirgwamo_resolve": (*_BYTES, c_int64, c_int64, c_int64, *_PAIR, *_NUMBERS),
    "hirgwamo_resolve_marked": (*_BYTES, c_int64, c_int64, c_int64, *_PAIR, *_NUMBERS),
    "hirgwamo_answers": (*_BOOK_AND_PACK, *_NUMBERS, *_NUMBERS),
}


def _places() -> List[Path]:
    """Where the library may stand beside this package: in an installed prefix, and in the repository."""
    package = Path(__file__).resolve().parent
    return [package.parents[2] / NAME, package.parents[1] / "target" / "part" / NAME]


def _chosen() -> Tuple[str, List[str]]:
    """What the loader is to load, and, in words, where that was looked for."""
    told = os.environ.get(VARIABLE)
    if told:
        return os.path.abspath(told), [f"the path in {VARIABLE}: {os.path.abspath(told)}"]
    looked = [str(place) for place in _places()]
    for place in _places():
        if place.exists():
            return str(place), [str(place)]
    return NAME, [*looked, f"the system's loader, by the name {NAME}"]


def version_parts(version: int) -> Tuple[int, int, int]:
    """Major, minor and patch of a version's number."""
    return version // MAJOR_UNIT, version % MAJOR_UNIT // MINOR_UNIT, version % MINOR_UNIT


def _failed(looked: List[str], reason: object) -> ImportError:
    places = "; ".join(looked)
    return ImportError(
        f"the library of Hirgwamo does not load: {reason}. Looked at: {places}. "
        f"Build or install {NAME}, or set {VARIABLE} to its path."
    )


def _declare(library: ctypes.CDLL, looked: List[str]) -> None:
    """Sets what each function takes and returns."""
    for name, takes in _TAKES.items():
        try:
            function = getattr(library, name)
        except AttributeError as error:
            raise _failed(looked, f"it has no function {name}") from error
        function.argtypes = takes
        function.restype = c_uint32


def _check(library: ctypes.CDLL, looked: List[str]) -> None:
    """Refuses a library of another major version."""
    parts = version_parts(library.hirgwamo_version())
    if parts[0] != MAJOR:
        told = ".".join(map(str, parts))
        raise _failed(looked, f"its version is {told}, and this package needs a version {MAJOR}")


def load() -> ctypes.CDLL:
    """The library, with the functions declared and its major version checked."""
    chosen, looked = _chosen()
    try:
        library = ctypes.CDLL(chosen)
    except OSError as error:
        raise _failed(looked, error) from error
    _declare(library, looked)
    _check(library, looked)
    return library
