"""The shared library: where it is found, what is said where it is not, and what its functions take by the header."""

import ctypes
import os
import re
import shutil
import subprocess
import sys
import tempfile
import types
import unittest
from ctypes import POINTER, c_char_p, c_int64, c_size_t, c_uint32
from pathlib import Path
from unittest import mock

import hirgwamo
from hirgwamo import _library, numbers
from hirgwamo.refusals import BY_NUMBER

from .stored import PYTHON, ROOT

HEADER = (ROOT / "part" / "hirgwamo.h").read_text()
LIBRARY = Path(os.environ[_library.VARIABLE]) if os.environ.get(_library.VARIABLE) else Path(numbers._c._name)
TELL = "import hirgwamo; print(hirgwamo.numbers._c._name)"
C_TYPES = {"const uint8_t *": c_char_p, "size_t": c_size_t, "int64_t": c_int64}
C_TYPES.update({"int64_t *": POINTER(c_int64), "const int64_t *": POINTER(c_int64)})


def prototypes():
    """Each function of the header: its name and the types that it takes."""
    for name, takes in re.findall(r"^uint32_t (hirgwamo_\w+)\(([^)]*)\);", HEADER, re.MULTILINE):
        given = [re.fullmatch(r"(.*?)\w*", " ".join(take.split()))[1].strip() for take in takes.split(",")]
        yield name, [] if takes == "void" else given


def constants():
    """The numbers that the header names."""
    return {name: int(number) for name, number in re.findall(r"HIRGWAMO_(\w+) = (\d+)", HEADER)}


class Header(unittest.TestCase):
    def test_functions(self):
        seen = dict(prototypes())
        self.assertEqual(sorted(seen), sorted(_library._TAKES))
        self.assertEqual(len(seen), 16)
        for name, takes in seen.items():
            function = getattr(numbers._c, name)
            self.assertEqual(list(function.argtypes), [C_TYPES[take] for take in takes], name)
            self.assertIs(function.restype, c_uint32)

    def test_numbers(self):
        told = constants()
        sizes = ["VERDICT", "TIME", "INSTANT", "PERIOD", "COUNT", "STRETCH", "OFFSET", "CHANGE", "RESOLVED", "QUERY", "ANSWER"]
        for name in [*sizes, "MARKED_PERIOD", "MARKED_INSTANT"]:
            self.assertEqual(getattr(numbers, f"_{name}_SIZE"), told[f"{name}_SIZE"], name)
        for name in ("BETWEEN", "ADD", "SUB", "NEXT", "PREVIOUS"):
            self.assertEqual(getattr(numbers, name), told[name], name)
        for mark in hirgwamo.Mark:
            self.assertEqual((getattr(numbers, mark.name), mark.value), (told[mark.name], told[mark.name]), mark)
        returned = re.findall(r"HIRGWAMO_\w+ = (\d+)", re.search(r"enum \{(.*?)\};", HEADER, re.DOTALL)[1])
        self.assertEqual([int(number) for number in returned], [told["OK"], *BY_NUMBER, told["TOO_SHORT"], told["NO_QUERY"]])
        version = int(re.search(r"#define HIRGWAMO_VERSION (\d+)u", HEADER)[1])
        self.assertEqual(version // _library.MAJOR_UNIT, _library.MAJOR)
        self.assertEqual(numbers.version(), _library.version_parts(version))
        self.assertEqual(_library.version_parts(12_345_678), (12, 345, 678))


class Found(unittest.TestCase):
    def setUp(self):
        folder = tempfile.TemporaryDirectory()
        self.addCleanup(folder.cleanup)
        self.folder = Path(folder.name).resolve()

    def package(self, place):
        """A copy of the package in a folder below the temporary one; gives what holds the package."""
        holder = self.folder / place
        shutil.copytree(PYTHON / "hirgwamo", holder / "hirgwamo", ignore=shutil.ignore_patterns("__pycache__"))
        return holder

    def library(self, place):
        path = self.folder / place
        path.parent.mkdir(parents=True, exist_ok=True)
        shutil.copy(LIBRARY, path)
        return str(path)

    def loaded(self, holder, **more):
        """What a new Python that imports the package loads."""
        kept = {name: value for name, value in os.environ.items() if name not in (_library.VARIABLE, "LD_LIBRARY_PATH")}
        given = {**kept, "PYTHONPATH": str(holder), "PYTHONDONTWRITEBYTECODE": "1", **more}
        command, both = [sys.executable, "-W", "error", "-c", TELL], {"stdout": subprocess.PIPE, "stderr": subprocess.STDOUT}
        done = subprocess.run(command, env=given, cwd=self.folder, text=True, **both)
        return done.returncode, done.stdout.strip()

    def test_in_a_prefix(self):
        holder, path = self.package("usr/lib/hirgwamo/python"), self.library("usr/lib/libhirgwamo.so.1")
        self.assertEqual(self.loaded(holder), (0, path))

    def test_in_the_repository(self):
        holder, path = self.package("repository/python"), self.library("repository/target/part/libhirgwamo.so.1")
        self.assertEqual(self.loaded(holder), (0, path))

    def test_by_the_loader(self):
        holder, path = self.package("alone/python"), self.library("elsewhere/libhirgwamo.so.1")
        self.assertEqual(self.loaded(holder, LD_LIBRARY_PATH=str(Path(path).parent)), (0, "libhirgwamo.so.1"))

    def test_by_the_variable(self):
        holder, beside = self.package("repository/python"), self.library("repository/target/part/libhirgwamo.so.1")
        path = self.library("other.so")
        self.assertEqual(self.loaded(holder, HIRGWAMO_LIBRARY=path), (0, path))
        self.assertEqual(self.loaded(holder, HIRGWAMO_LIBRARY="other.so"), (0, path))
        self.assertEqual(self.loaded(holder, HIRGWAMO_LIBRARY=""), (0, beside))

    def test_the_variable_alone_counts(self):
        holder, missing = self.package("repository/python"), self.folder / "missing.so"
        self.library("repository/target/part/libhirgwamo.so.1")
        code, text = self.loaded(holder, HIRGWAMO_LIBRARY=str(missing))
        self.assertEqual(code, 1)
        told = text.splitlines()[-1]
        self.assertTrue(told.startswith("ImportError: the library of Hirgwamo does not load: "), told)
        self.assertIn(f"Looked at: the path in HIRGWAMO_LIBRARY: {missing}. ", told)
        self.assertTrue(told.endswith("Build or install libhirgwamo.so.1, or set HIRGWAMO_LIBRARY to its path."), told)

    def test_a_file_that_is_no_library(self):
        holder, path = self.package("usr/lib/hirgwamo/python"), self.folder / "usr/lib/libhirgwamo.so.1"
        path.write_text("no library")
        code, text = self.loaded(holder)
        self.assertEqual(code, 1)
        self.assertIn(f"Looked at: {path}. ", text.splitlines()[-1])


class Refused(unittest.TestCase):
    def fails(self, *told):
        with self.assertRaises(ImportError) as caught:
            _library.load()
        for part in told:
            self.assertIn(part, str(caught.exception))

    def test_nowhere(self):
        with mock.patch.dict(os.environ), mock.patch.object(_library, "NAME", "libhirgwamo-not-there.so"):
            os.environ.pop(_library.VARIABLE, None)
            installed = PYTHON.parent.parent / "libhirgwamo-not-there.so"
            here = ROOT / "target" / "part" / "libhirgwamo-not-there.so"
            self.fails(f"Looked at: {installed}; {here}; the system's loader, by the name libhirgwamo-not-there.so. Build or install")

    def test_another_major_version(self):
        for version, told in ((2_000_003, "2.0.3"), (999_999, "0.999.999")):
            functions = {name: lambda: version for name in _library._TAKES}
            with mock.patch.object(ctypes, "CDLL", lambda path: types.SimpleNamespace(**functions)):
                self.fails(f"its version is {told}, and this package needs a version 1", "Looked at: ")

    def test_a_later_minor_version(self):
        functions = {name: lambda: 1_002_003 for name in _library._TAKES}
        with mock.patch.object(ctypes, "CDLL", lambda path: types.SimpleNamespace(**functions)):
            self.assertEqual(_library.load().hirgwamo_version(), 1_002_003)

    def test_another_library(self):
        with mock.patch.object(ctypes, "CDLL", lambda path: types.SimpleNamespace()):
            self.fails("it has no function hirgwamo_version", "Looked at: ")

    def test_an_answer_that_there_is_not(self):
        for code in (13, 100, 101):
            with self.assertRaises(RuntimeError) as caught:
                numbers._asked(lambda *given: code, 1, b"")
            self.assertIn(f"returned {code}", str(caught.exception))
        self.assertIs(type(numbers._c), ctypes.CDLL)
        self.assertEqual(hirgwamo.__version__.split(".")[0], str(_library.MAJOR))
