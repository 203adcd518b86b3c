"""The package as a whole: types, names, and the example of README.md as it is printed."""

import ast
import inspect
import os
import re
import subprocess
import sys
import tempfile
import typing
import unittest
from pathlib import Path

import hirgwamo
from hirgwamo import _arguments, _library, _whole, clock, marks, numbers, queries, refusals, times, zone

from .stored import PYTHON, ROOT, SAMPLE, zone_of_pack

MODULES = [hirgwamo, _arguments, _library, _whole, clock, marks, numbers, queries, refusals, times, zone]
SOURCES = sorted((PYTHON / "hirgwamo").glob("*.py"))


def functions():
    for path in SOURCES:
        for node in ast.walk(ast.parse(path.read_text())):
            if isinstance(node, ast.FunctionDef):
                yield path.name, node


class Package(unittest.TestCase):
    def test_all_functions_have_types(self):
        for name, node in functions():
            given = [*node.args.posonlyargs, *node.args.args, *node.args.kwonlyargs]
            given += [arg for arg in (node.args.vararg, node.args.kwarg) if arg]
            bare = [arg.arg for arg in given if arg.annotation is None and arg.arg not in ("self", "cls")]
            self.assertEqual((bare, node.returns is None), ([], False), f"{name}: {node.name}")
        self.assertTrue((PYTHON / "hirgwamo" / "py.typed").exists())

    def test_types_can_be_read(self):
        for module in MODULES:
            for _, thing in inspect.getmembers(module):
                if getattr(thing, "__module__", None) != module.__name__:
                    continue
                if inspect.isfunction(thing):
                    typing.get_type_hints(thing)
                if inspect.isclass(thing):
                    for _, method in inspect.getmembers(thing, inspect.isfunction):
                        if method.__module__ == module.__name__ and method.__qualname__.startswith(thing.__name__):
                            typing.get_type_hints(method)

    def test_names(self):
        self.assertEqual(hirgwamo.__all__, sorted(hirgwamo.__all__))
        self.assertEqual([name for name in hirgwamo.__all__ if not hasattr(hirgwamo, name)], [])
        self.assertEqual({path.stem for path in SOURCES} - {"__init__"}, {module.__name__.split(".")[-1] for module in MODULES[1:]})

    def test_no_floats(self):
        """No module but times, whose quotients are floats as those of timedelta, has a float or asks for one."""
        for path in SOURCES:
            tree = ast.parse(path.read_text())
            calls = {getattr(node, "attr", getattr(node, "id", "")) for node in ast.walk(tree) if isinstance(node, (ast.Attribute, ast.Name))}
            literals = [node.value for node in ast.walk(tree) if isinstance(node, ast.Constant) and isinstance(node.value, float)]
            divided = [node for node in ast.walk(tree) if isinstance(node, ast.BinOp) and isinstance(node.op, ast.Div)]
            self.assertEqual(literals, [], path.name)
            if path.name != "times.py":
                self.assertEqual(calls & {"float", "timestamp", "total_seconds", "fromtimestamp"}, set(), path.name)
                self.assertTrue(path.name == "_library.py" or not divided, path.name)  # paths are divided there

    def test_version(self):
        told = re.search(r'^version = "(.*)"$', (PYTHON / "pyproject.toml").read_text(), re.MULTILINE)[1]
        self.assertEqual(told, hirgwamo.__version__)


class Readme(unittest.TestCase):
    def test_example(self):
        text = (PYTHON / "README.md").read_text()
        example, printed = re.findall(r"```(?:python|text)\n(.*?)```", text, re.DOTALL)[:2]
        name, file = zone_of_pack((SAMPLE / "zones.bin").read_bytes())
        with tempfile.TemporaryDirectory() as folder:
            path = Path(folder) / name
            path.parent.mkdir(parents=True)
            path.write_bytes(file)
            given = {**os.environ, "PYTHONPATH": str(PYTHON), "PYTHONTZPATH": folder}
            command, both = [sys.executable, "-W", "error", "-c", example], {"stdout": subprocess.PIPE, "stderr": subprocess.STDOUT}
            done = subprocess.run(command, env=given, cwd=ROOT, text=True, **both)
        self.assertEqual(done.stdout, printed)
