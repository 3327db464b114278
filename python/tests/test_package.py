"""Tests of the package itself: its names, its types, how it finds the program, and what its wheel carries."""

import ast
import builtins
import glob
import importlib.util
import os
import shutil
import stat
import subprocess
import sys
import tempfile
import unittest
import zipfile
from unittest import mock

import cgra
from cgra import _program

from .support import ROOT, module

PYTHON = os.path.join(ROOT, "python")
MODULES = glob.glob(os.path.join(PYTHON, "cgra", "*.py"))


class Names(unittest.TestCase):
    def test_no_built_in_is_hidden(self):
        self.assertEqual(set(cgra.__all__) & set(dir(builtins)), set())
        names = {}
        exec("from cgra import *", names)
        self.assertNotIn("map", names)
        self.assertEqual(set(cgra.__all__) - set(names), set())

    def test_errors(self):
        for name in ("Usage", "Killed", "NoProgram", "TimedOut", "NotText", "NotBuilt", "UnusableBuild", "UnknownReport"):
            self.assertTrue(issubclass(getattr(cgra, name), cgra.CgraError))

    def test_python_3_9(self):
        self.assertGreater(len(MODULES), 15)
        for path in MODULES + [os.path.join(PYTHON, "setup.py")]:
            with open(path, encoding="utf-8") as file:
                ast.parse(file.read(), path, feature_version=(3, 9))


USER = """
from typing import List, Optional
import cgra

kernel = cgra.Kernel()
i = kernel.node("i", "iter")
kernel.node("o", "output", i, port=0)
found = cgra.search("a.toml", kernel, seeds=8, jobs=4, timeout=3.0, progress=print)
place: cgra.Place = found.mapping.places["i"]
image = cgra.Image([1, -2], {0: range(3)})
image.memory = [1, 2]
image.memory[0] = -1
image.streams[3] = [1]
words: List[int] = list(image.stream(3)[:1])
left = cgra.run("a.toml", found.bits, 5, cgra.run("a.toml", found, 5, image), netlist=cgra.verilog("a.toml"))
rules: List[str] = [violation.rule for violation in cgra.violations("a.toml", kernel, found.mapping)]
certificate: Optional[cgra.Certificate] = cgra.bound("a.toml", kernel).certificate
if isinstance(certificate, cgra.Cycle):
    edges: List[str] = list(certificate.edges)
"""


@unittest.skipIf(shutil.which("mypy") is None, "mypy isn't installed")
class Types(unittest.TestCase):
    def test_strict(self):
        """mypy --strict finds nothing in the package and in a program over it, but for the line that is wrong."""
        with tempfile.TemporaryDirectory() as folder:
            path = os.path.join(folder, "user.py")
            with open(path, "w", encoding="utf-8") as file:
                file.write(USER + "wrong: int = found.mapping\n")
            line = ["mypy", "--strict", "--cache-dir", folder, os.path.join(PYTHON, "cgra"), path]
            environment = dict(os.environ, MYPYPATH=PYTHON)
            done = subprocess.run(line, env=environment, cwd=folder, capture_output=True, text=True, check=False)
        *faults, last = done.stdout.splitlines()
        self.assertEqual(len(faults), 1, done.stdout)
        self.assertIn(f"user.py:{USER.count(chr(10)) + 1}: error: Incompatible types in assignment", faults[0])
        self.assertTrue(last.startswith("Found 1 error in 1 file"), done.stdout)


class Where(unittest.TestCase):
    """Where the program is looked for."""

    def setUp(self):
        folder = tempfile.TemporaryDirectory()
        self.addCleanup(folder.cleanup)
        self.root = folder.name
        os.mkdir(os.path.join(self.root, "path"))
        patched = mock.patch.dict(os.environ, PATH=os.path.join(self.root, "path"))
        patched.start()
        self.addCleanup(patched.stop)
        os.environ.pop("CGRA", None)

    def make(self, *parts, executable=True):
        """Makes a file below the root, and returns its path."""
        path = os.path.join(self.root, *parts)
        os.makedirs(os.path.dirname(path), exist_ok=True)
        with open(path, "w", encoding="utf-8") as file:
            file.write("#!/bin/sh\n")
        os.chmod(path, 0o755 if executable else 0o644)
        return path

    def found(self, *package):
        """Returns the program that the package in this folder below the root finds."""
        with mock.patch.object(_program, "_PACKAGE", os.path.join(self.root, *package)):
            return cgra.program()

    def test_variable(self):
        self.make("cgra")
        with mock.patch.dict(os.environ, CGRA="/somewhere/cgra"):
            self.assertEqual(self.found("python", "cgra"), "/somewhere/cgra")

    def test_checkout(self):
        self.make("crates.txt", executable=False)
        self.make("python", "pyproject.toml", executable=False)
        on_path = self.make("path", "cgra")
        self.assertEqual(self.found("python", "cgra"), on_path)
        built = self.make("crates", "cgra", "out", "cgra")
        self.assertEqual(self.found("python", "cgra"), built)
        launcher = self.make("cgra")
        self.assertEqual(self.found("python", "cgra"), launcher)

    def test_installed(self):
        """Whatever stands three folders above an installed package isn't the program."""
        self.make("crates.txt", executable=False)
        self.make("cgra")
        self.make("crates", "cgra", "out", "cgra")
        for folder in ("site-packages", "python"):
            self.assertRaises(cgra.NoProgram, self.found, folder, "cgra")
        on_path = self.make("path", "cgra")
        self.assertEqual(self.found("site-packages", "cgra"), on_path)
        carried = self.make("site-packages", "cgra", "_bin", "cgra")
        self.assertEqual(self.found("site-packages", "cgra"), carried)

    def test_says_what_to_set(self):
        with self.assertRaises(FileNotFoundError) as raised:
            self.found("site-packages", "cgra")
        self.assertIn("set CGRA to its path, or put it on PATH", str(raised.exception))


def can_build():
    """Checks whether a wheel can be built with what is installed."""
    if module("setuptools") is None:
        return False
    newer = importlib.util.find_spec("setuptools.command.bdist_wheel")
    return newer is not None or importlib.util.find_spec("wheel") is not None


@unittest.skipUnless(can_build(), "setuptools or wheel isn't installed")
class Wheels(unittest.TestCase):
    def built(self, root):
        """Builds the wheel of a copy of the package in `root`, and returns its name and its files with their modes."""
        copy = os.path.join(root, "python")
        shutil.copytree(PYTHON, copy, ignore=shutil.ignore_patterns("build", "*.egg-info", "__pycache__", "tests"))
        line = [sys.executable, "setup.py", "-q", "bdist_wheel"]
        subprocess.run(line, cwd=copy, capture_output=True, check=True)
        (wheel,) = glob.glob(os.path.join(copy, "dist", "*.whl"))
        with zipfile.ZipFile(wheel) as archive:
            modes = {info.filename: stat.S_IMODE(info.external_attr >> 16) for info in archive.infolist()}
            metadata = archive.read("cgra-0.9.0.dist-info/METADATA").decode()
        return os.path.basename(wheel), modes, metadata

    def test_without(self):
        with tempfile.TemporaryDirectory() as root:
            name, modes, metadata = self.built(root)
        self.assertEqual(name, "cgra-0.9.0-py3-none-any.whl")
        self.assertIn("cgra/py.typed", modes)
        self.assertNotIn("cgra/_bin/cgra", modes)
        for line in ("License: Apache-2.0", "Author: the cgra authors", "Provides-Extra: numpy", "Provides-Extra: networkx"):
            self.assertIn(line, metadata.splitlines())

    @unittest.skipUnless(sys.platform == "linux" and os.uname().machine == "x86_64", "the program is for x86-64 Linux")
    def test_with(self):
        with tempfile.TemporaryDirectory() as root:
            os.mkdir(os.path.join(root, "release"))
            for path in (os.path.join("release", "cgra"), "LICENSE"):
                with open(os.path.join(root, path), "w", encoding="utf-8") as file:
                    file.write("#!/bin/sh\n")
            name, modes, _ = self.built(root)
        self.assertEqual(name, "cgra-0.9.0-py3-none-manylinux_2_34_x86_64.whl")
        self.assertEqual(modes["cgra/_bin/cgra"], 0o755)
        self.assertIn("cgra/_bin/LICENSE", modes)


if __name__ == "__main__":
    unittest.main()
