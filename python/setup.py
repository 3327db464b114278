"""Builds the package with the released program in it, where that runs on this machine; else without."""

import os
import platform
import shutil
import sys

from setuptools import Distribution, setup
from setuptools.command.build_py import build_py

try:
    from setuptools.command.bdist_wheel import bdist_wheel
except ImportError:
    from wheel.bdist_wheel import bdist_wheel

ROOT = os.path.dirname(os.path.dirname(os.path.abspath(__file__)))
PROGRAM = os.path.join(ROOT, "release", "cgra")
LICENSE = os.path.join(ROOT, "LICENSE")
LIBC = (2, 34)


def carries_program() -> bool:
    """Checks whether the released program is there, and runs on this machine: x86-64 Linux with glibc 2.34 or later."""
    if sys.platform != "linux" or platform.machine() != "x86_64" or not os.path.isfile(PROGRAM):
        return False
    name, version = platform.libc_ver()
    numbers = version.split(".")
    return name == "glibc" and len(numbers) > 1 and tuple(int(number) for number in numbers[:2]) >= LIBC


CARRIES = carries_program()


class BuildWithProgram(build_py):
    """Copies the program and its license beside the modules."""

    def run(self):
        super().run()
        if CARRIES and not getattr(self, "editable_mode", False):
            folder = os.path.join(self.build_lib, "cgra", "_bin")
            os.makedirs(folder, exist_ok=True)
            for source, mode in ((PROGRAM, 0o755), (LICENSE, 0o644)):
                target = os.path.join(folder, os.path.basename(source))
                if os.path.isfile(source):
                    shutil.copyfile(source, target)
                    os.chmod(target, mode)


class TaggedWheel(bdist_wheel):
    """Names the platform of the program, which no version of Python matters to."""

    def get_tag(self):
        return ("py3", "none", f"manylinux_{LIBC[0]}_{LIBC[1]}_x86_64" if CARRIES else "any")


class WithProgram(Distribution):
    """Is for one platform where it carries the program."""

    def has_ext_modules(self):
        return CARRIES


setup(distclass=WithProgram, cmdclass={"build_py": BuildWithProgram, "bdist_wheel": TaggedWheel})
