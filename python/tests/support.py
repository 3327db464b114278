"""What the tests share: the program to call, files of the repository, and small kernels and arrays.

No test may begin the proofs that the launcher `./cgra` starts where nothing is built. So the variable CGRA is set here: to
itself, else to the built program of the checkout, else to the released one.
"""

import os
import unittest

import cgra

ROOT = os.path.dirname(os.path.dirname(os.path.dirname(os.path.abspath(__file__))))
DATA = os.path.join(ROOT, "crates", "cgra", "data")
GALLERY = os.path.join(ROOT, "gallery")
T1 = os.path.join(DATA, "t1.toml")
SUM = os.path.join(DATA, "sum.json")
PROGRAMS = [os.path.join(ROOT, "crates", "cgra", "out", "cgra"), os.path.join(ROOT, "release", "cgra")]


def set_program() -> None:
    """Sets CGRA to a program that can be run at once, if there is one."""
    for path in PROGRAMS:
        if not os.environ.get("CGRA") and os.path.isfile(path) and os.access(path, os.X_OK):
            os.environ["CGRA"] = path


def require_program() -> None:
    """Skips a module's tests where no program can be run at once."""
    if not os.environ.get("CGRA"):
        raise unittest.SkipTest("no program can be run at once: set CGRA, or build it")


def module(name: str):
    """Returns the module `name`, None where it isn't installed."""
    try:
        return __import__(name)
    except ImportError:
        return None


def running_sum() -> cgra.Kernel:
    """Returns the kernel of sum.json, built node by node."""
    kernel = cgra.Kernel()
    i = kernel.node("i", "iter")
    s = kernel.node("s", "add", cgra.Node("s").before(1, [0]), i)
    kernel.node("o", "output", s, port=0)
    return kernel


def one_tile() -> cgra.Arch:
    """Returns the architecture of t1.toml, built of parts."""
    unit = cgra.Unit("u", ["iter", "add", "output"], 1, [["u_o", "r"], ["u_o", "r"]])
    return cgra.Arch.build("t1", ["A"], {"A": [cgra.Reg("r", ["u_o", "r"]), unit]}, contexts=4, memory=16)
