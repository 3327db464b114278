"""Tests of how calls end: statuses, signals, time-outs, progress, and what isn't the program. Some call small scripts."""

import os
import pickle
import signal
import stat
import tempfile
import time
import unittest
from contextlib import contextmanager
from unittest import mock

import cgra

from .support import DATA, GALLERY, SUM, T1, require_program

ADRES = os.path.join(GALLERY, "arrays", "adres4.toml")
FIR5 = os.path.join(GALLERY, "loops", "fir5.json")

# The statuses of docs/commands.md and of the launcher, each with its exception.
STATUSES = {
    1: cgra.OutOfMemory,
    2: cgra.Usage,
    3: cgra.Malformed,
    4: cgra.Impossible,
    5: cgra.ReadFault,
    6: cgra.WriteFault,
    7: cgra.NotFound,
    8: cgra.Illegal,
    9: cgra.NotText,
    64: cgra.UnusableBuild,
    70: cgra.NotBuilt,
    77: cgra.OtherStatus,
}


@contextmanager
def script(text):
    """Makes the shell script `text` the program."""
    with tempfile.TemporaryDirectory() as folder:
        path = os.path.join(folder, "cgra")
        with open(path, "w", encoding="utf-8") as file:
            file.write("#!/bin/sh\n" + text)
        os.chmod(path, stat.S_IRWXU)
        with mock.patch.dict(os.environ, CGRA=path):
            yield path


class Ends(unittest.TestCase):
    def test_statuses(self):
        for status, error in STATUSES.items():
            with self.subTest(status=status), script(f"echo note >&2; echo report; exit {status}") as path:
                with self.assertRaises(error) as raised:
                    cgra.emit("a.toml", "k.json", "k.map")
                found = raised.exception
                self.assertIs(type(found), error)
                self.assertIsInstance(found, cgra.CgraError)
                self.assertEqual((found.status, found.report, found.notes), (status, "report\n", ["note"]))
                self.assertEqual(found.words[:5], (path, "emit", "a.toml", "k.json", "k.map"))
                self.assertIn(f"called: {path} emit a.toml k.json k.map ", str(found))
                same = pickle.loads(pickle.dumps(found))
                self.assertEqual((type(same), str(same), same.words), (error, str(found), found.words))

    def test_signals(self):
        for name in (signal.SIGSEGV, signal.SIGKILL, signal.SIGTERM):
            with script(f"kill -{name.value} $$"), self.assertRaises(cgra.Killed) as raised:
                cgra.trial(1)
            self.assertEqual((raised.exception.signal, raised.exception.status), (name, -name))
        with script("exit 130"), self.assertRaises(cgra.Killed) as raised:
            cgra.trial(1)
        self.assertEqual(raised.exception.signal, signal.SIGINT)

    def test_no_program(self):
        with mock.patch.dict(os.environ, CGRA="/no/such/program"), self.assertRaises(FileNotFoundError) as raised:
            cgra.trial(1)
        self.assertIsInstance(raised.exception, cgra.NoProgram)
        self.assertIn("/no/such/program", str(raised.exception))
        with script("exit 0") as path:
            os.chmod(path, stat.S_IRUSR)
            with self.assertRaises(cgra.NoProgram):
                cgra.trial(1)

    def test_another_program(self):
        """A program that ends well, and whose report isn't one of the command."""
        calls = [
            lambda: cgra.bound(T1, SUM),
            lambda: cgra.why(T1, SUM),
            lambda: cgra.search(T1, SUM),
            lambda: cgra.emit(T1, SUM, "x"),
            lambda: cgra.run(T1, b"", 1),
            lambda: cgra.turns(SUM, 1),
            lambda: cgra.depend(SUM),
            lambda: cgra.simplify(SUM),
            lambda: cgra.loop("x"),
            lambda: cgra.flat(T1),
            lambda: cgra.verilog(T1),
            lambda: cgra.migrate(T1, b""),
            lambda: cgra.show(T1, SUM, "x"),
        ]
        for number, call in enumerate(calls):
            with self.subTest(call=number), script("echo hello"), self.assertRaises(cgra.UnknownReport):
                call()

    def test_no_text(self):
        """A path that is no UTF-8 is given to the program as it is, and refused there."""
        require_program()
        with self.assertRaises(cgra.NotText):
            cgra.depend(os.fsdecode(b"\xff.json"))


class TimeOuts(unittest.TestCase):
    def test_every_call(self):
        calls = [
            lambda: cgra.bench(T1, b"", 1, timeout=0.2),
            lambda: cgra.bound(T1, SUM, timeout=0.2),
            lambda: cgra.check(T1, SUM, "x", timeout=0.2),
            lambda: cgra.depend(SUM, timeout=0.2),
            lambda: cgra.simplify(SUM, timeout=0.2),
            lambda: cgra.emit(T1, SUM, "x", timeout=0.2),
            lambda: cgra.flat(T1, timeout=0.2),
            lambda: cgra.loop("x", timeout=0.2),
            lambda: cgra.loop_text("x", timeout=0.2),
            lambda: cgra.migrate(T1, b"", timeout=0.2),
            lambda: cgra.run(T1, b"", 1, timeout=0.2),
            lambda: cgra.search(T1, SUM, timeout=0.2),
            lambda: cgra.search(T1, SUM, timeout=0.2, seeds=3),
            lambda: cgra.show(T1, SUM, "x", timeout=0.2),
            lambda: cgra.trial(1, timeout=0.2),
            lambda: cgra.turns(SUM, 1, timeout=0.2),
            lambda: cgra.verilog(T1, timeout=0.2),
            lambda: cgra.violations(T1, SUM, "x", timeout=0.2),
            lambda: cgra.walk(T1, SUM, timeout=0.2),
            lambda: cgra.why(T1, SUM, timeout=0.2),
        ]
        with script("echo early >&2; sleep 30; echo late"):
            for number, call in enumerate(calls):
                start = time.monotonic()
                with self.subTest(call=number), self.assertRaises(cgra.TimedOut) as raised:
                    call()
                self.assertIsInstance(raised.exception, TimeoutError)
                self.assertLess(time.monotonic() - start, 20)

    def test_children(self):
        """What the program started ends with it."""
        with tempfile.TemporaryDirectory() as folder:
            mark = os.path.join(folder, "mark")
            with script(f"(sleep 2; touch {mark}) & wait"), self.assertRaises(cgra.TimedOut):
                cgra.trial(1, timeout=0.3)
            time.sleep(3)
            self.assertFalse(os.path.exists(mark))

    def test_long_enough(self):
        require_program()
        self.assertEqual(cgra.bound(T1, SUM, timeout=100).interval, 3)


class ProgressLines(unittest.TestCase):
    # What `cgra` writes: lines that overwrite one another, and are erased before a note.
    WRITES = r"""
printf '\rii 3: 64 moves, least 5' >&2
printf '\rii 3: 128 moves, least 0' >&2
printf '\r                        \r' >&2
echo 'a note' >&2
printf '\rii 4: 1 moves, least 2' >&2
[ "$CGRA_PROGRESS" = 1 ] && exit 7
exit 2
"""

    def test_told(self):
        told = []
        with script(self.WRITES), self.assertRaises(cgra.NotFound) as raised:
            cgra.search("a", "b", progress=told.append)
        self.assertEqual([(p.interval, p.moves, p.least, p.seed) for p in told], [(3, 64, 5, 1), (3, 128, 0, 1), (4, 1, 2, 1)])
        self.assertEqual(str(told[1]), "ii 3: 128 moves, least 0")
        self.assertEqual(raised.exception.notes, ["a note"])

    def test_not_told(self):
        with script(self.WRITES), mock.patch.dict(os.environ, CGRA_PROGRESS="1"):
            with self.assertRaises(cgra.Usage) as raised:
                cgra.walk("a", "b")
        self.assertEqual(raised.exception.notes, ["a note"])

    def test_callback_that_fails(self):
        def fail(_):
            raise KeyError("mine")

        for seeds in (1, 2):
            with script("[ $1 = why ] && echo 'least 1' && exit 0;" + self.WRITES), self.assertRaises(KeyError):
                cgra.search("a", "b", progress=fail, seeds=seeds)

    def test_program(self):
        require_program()
        told = []
        found = cgra.search(ADRES, FIR5, ii=2, progress=told.append)
        self.assertEqual(found.interval, 2)
        self.assertTrue(all(progress.interval == 2 for progress in told))


class Refusals(unittest.TestCase):
    def setUp(self):
        require_program()

    def test_malformed(self):
        kernel = cgra.Kernel()
        kernel.node("q1", "mul", 3)
        with self.assertRaises(cgra.Malformed) as raised:
            cgra.bound(T1, kernel)
        error = raised.exception
        self.assertEqual((error.status, error.code, error.name, error.place), (3, "K8", "WrongOperandCount", "nodes 0"))
        self.assertTrue(any("mul takes 2 arguments, this one has 1" in note for note in error.notes))

    def test_impossible(self):
        with self.assertRaises(cgra.Impossible) as raised:
            cgra.search(T1, SUM, ii=2)
        certificate = raised.exception.certificate
        self.assertEqual(str(certificate), "impossible at ii 2: class iter add output nodes 3 units 1")
        self.assertEqual(
            certificate, cgra.OverfullClass(str(certificate), 2, ("iter", "add", "output"), nodes=3, units=1)
        )

    def test_not_found(self):
        with self.assertRaises(cgra.NotFound) as raised:
            cgra.search(T1, SUM, moves=0)
        left = raised.exception.left
        self.assertEqual(sorted(left), [3, 4])
        for interval, entry in left.items():
            self.assertEqual((entry.interval, entry.measure), (interval, "faults"))
            self.assertGreater(entry.count, 0)
            self.assertEqual([str(violation) for violation in entry.violations], entry.text.splitlines()[1:])

    def test_illegal(self):
        late = cgra.Mapping.from_text(cgra.search(T1, SUM).mapping.text.replace('"ii":3', '"ii":2'))
        checked = cgra.check(T1, SUM, late)
        self.assertEqual((checked.legal, bool(checked), checked.rule, checked.place), (False, False, "L3", "node o"))
        with self.assertRaises(cgra.Illegal) as raised:
            cgra.emit(T1, SUM, late)
        self.assertEqual((raised.exception.rule, raised.exception.place), ("L3", "node o"))

    def test_read_fault_and_usage(self):
        with self.assertRaises(cgra.ReadFault):
            cgra.bound(T1, os.path.join(DATA, "no_such_file.json"))
        with self.assertRaises(cgra.ReadFault):
            cgra.bound(T1, "-no_such_file.json")
        with self.assertRaises(cgra.Usage):
            cgra.bound(T1, "")

    def test_numbers(self):
        """Numbers of calls are whole and in range, or refused before the program is called."""
        calls = [
            lambda value: cgra.search(T1, SUM, ii=value),
            lambda value: cgra.search(T1, SUM, seed=value),
            lambda value: cgra.search(T1, SUM, moves=value),
            lambda value: cgra.search(T1, SUM, seeds=value),
            lambda value: cgra.search(T1, SUM, jobs=value),
            lambda value: cgra.walk(T1, SUM, ii=value),
            lambda value: cgra.walk(T1, SUM, seed=value),
            lambda value: cgra.walk(T1, SUM, moves=value),
            lambda value: cgra.run(T1, b"", value),
            lambda value: cgra.bench(T1, b"", value),
            lambda value: cgra.turns(SUM, value),
            lambda value: cgra.trial(value),
        ]
        for value, error in [(1.9, TypeError), ("3", TypeError), (-1, ValueError), (2**64, ValueError)]:
            for number, call in enumerate(calls):
                with self.subTest(value=value, call=number), self.assertRaises(error):
                    call(value)
        for call in (
            lambda: cgra.search(T1, SUM, ii=0),
            lambda: cgra.search(T1, SUM, ii=65),
            lambda: cgra.search(T1, SUM, moves=1_000_001),
            lambda: cgra.turns(SUM, 1_000_001),
        ):
            with self.assertRaises(ValueError):
                call()


if __name__ == "__main__":
    unittest.main()
