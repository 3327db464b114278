"""Tests of hardware/try with a fake program and fake simulators, which say what the files beside them say."""

import importlib.machinery
import importlib.util
import os
import shutil
import subprocess
import sys
import tempfile
import unittest
from unittest import mock

ROOT = os.path.dirname(os.path.dirname(os.path.dirname(os.path.abspath(__file__))))
TRY = os.path.join(ROOT, "hardware", "try")
BUILT = [os.path.join(ROOT, path) for path in ("crates/cgra/out/cgra", "release/cgra")]
REAL = os.environ.get("CGRA") or next((path for path in BUILT if os.access(path, os.X_OK)), None)
HEAD = "array,loop,seed,bound,least,interval\n"

# As the real program, it notes accesses outside on the standard error, and the report on the standard output.
FAKE = """#!/bin/sh
here=${0%/*}
echo "$*" >>"$here/calls"
case $1 in
flat) echo "memory 1024" >"$3" ;;
search) echo bits >"$4" ;;
verilog) echo array >"$3" ;;
bench) echo bench >"$6" ;;
run) echo left >"$6" ;;
esac
case $1 in
bench | run)
  echo "note: 7 accesses outside, the first of node 3 in turn 4" >&2
  cat "$here/report"
esac
"""

# As the real one, it makes a program that simulates.
VERILATOR = """#!/bin/sh
mkdir verilated
cp -p "${0%/*}/vvp" verilated/Vcgra_bench
"""


def write(path, text, mode=0o644):
    """Writes a file, and its folder where it isn't there."""
    os.makedirs(os.path.dirname(path), exist_ok=True)
    with open(path, "w", encoding="utf-8") as file:
        file.write(text)
    os.chmod(path, mode)


class Tries(unittest.TestCase):
    """A folder that is laid out as the repository, with one mapped pair."""

    def setUp(self):
        """Makes the folder."""
        self.folder = tempfile.mkdtemp(prefix="hardware-")
        self.addCleanup(shutil.rmtree, self.folder)
        os.makedirs(self.path("hardware"))
        shutil.copy(TRY, self.path("hardware", "try"))
        write(self.path("gallery", "results.csv"), HEAD + "a,l,1,2,2,2\na,l,2,2,2,3\na,m,1,2,2,\n")
        for name in ("arrays/a.toml", "arrays/mesh2.toml", "loops/l.json", "loops/m.json"):
            write(self.path("gallery", name), '{"nodes": [1]}\n')
        write(self.path("fake", "cgra"), FAKE, 0o755)
        write(self.path("fake", "report"), "cycles 36\noutside 7\n")
        write(self.path("bin", "iverilog"), '#!/bin/sh\nwhile [ "$1" != -o ]; do shift; done\necho >"$2"\n', 0o755)
        write(self.path("bin", "verilator"), VERILATOR, 0o755)
        self.simulate("echo pass cycles 36")

    def path(self, *names):
        """Returns a path in the folder."""
        return os.path.join(self.folder, *names)

    def simulate(self, script):
        """Sets what the fake simulator does."""
        write(self.path("bin", "vvp"), f"#!/bin/sh\n{script}\n", 0o755)

    def run_try(self, *words, path=None):
        """Runs the script, and returns how it ended."""
        path = os.pathsep.join([self.path("bin"), "/usr/bin", "/bin"]) if path is None else path
        env = {**os.environ, "CGRA": self.path("fake", "cgra"), "PATH": path}
        words = [sys.executable, self.path("hardware", "try"), *words]
        return subprocess.run(words, capture_output=True, text=True, env=env, timeout=600, check=False)

    def test_the_mapped_pairs_are_those_of_the_results(self):
        done = self.run_try("--verilator", "0")
        self.assertEqual((done.returncode, done.stdout), (0, "1/1 a l: pass (icarus)\n1 of 1 pass\n"), done.stderr)

    def test_an_empty_table_fails(self):
        for text in ("", HEAD, HEAD + "a,l,1,2,2,\n", "array,loop\na,l\n"):
            with self.subTest(text):
                write(self.path("gallery", "results.csv"), text)
                done = self.run_try()
                self.assertEqual((done.returncode, done.stdout), (1, ""))
                self.assertIn("results.csv", done.stderr)

    def test_a_missing_table_fails(self):
        os.remove(self.path("gallery", "results.csv"))
        done = self.run_try()
        self.assertEqual((done.returncode, done.stdout), (1, ""))
        self.assertIn("No such file", done.stderr)

    def test_pairs_that_are_not_there_fail(self):
        for word, said in (("b/l", "arrays/b.toml"), ("a/n", "loops/n.json"), ("al", "a pair is ARRAY/LOOP"), ("/", "arrays/.toml")):
            with self.subTest(word):
                done = self.run_try("a/l", word)
                self.assertEqual((done.returncode, done.stdout), (2, ""))
                self.assertIn(said, done.stderr)

    def test_notes_are_not_the_report(self):
        done = self.run_try("a/l", "a/m")
        self.assertEqual(done.returncode, 0, done.stderr)
        self.assertIn("2 of 2 pass\n", done.stdout)

    def test_speed_reads_the_report(self):
        done = self.run_try("--speed", "a/l")
        self.assertEqual(done.returncode, 0, done.stderr)
        lines = done.stdout.splitlines()
        self.assertEqual([line.split(":")[0] for line in lines], ["a l run", "a l verilator", "a l icarus"])
        for line in lines:
            self.assertRegex(line, r": [1-9][\d,]* cycles a second$")

    def test_speed_without_a_number_fails(self):
        for report in ("", "outside 7\n", "cycles 0\noutside 0\n"):
            with self.subTest(report):
                write(self.path("fake", "report"), report)
                done = self.run_try("--speed", "a/l")
                self.assertEqual((done.returncode, done.stdout), (1, ""))
                self.assertIn("no number of cycles", done.stderr)

    def test_a_simulation_that_differs_fails(self):
        self.simulate("echo differs stream 0 word 2 is 0 expected 3; exit 1")
        done = self.run_try("a/l")
        self.assertEqual(done.returncode, 1)
        self.assertIn("icarus: differs stream 0 word 2", done.stdout)
        self.assertIn("0 of 1 pass", done.stdout)
        self.assertEqual(self.run_try("--speed", "a/l").returncode, 1)

    def test_a_simulation_of_other_cycles_fails(self):
        self.simulate("echo pass cycles 35")
        self.assertEqual(self.run_try("a/l").returncode, 1)

    def test_a_program_that_fails_is_said(self):
        write(self.path("fake", "cgra"), "#!/bin/sh\necho broken >&2\nexit 5\n", 0o755)
        done = self.run_try("a/l")
        self.assertEqual(done.returncode, 1)
        self.assertIn("cgra: status 5: broken", done.stderr)

    def test_a_missing_simulator_fails(self):
        done = self.run_try("a/l", path=self.path("nothing"))
        self.assertEqual((done.returncode, done.stdout), (1, ""))
        self.assertIn("Icarus Verilog is missing", done.stderr)

    def test_wrong_hardware_that_nothing_shows_fails(self):
        loader = importlib.machinery.SourceFileLoader("hardware_try", self.path("hardware", "try"))
        module = importlib.util.module_from_spec(importlib.util.spec_from_loader("hardware_try", loader))
        with mock.patch.object(sys, "dont_write_bytecode", True):
            loader.exec_module(module)
        with mock.patch("builtins.print"):
            with mock.patch.object(module, "see", lambda change, write: "differs"):
                self.assertEqual(module.must_fail(), 0)
            with mock.patch.object(module, "see", lambda change, write: None):
                self.assertEqual(module.must_fail(), 3)


@unittest.skipIf(REAL is None or not shutil.which("iverilog"), "the program or Icarus Verilog is missing")
class Real(unittest.TestCase):
    """The real program and simulator."""

    def test_a_pair_passes(self):
        env = {**os.environ, "CGRA": REAL}
        words = [sys.executable, TRY, "mesh2/prefix"]
        done = subprocess.run(words, capture_output=True, text=True, env=env, timeout=600, check=False)
        self.assertEqual(done.stdout, "1/1 mesh2 prefix: pass (icarus)\n1 of 1 pass\n", done.stderr)


if __name__ == "__main__":
    unittest.main()
