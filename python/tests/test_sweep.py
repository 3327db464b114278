"""Tests of gallery/sweep. Most have a fake program, which logs its calls and answers what the files beside it say."""

import contextlib
import csv
import functools
import glob
import importlib.machinery
import importlib.util
import io
import json
import os
import shutil
import signal
import subprocess
import sys
import tempfile
import time
import unittest
from unittest import mock

ROOT = os.path.dirname(os.path.dirname(os.path.dirname(os.path.abspath(__file__))))
SWEEP = os.path.join(ROOT, "gallery", "sweep")
BUILT = [os.path.join(ROOT, path) for path in ("crates/cgra/out/cgra", "release/cgra")]
REAL = os.environ.get("CGRA") or next((path for path in BUILT if os.access(path, os.X_OK)), None)

# status.COMMAND: the status that the command ends with; slow.COMMAND: the seconds that it takes; says.COMMAND: its report.
FAKE = """#!/bin/sh
here=${0%/*}
echo "$*" >>"$here/calls"
[ ! -f "$here/slow.$1" ] || sleep "$(cat "$here/slow.$1")"
case $1 in
flat) sed -n 's/^memory = /memory /p' "$2" >"$3" ;;
search | map) echo bits >"$4"; echo mapping >"$6"; said='ii 2\\nstages 1\\nby search 5\\n' ;;
bound) said='mii 2\\n' ;;
why) said='least 2\\n' ;;
run) cp "$5" "$6"; wc -c <"$5" >>"$here/images" ;;
turns) cp "$4" "$5"; [ ! -f "$here/differs" ] || echo more >>"$5" ;;
esac
if [ -f "$here/says.$1" ]; then cat "$here/says.$1"; else printf "$said"; fi
[ ! -f "$here/status.$1" ] || exit "$(cat "$here/status.$1")"
"""


@functools.lru_cache(maxsize=None)
def load(script=SWEEP):
    """Returns the script as a module."""
    loader = importlib.machinery.SourceFileLoader("sweep", script)
    module = importlib.util.module_from_spec(importlib.util.spec_from_loader("sweep", loader))
    sys.dont_write_bytecode, before = True, sys.dont_write_bytecode
    loader.exec_module(module)
    sys.dont_write_bytecode = before
    return module


def write(path, text):
    """Writes a text file."""
    with open(path, "w", encoding="utf-8") as file:
        file.write(text)


def read(path):
    """Returns a text file."""
    with open(path, encoding="utf-8") as file:
        return file.read()


class Sweeps(unittest.TestCase):
    """A folder with a fake program, one array and one loop."""

    def setUp(self):
        """Makes the folder."""
        self.folder = tempfile.mkdtemp(prefix="sweep-")
        self.addCleanup(shutil.rmtree, self.folder)
        for name in ("arrays", "loops", "fake"):
            os.mkdir(self.path(name))
        self.fake = self.path("fake", "cgra")
        write(self.fake, FAKE)
        os.chmod(self.fake, 0o755)
        write(self.path("arrays", "a.toml"), "memory = 1024\n")
        write(self.path("loops", "l.json"), "{}\n")
        self.out = self.path("out")

    def path(self, *names):
        """Returns a path in the folder."""
        return os.path.join(self.folder, *names)

    def sweep(self, *words, script=SWEEP, program=None):
        """Calls the script in this process, and returns how it ended."""
        words = [script, self.path("arrays"), self.path("loops"), "--out", self.out, *words]
        out, err = io.StringIO(), io.StringIO()
        handler = signal.getsignal(signal.SIGTERM)
        with mock.patch.dict(os.environ, CGRA=self.fake if program is None else program), mock.patch("sys.argv", words):
            with contextlib.redirect_stdout(out), contextlib.redirect_stderr(err):
                try:
                    status = load(script).main()
                except SystemExit as ended:
                    status = 1 if isinstance(ended.code, str) else ended.code
                    err.write(ended.code if isinstance(ended.code, str) else "")
                finally:
                    signal.signal(signal.SIGTERM, handler)
        return subprocess.CompletedProcess(words, status, out.getvalue(), err.getvalue())

    def passes(self, *words, **more):
        """Calls the script, sees that its status is 0, and returns how it ended."""
        done = self.sweep(*words, **more)
        self.assertEqual(done.returncode, 0, done.stdout + done.stderr)
        return done

    def calls(self, command):
        """Returns the calls of a command that the fake program has seen."""
        if not os.path.exists(self.path("fake", "calls")):
            return []
        return [line for line in read(self.path("fake", "calls")).splitlines() if line.split()[0] == command]

    def table(self):
        """Returns the rows of table.csv."""
        with open(os.path.join(self.out, "table.csv"), encoding="utf-8", newline="") as file:
            return list(csv.DictReader(file))

    def cell(self):
        """Returns the cell of the pair in matrix.md."""
        return read(os.path.join(self.out, "matrix.md")).splitlines()[2].split("|")[2].strip()


class Results(Sweeps):
    """What is a result, and what is an error."""

    def test_a_sweep_maps_and_judges(self):
        done = self.passes()
        self.assertEqual(done.stdout, "1 of 1 jobs found a mapping, 1 at the least interval; 0 are judged wrong\n")
        self.assertEqual(self.cell(), "**2**")
        row = self.table()[0]
        self.assertEqual([row["interval"], row["moves"], row["judged"]], ["2", "5", "legal, same image"])
        self.assertTrue(row["host"] and row["wall"] and row["seconds"])
        self.assertRegex(row["version"], "^[0-9a-f]{12}$")
        self.assertIn("<circle", read(os.path.join(self.out, "intervals.svg")))

    def test_why_that_fails_is_an_error(self):
        write(self.path("fake", "status.why"), "1")
        done = self.sweep()
        self.assertEqual(done.returncode, 1)
        self.assertIn("1 in error", done.stdout)
        self.assertIn("a with l, seed 1: why: status 1", done.stderr)
        self.assertEqual(self.cell(), "error")
        self.assertEqual(self.table(), [])
        os.remove(self.path("fake", "status.why"))
        self.passes()
        self.assertEqual(self.cell(), "**2**")

    def test_each_unexpected_status_is_an_error(self):
        for command in ("flat", "bound", "search", "check", "run", "turns"):
            with self.subTest(command):
                write(self.path("fake", "status." + command), "3")
                done = self.sweep("--task", "0") if command == "flat" else self.sweep()
                self.assertEqual(done.returncode, 1)
                self.assertIn(f"{command}", done.stderr)
                self.assertNotIn("judged wrong; 0", done.stdout)
                os.remove(self.path("fake", "status." + command))

    def test_a_report_that_says_nothing_is_an_error(self):
        for command in ("bound", "why", "search"):
            with self.subTest(command):
                write(self.path("fake", "says." + command), "hello\n")
                done = self.sweep()
                self.assertEqual(done.returncode, 1)
                self.assertIn("1 in error", done.stdout)
                os.remove(self.path("fake", "says." + command))

    def test_no_mapping_is_a_result(self):
        write(self.path("fake", "status.search"), "7")
        self.passes()
        self.assertEqual(self.cell(), "none of 2")
        write(self.path("fake", "says.why"), "least none: impossible at ii 4: no way t.0\n")
        write(self.path("loops", "l.json"), "{ }\n")
        self.passes()
        self.assertEqual(self.cell(), "**none**")

    def test_a_wrong_mapping_fails(self):
        write(self.path("fake", "differs"), "")
        done = self.sweep()
        self.assertEqual((done.returncode, self.cell()), (1, "wrong"))
        self.assertIn("1 are judged wrong", done.stdout)
        write(self.path("fake", "status.check"), "8")
        write(self.path("loops", "l.json"), "{ }\n")
        self.assertEqual((self.sweep().returncode, self.table()[0]["judged"]), (1, "not legal"))

    def test_accesses_that_no_edge_orders_are_said(self):
        write(self.path("fake", "differs"), "")
        write(self.path("fake", "status.turns"), "8")
        self.assertIn("1 have accesses that no edge orders", self.passes().stdout)

    def test_a_sweep_that_tries_nothing_fails(self):
        os.remove(self.path("arrays", "a.toml"))
        done = self.sweep()
        self.assertEqual(done.returncode, 1)
        self.assertIn("no pair: 0 arrays", done.stderr)

    def test_an_array_without_the_operations_has_an_empty_cell(self):
        write(self.path("fake", "says.bound"), "mii none\nimpossible at every ii: class mul nodes 1 units 0\n")
        done = self.sweep()
        self.assertEqual((done.returncode, self.cell()), (1, ""))
        self.assertIn("nothing was tried", done.stderr)

    def test_collecting_nothing_fails(self):
        done = self.sweep("--collect")
        self.assertEqual(done.returncode, 1)
        self.assertIn("1 not done", done.stdout)
        self.assertEqual(self.cell(), "not done")

    def test_missing_files_and_programs_are_named(self):
        done = self.sweep(program=self.path("nothing"))
        self.assertEqual(done.returncode, 1)
        self.assertIn("no program", done.stderr)
        shutil.rmtree(self.path("arrays"))
        done = self.sweep()
        self.assertEqual(done.returncode, 2)
        self.assertIn("no file or folder", done.stderr)


class Keys(Sweeps):
    """Which result belongs to which job."""

    def test_another_command_is_another_job(self):
        self.passes()
        done = self.passes("--command", "map")
        self.assertEqual(len(self.calls("map")), 1)
        self.assertIn("1 results of other files, programs or options", done.stderr)
        self.assertEqual(len(self.table()), 1)

    def test_edits_and_options_are_other_jobs(self):
        self.passes()
        image = self.path("other.img")
        write(image, "CGI1" + "\0" * 72)
        edits = [
            lambda: write(self.path("arrays", "a.toml"), "memory = 1024 \n"),
            lambda: write(self.path("loops", "l.json"), "{  }\n"),
            lambda: write(self.fake, FAKE + "\n"),
        ]
        for edit in edits:
            edit()
            before = len(self.calls("search"))
            self.passes()
            self.passes()
            self.assertEqual(len(self.calls("search")), before + 1)
        for words in (["--moves", "7"], ["--ii", "3"], ["--turns", "5"], ["--image", image]):
            before = len(self.calls("search"))
            self.passes(*words)
            self.passes(*words)
            self.assertEqual(len(self.calls("search")), before + 1, words)

    def test_options_reach_the_program(self):
        self.passes("--moves", "7", "--ii", "3", "--turns", "5", "--seeds", "2")
        given = sorted(call.partition(" --seed ")[2] for call in self.calls("search"))
        self.assertEqual(given, ["1 --moves 7 --ii 3", "2 --moves 7 --ii 3"])
        self.assertEqual(self.calls("run")[0].split()[3], "5")

    def test_a_copy_of_an_array_has_its_own_row(self):
        shutil.copy(self.path("arrays", "a.toml"), self.path("arrays", "b.toml"))
        self.passes()
        self.assertEqual([row["array"] for row in self.table()], ["a", "b"])
        self.assertEqual(len(self.calls("search")), 1)

    def test_the_first_result_of_a_key_counts(self):
        self.passes()
        results = os.path.join(self.out, "results.jsonl")
        line = json.loads(read(results))
        os.remove(results)
        for name, host in (("results.2.jsonl", "late"), ("results.10.jsonl", "early")):
            write(os.path.join(self.out, name), json.dumps({**line, "host": host}) + "\n")
        short = {"key": line["key"], "timeout": 1.0}
        write(os.path.join(self.out, "results.1.jsonl"), json.dumps(short) + "\n" + json.dumps({**short, "error": "x"}) + "\n")
        self.passes("--collect")
        self.assertEqual(self.table()[0]["host"], "early")


class Torn(Sweeps):
    """Lines that a crash tore."""

    def test_torn_lines_are_skipped_and_said(self):
        self.passes("--seeds", "2")
        results = os.path.join(self.out, "results.jsonl")
        first, second = read(results).splitlines()
        torn = [first[:20] + second, "}{", "[1]", '{"key": "x", "timeout": "y"}', first[:30]]
        write(results, "\n".join([torn[0], first, *torn[1:]]))
        with open(os.path.join(self.out, "results.x.jsonl"), "wb") as file:
            file.write(b"\0\0\xff\n")
        done = self.passes("--seeds", "2", "--collect")
        self.assertEqual(done.stderr.count("a torn line is left out"), 6)
        self.assertIn("results.jsonl:1:", done.stderr)
        self.assertIn("1 not done", done.stdout)

    def test_appending_begins_on_a_fresh_line(self):
        self.passes("--seeds", "2")
        results = os.path.join(self.out, "results.jsonl")
        lines = read(results).splitlines()
        write(results, lines[0] + "\n" + lines[1][:25])
        self.passes("--seeds", "2")
        self.assertEqual([line[:25] for line in read(results).splitlines()], [line[:25] for line in (lines[0], lines[1], lines[1])])
        self.assertEqual(len(self.table()), 2)
        self.assertEqual(len(self.calls("search")), 3)


class Tasks(Sweeps):
    """Jobs of a cluster's array job."""

    def test_a_task_outside_the_range_is_refused(self):
        for task in ("2", "-1"):
            done = self.sweep("--seeds", "2", "--task", task)
            self.assertEqual(done.returncode, 2)
            self.assertIn("the tasks are 0 to 1", done.stderr)

    def test_a_task_that_is_done_is_left_alone(self):
        self.passes("--task", "0")
        name = glob.glob(os.path.join(self.out, "results.*.jsonl"))[0]
        before = (read(name), os.stat(name).st_mtime_ns, os.stat(name).st_ino)
        done = self.passes("--task", "0")
        self.assertIn("done before", done.stderr)
        self.assertEqual(len(self.calls("search")), 1)
        self.assertEqual((read(name), os.stat(name).st_mtime_ns, os.stat(name).st_ino), before)

    def test_a_task_of_another_command_keeps_the_result(self):
        self.passes("--task", "0")
        write(self.path("fake", "status.map"), "1")
        self.assertEqual(self.sweep("--task", "0", "--command", "map").returncode, 1)
        self.passes("--collect")
        self.assertEqual(self.cell(), "**2**")

    def test_a_better_record_is_never_overwritten(self):
        sweep = load()
        os.mkdir(self.out)
        good, bad = {"key": "k" * 64, "interval": 2}, {"key": "k" * 64, "error": "x"}
        for record in (bad, good, bad, {"key": "k" * 64, "timeout": 9}):
            sweep.write_record(self.out, record)
        self.assertEqual(sweep.read_records(self.out).by_key, {"k" * 64: good})
        self.assertEqual(os.listdir(self.out), [sweep.file_of("k" * 64)])

    def test_count_and_chunks_cover_all_jobs(self):
        words = ["--seeds", "5", "--chunk", "2"]
        self.assertEqual(self.passes("--seeds", "5", "--count").stdout, "5\n")
        count = int(self.passes(*words, "--count").stdout)
        self.assertEqual(count, 3)
        for task in range(count):
            self.passes(*words, "--task", str(task))
        self.assertEqual(len(self.calls("search")), 5)
        self.assertIn("5 of 5 jobs", self.passes(*words, "--collect").stdout)
        self.passes(*words)
        self.assertEqual(len(self.calls("search")), 5)

    def test_the_batch_file_of_slurm(self):
        words = ["sh", "gallery/sweep.sbatch", self.path("arrays"), self.path("loops"), "--out", self.out, "--seeds", "2"]
        for task in ("0", "1"):
            env = {**os.environ, "CGRA": self.fake, "SLURM_ARRAY_TASK_ID": task}
            done = subprocess.run(words, cwd=ROOT, env=env, capture_output=True, text=True, check=False)
            self.assertEqual(done.returncode, 0, done.stderr)
        self.assertIn("2 of 2 jobs", self.passes("--seeds", "2", "--collect").stdout)
        env.pop("SLURM_ARRAY_TASK_ID")
        done = subprocess.run(words, cwd=ROOT, env=env, capture_output=True, text=True, check=False)
        self.assertNotEqual(done.returncode, 0)
        self.assertIn("SLURM_ARRAY_TASK_ID", done.stderr)


class Times(Sweeps):
    """Jobs that take too long, and sweeps that are interrupted."""

    def test_a_timeout_is_a_result_of_its_own(self):
        write(self.path("fake", "slow.search"), "602.5")
        begun = time.monotonic()
        done = self.passes("--timeout", "2")
        self.assertLess(time.monotonic() - begun, 300)
        self.assertIn("0 of 1 jobs found a mapping", done.stdout)
        self.assertIn("1 timed out", done.stdout)
        self.assertEqual((self.cell(), self.table()[0]["judged"]), ("timeout", "timeout 2"))
        self.passes("--timeout", "1.5")
        self.assertEqual(len(self.calls("bound")), 1)
        os.remove(self.path("fake", "slow.search"))
        self.passes("--timeout", "1000")
        self.assertEqual(self.cell(), "**2**")
        self.passes("--timeout", "2")
        self.assertEqual(len(self.calls("bound")), 2)

    def test_an_ended_sweep_ends_its_calls_and_resumes(self):
        write(self.path("fake", "slow.search"), "901.5")
        words = [sys.executable, SWEEP, self.path("arrays"), self.path("loops"), "--out", self.out, "--seeds", "3", "--jobs", "2"]
        env = {**os.environ, "CGRA": self.fake}
        with subprocess.Popen(words, env=env, stdout=subprocess.DEVNULL, stderr=subprocess.DEVNULL) as process:
            self.wait_for(lambda: len(self.calls("search")) == 2)
            process.send_signal(signal.SIGTERM)
            self.assertEqual(process.wait(timeout=300), 143)
        self.wait_for(lambda: not self.sleeping("901.5"))
        os.remove(self.path("fake", "slow.search"))
        self.assertIn("3 of 3 jobs", self.passes("--seeds", "3").stdout)

    def sleeping(self, seconds):
        """Says whether a process sleeps so many seconds in the name of the fake program."""
        said = subprocess.run(["ps", "-eo", "args="], capture_output=True, text=True, check=False).stdout
        return f"sleep {seconds}" in said.splitlines()

    def wait_for(self, holds):
        """Waits until something holds."""
        end = time.monotonic() + 300
        while not holds():
            self.assertLess(time.monotonic(), end)
            time.sleep(0.05)


class Images(Sweeps):
    """Images that fit the array."""

    def test_the_image_is_cut_to_the_memory(self):
        streams = 4 * 16 + 4 * 2 * 64
        for words in (0, 100, 512, 4096):
            write(self.path("arrays", "a.toml"), f"memory = {words}\n")
            self.passes()
            self.assertEqual(int(read(self.path("fake", "images")).split()[-1]), 8 + 4 * min(words, 1024) + streams)

    def test_a_cut_image_is_its_beginning(self):
        sweep = load()
        with open(sweep.RAMP, "rb") as ramp, open(os.path.join(ROOT, "gallery/images/short.img"), "rb") as short:
            self.assertEqual(sweep.cut_image(ramp.read(), 256), short.read())

    def test_what_is_no_image_is_refused(self):
        done = self.sweep("--image", self.path("loops", "l.json"))
        self.assertEqual(done.returncode, 2)
        self.assertIn("isn't an image", done.stderr)


class Places(Sweeps):
    """Where jobs run: here, on hosts, and by the launcher."""

    def test_this_machine_needs_no_parallel(self):
        os.mkdir(self.path("bin"))
        write(self.path("bin", "parallel"), "#!/bin/sh\nexit 1\n")
        os.chmod(self.path("bin", "parallel"), 0o755)
        write(self.path("hosts"), ":\n")
        with mock.patch.dict(os.environ, PATH=self.path("bin") + os.pathsep + os.environ["PATH"]):
            done = self.passes("--seeds", "4", "--jobs", "2")
            self.assertEqual(self.sweep("--hosts", self.path("hosts"), "--command", "map").returncode, 1)
        self.assertIn("4 of 4 jobs found", done.stdout)
        self.assertIn("4 of 4 jobs, 0 in error", done.stderr)

    @unittest.skipIf(shutil.which("parallel") is None, "GNU parallel isn't installed")
    def test_hosts_go_through_parallel(self):
        write(self.path("hosts"), ":\n")
        words = ["--hosts", self.path("hosts"), "--jobs", "2", "--seeds", "2"]
        self.assertIn("2 of 2 jobs found", self.passes(*words).stdout)
        self.assertTrue(os.path.exists(os.path.join(self.out, "jobs.log")))
        write(self.path("fake", "status.search"), "1")
        self.assertIn("1 in error", self.sweep("--hosts", self.path("hosts"), "--seeds", "3").stdout)

    def repository(self):
        """Returns the script of a folder that is laid out as the repository, whose launcher builds at its first call."""
        for name in ("gallery/arrays", "gallery/images", "release"):
            os.makedirs(self.path("repository", name))
        for name in ("gallery/sweep", "gallery/arrays/mesh2.toml", "gallery/images/ramp.img"):
            shutil.copy(os.path.join(ROOT, name), self.path("repository", name))
        build = '[ -f "$here/release/cgra" ] || { echo build >>"$here/builds"; sleep 0.5; echo built >"$here/release/cgra"; }\n'
        launcher = self.path("repository", "cgra")
        write(launcher, FAKE.replace("case $1", build + "case $1", 1))
        os.chmod(launcher, 0o755)
        return self.path("repository", "gallery", "sweep")

    def test_the_launcher_builds_once(self):
        script = self.repository()
        self.assertIn("4 of 4 jobs", self.passes("--seeds", "4", "--jobs", "4", script=script, program="").stdout)
        self.assertEqual(read(self.path("repository", "builds")), "build\n")
        write(self.path("repository", "release", "cgra"), "another\n")
        self.assertIn("4 of other", self.passes("--seeds", "4", script=script, program="").stderr.replace(" results", ""))

    def test_tasks_at_once_build_once(self):
        words = [sys.executable, self.repository(), self.path("arrays"), self.path("loops"), "--out", self.out, "--seeds", "3"]
        env = {**os.environ, "CGRA": ""}
        tasks = [subprocess.Popen([*words, "--task", str(n)], env=env, stderr=subprocess.DEVNULL) for n in range(3)]
        self.assertEqual([task.wait(timeout=300) for task in tasks], [0, 0, 0])
        self.assertEqual(read(self.path("repository", "builds")), "build\n")
        self.assertIn("3 of 3 jobs", self.passes("--seeds", "3", "--collect", script=words[1], program="").stdout)


class Page(unittest.TestCase):
    """The numbers of docs/gallery.md, which are those of gallery/results.csv and of the files."""

    def setUp(self):
        """Reads the page and the results."""
        self.page = read(os.path.join(ROOT, "docs", "gallery.md"))
        with open(os.path.join(ROOT, "gallery", "results.csv"), encoding="utf-8", newline="") as file:
            rows = list(csv.DictReader(file))
        for row in rows:
            row.update(key="", **{name: int(row[name]) if row[name] else None for name in ("bound", "least", "interval")})
        self.rows = rows

    def names(self, kind, ending):
        """Returns the names of the gallery's arrays or loops."""
        found = glob.glob(os.path.join(ROOT, "gallery", kind, "*" + ending))
        return sorted(os.path.basename(path)[: -len(ending)] for path in found)

    def test_the_matrix_is_that_of_the_results(self):
        arrays, loops = self.names("arrays", ".toml"), self.names("loops", ".json")
        there = {(row["array"], row["loop"]) for row in self.rows}
        lacks = [{"key": "", "array": a, "loop": l, "bound": None} for a in arrays for l in loops if (a, l) not in there]
        self.assertIn("\n\n" + load().matrix(self.rows + lacks, arrays, loops, None) + "\n", self.page)

    def test_the_counts_are_those_of_the_results(self):
        mapped = [row for row in self.rows if row["interval"]]
        over = [row["interval"] - row["least"] for row in mapped]
        counts = f"Of {len(self.rows)} pairs `search` maps {len(mapped)}: {over.count(0)} at the least possible interval, "
        self.assertIn(counts + f"{sum(one <= 1 for one in over)} at most one above it.", self.page)
        self.assertEqual({row["judged"] for row in mapped}, {"legal, same image"})
        none = sum(row["least"] is None for row in self.rows)
        left = len(self.rows) - len(mapped) - none
        self.assertIn(f"For {none} pairs a reason excludes every interval; for {left} the search found no mapping.", self.page)
        above = [row["least"] - row["bound"] for row in self.rows if row["least"] not in (None, row["bound"])]
        self.assertEqual(set(above), {1})
        self.assertIn(f"For {len(above)} pairs the least interval is one above that of `bound`.", self.page)
        self.assertIn(f"took {sum(float(row['seconds']) for row in self.rows):.0f} seconds", self.page)
        self.assertIn(f"each of the {len(mapped)} pairs", read(os.path.join(ROOT, "docs", "hardware.md")))

    def test_the_picture_is_that_of_the_results(self):
        arrays = sorted({row["array"] for row in self.rows})
        drawn = load().picture([row for row in self.rows if row["interval"]], arrays)
        self.assertEqual(drawn, read(os.path.join(ROOT, "docs", "pictures", "intervals.svg")))

    def test_the_loops_have_these_nodes(self):
        for loop in self.names("loops", ".json"):
            nodes = len(json.loads(read(os.path.join(ROOT, "gallery", "loops", loop + ".json")))["nodes"])
            self.assertIn(f"| `{loop}` | {nodes} |", self.page)


@unittest.skipIf(REAL is None, "the program isn't built")
class Program(Sweeps):
    """The real program."""

    def test_small_memories_are_judged(self):
        text = read(os.path.join(ROOT, "crates/cgra/data/t1.toml"))
        for name, memory in (("a", "memory = 16 # words"), ("b", "memory = 0x1_0"), ("c", '"memory" = 2_56'), ("d", "")):
            write(self.path("arrays", name + ".toml"), text.replace("memory = 16", memory))
        shutil.copy(os.path.join(ROOT, "crates/cgra/data/sum.json"), self.path("loops", "l.json"))
        self.passes("--jobs", "1", program=REAL)
        self.assertEqual([(row["interval"], row["judged"]) for row in self.table()], [("3", "legal, same image")] * 4)

    def test_a_pair_of_the_gallery(self):
        shutil.copy(os.path.join(ROOT, "gallery/arrays/adres4.toml"), self.path("arrays", "a.toml"))
        shutil.copy(os.path.join(ROOT, "gallery/loops/hist.json"), self.path("loops", "l.json"))
        self.passes(program=REAL)
        self.assertEqual((self.cell(), self.table()[0]["judged"]), ("**3**", "legal, same image"))


if __name__ == "__main__":
    unittest.main()
