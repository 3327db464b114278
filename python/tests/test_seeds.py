"""Tests of searches with several seeds: the same answer in whatever order they end."""

import itertools
import os
import threading
import time
import unittest

import cgra
from cgra._program import Cancelled, Setting
from cgra._seeds import best_of

from .support import GALLERY, SUM, T1, require_program

ADRES = os.path.join(GALLERY, "arrays", "adres4.toml")
FIR5 = os.path.join(GALLERY, "loops", "fir5.json")

EMPTY = cgra.Mapping(1, {}, {})


def found(seed, interval, stages):
    """Returns a mapping that was found."""
    return cgra.Found(interval, stages, "search", 0, seed, b"", EMPTY)


class Plan:
    """A search in the place of the program: by seed an interval and stages, or None, or an error; and how long it takes."""

    def __init__(self, ends, delays):
        self.ends, self.delays = ends, delays
        self.begun, self.cancelled = [], []

    def __call__(self, setting):
        self.begun.append(setting.seed)
        delay = self.delays.get(setting.seed, 0)
        if setting.cancelled is not None and setting.cancelled.wait(delay):
            self.cancelled.append(setting.seed)
            raise Cancelled
        end = self.ends[setting.seed]
        if isinstance(end, Exception):
            raise end
        if end is None:
            raise cgra.NotFound(7, f"ii 3 faults {setting.seed}\n", [])
        return found(setting.seed, *end)


def race(ends, delays, jobs, least=1, seed=1):
    """Returns what a search with the seeds of `ends` returns, and the plan."""
    plan = Plan(ends, delays)
    return best_of(plan, lambda: least, Setting(seed=seed), len(ends), jobs), plan


class Answers(unittest.TestCase):
    # By seed: interval, stages. None reaches the least interval, 1; the best is seed 3.
    ENDS = {1: (4, 1), 2: (3, 3), 3: (3, 2), 4: None, 5: (3, 2)}

    def test_whatever_the_order(self):
        for order in itertools.islice(itertools.permutations(self.ENDS), 0, None, 11):
            delays = {seed: 0.005 * place for place, seed in enumerate(order)}
            for jobs in (1, 2, 5):
                best, _ = race(self.ENDS, delays, jobs)
                self.assertEqual((best.seed, best.interval, best.stages), (3, 3, 2))

    def test_at_the_least(self):
        """Seeds 2, 4 and 5 reach the least interval, 3: seed 2 is the answer, though others are faster or have fewer stages."""
        ends = {1: (4, 1), 2: (3, 5), 3: (5, 1), 4: (3, 1), 5: (3, 2)}
        for order in itertools.islice(itertools.permutations(ends), 0, None, 11):
            delays = {seed: 0.005 * place for place, seed in enumerate(order)}
            for jobs in (1, 2, 5):
                best, _ = race(ends, delays, jobs, least=3)
                self.assertEqual((best.seed, best.stages), (2, 5))

    def test_others_needn_t_run(self):
        ends = {seed: (3, 1) for seed in range(1, 30)}
        delays = {seed: 30.0 for seed in range(2, 30)}
        start = time.monotonic()
        best, plan = race(ends, delays, 4, least=3)
        self.assertLess(time.monotonic() - start, 20)
        self.assertEqual(best.seed, 1)
        self.assertLessEqual(len(plan.begun), 5)

    def test_smaller_seeds_are_waited_for(self):
        best, plan = race({1: (3, 1), 2: (3, 1), 3: (3, 1)}, {1: 0.6, 2: 0.3, 3: 30.0}, 3, least=3)
        self.assertEqual(best.seed, 1)
        self.assertEqual(plan.cancelled, [3])

    def test_from_a_seed_on(self):
        best, plan = race({7: None, 8: (2, 1), 9: None}, {}, 2, seed=7)
        self.assertEqual((best.seed, sorted(plan.begun)), (8, [7, 8, 9]))

    def test_none(self):
        for delays in ({1: 0.05}, {2: 0.05}):
            with self.assertRaises(cgra.NotFound) as raised:
                race({1: None, 2: None, 3: None}, delays, 3)
            self.assertEqual(raised.exception.left[3].count, 1)

    def test_errors_are_raised_at_once(self):
        for error in (cgra.Impossible(4, "", []), cgra.Malformed(3, "", []), cgra.Usage(2, "", []), KeyError("x")):
            start = time.monotonic()
            with self.assertRaises(type(error)):
                race({1: (3, 1), 2: error, 3: (3, 1)}, {1: 30.0, 3: 30.0}, 3)
            self.assertLess(time.monotonic() - start, 20)

    def test_no_thread_is_left(self):
        before = threading.active_count()
        race(self.ENDS, {}, 5)
        self.assertEqual(threading.active_count(), before)

    def test_one_seed(self):
        """With one seed the least interval isn't asked for."""
        best = best_of(Plan({4: (9, 1)}, {}), self.fail, Setting(seed=4), 1, None)
        self.assertEqual(best.seed, 4)


class Program(unittest.TestCase):
    def setUp(self):
        require_program()

    def test_search(self):
        """The least interval of sum.json on t1 is 3, and seed 1 finds a mapping there."""
        best = cgra.search(T1, SUM, seeds=3, jobs=2)
        self.assertEqual((best.interval, best.seed), (3, 1))
        self.assertEqual(best, cgra.search(T1, SUM))
        best = cgra.search(T1, SUM, seed=5, seeds=3, jobs=2)
        self.assertEqual((best.interval, best.seed), (3, 5))

    def test_interval(self):
        best = cgra.search(ADRES, FIR5, ii=2, seeds=2, jobs=2)
        self.assertEqual((best.interval, best.seed), (2, 1))

    def test_refusals(self):
        with self.assertRaises(cgra.Impossible):
            cgra.search(T1, SUM, ii=2, seeds=2)
        with self.assertRaises(cgra.Malformed):
            cgra.search(T1, cgra.Text("{}"), seeds=2)
        with self.assertRaises(cgra.NotFound) as raised:
            cgra.search(T1, SUM, moves=0, seeds=2)
        self.assertEqual(sorted(raised.exception.left), [3, 4])


if __name__ == "__main__":
    unittest.main()
