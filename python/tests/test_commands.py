"""Tests of the commands over the program. Expected values are worked out by hand, or are those of the repository's documents."""

import os
import tempfile
import unittest

import cgra

from .support import DATA, SUM, T1, one_tile, require_program, running_sum

RUNNING = "cgl1; carry s = 0; s = s + in 0; out 0 = s;"


def setUpModule():
    require_program()


class Commands(unittest.TestCase):
    def test_from_search_to_run(self):
        found = cgra.search(one_tile(), running_sum())
        self.assertEqual((found.interval, found.stages, found.seed), (3, 1, 1))
        self.assertEqual(cgra.emit(T1, SUM, found).bits, found.bits)
        ran = cgra.run(T1, found, 5)
        self.assertEqual((ran.cycles, ran.outside), (15, 0))
        self.assertEqual(ran.image.stream(0), [0, 1, 3, 6, 10])
        turned = cgra.turns(running_sum(), 5)
        self.assertEqual((turned.image, turned.ordered), (ran.image, True))
        bench = cgra.bench(T1, found, 5)
        self.assertEqual((bench.cycles, bench.outside), (15, 0))

    def test_show(self):
        shown = cgra.show(T1, SUM, os.path.join(DATA, "sum.map"))
        self.assertTrue(shown.report.startswith("ii 3  stages 1\n"))
        self.assertTrue(shown.picture.rstrip().endswith("</svg>"))
        self.assertEqual(shown._repr_svg_(), shown.picture)

    def test_walk(self):
        found = cgra.walk(T1, SUM)
        self.assertEqual((found.interval, found.by, found.moves), (3, "walk", 0))
        with open(os.path.join(DATA, "sum.bits"), "rb") as file:
            self.assertEqual(found.bits, file.read())
        self.assertIs(cgra.map, cgra.walk)

    def test_flat_and_verilog(self):
        flat = cgra.flat(one_tile())
        self.assertEqual((flat.resources, flat.units, flat.links), (4, 1, 6))
        self.assertEqual(flat.digest, "84f92fd4c4b041d6e4ab61aeaac93128e5f5a7184289a21dcf7b42f8e165ea1a")
        self.assertEqual(flat.text.splitlines()[0], "cgaflat1")
        verilog = cgra.verilog(T1)
        self.assertEqual((verilog.nets, verilog.cells), (7, 7))
        self.assertIn("module cgra_array (clk, rst);", verilog.text)

    def test_loop_text(self):
        looped = cgra.loop_text(RUNNING)
        self.assertEqual(looped.order, 0)
        self.assertEqual(cgra.turns(looped, 3, cgra.Image([], {0: [1, 2, 3]})).image.stream(0), [1, 3, 6])

    def test_loop(self):
        looped = cgra.loop(os.path.join(DATA, "sum.loop"))
        self.assertEqual((looped.nodes, looped.order, len(looped.kernel)), (14, 2, 14))
        left = cgra.turns(looped, 5, cgra.Image([1, 2, 3, 4])).image
        self.assertEqual((left.memory, left.stream(0)), ([1, 3, 3, 4], [1, 3, 6, 10, 10]))

    def test_a_text_is_no_path(self):
        """`loop` takes a path, even one that looks like a loop; `loop_text` a text, even one that looks like a path."""
        with self.assertRaises(cgra.ReadFault):
            cgra.loop(RUNNING)
        with self.assertRaises(cgra.Malformed):
            cgra.loop_text(os.path.join(DATA, "sum.loop"))
        with tempfile.TemporaryDirectory() as folder:
            path = os.path.join(folder, "cgl1; .loop")
            with open(path, "w", encoding="utf-8") as file:
                file.write(RUNNING)
            self.assertEqual(cgra.loop(path).kernel, cgra.loop_text(RUNNING).kernel)

    def test_depend(self):
        shift = os.path.join(DATA, "shift.json")
        after = cgra.depend(shift)
        self.assertEqual((after.added, after.order), (1, 1))
        self.assertEqual(cgra.depend(after).added, 0)
        before = cgra.Kernel.read(shift)
        before.order("st", "x", 2)
        self.assertEqual(after.kernel, before)

    def test_simplify(self):
        """A copy of an input and a node without effect go; the copy stays where it is asked for."""
        kernel = cgra.Kernel()
        given = kernel.node("a", "input", port=0)
        copied = kernel.node("c", "const", given)
        kernel.node("gone", "add", given, 1)
        kernel.node("o", "output", copied, port=0)
        simple = cgra.simplify(kernel)
        self.assertEqual((simple.given_nodes, simple.nodes, simple.given_order, simple.order), (4, 2, 0, 0))
        by_hand = cgra.Kernel()
        by_hand.node("o", "output", by_hand.node("a", "input", port=0), port=0)
        self.assertEqual(simple.kernel, by_hand)
        self.assertEqual(cgra.simplify(kernel, copies=True).nodes, 3)
        self.assertEqual(cgra.simplify(simple, share=True).kernel, simple.kernel)

    def test_migrate_and_trial(self):
        new = cgra.migrate(T1, os.path.join(DATA, "sum1.bits"))
        with open(os.path.join(DATA, "sum.bits"), "rb") as file:
            self.assertEqual(new.bits, file.read())
        numbers = cgra.trial(1).numbers
        self.assertEqual(numbers["run-image"], numbers["turns-image"])

    def test_unordered(self):
        turned = cgra.turns(os.path.join(DATA, "swap.json"), 2, os.path.join(DATA, "in.img"))
        self.assertFalse(turned.ordered)
        self.assertEqual(turned.unordered, ("l", 0, "st", 0))


if __name__ == "__main__":
    unittest.main()
