"""Tests of certificates and violations as fields. The lines are those of docs/commands.md, docs/why.md and docs/search.md."""

import os
import unittest

import cgra
from cgra._certificates import certificate_of
from cgra._violations import lefts_of, violation_of

from .support import GALLERY, SUM, T1, require_program


class Certificates(unittest.TestCase):
    def check(self, text, expected):
        self.assertEqual(certificate_of(text), expected)
        self.assertEqual((str(expected), expected.text), (text, text))

    def test_cycle(self):
        text = "impossible at ii 2: cycle x.0 a.0 latency 3 distance 1"
        self.check(text, cgra.Cycle(text, 2, ("x.0", "a.0"), latency=3, distance=1))
        text = "impossible at ii 7: cycle b.0 c.0 d.0 a.0 latency 4 ways 4 distance 1"
        self.check(text, cgra.Cycle(text, 7, ("b.0", "c.0", "d.0", "a.0"), latency=4, distance=1, ways=4))

    def test_names_that_are_words(self):
        text = "impossible at ii 2: cycle latency.0 ways.1 order.2 latency 3 distance 1"
        self.check(text, cgra.Cycle(text, 2, ("latency.0", "ways.1", "order.2"), latency=3, distance=1))

    def test_class(self):
        text = "impossible at every ii: class mul nodes 1 units 0"
        self.check(text, cgra.OverfullClass(text, None, ("mul",), nodes=1, units=0))
        text = "impossible at ii 2: class iter add output nodes 3 units 1"
        self.check(text, cgra.OverfullClass(text, 2, ("iter", "add", "output"), nodes=3, units=1))

    def test_no_way(self):
        text = "impossible at ii 1: no way t.0"
        self.check(text, cgra.NoWay(text, 1, "t.0"))

    def test_registers(self):
        text = "impossible at ii 7: registers 15 of 14 pull a.0 15 b.0 15 c.0 15 d.0 15"
        pull = (("a.0", 15), ("b.0", 15), ("c.0", 15), ("d.0", 15))
        self.check(text, cgra.Registers(text, 7, 15, 14, pull=pull))
        text = "impossible at ii 4: registers 12 of 4 stay s.0"
        self.check(text, cgra.Registers(text, 4, 12, 4, stay=("s.0",)))
        text = "impossible at ii 1: registers 2 of 1 stay b.0 c.0 pull b.0 1 c.0 1"
        self.check(text, cgra.Registers(text, 1, 2, 1, stay=("b.0", "c.0"), pull=(("b.0", 1), ("c.0", 1))))
        text = "ii 3 impossible: registers 9 of 8 stay a.0 pull b.1 2 tie order.0 2"
        self.check(text, cgra.Registers(text, 3, 9, 8, stay=("a.0",), pull=(("b.1", 2),), tie=(("order.0", 2),)))

    def test_unknown(self):
        for text in ("impossible at ii 2: magic", "magic"):
            found = certificate_of(text)
            self.assertIs(type(found), cgra.Certificate)
            self.assertEqual(found.text, text)

    def test_bound_and_why(self):
        require_program()
        bound = cgra.bound(T1, SUM)
        self.assertEqual(bound.interval, 3)
        self.assertEqual(str(bound.certificate), "impossible at ii 2: class iter add output nodes 3 units 1")
        self.assertEqual(bound.report, f"mii 3\n{bound.certificate}\n")
        why = cgra.why(T1, SUM)
        self.assertEqual((why.interval, why.certificate), (3, None))
        self.assertEqual(why.reasons["class"].certificate, bound.certificate)
        self.assertEqual(why.reasons["recurrence"], cgra.Reason("recurrence", 1, None))
        fir5 = cgra.why(os.path.join(GALLERY, "arrays", "lean4.toml"), os.path.join(GALLERY, "loops", "fir5.json"))
        registers = fir5.reasons["registers"].certificate
        self.assertIsInstance(registers, cgra.Registers)
        self.assertEqual((fir5.interval, registers.interval, registers.needed, registers.available), (2, 1, 32, 16))

    def test_no_unit(self):
        require_program()
        kernel = cgra.Kernel()
        kernel.node("c", "mul", cgra.Node("c").before(1, [0]), 1)
        bound = cgra.bound(T1, kernel)
        self.assertIsNone(bound.interval)
        text = "impossible at every ii: class mul nodes 1 units 0"
        self.assertEqual(bound.certificate, cgra.OverfullClass(text, None, ("mul",), 1, 0))


class Violations(unittest.TestCase):
    LINES = [
        ("fault L1 mapping", "L1", "mapping", "", None, ()),
        ("fault L2 node v", "L2", "node v", "v", None, ()),
        ("fault L3 unit U slot 2 a b", "L3", "unit U slot 2", "U", 2, ("a", "b")),
        ("fault L4 order 3", "L4", "order 3", "3", None, ()),
        ("fault L5 edge v.1", "L5", "edge v.1", "v.1", None, ()),
        ("fault L6 resource r1c0_w0 slot 1 i x", "L6", "resource r1c0_w0 slot 1", "r1c0_w0", 1, ("i", "x")),
        ("fault L7 resource R slot 0 - Q", "L7", "resource R slot 0", "R", 0, ("-", "Q")),
    ]

    def test_lines(self):
        for line, rule, place, name, slot, between in self.LINES:
            found = violation_of(line)
            self.assertEqual(found, cgra.Violation(line, rule, place, name, slot, between))
            self.assertEqual(str(found), line)

    def test_left(self):
        report = (
            "ii 2 faults 3\nfault L6 resource r1c0_w0 slot 1 i x\nfault L7 resource r1c0_w0 slot 1 r1c0_u_o r0c0_w0\n"
            "ii 3 cost 1000\n"
        )
        left = lefts_of(report)
        self.assertEqual(list(left), [2, 3])
        self.assertEqual((left[2].measure, left[2].count), ("faults", 3))
        self.assertEqual([violation.rule for violation in left[2].violations], ["L6", "L7"])
        self.assertEqual(str(left[2]), report.split("ii 3")[0].rstrip("\n"))
        self.assertEqual((left[3].measure, left[3].count, left[3].violations), ("cost", 1000, ()))

    def test_excluded(self):
        error = cgra.NotFound(7, "ii 3 impossible: registers 9 of 8 stay a.0\n", [])
        self.assertEqual(error.left, {})
        self.assertEqual(error.certificate.interval, 3)
        self.assertEqual(error.certificate.stay, ("a.0",))

    def test_program(self):
        """At interval 2 the nodes i (time 0) and o (time 2) of sum.map begin on one unit in slot 0."""
        require_program()
        mapping = cgra.search(T1, SUM).mapping
        late = cgra.Mapping(2, mapping.places, mapping.routes)
        found = cgra.violations(T1, SUM, late)
        line, place = "fault L3 unit r0c0_u slot 0 i o", "unit r0c0_u slot 0"
        self.assertIn(cgra.Violation(line, "L3", place, "r0c0_u", 0, ("i", "o")), found)


if __name__ == "__main__":
    unittest.main()
