"""Tests of mappings and architectures as objects."""

import copy
import os
import pickle
import tempfile
import unittest

import cgra

from .support import DATA, SUM, T1, one_tile, require_program, running_sum

SUM_MAP = os.path.join(DATA, "sum.map")


def setUpModule():
    require_program()


def text_of(path):
    """Returns the text of the file `path`."""
    with open(path, encoding="utf-8") as file:
        return file.read()


class Content(unittest.TestCase):
    def test_read(self):
        mapping = cgra.Mapping.read(SUM_MAP)
        self.assertEqual(mapping.interval, 3)
        self.assertEqual(
            dict(mapping.places),
            {"i": cgra.Place("r0c0_u", 0), "s": cgra.Place("r0c0_u", 1), "o": cgra.Place("r0c0_u", 2)},
        )
        self.assertEqual(mapping.routes["s", 0], ("r0c0_u_o", "r0c0_r", "r0c0_r", "r0c0_u_a"))
        self.assertEqual(mapping.routes["s", 1], ("r0c0_u_o", "r0c0_u_b"))
        self.assertEqual(mapping.routes["o", 0], ("r0c0_u_o", "r0c0_u_a"))
        self.assertEqual((mapping.text, mapping.to_text(), str(mapping)), (text_of(SUM_MAP),) * 3)
        self.assertEqual(mapping.to_bytes(), text_of(SUM_MAP).encode())

    def test_built(self):
        read = cgra.Mapping.read(SUM_MAP)
        built = cgra.Mapping(3, read.places, read.routes)
        self.assertEqual(built.text, text_of(SUM_MAP))
        self.assertEqual((built, hash(built)), (read, hash(read)))
        self.assertNotEqual(built, cgra.Mapping(2, read.places, read.routes))
        self.assertTrue(cgra.check(T1, SUM, built))

    def test_write(self):
        with tempfile.TemporaryDirectory() as folder:
            path = os.path.join(folder, "x.map")
            cgra.Mapping.read(SUM_MAP).write(path)
            self.assertEqual(text_of(path), text_of(SUM_MAP))

    def test_unchangeable(self):
        mapping = cgra.Mapping.read(SUM_MAP)
        with self.assertRaises(TypeError):
            mapping.places["i"] = cgra.Place("r0c0_u", 1)
        with self.assertRaises(AttributeError):
            mapping.interval = 2
        for other in (copy.deepcopy(mapping), pickle.loads(pickle.dumps(mapping))):
            self.assertEqual((other, other.text), (mapping, mapping.text))

    def test_refused(self):
        whole = text_of(SUM_MAP)
        cases = [
            (whole[1:], "P1 NotJson file"),
            (whole.replace("cgm1", "cgm2"), "P2 WrongShape file"),
            (whole.replace('"ii":3', '"ii":3.0'), "P2 WrongShape file"),
            (whole.replace('"time":1', '"time":"1"'), "P2 WrongShape places 1"),
            (whole.replace('"r0c0_u_b"', "7"), "P2 WrongShape routes 1"),
            (whole.replace('"ii":3', '"ii":3,"jj":3'), "P3 UnknownKey file"),
            (whole.replace('"time":2', '"slot":1,"time":2'), "P3 UnknownKey places 2"),
            (whole.replace('"arg":1', '"arg":3'), "P4 UnknownName routes 1"),
            (whole.replace('"ii":3', '"ii":65536'), "P5 TooLarge file"),
            (whole.replace('"time":2', '"time":65535'), "P5 TooLarge places 2"),
        ]
        for text, fault in cases:
            with self.subTest(fault=fault):
                with self.assertRaises(ValueError) as raised:
                    cgra.Mapping.from_text(text)
                self.assertEqual(str(raised.exception).split(": ")[0], fault)
                with self.assertRaises(cgra.Malformed) as raised:
                    cgra.check(T1, SUM, cgra.Text(text))
                self.assertEqual(" ".join((raised.exception.code, raised.exception.name, raised.exception.place)), fault)

    def test_given_twice(self):
        whole = text_of(SUM_MAP)
        place = '{"node":"i","time":0,"unit":"r0c0_u"}'
        text = whole.replace(place, f"{place},{place}")
        with self.assertRaises(cgra.BadText) as raised:
            cgra.Mapping.from_text(text)
        self.assertEqual((raised.exception.code, raised.exception.place), ("P6", "node i"))
        with self.assertRaises(cgra.Malformed) as raised:
            cgra.check(T1, SUM, cgra.Text(text))
        self.assertEqual((raised.exception.code, raised.exception.place), ("P6", "node i"))

    def test_numbers(self):
        for call, error in [
            (lambda: cgra.Mapping(1.5, {}, {}), TypeError),
            (lambda: cgra.Mapping(-1, {}, {}), ValueError),
            (lambda: cgra.Mapping(3, {"i": cgra.Place("u", 65_535)}, {}), ValueError),
            (lambda: cgra.Mapping(3, {}, {("i", 3): ()}), ValueError),
        ]:
            with self.assertRaises(error):
                call()


class Given(unittest.TestCase):
    """A mapping, or what has one, can be given wherever a file of one can."""

    def test_everywhere(self):
        found = cgra.search(one_tile(), running_sum())
        self.assertIsInstance(found.mapping, cgra.Mapping)
        self.assertEqual((found.mapping.interval, sorted(found.mapping.places)), (3, ["i", "o", "s"]))
        for mapping in (found, found.mapping, cgra.Text(found.mapping.text), SUM_MAP):
            self.assertTrue(cgra.check(T1, SUM, mapping))
            self.assertEqual(cgra.violations(T1, SUM, mapping), [])
            self.assertEqual(cgra.emit(T1, SUM, mapping).interval, 3)
            self.assertTrue(cgra.show(T1, SUM, mapping).report.startswith("ii 3  stages 1\n"))

    def test_images_and_netlists(self):
        found = cgra.search(T1, SUM)
        first = cgra.run(T1, found, 2, cgra.Image([7]))
        self.assertEqual(cgra.run(T1, found.bits, 0, first).image.memory, [7])
        self.assertEqual(cgra.turns(SUM, 0, first).image.memory, [7])
        again = cgra.run(T1, found, 5, netlist=cgra.verilog(T1))
        self.assertEqual(again.image.stream(0), [0, 1, 3, 6, 10])

    def test_nothing_else(self):
        for value in (7, None, 1.5, ["x"]):
            with self.assertRaises(TypeError):
                cgra.check(T1, SUM, value)


class Architectures(unittest.TestCase):
    def test_numbers(self):
        unit = cgra.Unit("u", ["iter"])
        for error, value in ((TypeError, 1.9), (ValueError, 2**40 + 3), (ValueError, -1)):
            with self.assertRaises(error):
                cgra.Unit("u", ["iter"], value)
            for key in ("contexts", "memory"):
                with self.assertRaises(error):
                    cgra.Arch.build("a", ["A"], {"A": [unit]}, **{key: value})
        for latency in (0, 5):
            with self.assertRaises(ValueError):
                cgra.Unit("u", ["iter"], latency)
        for contexts in (0, 65):
            with self.assertRaises(ValueError):
                cgra.Arch.build("a", ["A"], {"A": [unit]}, contexts=contexts)

    def test_texts(self):
        """A text that is no name stays one text, which the program refuses."""
        for name in ('a"', "a\nb", "a\\", "a\x7f"):
            with self.assertRaises(cgra.Malformed) as raised:
                cgra.flat(cgra.Arch.build(name, ["A"], {"A": [cgra.Unit("u", ["iter"])]}))
            self.assertEqual((raised.exception.code, raised.exception.place), ("A2", "architecture"))

    def test_equal(self):
        self.assertEqual(one_tile(), one_tile())
        self.assertNotEqual(one_tile(), cgra.Arch(""))


if __name__ == "__main__":
    unittest.main()
