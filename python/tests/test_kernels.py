"""Tests of kernels: built node by node, read from texts, and as graphs."""

import glob
import json
import os
import unittest

import cgra

from .support import DATA, GALLERY, SUM, module, require_program, running_sum

networkx = module("networkx")


def setUpModule():
    require_program()


def file(*nodes, **keys):
    """Returns the text of a kernel file with the texts `nodes`, and other keys."""
    rest = "".join(f', "{key}": {value}' for key, value in keys.items())
    return '{"format": "cgk2", "nodes": [' + ", ".join(nodes) + "]" + rest + "}"


ITER = '{"name": "i", "op": "iter"}'
COPY = '{"name": "c", "op": "const", "args": [%s]}'
LEVELS = 128

# Texts that the program refuses by docs/faults.md, each with its fault.
MALFORMED = [
    ("", "K1 NotJson file"),
    ("[1", "K1 NotJson file"),
    (file(ITER) + "x", "K1 NotJson file"),
    (file(ITER) + file(ITER), "K1 NotJson file"),
    ("\ufeff" + file(ITER), "K1 NotJson file"),
    (file(COPY % "NaN"), "K1 NotJson file"),
    (file(COPY % "-Infinity"), "K1 NotJson file"),
    (file(COPY % "01"), "K1 NotJson file"),
    (file(COPY % "1e999"), "K1 NotJson file"),
    (file(COPY % ("9" * 400)), "K1 NotJson file"),
    (file('{"name": "i", "op": "\\ud800"}'), "K1 NotJson file"),
    (file("{'name': 'i', 'op': 'iter'}"), "K1 NotJson file"),
    (file(ITER + ","), "K1 NotJson file"),
    (b'{"format": "cgk2", "nodes": [{"name": "\xff", "op": "iter"}]}', "K1 NotJson file"),
    ("[" * LEVELS + "]" * LEVELS, "K1 NotJson file"),
    ("[" * 100_000, "K1 NotJson file"),
    ("null", "K2 WrongShape file"),
    ("[]", "K2 WrongShape file"),
    ('{"nodes": []}', "K2 WrongShape file"),
    ('{"format": "cgk3", "nodes": []}', "K2 WrongShape file"),
    ('{"format": "cgk2"}', "K2 WrongShape file"),
    ('{"format": "cgk2", "nodes": {}}', "K2 WrongShape file"),
    (file(ITER, order="null"), "K2 WrongShape file"),
    (file(ITER, "7"), "K2 WrongShape nodes 1"),
    (file('{"op": "iter"}'), "K2 WrongShape nodes 0"),
    (file('{"name": "i"}'), "K2 WrongShape nodes 0"),
    (file('{"name": 1, "op": "iter"}'), "K2 WrongShape nodes 0"),
    (file('{"name": "i", "op": "iter", "args": {}}'), "K2 WrongShape nodes 0"),
    (file('{"name": "i", "op": "iter", "port": null}'), "K2 WrongShape nodes 0"),
    (file(COPY % "-1"), "K2 WrongShape nodes 0"),
    (file(COPY % "-0"), "K2 WrongShape nodes 0"),
    (file(COPY % "1.0"), "K2 WrongShape nodes 0"),
    (file(COPY % "1e2"), "K2 WrongShape nodes 0"),
    (file(COPY % "4294967296"), "K2 WrongShape nodes 0"),
    (file(COPY % "true"), "K2 WrongShape nodes 0"),
    (file(COPY % '"i"'), "K2 WrongShape nodes 0"),
    (file(COPY % '{"distance": 1}'), "K2 WrongShape nodes 0"),
    (file(COPY % '{"from": "c", "distance": -1}'), "K2 WrongShape nodes 0"),
    (file(COPY % '{"from": "c", "distance": 1, "init": [1.5]}'), "K2 WrongShape nodes 0"),
    (file(COPY % '{"from": "c", "distance": 1, "init": 3}'), "K2 WrongShape nodes 0"),
    (file(ITER, order='[{"from": "i"}]'), "K2 WrongShape order 0"),
    (file(ITER, order='[{"from": "i", "to": "i", "distance": "1"}]'), "K2 WrongShape order 0"),
    (file(ITER, extra="1"), "K3 UnknownKey file"),
    (file(ITER, '{"name": "j", "op": "iter", "prot": 1}'), "K3 UnknownKey nodes 1"),
    (file(COPY % '{"from": "c", "distance": 1, "init": [0], "delay": 1}'), "K3 UnknownKey nodes 0"),
    (file(ITER, order='[{"from": "i", "to": "i", "distance": 1, "init": []}]'), "K3 UnknownKey order 0"),
    (file(*(f'{{"name": "n{n}", "op": "iter"}}' for n in range(1025))), "K4 TooLarge file"),
    (file('{"name": "a-b", "op": "iter"}'), "K5 BadName nodes 0"),
    (file('{"name": "", "op": "iter"}'), "K5 BadName nodes 0"),
    (file('{"name": "1a", "op": "iter"}'), "K5 BadName nodes 0"),
    (file('{"name": "i\\n", "op": "iter"}'), "K5 BadName nodes 0"),
    (file('{"name": "\u00e4", "op": "iter"}'), "K5 BadName nodes 0"),
    (file('{"name": "' + "a" * 33 + '", "op": "iter"}'), "K5 BadName nodes 0"),
    (file(ITER, ITER), "K6 RepeatedName nodes 1"),
    (file('{"name": "i", "op": "itre"}'), "K7 UnknownOp nodes 0"),
    ('{"format": "cgk1", "nodes": [{"name": "l", "op": "loadif", "args": [1, 2]}]}', "K7 UnknownOp nodes 0"),
    (file('{"name": "i", "op": "iter", "args": [1]}'), "K8 WrongOperandCount nodes 0"),
    (file(ITER, '{"name": "q", "op": "mul", "args": [1]}'), "K8 WrongOperandCount nodes 1"),
    (file(COPY % '{"from": "x"}'), "K9 UnknownNode nodes 0"),
    (file(ITER, order='[{"from": "i", "to": "j"}]'), "K9 UnknownNode order 0"),
    (file('{"name": "s", "op": "store", "args": [1, {"from": "c", "distance": 1, "init": [0]}]}', COPY % '{"from": "s"}'),
     "K10 NoValue nodes 1"),
    (file(COPY % '{"from": "i"}', ITER), "K11 BackEdgeWithoutDistance nodes 0"),
    (file(ITER, order='[{"from": "i", "to": "i"}]'), "K11 BackEdgeWithoutDistance order 0"),
    (file(COPY % '{"from": "c", "distance": 5, "init": [0, 0, 0, 0, 0]}'), "K12 BadDistance nodes 0"),
    (file(ITER, order='[{"from": "i", "to": "i", "distance": 256}]'), "K12 BadDistance order 0"),
    (file(COPY % '{"from": "c", "distance": 1, "init": [0, 1]}'), "K13 InitCount nodes 0"),
    (file(COPY % '{"from": "c", "distance": 1}'), "K13 InitCount nodes 0"),
    (file('{"name": "a", "op": "add", "args": [1, 2]}'), "K14 TwoConstants nodes 0"),
    (file(ITER, '{"name": "o", "op": "output", "args": [{"from": "i"}]}'), "K15 BadPort nodes 1"),
    (file('{"name": "i", "op": "iter", "port": 0}'), "K15 BadPort nodes 0"),
    (file('{"name": "i", "op": "input", "port": 16}'), "K15 BadPort nodes 0"),
    (file('{"name": "o", "op": "output", "args": [{"from": "c"}], "port": 2}', COPY % "1"),
     "K11 BackEdgeWithoutDistance nodes 0"),
    (file(COPY % "1", '{"name": "a", "op": "output", "args": [1], "port": 2}',
          '{"name": "b", "op": "outputif", "args": [1, {"from": "c"}], "port": 2}'), "K16 RepeatedOutputPort nodes 2"),
    (" " * 16_777_217, "G1 TooLong limit 16777216"),
]


class Texts(unittest.TestCase):
    def test_malformed(self):
        for text, fault in MALFORMED:
            with self.subTest(text=text[:100]):
                with self.assertRaises(ValueError) as raised:
                    cgra.Kernel.from_text(text)
                self.assertEqual(str(raised.exception).split(": ")[0], fault)
                with self.assertRaises(cgra.Malformed) as raised:
                    cgra.turns(cgra.Text(text) if isinstance(text, str) else text, 0)
                error = raised.exception
                self.assertEqual(f"{error.code} {error.name} {error.place}", fault)

    def test_repeated_keys(self):
        """The program takes the last value of a repeated key; the package refuses it, since one of both would be lost."""
        for text, place in [
            (file(ITER, nodes="[]"), "file"),
            (file('{"name": "i", "op": "iter", "name": "j"}'), "nodes 0"),
            (file(COPY % '{"from": "c", "from": "c", "distance": 1, "init": [0]}'), "nodes 0"),
            (file(ITER, order='[{"from": "i", "to": "i", "distance": 0, "distance": 1}]'), "order 0"),
        ]:
            with self.assertRaises(cgra.BadText) as raised:
                cgra.Kernel.from_text(text)
            self.assertEqual((raised.exception.code, raised.exception.place), ("K2", place))
            self.assertIn("is repeated", raised.exception.note)

    def test_good(self):
        paths = glob.glob(os.path.join(GALLERY, "loops", "*.json")) + glob.glob(os.path.join(DATA, "*.json"))
        self.assertGreater(len(paths), 15)
        for path in paths:
            kernel = cgra.Kernel.read(path)
            with open(path, encoding="utf-8") as text:
                whole = json.load(text)
            self.assertEqual(kernel.names, [node["name"] for node in whole["nodes"]])
            image = cgra.Image(range(64))
            self.assertEqual(cgra.turns(kernel, 3, image).image, cgra.turns(path, 3, image).image)
            self.assertEqual(cgra.Kernel.from_text(kernel.to_text()), kernel)

    def test_nothing_changes(self):
        text = (
            '{"format":"cgk2","nodes":[{"args":[4294967295],"name":"c","op":"const"},'
            '{"args":[{"distance":2,"from":"c","init":[1,0]}],"name":"o","op":"output","port":15}],'
            '"order":[{"distance":255,"from":"c","to":"o"}]}'
        )
        self.assertEqual(cgra.Kernel.from_text(text).to_text(), text)
        self.assertEqual(cgra.Kernel.from_text(text.encode()).to_text(), text)

    def test_text(self):
        self.assertEqual(
            running_sum().to_text(),
            '{"format":"cgk2","nodes":[{"args":[],"name":"i","op":"iter"},'
            '{"args":[{"distance":1,"from":"s","init":[0]},{"distance":0,"from":"i","init":[]}],"name":"s","op":"add"},'
            '{"args":[{"distance":0,"from":"s","init":[]}],"name":"o","op":"output","port":0}],"order":[]}',
        )
        self.assertEqual(cgra.Kernel.read(SUM), running_sum())


class Building(unittest.TestCase):
    def test_words(self):
        kernel = cgra.Kernel()
        kernel.node("c", "const", -1)
        kernel.node("d", "add", cgra.Node("d").before(1, [-2]), 2**32 - 1)
        self.assertIn('"args":[4294967295]', kernel.to_text())
        self.assertIn('"init":[4294967294]},4294967295', kernel.to_text())

    def test_refused(self):
        node = cgra.Node("s")
        for value, error in [(1.9, TypeError), (2**40 + 3, ValueError), (-(2**31) - 1, ValueError)]:
            for call in (
                lambda: cgra.Kernel().node("c", "const", value),
                lambda: node.before(1, [value]),
                lambda: node.before(value, [0]),
                lambda: cgra.Kernel().order("a", "b", value),
                lambda: cgra.Kernel().node("o", "output", node, port=value),
            ):
                with self.assertRaises(error):
                    call()
        for call in (
            lambda: node.before(5, [0] * 5),
            lambda: node.before(-1, []),
            lambda: cgra.Kernel().order("a", "b", 256),
            lambda: cgra.Kernel().node("o", "output", node, port=16),
        ):
            with self.assertRaises(ValueError):
                call()
        for call in (lambda: cgra.Kernel().node(3, "iter"), lambda: cgra.Kernel().order(1, 2)):
            with self.assertRaises(TypeError):
                call()

    def test_check(self):
        running_sum().check()
        kernel = cgra.Kernel()
        kernel.node("q1", "mul", 3)
        with self.assertRaises(cgra.BadText) as raised:
            kernel.check()
        self.assertEqual((raised.exception.code, raised.exception.place), ("K8", "nodes 0"))


class Graphs(unittest.TestCase):
    def ordered(self):
        """Returns a kernel with an order edge, a port and a constant."""
        kernel = running_sum()
        kernel.node("k", "add", "s", 7)
        kernel.order("i", "k", 2)
        return kernel

    def test_dot(self):
        self.assertEqual(
            self.ordered().to_dot().splitlines(),
            [
                "digraph kernel {",
                "  node [shape=box];",
                '  "i" [label="i\\niter"];',
                '  "s" [label="s\\nadd"];',
                '  "o" [label="o\\noutput port 0"];',
                '  "k" [label="k\\nadd #1=7"];',
                '  "s" -> "s" [headlabel="0", label="1"];',
                '  "i" -> "s" [headlabel="1"];',
                '  "s" -> "o" [headlabel="0"];',
                '  "s" -> "k" [headlabel="0"];',
                '  "i" -> "k" [style=dashed, label="2"];',
                "}",
            ],
        )

    @unittest.skipIf(networkx is None, "networkx isn't installed")
    def test_networkx(self):
        graph = self.ordered().to_networkx()
        self.assertIsInstance(graph, networkx.MultiDiGraph)
        self.assertEqual(graph.nodes["k"], {"op": "add", "port": None, "constants": {1: 7}})
        self.assertEqual(graph.nodes["o"]["port"], 0)
        self.assertEqual(
            graph.get_edge_data("s", "s")[0], {"order": False, "distance": 1, "arg": 0, "init": (0,)}
        )
        self.assertEqual(
            graph.get_edge_data("i", "k")[0], {"order": True, "distance": 2, "arg": None, "init": ()}
        )
        self.assertEqual(graph.number_of_edges(), 5)
        self.assertFalse(networkx.is_directed_acyclic_graph(graph))


if __name__ == "__main__":
    unittest.main()
