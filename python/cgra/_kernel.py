"""Kernels: loop bodies as graphs, built node by node."""

from __future__ import annotations

import json
import os
from typing import Any, Dict, Iterable, List, Optional, SupportsIndex, Tuple, Union

from ._graph import dot_of, networkx_of
from ._json import Members, Shape, each, is_word, json_value
from ._kernel_rules import LAST_PORT, MOST_DISTANCE, MOST_ORDER_DISTANCE, Rules
from ._numbers import whole, word
from ._program import PathLike


class Node:
    """A node of a kernel. `node.before(1, [0])` is its value of one turn ago, with 0 in the first turn."""

    def __init__(self, name: str):
        self.name = name

    def before(self, distance: SupportsIndex, init: Iterable[SupportsIndex]) -> "Earlier":
        """Returns the value of `distance` turns ago, 0 to 4, with the words `init` in the first turns."""
        return Earlier(self.name, distance, init)

    def __repr__(self) -> str:
        return f"Node({self.name!r})"


class Earlier:
    """The value of the node `name` of `distance` turns ago, with the words `init` in the first turns."""

    def __init__(self, name: str, distance: SupportsIndex, init: Iterable[SupportsIndex]):
        self.name = name
        self.distance = whole(distance, 0, MOST_DISTANCE, "a distance")
        self.init: Tuple[int, ...] = tuple(word(value, "an initial word") for value in init)

    def __repr__(self) -> str:
        return f"Earlier({self.name!r}, {self.distance}, {list(self.init)})"


Argument = Union[SupportsIndex, Node, Earlier, str]


class Kernel:
    """A loop body: nodes in program order, and order edges.

        k = cgra.Kernel()
        i = k.node("i", "iter")
        s = k.node("s", "add", cgra.Node("s").before(1, [0]), i)
        k.node("o", "output", s, port=0)
    """

    def __init__(self) -> None:
        self._nodes: List[Dict[str, Any]] = []
        self._order: List[Dict[str, Any]] = []

    def node(self, name: str, op: str, *args: Argument, port: Optional[SupportsIndex] = None) -> Node:
        """Adds the node `name` with the operation `op` and returns it.

        An argument is a word, a node, a node's name, or `node.before(..)`. `port`, 0 to 15, is that of `input`, `output` and
        `outputif`. Whether the kernel is valid is judged by `check`, and by the program when it is used.
        """
        entry: Dict[str, Any] = {"args": [_argument(arg) for arg in args], "name": _text(name), "op": _text(op)}
        if port is not None:
            entry["port"] = whole(port, 0, LAST_PORT, "a port")
        self._nodes.append(entry)
        return Node(name)

    def order(self, source: Union[Node, str], target: Union[Node, str], distance: SupportsIndex = 0) -> None:
        """Adds an order edge: `target` comes after the `source` of `distance` turns before, 0 to 255."""
        turns = whole(distance, 0, MOST_ORDER_DISTANCE, "a distance")
        self._order.append({"distance": turns, "from": _name(source), "to": _name(target)})

    def check(self) -> None:
        """Raises BadText, a ValueError, where the kernel breaks one of the rules K4 to K16."""
        fault = Rules("cgk2", self._nodes, self._order).fault()
        if fault is not None:
            raise fault

    def __len__(self) -> int:
        return len(self._nodes)

    @property
    def names(self) -> List[str]:
        """Returns the names of the nodes, in order."""
        return [node["name"] for node in self._nodes]

    def to_text(self) -> str:
        """Returns the kernel as the program prints one: compact JSON, keys in alphabetical order."""
        whole_file = {"format": "cgk2", "nodes": self._nodes, "order": self._order}
        return json.dumps(whole_file, separators=(",", ":"), sort_keys=True)

    def to_bytes(self) -> bytes:
        """Returns the text as bytes."""
        return self.to_text().encode()

    def to_dot(self) -> str:
        """Returns the graph in the language of Graphviz: data edges solid, order edges dashed."""
        return dot_of(self._nodes, self._order)

    def to_networkx(self) -> Any:
        """Returns the graph as a `networkx.MultiDiGraph`; needs networkx.

        Nodes have `op`, `port` (None without) and `constants`, by argument; edges have `order` (whether it is an order edge),
        `distance`, `arg` (the operand, None for an order edge) and `init`.
        """
        return networkx_of(self._nodes, self._order)

    @classmethod
    def from_text(cls, text: Union[str, bytes]) -> "Kernel":
        """Reads a kernel out of a JSON text in the format `cgk1` or `cgk2`.

        Raises BadText, a ValueError, with the fault K1 to K16 that the program reports. A repeated key is refused too.
        """
        kernel, shape = cls(), Shape("K", "file")
        value = json_value(text, "K")
        file = shape.members(value)
        format_name = file.get("format")
        if format_name not in ("cgk1", "cgk2"):
            raise shape.wrong('"format" must be "cgk1" or "cgk2"')
        nodes, order = shape.items(file, "nodes"), shape.items(file, "order", [])
        kernel._nodes = each(shape, "nodes", nodes, _node_in)
        kernel._order = each(shape, "order", order, _edge_in)
        _check_keys(file)
        fault = Rules(format_name, kernel._nodes, kernel._order).fault()
        if fault is not None:
            raise fault
        return kernel

    @classmethod
    def read(cls, path: PathLike) -> "Kernel":
        """Reads the kernel in the file `path`, as `from_text` does."""
        with open(os.fspath(path), "rb") as file:
            return cls.from_text(file.read())

    def write(self, path: PathLike) -> None:
        """Writes the kernel into the file `path`."""
        with open(os.fspath(path), "wb") as file:
            file.write(self.to_bytes())

    def __eq__(self, other: object) -> bool:
        if not isinstance(other, Kernel):
            return NotImplemented
        return self._nodes == other._nodes and self._order == other._order

    def __repr__(self) -> str:
        return f"Kernel({len(self._nodes)} nodes, {len(self._order)} order edges)"


def _text(value: str) -> str:
    """Returns `value`; raises TypeError where it is no text."""
    if not isinstance(value, str):
        raise TypeError(f"a name is a text, not {type(value).__name__} {value!r}")
    return value


def _name(node: Union[Node, str]) -> str:
    """Returns the name of a node."""
    return node.name if isinstance(node, Node) else _text(node)


def _argument(arg: Argument) -> Any:
    """Returns an argument as the JSON value that is printed for it."""
    if isinstance(arg, Earlier):
        return {"distance": arg.distance, "from": arg.name, "init": list(arg.init)}
    if isinstance(arg, (Node, str)):
        return {"distance": 0, "from": _name(arg), "init": []}
    return word(arg, "a constant")


def _node_in(shape: Shape, value: Any) -> Dict[str, Any]:
    """Reads a node."""
    node = shape.members(value)
    entry: Dict[str, Any] = {"name": shape.text(node, "name"), "op": shape.text(node, "op")}
    entry["args"] = [_argument_in(shape, arg) for arg in shape.items(node, "args", [])]
    if "port" in node:
        entry["port"] = shape.word(node, "port")
    return entry


def _argument_in(shape: Shape, value: Any) -> Any:
    """Reads an argument of a node."""
    if is_word(value):
        return value
    edge = shape.members(value)
    init = shape.items(edge, "init", [])
    if not all(is_word(item) for item in init):
        raise shape.wrong('"init" must be an array of numbers')
    return {"distance": shape.word(edge, "distance", 0), "from": shape.text(edge, "from"), "init": init}


def _edge_in(shape: Shape, value: Any) -> Dict[str, Any]:
    """Reads an order edge."""
    edge = shape.members(value)
    distance = shape.word(edge, "distance", 0)
    return {"distance": distance, "from": shape.text(edge, "from"), "to": shape.text(edge, "to")}


def _check_keys(file: Members) -> None:
    """Refuses unknown keys, the first place first."""
    shape = Shape("K", "file")
    shape.known(file, ["format", "nodes", "order"])
    for number, node in enumerate(file["nodes"]):
        place = shape.at(f"nodes {number}")
        place.known(node, ["args", "name", "op", "port"])
        for arg in node.get("args", []):
            if isinstance(arg, dict):
                place.known(Members(arg), ["distance", "from", "init"])
    for number, edge in enumerate(file.get("order", [])):
        shape.at(f"order {number}").known(edge, ["distance", "from", "to"])


