"""The rules of kernels, K4 to K16 of docs/faults.md, over nodes and order edges as the dictionaries of their JSON text."""

from __future__ import annotations

import re
from typing import Any, Callable, Dict, List, Optional, Tuple

from ._errors import BadText
from ._operations import ARITIES, OUTPUTS, WITH_PORT, WITHOUT_VALUE, knows

MOST_NODES = 1024
MOST_ORDER = 4096
MOST_DISTANCE = 4
MOST_ORDER_DISTANCE = 255
LAST_PORT = 15

Entry = Dict[str, Any]

_NAME = re.compile(r"[A-Za-z_][A-Za-z0-9_]{0,31}")


class Rules:
    """Judges the nodes and order edges of a kernel in the format `format_name`."""

    def __init__(self, format_name: str, nodes: List[Entry], order: List[Entry]):
        self._format, self._nodes, self._order = format_name, nodes, order
        self._numbers: Dict[str, int] = {}
        self._ports: Dict[int, int] = {}
        for number, node in enumerate(nodes):
            self._numbers.setdefault(node["name"], number)
            if self._op(node) in OUTPUTS and node.get("port") is not None:
                self._ports.setdefault(node["port"], number)

    def fault(self) -> Optional[BadText]:
        """Returns the fault of lowest number, at its first place."""
        if len(self._nodes) > MOST_NODES or len(self._order) > MOST_ORDER:
            return BadText("K4", "TooLarge", "file", f"more than {MOST_NODES} nodes or {MOST_ORDER} order edges")
        for code, name, of_node, of_edge in self._rules():
            for number, node in enumerate(self._nodes):
                note = of_node(number, node)
                if note is not None:
                    return BadText(code, name, f"nodes {number}", f"{node['name']}: {note}")
            for number, edge in enumerate(self._order):
                note = of_edge(edge)
                if note is not None:
                    return BadText(code, name, f"order {number}", note)
        return None

    def _rules(self) -> List[Tuple[str, str, Callable[[int, Entry], Optional[str]], Callable[[Entry], Optional[str]]]]:
        """Returns the rules after K4: code, name, and what each says of a node and of an order edge."""
        return [
            ("K5", "BadName", self._bad_name, _holds),
            ("K6", "RepeatedName", self._repeated_name, _holds),
            ("K7", "UnknownOp", self._unknown_op, _holds),
            ("K8", "WrongOperandCount", self._wrong_count, _holds),
            ("K9", "UnknownNode", self._unknown_node, self._joins_unknown),
            ("K10", "NoValue", self._no_value, _holds),
            ("K11", "BackEdgeWithoutDistance", self._goes_back, self._orders_back),
            ("K12", "BadDistance", self._bad_distance, self._bad_order_distance),
            ("K13", "InitCount", self._init_count, _holds),
            ("K14", "TwoConstants", self._two_constants, _holds),
            ("K15", "BadPort", self._bad_port, _holds),
            ("K16", "RepeatedOutputPort", self._repeated_port, _holds),
        ]

    def _op(self, node: Entry) -> Optional[str]:
        """Returns the operation of a node, None where the format has no such operation."""
        op: str = node["op"]
        return op if knows(self._format, op) else None

    def _source_op(self, edge: Entry) -> Optional[str]:
        """Returns the operation of the source of an operand."""
        number = self._numbers.get(edge["from"])
        return None if number is None else self._op(self._nodes[number])

    def _is_earlier(self, name: str, number: int) -> bool:
        """Checks whether the node `name` comes before the node `number`."""
        return self._numbers.get(name, number) < number

    def _bad_name(self, _: int, node: Entry) -> Optional[str]:
        fits = _NAME.fullmatch(node["name"])
        return None if fits else "a name is a letter or _, then letters, digits or _, with at most 32 characters"

    def _repeated_name(self, number: int, node: Entry) -> Optional[str]:
        first = self._numbers[node["name"]]
        return f"node {first} has the same name" if first < number else None

    def _unknown_op(self, _: int, node: Entry) -> Optional[str]:
        return f'no operation is called "{node["op"]}" in {self._format}' if self._op(node) is None else None

    def _wrong_count(self, _: int, node: Entry) -> Optional[str]:
        op, count = self._op(node), len(node["args"])
        if op is None or ARITIES[op] == count:
            return None
        return f"{op} takes {ARITIES[op]} arguments, this one has {count}"

    def _unknown_node(self, _: int, node: Entry) -> Optional[str]:
        return _first(node, lambda edge: f'no node is called "{edge["from"]}"' if edge["from"] not in self._numbers else None)

    def _joins_unknown(self, edge: Entry) -> Optional[str]:
        names = [name for name in (edge["from"], edge["to"]) if name not in self._numbers]
        return f'no node is called "{names[0]}"' if names else None

    def _no_value(self, _: int, node: Entry) -> Optional[str]:
        def says(edge: Entry) -> Optional[str]:
            op = self._source_op(edge)
            return f'comes from "{edge["from"]}": {op} has no value' if op in WITHOUT_VALUE else None

        return _first(node, says)

    def _goes_back(self, number: int, node: Entry) -> Optional[str]:
        def says(edge: Entry) -> Optional[str]:
            if edge["distance"] > 0 or self._is_earlier(edge["from"], number):
                return None
            return f'"{edge["from"]}" isn\'t earlier, and the distance is 0'

        return _first(node, says)

    def _orders_back(self, edge: Entry) -> Optional[str]:
        target = self._numbers.get(edge["to"])
        if edge["distance"] > 0 or target is None or self._is_earlier(edge["from"], target):
            return None
        return f'"{edge["from"]}" isn\'t earlier than "{edge["to"]}", and the distance is 0'

    def _bad_distance(self, _: int, node: Entry) -> Optional[str]:
        return _first(node, lambda edge: _too_far(edge, MOST_DISTANCE))

    def _bad_order_distance(self, edge: Entry) -> Optional[str]:
        return _too_far(edge, MOST_ORDER_DISTANCE)

    def _init_count(self, _: int, node: Entry) -> Optional[str]:
        def says(edge: Entry) -> Optional[str]:
            needed, given = edge["distance"], len(edge["init"])
            return None if needed == given else f'"init" needs {needed} words, one for each turn of the distance, but has {given}'

        return _first(node, says)

    def _two_constants(self, _: int, node: Entry) -> Optional[str]:
        count = sum(1 for arg in node["args"] if not isinstance(arg, dict))
        return "more than one argument is a number" if count > 1 else None

    def _bad_port(self, _: int, node: Entry) -> Optional[str]:
        op, port = self._op(node), node.get("port")
        if op is None:
            return None
        if op not in WITH_PORT:
            return None if port is None else f"{op} has no port"
        return f"{op} needs a port from 0 to {LAST_PORT}" if port is None or port > LAST_PORT else None

    def _repeated_port(self, number: int, node: Entry) -> Optional[str]:
        port = node.get("port")
        if self._op(node) not in OUTPUTS or port is None or self._ports[port] == number:
            return None
        return f"node {self._ports[port]} already has port {port}"


def _holds(_: Entry) -> Optional[str]:
    """Returns that a rule says nothing of order edges."""
    return None


def _first(node: Entry, says: Callable[[Entry], Optional[str]]) -> Optional[str]:
    """Returns what `says` finds at the first operand of `node` where it finds something."""
    for number, arg in enumerate(node["args"]):
        note = says(arg) if isinstance(arg, dict) else None
        if note is not None:
            return f"argument {number}: {note}"
    return None


def _too_far(edge: Entry, most: int) -> Optional[str]:
    """Returns that the distance of `edge` is above `most`, if it is."""
    return f"a distance is at most {most}, this one is {edge['distance']}" if edge["distance"] > most else None
