"""Kernels as graphs for other tools."""

from __future__ import annotations

import importlib
from typing import Any, Dict, Iterator, List, Tuple

Entry = Dict[str, Any]


def _operands(nodes: List[Entry]) -> Iterator[Tuple[str, int, Entry]]:
    """Returns the data edges: target, number of the operand, edge."""
    for node in nodes:
        for number, arg in enumerate(node["args"]):
            if isinstance(arg, dict):
                yield node["name"], number, arg


def _constants(node: Entry) -> Dict[int, int]:
    """Returns the constant arguments of a node, by number."""
    return {number: arg for number, arg in enumerate(node["args"]) if not isinstance(arg, dict)}


def _quoted(text: str) -> str:
    """Returns `text` as a string of the language DOT."""
    return '"' + text.replace("\\", "\\\\").replace('"', '\\"') + '"'


def _label(node: Entry) -> str:
    """Returns the label of a node: its name, and its operation with constants and port."""
    words = [node["op"]] + [f"#{number}={word}" for number, word in _constants(node).items()]
    if node.get("port") is not None:
        words.append(f"port {node['port']}")
    return _quoted(node["name"])[:-1] + "\\n" + _quoted(" ".join(words))[1:]


def _edge(source: str, target: str, attributes: List[str]) -> str:
    """Returns the line of an edge."""
    return f"  {_quoted(source)} -> {_quoted(target)} [{', '.join(attributes)}];"


def dot_of(nodes: List[Entry], order: List[Entry]) -> str:
    """Returns the graph of a kernel in the language DOT. Labels of edges are their distances, where these aren't 0."""
    lines = ["digraph kernel {", "  node [shape=box];"]
    lines += [f"  {_quoted(node['name'])} [label={_label(node)}];" for node in nodes]
    for target, number, edge in _operands(nodes):
        attributes = [f'headlabel="{number}"'] + _distance(edge)
        lines.append(_edge(edge["from"], target, attributes))
    for edge in order:
        lines.append(_edge(edge["from"], edge["to"], ["style=dashed"] + _distance(edge)))
    return "\n".join([*lines, "}", ""])


def _distance(edge: Entry) -> List[str]:
    """Returns the label of an edge, if its distance isn't 0."""
    return [f'label="{edge["distance"]}"'] if edge["distance"] else []


def networkx_of(nodes: List[Entry], order: List[Entry]) -> Any:
    """Returns the graph of a kernel as a `networkx.MultiDiGraph`."""
    graph = importlib.import_module("networkx").MultiDiGraph()
    for node in nodes:
        graph.add_node(node["name"], op=node["op"], port=node.get("port"), constants=_constants(node))
    for target, number, edge in _operands(nodes):
        init = tuple(edge["init"])
        graph.add_edge(edge["from"], target, order=False, distance=edge["distance"], arg=number, init=init)
    for edge in order:
        graph.add_edge(edge["from"], edge["to"], order=True, distance=edge["distance"], arg=None, init=())
    return graph
