"""Certificates: why no mapping has an interval, as `bound`, `why` and the searches print it."""

from __future__ import annotations

import re
from dataclasses import dataclass, field
from typing import Dict, List, Optional, Tuple

Weighted = Tuple[Tuple[str, int], ...]


@dataclass(frozen=True)
class Certificate:
    """Why an interval is impossible: its text as printed, and the interval, None where each one is.

    Edges are written as the program prints them: `s.0` is the edge into operand 0 of node s, `order.2` order edge 2.
    """

    text: str
    interval: Optional[int]

    def __str__(self) -> str:
        return self.text


@dataclass(frozen=True)
class Cycle(Certificate):
    """A closed chain of edges that takes `latency` cycles a round, over `distance` turns.

    `ways` are the cycles that registers on the shortest ways add, None where they don't count.
    """

    edges: Tuple[str, ...]
    latency: int
    distance: int
    ways: Optional[int] = None


@dataclass(frozen=True)
class OverfullClass(Certificate):
    """More nodes have one of the operations `ops` than units that offer one of them can begin."""

    ops: Tuple[str, ...]
    nodes: int
    units: int


@dataclass(frozen=True)
class NoWay(Certificate):
    """No path of links leads over the edge `edge`."""

    edge: str


@dataclass(frozen=True)
class Registers(Certificate):
    """The values need at least `needed` register slots of the `available` ones.

    `stay`, `pull` and `tie` are the edges of the circulation that shows it, the two last with their weights.
    """

    needed: int
    available: int
    stay: Tuple[str, ...] = field(default=())
    pull: Weighted = field(default=())
    tie: Weighted = field(default=())


_INTERVAL = re.compile(r"(?:impossible at ii (\d+): |impossible at every ii: |ii (\d+) impossible: )")
_CYCLE = re.compile(r"cycle (.+) latency (\d+)(?: ways (\d+))? distance (\d+)")
_CLASS = re.compile(r"class (.+) nodes (\d+) units (\d+)")
_NO_WAY = re.compile(r"no way (\S+)")
_REGISTERS = re.compile(r"registers (\d+) of (\d+)(?: stay(?P<stay>.*?))?(?: pull(?P<pull>.*?))?(?: tie(?P<tie>.*?))?")


def certificate_of(text: str) -> Certificate:
    """Returns the certificate in the line `text`: a `Certificate` of text alone where its form isn't known."""
    head = _INTERVAL.match(text)
    if head is None:
        return Certificate(text, None)
    number = head.group(1) or head.group(2)
    return _reason_of(text, None if number is None else int(number), text[head.end():])


def optional_certificate(text: str) -> Optional[Certificate]:
    """Returns the certificate in the line `text`, None where it is empty."""
    return certificate_of(text) if text else None


def _reason_of(text: str, interval: Optional[int], reason: str) -> Certificate:
    """Returns the certificate whose reason, behind its interval, is `reason`."""
    cycle = _CYCLE.fullmatch(reason)
    if cycle:
        edges, latency, ways, distance = cycle.groups()
        return Cycle(text, interval, tuple(edges.split()), int(latency), int(distance), None if ways is None else int(ways))
    overfull = _CLASS.fullmatch(reason)
    if overfull:
        ops, nodes, units = overfull.groups()
        return OverfullClass(text, interval, tuple(ops.split()), int(nodes), int(units))
    missing = _NO_WAY.fullmatch(reason)
    if missing:
        return NoWay(text, interval, missing.group(1))
    registers = _REGISTERS.fullmatch(reason)
    if registers:
        lists = {name: (words or "").split() for name, words in registers.groupdict().items()}
        return _registers_of(text, interval, int(registers.group(1)), int(registers.group(2)), lists)
    return Certificate(text, interval)


def _registers_of(
    text: str, interval: Optional[int], needed: int, available: int, lists: Dict[str, List[str]]
) -> Registers:
    """Returns the certificate with a circulation of the words `lists`."""
    pull, tie = _weighted(lists["pull"]), _weighted(lists["tie"])
    return Registers(text, interval, needed, available, tuple(lists["stay"]), pull, tie)


def _weighted(words: List[str]) -> Weighted:
    """Returns the edges and weights of `words`, which alternate."""
    return tuple((edge, int(weight)) for edge, weight in zip(words[::2], words[1::2]))
