"""Mappings: where and when each node begins, and the ways that values take."""

from __future__ import annotations

import json
import os
import typing
from dataclasses import dataclass
from types import MappingProxyType
from typing import Any, Dict, List, Optional, Sequence, SupportsIndex, Tuple, Union

from ._errors import BadText
from ._json import Members, Shape, each, json_value
from ._numbers import whole
from ._program import PathLike

MOST_INTERVAL = 65_535
LATEST_TIME = 65_534
LONGEST_PATH = 65_535
MOST_ARG = 2


@dataclass(frozen=True)
class Place:
    """Where a node begins: its unit, and the cycle in the first turn."""

    unit: str
    time: int


Operand = Tuple[str, int]
Path = Tuple[str, ...]


class Mapping:
    """A mapping of a kernel onto an architecture, as text and by content. It can't be changed.

    `interval` is its interval; `places` has by node's name its `Place`; `routes` has by the name of the node that takes a
    value and the number of the operand the path of resources. Whether it is legal is judged by `check`.
    """

    def __init__(
        self,
        interval: SupportsIndex,
        places: typing.Mapping[str, Place],
        routes: typing.Mapping[Operand, Sequence[str]],
    ):
        self._interval = whole(interval, 0, MOST_INTERVAL, "an interval")
        self._places = {node: _checked_place(place) for node, place in places.items()}
        self._routes = {(to, whole(arg, 0, MOST_ARG, "an operand")): tuple(path) for (to, arg), path in routes.items()}
        self._text: Optional[str] = None

    @property
    def interval(self) -> int:
        """The interval."""
        return self._interval

    @property
    def places(self) -> typing.Mapping[str, Place]:
        """The place of each node, by name."""
        return MappingProxyType(self._places)

    @property
    def routes(self) -> typing.Mapping[Operand, Path]:
        """The path to each operand, by the node that takes it and the operand's number."""
        return MappingProxyType(self._routes)

    @property
    def text(self) -> str:
        """The text: the one that it was read from, else as the program prints one, in the order of places and routes."""
        return self._printed() if self._text is None else self._text

    def to_text(self) -> str:
        """Returns the text."""
        return self.text

    def to_bytes(self) -> bytes:
        """Returns the text as bytes."""
        return self.text.encode()

    @classmethod
    def from_text(cls, text: Union[str, bytes]) -> "Mapping":
        """Reads a mapping out of a JSON text in the format `cgm1`.

        Raises BadText, a ValueError, with a fault P1 to P3, P5 or P6. Names are judged with architecture and kernel, by the
        program.
        """
        shape = Shape("P", "file")
        file = shape.members(json_value(text, "P"))
        if file.get("format") != "cgm1":
            raise shape.wrong('"format" must be "cgm1"')
        interval, places, routes = shape.word(file, "ii"), shape.items(file, "places"), shape.items(file, "routes")
        read_places, read_routes = each(shape, "places", places, _place_in), each(shape, "routes", routes, _route_in)
        _check_keys(file)
        _check_sizes(interval, read_places, read_routes)
        paths: Dict[Operand, Path] = _once(read_routes, "arg")
        made = cls(interval, _once(read_places, "node"), paths)
        made._text = text if isinstance(text, str) else text.decode("utf-8")
        return made

    @classmethod
    def read(cls, path: PathLike) -> "Mapping":
        """Reads the mapping in the file `path`, as `from_text` does."""
        with open(os.fspath(path), "rb") as file:
            return cls.from_text(file.read())

    def write(self, path: PathLike) -> None:
        """Writes the mapping into the file `path`."""
        with open(os.fspath(path), "wb") as file:
            file.write(self.to_bytes())

    def _printed(self) -> str:
        """Returns the content as compact JSON, keys in alphabetical order."""
        places = [{"node": node, "time": place.time, "unit": place.unit} for node, place in self._places.items()]
        routes = [{"arg": arg, "path": list(path), "to": to} for (to, arg), path in self._routes.items()]
        whole_file = {"format": "cgm1", "ii": self._interval, "places": places, "routes": routes}
        return json.dumps(whole_file, separators=(",", ":"))

    def __eq__(self, other: object) -> bool:
        if not isinstance(other, Mapping):
            return NotImplemented
        mine, its = (self._interval, self._places, self._routes), (other._interval, other._places, other._routes)
        return mine == its

    def __hash__(self) -> int:
        return hash((self._interval, frozenset(self._places.items()), frozenset(self._routes.items())))

    def __str__(self) -> str:
        return self.text

    def __repr__(self) -> str:
        return f"Mapping(interval {self._interval}, {len(self._places)} places, {len(self._routes)} routes)"


def _checked_place(place: Place) -> Place:
    """Returns `place`, whose time must be one."""
    return Place(place.unit, whole(place.time, 0, LATEST_TIME, "a time"))


def _place_in(shape: Shape, value: Any) -> Tuple[str, Place]:
    """Reads a place."""
    place = shape.members(value)
    return shape.text(place, "node"), Place(shape.text(place, "unit"), shape.word(place, "time"))


def _route_in(shape: Shape, value: Any) -> Tuple[Operand, Path]:
    """Reads a route."""
    route = shape.members(value)
    path = shape.items(route, "path")
    if not all(isinstance(name, str) for name in path):
        raise shape.wrong('"path" must be an array of texts')
    return (shape.text(route, "to"), shape.word(route, "arg")), tuple(path)


def _check_keys(file: Members) -> None:
    """Refuses unknown keys, the first place first."""
    shape = Shape("P", "file")
    shape.known(file, ["format", "ii", "places", "routes"])
    for name, keys in (("places", ["node", "time", "unit"]), ("routes", ["arg", "path", "to"])):
        for number, item in enumerate(file[name]):
            shape.at(f"{name} {number}").known(item, keys)


def _check_sizes(interval: int, places: List[Tuple[str, Place]], routes: List[Tuple[Operand, Path]]) -> None:
    """Refuses an operand that no node has, and an interval, a time or a path above its limit."""
    for number, ((_, arg), _) in enumerate(routes):
        if arg > MOST_ARG:
            raise BadText("P4", "UnknownName", f"routes {number}", f"no node has an operand {arg}")
    if interval > MOST_INTERVAL:
        raise BadText("P5", "TooLarge", "file", f"an interval is at most {MOST_INTERVAL}")
    for number, (_, place) in enumerate(places):
        if place.time > LATEST_TIME:
            raise BadText("P5", "TooLarge", f"places {number}", f"a time is at most {LATEST_TIME}")
    for number, (_, path) in enumerate(routes):
        if len(path) > LONGEST_PATH:
            raise BadText("P5", "TooLarge", f"routes {number}", f"a path has at most {LONGEST_PATH} resources")


Key = typing.TypeVar("Key")
Value = typing.TypeVar("Value")


def _once(pairs: Sequence[Tuple[Key, Value]], word: str) -> Dict[Key, Value]:
    """Returns `pairs` by their keys, of which none may come twice."""
    found: Dict[Key, Value] = {}
    for key, value in pairs:
        if key in found:
            name = " ".join(str(part) for part in key) if isinstance(key, tuple) else str(key)
            raise BadText("P6", "Incomplete", f"{word} {name}", "given twice")
        found[key] = value
    return found
