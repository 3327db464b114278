"""Architectures: tiles on a grid."""

from __future__ import annotations

import json
import os
import string
from dataclasses import dataclass, field
from typing import List, Mapping, Sequence, SupportsIndex, Union

from ._numbers import whole
from ._program import PathLike

MOST_CONTEXTS = 64
MOST_MEMORY = 1_048_576
MOST_LATENCY = 4


@dataclass(frozen=True)
class Wire:
    """A wire of a tile: its name, and the references of its drivers."""

    name: str
    drivers: Sequence[str]


@dataclass(frozen=True)
class Reg:
    """A register of a tile: its name, and the references of its drivers."""

    name: str
    drivers: Sequence[str]


@dataclass(frozen=True)
class Unit:
    """A functional unit of a tile: its name, operations, latency of 1 to 4 cycles, and the references of each port's drivers."""

    name: str
    ops: Sequence[str]
    latency: int = 1
    ports: Sequence[Sequence[str]] = field(default_factory=list)

    def __post_init__(self) -> None:
        object.__setattr__(self, "latency", whole(self.latency, 1, MOST_LATENCY, "a latency"))


Part = Union[Wire, Reg, Unit]


class Arch:
    """An architecture, as the text of its file. `Arch.read` takes one from a file, `Arch.build` makes one of parts."""

    def __init__(self, text: str):
        self.text = text

    @classmethod
    def read(cls, path: PathLike) -> "Arch":
        """Reads the architecture in the file `path`."""
        with open(os.fspath(path), encoding="utf-8") as file:
            return cls(file.read())

    @classmethod
    def build(
        cls,
        name: str,
        grid: Sequence[str],
        tiles: Mapping[str, Sequence[Part]],
        contexts: SupportsIndex = 16,
        memory: SupportsIndex = 0,
        torus: bool = False,
        hub: Sequence[str] = (),
    ) -> "Arch":
        """Makes the architecture `name` with the rows `grid` of letters and, by letter, the parts of `tiles`.

        `contexts` are the most slots of a configuration, 1 to 64; `memory` the words of the scratchpad, at most 1,048,576;
        `hub` flat names of registers. References are `x`, `N.x`, `E.x`, `S.x`, `W.x` and `/r0c0_x`. Whether the architecture
        is valid is judged by the program.
        """
        slots = whole(contexts, 1, MOST_CONTEXTS, "the number of contexts")
        words = whole(memory, 0, MOST_MEMORY, "the number of memory words")
        lines = ['format = "cga1"', f"name = {_text(name)}", f"contexts = {slots}", f"memory = {words}"]
        lines.append(f"grid = {_texts(grid)}")
        if torus:
            lines.append("torus = true")
        if hub:
            lines.append(f"hub = {_texts(hub)}")
        for letter, parts in tiles.items():
            for part in parts:
                lines += ["", f"[[tiles.{_key(letter)}]]", *_part(part)]
        return cls("\n".join(lines) + "\n")

    def write(self, path: PathLike) -> None:
        """Writes the architecture into the file `path`."""
        with open(os.fspath(path), "wb") as file:
            file.write(self.to_bytes())

    def to_bytes(self) -> bytes:
        """Returns the text as bytes."""
        return self.text.encode()

    def __eq__(self, other: object) -> bool:
        if not isinstance(other, Arch):
            return NotImplemented
        return self.text == other.text

    def __hash__(self) -> int:
        return hash(self.text)


def _text(value: str) -> str:
    """Returns `value` as a TOML text."""
    if not isinstance(value, str):
        raise TypeError(f"a text is needed, not {type(value).__name__} {value!r}")
    return json.dumps(value, ensure_ascii=False).replace("\x7f", "\\u007f")


def _key(value: str) -> str:
    """Returns `value` as a TOML key."""
    return value if value and all(character in string.ascii_letters for character in value) else _text(value)


def _texts(values: Sequence[str]) -> str:
    """Returns `values` as a TOML array."""
    return "[" + ", ".join(_text(value) for value in values) + "]"


def _part(part: Part) -> List[str]:
    """Returns the lines of a part."""
    if isinstance(part, Unit):
        ports = "[" + ", ".join(_texts(port) for port in part.ports) + "]"
        return [f"unit = {_text(part.name)}", f"ops = {_texts(part.ops)}", f"latency = {part.latency}", f"ports = {ports}"]
    kind = "reg" if isinstance(part, Reg) else "wire"
    return [f"{kind} = {_text(part.name)}", f"from = {_texts(part.drivers)}"]
