"""What the calls return."""

from __future__ import annotations

from dataclasses import dataclass, field
from typing import Dict, List, Optional, Tuple

from ._certificates import Certificate
from ._image import Image
from ._kernel import Kernel
from ._mapping import Mapping


@dataclass(frozen=True)
class Bound:
    """The least interval that no recurrence and no class forbids; None where an operation isn't offered.

    `certificate` shows why the interval below is impossible, or every one; it is None at interval 1.
    """

    interval: Optional[int]
    certificate: Optional[Certificate]
    report: str = ""


@dataclass(frozen=True)
class Reason:
    """The least interval that no reason of a kind excludes, None where each is excluded, and what excludes the one below."""

    kind: str
    interval: Optional[int]
    certificate: Optional[Certificate]


@dataclass(frozen=True)
class Why:
    """The least interval that no reason excludes, None where none is possible; by kind of reason its own.

    `certificate` says what excludes the interval below where no kind does; `slots` are the register slots that are enough at
    the least interval, of how many.
    """

    interval: Optional[int]
    certificate: Optional[Certificate]
    reasons: Dict[str, Reason]
    slots: Optional[Tuple[int, int]]
    report: str


@dataclass(frozen=True)
class Found:
    """A mapping that was found: its interval and stages, how (`search`, `walk` or `hub`), after how many moves, which seed.

    `bits` are its configuration's, `mapping` is the mapping; no unit, wire or register carries two values in a cycle, and the
    array under these bits does what the turns of the kernel do. Both can be given to the next call, and so can this.
    """

    interval: int
    stages: int
    by: str
    moves: int
    seed: int
    bits: bytes
    mapping: Mapping
    notes: List[str] = field(default_factory=list)


@dataclass(frozen=True)
class Checked:
    """Whether a mapping is legal, and else the lowest rule that it breaks, at its first place."""

    legal: bool
    rule: str
    place: str
    notes: List[str] = field(default_factory=list)

    def __bool__(self) -> bool:
        return self.legal


@dataclass(frozen=True)
class Emitted:
    """The bits of a legal mapping, with its interval and stages."""

    interval: int
    stages: int
    bits: bytes


@dataclass(frozen=True)
class Ran:
    """A run of the array: its cycles, the accesses outside the memory, and the image that it leaves."""

    cycles: int
    outside: int
    image: Image
    notes: List[str] = field(default_factory=list)


@dataclass(frozen=True)
class Turned:
    """Turns of a kernel: the accesses outside, whether all that matter are ordered, and the image that is left.

    `unordered` names two accesses that the edges leave open: node and turn of the earlier, then of the later.
    """

    outside: int
    ordered: bool
    unordered: Optional[Tuple[str, int, str, int]]
    image: Image
    notes: List[str] = field(default_factory=list)


@dataclass(frozen=True)
class Depended:
    """A kernel with the order edges that its accesses need: how many were added, how many there are, and the kernel."""

    added: int
    order: int
    kernel: Kernel


@dataclass(frozen=True)
class Simplified:
    """A simplified kernel: its numbers of nodes and order edges, those of the given kernel before them, and the kernel."""

    given_nodes: int
    given_order: int
    nodes: int
    order: int
    kernel: Kernel


@dataclass(frozen=True)
class Looped:
    """The kernel of a loop: its numbers of nodes and order edges, and the kernel."""

    nodes: int
    order: int
    kernel: Kernel


@dataclass(frozen=True)
class Flat:
    """An architecture by number: its resources, units and links, its digest, and its flat text."""

    resources: int
    units: int
    links: int
    digest: str
    text: str


@dataclass(frozen=True)
class Verilog:
    """An architecture as structural Verilog: its nets and cells, and the text."""

    nets: int
    cells: int
    text: str

    def to_bytes(self) -> bytes:
        """Returns the text as bytes."""
        return self.text.encode()


@dataclass(frozen=True)
class Bench:
    """A test bench for simulators of Verilog: the cycles and accesses outside of its run, and the text."""

    cycles: int
    outside: int
    text: str


@dataclass(frozen=True)
class Migrated:
    """Bits of the current format, made from those of the first one."""

    interval: int
    stages: int
    bits: bytes


@dataclass(frozen=True)
class Shown:
    """A legal mapping as a table, and as a picture in SVG, which notebooks show."""

    report: str
    picture: str

    def _repr_svg_(self) -> str:
        return self.picture


@dataclass(frozen=True)
class Trial:
    """The numbers of a trial's report, by their words."""

    numbers: Dict[str, str]
