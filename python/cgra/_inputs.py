"""What may be given in the place of a file."""

from __future__ import annotations

from typing import List, Optional, SupportsIndex, Union

from ._arch import Arch
from ._image import Image
from ._kernel import Kernel
from ._mapping import Mapping
from ._numbers import optional_whole, whole
from ._program import Folder, PathLike
from ._results import Depended, Emitted, Found, Looped, Migrated, Ran, Simplified, Turned, Verilog

MOST_TURNS = 1_000_000
MOST_MOVES = 1_000_000
MOST_INTERVAL = 64
END_OF_SEEDS = 1 << 64


class Text:
    """A text that is given in the place of a file, as it is."""

    def __init__(self, text: str):
        self.text = text

    def to_bytes(self) -> bytes:
        """Returns the text as bytes."""
        return self.text.encode()


ArchLike = Union[Arch, Text, PathLike]
KernelLike = Union[Kernel, Depended, Looped, Simplified, Text, PathLike]
ImageLike = Union[Image, Ran, Turned, PathLike]
BitsLike = Union[bytes, Found, Emitted, Migrated, PathLike]
MappingLike = Union[Mapping, Found, Text, PathLike]
NetlistLike = Union[Verilog, Text, PathLike]


def arch_path(folder: Folder, arch: ArchLike) -> str:
    """Returns a path of `arch`."""
    return folder.given(arch, "arch.toml")


def kernel_path(folder: Folder, kernel: KernelLike) -> str:
    """Returns a path of `kernel`."""
    return folder.given(kernel.kernel if isinstance(kernel, (Depended, Looped, Simplified)) else kernel, "kernel.json")


def image_path(folder: Folder, image: Optional[ImageLike]) -> str:
    """Returns a path of `image`, of an empty one where it is None."""
    given = Image() if image is None else image
    return folder.given(given.image if isinstance(given, (Ran, Turned)) else given, "in.img")


def bits_path(folder: Folder, bits: BitsLike) -> str:
    """Returns a path of `bits`."""
    return folder.given(bits.bits if isinstance(bits, (Found, Emitted, Migrated)) else bits, "kernel.bits")


def mapping_path(folder: Folder, mapping: MappingLike) -> str:
    """Returns a path of `mapping`."""
    return folder.given(mapping.mapping if isinstance(mapping, Found) else mapping, "kernel.map")


def turns_word(turns: SupportsIndex) -> str:
    """Returns the number of turns as a word of a call."""
    return str(whole(turns, 0, MOST_TURNS, "the number of turns"))


def seed_number(seed: SupportsIndex) -> int:
    """Returns a seed as a number below 2^64."""
    return whole(seed, 0, END_OF_SEEDS - 1, "a seed")


def search_words(ii: Optional[SupportsIndex], seed: SupportsIndex, moves: Optional[SupportsIndex]) -> List[str]:
    """Returns the options of a search as words of a call."""
    words = ["--seed", str(seed_number(seed))]
    interval = optional_whole(ii, 1, MOST_INTERVAL, "the interval ii")
    most = optional_whole(moves, 0, MOST_MOVES, "the number of moves")
    for name, value in (("--ii", interval), ("--moves", most)):
        if value is not None:
            words += [name, str(value)]
    return words
