"""Images: the memory and the streams that a run starts from, or leaves."""

from __future__ import annotations

import os
import struct
from collections.abc import MutableMapping
from typing import (
    Any,
    Callable,
    Generic,
    Iterable,
    Iterator,
    Mapping,
    Optional,
    SupportsIndex,
    Tuple,
    Type,
    TypeVar,
    cast,
)

from ._errors import BadText
from ._numbers import whole
from ._program import PathLike
from ._words import BYTES, Words

STREAMS = 16
MOST_WORDS = 1_048_576
MOST_STREAM = 1_000_000


class Streams(MutableMapping[int, Words]):
    """The words of the sixteen streams by port. It iterates over the ports that have words; the others are empty lists."""

    def __init__(self, streams: Mapping[int, Iterable[SupportsIndex]]):
        self._streams = [Words(limit=MOST_STREAM) for _ in range(STREAMS)]
        for port, values in streams.items():
            self[port] = values

    def __getitem__(self, port: SupportsIndex) -> Words:
        return self._streams[_port(port)]

    def __setitem__(self, port: SupportsIndex, values: Iterable[SupportsIndex]) -> None:
        self._streams[_port(port)] = Words(values, MOST_STREAM)

    def __delitem__(self, port: SupportsIndex) -> None:
        self._streams[_port(port)] = Words(limit=MOST_STREAM)

    def __iter__(self) -> Iterator[int]:
        return (port for port in range(STREAMS) if self._streams[port])

    def __contains__(self, port: object) -> bool:
        return port in list(self)

    def __len__(self) -> int:
        return sum(1 for _ in self)

    def __eq__(self, other: object) -> bool:
        if isinstance(other, Streams):
            return self._streams == other._streams
        if isinstance(other, Mapping):
            return dict(self) == dict(other)
        return NotImplemented

    def __repr__(self) -> str:
        return repr(dict(self))


Given = TypeVar("Given")
Held = TypeVar("Held")


class Converted(Generic[Given, Held]):
    """An attribute whose values are converted where they are set."""

    def __init__(self, convert: Callable[[Given], Held]):
        self._convert = convert

    def __set_name__(self, owner: Type[object], name: str) -> None:
        self._name = "_" + name

    def __get__(self, instance: object, owner: Optional[Type[object]] = None) -> Held:
        return cast(Held, getattr(instance, self._name))

    def __set__(self, instance: object, value: Given) -> None:
        setattr(instance, self._name, self._convert(value))


def _memory_of(values: Iterable[SupportsIndex]) -> Words:
    """Returns `values` as the words of a memory."""
    return Words(values, MOST_WORDS)


class Image:
    """The words of a memory, and sixteen streams of words.

    `memory` is a list or an array of whole numbers from -2^31 to 2^32 - 1; `streams` has by port, 0 to 15, such lists.
    Negative numbers are stored modulo 2^32, and are read back as unsigned words. Words that are set later are checked alike.
    """

    memory = Converted(_memory_of)
    streams = Converted(Streams)

    def __init__(
        self,
        memory: Iterable[SupportsIndex] = (),
        streams: Optional[Mapping[int, Iterable[SupportsIndex]]] = None,
    ):
        self.memory = memory
        self.streams = streams or {}

    def stream(self, port: SupportsIndex) -> Words:
        """Returns the words of the stream of `port`."""
        return self.streams[port]

    def to_bytes(self) -> bytes:
        """Returns the image as the bytes of a file."""
        lists = [self.memory, *(self.streams[port] for port in range(STREAMS))]
        return b"CGI1" + b"".join(struct.pack(">I", len(words)) + words.to_bytes() for words in lists)

    @classmethod
    def from_bytes(cls, data: bytes) -> "Image":
        """Reads an image out of the bytes of a file; raises BadText, a ValueError, with the fault that the program reports."""
        if data[:4] != b"CGI1":
            raise BadText("I1", "Magic", "byte 0", "an image begins CGI1")
        image = cls()
        image.memory, place = _list_at(data, 4, MOST_WORDS, "memory")
        for port in range(STREAMS):
            image.streams[port], place = _list_at(data, place, MOST_STREAM, f"stream {port}")
        if place != len(data):
            raise BadText("I4", "Trailing", f"byte {place}", "bytes follow the last stream")
        return image

    @classmethod
    def read(cls, path: PathLike) -> "Image":
        """Reads the image in the file `path`."""
        with open(os.fspath(path), "rb") as file:
            return cls.from_bytes(file.read())

    def write(self, path: PathLike) -> None:
        """Writes the image into the file `path`."""
        with open(os.fspath(path), "wb") as file:
            file.write(self.to_bytes())

    def memory_array(self) -> Any:
        """Returns the memory as a numpy array of the type uint32; needs numpy."""
        return self.memory.to_array()

    def stream_array(self, port: SupportsIndex) -> Any:
        """Returns the stream of `port` as a numpy array of the type uint32; needs numpy."""
        return self.streams[port].to_array()

    def __eq__(self, other: object) -> bool:
        if not isinstance(other, Image):
            return NotImplemented
        return self.memory == other.memory and self.streams == other.streams

    def __repr__(self) -> str:
        streams = ", ".join(f"{port}: {len(words)} words" for port, words in self.streams.items())
        return f"Image({len(self.memory)} words of memory, streams {{{streams}}})"


def _port(port: SupportsIndex) -> int:
    """Returns `port` as a number from 0 to 15."""
    return whole(port, 0, STREAMS - 1, "a port")


def _list_at(data: bytes, place: int, limit: int, what: str) -> Tuple[Words, int]:
    """Returns the list of words at `place` of `data`, and the place after it."""
    if len(data) < place + BYTES:
        raise BadText("I2", "Truncated", f"length {len(data)}", f"the image ends before {what}")
    (count,) = struct.unpack_from(">I", data, place)
    if count > limit:
        raise BadText("I3", "TooLarge", f"{what} {count}", f"at most {limit} words are allowed")
    start, end = place + BYTES, place + BYTES + BYTES * count
    if len(data) < end:
        raise BadText("I2", "Truncated", f"length {len(data)}", f"the image ends in {what}")
    return Words.from_bytes(data[start:end], limit), end
