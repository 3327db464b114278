"""Lists of words of 32 bits."""

from __future__ import annotations

import importlib
import sys
from array import array
from collections.abc import MutableSequence
from typing import TYPE_CHECKING, Any, Iterable, Optional, SupportsIndex, Union, overload

from ._numbers import END_OF_WORDS, LEAST_WORD, word

if TYPE_CHECKING:
    Array = array[int]
else:
    Array = array

WORD = "I"
BYTES = 4


class Words(MutableSequence[int]):
    """A list of words, each checked where it is set: whole numbers from -2^31 to 2^32 - 1, negative ones modulo 2^32.

    It has the methods of a list, is equal to a list with the same words, and has at most `limit` words.
    """

    __slots__ = ("_array", "_limit")

    def __init__(self, values: Iterable[SupportsIndex] = (), limit: int = END_OF_WORDS):
        self._limit = limit
        self._array = _bounded(array_of(values), limit)

    @overload
    def __getitem__(self, index: SupportsIndex) -> int: ...

    @overload
    def __getitem__(self, index: slice) -> "Words": ...

    def __getitem__(self, index: Union[SupportsIndex, slice]) -> Union[int, "Words"]:
        if isinstance(index, slice):
            return self._with(self._array[index])
        return self._array[index]

    @overload
    def __setitem__(self, index: SupportsIndex, value: SupportsIndex) -> None: ...

    @overload
    def __setitem__(self, index: slice, value: Iterable[SupportsIndex]) -> None: ...

    def __setitem__(self, index: Union[SupportsIndex, slice], value: Any) -> None:
        if not isinstance(index, slice):
            self._array[index] = word(value)
            return
        changed = self._array[:]
        _set_slice(changed, index, array_of(value))
        self._array = _bounded(changed, self._limit)

    def __delitem__(self, index: Union[SupportsIndex, slice]) -> None:
        del self._array[index]

    def __len__(self) -> int:
        return len(self._array)

    def insert(self, index: SupportsIndex, value: SupportsIndex) -> None:
        """Inserts the word `value` before `index`."""
        if len(self._array) >= self._limit:
            raise ValueError(f"there are at most {self._limit} words")
        self._array.insert(index.__index__(), word(value))

    def extend(self, values: Iterable[SupportsIndex]) -> None:
        """Appends the words `values`."""
        self._array = _bounded(self._array + array_of(values), self._limit)

    def to_array(self) -> Any:
        """Returns the words as a new numpy array of the type uint32; needs numpy."""
        numpy = importlib.import_module("numpy")
        return numpy.frombuffer(self._array.tobytes(), dtype=numpy.uint32).copy()

    def __array__(self, dtype: Any = None, copy: Optional[bool] = None) -> Any:
        words = self.to_array()
        return words if dtype is None else words.astype(dtype)

    def to_bytes(self) -> bytes:
        """Returns the words as bytes, four each, the most significant first."""
        if sys.byteorder == "big":
            return self._array.tobytes()
        swapped = self._array[:]
        swapped.byteswap()
        return swapped.tobytes()

    @classmethod
    def from_bytes(cls, data: bytes, limit: int = END_OF_WORDS) -> "Words":
        """Returns the words in `data`, four bytes each, the most significant first."""
        words = array(WORD, data)
        if sys.byteorder == "little":
            words.byteswap()
        return cls(limit=limit)._with(_bounded(words, limit))

    def _with(self, words: "Array") -> "Words":
        """Returns a list of `words` with the same limit."""
        made = type(self)(limit=self._limit)
        made._array = words
        return made

    def __eq__(self, other: object) -> bool:
        if isinstance(other, Words):
            return self._array == other._array
        if isinstance(other, (list, tuple, array)):
            return len(self) == len(other) and all(mine == its for mine, its in zip(self._array, other))
        return NotImplemented

    def __repr__(self) -> str:
        return repr(self._array.tolist())


def array_of(values: Iterable[SupportsIndex]) -> "Array":
    """Returns `values` as an array of words."""
    if isinstance(values, Words):
        return values._array[:]
    numpy = sys.modules.get("numpy")
    if numpy is not None and isinstance(values, numpy.ndarray):
        return _array_of_numpy(numpy, values)
    items = values if isinstance(values, (list, tuple, range)) else list(values)
    found = _array_of_ints(items) if set(map(type, items)) <= {int} else None
    return array(WORD, [word(item) for item in items]) if found is None else found


def _array_of_ints(items: Iterable[Any]) -> Optional["Array"]:
    """Returns the ints `items` as an array of words, None where one is out of range."""
    try:
        return array(WORD, items)
    except OverflowError:
        pass  # one is negative, or too large
    try:
        wide = array("q", items)
    except OverflowError:
        return None
    if min(wide) < LEAST_WORD or max(wide) >= END_OF_WORDS:
        return None
    low = 0 if sys.byteorder == "little" else 1
    return array(WORD, memoryview(wide).cast("B").cast(WORD)[low::2].tobytes())


def _array_of_numpy(numpy: Any, values: Any) -> "Array":
    """Returns the numpy array `values` as an array of words."""
    if values.ndim != 1:
        raise ValueError(f"a list of words has one dimension, not {values.ndim}")
    if values.dtype.kind not in "iu":
        raise TypeError(f"a word is an integer, not {values.dtype}")
    if values.size and (values.min() < LEAST_WORD or values.max() >= END_OF_WORDS):
        outside = (values < LEAST_WORD) | (values >= END_OF_WORDS)
        word(int(values[outside][0]))
    return array(WORD, values.astype(numpy.uint32).tobytes())


def _bounded(words: "Array", limit: int) -> "Array":
    """Returns `words`; raises ValueError where there are more than `limit`."""
    if len(words) > limit:
        raise ValueError(f"there are at most {limit} words, not {len(words)}")
    return words


def _set_slice(words: "Array", index: slice, values: "Array") -> None:
    """Replaces the slice `index` of `words` by `values`, as a list does."""
    if index.step in (None, 1):
        words[index] = values
        return
    places = range(*index.indices(len(words)))
    if len(places) != len(values):
        raise ValueError(f"{len(values)} words can't replace {len(places)}")
    for place, value in zip(places, values):
        words[place] = value
