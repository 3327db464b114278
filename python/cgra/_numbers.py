"""The rule of numbers: what is a word, and which whole numbers a parameter takes."""

from __future__ import annotations

import operator
from typing import Optional, SupportsIndex

LEAST_WORD = -(1 << 31)
END_OF_WORDS = 1 << 32
MASK = END_OF_WORDS - 1


def whole(value: SupportsIndex, least: int, most: int, what: str) -> int:
    """Returns `value` as an int; raises TypeError where it isn't an integer, ValueError where it isn't in `least` to `most`."""
    try:
        number = operator.index(value)
    except TypeError:
        raise TypeError(f"{what} is an integer, not {type(value).__name__} {value!r}") from None
    if not least <= number <= most:
        raise ValueError(f"{what} is {least} to {most}, not {number}")
    return number


def optional_whole(value: Optional[SupportsIndex], least: int, most: int, what: str) -> Optional[int]:
    """Returns `value` as `whole` does, or None where it is None."""
    return None if value is None else whole(value, least, most, what)


def word(value: SupportsIndex, what: str = "a word") -> int:
    """Returns `value` as a word: a whole number from -2^31 to 2^32 - 1, modulo 2^32."""
    return whole(value, LEAST_WORD, END_OF_WORDS - 1, what) & MASK
