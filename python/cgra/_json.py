"""Reads JSON texts by the rules of the program: RFC 8259, in UTF-8, at most 127 levels, words as the only numbers."""

from __future__ import annotations

import json
import math
import re
from typing import Any, Callable, Dict, List, NoReturn, Optional, Sequence, Tuple, TypeVar, Union

from ._errors import BadText
from ._numbers import END_OF_WORDS

MOST_BYTES = 16_777_216
MOST_LEVELS = 127
LONGEST_WORD = 10

_BRACKETS = re.compile(r'"(?:[^"\\]|\\.)*"|[\[{]|[\]}]', re.DOTALL)

Item = TypeVar("Item")


class Members(Dict[str, Any]):
    """The members of an object, and the first key that it repeats."""

    repeated: Optional[str] = None


class _NoWord:
    """A number that is no word."""


def _members(pairs: List[Tuple[str, Any]]) -> Members:
    """Returns the members of an object."""
    members = Members()
    for key, value in pairs:
        if key in members and members.repeated is None:
            members.repeated = key
        members[key] = value
    return members


def _integer(digits: str) -> Union[int, _NoWord]:
    """Returns the word `digits`."""
    if digits.startswith("-") or len(digits) > LONGEST_WORD or int(digits) >= END_OF_WORDS:
        return _other_number(digits)
    return int(digits)


def _other_number(text: str) -> _NoWord:
    """Returns what stands for a number that is no word; refuses one that no floating-point number holds."""
    if math.isinf(float(text)):
        raise ValueError("a number is out of range")
    return _NoWord()


def _constant(name: str) -> NoReturn:
    """Refuses NaN and the infinities."""
    raise ValueError(f"{name} is no JSON value")


def _is_deep(text: str) -> bool:
    """Checks whether brackets nest over more levels than the program reads."""
    depth = 0
    for found in _BRACKETS.finditer(text):
        depth += {"[": 1, "{": 1, "]": -1, "}": -1}.get(found.group(), 0)
        if depth > MOST_LEVELS:
            return True
    return False


def _check_texts(value: Any) -> None:
    """Raises UnicodeEncodeError where a text of `value` has half of a surrogate pair."""
    if isinstance(value, str):
        value.encode("utf-8")
    elif isinstance(value, list):
        for item in value:
            _check_texts(item)
    elif isinstance(value, dict):
        for key, item in value.items():
            _check_texts(key)
            _check_texts(item)


def json_value(text: Union[str, bytes], letter: str) -> Any:
    """Returns the value of the JSON `text`; raises BadText with the fault 1 of `letter` where there is none."""
    try:
        data = text.encode("utf-8") if isinstance(text, str) else bytes(text)
        if len(data) > MOST_BYTES:
            raise BadText("G1", "TooLong", f"limit {MOST_BYTES}", "the text isn't read")
        whole = data.decode("utf-8")
        if _is_deep(whole):
            raise ValueError(f"there are more than {MOST_LEVELS} levels")
        value = json.loads(
            whole,
            object_pairs_hook=_members,
            parse_int=_integer,
            parse_float=_other_number,
            parse_constant=_constant,
        )
        _check_texts(value)
    except BadText:
        raise
    except ValueError as error:
        raise BadText(letter + "1", "NotJson", "file", str(error)) from None
    return value


class Shape:
    """Checks the form of one part of a file, at `place`; its faults are 2 and 3 of `letter`."""

    def __init__(self, letter: str, place: str):
        self._letter, self._place = letter, place

    def at(self, place: str) -> "Shape":
        """Returns the checks of the part at `place`."""
        return Shape(self._letter, place)

    def wrong(self, what: str) -> BadText:
        """Returns the fault that a key is missing, or that a value is of another kind."""
        return BadText(self._letter + "2", "WrongShape", self._place, what)

    def members(self, value: Any) -> Members:
        """Returns the members of the object `value`, of which none may be repeated."""
        if not isinstance(value, Members):
            raise self.wrong("an object is needed")
        if value.repeated is not None:
            raise self.wrong(f'the key "{value.repeated}" is repeated')
        return value

    def text(self, members: Members, key: str) -> str:
        """Returns the text at `key`."""
        value = members.get(key)
        if not isinstance(value, str):
            raise self.wrong(f'"{key}" must be a text')
        return value

    def word(self, members: Members, key: str, default: Optional[int] = None) -> int:
        """Returns the word at `key`, or `default` where the key is missing."""
        value = members.get(key, default)
        if not is_word(value):
            raise self.wrong(f'"{key}" must be a number from 0 to {END_OF_WORDS - 1}')
        return int(value)

    def items(self, members: Members, key: str, default: Optional[List[Any]] = None) -> List[Any]:
        """Returns the items of the array at `key`, or `default` where the key is missing."""
        value = members.get(key, default)
        if not isinstance(value, list):
            raise self.wrong(f'"{key}" must be an array')
        return value

    def known(self, members: Members, keys: Sequence[str]) -> None:
        """Refuses keys other than `keys`."""
        for key in members:
            if key not in keys:
                raise BadText(self._letter + "3", "UnknownKey", self._place, f'unknown key "{key}"')


def is_word(value: Any) -> bool:
    """Checks whether `value`, as it was read, is a word."""
    return isinstance(value, int) and not isinstance(value, bool)


def each(shape: Shape, name: str, items: List[Any], read: Callable[[Shape, Any], Item]) -> List[Item]:
    """Returns what `read` makes of each of `items`, whose places are `name` and a number."""
    return [read(shape.at(f"{name} {number}"), item) for number, item in enumerate(items)]
