"""What is wrong with a mapping, and what a search that found none left."""

from __future__ import annotations

from dataclasses import dataclass
from typing import Dict, List, Optional, Tuple


@dataclass(frozen=True)
class Violation:
    """A place at which a mapping breaks a rule: the line as printed, the rule, and the place in words.

    `name` is the node, unit, resource, edge (`s.0`) or number of the order edge there, empty for the mapping as a whole;
    `slot` the slot, None where the rule has none; `between` the two nodes or resources that meet there.
    """

    text: str
    rule: str
    place: str
    name: str = ""
    slot: Optional[int] = None
    between: Tuple[str, ...] = ()

    def __str__(self) -> str:
        return self.text


@dataclass(frozen=True)
class Left:
    """What a search left at an interval: the least number of faults (`search`) or the cost (`walk`), as `measure` says.

    `violations` are up to eight of the faults, of `search` alone; `text` the lines as printed.
    """

    text: str
    interval: int
    measure: str
    count: int
    violations: Tuple[Violation, ...] = ()

    def __str__(self) -> str:
        return self.text


def violation_of(line: str) -> Violation:
    """Returns the violation in a line such as `fault L6 resource r0c0_r slot 0 a b`."""
    _, rule, *words = line.split(" ")
    name = words[1] if len(words) > 1 else ""
    if len(words) > 3 and words[2] == "slot":
        return Violation(line, rule, " ".join(words[:4]), name, int(words[3]), tuple(words[4:]))
    return Violation(line, rule, " ".join(words), name)


def violations_of(lines: List[str]) -> List[Violation]:
    """Returns the violations in the lines that are some."""
    return [violation_of(line) for line in lines if line.startswith("fault ")]


def lefts_of(report: str) -> Dict[int, Left]:
    """Returns by interval what the report of a search that found no mapping says is left."""
    parts: List[List[str]] = []
    for line in report.splitlines():
        words = line.split(" ")
        if len(words) == 4 and words[0] == "ii" and words[2] in ("cost", "faults"):
            parts.append([line])
        elif parts:
            parts[-1].append(line)
    lefts = [_left_of(lines) for lines in parts]
    return {left.interval: left for left in lefts}


def _left_of(lines: List[str]) -> Left:
    """Returns what is left at the interval of the first of `lines`."""
    _, interval, measure, count = lines[0].split(" ")
    return Left("\n".join(lines), int(interval), measure, int(count), tuple(violations_of(lines[1:])))
