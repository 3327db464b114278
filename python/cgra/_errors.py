"""What a call raises: one class per exit status, and one for each other end of a call."""

from __future__ import annotations

import shlex
import signal
from typing import Any, Dict, List, Optional, Sequence, Tuple, Type

from ._certificates import Certificate, certificate_of
from ._violations import Left, lefts_of

FIRST_SIGNAL = 128


class BadText(ValueError):
    """A text or bytes that this package refuses, by the rules of the program.

    `code`, `name` and `place` are those of docs/faults.md, as `K5`, `BadName`, `nodes 0`; `note` says more.
    """

    def __init__(self, code: str, name: str, place: str, note: str = ""):
        self.code, self.name, self.place, self.note = code, name, place, note
        super().__init__(f"{code} {name} {place}" + (f": {note}" if note else ""))

    def __reduce__(self) -> Tuple[Any, ...]:
        return type(self), (self.code, self.name, self.place, self.note)


class CgraError(Exception):
    """A call that didn't end with status 0.

    `status` is the exit status, below 0 for a signal; `report` what stood on the standard output; `notes` the lines on the
    standard error; `words` the program and the words that it was called with, and `called` these as a line for a shell.
    """

    def __init__(self, status: int, report: str, notes: Sequence[str], words: Sequence[str] = ()):
        self.status = status
        self.report = report
        self.notes: List[str] = list(notes)
        self.words: Tuple[str, ...] = tuple(words)
        lines = [line for line in (*self.notes, report.rstrip("\n")) if line] or [f"status {status}"]
        super().__init__("\n".join(lines + ([f"called: {self.called}"] if words else [])))

    @property
    def called(self) -> str:
        """Returns the call as a line for a shell."""
        return " ".join(shlex.quote(word) for word in self.words)

    def __reduce__(self) -> Tuple[Any, ...]:
        return type(self), (self.status, self.report, self.notes, self.words)


class OutOfMemory(CgraError):
    """Status 1: memory ran out. The call can be repeated as it was."""


class Usage(CgraError):
    """Status 2: the words fit no command."""


class Malformed(CgraError):
    """Status 3: an input isn't what it should be.

    `file`, `code`, `name` and `place` are those of the report, as `k.json`, `K8`, `WrongOperandCount`, `nodes 1`.
    """

    def __init__(self, status: int, report: str, notes: Sequence[str], words: Sequence[str] = ()):
        super().__init__(status, report, notes, words)
        self.file, self.code, self.name, self.place = "", "", "", ""
        head, colon, fault = report.split("\n", 1)[0].rpartition(": ")
        if colon and head.startswith("malformed "):
            self.file = head[len("malformed "):]
            self.code, self.name, self.place = (fault.split(" ", 2) + ["", ""])[:3]


class Impossible(CgraError):
    """Status 4: a recurrence or an overfull class forbids the interval. `certificate` shows it."""

    @property
    def certificate(self) -> Certificate:
        """Returns the certificate of the report."""
        return certificate_of(self.report.strip())


class ReadFault(CgraError):
    """Status 5: an input file couldn't be read."""


class WriteFault(CgraError):
    """Status 6: an output file or the report couldn't be written."""


class NotFound(CgraError):
    """Status 7: no mapping was found at the intervals that were tried, though there may be one.

    `left` has for each interval what is left there: the faults of `search`, or the cost of `walk`. Where a reason excludes
    all intervals that may be tried, it is empty, and `certificate` is that reason for the last one.
    """

    def __init__(self, status: int, report: str, notes: Sequence[str], words: Sequence[str] = ()):
        super().__init__(status, report, notes, words)
        self.left: Dict[int, Left] = lefts_of(report)
        lines = [line for line in report.splitlines() if line.startswith("ii ") and " impossible: " in line]
        self.certificate: Optional[Certificate] = certificate_of(lines[0]) if lines else None


class Illegal(CgraError):
    """Status 8: the mapping isn't legal. `rule` and `place` say which rule is broken first, and where."""

    def __init__(self, status: int, report: str, notes: Sequence[str], words: Sequence[str] = ()):
        super().__init__(status, report, notes, words)
        parts = (report.split("\n", 1)[0].split(" ", 2) + ["", ""])[:3]
        self.rule, self.place = (parts[1], parts[2]) if parts[0] == "illegal" else ("", "")


class NotText(CgraError):
    """Status 9: a word isn't UTF-8."""


class UnusableBuild(CgraError):
    """Status 64 of the launcher: the variable CGRA_BUILD has no usable value."""


class NotBuilt(CgraError):
    """Status 70 of the launcher: the program couldn't be built."""


class OtherStatus(CgraError):
    """A status that neither the program nor its launcher gives."""


class Killed(CgraError):
    """The program was ended by a signal. `signal` is its number."""

    @property
    def signal(self) -> int:
        """Returns the number of the signal."""
        return -self.status if self.status < 0 else self.status - FIRST_SIGNAL


class TimedOut(CgraError, TimeoutError):
    """The call took longer than its `timeout`, and was ended. No result is left of it."""


class UnknownReport(CgraError):
    """The program ended well, but its report isn't one that this package knows: it is another program, or version."""


class NoProgram(CgraError, FileNotFoundError):
    """The program can't be found, or can't be started. The status is 127, as in a shell."""


ERRORS: Dict[int, Type[CgraError]] = {
    1: OutOfMemory,
    2: Usage,
    3: Malformed,
    4: Impossible,
    5: ReadFault,
    6: WriteFault,
    7: NotFound,
    8: Illegal,
    9: NotText,
    64: UnusableBuild,
    70: NotBuilt,
}


def error_of(status: int, report: str, notes: Sequence[str], words: Sequence[str]) -> CgraError:
    """Returns the error of a call that ended with `status`."""
    if status < 0 or status - FIRST_SIGNAL in set(signal.Signals):
        error = Killed(status, report, notes, words)
        return Killed(status, report, [*error.notes, f"ended by signal {error.signal}"], words)
    return ERRORS.get(status, OtherStatus)(status, report, notes, words)
