"""Finds and calls the program."""

from __future__ import annotations

import os
import re
import selectors
import shutil
import signal
import subprocess
import tempfile
import threading
import time
from dataclasses import dataclass
from typing import Callable, Dict, Iterable, List, Optional, Sequence, Tuple, Union

from ._errors import NoProgram, TimedOut, error_of

PathLike = Union[str, "os.PathLike[str]"]

# Seconds between two looks whether a call is cancelled.
GLANCE = 0.05

_PACKAGE = os.path.dirname(os.path.abspath(__file__))
_PROGRESS = re.compile(r"ii (\d+): (\d+) moves, least (\d+)")


@dataclass(frozen=True)
class Progress:
    """How far a search is: `least` is the least number of faults (of `walk` the least cost) met so far at `interval`.

    `seed` is the seed of the search; str(..) is the line that the program shows.
    """

    interval: int
    moves: int
    least: int
    seed: int

    def __str__(self) -> str:
        return f"ii {self.interval}: {self.moves} moves, least {self.least}"


OnProgress = Callable[[Progress], None]


@dataclass(frozen=True)
class Setting:
    """What a call may take: `timeout` seconds, whom it tells its progress under which seed, and what cancels it."""

    timeout: Optional[float] = None
    progress: Optional[OnProgress] = None
    seed: int = 1
    cancelled: Optional[threading.Event] = None


@dataclass(frozen=True)
class Answer:
    """A call that ended: its words, status, report and notes."""

    words: Tuple[str, ...]
    status: int
    report: str
    notes: List[str]


class Cancelled(Exception):
    """A call was cancelled. It never leaves the package."""


def checkout() -> Optional[str]:
    """Returns the root of the repository that this package is imported from, None where it is installed elsewhere."""
    python = os.path.dirname(_PACKAGE)
    root = os.path.dirname(python)
    marks = (os.path.join(python, "pyproject.toml"), os.path.join(root, "crates.txt"))
    if os.path.basename(python) == "python" and all(os.path.isfile(mark) for mark in marks):
        return root
    return None


def _candidates() -> List[str]:
    """Returns the paths at which the program may be, the first first, but for the variable CGRA and PATH."""
    root = checkout()
    if root is None:
        return [os.path.join(_PACKAGE, "_bin", "cgra")]
    return [os.path.join(root, "cgra"), os.path.join(root, "crates", "cgra", "out", "cgra")]


def program() -> str:
    """Returns the path of the program: that of the variable CGRA, the checkout's, the installed one, or one on PATH.

    Raises NoProgram, a FileNotFoundError, where there is none.
    """
    named = os.environ.get("CGRA")
    if named:
        return named
    for path in _candidates():
        if os.path.isfile(path) and os.access(path, os.X_OK):
            return path
    found = shutil.which("cgra")
    if found is None:
        raise NoProgram(127, "", ["no program cgra: set CGRA to its path, or put it on PATH"])
    return found


class _Lines:
    """Takes the bytes of the standard error, and tells progress apart from notes.

    Progress is overwritten on one line by carriage returns; notes end with a line feed.
    """

    def __init__(self, setting: Setting):
        self._setting = setting
        self._rest = b""
        self.notes: List[str] = []

    def take(self, data: bytes) -> None:
        """Takes more bytes."""
        *parts, self._rest = re.split(rb"(?<=[\r\n])", self._rest + data)
        for part in parts:
            self._end(part)

    def close(self) -> None:
        """Takes the end."""
        self._end(self._rest)

    def _end(self, part: bytes) -> None:
        """Takes a part with the character that ends it."""
        text = part.decode("utf-8", "replace").rstrip()
        progress = _PROGRESS.fullmatch(text)
        if progress is None:
            if text:
                self.notes.append(text)
        elif self._setting.progress is not None:
            interval, moves, least = (int(number) for number in progress.groups())
            self._setting.progress(Progress(interval, moves, least, self._setting.seed))


def call(words: Iterable[str], allowed: Sequence[int] = (0,), setting: Setting = Setting()) -> Answer:
    """Calls the program on `words` and returns its answer; raises the error of a status that isn't `allowed`."""
    line = (program(), *words)
    process = _started(line, setting)
    lines, report = _Lines(setting), bytearray()
    try:
        _listen(process, lines, report, setting)
    except subprocess.TimeoutExpired:
        raise TimedOut(-signal.SIGKILL, "", [*lines.notes, "the call was ended by its timeout"], line) from None
    finally:
        _end(process)
    text = report.decode("utf-8", "replace")
    if process.returncode not in allowed:
        raise error_of(process.returncode, text, lines.notes, line)
    return Answer(line, process.returncode, text, lines.notes)


def _started(line: Sequence[str], setting: Setting) -> "subprocess.Popen[bytes]":
    """Starts a call. It stays in the group of this process, so that it ends where the whole group is ended."""
    environment = dict(os.environ, CGRA_PROGRESS="0" if setting.progress is None else "1")
    try:
        return subprocess.Popen(
            line,
            stdin=subprocess.DEVNULL,
            stdout=subprocess.PIPE,
            stderr=subprocess.PIPE,
            env=environment,
        )
    except (OSError, ValueError) as error:
        raise NoProgram(127, "", [f"the program can't be started: {error}"], line) from error


def _listen(process: "subprocess.Popen[bytes]", lines: _Lines, report: bytearray, setting: Setting) -> None:
    """Reads what the call writes, until it ended; raises TimeoutExpired or Cancelled."""
    deadline = None if setting.timeout is None else time.monotonic() + setting.timeout
    assert process.stdout is not None and process.stderr is not None
    takers: Dict[int, Callable[[bytes], None]] = {
        process.stdout.fileno(): report.extend,
        process.stderr.fileno(): lines.take,
    }
    with selectors.DefaultSelector() as selector:
        for descriptor in takers:
            selector.register(descriptor, selectors.EVENT_READ)
        while selector.get_map():
            for key, _ in selector.select(_pause(deadline, setting)):
                data = os.read(key.fd, 65536)
                takers[key.fd](data)
                if not data:
                    selector.unregister(key.fd)
    lines.close()
    process.wait(None if deadline is None else max(deadline - time.monotonic(), 0.01))


def _pause(deadline: Optional[float], setting: Setting) -> Optional[float]:
    """Returns how long the call may be waited for; raises TimeoutExpired or Cancelled where it is to be ended."""
    if setting.cancelled is not None and setting.cancelled.is_set():
        raise Cancelled
    left = None if deadline is None else deadline - time.monotonic()
    if left is not None and left <= 0:
        raise subprocess.TimeoutExpired("cgra", setting.timeout or 0)
    if setting.cancelled is None:
        return left
    return GLANCE if left is None else min(left, GLANCE)


def _end(process: "subprocess.Popen[bytes]") -> None:
    """Ends a call that runs still, with all that it started, and closes its pipes."""
    if process.poll() is None:
        below = _below(process.pid)
        process.kill()
        for pid in below:
            try:
                os.kill(pid, signal.SIGKILL)
            except ProcessLookupError:
                pass
    process.wait()
    for pipe in (process.stdout, process.stderr):
        if pipe is not None:
            pipe.close()


def _below(pid: int) -> List[int]:
    """Returns the processes that the process `pid` started, and those that these started; none where there is no /proc."""
    children: Dict[int, List[int]] = {}
    for name in os.listdir("/proc") if os.path.isdir("/proc") else []:
        try:
            with open(f"/proc/{int(name)}/stat", "rb") as file:
                parent = int(file.read().rpartition(b")")[2].split()[1])
        except (OSError, ValueError, IndexError):
            continue
        children.setdefault(parent, []).append(int(name))
    found = [pid]
    for one in found:
        found += children.get(one, [])
    return found[1:]


class Folder:
    """A folder of a call: inputs that are no files yet are written there, and outputs are read from there."""

    def __enter__(self) -> "Folder":
        self._folder = tempfile.TemporaryDirectory(prefix="cgra-")
        return self

    def __exit__(self, *_: object) -> None:
        self._folder.cleanup()

    def path(self, name: str) -> str:
        """Returns the path of `name` in the folder."""
        return os.path.join(self._folder.name, name)

    def given(self, value: object, name: str) -> str:
        """Returns a path of `value`: its own where it is a path, else that of a file `name` with its content."""
        if isinstance(value, (str, os.PathLike)):
            path = os.fspath(value)
            return os.path.join(".", path) if path.startswith("-") else path
        path = self.path(name)
        with open(path, "wb") as file:
            file.write(_content(value))
        return path

    def read(self, name: str) -> bytes:
        """Returns the bytes of the file `name` of the folder."""
        with open(self.path(name), "rb") as file:
            return file.read()


def _content(value: object) -> bytes:
    """Returns the bytes of the file that `value` stands for."""
    if isinstance(value, (bytes, bytearray, memoryview)):
        return bytes(value)
    to_bytes = getattr(value, "to_bytes", None)
    if to_bytes is None or isinstance(value, int):
        raise TypeError(f"a path or an object of this package is needed, not {type(value).__name__}")
    content: bytes = to_bytes()
    return content
