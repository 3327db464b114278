"""Searches with several seeds side by side, whose answer doesn't depend on the order in which they end."""

from __future__ import annotations

import os
import threading
import time
from dataclasses import replace
from typing import Callable, Dict, List, Optional, SupportsIndex, Tuple

from ._errors import NotFound
from ._inputs import END_OF_SEEDS
from ._numbers import whole
from ._program import Cancelled, OnProgress, Progress, Setting
from ._results import Found

MOST_JOBS = 1024

Search = Callable[[Setting], Found]


def best_of(
    search: Search,
    least: Callable[[], Optional[int]],
    setting: Setting,
    seeds: SupportsIndex,
    jobs: Optional[SupportsIndex],
) -> Found:
    """Returns the best mapping that `search` finds with `seeds` seeds, from that of `setting` on.

    `least` gives the least interval that is possible. The best is the mapping of the least seed at that interval; where no
    seed reaches it, that of the least interval, then of the fewest stages, then of the least seed.
    """
    count = whole(seeds, 1, END_OF_SEEDS - setting.seed, "the number of seeds")
    side = min(count, os.cpu_count() or 1) if jobs is None else whole(jobs, 1, MOST_JOBS, "the number of jobs")
    if count == 1:
        return search(setting)
    begun = time.monotonic()
    target = least()
    if setting.timeout is not None:
        setting = replace(setting, timeout=max(setting.timeout - (time.monotonic() - begun), 0.0))
    return _Race(search, setting, count, target).run(side)


class _Race:
    """Searches with `count` seeds from that of `setting` on. Seeds above one that reached `target` don't count."""

    def __init__(self, search: Search, setting: Setting, count: int, target: Optional[int]):
        self._search, self._setting, self._target = search, setting, target
        self._deadline = None if setting.timeout is None else time.monotonic() + setting.timeout
        self._next, self._last = setting.seed, setting.seed + count - 1
        self._running: Dict[int, threading.Event] = {}
        self._found: List[Found] = []
        self._missed: List[Tuple[int, NotFound]] = []
        self._error: Optional[BaseException] = None
        self._lock = threading.Lock()
        self._telling = threading.Lock()

    def run(self, side: int) -> Found:
        """Returns the best mapping, with `side` searches at a time."""
        threads = [threading.Thread(target=self._work, daemon=True) for _ in range(side)]
        for thread in threads:
            thread.start()
        try:
            for thread in threads:
                thread.join()
        except BaseException:
            self._stop_after(self._setting.seed - 1)
            raise
        if self._error is not None:
            raise self._error
        counted = [found for found in self._found if found.seed <= self._last]
        if not counted:
            raise min(self._missed, key=lambda pair: pair[0])[1]
        return min(counted, key=lambda found: (found.interval, found.stages, found.seed))

    def _work(self) -> None:
        """Searches with one seed after the other, as long as there are some that count."""
        while True:
            setting = self._begin()
            if setting is None:
                return
            try:
                self._take(self._search(setting))
            except Cancelled:
                pass
            except NotFound as error:
                self._missed.append((setting.seed, error))
            except BaseException as error:  # raised again by `run`, in the caller's thread
                self._error = error
                self._stop_after(self._setting.seed - 1)
            finally:
                self._end(setting.seed)

    def _begin(self) -> Optional[Setting]:
        """Returns the setting of the next seed, None where no more count."""
        with self._lock:
            seed = self._next
            if seed > self._last:
                return None
            self._next += 1
            cancelled = self._running[seed] = threading.Event()
        left = None if self._deadline is None else max(self._deadline - time.monotonic(), 0.0)
        return replace(self._setting, seed=seed, cancelled=cancelled, timeout=left, progress=self._teller())

    def _end(self, seed: int) -> None:
        """Takes the search with `seed` off the list of those that run."""
        with self._lock:
            del self._running[seed]

    def _teller(self) -> Optional[OnProgress]:
        """Returns what tells the caller progress, one thread at a time."""
        return None if self._setting.progress is None else self._tell

    def _tell(self, progress: Progress) -> None:
        """Tells the caller `progress`."""
        with self._telling:
            if self._setting.progress is not None:
                self._setting.progress(progress)

    def _take(self, found: Found) -> None:
        """Takes a mapping: where it is at the target, greater seeds don't count any more."""
        self._found.append(found)
        if self._target is not None and found.interval <= self._target:
            self._stop_after(found.seed)

    def _stop_after(self, seed: int) -> None:
        """Cancels the searches with seeds above `seed`, and begins none of them."""
        with self._lock:
            self._last = min(self._last, seed)
            running = dict(self._running)
        for other, cancelled in running.items():
            if other > self._last:
                cancelled.set()
