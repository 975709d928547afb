"""Runs parts of the tests at the same time, and says of each what came of it when it ends."""

from __future__ import annotations

import os
import sys
import threading
import time
from concurrent.futures import ThreadPoolExecutor, as_completed
from contextlib import contextmanager
from dataclasses import replace
from typing import Callable, Dict, Iterator, Set

from .outcome import Outcome

# What `rt try --test` needs of memory, for the crate that needs most.
GIGABYTES_EACH = 3
SECONDS_BETWEEN = 1.0

# Runs tests, and returns their outcome, without its seconds.
Part = Callable[[], Outcome]


def most_parts_at_once(processors: int, gigabytes: float) -> int:
    """How many parts run at once: as many as there are processors and memory for, and at least one.
    `gigabytes` is how much memory is available, in units of 2**30 bytes."""
    return max(1, min(processors, int(gigabytes / GIGABYTES_EACH)))


class Progress:
    """A line on a terminal that says which parts are running; nothing is shown if standard error is
    no terminal. `running` has the names of the running parts, and `done` those of the parts that
    have ended; the threads that run parts change both, by running_part()."""

    def __init__(self, part_count: int) -> None:
        """Takes the time now as that at which the parts begin. Shows nothing yet."""
        self.part_count, self.start_time = part_count, time.monotonic()
        self.running: Set[str] = set()
        self.done: Set[str] = set()
        self.is_shown = sys.stderr.isatty()
        self.end_event = threading.Event()

    @contextmanager
    def running_part(self, name: str) -> Iterator[None]:
        """A `with` in which the part of this name counts as running; after it, also after an
        exception, the part counts as done. Nothing is shown before show()."""
        self.running.add(name)
        try:
            yield
        finally:
            self.running.remove(name)
            self.done.add(name)

    def text(self) -> str:
        """The line: how many parts are done, how many seconds ago the parts began, and which are
        running, in alphabetical order."""
        running = ', '.join(sorted(self.running))
        seconds = time.monotonic() - self.start_time
        return (
            f'{len(self.done)} of {self.part_count} done after {seconds:.0f} s; running: {running}'
        )

    def clear(self) -> None:
        """Removes the line from the terminal; keep_showing() shows it again."""
        if self.is_shown:
            print('\r\033[K', end='', file=sys.stderr, flush=True)

    def show(self) -> None:
        """Shows the line, cut to the width of the terminal, in place of the line before."""
        if self.is_shown:
            width = os.get_terminal_size(sys.stderr.fileno()).columns - 1
            print(f'\r\033[K{self.text()[:width]}', end='', file=sys.stderr, flush=True)

    def keep_showing(self) -> None:
        """Shows the line again every SECONDS_BETWEEN, until another thread sets end_event. The line
        then stays, unless clear() removes it."""
        while not self.end_event.wait(SECONDS_BETWEEN):
            self.show()


def run_parts(parts: Dict[str, Part], count: int) -> Iterator[Outcome]:
    """Runs parts, `count` at once, and yields the outcome of each, with its seconds, as it ends;
    they begin in their order. Meanwhile a line on the terminal names those that are running. What a
    part raises is raised here once all others have run: outcomes that weren't taken yet are
    lost."""
    progress = Progress(len(parts))

    def run_part(name: str) -> Outcome:
        """Runs a part, in a thread of the pool, and returns its outcome with its seconds."""
        start_time = time.monotonic()
        with progress.running_part(name):
            outcome = parts[name]()
        return replace(outcome, seconds=time.monotonic() - start_time)

    display_thread = threading.Thread(target=progress.keep_showing, daemon=True)
    display_thread.start()
    try:
        with ThreadPoolExecutor(count) as pool:
            for ended_part in as_completed([pool.submit(run_part, name) for name in parts]):
                progress.clear()
                yield ended_part.result()
    finally:
        progress.end_event.set()
        display_thread.join()
