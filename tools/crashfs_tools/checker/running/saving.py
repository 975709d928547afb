"""Writes what is known of a check from time to time: a kill loses only what came after."""

from __future__ import annotations

import time
from typing import Callable


class Saver:
    """Calls `write`, which writes a file, at most once in so many `seconds`. An OSError of `write`
    is ignored: the file is written once more at the check's end, when an error counts."""

    def __init__(
        self,
        write: Callable[[], None],
        seconds: float,
        clock: Callable[[], float] = time.monotonic,
    ) -> None:
        """The first `seconds` begin now. `clock` returns seconds."""
        self.write = write
        self.seconds = seconds
        self.clock = clock
        self.save_time = clock()

    def save_if_due(self) -> None:
        """Calls `write` if `seconds` have passed since the end of its last call, or since the Saver
        was made. An OSError of `write` is ignored; any other exception passes, and that call of
        `write` doesn't count."""
        if self.clock() - self.save_time < self.seconds:
            return
        try:
            self.write()
        except OSError:
            pass
        self.save_time = self.clock()
