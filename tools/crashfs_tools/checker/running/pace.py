"""How fast the states of a part of a check are tried, and whether all of them can be."""

from __future__ import annotations

import time
from typing import Callable

from .runner import BAD, Outcome

# So many states tell how long all will take.
MEASURED_STATES = 100


class TooSlow(Exception):
    """All states would take longer than they may."""


class Pace:
    """Counts a part's states as they are tried, and those of them that fail, and measures how long
    they take. The part has state_count states, and all of them together may take most_seconds:
    infinity for no limit."""

    def __init__(
        self, state_count: int, most_seconds: float, clock: Callable[[], float] = time.monotonic
    ) -> None:
        """No state is counted yet, and the time begins now. `clock` returns seconds."""
        self.state_count = state_count
        self.most_seconds = most_seconds
        self.clock = clock
        self.tried_count = 0
        self.failed_count = 0
        self.begin_time = clock()

    def count_outcome(self, outcome: Outcome) -> None:
        """Counts one more state as tried, and as one that fails if its outcome is BAD, not if it
        gave no answer. TooSlow once, when MEASURED_STATES are counted and others are left, if all
        would take longer than most_seconds at this pace."""
        self.tried_count += 1
        self.failed_count += outcome.result == BAD
        is_measured = self.tried_count == MEASURED_STATES < self.state_count
        if is_measured and self.seconds * self.state_count > self.most_seconds:
            raise TooSlow

    @property
    def seconds(self) -> float:
        """How many seconds passed for each state that was tried so far, with all jobs working at
        once; 0 if none was tried."""
        return (self.clock() - self.begin_time) / self.tried_count if self.tried_count else 0.0
