"""How far a check is: a line on a terminal, else one every half a minute."""

from __future__ import annotations

import time
from typing import Callable, Optional, TextIO

from crashfs_tools.checker.options import NAME
from crashfs_tools.common.printable import count_text

from .pace import Pace

EVERY_SECONDS = 30.0
TERMINAL_SECONDS = 0.1
UNITS = ((3600, 'hour'), (60, 'minute'), (1, 'second'))


class Progress:
    """Shows how many states of a part of a check were tried: on a terminal in one line that
    changes, else in a new line every EVERY_SECONDS, also if parts take less time than that; or, on
    a terminal only, how many moments on disks. If the stream is None, nothing is shown."""

    def __init__(
        self, stream: Optional[TextIO], clock: Callable[[], float] = time.monotonic
    ) -> None:
        """If the stream is no terminal, the first line comes EVERY_SECONDS after this call. `clock`
        returns seconds."""
        self.stream = stream
        self.clock = clock
        self.report_time = clock()
        self.is_terminal = stream is not None and stream.isatty()

    def show_pace(self, name: str, pace: Pace) -> None:
        """Shows how many states of a part were tried, after its name, which may be empty, if a line
        is_due()."""
        if self.is_due():
            self.show_text(name + pace_text(pace))

    def is_due(self) -> bool:
        """Whether the last line is TERMINAL_SECONDS old on a terminal, or EVERY_SECONDS on another
        stream."""
        least_seconds = TERMINAL_SECONDS if self.is_terminal else EVERY_SECONDS
        return self.clock() - self.report_time >= least_seconds

    def show_text(self, text: str) -> None:
        """Shows a text in place of the line on a terminal, or as a new line on another stream."""
        self.report_time = self.clock()
        self.print_text(f'\r{text}\033[K' if self.is_terminal else f'{NAME}: {text}\n')

    def remove_line(self) -> None:
        """Removes the line from a terminal, which the stream must be. The next line is due as if it
        were still there."""
        self.print_text('\r\033[K')

    def print_text(self, text: str) -> None:
        """Prints a text on the stream, and flushes the stream. After an OSError, which isn't
        raised, nothing is shown any more: the check continues."""
        if self.stream is None:
            return
        try:
            print(text, end='', file=self.stream, flush=True)
        except OSError:
            self.stream = None

    def show_moments(self, tried_count: int, moment_count: int) -> None:
        """On a terminal, shows how many moments of a session were tried on real disks, each counted
        once for each file system, if a line is_due(). After the last moment the line is removed in
        any case."""
        if not self.is_terminal:
            return
        if tried_count == moment_count:
            self.remove_line()
        elif self.is_due():
            self.show_text(f'disks: {tried_count:,} of {moment_count:,} moments')

    def end_part(self, pace: Pace) -> None:
        """Removes the line of a part from a terminal, if there may be one: not if no state of the
        part was tried."""
        if self.is_terminal and pace.tried_count:
            self.remove_line()


def pace_text(pace: Pace) -> str:
    """The counts of a part, and about how long its other states will take if they are as slow as
    those that were tried: 0 seconds if none was."""
    left_text = duration_text(pace.seconds * (pace.state_count - pace.tried_count))
    return (
        f'{pace.tried_count:,} of {pace.state_count:,} tried, {pace.failed_count:,} fail, '
        f'about {left_text} left'
    )


def duration_text(seconds: float) -> str:
    """A duration in the largest of UNITS that isn't longer than it, rounded, such as `2 hours`. A
    duration below one second is in seconds, such as `0 seconds`."""
    unit_seconds, unit_name = next((unit for unit in UNITS if seconds >= unit[0]), UNITS[-1])
    return count_text(round(seconds / unit_seconds), unit_name)
