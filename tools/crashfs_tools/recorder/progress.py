"""Prints, every few seconds while COMMAND runs, how many calls it has made."""

from __future__ import annotations

import threading
from typing import Callable

from crashfs_tools.common.command import print_line

INTERVAL_SECONDS = 5.0


class CallProgress:
    """A context, to be entered once, in which a thread prints every few seconds how many calls
    there are so far. Its end waits until no line is printed any more."""

    def __init__(self, program_name: str, count_calls: Callable[[], int]) -> None:
        """Prints nothing yet. Each line begins with the program's name. The thread calls
        count_calls for the number of calls."""
        self.program_name, self.count_calls = program_name, count_calls
        self.end_event = threading.Event()
        self.thread = threading.Thread(target=self.print_lines, daemon=True)

    def __enter__(self) -> CallProgress:
        self.thread.start()
        return self

    def print_lines(self) -> None:
        """Prints a line on standard error after each interval, until the context ends. This is
        what the thread runs."""
        while not self.end_event.wait(INTERVAL_SECONDS):
            count = f'{self.count_calls():,} calls so far'
            print_line(self.program_name, f'{count}; Ctrl-C ends COMMAND, and the trace is written')

    def __exit__(self, *_: object) -> None:
        self.end_event.set()
        self.thread.join()
