"""Begins a trace after an acknowledged line: its start tree is what was there then."""

from __future__ import annotations

import fnmatch

from crashfs_tools.common.command import parse_number
from crashfs_tools.common.trace import Say
from crashfs_tools.common.tree import start_lines

from .recording import Recording


class LateStart:
    """Begins the trace again after an acknowledged line: the one with a number, from 1, or the
    first one that a pattern matches. The recording's on_acknowledged must be count_line(); its
    has_late_start is True once that line has come."""

    def __init__(self, recording: Recording, number_or_pattern: str) -> None:
        """What parse_number() takes is a number; any other text is a pattern of fnmatch."""
        self.recording, self.pattern = recording, number_or_pattern
        self.number = parse_number(number_or_pattern)
        self.line_count = 0

    def count_line(self, line: Say) -> None:
        """Counts an acknowledged line. If this is the first wanted line, the trace begins again;
        later lines are only counted."""
        self.line_count += 1
        if not self.recording.has_late_start and self.is_wanted(self.line_count, line.text):
            restart_trace(self.recording)

    def is_wanted(self, number: int, text: str) -> bool:
        """Whether the trace may begin after the acknowledged line with this number, from 1, and
        this text: it has the wanted number, or matches the pattern, in which upper and lower case
        differ."""
        if self.number is not None:
            return number == self.number
        return fnmatch.fnmatchcase(text, self.pattern)


def restart_trace(recording: Recording) -> None:
    """Begins the trace again, with the recording's tree as its start tree: what wasn't synced
    before counts as durable. Earlier troubles stay, but without their lines. Sets the recording's
    has_late_start; its tree and trace are new objects."""
    header, lines = start_lines(recording.tree.entries, recording.tree.files)
    recording.begin_trace(header)
    for line in lines:
        recording.add_start_line(line)
    recording.has_late_start = True
