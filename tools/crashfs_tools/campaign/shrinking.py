"""Searches for the shortest part of a session in which a failure still comes: the part with the
fewest acknowledged lines."""

from __future__ import annotations

from pathlib import Path
from typing import List, Optional

from crashfs_tools.common.trace_fields import parse_line

from .book import WHOLE_SESSION, failure_key
from .sessions import Failure, Sessions


def acknowledged_places(lines: List[str]) -> List[int]:
    """The places, from 0, of the acknowledged lines among the lines of a trace. Only lines that
    contain `"say"` are parsed: TraceError if one of these isn't JSON or is nested too deeply,
    AttributeError if it isn't an object."""
    return [
        place
        for place, line in enumerate(lines)
        if '"say"' in line and parse_line(place + 1, line).get('op') == 'say'
    ]


def lines_of_trace(trace: Path) -> List[str]:
    """The lines of a trace's file, each with its line feed, without empty ones. OSError if the file
    can't be read."""
    text = trace.read_text('utf-8', 'surrogateescape')
    # Texts of a trace may have other characters that end a line for Python, such as U+2028.
    return [line + '\n' for line in text.split('\n') if line]


class Shrinking:
    """Searches for the shortest part of a session that still has the failure with a key. A part is
    the beginning of the session up to one of its acknowledged lines: say_places has the places of
    these among the trace's lines, and cut is the file that a part is written to."""

    def __init__(self, sessions: Sessions, key: str, lines: List[str]) -> None:
        """`lines` are those of the session's trace, by lines_of_trace(). Exceptions as in
        acknowledged_places()."""
        self.sessions = sessions
        self.key = key
        self.lines = lines
        self.say_places = acknowledged_places(lines)
        self.cut = sessions.folder / 'cut.trace'

    def find_failure(self, line_count: int, page: Optional[Path] = None) -> Optional[Failure]:
        """Writes the session, up to the acknowledged line number line_count, or all of it for
        WHOLE_SESSION, to the file `cut`, and checks that part, as Sessions.check() does with this
        page. Returns the failure with the key; None if the check doesn't find it. Raises what
        Sessions.check() does, and OSError if `cut` can't be written."""
        is_whole = line_count == WHOLE_SESSION
        end = len(self.lines) if is_whole else self.say_places[line_count - 1] + 1
        text = ''.join(self.lines[:end])
        self.cut.write_text(text, 'utf-8', 'surrogateescape')
        failures = self.sessions.check(self.cut, page).failures
        return next((failure for failure in failures if failure_key(failure) == self.key), None)

    def shortest_length(self, most: Optional[int] = None) -> Optional[int]:
        """The fewest acknowledged lines, at most `most` if that is given, with which the failure
        still comes, by binary search: what a part of a session may leave, a longer part may leave
        too. None if it doesn't come with the most lines that are looked at, `most` or all: it needs
        more lines, or what the session does after its last one. Raises what find_failure()
        does."""
        line_count = len(self.say_places)
        low, high = 0, line_count if most is None else min(most, line_count)
        if not high or self.find_failure(high) is None:
            return None
        while high - low > 1:
            middle = (low + high) // 2
            if self.find_failure(middle) is None:
                low = middle
            else:
                high = middle
        return high

    def write_part(self, line_count: int, trace: Path, page: Path) -> Optional[Failure]:
        """Writes the session, up to the acknowledged line number line_count, or all of it for
        WHOLE_SESSION, to the file `trace`, and the report on it to `page`. Returns the failure as a
        check finds it in this part; None if the check doesn't find it: the trace is written then
        too, and the page if the check makes a report. Raises what find_failure() does, and OSError
        if the trace can't be written."""
        failure = self.find_failure(line_count, page)
        trace.write_bytes(self.cut.read_bytes())
        return failure
