"""What the second reading refuses."""

from __future__ import annotations

from typing import Optional


class ReadingFault(Exception):
    """What the second reading refuses. Its text is what the program prints for the same fault.
    `line` is the number of the trace's line, or None if no line of a trace is at fault; `why`
    explains the fault of a line, and is else empty."""

    def __init__(self, text: str, line: Optional[int] = None, why: str = '') -> None:
        super().__init__(text)
        self.line = line
        self.why = why


class UsageFault(Exception):
    """A command line that is refused, as a line that says why."""


class LineFault(Exception):
    """A fault of one line of a trace: its kind in the program's words, such as `BadName`, and an
    explanation."""

    def __init__(self, kind: str, why: str) -> None:
        super().__init__(kind)
        self.kind = kind
        self.why = why

    def as_reading_fault(self, line: int) -> ReadingFault:
        """This fault as that of the line with this number, in the text that the program prints."""
        return ReadingFault(f'trace line {line}: {self.kind}', line, self.why)


def syntax_fault(why: str) -> LineFault:
    """The fault of a line that isn't well formed in its version."""
    return LineFault('Syntax', why)
