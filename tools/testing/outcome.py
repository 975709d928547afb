"""What came of some tests: their counts, and what a reader needs of those that failed."""

from __future__ import annotations

from dataclasses import dataclass, field
from typing import List


@dataclass
class Outcome:
    """The counts of a part of the tests. `seconds` is how long the part took, which run_parts()
    adds. not_run has a line, with the reason, for what was not run. output is what is printed of
    failed tests, and empty if none failed."""

    name: str
    passed: int = 0
    failed: int = 0
    skipped: int = 0
    seconds: float = 0
    not_run: List[str] = field(default_factory=list)
    output: str = ''

    def summary_line(self) -> str:
        """The outcome as a line, such as `cs_tar: 3 passed, 24 s`. A count of 0 is shown only of
        passed tests. The lines of not_run aren't counted."""
        counts = [(self.passed, 'passed'), (self.failed, 'FAILED'), (self.skipped, 'skipped')]
        shown_counts = [f'{count} {word}' for count, word in counts if count or word == 'passed']
        return f'{self.name}: {", ".join(shown_counts)}, {self.seconds:.0f} s'
