"""The report as JUnit XML, which systems for continuous integration show."""

from __future__ import annotations

from collections import Counter
from itertools import chain
from typing import Counter as Counts
from typing import Iterator, List, NamedTuple, Optional, Sequence, Tuple
from xml.sax.saxutils import escape, quoteattr

from crashfs_tools.checker.findings.groups import Group
from crashfs_tools.checker.findings.second_crashes import SecondCrash
from crashfs_tools.checker.findings.sightings import DiskFailure
from crashfs_tools.checker.running.runner import BAD, Outcome
from crashfs_tools.common.printable import escape_unprintable

from .report import CheckReport
from .text import ReportText, accepted_text

# Control characters that XML has too.
SPACES = '\n\t'
# The elements that say how a test case ended; one that passes has none of them.
FAILURE, ERROR, SKIPPED = 'failure', 'error', 'skipped'

# A group, and its second crash if it is one of second crashes, else None.
ReportEntry = Tuple[Group, Optional[SecondCrash]]


class TestCase(NamedTuple):
    """A test case, as JUnit has it. `element` is FAILURE, ERROR or SKIPPED, or empty if the case
    passes. A failure or error has its lines, and what COMMAND printed, None if nothing was run."""

    name: str
    seconds: float
    element: str = ''
    message: str = ''
    details: Sequence[str] = ()
    output: Optional[str] = None

    def pieces(self, suite: str) -> Iterator[str]:
        """The text of the case in the file, in pieces; `suite` is the name of the suite."""
        attributes = f'classname={xml_attribute(suite)} name={xml_attribute(self.name)}'
        yield f'<testcase {attributes} time="{self.seconds:.3f}">\n'
        message = xml_attribute(self.message)
        if self.element == SKIPPED:
            yield f'<{SKIPPED} message={message}/>\n'
        elif self.element:
            text = xml_text('\n'.join(self.details))
            yield f'<{self.element} message={message}>{text}</{self.element}>\n'
        if self.output is not None:
            yield f'<system-out>{xml_text(self.output)}</system-out>\n'
        yield '</testcase>\n'


def junit_pieces(report: CheckReport) -> Iterator[str]:
    """The text of the file of --junit, in pieces: a test case for each entry of the report, also of
    second crashes, for each failure on disks that no tried state has, and for all other states. The
    time of an entry is that of its example's second run, 0 without one; that of the last case is
    the rest of the time from the check's beginning until now."""
    entries: List[ReportEntry] = [(group, None) for group in report.groups()]
    entries += report.recovery_groups()
    seconds, report_text = report.seconds, ReportText(report)
    other_seconds = seconds - sum(group.rerun_seconds for group, _ in entries)
    cases = [
        entry_case(report_text, *entry, name) for entry, name in zip(entries, case_names(entries))
    ]
    cases += map(disk_case, report.disk_failures())
    cases.append(others_case(report_text, max(0.0, other_seconds)))
    suite = f'crashfs-check {report.head.trace}'
    yield '<?xml version="1.0" encoding="UTF-8"?>\n'
    yield f'<testsuite name={xml_attribute(suite)} {case_counts(cases)} time="{seconds:.3f}">\n'
    yield from chain.from_iterable(case.pieces(suite) for case in cases)
    yield '</testsuite>\n'


def case_names(entries: List[ReportEntry]) -> Iterator[str]:
    """Yields the name of each entry's test case: its cause, with a number in brackets if an earlier
    entry has this cause."""
    counts: Counts[str] = Counter()
    for group, _ in entries:
        cause = group.outcome.cause
        counts[cause] += 1
        yield f'{cause} ({counts[cause]})' if counts[cause] > 1 else cause


def case_counts(cases: List[TestCase]) -> str:
    """How many test cases there are, and how many of them are failures, errors and skipped, as
    attributes in XML."""
    counts = Counter(case.element for case in cases)
    return (
        f'tests="{len(cases)}" failures="{counts[FAILURE]}" errors="{counts[ERROR]}" '
        f'skipped="{counts[SKIPPED]}"'
    )


def entry_case(
    report_text: ReportText, group: Group, second_crash: Optional[SecondCrash], name: str
) -> TestCase:
    """The test case of an entry: a failure, or an error if COMMAND gave no answer. If the entry is
    accepted, the case is skipped, and only has the reason. `name` is that of the case, which isn't
    always the cause. second_crash is None unless the entry is one of second crashes."""
    seconds, outcome = group.rerun_seconds, group.outcome
    if group.accepted_entry is not None:
        return TestCase(name, seconds, SKIPPED, accepted_text(group.accepted_entry))
    first_line, *details = report_text.group_lines(group, second_crash)
    first_line = first_line.strip()
    message = ' '.join(group.advice.lines()) or first_line
    lines = [first_line, *details]
    return TestCase(name, seconds, fault_element(outcome), message, lines, outcome.output)


def others_case(report_text: ReportText, seconds: float) -> TestCase:
    """The test case of all states that are in no entry: an error if the report isn't whole, because
    a state or a recovery wasn't tried. Its time is `seconds`."""
    name, lines = report_text.others_name, report_text.others_fault_lines()
    return TestCase(name, seconds, ERROR, lines[0], lines) if lines else TestCase(name, seconds)


def disk_case(failure: DiskFailure) -> TestCase:
    """The test case of a failure on disks that no tried state has: an error if COMMAND gave no
    answer there. Its time is 0."""
    lines, outcome = failure.lines(), failure.outcome
    return TestCase(failure.name, 0, fault_element(outcome), lines[0], lines, outcome.output)


def fault_element(outcome: Outcome) -> str:
    """The element that a test case has for an outcome, which isn't good: FAILURE, or ERROR if there
    was no answer."""
    return FAILURE if outcome.result == BAD else ERROR


def xml_text(text: str) -> str:
    """A text as XML has it between tags, with newlines and tabs as they are."""
    return escape(escape_unprintable(text, SPACES))


def xml_attribute(text: str) -> str:
    """A text as the value of an attribute, with its quotes; newlines and tabs are shown as
    escapes."""
    return quoteattr(escape_unprintable(text))
