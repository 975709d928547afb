"""The report in the Test Anything Protocol (TAP), which the test harnesses of many languages read,
and the packages of helpers/."""

from __future__ import annotations

from typing import Iterator, List, NamedTuple, Optional, Sequence

from crashfs_tools.checker.findings.groups import Group
from crashfs_tools.checker.findings.second_crashes import SecondCrash
from crashfs_tools.common.printable import escape_unprintable

from .report import CheckReport
from .text import ReportText, accepted_text, example_number

# prove of Debian 12 refuses version 14, of which nothing is needed.
VERSION = 'TAP version 13'


class TestPoint(NamedTuple):
    """A test, as TAP has it. failure has the lines that say what failed; none if the test passes.
    reason says why it is skipped, and is empty if it isn't."""

    name: str
    failure: Sequence[str] = ()
    reason: str = ''

    def lines(self, number: int) -> Iterator[str]:
        """The lines of the test in the file, each with its line end. The test has this number in
        the file; the lines of its failure are comments."""
        result = 'not ok' if self.failure else 'ok'
        skipped = f' # SKIP {escape_unprintable(self.reason)}' if self.reason else ''
        yield f'{result} {number} - {escaped_name(self.name)}{skipped}\n'
        for line in self.failure:
            yield f'# {escape_unprintable(line)}\n'


def tap_pieces(report: CheckReport) -> Iterator[str]:
    """The text of the file of --tap, in pieces: a test for each entry of the report, for each entry
    of second crashes, for each failure on disks that no tried state has, and one for all other
    states. One of them fails exactly if the check's status isn't 0."""
    report_text = ReportText(report)
    points = [entry_point(report_text, group) for group in report.groups()]
    points += [entry_point(report_text, *entry) for entry in report.recovery_groups()]
    points += [failed_point(failure.name, failure.lines()) for failure in report.disk_failures()]
    points.append(others_point(report_text))
    yield f'{VERSION}\n1..{len(points)}\n'
    for number, point in enumerate(points, 1):
        yield from point.lines(number)


def entry_point(
    report_text: ReportText, group: Group, second_crash: Optional[SecondCrash] = None
) -> TestPoint:
    """The test of an entry: skipped if the entry is accepted, else one that failed, whose last line
    names the example. second_crash is None unless the entry is one of second crashes."""
    cause = group.outcome.cause
    if group.accepted_entry is not None:
        return TestPoint(cause, reason=accepted_text(group.accepted_entry))
    example = f'state {example_number(group, second_crash)} of {report_text.report.head.trace}'
    return failed_point(cause, [*report_text.entry_details(group, second_crash), example])


def others_point(report_text: ReportText) -> TestPoint:
    """The test of all states that are in no entry. It fails if the report isn't whole, because a
    state or a recovery wasn't tried."""
    return TestPoint(report_text.others_name, report_text.others_fault_lines())


def failed_point(cause: str, details: List[str]) -> TestPoint:
    """A test that failed. Its name is the cause; its lines are the cause and the details, which are
    indented."""
    return TestPoint(cause, [cause, *(f'  {line}' for line in details)])


def escaped_name(name: str) -> str:
    """The name of a test as TAP has it: printable, with a backslash before each backslash and each
    `#`, so that no `#` begins a directive such as SKIP."""
    return escape_unprintable(name).replace('\\', '\\\\').replace('#', '\\#')
