"""The report of a check, for programs."""

from __future__ import annotations

import os
from dataclasses import dataclass, field
from typing import Callable, Dict, Iterator, List, Optional, Union

from crashfs_tools.checker.findings.groups import Group
from crashfs_tools.checker.findings.accepted_failures import AcceptedFailure
from crashfs_tools.checker.report.counts import counts_by_profile
from crashfs_tools.checker.report.report import CheckReport
from crashfs_tools.checker.report.text import ReportText
from crashfs_tools.common.trace_lines import TraceLine
from crashfs_tools.common.whole_files import write_whole_file

PathLike = Union[str, 'os.PathLike[str]']


@dataclass(frozen=True)
class Entry:
    """Failing states with one cause and one pair of lines in the wrong order.

    cause is what the recovery said of the example. text has the lines below it: which line was lost
    and which was kept, the advice, and what was tried. states has the numbers of all its states;
    count is how many of them differ, and example is the number of the one that lacks the least.
    lost and kept are the two lines of the trace, each None if there is none. syncs has, by the
    number of a line, the path to sync after it. profiles has for each profile how many of the
    different states it allows; it is empty if all are equal to states of the window before.
    accepted is the known failure that the entry is; None if it is no known one."""

    cause: str
    text: List[str]
    states: List[int]
    count: int
    example: int
    lost: Optional[TraceLine] = None
    kept: Optional[TraceLine] = None
    syncs: Dict[int, str] = field(default_factory=dict)
    profiles: Dict[str, int] = field(default_factory=dict)
    accepted: Optional[AcceptedFailure] = None

    def __str__(self) -> str:
        """The entry as a report has it, without the numbers of its states."""
        return '\n'.join([self.cause, *(f'  {line}' for line in self.text)])


@dataclass(frozen=True)
class StateOutcome:
    """What the recovery made of a state: result is `good`, `bad` or `no answer`, cause what it
    said, and output the end of what it printed. acknowledged is how many lines the session had
    acknowledged before the crash, and profiles are the names of those that allow the state."""

    number: int
    acknowledged: int
    result: str
    cause: str
    output: str
    profiles: List[str]


class Report:
    """What a check found. It is printed as crashfs-check prints it. Each property computes its
    value again: keep what you use often."""

    def __init__(self, check_report: CheckReport, mode: int = 0o600) -> None:
        """The files of the report get at most the rights of `mode`: who may not read the trace may
        not read them."""
        self._check_report = check_report
        self._mode = mode
        self._text = ReportText(check_report)

    @property
    def status(self) -> int:
        """The exit status of crashfs-check: 3 if a state has no answer; else 1 if something fails
        that isn't accepted; else 3 if something was not tried, as after a time limit; else 0."""
        return self._check_report.status

    @property
    def entries(self) -> List[Entry]:
        """The entries of states that fail or have no answer, the one with the most different states
        first. Accepted failures are among them, second crashes (nested) are not."""
        return [self._entry(group) for group in self._check_report.groups()]

    @property
    def failures(self) -> List[Entry]:
        """The entries that aren't accepted failures. If there are none, the status may be 1 or 3
        nevertheless: for second crashes (nested), or for what wasn't tried."""
        return [entry for entry in self.entries if entry.accepted is None]

    @property
    def states(self) -> List[StateOutcome]:
        """The outcome of each state that was tried, or is equal to one that was, ascending by their
        numbers. A state that the window before has too isn't listed again, and states of second
        crashes (nested) aren't listed. Empty if the check didn't keep the outcomes; check()
        does."""
        return [
            StateOutcome(
                state.number, state.says, outcome.result, outcome.cause, outcome.output, profiles
            )
            for state, outcome, profiles in self._check_report.state_outcomes
        ]

    @property
    def lines(self) -> List[str]:
        """The lines of the report, as crashfs-check prints them."""
        return self._text.lines()

    @property
    def operations(self) -> Dict[int, TraceLine]:
        """The operations of the trace in words, by the numbers of their lines; empty if the check
        ended before the first state was tried."""
        return dict(self._check_report.head.lines)

    @property
    def profiles(self) -> List[str]:
        """The names of the trace's profiles, which the entries and states have; empty if the plan
        doesn't say which profiles allow its states."""
        return list(self._check_report.profiles)

    def __str__(self) -> str:
        """The report as crashfs-check prints it."""
        return '\n'.join(self._text.lines())

    def write_json(self, path: PathLike) -> None:
        """Writes the file of --json, for other tools, --merge and --resume; `-` is standard output.
        Only those who may read the trace may read the file. OSError if it can't be written: an old
        file stays then, unless only the sync of its directory failed. The check must have kept what
        the file has, as check() does."""
        from crashfs_tools.checker.report.json_report import json_pieces

        self._write(path, json_pieces)

    def write_junit(self, path: PathLike) -> None:
        """Writes the report as JUnit XML. `-`, the file's rights, an old file and an OSError are as
        in write_json()."""
        from crashfs_tools.checker.report.junit import junit_pieces

        self._write(path, junit_pieces)

    def write_tap(self, path: PathLike) -> None:
        """Writes the report in the Test Anything Protocol. `-`, the file's rights, an old file and
        an OSError are as in write_json()."""
        from crashfs_tools.checker.report.tap import tap_pieces

        self._write(path, tap_pieces)

    def write_html(self, path: PathLike) -> None:
        """Writes the report as a page for a browser. `-`, the file's rights, an old file and an
        OSError are as in write_json(). The picture of the states is empty if the check didn't keep
        it; check() does."""
        from crashfs_tools.checker.report.page import page_pieces

        self._write(path, page_pieces)

    def _write(self, path: PathLike, pieces_of: Callable[[CheckReport], Iterator[str]]) -> None:
        """Replaces a file by the text whose pieces `pieces_of` yields for the check's report, as
        write_whole_file() does, with at most the rights of the report's mode. OSError as there."""
        write_whole_file(os.fspath(path), pieces_of(self._check_report), self._mode)

    def _entry(self, group: Group) -> Entry:
        """A group of states as an entry. The entry's lists and dicts are its own, so a caller may
        change them."""
        return Entry(
            group.outcome.cause,
            self._text.details(group),
            [state.number for state in group.states],
            group.count,
            group.example.number,
            group.lost_line,
            group.kept_line,
            dict(group.advice.syncs),
            counts_by_profile(group),
            group.accepted_entry,
        )
