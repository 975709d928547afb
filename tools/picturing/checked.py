"""Runs a check of an example, for what a picture shows of it."""

from __future__ import annotations

import os
from typing import NamedTuple, Sequence

from crashfs_tools.checker.command_line import read_options
from crashfs_tools.checker.checked_trace import CheckedTrace
from crashfs_tools.checker.checking import new_check
from crashfs_tools.common.entry import Entries
from crashfs_tools.checker.findings.groups import Findings
from crashfs_tools.common.guard import Guard
from crashfs_tools.common.program import Crashfs
from crashfs_tools.checker.report.report import CheckReport
from crashfs_tools.checker.running.trials import Trials


class CheckedExample(NamedTuple):
    """What a check of an example found, its report, and the tree of the state that is the example
    of the report's first entry, as entries by path."""

    findings: Findings
    report: CheckReport
    tree: Entries


def check_example(trace: str, command: Sequence[str]) -> CheckedExample:
    """Checks a trace, which must have one window, by the second reading: so pictures need no built
    program. The command runs in all states, as crashfs-check would run it. All children of this
    process are ended. ValueError if no state fails, OSError if the trace can't be read. What ends
    the check early is raised, and what Check.run() and read_options() raise, such as Refused."""
    words = ['--unproved', '--html', os.devnull, trace, '--', *command]
    options = read_options(words)
    program = Crashfs.find_or_second_reading(None, is_unproved=True)
    with Guard('crashfs-picture') as guard:
        checked_trace = CheckedTrace.read(options, program, guard)
        check = new_check(checked_trace)
        report, _, exception = check.run()
        if exception is not None:
            raise exception
        planned = next(iter(checked_trace.all_planned()))
        assert check.last_window is not None
        if not report.groups():
            raise ValueError(f'no state of {trace} fails')
        state = report.groups()[0].example.number
        tree = Trials(checked_trace.workplace, planned).trees.of_state(state)
    return CheckedExample(check.last_window.findings, report, tree)
