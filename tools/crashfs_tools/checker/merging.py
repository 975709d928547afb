"""The report of results that were read: those of shards, put together."""

from __future__ import annotations

import os
from functools import reduce
from operator import and_
from typing import Dict, List, Optional

from crashfs_tools.checker.findings.groups import Findings
from crashfs_tools.checker.findings.tree_diff import find_differences
from crashfs_tools.checker.report.report import CheckReport
from crashfs_tools.checker.running.results import AllResults, Results
from crashfs_tools.checker.running.read_results import read_json
from crashfs_tools.checker.running.runner import Outcome
from crashfs_tools.checker.running.shards import merge_shards
from crashfs_tools.checker.running.trials import Trials
from crashfs_tools.common.command import Refused
from crashfs_tools.common.guard import Guard
from crashfs_tools.common.program import Crashfs

from .checked_trace import CheckedTrace, mode_of_report, refuse_unreadable
from .checking import CheckResult, new_report
from .options import NAME, Options

OTHER_TRACE = 'that is not the trace of the reports'
OTHER_FINDINGS = 'it has findings of {}, which --merge would drop'
OTHER_PLAN = (
    'the trace has other states than the reports: give the options that they were made with'
)


def merge_reports(options: Options) -> CheckResult:
    """The report of the files of --merge, at least one, with the strictest_mode() of these and, if
    it is given, TRACE. Refused as report_of_shards(), or if TRACE can't be read; OSError if a file
    is gone."""
    sources = list(options.merge or [])
    if options.trace is not None:
        refuse_unreadable(options.trace)
        sources.append(options.trace)
    return CheckResult(report_of_shards(options), strictest_mode(sources))


def strictest_mode(paths: List[str]) -> int:
    """The mode of a file that shows parts of the files at all these paths, at least one: as
    mode_of_report(), but users other than its owner have only rights that they have to each of
    these files. OSError if a file is gone."""
    return reduce(and_, (mode_of_report(os.stat(path)) for path in paths))


def report_of_shards(options: Options) -> CheckReport:
    """The report of the files of --merge, at least one. If TRACE is given, its states are made
    again to show how files differ; otherwise no program runs. Refused as read_shard(),
    merge_shards() and report_of_results(), if the files are of another trace, or if the program
    isn't found or can't make the states. OSError if TRACE can't be read."""
    results = merge_shards([read_shard(path) for path in options.merge or []])
    if options.trace is None:
        return report_of_results(options, results)
    program = Crashfs.find_or_second_reading(options.crashfs, is_unproved=options.unproved)
    with Guard(NAME) as guard:
        trace = CheckedTrace.read(options, program, guard)
        if trace.digest() != results.head.digest:
            raise Refused(f'{options.trace}: {OTHER_TRACE}')
        with trace.refused_faults():
            return report_of_results(options, results, trace)


def read_shard(path: str) -> AllResults:
    """The results in a file of --merge, also of a check that was stopped. Refused as read_json(),
    and if the file has findings of second crashes or of disks: the merged report would lack them,
    and might report no failure."""
    results = read_json(path)
    if results.options_with_findings:
        options = ' and '.join(results.options_with_findings)
        raise Refused(f'{path}: {OTHER_FINDINGS.format(options)}')
    return results


def report_of_results(
    options: Options, results: AllResults, trace: Optional[CheckedTrace] = None
) -> CheckReport:
    """The report of results, window by window. If their trace is given, the report also says how
    files differ: the trace is planned again, and Refused if it has other states than a window of
    the results, or fewer windows. Further windows of the trace are ignored. Refused also as
    new_report(); other errors as in CheckedTrace.all_planned() and find_differences()."""
    report = new_report(results.head, options)
    report.not_done = list(results.not_done)
    previous_outcomes: Dict[int, Outcome] = {}
    all_planned = trace.all_planned() if trace else iter(())
    for window in results.windows:
        findings = Findings(results.head, window, previous_outcomes)
        previous_outcomes = findings.outcomes_by_state
        report.add(findings)
        if trace is not None:
            planned = next(all_planned, None)
            if planned is None or Results(planned.plan).identity() != window.identity():
                raise Refused(OTHER_PLAN)
            find_differences(Trials(trace.workplace, planned), findings)
    return report
