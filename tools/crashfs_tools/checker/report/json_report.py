"""A report as JSON, which other tools read; docs/reference/crashfs-check.md has its keys."""

from __future__ import annotations

from dataclasses import replace
from typing import Any, Dict, Iterator

from crashfs_tools.checker.findings.groups import Group
from crashfs_tools.checker.findings.second_crashes import Recovery
from crashfs_tools.checker.running.results import Head, Results

from .counts import counts_by_profile
from .json_text import COMPACT, as_json, unpack_text
from .report import CheckReport
from .text import ReportText

# What stopped a check that could not say so itself.
KILLED = 'a kill'


def json_pieces(report: CheckReport) -> Iterator[str]:
    """The text of the file of --json, in pieces: the results of each window, the entries with their
    texts, and what else was found. A report that was made without has_json keeps no results, so
    its text has no windows."""
    yield head_piece(report.head, **COMPACT)
    for place, window in enumerate(report.packed_windows):
        yield (',\n' if place else '') + unpack_text(window)
    groups = [group_fields(report, group) for group in report.groups()]
    yield '],\n"groups":' + as_json(groups, indent=1)
    recoveries = [recovery_fields(recovery) for recovery in report.recoveries]
    yield ',\n"recoveries":' + as_json(recoveries, indent=1)
    if report.sightings is not None:
        yield ',\n"disks":' + as_json(report.sightings.fields(), indent=1)
    if report.not_done:
        yield ',\n"not_done":' + as_json(report.not_done)
    missing = [entry.fields for entry in report.missing_accepted_failures()]
    yield ',\n"accepted_missing":' + as_json(missing, indent=1)
    yield '}\n'


def partial_pieces(report: CheckReport, results: Results, *, has_rest: bool) -> Iterator[str]:
    """The text of the file of --json while the check still runs, in pieces, as if it were killed:
    the results of earlier windows and, as `results`, of the present one, without entries and
    recoveries. has_rest says whether the session goes on after the present window. The report isn't
    changed."""
    head = replace(report.head, stopped=KILLED, has_rest=has_rest)
    yield head_piece(head)
    for window in report.packed_windows:
        yield unpack_text(window) + ',\n'
    yield as_json(results.fields()) + '],\n"groups":[],\n"recoveries":[]}\n'


def head_piece(head: Head, **layout: Any) -> str:
    """The first piece of the file of --json: an object with the fields of the head, and in it the
    beginning of the list of windows. layout is as in as_json()."""
    without_brace = as_json(head.fields(), **layout)[:-1]
    return f'{without_brace},\n"windows":[\n'


def recovery_fields(recovery: Recovery) -> Dict[str, Any]:
    """What the JSON has of a recovery. Its `groups` are empty if the recovery has a fault; the
    `text` of a group is only the advice."""
    groups = [
        {
            'cause': group.outcome.cause,
            'states': [state.number for state in group.states],
            'example': group.example.number,
            'crash': recovery.crash_places[group.example.number],
            'text': group.advice.lines(),
        }
        for group in recovery.groups
    ]
    return {
        'state': recovery.state,
        'states': recovery.tried_count,
        'fault': recovery.fault,
        'groups': groups,
    }


def group_fields(report: CheckReport, group: Group) -> Dict[str, Any]:
    """What the JSON has of an entry. It has `good` and `differences` only if the files of the
    entry's example were compared. `lost` has the numbers of the lines that the example lacks."""
    fields = {
        'cause': group.outcome.cause,
        'states': [state.number for state in group.states],
        'different': group.count,
        'under': counts_by_profile(group),
        'explained': len(group.explained_states),
        'covered': group.is_covered,
        'example': group.example.number,
        'lines': group.line_pairs,
        'lost': group.lost_lines,
        'text': ReportText(report).details(group),
        'syncs': group.advice.syncs,
        'accepted': group.accepted_entry and group.accepted_entry.fields,
        'accept': group.as_accepted.fields,
    }
    if group.difference is not None:
        fields.update(good=group.difference.good_state, differences=group.difference.lines)
    return fields
