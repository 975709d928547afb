"""The rows of docs/results.json: what a check of a store's session found."""

from __future__ import annotations

import json
from collections import Counter
from pathlib import Path
from typing import Any, Dict, Iterator, List
from typing import Counter as Counts

from crashfs_tools.checker.findings.sightings import Reason
from crashfs_tools.checker.report.counts import StateCounts
from crashfs_tools.checker.running.read_results import read_json
from crashfs_tools.checker.running.results import AllResults, Results
from crashfs_tools.checker.running.runner import BAD
from inventory.results import RESULTS, Row

from .store_sessions import Session, read_sessions

# So many lines of a report are kept: its first, and those of its first entry, which says last where
# it was seen on disks.
REPORT_LINES = 12


class ResultsFile:
    """The file docs/results.json, or another of its form: a row on each line, in the order of
    stores.json. Each call reads it again."""

    def __init__(self, path: Path = RESULTS) -> None:
        self.path = path

    def read_rows(self) -> List[Row]:
        """The rows of the file, in its order; none if there is no file. ValueError if the file is
        no JSON, OSError if it can't be read."""
        if not self.path.exists():
            return []
        rows: List[Row] = json.loads(self.path.read_text('utf-8'))
        return rows

    def put_row(self, row: Row) -> None:
        """Puts a row into the file, instead of a row with its key. Rows are in the order of
        stores.json; rows of other sessions are kept, and come last. Errors as read_rows() and
        read_sessions(), before anything is written; an OSError of the write may leave a part of the
        file. A row that another process puts at the same time may be lost."""
        rows = {old_row['key']: old_row for old_row in self.read_rows()}
        rows[row['key']] = row
        key_order = {session.key: number for number, session in enumerate(read_sessions())}
        keys = sorted(rows, key=lambda key: key_order.get(key, len(key_order)))
        lines = ',\n'.join(json.dumps(rows[key], ensure_ascii=False) for key in keys)
        self.path.write_text(f'[\n{lines}\n]\n', 'utf-8')


def row_of_check(session: Session, version: str, json_path: str, report: str) -> Row:
    """The row of a session, from the version of its store, the file that its check wrote for
    --json, and the text of the check's report. Failing states are counted, not the sets that leave
    them; states without an answer count only as tried. ValueError if the report is empty, Refused
    as read_json()."""
    first_line, *lines = [line for line in report.splitlines() if not line.startswith('unproved: ')]
    results = read_json(json_path)
    windows = results.windows
    outcomes = [outcome for window in windows for outcome in window.outcomes.values()]
    failing = [outcome for outcome in outcomes if outcome.result == BAD]
    return {
        'key': session.key,
        'store': session.store['store'],
        'version': version,
        'session': session.title,
        'micro_operations': sum(len(window.plan.operations) for window in windows),
        'sets': counts_of_plans(windows).set_count,
        'is_whole': has_tried_all(results),
        'tried': len(outcomes),
        'failing': len(failing),
        'causes': Counter(outcome.cause_kind for outcome in failing),
        'profiles': failing_by_profile(windows),
        'disks': disk_counts(json.loads(Path(json_path).read_text('utf-8'))),
        'report': [first_line, *(first_entry_lines(lines) if failing else [])][:REPORT_LINES],
    }


def counts_of_plans(windows: List[Results]) -> StateCounts:
    """What the plans of all windows know of their crash states; outcomes aren't counted."""
    return StateCounts(all_states=[window.plan.all_states for window in windows])


def has_tried_all(results: AllResults) -> bool:
    """Whether a check has tried all crash states of its session: it wasn't stopped, and the end of
    a window cut no loss off."""
    are_all_tried = all(
        window.outcomes.keys() >= set(window.own_numbers.values()) for window in results.windows
    )
    are_all_listed = counts_of_plans(results.windows).are_all_listed
    return are_all_tried and are_all_listed and not (results.head.stopped or results.head.cut_off)


def failing_by_profile(windows: List[Results]) -> Dict[str, int]:
    """How many failing states each profile of the trace allows, by its name; 0 for a profile that
    allows none. A state counts for each profile that allows it; of equal states only the one that
    was tried counts."""
    names = (name for window in windows for name in window.plan.profiles.names)
    counts: Counts[str] = Counter(dict.fromkeys(names, 0))
    for window, state in ((window, state) for window in windows for state in window.plan.states):
        outcome = window.outcomes.get(state.number)
        if outcome is not None and outcome.result == BAD:
            counts.update(window.plan.profile_names_of(state))
    return dict(counts)


def disk_counts(report: Dict[str, Any]) -> Dict[str, Dict[str, int]]:
    """What a check's report in JSON says of disks, by file system: how many different trees crashes
    left (trees), in how many of these the recovery fails (failing), and how many of the failing
    trees no crash state has (outside). Empty if the check was made without --disks."""
    disks = report.get('disks')
    if not disks:
        return {}
    outside: Counts[str] = Counter()
    for disk in disks['further']:
        if disk['where'] == Reason.OUTSIDE.value:
            outside.update(disk['crashes'].keys())
    return {
        name: {'trees': counts['different'], 'failing': counts['failing'], 'outside': outside[name]}
        for name, counts in disks['filesystems'].items()
    }


def first_entry_lines(lines: List[str]) -> Iterator[str]:
    """The lines of a report's first entry, from the report's lines after its first: the cause, and
    what follows with an indent of 4 or more. Nothing if there are no lines."""
    for number, line in enumerate(lines):
        if number and not line.startswith('    '):
            return
        yield line
