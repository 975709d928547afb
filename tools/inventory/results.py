"""The table of stores and their failures in docs/RESULTS.md, made from docs/results.json."""

from __future__ import annotations

import json
from typing import Dict, Iterator, List, Optional, Set, TypedDict

from .markdown import table_lines
from .sources import TOP

PAGE = TOP / 'docs' / 'RESULTS.md'
RESULTS = TOP / 'docs' / 'results.json'
PROFILES = ('blocks', 'ordered', 'journal')
# The file systems by the names that RESULTS has, with those of the page.
DISKS = {'ext4': 'ext4', 'xfs': 'XFS', 'btrfs': 'btrfs'}
# As a link of the page has it.
STORES = '../examples/stores'


class Row(TypedDict):
    """A session of a store with what was found: an object of RESULTS. `sets` is None if the sets
    are uncounted; `causes` has how many failing states are of each kind of cause; `disks` has the
    counts `trees`, `failing` and `outside` of each file system that was tried."""

    key: str
    store: str
    version: str
    session: str
    micro_operations: int
    sets: Optional[int]
    is_whole: bool
    tried: int
    failing: int
    causes: Dict[str, int]
    profiles: Dict[str, int]
    disks: Dict[str, Dict[str, int]]
    report: List[str]


def results_part() -> str:
    """The part of PAGE that is made from RESULTS: the table of all sessions, and the first failure
    of each store. OSError if RESULTS can't be read, ValueError if it is no JSON, KeyError if a row
    lacks a key that is used."""
    rows: List[Row] = json.loads(RESULTS.read_text('utf-8'))
    return '\n'.join([*session_table(rows), *failure_lines(rows)])


def session_table(rows: List[Row]) -> Iterator[str]:
    """The lines of the table of sessions, in the order of the rows."""
    columns = ['Store', 'Session', 'Crash states (sets)', 'Fail']
    columns += [f'`{name}`' for name in PROFILES]
    columns += list(DISKS.values())
    return table_lines(columns, map(row_cells, rows))


def row_cells(row: Row) -> Iterator[str]:
    """The cells of a session in the table, in the order of the columns: of the session, of all its
    states, of each profile and of each file system."""
    yield f'{row["store"]} {row["version"]}'
    yield f'[{row["session"]}]({STORES}/{row["key"].partition("/")[0]})'
    yield states_cell(row)
    yield failing_cell(row)
    yield from (profile_cell(row, profile) for profile in PROFILES)
    yield from (disk_cell(row, filesystem) for filesystem in DISKS)


def states_cell(row: Row) -> str:
    """How many different states were tried of a session, which is all of them unless the cell has
    the word `tried`; in brackets how many sets leave a state, or `uncounted`."""
    sets = 'uncounted' if row['sets'] is None else f'{row["sets"]:,}'
    if row['is_whole']:
        return f'{row["tried"]:,} ({sets})'
    return f'{row["tried"]:,} tried (of {sets})'


def failing_cell(row: Row) -> str:
    """In how many different states the recovery fails, with the cause up to its first colon. If
    these parts of the causes differ, each is there with its number of states, the commonest first.
    `none` if the recovery fails in no state."""
    if not row['failing']:
        return 'none'
    causes = sorted(row['causes'].items(), key=lambda kind_and_count: -int(kind_and_count[1]))
    if len(causes) == 1:
        return f'{row["failing"]:,} {causes[0][0]}'
    return f'{row["failing"]:,}: ' + ', '.join(f'{count:,} {kind}' for kind, count in causes)


def profile_cell(row: Row, profile: str) -> str:
    """How many of the failing states a profile allows: 0 also if the trace doesn't have the
    profile. Empty if no state fails."""
    return f'{row["profiles"].get(profile, 0):,}' if row['failing'] else ''


def disk_cell(row: Row, filesystem: str) -> str:
    """In how many of the different trees on disks of a file system the recovery fails, or `none`;
    in brackets how many of the failing trees are outside the model, if any are. Empty if the
    session wasn't tried on this file system."""
    counts = row['disks'].get(filesystem)
    if counts is None:
        return ''
    text = f'{counts["failing"]:,} of {counts["trees"]:,}' if counts['failing'] else 'none'
    return f'{text} ({counts["outside"]:,} outside)' if counts['outside'] else text


def failure_lines(rows: List[Row]) -> Iterator[str]:
    """The lines below the table: a heading, and for each store with a failing session the report of
    the first such session, as far as RESULTS has the report. Other stores aren't named."""
    yield from ('', '## The first failure of each store', '')
    stores: Set[str] = set()
    for row in rows:
        if row['failing'] and row['store'] not in stores:
            stores.add(row['store'])
            yield from (f'{row["store"]}, {row["session"]} (`{row["key"]}`):', '')
            yield from (f'    {line}'.rstrip() for line in row['report'])
            yield ''
