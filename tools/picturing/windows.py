"""The picture of the windows in which a long session is checked, as a check divides this one."""

from __future__ import annotations

import tempfile
import textwrap
from pathlib import Path
from typing import List, NamedTuple

from crashfs_tools.checker.checked_trace import CheckedTrace
from crashfs_tools.checker.options import Options
from crashfs_tools.checker.states.plan import PlannedTrace
from crashfs_tools.checker.states.steps import trace_text
from crashfs_tools.common.guard import Guard
from crashfs_tools.common.program import Crashfs
from crashfs_tools.common.trace import Creat, Fsync, Header, Operation, Say, Trace, Write

from .svg import LINE, MARGIN, Picture, rectangle_element, text_element

# A window has fewer micro-operations than this, so that the picture shows several windows.
LARGEST = 24
# How many rows the session appends, and the one before which it makes the file that it never syncs.
ROWS, TABLE_ROW = 14, 5
# The side of a micro-operation's square, with the gap after it.
CELL = 8
# So many characters of the explanation fit a line.
COLUMNS = 62
EXPLANATION = (
    f'A window takes {LARGEST - 1} here, and 1,024 in a check. The next one begins at the '
    'first operation that no sync has made durable, but at least half a window after this '
    'one began.'
)
# The owner and the group of all files and directories.
OWNER = 'u', 'u'


class Window(NamedTuple):
    """A window of the session: its places, from `begin` to before `end`, and the places at which
    its micro-operations make a file. The last of these in the first window is never synced."""

    begin: int
    end: int
    create_places: List[int]


def long_session() -> Trace:
    """A session that appends ROWS rows to a log, each with a sync and an acknowledged line. Before
    the row TABLE_ROW the session makes a file, whose directory it never syncs afterwards."""
    operations: List[Operation] = [Creat('/log', *OWNER, 0o644), Fsync('/')]
    for row in range(ROWS):
        if row == TABLE_ROW:
            operations.append(Creat('/table', *OWNER, 0o644))
        row_bytes = f'row {row:3}\n'.encode()
        operations += [Write('/log', len(row_bytes) * row, row_bytes), Fsync('/log')]
        operations.append(Say(f'row {row}'))
    return Trace(Header(*OWNER, 0o755), operations=operations)


def window_of(planned: PlannedTrace) -> Window:
    """The window of a planned part of the session."""
    begin, operations = planned.offsets.operations, planned.plan.operations
    create_places = [
        place
        for place, operation in enumerate(operations, begin)
        if operation.kind == 'create_dir_entry'
    ]
    return Window(begin, begin + len(operations), create_places)


def plan_windows() -> List[Window]:
    """The windows into which a check divides the session of long_session(), in their order. No
    state is tried, and no file is left. This process stays a reaper, as after each Guard."""
    with tempfile.TemporaryDirectory() as folder, Guard('crashfs-picture') as guard:
        trace_path = Path(folder, 'session.trace')
        trace_path.write_text(trace_text(long_session()), 'utf-8')
        options = Options(str(trace_path), quick=True, window=LARGEST)
        checked = CheckedTrace.read(
            options, Crashfs.find_or_second_reading(None, is_unproved=True), guard
        )
        return [window_of(planned) for planned in checked.all_planned()]


def draw_places(picture: Picture, place_count: int, unsynced: int) -> None:
    """Adds a row of squares below what is there, one for each place of a session. The square of the
    place `unsynced` is red, the others are blue."""
    picture.y += LINE + 2
    for place in range(place_count):
        colour = 'bad' if place == unsynced else 'sync'
        picture.add(rectangle_element(MARGIN + place * CELL, picture.y - 12, CELL - 1, 14, colour))


def draw_window(picture: Picture, number: int, window: Window) -> None:
    """Adds a window with its number, as a bar below what is there. The bar is as wide as the
    window's part of the session: bars of windows may overlap."""
    left, right = (MARGIN + place * CELL for place in (window.begin, window.end))
    picture.y += LINE + 3
    picture.add(rectangle_element(left, picture.y - 13, right - left - 1, 17, 'good'))
    picture.add(text_element(left + 5, picture.y, f'window {number}'))


def alternative_text(windows: List[Window], place_count: int, unsynced: int) -> str:
    """The alternative text of the picture of windows, for a session of this number of places.
    `unsynced` is the place of the file that is never synced."""
    parts = '; '.join(
        f'window {number} has {window.begin} to {window.end - 1}'
        for number, window in enumerate(windows, 1)
    )
    return (
        f'A session of {place_count} micro-operations, as a row of squares. Number {unsynced} is '
        f'never synced; a sync soon makes each of the others durable. {parts}. Window 2 begins at '
        f'number {unsynced}, so its loss is tried with all that follows in that window.'
    )


def windows_picture() -> str:
    """The picture of the windows of plan_windows(), as SVG. ValueError if the second window doesn't
    begin at the file that is never synced, as the picture's words say; IndexError if there is only
    one window."""
    windows = plan_windows()
    place_count, unsynced = windows[-1].end, windows[0].create_places[-1]
    if windows[1].begin != unsynced:
        raise ValueError('the second window must begin at what is never synced')
    alternative = alternative_text(windows, place_count, unsynced)
    picture = Picture('The windows of a long session', alternative)
    picture.add_line('Micro-operations of a session, and windows', 'title')
    draw_places(picture, place_count, unsynced)
    for number, window in enumerate(windows, 1):
        draw_window(picture, number, window)
    picture.y += 6
    picture.add_line('Red: a file is made, and its directory is never synced.', 'bad')
    picture.add_lines(textwrap.wrap(EXPLANATION, COLUMNS))
    return picture.svg_file()
