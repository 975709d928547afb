"""The picture of all states of a session, as the page of `crashfs-check --html` draws them."""

from __future__ import annotations

import re
import textwrap
from typing import Dict, List

from crashfs_tools.checker.report.drawing import SIGNS, Drawing, drawing_of
from crashfs_tools.checker.report.text import ReportText
from crashfs_tools.checker.running.runner import BAD, GOOD

from .checked import CheckedExample
from .svg import LINE, MARGIN, WIDTH, Picture, path_element, rectangle_element, text_element

# The side of a state's square, with the gap after it.
CELL = 5
# So many characters of a text fit a line.
COLUMNS = 60
# The sign of a state's result in a drawing: its colour, and what the key says of it.
RESULTS = {
    SIGNS[GOOD]: ('good', 'recovery found all rows'),
    SIGNS[BAD]: ('bad', 'an acknowledged row is lost'),
}
# The lines of the key: the colour that each explains, or none, and what it says.
KEY = (
    *RESULTS.values(),
    ('', '\u2192 how much of the session had begun'),
    ('', '\u2193 the step that the crash lost (top: none)'),
    ('', 'equal states are drawn more than once'),
)
STYLE = f""".cells {{ fill: none; stroke-width: {CELL - 1}; stroke-dasharray: {CELL - 1} 1 }}
.cells.good {{ stroke: var(--good) }}
.cells.bad {{ stroke: var(--bad) }}
"""


def rows_of_holes(drawing: Drawing) -> List[str]:
    """The signs of prefixes and of states with one hole, as rows: the prefixes first, then for each
    micro-operation the states that lack it. The column of a state is how many micro-operations had
    begun; a blank means that there is no such state."""
    lengths = range(len(drawing['prefixes']))
    holes: List[str] = drawing['holes']
    rows = [
        ''.join(holes[length][lost] if lost < len(holes[length]) else ' ' for length in lengths)
        for lost in range(max(lengths))
    ]
    return [drawing['prefixes'], *rows]


def runs_of(row: str, sign: str) -> List[range]:
    """The columns at which a row has the sign, one character, as the fewest ranges, from the left;
    empty if the row doesn't have it."""
    return [range(*run.span()) for run in re.finditer(f'{re.escape(sign)}+', row)]


def draw_states(picture: Picture, rows: List[str], y: float) -> None:
    """Adds the states of rows that begin at the height y: for each sign of RESULTS a path, whose
    dashes are the states with the sign. States with other signs, which weren't tried or gave no
    answer, aren't drawn. Doesn't change the picture's y."""
    for sign, (colour, _) in RESULTS.items():
        picture.add(path_element(path_steps(rows, sign, y), f'cells {colour}'))


def path_steps(rows: List[str], sign: str, y: float) -> str:
    """The steps of a path along the states with the sign, in rows that begin at the height y; empty
    without such states. The dashes in STYLE divide the path into squares with gaps: a run of states
    has no gap after its last square."""
    return ''.join(
        f'M{MARGIN + run.start * CELL:g} {y + (number + 0.5) * CELL:g}h{len(run) * CELL - 1}'
        for number, row in enumerate(rows)
        for run in runs_of(row, sign)
    )


def acknowledged_columns(checked: CheckedExample) -> Dict[int, str]:
    """The text of each acknowledged line, by the first column of rows_of_holes() in which it had
    been printed."""
    lines = checked.report.head.lines
    return {
        column: lines[operation.line].details
        for column, operation in enumerate(checked.findings.plan.operations, 1)
        if operation.kind == 'say'
    }


def draw_holes(picture: Picture, checked: CheckedExample, drawing: Drawing) -> None:
    """Adds the prefixes and the states with one hole below what is there, and the key in the corner
    that has no states. The text of each acknowledged line is above its first column, at the left
    side of which a rule goes down."""
    rows = rows_of_holes(drawing)
    picture.y += LINE
    for column, words in acknowledged_columns(checked).items():
        x = MARGIN + column * CELL
        picture.add(text_element(x + CELL, picture.y, words, 'end'))
        picture.add(rectangle_element(x - 1, picture.y + 4, 1, column * CELL, 'edge'))
    picture.y += 6
    draw_states(picture, rows, picture.y)
    picture.y += len(rows) * CELL
    draw_key(picture, picture.y)


def draw_picks(picture: Picture, drawing: Drawing) -> None:
    """Adds a line below what is there that counts the states with other losses, and below it these
    states, those that lack the fewest micro-operations first."""
    picture.add_line(
        f'and {len(drawing["picks"]):,} states with other losses, \u2193 more in each row:'
    )
    rows = rows_by_loss(drawing)
    draw_states(picture, rows, picture.y + 6)
    picture.y += 6 + len(rows) * CELL


def rows_by_loss(drawing: Drawing) -> List[str]:
    """The signs of the states with other losses, as rows: those that lack the fewest
    micro-operations first, as in the drawing's picks. States that lack the same number of
    micro-operations begin a row, and continue in further rows if they don't fit."""
    width = (WIDTH - 2 * MARGIN) // CELL
    signs: Dict[int, str] = {}
    for _, sign, lost_count in drawing['picks']:
        signs[lost_count] = signs.get(lost_count, '') + sign
    return [
        row[begin : begin + width] for row in signs.values() for begin in range(0, len(row), width)
    ]


def draw_key(picture: Picture, bottom: float) -> None:
    """Adds the lines of KEY at the left, a little above the height `bottom`. Doesn't change the
    picture's y."""
    for line, (colour, words) in enumerate(KEY, 1 - len(KEY)):
        y = bottom - 8 + line * LINE
        if colour:
            picture.add(rectangle_element(MARGIN, y - 10, 11, 11, colour))
            picture.add(text_element(MARGIN + 18, y, words))
        else:
            picture.add(text_element(MARGIN, y, words, 'grey'))


def alternative_text(checked: CheckedExample, drawing: Drawing) -> str:
    """The alternative text of the picture of states: how many states there are, and which fail.
    IndexError if the report has no entry, AssertionError if its first entry has no lost line."""
    groups = checked.report.groups()
    lost_line = groups[0].lost_line
    assert lost_line is not None
    failing_count = sum(group.count for group in groups)
    signs = ''.join([*rows_of_holes(drawing), *rows_by_loss(drawing)]).replace(' ', '')
    return (
        f'{len(signs):,} squares, each a crash state; equal states are drawn more than once. Each '
        'column is a moment of the crash, each row the step that it lost; below are states with '
        'other losses. Red: an acknowledged row is lost. After each of the '
        f'{len(acknowledged_columns(checked))} acknowledged rows begins a row of red squares, the '
        f'states without {lost_line.text}. {signs.count(SIGNS[BAD]):,} squares are red, of '
        f'{failing_count} different states.'
    )


def states_picture(checked: CheckedExample) -> str:
    """The picture of a check's states, as SVG, with the report's summary above the states, and the
    cause and the details of the first entry below. Errors as alternative_text()."""
    drawing = drawing_of(checked.findings)
    title = f'The crash states of {checked.report.head.trace}'
    picture = Picture(title, alternative_text(checked, drawing))
    picture.add_lines(textwrap.wrap(ReportText(checked.report).summary(), COLUMNS), 'title')
    draw_holes(picture, checked, drawing)
    draw_picks(picture, drawing)
    group = checked.report.groups()[0]
    picture.y += 8
    picture.add_lines(textwrap.wrap(group.outcome.cause, COLUMNS), 'title bad')
    for detail in ReportText(checked.report).details(group):
        picture.add_lines(textwrap.wrap(detail, COLUMNS, subsequent_indent='  '))
    return picture.svg_file(STYLE)
