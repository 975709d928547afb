"""The picture of a session's micro-operations, with all sets of them that a crash may leave."""

from __future__ import annotations

import textwrap

from .session import ModelledSession, Row
from .svg import LINE, MARGIN, WIDTH, Picture, rectangle_element, text_element

# Where the numbers of lines end, and where words and cells begin.
NUMBER, WORDS, SETS = MARGIN + 18, MARGIN + 26, 240
# So many characters of the explanation fit a line.
COLUMNS = 62
EXPLANATION = (
    'A coloured cell: the crash left this micro-operation on the disk. A set that has one '
    'below a sync has all that the sync covers. In the red sets line 14 is kept and '
    'acknowledged, but the rename of line 13 is lost: recovery fails.'
)
STYLE = '.none { fill: var(--edge); opacity: .45 }\n'


def column_width(session: ModelledSession) -> float:
    """The width of the column of a set, with which the columns of all sets fill the picture."""
    return (WIDTH - MARGIN - SETS) / len(session.sets)


def draw_cells(picture: Picture, session: ModelledSession, place: int) -> None:
    """Adds a cell for each set to the row that was added last, which is that of the place. The cell
    is faint if the set lacks the place, else red if recovery fails with the set, else green.
    Doesn't change the picture's y."""
    width = column_width(session)
    for column, kept_set in enumerate(session.sets):
        colour = 'bad' if kept_set in session.failing_sets else 'good'
        classes = colour if kept_set >> place & 1 else 'none'
        x = SETS + column * width
        picture.add(rectangle_element(x, picture.y - 12, width - 1, LINE - 4, classes))


def draw_row(picture: Picture, session: ModelledSession, row: Row, *, has_number: bool) -> None:
    """Adds a row below what is there: its words, the number of its line if has_number, and the
    cells of draw_cells() or, for a line that syncs, a rule across all columns."""
    picture.add_line(row.words, row.classes, WORDS)
    if has_number:
        picture.add(text_element(NUMBER, picture.y, str(row.line.number), 'code end grey'))
    if row.place is None:
        picture.add(rectangle_element(SETS, picture.y - 5, WIDTH - MARGIN - SETS, 1, 'sync'))
    else:
        draw_cells(picture, session, row.place)


def alternative_text(session: ModelledSession, row_count: int) -> str:
    """The alternative text of the picture of sets, which has this number of rows. Its last sentence
    is true only of the tutorial's session."""
    operation_count = len(session.operations)
    lines = {operation.line for operation in session.operations}
    return (
        f'A table of {row_count} rows and {len(session.sets)} columns. The rows are the '
        f'{operation_count} micro-operations of {len(lines)} lines of a session, and its '
        f'{row_count - operation_count} syncs. Each column is a set of micro-operations that a '
        'crash may leave on the disk: if it has a row below a sync, it has all that the sync '
        f'covers. In {len(session.failing_sets)} columns recovery fails: these have the last row, '
        'but not the rename of line 13.'
    )


def sets_picture(session: ModelledSession) -> str:
    """The picture of a session's sets, as SVG. The number of a line is shown only at its first row.
    The sentences below the rows are true only of the tutorial's session."""
    rows = session.rows()
    picture = Picture('What a crash may leave of a session', alternative_text(session, len(rows)))
    picture.add_line('Line, micro-operations', 'title')
    picture.add(text_element(SETS, picture.y, f'{len(session.sets)} sets, a column each', 'title'))
    previous_number = 0
    for row in rows:
        draw_row(picture, session, row, has_number=row.line.number != previous_number)
        previous_number = row.line.number
    picture.y += 6
    picture.add_lines(textwrap.wrap(EXPLANATION, COLUMNS))
    return picture.svg_file(STYLE)
