"""The picture of which micro-operation of a session needs which, and by which rule."""

from __future__ import annotations

from typing import Dict, Iterable, List, Tuple

from .session import ModelledSession, Need
from .svg import MARGIN, Picture, path_element, rectangle_element, text_element

# Where numbers end, and where words and arrows begin.
NUMBER, WORDS, ARROWS = MARGIN + 18, MARGIN + 26, 262
# What the key says of a rule, and the colour of its arrows.
RULES = {
    'P5': ('a sync between them covers the earlier one', 'sync'),
    'P9': ('what was acknowledged comes before all that follows', 'grey'),
    'P2': ('both name the same path', 'ink'),
    'P1': ('both change the same block, or the same size', 'ink'),
}
STYLE = """.arrow { fill: none; stroke-width: 1.3 }
.arrow.sync { stroke: var(--sync) }
.arrow.grey { stroke: var(--grey) }
.arrow.ink { stroke: var(--ink) }
.arrow.bad { stroke: var(--bad); stroke-dasharray: 4 3 }
"""


def bent_arrow(top: float, bottom: float, classes: str) -> str:
    """An arrow, as an element, from the row at the height `bottom` up to the row at `top`. A longer
    arrow bends further to the right, so that arrows of one row differ. classes name the colour of
    the arrow, one of those in STYLE."""
    bend = ARROWS + 14 + (bottom - top) * 0.85
    curve = f'M{ARROWS} {bottom:g}C{bend:g} {bottom:g} {bend:g} {top:g} {ARROWS} {top:g}'
    arrowhead = 'm5 -3l-5 3l5 3'
    return path_element(curve + arrowhead, f'arrow {classes}')


def missing_need(session: ModelledSession) -> Tuple[int, int]:
    """The places of the last acknowledged line and of the session's only rename, which the line
    should need and doesn't. ValueError if the line needs the rename, if there is no acknowledged
    line, or if there isn't exactly one rename."""
    operations = list(enumerate(session.operations))
    last_line = max(place for place, operation in operations if operation.kind == 'say')
    (rename,) = (place for place, operation in operations if operation.kind == 'move_dir_entry')
    if session.order.needs[last_line] >> rename & 1:
        raise ValueError('the session has no such bug')
    return last_line, rename


def draw_rows(picture: Picture, session: ModelledSession) -> Dict[int, float]:
    """Adds the rows of the session below what is there, each with its place. Returns the heights at
    which arrows touch the rows, by place. A line that syncs has a row too, with a dash instead of a
    place, and no height."""
    heights: Dict[int, float] = {}
    for row in session.rows():
        picture.add_line(row.words, row.classes, WORDS)
        if row.place is None:
            picture.add(text_element(NUMBER, picture.y, '\u2014', 'code end sync'))
        else:
            picture.add(text_element(NUMBER, picture.y, str(row.place), 'code end grey'))
            heights[row.place] = picture.y - 5
    return heights


def alternative_text(needs: List[Need], last_line: int, rename: int) -> str:
    """The alternative text of the picture of these needs. last_line and rename are the places of
    the last acknowledged line and of the rename, between which a need is missing."""
    texts_by_place: Dict[int, List[str]] = {}
    for need in needs:
        texts_by_place.setdefault(need.later, []).append(f'{need.earlier} ({need.rule})')
    texts = '; '.join(
        f'{later} needs {" and ".join(earlier_texts)}'
        for later, earlier_texts in texts_by_place.items()
    )
    return (
        'Arrows from each micro-operation to those that it needs, without what follows from '
        f'others: {texts}. Nothing makes {last_line}, the last acknowledged line, need {rename}, '
        'the rename: a crash may keep the one and lose the other.'
    )


def draw_key(picture: Picture, rules: Iterable[str], missing_text: str) -> None:
    """Adds, below what is there, what the arrows of these rules mean, and missing_text, what the
    missing arrow means. KeyError if RULES lacks a rule."""
    picture.y += 6
    for rule in rules:
        meaning, colour = RULES[rule]
        picture.add(rectangle_element(MARGIN, picture.y + 13, 18, 2, colour))
        picture.add_line(f'{rule}: {meaning}', x=WORDS)
    picture.add(path_element(f'M{MARGIN} {picture.y + 14:g}h18', 'arrow bad'))
    picture.add_line(missing_text, 'bad', WORDS)


def arrows_picture(session: ModelledSession) -> str:
    """The picture of a session's needs, as SVG, in which the missing need is an arrow too.
    ValueError as missing_need(); KeyError if RULES lacks the rule of a need."""
    needs, (last_line, rename) = session.direct_needs(), missing_need(session)
    alternative = alternative_text(needs, last_line, rename)
    picture = Picture('Which micro-operation needs which', alternative)
    picture.add_line('Micro-operations, and what each one needs', 'title')
    heights = draw_rows(picture, session)
    for need in needs:
        picture.add(bent_arrow(heights[need.earlier], heights[need.later], RULES[need.rule][1]))
    picture.add(bent_arrow(heights[rename], heights[last_line], 'bad'))
    missing_text = f'missing: nothing makes {last_line} need {rename}, the rename'
    draw_key(picture, dict.fromkeys(need.rule for need in needs), missing_text)
    return picture.svg_file(STYLE)
