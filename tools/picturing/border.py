"""The picture of the tools, what passes between them, and the border of what is proved."""

from __future__ import annotations

from typing import NamedTuple, Sequence

from .svg import MARGIN, WIDTH, Picture, path_element, rectangle_element, text_element

# Where boxes begin, their width and height, and the gap between two for an arrow.
LEFT, WIDE, HIGH, GAP = 130, 200, 40, 38
STYLE = """.box { fill: var(--paper); stroke: var(--grey) }
.proved { fill: none; stroke: var(--good); stroke-width: 2.5; stroke-dasharray: 7 4 }
.arrow { fill: none; stroke: var(--ink); stroke-width: 1.3 }
"""
ALTERNATIVE = (
    'From top to bottom: your program runs under strace; crashfs-record turns its calls into a '
    'trace; crashfs makes the crash states of the trace; crashfs-check lays each out as a '
    'directory, runs your recovery in it, and writes the report. A border marks crashfs: what it '
    'makes of a trace is proved. The other tools are Python, and tested.'
)


class Box(NamedTuple):
    """A part of the tools: its name, what it is, and what it passes to the next part. `about` and
    `passes` are empty if there is nothing to say."""

    name: str
    about: str
    passes: str


BOXES: Sequence[Box] = (
    Box('your program', 'under strace', 'system calls'),
    Box('crashfs-record', 'Python, tested', 'a trace: a text file'),
    Box('crashfs', 'Rattle, proved', 'states: trees of files'),
    Box('crashfs-check', 'Python, tested', 'a directory for each state'),
    Box('your recovery', 'in each state', 'good, or the cause'),
    Box('the report', '', ''),
)


def draw_box(picture: Picture, box: Box) -> None:
    """Adds a box below what is there, and if its part passes something, an arrow to the next box.
    Moves the picture's y to where the next box begins, or to the bottom of the last box."""
    top, middle = picture.y, LEFT + WIDE / 2
    picture.add(rectangle_element(LEFT, top, WIDE, HIGH, 'box'))
    name_bottom = top + (17 if box.about else 25)
    picture.add(text_element(middle, name_bottom, box.name, 'title middle'))
    if box.about:
        picture.add(text_element(middle, top + 34, box.about, 'grey middle'))
    if box.passes:
        arrow = f'M{middle:g} {top + HIGH}v{GAP}m-4 -6l4 6l4 -6'
        picture.add(path_element(arrow, 'arrow'))
        picture.add(text_element(middle + 10, top + HIGH + 20, box.passes))
    picture.y += HIGH + (GAP if box.passes else 0)


def draw_border(picture: Picture) -> None:
    """Adds the border of what is proved, and its words, around the place of the next box; doesn't
    change the picture's y."""
    frame = f'x="{MARGIN}" y="{picture.y - 6:g}" width="{WIDTH - 2 * MARGIN}"'
    picture.add(f'<rect {frame} height="{HIGH + 12}" rx="6" class="proved"/>')
    picture.add(text_element(MARGIN + 10, picture.y + 17, 'proved:', 'title'))
    picture.add(text_element(MARGIN + 10, picture.y + 34, 'by the rules'))


def border_picture() -> str:
    """The picture of the tools, as SVG. No check is needed for it: all its words are in this
    module."""
    picture = Picture('The tools, and the border of what is proved', ALTERNATIVE)
    picture.y = MARGIN + 4
    for box in BOXES:
        if box.name == 'crashfs':
            draw_border(picture)
        draw_box(picture, box)
    return picture.svg_file(STYLE)
