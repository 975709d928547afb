"""The parts of an SVG picture: its colours in light and dark, lines of text, and the whole file."""

from __future__ import annotations

from dataclasses import dataclass, field
from html import escape
from typing import Iterable, List

# A page shows the picture at this width, and a phone at three quarters of it.
WIDTH = 460
MARGIN = 8
LINE = 19
# Each colour in a light page, and in a dark one.
COLOURS = {
    'paper': ('#ffffff', '#16191d'),
    'edge': ('#d0d4d9', '#3b4148'),
    'ink': ('#1f2328', '#e6e9ec'),
    'grey': ('#5b626a', '#a3abb3'),
    'good': ('#7cc47f', '#3f8f49'),
    'bad': ('#cf222e', '#ff6b63'),
    'tint': ('#fde8e4', '#4a2020'),
    'sync': ('#0b5cad', '#6cb6ff'),
}
FONTS = """text { font: 14px sans-serif; fill: var(--ink) }
.code { font: 13px ui-monospace, Menlo, Consolas, monospace; white-space: pre }
.title { font-weight: bold }
.end { text-anchor: end }
.middle { text-anchor: middle }
"""


def common_style() -> str:
    """The style of all pictures, as CSS: the fonts, and a class for each colour, which fills texts
    and areas in light and dark pages."""
    light = ''.join(f'--{name}: {pair[0]}; ' for name, pair in COLOURS.items())
    dark = ''.join(f'--{name}: {pair[1]}; ' for name, pair in COLOURS.items())
    classes = ''.join(f'.{name} {{ fill: var(--{name}) }}\n' for name in COLOURS)
    if_dark = f'@media (prefers-color-scheme: dark) {{ svg {{ {dark}}} }}'
    return f'svg {{ {light}}}\n{if_dark}\n{FONTS}{classes}'


def text_element(x: float, y: float, words: str, classes: str = '') -> str:
    """A line of text as an element. The line begins at x, or with the class `middle` is centred
    there, or with the class `end` ends there; y is the bottom of its letters. Other classes name
    its font and colour; without them it has those of FONTS for `text`."""
    attribute = f' class="{classes}"' if classes else ''
    return f'<text x="{x:g}" y="{y:g}"{attribute}>{escape(words)}</text>'


def rectangle_element(x: float, y: float, width: float, height: float, classes: str) -> str:
    """A rectangle as an element, whose top left corner is at (x, y); classes name its colour."""
    return f'<rect x="{x:g}" y="{y:g}" width="{width:g}" height="{height:g}" class="{classes}"/>'


def path_element(steps: str, classes: str) -> str:
    """A line along a path as an element. The steps of the path are in SVG's notation, and classes
    name the line's colour."""
    return f'<path d="{steps}" class="{classes}"/>'


@dataclass
class Picture:
    """A picture that is drawn from top to bottom: y is the bottom of what is there. title names the
    picture, alternative says in words what it shows, and parts are its elements."""

    title: str
    alternative: str
    y: float = 0
    parts: List[str] = field(default_factory=list)

    def add(self, element: str) -> None:
        """Adds an element, which has its own place in the picture; doesn't change y."""
        self.parts.append(element)

    def add_line(self, words: str, classes: str = '', x: float = MARGIN) -> None:
        """Adds a line of text below what is there, and moves y to the bottom of the line. A long
        line isn't wrapped; x and classes are as in text_element()."""
        self.y += LINE
        self.add(text_element(x, self.y, words, classes))

    def add_lines(self, lines: Iterable[str], classes: str = '', x: float = MARGIN) -> None:
        """Adds lines of text below each other, each as add_line() does."""
        for words in lines:
            self.add_line(words, classes, x)

    def svg_file(self, more_style: str = '') -> str:
        """The text of the whole file: a picture as wide as WIDTH, and as high as y and a margin, on
        a background that makes it legible on a page of any colour. more_style has the CSS classes
        that only this picture uses."""
        height = self.y + MARGIN + 4
        paper = (
            f'<rect x=".5" y=".5" width="{WIDTH - 1}" height="{height - 1:g}" rx="6" '
            'class="paper" style="stroke: var(--edge)"/>'
        )
        lines = [
            f'<svg xmlns="http://www.w3.org/2000/svg" width="{WIDTH}" height="{height:g}" '
            f'viewBox="0 0 {WIDTH} {height:g}" role="img" aria-labelledby="title what">',
            f'<title id="title">{escape(self.title)}</title>',
            f'<desc id="what">{escape(self.alternative)}</desc>',
            f'<style>\n{common_style()}{more_style}</style>',
            paper,
            *self.parts,
            '</svg>',
        ]
        return '\n'.join(lines) + '\n'
