"""The picture of one failing state: the session line by line, with what of it was on the disk."""

from __future__ import annotations

import textwrap
from typing import Dict, List, Set

from crashfs_tools.checker.states.place_sets import places_of
from crashfs_tools.common.trace_lines import SYNCS, TraceLine

from .checked import CheckedExample
from .svg import LINE, MARGIN, WIDTH, Picture, rectangle_element, text_element

# Where the numbers of lines end, where words begin, and where results end.
NUMBER, WORDS, RESULT = MARGIN + 24, MARGIN + 36, WIDTH - MARGIN
# So many characters of the verdict fit a line.
COLUMNS = 54
LOST = 'LOST'
COLOUR_OF = {'acknowledged': 'grey', 'synced': 'sync', LOST: 'bad', 'on the disk': 'ink'}


def lost_lines_of_example(checked: CheckedExample) -> Set[int]:
    """The numbers of the lines that are lost, wholly or in part, in the example of the report's
    first entry: also those after its last micro-operation, which Findings.lost_lines() leaves out.
    IndexError if the report has no entry."""
    plan = checked.findings.plan
    kept_set = plan.kept[checked.report.groups()[0].example.number]
    return {plan.operations[place].line for place in places_of(plan.needs.full & ~kept_set)}


def result_of(line: TraceLine, lost: Set[int]) -> str:
    """What became of a line, as a key of COLOUR_OF. A line that acknowledges or syncs is never
    called lost. `lost` has the numbers of lines that are lost, wholly or in part."""
    if line.word == 'say':
        return 'acknowledged'
    if line.word in SYNCS:
        return 'synced'
    return LOST if line.number in lost else 'on the disk'


def draw_line(picture: Picture, line: TraceLine, result: str) -> None:
    """Adds a line of the session below what is there: its number, what it did, and its result,
    which is that of result_of(). A lost line has a coloured background."""
    if result == LOST:
        picture.add(rectangle_element(1, picture.y + 5, WIDTH - 2, LINE, 'tint'))
    colour = COLOUR_OF[result]
    picture.add_line(str(line.number), 'code end grey', NUMBER)
    picture.add(text_element(WORDS, picture.y, line.text, f'code {colour}'))
    picture.add(text_element(RESULT, picture.y, result, f'end {colour}'))


def lines_of_files(checked: CheckedExample) -> Dict[str, List[str]]:
    """The lines of each file of the example's tree, by path; directories and links are left out.
    UnicodeDecodeError if a file isn't ASCII: the picture shows text."""
    return {
        path: bytes(entry.data).decode('ascii').splitlines()
        for path, entry in sorted(checked.tree.items())
        if entry.data is not None
    }


def draw_files(picture: Picture, files: Dict[str, List[str]]) -> None:
    """Adds, below what is there, the path of each file, in the order of `files`, and then the lines
    of the file. An empty file has only its path."""
    for path, lines in files.items():
        picture.add_line(f'{path}:', 'code')
        picture.add_lines(lines, 'code', WORDS)


def alternative_text(results: Dict[TraceLine, str], files: Dict[str, List[str]]) -> str:
    """The alternative text of what the picture shows of the session and the disk: the result of
    each line of `results`, and the lines of each of the files after the crash."""
    steps = '; '.join(f'{line.number} {line.text}: {result}' for line, result in results.items())
    contents = '. '.join(f'{path} has {", ".join(lines)}' for path, lines in files.items())
    return f'{steps}. Then the power fails. {contents}.'


def timeline_picture(checked: CheckedExample, first_number: int, verdict: str) -> str:
    """The picture of the example of the report's first entry, as SVG: the session from line number
    first_number on, and the files after the crash. The verdict is a sentence on what recovery makes
    of these files. Errors as lost_lines_of_example() and lines_of_files()."""
    group, head = checked.report.groups()[0], checked.report.head
    files, lost = lines_of_files(checked), lost_lines_of_example(checked)
    shown_lines = [line for number, line in head.lines.items() if number >= first_number]
    results = {line: result_of(line, lost) for line in shown_lines}
    state = f'State {group.example.number}'
    alternative = f'{state}. {alternative_text(results, files)} {verdict}'
    picture = Picture(f'{state} of {head.trace}', alternative)
    picture.add_line(f'{picture.title}: line by line', 'title')
    for line, result in results.items():
        draw_line(picture, line, result)
    picture.y += 6
    picture.add_line('The power fails. The disk has:', 'title')
    draw_files(picture, files)
    picture.y += 6
    picture.add_line(group.outcome.cause, 'title bad')
    picture.add_lines(textwrap.wrap(verdict, COLUMNS))
    return picture.svg_file()
