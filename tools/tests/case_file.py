"""Reads the files of data/cases: a file is one example, and says what it shows before its first
section.

A section begins with a line `== NAME`. Those in GIVEN are files that commands are given; every
other one is a check of what is printed, by the files that were given before it. `<<61 * 5000>>`
stands for so many times a text, `<<LINE ** 64>>` for so many lines, and a line with `<<1..64>>` for
a line of each of these numbers. `\\x00` and the like are bytes.
"""

from __future__ import annotations

import re
from pathlib import Path
from typing import Dict, Iterator, List, NamedTuple

CASES = Path(__file__).with_name('data') / 'cases'
GIVEN = ('trace', 'users', 'picks')
TIMES = re.compile(r'<<(.+?) \* (\d+)>>')
RANGE = re.compile(r'<<(\d+)\.\.(\d+)>>')
LINES = re.compile(r'(.*?)<<(.*) \*\* (\d+)>>')
ESCAPE = re.compile(r'\\x([0-9a-f]{2})')


class Check(NamedTuple):
    """What a command prints: its name in the file, its lines, and the files that it is given."""

    name: str
    lines: List[str]
    given: Dict[str, bytes]


class Case(NamedTuple):
    """An example: its name, what it shows, and its checks."""

    name: str
    shows: str
    checks: List[Check]


def times(line: str) -> str:
    return TIMES.sub(lambda found: found[1] * int(found[2]), line)


def lines_of(line: str) -> Iterator[str]:
    """The lines that a line stands for."""
    several, found = LINES.fullmatch(line), RANGE.search(line)
    if several:
        yield from [several[1] + several[2]] * int(several[3])
    elif found:
        for number in range(int(found[1]), int(found[2]) + 1):
            yield times(RANGE.sub(str(number), line))
    else:
        yield times(line)


def bytes_of(text: str) -> bytes:
    """The bytes of a text: `\\xff` is one byte, everything else UTF-8."""
    pieces = ESCAPE.split(text)
    return b''.join(
        bytes([int(piece, 16)]) if place % 2 else piece.encode()
        for place, piece in enumerate(pieces)
    )


def sections(text: str) -> Iterator[List[str]]:
    """The lines of each section, its name first; before them what comes before the first."""
    lines: List[str] = ['']
    for line in text.splitlines():
        if line.startswith('== '):
            yield lines
            lines = [line[3:]]
        else:
            lines.append(line)
    yield lines


def unpadded(lines: List[str]) -> List[str]:
    """The lines without the empty one between two sections."""
    return lines[:-1] if lines[-1:] == [''] else lines


def read_case(path: Path) -> Case:
    """The example of a file."""
    first, *rest = sections(path.read_text(encoding='utf-8'))
    given: Dict[str, bytes] = {}
    checks = []
    for name, *lines in rest:
        told = [it for line in unpadded(lines) for it in lines_of(line)]
        if name in GIVEN:
            given = {**given, name: bytes_of('\n'.join(told))}
        else:
            checks.append(Check(name, told, given))
    return Case(path.stem, ' '.join(' '.join(first).split()), checks)


def cases_of(area: str) -> List[Case]:
    """The examples of an area, by their names."""
    return [read_case(path) for path in sorted((CASES / area).glob('*.case'))]
