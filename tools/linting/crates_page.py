"""Each crate of the program is in ARCHITECTURE's picture of layers and in its table, once."""

from __future__ import annotations

import re
from typing import Dict, Iterator, List, Tuple

from building.crates import read_uses
from crashfs_tools.common.command import Refused

from .sources import TOP

PAGE = 'docs/internals/ARCHITECTURE.md'
CRATE = re.compile(r'\b(?:cs_\w+|crashfs)\b')
NOT_OF_THE_PROGRAM = re.compile(r'(_tests|_bench)$|^cs_test_')


def page_section(page: str, title: str) -> str:
    """The part of a page below a heading of the second level, up to the next such heading. Refused
    if the page doesn't have the heading."""
    _, heading, after_heading = page.partition(f'\n## {title}\n')
    if not heading:
        raise Refused(f'{PAGE} has no section "{title}"')
    return after_heading.split('\n## ', 1)[0]


def crate_rows(page: str) -> List[List[str]]:
    """The cells of each row of the page's table of crates, without its head and the line below
    that. Refused if the page lacks the section of the table."""
    rows = [line for line in page_section(page, 'The crates').splitlines() if line.startswith('|')]
    return [[cell.strip() for cell in row.strip('|').split('|')] for row in rows[2:]]


def crates_in_picture(page: str) -> List[Tuple[str, int]]:
    """Each crate of the page's picture with its layer, as often as it is there. A row that begins
    with a number of one digit begins the layer of this number; above the first such row the layer
    is 0. Refused if the page lacks the section of the picture."""
    crates, layer = [], 0
    for line in page_section(page, 'The layers').splitlines():
        number = re.match(r'\| (\d) ', line)
        layer = int(number[1]) if number else layer
        if line.startswith('|'):
            crates += [(crate, layer) for crate in CRATE.findall(line)]
    return crates


def crates_in_table(page: str) -> List[Tuple[str, int]]:
    """Each crate of the page's table with its layer, as often as it is there. The layer is the
    number of the nearest heading row above, or 0 if there is no such row, or no number in it.
    Refused if the page lacks the section of the table."""
    crates, layer = [], 0
    for name, *_ in crate_rows(page):
        number = re.match(r'\*\*(\d) ', name)
        if name.startswith('**'):
            layer = int(number[1]) if number else 0
        else:
            crates.append((name, layer))
    return crates


def occurrence_faults(place: str, names: List[str], expected: List[str]) -> Iterator[str]:
    """A sentence for each name that isn't as often in `names` as in `expected`, sorted by name.
    `place` says in the sentence where the names are, such as `the table`."""
    for name in sorted({*names, *expected}):
        count, expected_count = names.count(name), expected.count(name)
        if count != expected_count:
            yield f'{name} is {count} times in {place}, not {expected_count} times'


def layer_faults(layers: Dict[str, int], table: List[Tuple[str, int]]) -> Iterator[str]:
    """A sentence for each crate that the table has in another layer than the picture. `layers` has
    the layer of each crate of the picture. A crate that the picture lacks is left out."""
    for name, layer in table:
        if layers.get(name, layer) != layer:
            yield f'{name} is in layer {layers[name]} of the picture, {layer} of the table'


def row_faults(rows: List[List[str]]) -> Iterator[str]:
    """A sentence for each row of the table that doesn't have three cells, or has an empty cell and
    is no heading."""
    for cells in rows:
        if len(cells) != 3 or not (all(cells) or cells[0].startswith('**')):
            yield f'{cells[0]}: its row must say what it is and what it promises'


def use_faults(layers: Dict[str, int], uses: Dict[str, List[str]]) -> List[str]:
    """A sentence for each use of a crate by a crate of a lower layer. `layers` has the layer of
    each crate of the picture. Crates that the picture lacks are left out."""
    return [
        f'{name} uses {used_name} of a higher layer'
        for name, layer in layers.items()
        for used_name in uses.get(name, [])
        if layers.get(used_name, layer) > layer
    ]


def crate_page_faults(page: str, uses: Dict[str, List[str]]) -> List[str]:
    """A sentence for each fault of the page: each crate of the program that isn't once in the
    picture, or not once in the table, and what layer_faults(), row_faults() and use_faults() find.
    `uses` has the crates of crates.txt, each with those that it uses. Refused if the page lacks the
    section of the picture or that of the table."""
    picture, table = crates_in_picture(page), crates_in_table(page)
    layers = dict(picture)
    program_crates = [name for name in uses if not NOT_OF_THE_PROGRAM.search(name)]
    return [
        *occurrence_faults('the table', [name for name, _ in table], program_crates),
        *occurrence_faults('the picture', [name for name, _ in picture], program_crates),
        *layer_faults(layers, table),
        *row_faults(crate_rows(page)),
        *use_faults(layers, uses),
    ]


def architecture_faults() -> List[str]:
    """The sentences of crate_page_faults() for PAGE and the crates of crates.txt, each after the
    page's name. Refused as in crate_page_faults() and read_uses(); OSError if the page can't be
    read."""
    faults = crate_page_faults((TOP / PAGE).read_text('utf-8'), read_uses(TOP))
    return [f'{PAGE}: {fault}' for fault in faults]
