"""What is printed of the sources: all tests, all words; and parts of pages that are made."""

from __future__ import annotations

import re
from typing import Callable, Dict, List, Tuple

from .markdown import table_cell, table_lines
from .sources import (
    TOP,
    DescribedTest,
    case_areas,
    cases_in,
    citations,
    crate_files,
    crate_names,
    edits_of,
    read_head_comment,
    tests_in,
    tests_of_tools,
    words_of,
)

# The lines of a page between which it is made from the sources.
BEGIN = '<!-- made by tools/inventories: begin -->'
END = '<!-- made by tools/inventories: end -->'
# So many calls are named of those whose contracts cite a word.
MOST_CALLS = 4


def table_of_tests(columns: Tuple[str, str], tests: List[DescribedTest]) -> List[str]:
    """The lines of a table of tests, after an empty line. A row has what a test shows, and its
    name."""
    rows = ((table_cell(test.sentence), f'`{test.name}`') for test in tests)
    return ['', *table_lines(columns, rows)]


def lines_of_crate_tests(crate: str) -> List[str]:
    """The lines that list a crate's tests: a heading, and for each file that has tests its comment
    and a table. Empty if the crate has none. Errors as tests_in()."""
    lines: List[str] = []
    for path in crate_files(crate, 'src', '.rt'):
        tests = tests_in(path)
        if tests:
            name = path.relative_to(TOP / 'crates' / crate / 'src')
            comment = read_head_comment(path)
            lines += ['', f'`{name}`: {comment}' if comment else f'`{name}`:']
            lines += table_of_tests(('Example', 'Test'), tests)
    return ['', f'### {crate}', *lines] if lines else []


def lines_of_tool_tests() -> List[str]:
    """The lines that list tools/tests: a heading, and a table with a row for each file. A file
    without a docstring is listed too. SyntaxError if a file isn't Python."""
    return ['', '### tools/tests', *table_of_tests(('What it shows', 'File'), tests_of_tools())]


def lines_of_cases() -> List[str]:
    """The lines that list the cases: a heading and a table for each folder of case_areas(). OSError
    as there."""
    lines: List[str] = []
    for area in case_areas():
        lines += ['', f'### tools/tests/data/cases/{area}']
        lines += table_of_tests(('Example', 'File'), cases_in(area))
    return lines


def lines_of_edits() -> List[str]:
    """The lines that list the must-fail edits: a heading, and a table with a row for each crate
    that has edits. Refused as in crate_names()."""
    edits_by_crate = {crate: edits_of(crate) for crate in crate_names()}
    rows = (
        (crate, ', '.join(f'`{name}`' for name in edits))
        for crate, edits in edits_by_crate.items()
        if edits
    )
    heading = '## Wrong bodies that the prover refuses'
    return ['', heading, '', *table_lines(('Crate', 'Must-fail edits'), rows)]


def tests_list() -> str:
    """The list of all tests and of must-fail edits, as Markdown: the tests of the crates first,
    then the cases, the tests of the tools, and the edits. Refused as in crate_names(),
    StopIteration as tests_in(), SyntaxError as tests_of_tools(), OSError if a source can't be
    read."""
    lines = [line for crate in crate_names() for line in lines_of_crate_tests(crate)]
    lines += [*lines_of_cases(), *lines_of_tool_tests(), *lines_of_edits()]
    return '\n'.join(lines).strip()


def calls_text(calls: List[str]) -> str:
    """The names of the first MOST_CALLS calls, and how many more there are; empty if there are no
    calls."""
    names = ', '.join(f'`{call}`' for call in calls[:MOST_CALLS])
    count_left = len(calls) - MOST_CALLS
    return f'{names} and {count_left} more' if count_left > 0 else names


def lines_of_words(crate: str, calls_by_word: Dict[str, List[str]]) -> List[str]:
    """The lines that list the words of a crate: a heading, and a table with what each word says,
    its file, and the calls that cite it. calls_by_word lacks the words that nothing cites. Empty if
    the crate has no words."""
    rows = [
        (
            f'`{table_cell(word.name)}`',
            table_cell(word.sentence),
            word.file,
            calls_text(calls_by_word.get(word.name, [])),
        )
        for word in words_of(crate)
    ]
    columns = ('Word', 'What it says', 'File', 'Cited by')
    return ['', f'## {crate}', '', *table_lines(columns, rows)] if rows else []


def words_list() -> str:
    """The list of the words of `specs/` of all crates, as Markdown, by crate: lines_of_words() with
    citations(). Refused as in crate_names(), OSError if a source can't be read."""
    calls_by_crate = citations()
    lines = [
        line
        for crate in crate_names()
        for line in lines_of_words(crate, calls_by_crate.get(crate, {}))
    ]
    return '\n'.join(lines).strip()


def page_with_part(page: str, part: str) -> str:
    """A page with this part between the marks BEGIN and END, in the place of what is there.
    ValueError unless the page has each mark once, BEGIN first."""
    made_part = re.compile(f'{re.escape(BEGIN)}.*{re.escape(END)}', re.DOTALL)
    new_page, count = made_part.subn(lambda _: f'{BEGIN}\n\n{part}\n\n{END}', page)
    if (count, page.count(BEGIN), page.count(END)) != (1, 1, 1):
        raise ValueError(f'a page must have each mark once: {BEGIN} .. {END}')
    return new_page


# The lists that --print prints, by its values.
PRINTED_LISTS: Dict[str, Callable[[], str]] = {'tests': tests_list, 'words': words_list}
