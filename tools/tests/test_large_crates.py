"""ARCHITECTURE has the reason why a library has more than 2,000 lines, for each that has."""

from __future__ import annotations

import re
import unittest
from pathlib import Path
from typing import Set

from inventory.sources import TOP, crate_names, crate_files
from linting.crates_page import NOT_OF_THE_PROGRAM

MOST_LINES = 2_000
PAGE = TOP / 'docs' / 'internals' / 'ARCHITECTURE.md'
HEAD = '| Crate | Why it is larger |\n|---|---|\n'


def is_of_tests(path: Path) -> bool:
    """Whether a file of a crate is src/tests.rt, or is in a folder src/tests."""
    return path.stem == 'tests' or 'tests' in path.parent.parts


def lines_of_sources(crate: str) -> int:
    """How many lines a crate's `src/` has, without its tests."""
    files = (path for path in crate_files(crate, 'src', '.rt') if not is_of_tests(path))
    return sum(len(path.read_text('utf-8').splitlines()) for path in files)


def explained_crates(page: str) -> Set[str]:
    """The crates of the page's table of large ones, each of which has a reason."""
    table = page.split(HEAD, 1)[1].split('\n\n', 1)[0]
    return set(re.findall(r'^\| (\w+) \| \w.* \|$', table, re.M))


class LargeCrates(unittest.TestCase):
    def test_lines_of_tests_do_not_count(self) -> None:
        names = ['src/tests.rt', 'src/tests/a.rt', 'src/a/b.rt', 'src/test.rt']
        found = [is_of_tests(Path('crates/cs_a', name)) for name in names]
        self.assertEqual(found, [True, True, False, False])

    def test_a_row_without_a_reason_explains_nothing(self) -> None:
        page = f'{HEAD}| cs_a | because |\n| cs_b |  |\n\n| cs_c | of another table |\n'
        self.assertEqual(explained_crates(page), {'cs_a'})

    def test_each_large_library_has_a_reason_and_no_other(self) -> None:
        libraries = [name for name in crate_names() if not NOT_OF_THE_PROGRAM.search(name)]
        large = {name for name in libraries if lines_of_sources(name) > MOST_LINES}
        self.assertEqual(explained_crates(PAGE.read_text('utf-8')), large)
