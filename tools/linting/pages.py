"""Whether the files that are made from the sources are up to date, and whether the sources have all
that the lists of tests and edits need."""

from __future__ import annotations

from typing import List

from inventory.command import outdated_source_lines
from inventory.sources import crate_names, edits_of, tests_in, tests_of_tools

from .sources import CRATES, path_from_top


def undescribed_test_faults() -> List[str]:
    """A sentence for each test of the crates that has no comment, and each file of the tools' tests
    that has no docstring. StopIteration as tests_in(), SyntaxError as tests_of_tools()."""
    files = [f'tools/tests/{test.name}' for test in tests_of_tools() if not test.sentence]
    tests = [
        f'{path_from_top(path)}: {test.name}'
        for path in sorted(CRATES.glob('*/src/**/*.rt'))
        for test in tests_in(path)
        if not test.sentence
    ]
    return [f'{name} has no sentence that says what it shows' for name in [*files, *tests]]


def stray_edit_faults() -> List[str]:
    """A sentence for each must-fail edit in a folder of crates/ that crates.txt doesn't name: the
    gate would never try it. Refused as in crate_names()."""
    listed_edits = {(crate, name) for crate in crate_names() for name in edits_of(crate)}
    return [
        f'{path_from_top(path)}: crates.txt has no such crate'
        for path in sorted(CRATES.glob('*/must-fail/*.edit'))
        if (path.parent.parent.name, path.stem) not in listed_edits
    ]


def inventory_faults() -> List[str]:
    """A sentence for each fault of what tools/inventories writes and lists: each outdated file,
    each test without a sentence, and each stray edit. Errors as outdated_source_lines(),
    undescribed_test_faults() and stray_edit_faults()."""
    return [*outdated_source_lines(), *undescribed_test_faults(), *stray_edit_faults()]
