"""The command lint: runs the linters, and prints what each finds."""

from __future__ import annotations

import argparse
from typing import Callable, Dict, List, Optional

from crashfs_tools.common.command import Refused

from .crates_page import architecture_faults
from .layout import layout_faults
from .pages import inventory_faults
from .python import (
    black_faults,
    flake8_faults,
    install_packages,
    missing_linters,
    mypy_faults,
    unexplained_comment_faults,
    unknown_name_faults,
)
from .words import retired_word_faults

ABOUT = """\
Runs the linters over the repository: flake8, black and mypy over its Python; the widths and
lengths that docs/CONTRIBUTING.md sets; words that readers stumbled over, in pages, in what is
printed, in documentation and in names; and whether pages that are made from the sources are as the
sources are.

It changes nothing. Each fault is a line; the last line counts the linters. Exit status 0: none
found a fault. 1: some did. A linter that isn't installed is skipped, and the last line says so."""

# What a linter finds; None if it isn't installed.
Faults = Optional[List[str]]
LINTERS: Dict[str, Callable[[], Faults]] = {
    'flake8': flake8_faults,
    'black': black_faults,
    'mypy': mypy_faults,
    'names in tests': unknown_name_faults,
    'comments for linters': unexplained_comment_faults,
    'layout': layout_faults,
    'words': retired_word_faults,
    'pages made from sources': inventory_faults,
    'crates in ARCHITECTURE': architecture_faults,
}


def summary_line(faults_by_linter: Dict[str, Faults]) -> str:
    """The last line that is printed: how many linters passed, how many and which failed, and how
    many and which were skipped because they aren't installed."""
    failed_names = [name for name, faults in faults_by_linter.items() if faults]
    skipped_names = [name for name, faults in faults_by_linter.items() if faults is None]
    passed_count = len(faults_by_linter) - len(failed_names) - len(skipped_names)
    line = f'lint: {passed_count} passed, {len(failed_names)} failed'
    line += f' ({", ".join(failed_names)})' if failed_names else ''
    line += f', {len(skipped_names)} skipped'
    return f'{line} (not installed: {", ".join(skipped_names)})' if skipped_names else line


def faults_of_linter(linter: Callable[[], Faults]) -> Faults:
    """What a linter finds. If it raises Refused, as for a wrong crates.txt or a page
    without a section that it reads, that is its one fault."""
    try:
        return linter()
    except Refused as refused:
        return [str(refused)]


def run_linters(linters: Dict[str, Callable[[], Faults]]) -> int:
    """Runs linters, by their names, prints what they find, and returns the status: 1 if a linter
    found a fault. A linter that isn't installed doesn't change the status. Nothing is printed
    before all have run: if a linter raises any exception but Refused, nothing is."""
    faults_by_linter = {name: faults_of_linter(linter) for name, linter in linters.items()}
    lines = [
        f'{name}: {fault}' for name, faults in faults_by_linter.items() for fault in faults or []
    ]
    print(*lines, summary_line(faults_by_linter), sep='\n', flush=True)
    return 1 if any(faults_by_linter.values()) else 0


def main(words: Optional[List[str]] = None) -> int:
    """Runs lint with these words, or with those of its command line if they are None, and returns
    its status, that of run_linters(). With --install it first tries to install the linters that are
    missing; they are skipped if that fails. A wrong word and --help end the program
    (SystemExit)."""
    parser = argparse.ArgumentParser(
        prog='lint', description=ABOUT, formatter_class=argparse.RawDescriptionHelpFormatter
    )
    parser.add_argument(
        '--install',
        action='store_true',
        help='install flake8, black and mypy by apt-get first, if they are missing and you may',
    )
    if parser.parse_args(words).install:
        install_packages(missing_linters())
    return run_linters(LINTERS)
