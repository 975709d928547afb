"""The command inventories: writes what is made from the sources."""

from __future__ import annotations

import argparse
import sys
from pathlib import Path
from typing import Callable, Dict, List, Optional

from crashfs_tools.common.command import Refused

from .completions import completion_files
from .made_files import outdated_lines, print_outdated_lines, write_outdated_files
from .pages import PRINTED_LISTS, page_with_part
from .results import PAGE, results_part

ABOUT = """\
Writes what is made from the sources: tools/completions, from the options of the commands, and the
tables of docs/RESULTS.md, from docs/results.json. With --print it writes nothing, but prints the
tests with what each shows, and the must-fail edits (tests), or the words of specs/ with what each
says and the contracts that cite it (words).

Exit status 0, or 1 with --check if a file is missing, or not as the sources make it, and with
--print if crates.txt is wrong."""


def current_texts() -> Dict[Path, str]:
    """The text that each file that is made from the sources should have now, by its path. Nothing
    is written. ValueError if docs/RESULTS.md doesn't have its marks, OSError if it can't be read;
    errors as completion_files() and results_part()."""
    return {**completion_files(), PAGE: page_with_part(PAGE.read_text('utf-8'), results_part())}


def outdated_source_lines() -> List[str]:
    """A line for each file that is missing, or isn't as current_texts() has it. Errors as
    current_texts() and outdated_lines()."""
    return outdated_lines(current_texts(), 'the sources', 'inventories')


def print_list(list_text: Callable[[], str]) -> int:
    """Prints the list that a function of PRINTED_LISTS returns. Returns the status: 1 if crates.txt
    is wrong, which is a line on standard error. Other errors as the function raises them."""
    try:
        print(list_text())
    except Refused as refused:
        print(f'inventories: {refused}', file=sys.stderr)
        return 1
    return 0


def main(words: Optional[List[str]] = None) -> int:
    """Runs `inventories` with these words, or with those of its command line if they are None.
    Returns the status: 1 only if --check finds an outdated file; with --print, by which --check is
    ignored, that of print_list(). A wrong word and --help end the program (SystemExit). Errors as
    current_texts() before anything is written, and as write_outdated_files() or print_list()."""
    parser = argparse.ArgumentParser(
        prog='inventories', description=ABOUT, formatter_class=argparse.RawDescriptionHelpFormatter
    )
    parser.add_argument('--check', action='store_true', help='write nothing, only compare')
    parser.add_argument(
        '--print', choices=sorted(PRINTED_LISTS), help='print a list; write nothing'
    )
    options = parser.parse_args(words)
    if options.print:
        return print_list(PRINTED_LISTS[options.print])
    if options.check:
        return print_outdated_lines(outdated_source_lines())
    write_outdated_files(current_texts())
    return 0
