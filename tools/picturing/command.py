"""The command pictures: draws the pictures of docs/images."""

from __future__ import annotations

import argparse
from typing import List, Optional

from inventory.made_files import outdated_lines, print_outdated_lines, write_outdated_files

from .pictures import pictures

ABOUT = """\
Draws the pictures of docs/images, most of them from checks of the examples. It needs sqlite3.

    tools/pictures [--check]

With --check it writes nothing; status 1 if a picture isn't as it would be drawn now."""


def main(words: Optional[List[str]] = None) -> int:
    """Runs pictures with these words, or with those of its command line if they are None: draws all
    pictures, and writes the outdated ones; --check prints a line for each instead. Returns the
    status: 1 if --check finds one, else 0. A wrong word and --help end the program (SystemExit).
    Errors as pictures() before anything is written, and as write_outdated_files()."""
    parser = argparse.ArgumentParser(
        prog='pictures', description=ABOUT, formatter_class=argparse.RawDescriptionHelpFormatter
    )
    parser.add_argument('--check', action='store_true', help='write nothing, only compare')
    options = parser.parse_args(words)
    texts = pictures()
    if options.check:
        sources = 'the examples and tools/picturing'
        return print_outdated_lines(outdated_lines(texts, sources, 'pictures'))
    write_outdated_files(texts)
    return 0
