"""Files that are made from others: which are outdated, and writing these."""

from __future__ import annotations

import sys
from pathlib import Path
from typing import Dict, List

from .sources import TOP


def outdated_files(texts: Dict[Path, str]) -> List[Path]:
    """The paths of `texts`, in its order, at which there is no file, or a file with another text.
    UnicodeDecodeError for a file that isn't UTF-8."""
    return [
        path
        for path, text in texts.items()
        if not path.exists() or path.read_text(encoding='utf-8') != text
    ]


def outdated_lines(texts: Dict[Path, str], sources: str, command: str) -> List[str]:
    """A line for each path of outdated_files(), with `sources`, a plural that says what the file is
    made from, and the command of tools/ that writes it. ValueError if such a path isn't in the
    repository; errors as outdated_files()."""
    return [
        f'{path.relative_to(TOP)} is missing, or not as {sources} make it: run tools/{command}'
        for path in outdated_files(texts)
    ]


def print_outdated_lines(lines: List[str]) -> int:
    """Prints the lines of outdated_lines(), and returns the status of a command with --check: 1 if
    there are such lines, else 0."""
    sys.stdout.writelines(f'{line}\n' for line in lines)
    return 1 if lines else 0


def write_outdated_files(texts: Dict[Path, str]) -> None:
    """Writes the files of outdated_files(), and makes the folder of a file if only this folder is
    missing. Other files aren't written again. OSError if a file can't be written, after those
    before it are written; UnicodeDecodeError as outdated_files(), before anything is written."""
    for path in outdated_files(texts):
        path.parent.mkdir(exist_ok=True)
        path.write_text(texts[path], encoding='utf-8')
