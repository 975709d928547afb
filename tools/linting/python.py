"""The linters of Python: flake8, black and mypy, and the reason of each comment for them."""

from __future__ import annotations

import os
import re
import shutil
import subprocess
from pathlib import Path
from typing import Dict, List, Optional

from .sources import TOP, path_from_top, program_files, python_files, test_files

# The packages of Debian that have them.
PACKAGES = ('flake8', 'black', 'mypy')
# The codes of mypy's faults about a name that nothing has, and about a file that it can't read.
UNKNOWN_NAME = re.compile(r'\[(?:attr-defined|name-defined|call-arg|syntax)\]$')
# What else mypy prints if it has read all files: faults and notes at a line, and their count.
OTHER_FAULT = re.compile(r'^\S+:\d+: (?:error|note): |^Found .* \(checked ')
UNEXPLAINED = re.compile(r'#\s*(?:type: ignore|noqa)(?!(?:\[[\w, -]+\]|: [A-Z]\d+)  # \S)')


def missing_linters() -> List[str]:
    """The linters of PACKAGES that aren't on PATH."""
    return [name for name in PACKAGES if shutil.which(name) is None]


def install_packages(names: List[str]) -> None:
    """Installs Debian's packages by apt-get, and waits for it without limit. Does nothing if
    `names` is empty, if this user isn't root, or if apt-get isn't there. If apt-get fails, only its
    own errors are shown."""
    if names and os.geteuid() == 0 and shutil.which('apt-get'):
        words = ['apt-get', 'install', '--yes', '--no-install-recommends', *names]
        environment = {**os.environ, 'DEBIAN_FRONTEND': 'noninteractive'}
        subprocess.run(words, env=environment, stdout=subprocess.DEVNULL)


def run_linter(words: List[str], files: List[Path]) -> Optional[List[str]]:
    """Runs a linter in the top folder on files of the repository, and waits for it without limit.
    `words` are its name and its options. Returns an empty list if its status is 0, else the lines
    that it prints on both outputs, or its status if it prints none; None if it isn't installed."""
    if shutil.which(words[0]) is None:
        return None
    completed = subprocess.run(
        [*words, *map(path_from_top, files)],
        cwd=TOP,
        stdout=subprocess.PIPE,
        stderr=subprocess.STDOUT,
        text=True,
    )
    if completed.returncode == 0:
        return []
    return completed.stdout.strip().splitlines() or [f'{words[0]}: status {completed.returncode}']


def flake8_faults() -> Optional[List[str]]:
    """What flake8 finds in all Python; None if it isn't installed."""
    return run_linter(['flake8'], python_files())


def black_faults() -> Optional[List[str]]:
    """What black prints of the Python files that it would change, which stay as they are; None if
    it isn't installed."""
    return run_linter(['black', '--check'], python_files())


def mypy_faults() -> Optional[List[str]]:
    """What mypy finds in all Python but the tests; None if it isn't installed. The tests aren't
    typed: see unknown_name_faults()."""
    return run_linter(['mypy'], program_files())


def unknown_name_faults() -> Optional[List[str]]:
    """What mypy finds in the tests of names, attributes and arguments that nothing has, and what it
    prints if it fails itself, as at a syntax error; None if it isn't installed. Its other lines are
    dropped, since the tests aren't typed."""
    # The tests of the proved program run last: without this a changed name would be found late.
    # Tests may take what another test imports.
    words = ['mypy', '--implicit-reexport']
    lines = run_linter(words, test_files())
    if lines is None:
        return None
    return [line for line in lines if UNKNOWN_NAME.search(line) or not OTHER_FAULT.search(line)]


def unexplained_comments_in(sources: Dict[str, str]) -> List[str]:
    """A sentence for each line with a comment that silences a linter, but lacks the code or the
    reason: `# type: ignore[code]  # reason` has both. `sources` has the texts of files by their
    names."""
    return [
        f'{name}:{number}: {comment[0]}: give the code, and the reason in a comment after it'
        for name, text in sources.items()
        for number, line in enumerate(text.splitlines(), 1)
        if (comment := UNEXPLAINED.search(line))
    ]


def unexplained_comment_faults() -> List[str]:
    """The sentences of unexplained_comments_in() for all Python files, tests included.
    UnicodeDecodeError if a file isn't UTF-8."""
    sources = {path_from_top(path): path.read_text('utf-8') for path in python_files()}
    return unexplained_comments_in(sources)
