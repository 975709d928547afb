"""What programs print of the repository, of the toolchain and of the linker."""

from __future__ import annotations

import subprocess
from pathlib import Path
from typing import List

TOP = Path(__file__).resolve().parent.parent.parent


def output_of(*words: str) -> str:
    """What a command prints on standard output in the top folder of the repository, without blanks
    at its ends. CalledProcessError if it fails, OSError if it isn't installed."""
    completed = subprocess.run(words, cwd=TOP, stdout=subprocess.PIPE, encoding='utf-8', check=True)
    return completed.stdout.strip()


def commit_of_tree() -> str:
    """The commit that is checked out, with `-dirty` if a file that git tracks differs from it;
    untracked files don't count. Errors as output_of()."""
    is_dirty = bool(output_of('git', 'status', '--porcelain', '-uno'))
    return output_of('git', 'rev-parse', 'HEAD') + ('-dirty' if is_dirty else '')


def seconds_of_commit() -> int:
    """The time of the commit that is checked out, in seconds since 1970. Errors as output_of()."""
    return int(output_of('git', 'log', '-1', '--format=%ct'))


def tracked_files(pattern: str) -> List[str]:
    """The sorted paths, from the top, of the files that git tracks and that match its pattern, such
    as a folder that they are in. Some may be gone from the disk. Empty if none matches; errors as
    output_of()."""
    return sorted(filter(None, output_of('git', 'ls-files', '-z', '--', pattern).split('\0')))


def kit_version() -> str:
    """The first line that `rt version` prints: the kit, and the checksum of its logic. Errors as
    output_of(); ValueError if nothing is printed."""
    lines = output_of('rt', 'version').splitlines()
    if not lines:
        raise ValueError('rt version printed nothing')
    return lines[0]


def linker_version() -> str:
    """The name and version of the linker, whose own library (libgcc) is linked too. Errors as
    output_of()."""
    return f'gcc {output_of("gcc", "-dumpfullversion")}'
