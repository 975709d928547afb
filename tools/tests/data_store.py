"""A small store with its session and recovery, as functions: tests of the interface record it."""

from __future__ import annotations

import os
from pathlib import Path
from typing import Callable, List


def save(directory: Path, name: str, text: str) -> None:
    """Replaces a file by a new one. The file is synced, and its directory isn't."""
    new = directory / f'{name}.new'
    new.write_text(text)
    with open(new, encoding='utf-8') as file:
        os.fsync(file.fileno())
    os.rename(new, directory / name)


def sync(directory: Path) -> None:
    number = os.open(directory, os.O_RDONLY)
    os.fsync(number)
    os.close(number)


def session(directory: Path, acknowledge: Callable[[str], None]) -> None:
    for version in ('version 1', 'version 2'):
        save(directory, 'config', version)
        print('printed, and no acknowledged line')
        acknowledge(version)


def synced_session(directory: Path, acknowledge: Callable[[str], None]) -> None:
    for version in ('version 1', 'version 2'):
        save(directory, 'config', version)
        sync(directory)
        acknowledge(version)


def recovery(directory: Path, acknowledged: List[str]) -> None:
    path = directory / 'config'
    found = path.read_text() if path.exists() else ''
    assert not acknowledged or found >= acknowledged[-1], 'lost: the last version'


def failing_session(directory: Path, acknowledge: Callable[[str], None]) -> None:
    acknowledge('begun')
    raise OSError('it fails')
