"""Runs the commands that run tests, and keeps what they print."""

from __future__ import annotations

import subprocess
from pathlib import Path
from typing import List, NamedTuple


class EndedCommand(NamedTuple):
    """A command that has ended: its status, and what it printed on both outputs, with U+FFFD for
    bytes that aren't UTF-8."""

    status: int
    printed: str


def run_command(words: List[str], folder: Path, input_bytes: bytes = b'') -> EndedCommand:
    """Runs a command in a folder, with these bytes as its standard input, and waits without limit
    until it, and each process that shares its outputs, has ended. Any status is returned; OSError
    if the command can't be started."""
    completed = subprocess.run(
        words,
        cwd=folder,
        input=input_bytes,
        stdout=subprocess.PIPE,
        stderr=subprocess.STDOUT,
        check=False,
    )
    return EndedCommand(completed.returncode, completed.stdout.decode('utf-8', 'replace'))
