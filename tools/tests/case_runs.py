"""Runs the commands that the examples of data/cases are of: by a program, or by the second reading
in this process."""

from __future__ import annotations

import io
import os
import subprocess
import sys
from contextlib import contextmanager
from typing import Dict, Iterator, List, NamedTuple, Optional, Sequence

from crashfs_tools.reading.main import main as run_reading

from .support import EXAMPLES

SECONDS = 600
DEFAULTS = {'trace': EXAMPLES / 'start.trace', 'users': EXAMPLES / 'users'}


class Ran(NamedTuple):
    """The status of a command, and what it printed."""

    status: int
    out: bytes
    err: bytes

    def text(self) -> str:
        """What it printed, or the first line of its fault."""
        if self.status == 0:
            return self.out.decode('utf-8')
        assert self.out == b'', 'a command with a fault prints nothing else'
        return self.err.decode('utf-8').partition('\n')[0] + '\n'


class Runner:
    """Runs commands on files that it writes into a folder."""

    def __init__(self, folder: str, program: Optional[str]) -> None:
        self.folder = folder
        self.program = program

    def file(self, name: str, given: Dict[str, bytes]) -> str:
        """The path of a file that a check has, or of the one that serves in its place."""
        if name not in given:
            return str(DEFAULTS[name])
        path = os.path.join(self.folder, name)
        with open(path, 'wb') as file:
            file.write(given[name])
        return path

    def run(self, words: Sequence[str], given: Dict[str, bytes], messages: bytes = b'') -> Ran:
        """A command and its options, with the files that it takes."""
        line = [*words, '--trace', self.file('trace', given)]
        if words[0] == 'script':
            line += ['--users', self.file('users', given)]
        if words[0] != 'picks' and 'picks' in given:
            line += ['--picks', self.file('picks', given)]
        if self.program is None:
            return reading_ran(line)
        ran = subprocess.run(
            [self.program, *line],
            input=messages,
            stdout=subprocess.PIPE,
            stderr=subprocess.PIPE,
            check=False,
            timeout=SECONDS,
        )
        return Ran(ran.returncode, ran.stdout, ran.stderr)

    def replies(self, lines: List[str], given: Dict[str, bytes]) -> List[str]:
        """What a script prints, a line for each of its lines."""
        ran = self.run(['script'], given, '\n'.join(lines).encode())
        assert (ran.status, ran.err) == (0, b''), ran
        printed = ran.text().splitlines()
        assert len(printed) == len(lines), 'a line of output for each line'
        return printed


@contextmanager
def caught(name: str) -> Iterator[io.BytesIO]:
    """What this process writes to its standard output or error."""
    kept, room = getattr(sys, name), io.BytesIO()
    writer = io.TextIOWrapper(room, encoding='utf-8', newline='\n')
    setattr(sys, name, writer)
    try:
        yield room
        writer.flush()
        writer.detach()
    finally:
        setattr(sys, name, kept)


def reading_ran(line: List[str]) -> Ran:
    """The second reading's command."""
    with caught('stdout') as out, caught('stderr') as err:
        status = run_reading(line)
    return Ran(status, out.getvalue(), err.getvalue())
