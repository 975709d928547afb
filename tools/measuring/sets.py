"""How fast `crashfs picks` prints, compares, counts and draws allowed sets, and in how much memory.

Each trace has files that are made in one directory, with nothing between them: each subset of these
operations is an allowed set, so n files have 2^n."""

from __future__ import annotations

import subprocess
import tempfile
from pathlib import Path
from typing import List, NamedTuple, Sequence, Tuple

from building.usage import Usage, wait_for_usage
from crashfs_tools.checker.states.steps import trace_text
from crashfs_tools.common.trace import Creat, Header, Say, Trace

from .programs import Programs, Tally

# The owner and the group of all files, and of the root.
OWNER = 'cat', 'staff'


class PicksCommand(NamedTuple):
    """A command of `picks` that is measured, and the bounds of its rows. The first row has its
    processor time divided by `divisor`, the second its memory divided by `divisor`: also the memory
    that the program needs for any trace is counted."""

    label: str
    # How many acknowledged lines its trace has, and then how many new files.
    say_count: int
    file_count: int
    options: Tuple[str, ...]
    # How many lines it must print.
    line_count: int
    divisor: int
    # The unit of the time, how many seconds it is, and how many units may pass.
    unit: str
    unit_seconds: float
    most: float
    # How many bytes the second row may have; 0 if there is no second row.
    most_bytes: int = 0


COMMANDS = (
    PicksCommand(
        label='a million sets of 100 micro-operations, printed',
        say_count=80,
        file_count=20,
        options=('--every', '--most', '1048656'),
        line_count=80 + 2**20,
        divisor=1,
        unit='s',
        unit_seconds=1.0,
        most=1.05,
    ),
    PicksCommand(
        label='a class of sets that are compared',
        say_count=0,
        file_count=16,
        options=('--every', '--different'),
        line_count=2**16,
        # Of k files the sets are 2^k classes, for each k.
        divisor=2**17 - 1,
        unit='us',
        unit_seconds=1e-6,
        most=5.0,
        most_bytes=300,
    ),
    PicksCommand(
        label='the sets of 128 independent places, counted',
        say_count=0,
        file_count=128,
        options=('--every', '--count'),
        line_count=1,
        divisor=1,
        unit='ms',
        unit_seconds=1e-3,
        most=10.0,
    ),
    PicksCommand(
        label='a set of 63 independent places, drawn',
        say_count=0,
        file_count=63,
        options=('--sample', '16384', '--seed', '1'),
        line_count=16_384,
        divisor=16_384,
        unit='us',
        unit_seconds=1e-6,
        most=10.0,
    ),
)


def independent_files_trace(say_count: int, file_count: int) -> Trace:
    """A trace with say_count acknowledged lines, and then file_count new files in the root."""
    says = [Say('stored')] * say_count
    new_files = [Creat(f'/f{number}', *OWNER, 0o644) for number in range(file_count)]
    return Trace(Header(*OWNER, 0o775), operations=[*says, *new_files])


def measure_usage(words: List[str], line_count: int, output_path: Path) -> Usage:
    """Runs a command to its end, however long it takes, and returns what it used. Its standard
    output replaces the file at output_path, and stays there. OSError if the command can't be
    started, if its status isn't 0, or if it doesn't print line_count lines."""
    with open(output_path, 'wb') as output:
        with subprocess.Popen(words, stdin=subprocess.DEVNULL, stdout=output) as child:
            usage = wait_for_usage(child)
    with open(output_path, 'rb') as output:
        printed_count = sum(1 for _ in output)
    if child.returncode != 0 or printed_count != line_count:
        raise OSError(f'{words[0]} printed {printed_count} lines with status {child.returncode}')
    return usage


def measure_command(program: str, command: PicksCommand, folder: Path) -> Usage:
    """Runs a command on its trace, by this program, and returns what it used. The trace and what is
    printed are files in the folder, in which they replace those of an earlier command.
    OSError as measure_usage(), or if the trace can't be written."""
    trace_path = folder / 'sets.trace'
    trace = independent_files_trace(command.say_count, command.file_count)
    trace_path.write_text(trace_text(trace), 'utf-8')
    words = [program, 'picks', '--trace', str(trace_path), *command.options]
    return measure_usage(words, command.line_count, folder / 'printed')


def add_set_rows(
    programs: Programs, tally: Tally, commands: Sequence[PicksCommand] = COMMANDS
) -> None:
    """Measures the commands, and prints their rows. If a command fails, that is a failure of the
    tally, and no row of the command is printed. The program `crashfs` must be built."""
    program = programs.path('crashfs')
    with tempfile.TemporaryDirectory() as folder:
        for command in commands:
            try:
                usage = measure_command(program, command, Path(folder))
            except OSError as error:
                tally.add_failure(str(error))
            else:
                add_command_rows(command, usage, tally)


def add_command_rows(command: PicksCommand, usage: Usage, tally: Tally) -> None:
    """Prints the row of a command's time, and that of its memory if this has a bound, from what the
    command used."""
    time_figure = usage.processor_seconds / command.unit_seconds / command.divisor
    tally.add_figure(command.label, time_figure, command.unit, command.most)
    if command.most_bytes:
        memory_figure = usage.memory_bytes / command.divisor
        tally.add_figure(f'{command.label}: memory', memory_figure, 'bytes', command.most_bytes)
