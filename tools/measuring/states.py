"""The time that `crashfs-check` takes for each state of SQLite's example, with `true` as COMMAND,
compared with a C program that does as little as possible: it writes the files, forks, and runs
`true`."""

from __future__ import annotations

import os
import re
import shutil
import subprocess
import sys
import tempfile
import time
from pathlib import Path
from typing import Dict, List, NamedTuple, Optional

from building.usage import read_to_end

from .programs import Programs, Tally

SOURCE = Path(__file__).with_name('states.c')
CHECK = Path(__file__).parents[1] / 'crashfs-check'
TRACE = Path(__file__).parents[2] / 'examples' / 'sqlite' / 'full.trace'
# The mean sizes of the two files that the example's states have.
SIZES = ['8192', '6560']
# The counts are read from what each check prints: to write more would be measured too.
TRIED = re.compile(r' ([\d,]+) states, ([\d,]+) different: none fails')
# A state may take so many times as long as in the C program, and so many milliseconds of a check by
# all processors; of so many checks the least figures count.
MOST_RATIO, MOST_MILLISECONDS, RUNS = 1.5, 1.0, 3


class Times(NamedTuple):
    """The times of a command that tried states: how many states there were and how many it tried,
    the processor time of the command and its children, and the time that passed."""

    state_count: int
    tried_count: int
    processor_seconds: float
    wall_seconds: float


class TimedCommand(NamedTuple):
    """A command that has ended: what it printed on standard output, the processor time of it and
    its children, and the time that passed."""

    output: str
    processor_seconds: float
    wall_seconds: float


def time_command(words: List[str], environment: Optional[Dict[str, str]] = None) -> TimedCommand:
    """Runs a command to its end, however long it takes, in this environment, or in that of this
    process if it is None, and returns what it printed, with its times. OSError if the command can't
    be started, or if its status isn't 0."""
    start_time = time.monotonic()
    with subprocess.Popen(
        words, stdout=subprocess.PIPE, stdin=subprocess.DEVNULL, text=True, env=environment
    ) as child:
        output, usage = read_to_end(child)
    wall_seconds = time.monotonic() - start_time
    if child.returncode != 0:
        raise OSError(f'{words[0]} ended with status {child.returncode}: {output[-200:]}')
    return TimedCommand(output, usage.processor_seconds, wall_seconds)


class Checks:
    """Checks of SQLite's example, which are measured as they are after a user's first one: Python
    has compiled the modules. Their options must have `--families`, for prefixes and holes, or
    `--prefixes`: so figures can be compared with those of earlier versions."""

    def __init__(self, programs: Programs, folder: str) -> None:
        """Runs a check, so that Python compiles the modules into the folder. The program `crashfs`
        must be built. OSError as measure_check()."""
        self.program = programs.path('crashfs')
        self.environment = {**os.environ, 'PYTHONPYCACHEPREFIX': folder}
        self.environment.pop('PYTHONDONTWRITEBYTECODE', None)
        self.measure_check('--prefixes')

    def measure_check(self, *options: str) -> Times:
        """The times of one check with these options. OSError if the check fails, or finds a state
        that fails."""
        # -S leaves out what this machine's Python loads by itself.
        program = [sys.executable, '-S', str(CHECK), '--crashfs', self.program]
        words = [*program, *options, str(TRACE), '--', '/bin/true']
        command = time_command(words, self.environment)
        counts = TRIED.search(command.output)
        if counts is None:
            raise OSError(f'{words[0]} ended with status 0: {command.output[-200:]}')
        state_count, tried_count = (int(count.replace(',', '')) for count in counts.groups())
        return Times(state_count, tried_count, command.processor_seconds, command.wall_seconds)

    def least_times(self, *options: str) -> Times:
        """The least processor time and the least wall time of RUNS checks with these options: they
        may be of different checks. The counts are those of the first. OSError as
        measure_check()."""
        all_times = [self.measure_check(*options) for _ in range(RUNS)]
        return all_times[0]._replace(
            processor_seconds=min(times.processor_seconds for times in all_times),
            wall_seconds=min(times.wall_seconds for times in all_times),
        )


def measure_c_program(folder: str, state_count: int) -> Times:
    """The times of the C program for state_count states, all of which it tries. It is compiled in
    the folder, and works there. CalledProcessError if it can't be compiled, OSError if there is no
    cc, or if the program fails."""
    program = os.path.join(folder, 'states')
    subprocess.run(['cc', '-O2', '-o', program, str(SOURCE)], check=True)
    command = time_command([program, folder, str(state_count), '/bin/true', *SIZES])
    return Times(state_count, state_count, command.processor_seconds, command.wall_seconds)


class AllTimes(NamedTuple):
    """The times of a check by all processors, of a short one that tries only prefixes, of a check
    by one job, and of the C program."""

    check: Times
    short_check: Times
    one_job_check: Times
    c_program: Times


def measure_all_times(programs: Programs) -> AllTimes:
    """The times that the rows of states need. They are measured one after the other, in a folder
    that is removed at the end. OSError or CalledProcessError if a program is missing or fails."""
    with tempfile.TemporaryDirectory() as folder:
        checks = Checks(programs, folder)
        check, short_check = checks.least_times('--families'), checks.least_times('--prefixes')
        one_job_check = checks.measure_check('--families', '--jobs', '1')
        c_program = measure_c_program(folder, check.tried_count)
        return AllTimes(check, short_check, one_job_check, c_program)


def add_state_rows(programs: Programs, tally: Tally) -> None:
    """Measures and prints the rows of states. If a program is missing or fails, that is a failure
    of the tally, and no row is printed. The program `crashfs` must be built."""
    if shutil.which('cc') is None:
        tally.add_failure('there is no cc')
        return
    try:
        times = measure_all_times(programs)
    except (OSError, subprocess.CalledProcessError) as error:
        tally.add_failure(str(error))
        return
    add_rate_lines(times, tally)
    add_time_rows(times, tally)


def add_rate_lines(times: AllTimes, tally: Tally) -> None:
    """Prints how long the check by all processors and that by one job took, and how many states
    they and the C program tried in a second."""
    tally.add_line(rate_line(times.check, len(os.sched_getaffinity(0))))
    tally.add_line(rate_line(times.one_job_check, 1))
    c_program_rate = times.c_program.tried_count / times.c_program.wall_seconds
    tally.add_line(f'the C program by one: {c_program_rate:.0f} a second')


def add_time_rows(times: AllTimes, tally: Tally) -> None:
    """Prints how long a state takes, with the rows that have bounds. A state's processor time is
    that by which a check of more states takes longer, so that a check's beginning and end aren't
    counted."""
    check, short_check, _, c_program = times
    more_seconds = check.processor_seconds - short_check.processor_seconds
    state_seconds = more_seconds / (check.tried_count - short_check.tried_count)
    c_program_seconds = c_program.processor_seconds / c_program.tried_count
    tally.add_line(
        f'processor time of a state: {state_seconds * 1e3:.3f} ms; of the C program '
        f'{c_program_seconds * 1e3:.3f} ms'
    )
    ratio = state_seconds / c_program_seconds
    tally.add_figure('a state beside the C program', ratio, 'times', MOST_RATIO)
    milliseconds = check.wall_seconds / check.state_count * 1e3
    tally.add_figure('a state by all jobs', milliseconds, 'ms', MOST_MILLISECONDS)


def rate_line(check: Times, jobs: int) -> str:
    """The line that says how long a check by this number of jobs took, and how many states it had
    and tried in a second."""
    return (
        f'{check.state_count} states, {check.tried_count} of them tried, by {jobs} jobs: '
        f'{check.wall_seconds:.3f} s, {check.state_count / check.wall_seconds:.0f} states and '
        f'{check.tried_count / check.wall_seconds:.0f} trials a second'
    )
