"""Random sessions on disk images of real file systems, compared with the crash states.

Each session is made again up to each of its operations, with what the kernel has written then and
with more. The device is copied there, and the copy mounted: a crash. The tree on it must be that of
an allowed set by the profile of its file system. It needs root, loop devices and mkfs. Results are
kept in DIR, a line for each session; sessions that DIR has, with as many operations, are not made
again. Status 0: no disk is outside the profile of its file system.
"""

from __future__ import annotations

import argparse
import json
import os
import platform
import sys
from dataclasses import asdict
from functools import partial
from pathlib import Path
from typing import Iterator, List, Optional, Tuple

from crashfs_tools.checker.command_line import parse_positive
from crashfs_tools.checker.states.steps import trace_text
from crashfs_tools.common.command import Refused
from crashfs_tools.common.guard import Guard
from crashfs_tools.disks.filesystems import missing_requirement, filesystems_by_names
from crashfs_tools.disks.pool import become_worker
from crashfs_tools.disks.workers import DiskWorkers

from .disk_sessions import OPERATIONS, PROFILE_OF, SessionMaker, SessionResult, sums_table
from .random_sessions import draw_session

MEMORY = '/dev/shm'
RESULTS = 'results.jsonl'

# A file system's name, and the seed of a session on it.
Task = Tuple[str, int]


def parse_words(words: List[str]) -> argparse.Namespace:
    """The options that the words after `measure disks` give. Wrong words and counts below 1, with
    status 2, and --help end the program (SystemExit). Only refusal_text() checks that the file
    systems are known."""
    parser = argparse.ArgumentParser(
        prog='measure disks',
        description=__doc__,
        formatter_class=argparse.RawDescriptionHelpFormatter,
    )
    parser.add_argument('--on', default=','.join(PROFILE_OF), metavar='LIST', help='file systems')
    parser.add_argument('--first', type=int, default=1, metavar='SEED', help='the first seed (1)')
    parser.add_argument(
        '--sessions', type=parse_positive, default=300, metavar='N', help='how many (300)'
    )
    parser.add_argument(
        '--operations',
        type=parse_positive,
        default=OPERATIONS,
        metavar='N',
        help=f'of each ({OPERATIONS})',
    )
    parser.add_argument(
        '--jobs', type=parse_positive, default=os.cpu_count() or 1, metavar='N', help='at once'
    )
    parser.add_argument('dir', type=Path, metavar='DIR', help='where results are kept')
    return parser.parse_args(words)


class Measurement:
    """The sessions that are asked for, and the file of results, to which each new result is added.
    So the same command line continues a measurement that was stopped."""

    def __init__(self, options: argparse.Namespace) -> None:
        """Reads and makes nothing yet."""
        self.options = options
        self.filesystems = list(dict.fromkeys(options.on.split(',')))
        self.results_path = options.dir / RESULTS

    def read_results(self) -> List[SessionResult]:
        """The results of the sessions that are asked for, in the order of the file; none if there
        is no file. Sessions with another number of operations are left out. ValueError if a line
        isn't whole, as after the command was killed; TypeError if a line has other fields; OSError
        if the file can't be read."""
        tasks, path = set(self.tasks()), self.results_path
        lines = path.read_text('utf-8').splitlines() if path.exists() else []
        return [
            result
            for result in (SessionResult(**json.loads(line)) for line in lines)
            if result.operations == self.options.operations
            and (result.filesystem, result.seed) in tasks
        ]

    def tasks(self) -> Iterator[Task]:
        """A task for each seed and each different file system that the options name, seed by
        seed."""
        first_seed = self.options.first
        seeds = range(first_seed, first_seed + self.options.sessions)
        return ((name, seed) for seed in seeds for name in self.filesystems)

    def tasks_left(self) -> List[Task]:
        """The tasks whose results the file doesn't have, in the order of tasks(). Errors as
        read_results()."""
        done_tasks = {(result.filesystem, result.seed) for result in self.read_results()}
        return [task for task in self.tasks() if task not in done_tasks]

    def make_sessions(self, tasks: List[Task], folder: str) -> None:
        """Makes the sessions of these tasks, several at once, saves each result as it comes, and
        shows on standard error how many are made. Images are made in the folder, and DIR first, if
        it isn't there. Refused if an image can't be made or mounted; OSError if DIR can't be made,
        or is a file; other errors as DiskWorkers.results() and save_result(). The results that were
        saved stay."""
        self.options.dir.mkdir(parents=True, exist_ok=True)
        makers = {
            filesystem.name: SessionMaker(filesystem, folder)
            for filesystem in filesystems_by_names(self.filesystems)
        }

        def make_session(task: Task) -> SessionResult:
            """The result of a task, in a worker process."""
            name, seed = task
            return makers[name].compare_session(seed, self.options.operations)

        begin_worker = partial(become_worker, os.getpid())
        with DiskWorkers(self.options.jobs, begin_worker, make_session) as workers:
            for count, result in enumerate(workers.results(tasks), 1):
                self.save_result(result)
                print(f'\r{count} of {len(tasks)} sessions', end='', file=sys.stderr, flush=True)
        print(file=sys.stderr)

    def save_result(self, result: SessionResult) -> None:
        """Adds a result to the file in DIR, which must be there. If the result has a disk outside
        the file system's profile, the session's trace is also written to DIR, as
        FILESYSTEM-SEED-OPERATIONS.trace, over an older one. OSError if one of the two can't be
        written: the file of results may then have a part of the line."""
        with self.results_path.open('a', encoding='utf-8') as file:
            file.write(json.dumps(asdict(result)) + '\n')
        if result.outside:
            trace = draw_session(result.seed, result.operations)
            name = f'{result.filesystem}-{result.seed}-{result.operations}.trace'
            (self.options.dir / name).write_text(trace_text(trace), 'utf-8')


def refusal_text(filesystems: List[str]) -> Optional[str]:
    """Why the file systems of these names can't be measured here; None if they can. Each must be in
    PROFILE_OF, even if crashfs-check knows it. OSError if the system can't fork."""
    unknown = [name for name in filesystems if name not in PROFILE_OF]
    if unknown:
        return f'{unknown[0]} is none of {", ".join(PROFILE_OF)}'
    return missing_requirement(filesystems_by_names(filesystems))


def make_missing_sessions(measurement: Measurement) -> None:
    """Makes the sessions of tasks_left(), if there are any, with images in a folder that is removed
    at the end, in memory if there is /dev/shm. Errors of Guard, tasks_left() and make_sessions()
    are raised."""
    tasks = measurement.tasks_left()
    if tasks:
        with Guard('measure-disks', MEMORY if os.path.isdir(MEMORY) else None) as guard:
            measurement.make_sessions(tasks, guard.directory)


def outside_texts(results: List[SessionResult]) -> Iterator[str]:
    """A text for each disk that its file system's profile doesn't allow, after an empty line."""
    for result in results:
        session = f'{result.filesystem}, session {result.seed}'
        profile = PROFILE_OF[result.filesystem]
        yield from (f'\noutside {profile}: {session}, {text}' for text in result.outside)


def main(words: List[str]) -> int:
    """Runs `measure disks` with these words, and returns its status: 1 if a disk is outside its
    file system's profile; 2 if the sessions can't be made here, and no table is printed then. The
    file systems must be usable even if the file has all results. Errors as parse_words(),
    refusal_text() and make_missing_sessions(), except Refused."""
    measurement = Measurement(parse_words(words))
    refusal = refusal_text(measurement.filesystems)
    if refusal is not None:
        print(f'measure disks: {refusal}', file=sys.stderr)
        return 2
    try:
        make_missing_sessions(measurement)
    except Refused as refused:
        print(f'measure disks: {refused}', file=sys.stderr)
        return 2
    results = measurement.read_results()
    operation_count = measurement.options.operations
    print(f'Kernel {platform.release()}, {operation_count} operations a session\n')
    print('\n'.join([*sums_table(results), *outside_texts(results)]))
    return 1 if any(result.outside for result in results) else 0
