"""A temporary directory and processes that are gone when a run ends, whatever ends it.

A second process, the watcher, makes the directory and waits for the end of the first process, also
by a kill. It then ends every process that still has the run's token in its environment, unmounts
what is mounted below the directory, and removes the directory. The first process is a reaper: it
ends all that it started, and their descendants. A run within another one keeps the tokens of both.
"""

from __future__ import annotations

import errno
import json
import os
import re
import signal
import tempfile
import time
from contextlib import ExitStack
from typing import Dict, Iterable, Mapping, NamedTuple, NoReturn, Optional, Set

from . import descendants
from .command import print_line
from .mount_table import MountTable
from .streams import open_pipe
from .removal import TRASH_ENDING, remove_tree
from .signals import STOPS, ignore_signals, stop_signals_blocked

VARIABLE = 'CRASHFS_GUARD'
# The pause between two scans of all processes for a token.
SCAN_PAUSE_SECONDS = 0.01
# What counts as the answer of a watcher that was killed before it answered.
WATCHER_KILLED = json.dumps([None, errno.ECHILD, 'its watcher was killed', 'temporary files'])


class Watcher(NamedTuple):
    """A watcher that runs: the number of its process, the end of the pipe whose closing it waits
    for, and the directory that it made."""

    process: int
    alive_writer: int
    directory: str


# What a guard has before its `with`.
NOT_STARTED = Watcher(0, -1, '')


class Guard:
    """Used by `with`. Start processes with `environment`, and put files below `directory`, which is
    made in `folder`, or in the system's folder for temporary files. `program` begins its name and
    the lines that are printed. A guard that may not reap ends only what was started with
    `environment`, and no other children of this process."""

    def __init__(
        self, program: str, folder: Optional[str] = None, *, may_reap: bool = True
    ) -> None:
        """Makes and starts nothing yet: __enter__() does."""
        self.program = program
        self.folder = folder
        self.may_reap = may_reap
        self.token = os.urandom(16).hex()
        self.directory = ''
        self.is_reaper = False
        self.watcher = NOT_STARTED
        # Processes that could not be ended, with the names of their programs.
        self.still_running: Dict[int, str] = {}

    def __enter__(self) -> Guard:
        """Makes the directory, and reports if it isn't in TMPDIR. OSError, with the name of the
        place, if it can't be made; or without a name if the system can't fork or has no more pipes.
        Then the guard leaves no process, directory or pipe. This process stays a reaper, if it may
        be one, also after the end of the `with`."""
        self.is_reaper = self.may_reap and descendants.become_reaper()
        try:
            # A signal must not come before the watcher can be closed, nor reach the watcher before
            # that ignores signals. One that has waited is raised at the end of this block.
            with stop_signals_blocked():
                self.watcher = start_watcher(self.program, self.folder, self.token)
                self.directory = self.watcher.directory
                self.report_other_folder()
        except BaseException:
            if self.directory:
                self.__exit__()
            raise
        return self

    def report_other_folder(self) -> None:
        """Prints a line on standard error if the directory isn't in TMPDIR, because that can't be
        written. Prints nothing if TMPDIR isn't set, or if the guard has a `folder`."""
        named_folder, used_folder = os.environ.get('TMPDIR'), os.path.dirname(self.directory)
        if self.folder is None and named_folder and os.path.realpath(named_folder) != used_folder:
            print_line(
                self.program, f'TMPDIR={named_folder} can not be written: {used_folder} is used'
            )

    @property
    def environment(self) -> Dict[str, str]:
        """The environment with which processes must be started so that the guard ends them: a copy
        of that of this process now, with the token."""
        return with_token(os.environ, self.token)

    def end_processes(self, spared: Iterable[int] = ()) -> Dict[int, str]:
        """Ends all that was started with `environment`, and, if this process is a reaper, its other
        children and orphans, except the spared ones. A process started with `environment` can't be
        spared. Waits up to twice ENDING_SECONDS; the statuses of ended children are lost. Returns
        `still_running`: what no call could end, each with its name; always empty if this process is
        no reaper. OSError without /proc."""
        end_processes_with_token(self.token)
        if self.is_reaper:
            children = descendants.end_children(
                {self.watcher.process, *self.still_running, *spared}
            )
            self.still_running.update(children)
        return self.still_running

    def send_signal(self, signal_number: int, spared_process: int) -> int:
        """Sends a signal to all that was started with `environment`, and, if this process is a
        reaper, to all its descendants, but not to `spared_process`. What is started meanwhile may
        not get it. Returns how many processes got it: those that are gone, or another user's,
        don't. OSError without /proc."""
        sent_count = 0
        processes = processes_with_token(self.token)
        if self.is_reaper:
            processes |= descendants.descendant_processes()
        for process in processes - {self.watcher.process, spared_process}:
            try:
                os.kill(process, signal_number)
                sent_count += 1
            except OSError:
                pass
        return sent_count

    def __exit__(self, *_: object) -> None:
        """Lets the watcher end processes and remove the directory, waits for it without limit, and
        prints on standard error what could not be removed. An exception of the `with` is raised
        after that. Children that weren't started with `environment` aren't ended: end_processes()
        does that."""
        os.close(self.watcher.alive_writer)
        os.waitpid(self.watcher.process, 0)
        for path in (self.directory, self.directory + TRASH_ENDING):
            if os.path.lexists(path):
                print_line(self.program, f'{path} could not be removed')


def start_watcher(program: str, folder: Optional[str], token: str) -> Watcher:
    """Starts the watcher of a guard, and waits until it has made the directory. OSError, with the
    name of the place, if the watcher can't make a directory, or is killed before: it has ended
    then. OSError without a name if it can't be started: then no pipe stays open. The caller blocks
    the signals that stop a command."""
    with ExitStack() as opened:
        alive_reader, alive_writer = open_pipe(opened)
        answer_reader, answer_writer = open_pipe(opened)
        process = os.fork()
        opened.pop_all()
    if process == 0:
        os.close(alive_writer)
        os.close(answer_reader)
        run_watcher(program, folder, token, alive_reader, answer_writer)
    os.close(alive_reader)
    os.close(answer_writer)
    with open(answer_reader, encoding='ascii') as stream:
        directory, *fault = json.loads(stream.read() or WATCHER_KILLED)
    if fault:
        os.close(alive_writer)
        os.waitpid(process, 0)
        raise OSError(*fault)
    return Watcher(process, alive_writer, directory)


def run_watcher(
    program: str, folder: Optional[str], token: str, alive_reader: int, answer_writer: int
) -> NoReturn:
    """The watcher, which never returns: it makes the directory, waits until the first process
    leaves the guard or ends, and cleans up. It makes the directory itself, so that a kill of the
    first process always leaves a process that removes it."""
    try:
        # The first process may be gone before it reads the answer: that is no signal.
        ignore_signals((*STOPS, signal.SIGPIPE))
        os.setsid()
        descendants.become_cleaner()
        null_device = os.open(os.devnull, os.O_RDWR)
        for stream in (0, 1, 2):
            os.dup2(null_device, stream)
        directory = make_and_send_directory(program, folder, answer_writer)
        os.read(alive_reader, 1)
        clean_up(token, directory)
    finally:
        os._exit(0)


def make_and_send_directory(program: str, folder: Optional[str], answer_writer: int) -> str:
    """In the watcher: makes the directory, writes the answer to the pipe, and closes the pipe. The
    answer is a JSON array, as start_watcher() reads it: the path, or null and the arguments of the
    OSError. Returns the path, which is empty if the directory can't be made."""
    directory = ''
    try:
        directory = make_temporary_directory(f'{program}-', folder)
        answer = json.dumps([directory])
    except OSError as error:
        answer = json.dumps([None, error.errno, error.strerror, error.filename])
    try:
        os.write(answer_writer, answer.encode())
    except BrokenPipeError:
        pass
    os.close(answer_writer)
    return directory


def clean_up(token: str, directory: str) -> None:
    """In the watcher: ends the processes with the token. If the directory was made, unmounts what
    is mounted below it, and removes it; what can't be unmounted or removed stays in it, or next to
    it in a directory whose name ends with TRASH_ENDING."""
    end_processes_with_token(token)
    if directory:
        table = MountTable()
        table.unmount(table.points_below(directory))
        remove_tree(directory)


def make_temporary_directory(prefix: str, folder: Optional[str]) -> str:
    """Makes a directory whose name begins with a prefix, in a folder or, if that is None, in the
    system's one for temporary files. Returns its path, without links. An OSError names the
    place."""
    try:
        return os.path.realpath(tempfile.mkdtemp(prefix=prefix, dir=folder))
    except OSError as error:
        # If no place for temporary files can be written, the error has no name.
        place = error.filename or 'temporary files'
        raise OSError(error.errno, error.strerror, place) from error


def with_token(environment: Mapping[str, str], token: str) -> Dict[str, str]:
    """A copy of an environment whose VARIABLE has one more token, after those of the guards around
    this one."""
    tokens = [*filter(None, environment.get(VARIABLE, '').split(':')), token]
    return {**environment, VARIABLE: ':'.join(tokens)}


def processes_with_token(token: str) -> Set[int]:
    """The processes that were started with a token in their environment, and forks of these. A
    process that has ended, or may not be read, isn't found. OSError without /proc."""
    name, value = VARIABLE.encode(), token.encode()
    # Each entry of an environment ends with a NUL; tokens are separated by colons.
    entry = re.compile(rb'(?:\A|\0)%s=(?:[^\0]*:)?%s(?:[:\0]|\Z)' % (name, value))
    processes: Set[int] = set()
    for process in descendants.all_processes():
        try:
            with open(f'/proc/{process}/environ', 'rb', buffering=0) as file:
                environment = file.readall()
        except OSError:
            continue
        # Few environments have the token, and most others are left out faster so.
        if value in environment and entry.search(environment):
            processes.add(process)
    return processes


def end_processes_with_token(token: str) -> None:
    """Kills all processes with a token, again and again until none of them runs, since one may have
    just forked. Children of this process among them aren't waited for. After ENDING_SECONDS it
    returns, even if some still run. A cleaner has CLEANING_SECONDS to end by itself. OSError
    without /proc."""
    start_time = time.monotonic()
    while time.monotonic() < start_time + descendants.ENDING_SECONDS:
        processes = processes_with_token(token)
        if not processes:
            return
        elapsed = time.monotonic() - start_time
        descendants.kill_unless_cleaning(processes, elapsed, descendants.kill_process)
        time.sleep(SCAN_PAUSE_SECONDS)
