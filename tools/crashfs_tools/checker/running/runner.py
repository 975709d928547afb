"""Runs COMMAND in a state."""

from __future__ import annotations

import os
import select
import time
from dataclasses import dataclass, field
from enum import Enum
from functools import cached_property
from itertools import accumulate
from typing import Callable, Dict, List, NamedTuple, Optional, Set

from crashfs_tools.common import descendants
from crashfs_tools.common.command import Refused, last_line, signal_text
from crashfs_tools.common.mount_table import MountTable
from crashfs_tools.common.streams import poll_for_input
from crashfs_tools.common.trace_lines import without_numbers

from .output import MOST_BYTES, Output
from .recoveries import StateRecovery, StandardStreams

GOOD, BAD, NO_ANSWER = 'good', 'bad', 'no answer'
# So much of a cause, and of the end of what was printed, is kept.
CAUSE_CHARACTERS = 200
OUTPUT_CHARACTERS = 2_000
# No wait is longer: a signal that comes as it begins is handled only after it.
POLL_SECONDS = 0.5
# A command that takes longer lets others know what is known so far.
SLOW_SECONDS = 0.01
# Without descriptors of processes it is asked so often whether one has ended.
LOOK_SECONDS = 0.002
# COMMAND may put a symbolic link in the place of this file.
LINES_FILE = os.O_WRONLY | os.O_NOFOLLOW | os.O_CLOEXEC


# What the causes of runs that were late, or printed too much, begin with.
LATE, FLOODED = 'it had not ended after ', 'it printed more than '


class Outcome(NamedTuple):
    """What a command found in a state. result is GOOD, BAD or NO_ANSWER. cause is the last line
    that it printed, or its status, or why there is no answer. output is the end of what it printed.
    Of a good state cause and output are empty."""

    result: str
    cause: str = ''
    output: str = ''

    @property
    def cause_kind(self) -> str:
        """The part of the cause before its first colon, or all of it if it has none."""
        return self.cause.partition(':')[0]

    @property
    def cause_without_numbers(self) -> str:
        """The whole cause, with its numbers left out."""
        return without_numbers(self.cause)

    @property
    def has_no_end(self) -> bool:
        """Whether the command was killed because it was late or printed too much."""
        return self.result == NO_ANSWER and self.cause.startswith((LATE, FLOODED))


GOOD_OUTCOME = Outcome(GOOD)


class AcknowledgedLines:
    """The session's acknowledged lines, as a file in a folder for the commands' standard input.
    Each process has one file there, which it cuts or extends: a file for each state would be
    slow."""

    def __init__(self, texts: List[str], folder: str) -> None:
        """texts are the lines without their ends. Nothing is written yet."""
        self.texts = texts
        self.folder = folder
        self.file_path = ''
        self.line_count = 0
        self.file_sizes = [0, *accumulate(len(text.encode('utf-8')) + 1 for text in texts)]

    def write_file(self, count: int) -> str:
        """Gives this process's file the first `count` lines, which it has until the next call, and
        returns the file's path. The first call makes the file. OSError if it must be changed, but
        COMMAND has removed it or put a symbolic link in its place. If the file needn't be changed,
        that isn't noticed."""
        own_path = os.path.join(self.folder, f'says-{os.getpid()}')
        if self.file_path != own_path:
            self.file_path, self.line_count = own_path, 0
            os.close(os.open(own_path, LINES_FILE | os.O_CREAT | os.O_TRUNC, 0o666))
        if count != self.line_count:
            with open(os.open(own_path, LINES_FILE), 'wb') as lines:
                lines.truncate(self.file_sizes[min(count, self.line_count)])
                lines.seek(0, os.SEEK_END)
                lines.write(self.text(self.line_count, count).encode())
        self.line_count = count
        return own_path

    def text(self, begin: int, end: int) -> str:
        """The lines from place `begin` to before place `end` as one text, each with its line feed;
        an empty text if there are none."""
        return ''.join(f'{text}\n' for text in self.texts[begin:end])


class CheckEnded(Exception):
    """The check is over, also for the command that runs."""


class LeftRunning(Refused):
    """Processes of COMMAND could not be ended. They may still change files: no further command may
    run."""


class End(Enum):
    """Why a command isn't waited for any more: it exited, is late, or has printed too much."""

    EXITED = 'exited'
    LATE = 'late'
    FLOODED = 'flooded'


class Ending(NamedTuple):
    """How a run ended: its End; its status as subprocess has it, 0 unless it exited; and the paths
    in its directory at which something stays mounted."""

    end: End
    status: int
    mounted_paths: List[str]


def do_nothing() -> None:
    """Does nothing: a callback for callers that need none."""


@dataclass
class Checker:
    """Runs one recovery in states. `life` is this process's end of a pipe whose other end is closed
    when the check is over. when_slow() is called once for each command that takes SLOW_SECONDS.
    end_processes_with_token() ends what was started with the environment: for a process that isn't
    the reaper of what a command leaves."""

    recovery: StateRecovery
    timeout: float
    environment: Dict[str, str]
    acknowledged_lines: AcknowledgedLines
    life: Optional[int] = None
    when_slow: Callable[[], None] = do_nothing
    end_processes_with_token: Callable[[], None] = do_nothing
    # What commands left that could not be ended, with the names of the programs.
    left_processes: Dict[int, str] = field(default_factory=dict)

    @cached_property
    def environment_bytes(self) -> Dict[bytes, bytes]:
        """The names and values of the environment as bytes, which may be no text."""
        return {os.fsencode(name): os.fsencode(value) for name, value in self.environment.items()}

    @cached_property
    def current_directory(self) -> int:
        """A descriptor of the directory that this process is in at the first use. It stays open."""
        return os.open('.', os.O_PATH | os.O_DIRECTORY | os.O_CLOEXEC)

    @cached_property
    def poll(self) -> select.poll:
        """A poll object for the pipe `life`, if there is one. Each run registers what it waits for,
        and unregisters it."""
        return poll_for_input() if self.life is None else poll_for_input(self.life)

    @cached_property
    def mounts(self) -> MountTable:
        """The table of mounts, which is opened once."""
        return MountTable()

    def run(self, number: int, says: int, directory: str) -> Outcome:
        """Runs the recovery in a state's directory with the first `says` acknowledged lines, ends
        what it leaves running, and unmounts what it leaves mounted. The outcome is NO_ANSWER if it
        is late, prints too much or leaves a mount that stays. It is that too, in this and in later
        states, as long as left_processes has any. In the output the directory is `.`. Refused or
        OSError if the recovery can't be started, CheckEnded if the check ends meanwhile."""
        if self.left_processes:
            self.end_left_processes(descendants.child_processes() - set(self.left_processes))
        if self.left_processes:
            return Outcome(NO_ANSWER, unended_text('a process that it left', self.left_processes))
        earlier_children = descendants.child_processes()
        earlier_mounts = set(self.mounts.points_below(directory))
        output = Output()
        try:
            process = self.start(number, says, directory, output)
            ending = self.wait_and_clean_up(
                process, output, directory, earlier_children, earlier_mounts
            )
            if self.left_processes:
                subject = 'it' if process in self.left_processes else 'a process that it left'
                return Outcome(NO_ANSWER, unended_text(subject, self.left_processes))
            return self.outcome_of(ending, output, directory)
        finally:
            output.close()

    def wait_and_clean_up(
        self,
        process: int,
        output: Output,
        directory: str,
        earlier_children: Set[int],
        earlier_mounts: Set[int],
    ) -> Ending:
        """Waits for a command as wait() does. Then, also after an exception of wait(), kills its
        process group, waits for it if it has exited, ends other processes that it left, sets
        left_processes, and unmounts what it left mounted. Children and mounts that were there
        before, by their numbers, are spared."""
        has_exited = False
        try:
            end = self.wait(process, output)
            has_exited = end is End.EXITED
        finally:
            # Until it is waited for, no other group has its number.
            descendants.try_to_kill(os.killpg, process)
            # Only what has ended is waited for without limit: a kill may be refused.
            status = reap_child(process) if has_exited else 0
            self.end_left_processes(earlier_children, descendants.ENDING_SECONDS)
            mounted_paths = self.unmount(directory, earlier_mounts)
        return Ending(end, status, mounted_paths)

    def end_left_processes(self, spared: Set[int], seconds: float = 0) -> None:
        """Calls end_processes_with_token(), kills all children but the spared ones, and waits at
        most `seconds` for their end. Sets left_processes to those that still run, with the names of
        their programs."""
        self.end_processes_with_token()
        self.left_processes = descendants.end_children(spared, seconds)

    def unmount(self, directory: str, earlier_mounts: Set[int]) -> List[str]:
        """Unmounts what is mounted at a directory or below it, except the mounts with the numbers
        in earlier_mounts. Waits for the commands that unmount, without limit. Returns the paths in
        the directory at which something stays mounted. OSError as MountTable.points_below()."""
        points = self.mounts.points_below(directory).items()
        later_mounts = {number: point for number, point in points if number not in earlier_mounts}
        staying = self.mounts.unmount(later_mounts)
        return [os.path.relpath(point, directory) for point in staying]

    def start(self, number: int, says: int, directory: str, output: Output) -> int:
        """Starts the recovery in a state's directory, with a file of `says` acknowledged lines as
        its input, and returns the number of its process. This process is in the directory
        meanwhile. Refused or OSError if the recovery can't be started, or OSError if the file can't
        be written or the directory entered. In any case write_end of `output` is closed."""
        environment = {
            **self.environment_bytes,
            b'CRASHFS_STATE': b'%d' % number,
            b'CRASHFS_SAYS': b'%d' % says,
        }
        old_directory = self.current_directory
        try:
            lines_path = self.acknowledged_lines.write_file(says)
            os.chdir(directory)
            return self.recovery.start(environment, StandardStreams(lines_path, output.write_end))
        finally:
            os.fchdir(old_directory)
            output.close_writing()

    def wait(self, process: int, output: Output) -> End:
        """Waits until the command exits, is late or has printed too much, and returns which of
        these; too much counts even if it has exited. Reads what is printed meanwhile, and calls
        when_slow() once it takes SLOW_SECONDS. The process isn't reaped, and may still run unless
        it exited. CheckEnded if the check ends before; what when_slow() raises passes."""
        process_wait = ProcessWait(self.poll, process, output)
        begin_time = time.monotonic()
        is_slow = False
        try:
            while True:
                passed_seconds = time.monotonic() - begin_time
                if passed_seconds >= self.timeout:
                    return End.LATE
                if not is_slow and passed_seconds >= SLOW_SECONDS:
                    is_slow = True
                    self.when_slow()
                due_seconds = self.timeout if is_slow else min(self.timeout, SLOW_SECONDS)
                ready = process_wait.wait(min(due_seconds - passed_seconds, POLL_SECONDS))
                if self.life in ready:
                    raise CheckEnded
                if process_wait.has_ended(ready):
                    output.read_tail()
                    return End.FLOODED if output.is_flood else End.EXITED
                if output.is_flood:
                    return End.FLOODED
        finally:
            process_wait.close()

    def outcome_of(self, ending: Ending, output: Output, directory: str) -> Outcome:
        """The outcome of a run in a directory that left no process. No answer if it left a mount
        that stays, was late or printed too much; GOOD if its status is 0, else BAD with
        failure_cause(). What it printed is cut to OUTPUT_CHARACTERS, with `.` for the directory."""
        if ending.mounted_paths:
            path = ending.mounted_paths[0]
            return Outcome(NO_ANSWER, f'a mount that it left can not be unmounted: {path}')
        if ending.end is End.EXITED and ending.status == 0:
            return GOOD_OUTCOME
        printed_bytes = output.read_tail().replace(os.fsencode(directory), b'.')
        printed = printed_bytes.decode('utf-8', 'replace')
        tail = printed[-OUTPUT_CHARACTERS:]
        if ending.end is End.LATE:
            return Outcome(NO_ANSWER, f'{LATE}{self.timeout:g} seconds', tail)
        if ending.end is End.FLOODED:
            return Outcome(NO_ANSWER, f'{FLOODED}{MOST_BYTES >> 20} MB', tail)
        return Outcome(BAD, failure_cause(ending.status, printed), tail)


class ProcessWait:
    """A wait for a process, for what it prints, and for what a poll object has already. If the
    system has no descriptors of processes (Linux before 5.3), wait() takes at most LOOK_SECONDS,
    and has_ended() asks the system."""

    def __init__(self, poll: select.poll, process: int, output: Output) -> None:
        """Adds the process and its output to the poll object: call close() in any case."""
        self.poll, self.process, self.output = poll, process, output
        self.process_descriptor = open_process(process)
        self.descriptors = {output.read_end}
        if self.process_descriptor is not None:
            self.descriptors.add(self.process_descriptor)
        for descriptor in self.descriptors:
            poll.register(descriptor, select.POLLIN)

    def wait(self, seconds: float) -> Set[int]:
        """Waits at most `seconds`. Returns the descriptors that are ready, also of those that the
        poll object had already; maybe none. If something was printed, one piece of it is read; at
        the end of the output's pipe, the pipe is unregistered."""
        if self.process_descriptor is None:
            seconds = min(seconds, LOOK_SECONDS)
        ready = {descriptor for descriptor, _ in self.poll.poll(seconds * 1000)}
        if self.output.read_end in ready and not self.output.read_piece():
            self.unregister(self.output.read_end)
        return ready

    def has_ended(self, ready: Set[int]) -> bool:
        """Whether the process has ended; `ready` must be what wait() returned last. The process
        isn't reaped here, and must not have been reaped before."""
        if self.process_descriptor is not None:
            return self.process_descriptor in ready
        return os.waitid(os.P_PID, self.process, os.WEXITED | os.WNOHANG | os.WNOWAIT) is not None

    def unregister(self, descriptor: int) -> None:
        """Removes a descriptor from the poll object, so that wait() doesn't wait for it any more.
        KeyError if it was removed before."""
        self.descriptors.remove(descriptor)
        self.poll.unregister(descriptor)

    def close(self) -> None:
        """Removes all that was registered here from the poll object, and closes the descriptor of
        the process. The output isn't closed. Call it once."""
        for descriptor in list(self.descriptors):
            self.unregister(descriptor)
        if self.process_descriptor is not None:
            os.close(self.process_descriptor)


def open_process(process: int) -> Optional[int]:
    """Opens a descriptor of a process, which the caller closes; it can be polled for the process's
    end. None if the process is gone, or if the system gives no descriptor, as before Linux 5.3 or
    if too many files are open."""
    try:
        return os.pidfd_open(process)
    except (AttributeError, OSError):
        return None


def reap_child(process: int) -> int:
    """Waits for a child's end, without limit, and returns the child's status as subprocess has it.
    ChildProcessError if it is no child, or was reaped before."""
    return os.waitstatus_to_exitcode(os.waitpid(process, 0)[1])


def failure_cause(status: int, printed: str) -> str:
    """The cause of a command that failed: the last line of what it printed, after the name of a
    signal if one killed it, as `ended by SIGKILL: ..`. Without a line it is the status or the
    signal. The line is cut to CAUSE_CHARACTERS; the status is as subprocess has it."""
    cause = last_line(printed)[:CAUSE_CHARACTERS]
    if status > 0:
        return cause or f'status {status}'
    ending = f'ended by {signal_text(-status)}'
    return f'{ending}: {cause}' if cause else ending


def refuse_left_processes(left_processes: Dict[int, str]) -> None:
    """Raises LeftRunning if there are left_processes: these could not be ended, and have the names
    of their programs by their numbers."""
    if left_processes:
        raise LeftRunning(unended_text('a process that COMMAND left', left_processes))


def unended_text(subject: str, left_processes: Dict[int, str]) -> str:
    """A line that begins with a subject, such as `it` for the command, and says which processes
    could not be ended, with the names of their programs."""
    return f'{subject} could not be ended: {descendants.processes_text(left_processes)}'
