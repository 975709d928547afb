"""What is run in a crash state: a command, or a function of the calling program."""

from __future__ import annotations

import errno
import os
import signal
import sys
import traceback
from dataclasses import dataclass
from typing import Dict, List, NamedTuple, Protocol

from crashfs_tools.checker.options import RecoveryFunction
from crashfs_tools.common.command import TEXT, Refused, end_process
from crashfs_tools.common.descendants import die_with_parent
from crashfs_tools.common.guard import VARIABLE
from crashfs_tools.common.signals import STOPS

# The signals that Python ignores, and that a command has as usual.
IGNORED = (signal.SIGPIPE, signal.SIGXFSZ)
FAILED = 1


class StandardStreams(NamedTuple):
    """The standard streams of a recovery: the path of the file that it reads, which has the
    acknowledged lines, and the descriptor that it prints to."""

    lines_path: str
    output: int


class StateRecovery(Protocol):
    """A recovery that is run in states. Each run is a process of its own, which starts in the
    directory of this process, in a session of its own."""

    def start(self, environment: Dict[bytes, bytes], streams: StandardStreams) -> int:
        """Starts the recovery, and returns the number of its process, which the caller must wait
        for. OSError if the system has no room for a process, Refused if the recovery can't be
        started for another reason."""


@dataclass
class CommandRecovery:
    """A program with its arguments, which are `words`."""

    words: List[str]

    def start(self, environment: Dict[bytes, bytes], streams: StandardStreams) -> int:
        """Starts the program: words[0] is its path, which isn't looked for on PATH. Refused, with
        its name, if it can't be started, or with the path of the lines if that file is gone: an
        earlier recovery may have removed it. OSError if the system has no room for a process."""
        try:
            return os.posix_spawn(
                self.words[0],
                self.words,
                environment,
                setsid=True,
                setsigdef=IGNORED,
                file_actions=[
                    (os.POSIX_SPAWN_OPEN, 0, streams.lines_path, os.O_RDONLY, 0),
                    (os.POSIX_SPAWN_DUP2, streams.output, 1),
                    (os.POSIX_SPAWN_DUP2, streams.output, 2),
                ],
            )
        except OSError as error:
            if error.errno in (errno.EAGAIN, errno.ENOMEM):
                raise
            is_there = os.path.exists(streams.lines_path)
            name = self.words[0] if is_there else streams.lines_path
            raise Refused(f'{name}: {error.strerror}') from error


@dataclass
class FunctionRecovery:
    """A function. Each call is in a fork of this process: it can't change the memory of this one,
    and it can be killed if it is slow."""

    function: RecoveryFunction

    @property
    def name(self) -> str:
        """The function's module and name, by which reports name the recovery."""
        return f'{self.function.__module__}.{self.function.__qualname__}'

    def start(self, environment: Dict[bytes, bytes], streams: StandardStreams) -> int:
        """Forks this process, calls the function in the fork, and returns the fork's number.
        OSError if the system has no room for a process. Any exception in the fork, also before the
        call, is printed there, and the fork's status is FAILED."""
        process = os.fork()
        if process == 0:
            try:
                self.become_child(environment, streams)
                status = self.call_function()
            except BaseException:
                traceback.print_exc()
                status = FAILED
            end_process(status)
        return process

    def become_child(self, environment: Dict[bytes, bytes], streams: StandardStreams) -> None:
        """In the fork: makes this process what a command would be. It gets a session of its own and
        these streams, is ended by the signals of STOPS, and is killed if its parent ends. Of the
        environment it gets CRASHFS_STATE, CRASHFS_SAYS and the guard's tokens. OSError if a stream
        can't be opened."""
        die_with_parent()
        os.setsid()
        for stop_signal in STOPS:
            signal.signal(stop_signal, signal.SIG_DFL)
        os.dup2(os.open(streams.lines_path, os.O_RDONLY), 0)
        os.dup2(streams.output, 1)
        os.dup2(streams.output, 2)
        # The caller may have replaced them, as pytest does.
        sys.stdin, sys.stdout = open(0, **TEXT), open(1, 'w', **TEXT)
        sys.stderr = sys.stdout
        for name in (b'CRASHFS_STATE', b'CRASHFS_SAYS', os.fsencode(VARIABLE)):
            if name in environment:
                os.environb[name] = environment[name]

    def call_function(self) -> int:
        """In the fork: calls the function with the path of this process's directory and the lines
        of standard input, and returns the exit status. It is 0 whatever the function returns; for a
        SystemExit the last eight bits of its number, 0 for None, or FAILED for a text, which is
        printed; FAILED for any other exception, which is printed with cause_text() as last line."""
        lines = [line.rstrip('\n') for line in sys.stdin]
        try:
            self.function(os.getcwd(), lines)
        except SystemExit as system_exit:
            if system_exit.code is None or isinstance(system_exit.code, int):
                # As a process has it: os._exit() refuses a larger number.
                return (system_exit.code or 0) & 0xFF
            print(system_exit.code)
            return FAILED
        except BaseException as fault:
            traceback.print_exc()
            print(f'\n{cause_text(fault)}')
            return FAILED
        return 0


def cause_text(fault: BaseException) -> str:
    """A fault as one line: the first line of an assertion's text; of any other fault, and of an
    assertion without a text, the type and the first line of the text. What the fault's `__str__`
    raises passes."""
    text = str(fault).strip()
    if not (isinstance(fault, AssertionError) and text):
        lines = traceback.format_exception_only(type(fault), fault)
        # Before it are the lines of a SyntaxError, and after it the notes of an exception.
        text = next(line for line in lines if not line.startswith(' '))
    return text.split('\n')[0]
