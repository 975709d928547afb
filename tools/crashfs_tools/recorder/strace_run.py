"""Runs COMMAND under strace."""

from __future__ import annotations

import os
import re
import shutil
import signal
import subprocess
import sys
import time
from contextlib import contextmanager, nullcontext
from typing import ContextManager, Iterator, List, Optional

from crashfs_tools.common.command import Refused
from crashfs_tools.common.guard import Guard
from crashfs_tools.common.signals import stop_signals
from crashfs_tools.common.streams import flushed_output, poll_for_input

from . import stacks
from .log_stream import LogStream
from .mapped_files import RESTARTED_CALLS, STOPPING_CALLS
from .options import NAME, RecordOptions
from .output_streams import AcknowledgingDescriptors
from .progress import CallProgress
from .strace_log import FORKS
from .translate import HANDLERS, SOCKET_HANDLERS

OLDEST = (5, 18)
# Longer texts than the largest file are cut by strace; a cut text is reported.
TEXT_BYTES = 1 << 25
# For how many seconds a second signal counts as the first: `timeout` sends its signal twice.
SAME_SIGNAL_SECONDS = 1.0
# How long the recorder waits for output before it looks whether strace has ended, and before it
# sends a signal again.
IDLE_SECONDS, RESEND_SECONDS = 0.5, 0.1
# How many bytes of COMMAND's output are copied at once.
READ_BYTES = 65_536


def find_strace() -> str:
    """The path of strace, which is started once for its version. Refused if there is no strace, or
    one before OLDEST, which prints no path of AT_FDCWD; OSError if it can't be started. If it
    prints no version, it is accepted: a log in another form is refused later."""
    path = shutil.which('strace')
    if path is None:
        raise Refused('strace: command not found; it is in the package strace of most systems')
    version_text = subprocess.run(
        [path, '-V'], stdin=subprocess.DEVNULL, check=False, text=True, stdout=subprocess.PIPE
    ).stdout
    version = re.search(r'version (\d+)\.(\d+)', version_text)
    if version and (int(version[1]), int(version[2])) < OLDEST:
        oldest = '.'.join(map(str, OLDEST))
        raise Refused(f'strace is {version[1]}.{version[2]}; {oldest} or later is needed')
    return path


def strace_command(strace_path: str, log_path: str, options: RecordOptions) -> List[str]:
    """The words that start strace, which is at strace_path, with its log at log_path, and COMMAND
    under it. Only the calls that the options need are traced. With --mapped the stop_options() are
    added; with --stacks the log has stacks, unless COMMAND is a Python program."""
    descriptors = options.acknowledging_descriptors
    may_be_sockets = descriptors.has_connections or bool(descriptors.nonstandard_numbers)
    socket_calls = SOCKET_HANDLERS if may_be_sockets else ()
    marking_calls = stacks.MARKING_CALLS if options.stacks else ()
    traced = dict.fromkeys([*FORKS, *HANDLERS, *socket_calls, *marking_calls])
    calls = ','.join(f'?{name}' for name in traced)
    command = [
        strace_path,
        '-f',
        '-y',
        '-xx',
        '-s',
        str(TEXT_BYTES),
        '-e',
        'raw=read,readv',
        '-e',
        f'trace={calls}',
        '-o',
        log_path,
    ]
    if options.stacks and not stacks.is_python_program(options.command[0]):
        command.append('-k')
    if options.mapped:
        # Signals that are injected don't arrive together with --seccomp-bpf.
        command += stop_options()
    else:
        command.append('--seccomp-bpf')
    return command + options.command


def stop_options() -> List[str]:
    """strace's options by which SIGSTOP stops COMMAND at each of STOPPING_CALLS, but at each second
    one only of RESTARTED_CALLS."""
    always = ','.join(f'?{name}' for name in STOPPING_CALLS if name not in RESTARTED_CALLS)
    alternately = ','.join(f'?{name}' for name in RESTARTED_CALLS)
    return [
        *('-e', f'inject={always}:signal=SIGSTOP'),
        *('-e', f'inject={alternately}:signal=SIGSTOP:when=1+2'),
    ]


def errors_copied(strace: subprocess.Popen[bytes]) -> ContextManager[object]:
    """A context in which COMMAND's standard error is copied to this process's, if it is a pipe."""
    if strace.stderr is None:
        return nullcontext()
    from .terminal_errors import pipe_copied

    return pipe_copied(strace.stderr)


class StraceRun:
    """A run of COMMAND under strace; to be used once. SIGINT, SIGTERM and SIGHUP are passed to
    COMMAND, and a second one kills it: what it did before is recorded. `signals` has those that
    came, signal_to_send the one that isn't passed yet. output_pipe is what strace shows for
    COMMAND's standard output, strace_process strace's number: None and 0 before the run."""

    def __init__(
        self, command_line: List[str], options: RecordOptions, stream: LogStream, guard: Guard
    ) -> None:
        """Starts nothing yet. command_line is that of strace_command(), `stream` reads strace's
        log, and isn't started yet; `guard` has the environment that COMMAND and all its processes
        get."""
        self.command_line, self.options = command_line, options
        self.stream, self.guard = stream, guard
        self.signals: List[int] = []
        self.first_signal_time = 0.0
        self.signal_to_send: Optional[int] = None
        self.output_pipe: Optional[str] = None
        self.strace_process = 0

    def run_command(self) -> int:
        """Runs COMMAND to its end, without a time limit, copies its standard output to this
        process's, and returns its status as Popen has it. To be called in the main thread, and
        before stream.finish(), which returns the log. Signals get their old handlers back. OSError
        if strace can't be started, the log's pipe can't be opened, or standard output can't be
        written: strace and COMMAND may still run then."""
        with self.signals_handled():
            strace = self.start_strace()
            assert strace.stdout is not None
            self.stream.start()
            with self.progress_lines(), errors_copied(strace):
                self.copy_output(strace, strace.stdout.fileno())
                return self.wait_for_status(strace)

    @contextmanager
    def signals_handled(self) -> Iterator[None]:
        """Within this, handle_signal() is the handler of each of stop_signals(); at the end they
        get their old handlers back. ValueError outside the main thread."""
        old_handlers = {
            number: signal.signal(number, self.handle_signal) for number in stop_signals()
        }
        try:
            yield
        finally:
            for number, handler in old_handlers.items():
                signal.signal(number, handler)

    def start_strace(self) -> subprocess.Popen[bytes]:
        """Starts strace with COMMAND in the recorded directory, with a pipe as its standard output,
        and sets strace_process and output_pipe. With --mapped a standard error that is a terminal
        becomes a pipe too. OSError if strace can't be started."""
        environment = self.guard.environment
        if self.options.stacks:
            environment = stacks.environment_with_hook(environment)
        strace = subprocess.Popen(
            self.command_line,
            cwd=self.options.directory,
            stdout=subprocess.PIPE,
            stderr=subprocess.PIPE if self.options.mapped and sys.stderr.isatty() else None,
            env=environment,
            pass_fds=inherited_descriptors(self.options.acknowledging_descriptors),
        )
        self.strace_process = strace.pid
        assert strace.stdout is not None
        self.output_pipe = f'pipe:[{os.fstat(strace.stdout.fileno()).st_ino}]'
        return strace

    def progress_lines(self) -> ContextManager[object]:
        """A context in which lines on the progress are printed if standard error is a terminal, and
        nothing if it isn't."""
        if not sys.stderr.isatty():
            return nullcontext()
        return CallProgress(NAME, lambda: len(self.stream.reader.log.calls))

    def copy_output(self, strace: subprocess.Popen[bytes], pipe: int) -> None:
        """Copies COMMAND's output from a pipe, as read_output() reads it, to standard output, and
        passes the signals that come meanwhile. If nobody reads standard output any more, the pipe
        is still read; OSError if standard output can't be written for another reason. To be called
        in the main thread."""
        wakeup_read, wakeup_write = os.pipe2(os.O_NONBLOCK | os.O_CLOEXEC)
        signal.set_wakeup_fd(wakeup_write, warn_on_full_buffer=False)
        try:
            for piece in iter(lambda: self.read_output(strace, pipe, wakeup_read), None):
                self.send_pending_signal()
                with flushed_output():
                    sys.stdout.buffer.write(piece)
        finally:
            signal.set_wakeup_fd(-1)
            os.close(wakeup_read)
            os.close(wakeup_write)

    def read_output(
        self, strace: subprocess.Popen[bytes], pipe: int, wakeup_pipe: int
    ) -> Optional[bytes]:
        """Waits a while for bytes of a pipe, or for a signal, at which Python writes to the wakeup
        pipe. Returns the bytes of the pipe, empty if there are none yet. None at its end, or if
        strace has ended and there are none: a process that strace doesn't follow may keep the pipe
        open."""
        seconds = IDLE_SECONDS if self.signal_to_send is None else RESEND_SECONDS
        ready = {number for number, _ in poll_for_input(pipe, wakeup_pipe).poll(seconds * 1000)}
        if wakeup_pipe in ready:
            os.read(wakeup_pipe, 64)
        if pipe in ready:
            return os.read(pipe, READ_BYTES) or None
        return None if not ready and strace.poll() is not None else b''

    def wait_for_status(self, strace: subprocess.Popen[bytes]) -> int:
        """Waits for strace's end, without a time limit, and returns its status, as Popen has it,
        which is COMMAND's. Signals that come meanwhile are passed to COMMAND."""
        while True:
            try:
                return strace.wait(RESEND_SECONDS)
            except subprocess.TimeoutExpired:
                self.send_pending_signal()

    def handle_signal(self, number: int, _: object) -> None:
        """The handler of signals: adds one to `signals`, but none within SAME_SIGNAL_SECONDS after
        the first. Sets signal_to_send: to the first signal, unless it is a Ctrl-C that COMMAND gets
        from the terminal too, and to SIGKILL after a later one."""
        if self.signals and time.monotonic() < self.first_signal_time + SAME_SIGNAL_SECONDS:
            return
        self.signals.append(number)
        if len(self.signals) > 1:
            self.signal_to_send = signal.SIGKILL
            return
        self.first_signal_time = time.monotonic()
        if number != signal.SIGINT or not is_on_terminal():
            self.signal_to_send = number

    def send_pending_signal(self) -> None:
        """Sends signal_to_send, unless that is None, to COMMAND's processes, but not to strace, and
        sets it to None. It stays if no process got the signal, and if it is SIGKILL: then the next
        call sends it again, as a process may have begun meanwhile."""
        number = self.signal_to_send
        if number is None or not self.guard.send_signal(number, spared_process=self.strace_process):
            return
        # A second signal may have come meanwhile.
        if self.signal_to_send != signal.SIGKILL:
            self.signal_to_send = None


def inherited_descriptors(acknowledging_descriptors: AcknowledgingDescriptors) -> List[int]:
    """The nonstandard_numbers that COMMAND inherits from the recorder: those with which the
    recorder was started, but none that it has opened itself."""
    numbers = acknowledging_descriptors.nonstandard_numbers
    return [number for number in numbers if is_inherited(number)]


def is_inherited(number: int) -> bool:
    """Whether a descriptor is open in this process, and is inherited by programs that it
    starts."""
    try:
        return os.get_inheritable(number)
    except OSError:
        return False


def is_on_terminal() -> bool:
    """Whether Ctrl-C on the terminal also reaches COMMAND, since this process's group is in the
    terminal's foreground. False if standard input isn't the terminal that controls this process."""
    try:
        return os.tcgetpgrp(0) == os.getpgrp()
    except OSError:
        return False
