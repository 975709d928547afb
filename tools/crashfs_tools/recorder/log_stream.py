"""Reads strace's log while COMMAND runs: by a thread, through a named pipe, so that it needs no
disk."""

from __future__ import annotations

import errno
import fcntl
import os
import re
import signal
import threading
import time
from collections import deque
from contextlib import suppress
from typing import Deque, List, Optional, Set, TextIO, Union

from crashfs_tools.common.streams import poll_for_input
from crashfs_tools.common.whole_files import refuse_foreign_file

from . import stopped_processes
from .arguments import LogError
from .log_filter import LogFilter
from .mapped_files import MappedFiles
from .stopped_processes import Stop
from .strace_log import Log, LogReader

# Within how many seconds strace reports all threads of a process as stopped.
SAME_STOP_SECONDS = 0.005
STOPPED = re.compile(r'^(\d+) +--- stopped by SIGSTOP ---')
# How many bytes one read of the pipe takes at most.
READ_BYTES = 1 << 18
# For how many seconds a reader that need not see each line at once waits for more lines, after a
# read of fewer than FEW_BYTES: one that wakes up for each of them makes the writer of 50,000 lines
# take 1.7 times as long.
GATHER_SECONDS, FEW_BYTES = 0.002, READ_BYTES // 4
# The room that the pipe gets, if the system allows it, instead of the usual 64 KiB.
PIPE_BYTES = 1 << 20
# Linux's number of the call that sets the size of a pipe; Python has its name since 3.10.
F_SETPIPE_SZ = 1031


def create_log(path: str) -> TextIO:
    """Makes or empties the file in which a log is kept, and opens it for writing; the caller closes
    it. OSError if it can't be written, or if another user has put a link or a pipe there."""
    refuse_foreign_file(path)
    return open(path, 'w', encoding='utf-8', errors='surrogateescape')


class PipeLines:
    """Reads a pipe line by line. ready_lines are read and not returned yet; has_ended means that
    the pipe's end is read. With may_gather, GATHER_SECONDS pass after a read under FEW_BYTES."""

    def __init__(self, descriptor: int, *, may_gather: bool = False) -> None:
        """Reads nothing yet. The descriptor is the caller's, who closes it."""
        self.descriptor = descriptor
        self.may_gather = may_gather
        self.ready_lines: Deque[str] = deque()
        # The bytes of a line that has no end yet.
        self.pieces: List[bytes] = []
        self.has_ended = False

    def next_line(self, idle_seconds: Optional[float] = None) -> Optional[str]:
        """The next line, with its line feed, which the last one may lack; empty at the pipe's end,
        as readline() has it. None if no bytes come within idle_seconds; without these it waits
        without a limit. With may_gather, GATHER_SECONDS pass after a read of few bytes, so that the
        next read finds more. Bytes that aren't UTF-8 become surrogates, as in os.fsdecode. OSError
        if a read fails."""
        milliseconds = None if idle_seconds is None else idle_seconds * 1000
        while not self.ready_lines and not self.has_ended:
            # Before a process has opened a named pipe for writing, a read would find its end.
            if not poll_for_input(self.descriptor).poll(milliseconds):
                return None
            piece = os.read(self.descriptor, READ_BYTES)
            if self.may_gather and 0 < len(piece) < FEW_BYTES:
                time.sleep(GATHER_SECONDS)
            self.add_bytes(piece)
        return self.ready_lines.popleft() if self.ready_lines else ''

    def add_bytes(self, piece: bytes) -> None:
        """Adds the lines that the next bytes of the pipe complete to ready_lines; what is after the
        last line feed waits in `pieces`. No bytes mean the pipe's end: a line without a line feed
        is ready then too."""
        self.pieces.append(piece)
        if b'\n' in piece:
            *lines, unended = b''.join(self.pieces).split(b'\n')
            self.pieces = [unended]
            self.ready_lines.extend(
                line.decode('utf-8', 'surrogateescape') + '\n' for line in lines
            )
        if not piece:
            self.has_ended = True
            line = b''.join(self.pieces).decode('utf-8', 'surrogateescape')
            self.ready_lines.extend([line] if line else [])


class LogStream:
    """A log that strace writes to `pipe`, and that is also kept in a file, if one is named.
    keep_fault says why not all lines could be kept; log_error says why there is no log: it isn't
    strace's, or a mapped file could not be read. Each is None if nothing is wrong."""

    def __init__(
        self,
        folder: str,
        mapped_files: Optional[MappedFiles],
        line_filter: Optional[LogFilter] = None,
    ) -> None:
        """The pipe will be in the folder: create_files() makes it. mapped_files is None without
        --mapped; without a filter all lines are in the log."""
        self.pipe = os.path.join(folder, 'log')
        self.kept_log: Optional[TextIO] = None
        self.mapped_files = mapped_files
        self.reader = LogReader(line_filter)
        self.line_number = 0
        # Whether threads ran while the newest copy was made: the next one may have their stores.
        self.had_running_threads = False
        self.keep_fault: Optional[OSError] = None
        self.log_error: Union[LogError, OSError, None] = None
        self.thread: Optional[threading.Thread] = None

    def create_files(self, keep_path: Optional[str]) -> None:
        """Makes the pipe, and the file that keeps the log, unless its path is None. OSError if one
        of them can't be made; then the pipe may be left."""
        os.mkfifo(self.pipe)
        self.kept_log = None if keep_path is None else create_log(keep_path)

    def start(self) -> None:
        """Opens the pipe, and starts the thread that reads it, which finish() ends. OSError if the
        pipe can't be opened: then strace waits for a reader until it is killed."""
        descriptor = os.open(self.pipe, os.O_RDONLY | os.O_NONBLOCK)
        with suppress(OSError):
            fcntl.fcntl(descriptor, F_SETPIPE_SZ, PIPE_BYTES)
        self.thread = threading.Thread(target=self.read_pipe, args=(descriptor,), daemon=True)
        self.thread.start()

    def finish(self) -> Log:
        """Waits until no process has the pipe open, without a time limit, and returns the log,
        which is empty if strace never opened the pipe. Must be called after start(), and once.
        LogError if the log isn't strace's, OSError if a mapped file could not be read, or if the
        pipe can't be opened."""
        assert self.thread is not None
        try:
            # If strace never opened the pipe, the thread still waits for a writer.
            os.close(os.open(self.pipe, os.O_WRONLY | os.O_NONBLOCK))
        except OSError as error:
            # With ENXIO the thread has closed its own end already.
            if error.errno != errno.ENXIO:
                raise
        self.thread.join()
        if self.log_error is not None:
            raise self.log_error
        return self.reader.log

    def read_pipe(self, descriptor: int) -> None:
        """What the thread runs: reads all lines, and makes the last copy of mapped files. Closes
        the descriptor, which is the pipe's, and the kept log. Faults of the log, of mapped files
        and of the kept log aren't raised, but set log_error or keep_fault."""
        try:
            self.read_lines(descriptor)
        finally:
            os.close(descriptor)
        try:
            if self.mapped_files is not None:
                self.mapped_files.make_last_copy(self.line_number)
        except OSError as error:
            self.log_error = self.log_error or error
        self.close_kept_log()

    def read_lines(self, descriptor: int) -> None:
        """Adds the lines of the pipe from its first writer until no process has it open, and copies
        mapped files at each stop. Faults set log_error or keep_fault."""
        os.set_blocking(descriptor, True)
        # A process whose mapped files are copied is stopped until its line is read.
        lines = PipeLines(descriptor, may_gather=self.mapped_files is None)
        line = lines.next_line()
        while line:
            stopped_thread = self.add_line(line)
            if stopped_thread is not None and self.mapped_files is not None:
                self.copy_and_continue(self.mapped_files, stopped_thread, lines)
            line = lines.next_line()

    def add_line(self, line: str) -> Optional[int]:
        """Adds a line, with its line feed, to the log and to the kept log, and opens the file that
        it maps, as open_mapped_file() does; faults set log_error or keep_fault. Returns the thread
        that the line reports as stopped by SIGSTOP; None for any other line."""
        self.line_number += 1
        self.keep_line(line)
        self.parse_line(line.rstrip('\n'))
        if self.mapped_files is not None:
            self.mapped_files.open_mapped_file(line, self.line_number)
        stop = STOPPED.match(line)
        return int(stop[1]) if stop else None

    def parse_line(self, line: str) -> None:
        """Adds what a line shows to the log. If the line isn't as strace writes it, log_error is
        set. Once log_error is set, no line is parsed any more, and COMMAND runs on."""
        try:
            if self.log_error is None:
                self.reader.read_line(self.line_number, line)
        except LogError as error:
            self.log_error = LogError(f'{error}, in line {self.line_number}')

    def copy_and_continue(self, mapped_files: MappedFiles, thread: int, lines: PipeLines) -> None:
        """Waits until all threads of a stopped thread's process are stopped, as in
        wait_until_stopped(), reads the lines that report this, adds a copy of the mapped files, and
        continues the process; then does the same for other processes that these lines report as
        stopped. Nothing for a process that has ended or runs again."""
        process = stopped_processes.read_process_of_thread(thread)
        if process is None:
            return
        stop = stopped_processes.wait_until_stopped(thread, process)
        if stop is Stop.RESUMED:
            return
        threads = set(stopped_processes.list_threads(process))
        threads_of_others = self.add_lines_of_stop(thread, threads, lines)
        is_alone = stop is Stop.ALL_STOPPED and not self.had_running_threads and len(threads) == 1
        self.had_running_threads = stop is Stop.SOME_RUN
        self.add_copy(mapped_files, thread, threads, is_alone=is_alone)
        try:
            os.kill(process, signal.SIGCONT)
        except ProcessLookupError:
            pass
        for other_thread in threads_of_others:
            self.copy_and_continue(mapped_files, other_thread, lines)

    def add_copy(
        self, mapped_files: MappedFiles, thread: int, threads: Set[int], *, is_alone: bool
    ) -> None:
        """Adds a copy of the mapped files, while a thread is stopped whose process has these
        `threads`; is_alone is as in FileCopy. If a file can't be read, log_error is set, unless
        it is set already."""
        other_threads = self.reader.threads - set(self.reader.log.ended_threads) - threads
        try:
            mapped_files.copy_changed_files(
                self.line_number, thread, is_alone=is_alone, other_threads=other_threads
            )
        except OSError as error:
            self.log_error = self.log_error or error

    def add_lines_of_stop(self, thread: int, threads: Set[int], lines: PipeLines) -> List[int]:
        """Adds lines until all threads of a process are reported as stopped, or no line comes for
        SAME_STOP_SECONDS, so that no report is taken for a later stop. `thread`, one of them, is
        reported already. Returns the threads of other processes that are reported meanwhile."""
        unreported_threads = threads - {thread}
        threads_of_others = []
        while unreported_threads:
            line = lines.next_line(SAME_STOP_SECONDS)
            if not line:
                break
            stopped_thread = self.add_line(line)
            if stopped_thread in threads:
                unreported_threads.discard(stopped_thread)
            elif stopped_thread is not None:
                threads_of_others.append(stopped_thread)
        return threads_of_others

    def keep_line(self, line: str) -> None:
        """Writes a line into the kept log, if there is one. If that fails, keep_fault is set. Once
        keep_fault is set, no line is written any more, and COMMAND runs on."""
        try:
            if self.kept_log is not None and self.keep_fault is None:
                self.kept_log.write(line)
        except OSError as error:
            self.keep_fault = error

    def close_kept_log(self) -> None:
        """Closes the kept log, if there is one. If that fails, keep_fault is set, unless it was set
        before."""
        if self.kept_log is None:
            return
        try:
            self.kept_log.close()
        except OSError as error:
            self.keep_fault = self.keep_fault or error
