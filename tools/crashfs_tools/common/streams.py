"""The standard streams: all are open and in UTF-8, output that can't be written is noticed, and
commands inherit no other descriptors. Pipes to other processes, whose ends never have the number of
a standard stream."""

from __future__ import annotations

import errno
import fcntl
import io
import os
import select
import sys
from contextlib import ExitStack, contextmanager
from typing import Iterator, Tuple


def set_utf8_streams() -> None:
    """Makes standard output and standard error UTF-8, whatever the locale is. What can't be
    encoded, halves of surrogate pairs, is printed as an escape. Streams of another class, as those
    of a test, stay as they are."""
    for stream in (sys.stdout, sys.stderr):
        if isinstance(stream, io.TextIOWrapper):
            stream.reconfigure(encoding='utf-8', errors='backslashreplace')


def open_standard_descriptors() -> None:
    """Opens /dev/null for each standard stream that is closed, also for programs that are started,
    so that no other file gets the stream's number. OSError if /dev/null can't be opened."""
    for number in (0, 1, 2):
        try:
            os.fstat(number)
        except OSError:
            os.set_inheritable(os.open(os.devnull, os.O_RDWR), True)


def prepare_standard_streams() -> None:
    """Opens the standard streams that are closed, as open_standard_descriptors() does; Python's own
    sys.stdin may still be None. Then calls set_utf8_streams(). OSError if /dev/null can't be
    opened."""
    open_standard_descriptors()
    if sys.stdout is None:
        sys.stdout = open(1, 'w', encoding='utf-8', closefd=False)
    if sys.stderr is None:
        sys.stderr = open(2, 'w', encoding='utf-8', closefd=False)
    set_utf8_streams()


def limit_inherited_descriptors() -> None:
    """Makes commands that are started later inherit only the standard streams, as
    open_standard_descriptors() leaves them: all other descriptors that are open now become
    close-on-exec. Python's own streams stay as they are. OSError without /proc, or if /dev/null
    can't be opened."""
    open_standard_descriptors()
    for name in os.listdir('/proc/self/fd'):
        if int(name) > 2:
            try:
                os.set_inheritable(int(name), False)
            except OSError:
                # That of the listing itself is closed by now.
                continue


@contextmanager
def flushed_output() -> Iterator[None]:
    """What is printed within this is written out by its end. OSError with the stream's name if it
    can't be, or if standard output is closed; any OSError raised within counts as the stream's. If
    the reader has closed its end, as `head` does, the rest of the block is skipped, without an
    error. In each of these cases later output is discarded."""
    if sys.stdout is None:
        raise OSError(errno.EBADF, os.strerror(errno.EBADF), 'standard output')
    try:
        yield
        sys.stdout.flush()
    except OSError as error:
        discard_output()
        if not isinstance(error, BrokenPipeError):
            raise OSError(error.errno, error.strerror, 'standard output') from error


def discard_output() -> None:
    """Makes the descriptor of standard output /dev/null: what is still in the buffer, which Python
    writes as it ends, is discarded too. OSError if sys.stdout has no descriptor, or /dev/null can't
    be opened."""
    output = sys.stdout.fileno()
    null_device = os.open(os.devnull, os.O_WRONLY)
    # If standard output was closed, /dev/null may have got its number.
    if null_device != output:
        os.dup2(null_device, output)
        os.close(null_device)


def open_pipe(opened: ExitStack) -> Tuple[int, int]:
    """Opens a pipe, and returns its ends for reading and writing. The stack closes both when it
    unwinds: to keep them open, call its pop_all() before. No end has the number of a standard
    stream, even if these are closed. Forks inherit the ends; programs that are started don't.
    OSError if the system has no more pipes, or if this process may open no more files: then the
    stack closes what is open."""
    low_reader, low_writer = os.pipe()
    with open(low_reader, 'rb', buffering=0), open(low_writer, 'wb', buffering=0):
        reader = fcntl.fcntl(low_reader, fcntl.F_DUPFD_CLOEXEC, 3)
        opened.callback(os.close, reader)
        writer = fcntl.fcntl(low_writer, fcntl.F_DUPFD_CLOEXEC, 3)
        opened.callback(os.close, writer)
    return reader, writer


def poll_for_input(*pipes: int) -> select.poll:
    """A poll object for the reading ends of pipes, given by their descriptors: its poll() waits
    until one of them has something to read, or is at its end."""
    poll = select.poll()
    for pipe in pipes:
        poll.register(pipe, select.POLLIN)
    return poll
