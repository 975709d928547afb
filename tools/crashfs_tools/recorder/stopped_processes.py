"""Processes that are stopped under strace: their threads, and the files that they have mapped."""

from __future__ import annotations

import os
import time
from enum import Enum
from typing import List, Optional, Set

from crashfs_tools.common.descendants import read_process_stat

# How long the threads of a process may take until all are stopped: one may be in a slow sync.
WAIT_SECONDS = 2.0
# How long the recorder waits before it looks again whether all threads are stopped.
POLL_SECONDS = 0.0005
# The letters of /proc for a thread that strace, or a signal, has stopped.
STOPPED = {'t', 'T'}


class Stop(Enum):
    """How the wait until a process is stopped ended: all its threads are stopped; some still run
    after WAIT_SECONDS; or the thread that was reported as stopped runs again or has ended."""

    ALL_STOPPED = 'all threads are stopped'
    SOME_RUN = 'some threads still run'
    RESUMED = 'the thread runs again'


def read_process_of_thread(thread: int) -> Optional[int]:
    """The number of the process that has the thread with this number; None if the thread has
    ended."""
    try:
        with open(f'/proc/{thread}/status', encoding='ascii', errors='replace') as lines:
            return next(int(line.split()[1]) for line in lines if line.startswith('Tgid:'))
    except (OSError, StopIteration):
        return None


def list_threads(process: int) -> List[int]:
    """The numbers of the threads of a process; empty if it has ended."""
    try:
        return [int(name) for name in os.listdir(f'/proc/{process}/task')]
    except OSError:
        return []


def is_stopped(thread: int) -> bool:
    """Whether a thread is stopped, by strace or by a signal; False if it has ended."""
    try:
        return read_process_stat(thread).state in STOPPED
    except OSError:
        return False


def wait_until_stopped(thread: int, process: int) -> Stop:
    """Waits until all threads of a process are stopped, for WAIT_SECONDS at most, and returns how
    the wait ended. `thread` is the one that was reported as stopped. If it runs again, since the
    process was continued after another thread's stop, or if it has ended, the wait ends with
    RESUMED."""
    deadline = time.monotonic() + WAIT_SECONDS
    while is_stopped(thread):
        if all(map(is_stopped, list_threads(process))):
            return Stop.ALL_STOPPED
        if time.monotonic() > deadline:
            return Stop.SOME_RUN
        time.sleep(POLL_SECONDS)
    return Stop.RESUMED


def read_mapped_inodes(thread: int) -> Optional[Set[str]]:
    """The inode numbers of the files that a thread's process has mapped, as /proc prints them, and
    `0` for memory without a file. Empty if the thread has ended. None if this process may not read
    them, as those of a process that made itself undumpable."""
    try:
        with open(f'/proc/{thread}/maps', encoding='utf-8', errors='replace') as lines:
            return {line.split()[4] for line in lines}
    except PermissionError:
        return None
    except OSError:
        return set()
