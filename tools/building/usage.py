"""What a program used, once it has ended: processor time and memory."""

from __future__ import annotations

import os
import subprocess
from typing import Any, AnyStr, NamedTuple, Tuple


class Usage(NamedTuple):
    """What a program and its children used: seconds of processor time, and the most bytes of memory
    that one of them had. Children that nobody waited for aren't counted."""

    processor_seconds: float
    memory_bytes: int


def read_to_end(child: subprocess.Popen[AnyStr]) -> Tuple[AnyStr, Usage]:
    """Waits until a program has ended and no other process has its standard output, a pipe, open
    any more; sets its returncode. Returns what came through the pipe, and what the program used.
    ChildProcessError if it was waited for before."""
    assert child.stdout is not None
    return child.stdout.read(), wait_for_usage(child)


def wait_for_usage(child: subprocess.Popen[Any]) -> Usage:
    """Waits until a program ends, however long it takes, sets its returncode, and returns what it
    used. ChildProcessError if it was waited for before."""
    _, status, usage = os.wait4(child.pid, 0)
    child.returncode = os.waitstatus_to_exitcode(status)
    return Usage(usage.ru_utime + usage.ru_stime, usage.ru_maxrss * 1024)
