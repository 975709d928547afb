"""One check of a crate by `rt`: how it ended, what it printed, and how much memory it took."""

from __future__ import annotations

import signal
import subprocess
from pathlib import Path
from typing import List, NamedTuple

from .memory import GIGABYTE, memory_of_machine
from .usage import read_to_end

# `rt` ends with the status of the process that it ran, which the system has killed: as a signal, as
# a shell has it, or as Python's number for it, cut to a byte.
KILLED = (-signal.SIGKILL, 128 + signal.SIGKILL, 256 - signal.SIGKILL)


class Check(NamedTuple):
    """An ended check of a crate: the status, negative for a signal, what was printed on both
    outputs, and how many bytes of memory the largest of its processes had."""

    status: int
    output: bytes
    memory: int

    @property
    def is_killed(self) -> bool:
        """Whether the system has killed the process that `rt` ran, or `rt` itself."""
        return self.status in KILLED


def run_check(words: List[str], folder: Path) -> Check:
    """Runs a command of `rt` in the folder of a crate, without input. Waits without limit until the
    command, and each process that shares its outputs, has ended. Any status is returned; OSError if
    the command or the folder isn't there."""
    with subprocess.Popen(
        words,
        cwd=folder,
        stdin=subprocess.DEVNULL,
        stdout=subprocess.PIPE,
        stderr=subprocess.STDOUT,
    ) as child:
        output, usage = read_to_end(child)
    return Check(child.returncode, output, usage.memory_bytes)


def killed_text(name: str, check: Check, jobs: int, processors: int) -> str:
    """A line about a check that the system has killed: the memory of its largest process, with how
    many jobs the check ran, the machine's memory, and advice. `processors` is how many all checks
    used: the advice is to use half as many, or another machine if it is 1. OSError as
    memory_of_machine()."""
    advice = (
        f'run tools/build --processors {processors // 2}'
        if processors > 1
        else 'it needs a machine with more memory'
    )
    jobs_text = 'a job' if jobs == 1 else f'{jobs} jobs'
    return (
        f'{name}: the system killed its check, most likely because memory ran out. The largest '
        f'process of its check, with {jobs_text}, had {check.memory / GIGABYTE:.1f} GB; the '
        f'machine has {memory_of_machine() / GIGABYTE:.1f} GB: {advice}'
    )
