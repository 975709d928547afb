"""COMMAND's standard error with --mapped, if it is a terminal. A write to a terminal does nothing
while a signal is pending, and starts again after it: if SIGSTOP came at each start, it would never
end. So COMMAND gets a pipe, whose bytes are copied to the terminal."""

from __future__ import annotations

import os
import sys
import threading
from contextlib import contextmanager, suppress
from typing import IO, Iterator

# How many bytes are copied at once.
READ_BYTES = 65_536
# How long the copy may take after the end of strace: a process that it doesn't follow may keep the
# pipe open.
WAIT_SECONDS = 1.0


@contextmanager
def pipe_copied(pipe: IO[bytes]) -> Iterator[None]:
    """Within this, a thread copies the bytes of a pipe to standard error. At the end it waits until
    no process has the pipe open, for WAIT_SECONDS at most."""
    thread = threading.Thread(target=copy_errors, args=(pipe,), daemon=True)
    thread.start()
    try:
        yield
    finally:
        thread.join(WAIT_SECONDS)


def copy_errors(pipe: IO[bytes]) -> None:
    """Copies the bytes of a pipe to standard error until no process has it open. If standard error
    can't be written, the pipe is still read."""
    for piece in iter(lambda: os.read(pipe.fileno(), READ_BYTES), b''):
        with suppress(OSError):
            os.write(sys.stderr.fileno(), piece)
