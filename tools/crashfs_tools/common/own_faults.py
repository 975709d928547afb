"""An error of a command's own: one line in place of a traceback."""

from __future__ import annotations

import os

from .command import print_line
from .printable import escape_unprintable

# The variable with which the traceback is printed too.
TRACEBACK = 'CRASHFS_TRACEBACK'
FAULT_CHARACTERS = 500


def print_own_fault(program: str, error: Exception, result: str = '') -> None:
    """Prints a line on standard error: that an error is the program's own, with the error's type
    and text, cut to FAULT_CHARACTERS. A `result` that isn't empty says what the run did
    nevertheless, as `no trace is written`. If the variable TRACEBACK is set and not empty, the
    traceback is printed before the line."""
    is_traceback_asked = bool(os.environ.get(TRACEBACK))
    if is_traceback_asked:
        # Few runs need it, and each start would take it.
        import traceback

        traceback.print_exception(type(error), error, error.__traceback__)
    line = f'internal error: {type(error).__name__}: {error}'[:FAULT_CHARACTERS]
    line += f'; {result}' if result else ''
    print_line(program, escape_unprintable(f'{line} ({TRACEBACK}=1 shows where)'))
