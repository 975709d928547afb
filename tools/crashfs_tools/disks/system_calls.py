"""Calls of the C library that Python has no function for."""

from __future__ import annotations

import ctypes
import os
from typing import Optional

# Each thread has its own error number of these calls, which ctypes.get_errno() returns.
libc = ctypes.CDLL(None, use_errno=True)


def last_error(path: Optional[str] = None) -> OSError:
    """The error of this thread's last failed call of `libc`, with the path that the call was for;
    without one if that is None."""
    error_number = ctypes.get_errno()
    return OSError(error_number, os.strerror(error_number), path)
