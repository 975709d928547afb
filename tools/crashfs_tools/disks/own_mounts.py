"""Mounts that only one process sees, and that are gone when it has ended, however it ends."""

from __future__ import annotations

import ctypes
import errno
import os
from typing import Optional

from crashfs_tools.common.command import Refused
from crashfs_tools.common.signals import stop_signals_blocked

from .system_calls import libc

CLONE_NEWNS = 0x00020000
MS_REC, MS_PRIVATE = 0x4000, 0x40000


def use_own_mounts() -> None:
    """From here on only this process and its new children see the mounts that it makes. Refused if
    the system doesn't allow that."""
    error_number = unshare_mounts()
    if error_number:
        raise Refused(f'--disks: {unshare_fault_text(error_number)}')


def own_mounts_fault() -> Optional[str]:
    """Why a process can't have mounts of its own here, in words; None if it can. A forked child
    tries it, so the mounts of this process stay as they are. OSError if the system can't fork."""
    with stop_signals_blocked():
        child = os.fork()
        if child == 0:
            # What the parent gets if unshare_mounts() raises an exception.
            error_number = errno.ENOSYS
            try:
                error_number = unshare_mounts()
            finally:
                os._exit(error_number)
        error_number = os.waitstatus_to_exitcode(os.waitpid(child, 0)[1])
    return unshare_fault_text(error_number) if error_number else None


def unshare_mounts() -> int:
    """Gives this process its own copy of all mounts: changes of the copy aren't seen outside, nor
    changes outside in the copy. Returns 0, or the error number of the call that failed: then the
    process may have the copy, but changes are still shared."""
    if libc.unshare(CLONE_NEWNS) or libc.mount(None, b'/', None, MS_REC | MS_PRIVATE, None):
        return ctypes.get_errno()
    return 0


def unshare_fault_text(error_number: int) -> str:
    """An error number of unshare_mounts() in words. EINVAL means a chroot whose `/` is an ordinary
    directory: the mount that it is in can't be changed from there."""
    reason = '/ is not a mount point' if error_number == errno.EINVAL else os.strerror(error_number)
    return f"a process can't have mounts of its own: {reason}"
