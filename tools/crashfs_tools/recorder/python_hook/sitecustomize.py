"""Shows strace which line of a Python program makes a call: for --stacks of crashfs-record.

Before each built-in function that may write, sync or rename, `access` is called with a path that
has the line. The directory of this file is first on PYTHONPATH; a `sitecustomize` that is found
after it is run too.
"""

from __future__ import annotations

import os
import sys
import threading
from importlib.machinery import PathFinder
from importlib.util import module_from_spec
from types import FrameType
from typing import Any, Callable, List, Optional

# As PREFIX and MOST_FUNCTIONS of recorder/stacks.py, which COMMAND's Python may not find.
PREFIX = '/proc/crashfs-frame/'
MOST_LINES = 3
WATCHED = frozenset(
    (
        'open',
        'write',
        'writelines',
        'flush',
        'close',
        'truncate',
        'ftruncate',
        'pwrite',
        'pwritev',
        'writev',
        'fsync',
        'fdatasync',
        'sync',
        'rename',
        'replace',
        'renames',
        'unlink',
        'remove',
        'rmdir',
        'mkdir',
        'link',
        'symlink',
        'chmod',
        'fchmod',
        'chown',
        'fchown',
        'mkfifo',
        'mknod',
        'posix_fallocate',
        'copy_file_range',
        'sendfile',
        'splice',
        'print',
        '__exit__',
        'sendall',
        'send',
        'execute',
        'executemany',
        'executescript',
        'commit',
        'rollback',
        'put',
        'delete',
    )
)
LIBRARY = os.path.dirname(os.__file__) + os.sep


def mark_builtin_call(
    frame: FrameType,
    event: str,
    function: Any,
    last_mark: Any = threading.local(),
    access: Callable[[str, int], bool] = os.access,
) -> None:
    """Calls `access` with program_lines() if a built-in function of WATCHED is called, but not
    again from the line of the thread's last mark. Python calls this at each call and return.
    last_mark and access are parameters so that a program that changes `os` or `threading` doesn't
    change them."""
    if event == 'c_call' and function.__name__ in WATCHED:
        line = frame.f_code, frame.f_lineno
        if getattr(last_mark, 'line', None) != line:
            last_mark.line = line
            access(PREFIX + program_lines(frame), os.F_OK)


def program_lines(innermost: FrameType) -> str:
    """The innermost lines of the program itself, MOST_LINES at most, as `kv.py:85 main < ..`,
    beginning at a frame. Lines of the standard library are left out. Empty if there are no
    others."""
    lines: List[str] = []
    frame: Optional[FrameType] = innermost
    while frame is not None and len(lines) < MOST_LINES:
        code = frame.f_code
        if not code.co_filename.startswith((LIBRARY, '<frozen')):
            name = os.path.basename(code.co_filename)
            lines.append(f'{name}:{frame.f_lineno} {code.co_name}')
        frame = frame.f_back
    return ' < '.join(lines)


def run_replaced_module() -> None:
    """Runs the module sitecustomize that Python would load if this one weren't there; nothing if
    there is none. sys.modules keeps this one. It raises what that module raises."""
    own_folder = os.path.dirname(os.path.abspath(__file__))
    folders = [folder for folder in sys.path if os.path.abspath(folder or '.') != own_folder]
    spec = PathFinder.find_spec('sitecustomize', folders)
    if spec is not None and spec.loader is not None:
        spec.loader.exec_module(module_from_spec(spec))


run_replaced_module()
threading.setprofile(mark_builtin_call)
sys.setprofile(mark_builtin_call)
