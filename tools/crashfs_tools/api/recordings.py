"""Records a session: what crashfs-record does, as a function."""

from __future__ import annotations

import inspect
import os
import subprocess
import sys
from dataclasses import dataclass
from pathlib import Path
from typing import Callable, List, Mapping, Optional, Sequence, Union

from crashfs_tools.common.command import (
    TRACE_NOT_WHOLE,
    TRACE_NOTED,
    TRACE_WHOLE,
    Refused,
    code_to_run,
)

from .reports import PathLike

# Changes the store in a directory. It calls its second argument with a line when it would answer
# its user that something is stored.
PathSession = Callable[[Path, Callable[[str], None]], object]

RECORD = code_to_run('recorder.main')
# Calls a function: its file, its module, its name, and where Python looks for modules.
START = code_to_run('api.sessions')
# The descriptor for a function's acknowledged lines: what it prints is no such line.
LINES = 3
# A shell's command, for the words of another one. That has the descriptor open: crashfs-record sees
# what is written to it, so this may be dropped.
WITH_LINES = f'exec "$@" {LINES}>/dev/null'


@dataclass(frozen=True)
class Recording:
    """A trace that was recorded. messages are the lines on standard error: those of crashfs-record,
    without its name, and those of the session. is_complete is False if the trace lacks something
    that can make a state good or bad, if the session failed, or if no line was acknowledged."""

    trace: Path
    is_complete: bool
    messages: List[str]

    def __fspath__(self) -> str:
        """The path of the trace, so that a recording can be given to check()."""
        return str(self.trace)


def record(
    directory: PathLike,
    session: Union[PathSession, Sequence[str]],
    trace: PathLike,
    *,
    ignore: Sequence[str] = (),
    mapped: bool = False,
    stacks: bool = False,
    begin_after: Optional[str] = None,
    profile: Optional[str] = None,
    block: Optional[int] = None,
    trace_version: Optional[int] = None,
    acknowledged: Sequence[str] = (),
    environment: Optional[Mapping[str, str]] = None,
) -> Recording:
    """Runs a session in a directory under strace, and writes what it does as a trace.

    session is a list of words, or a text that is one program, whose standard output is
    acknowledged; or a function of a module or a script. A new Python imports the module or script,
    and calls the function with the directory and a function that acknowledges a line; what the
    session's function prints is not acknowledged. What is in the directory before the session is
    the start tree.

    The options are those of crashfs-record, and acknowledged is its --say-fd. environment is that
    of both; None is that of this process. It waits for the session's end, without a limit.

    Refused is raised if no trace is written, so that an old one stays, or if a signal stops
    crashfs-record, which may have written it; the directory is as the session left it. Refused too
    as in session_command(), before anything runs. If the session fails, or the trace lacks
    something, the recording isn't complete (Recording)."""
    words = [word for glob in ignore for word in ('--ignore', glob)]
    words += [word for word, is_given in (('--mapped', mapped), ('--stacks', stacks)) if is_given]
    words += ['--begin-after', begin_after] if begin_after is not None else []
    words += ['--profile', profile] if profile is not None else []
    words += ['--block', str(block)] if block is not None else []
    words += ['--trace-version', str(trace_version)] if trace_version is not None else []
    words += [word for name in acknowledged for word in ('--say-fd', name)]
    words += [] if isinstance(session, Sequence) else ['--say-fd', str(LINES)]
    words += [os.fspath(directory), os.fspath(trace), '--', *session_command(session)]
    return run_recorder(words, Path(trace), environment)


def run_recorder(
    words: List[str], trace: Path, environment: Optional[Mapping[str, str]]
) -> Recording:
    """Runs crashfs-record with these arguments, which name the trace too, and waits for its end. An
    environment of None is that of this process. The session reads nothing, and its standard output
    is dropped. Refused, with all lines of standard error, if no trace is written or a signal stops
    it; OSError if it can't be started."""
    finished = subprocess.run(
        [sys.executable, '-S', '-c', RECORD, *words],
        stdin=subprocess.DEVNULL,
        stdout=subprocess.DEVNULL,
        stderr=subprocess.PIPE,
        env=None if environment is None else dict(environment),
        check=False,
    )
    lines = finished.stderr.decode('utf-8', 'replace').splitlines()
    messages = [line.removeprefix('crashfs-record: ') for line in lines]
    if finished.returncode not in (TRACE_WHOLE, TRACE_NOTED, TRACE_NOT_WHOLE):
        raise Refused('\n'.join(messages) or f'crashfs-record: status {finished.returncode}')
    return Recording(trace, finished.returncode != TRACE_NOT_WHOLE, messages)


def session_command(session: Union[PathSession, Sequence[str]]) -> List[str]:
    """The words of a command that runs a session: those of a list, a text as its only word, or
    words that call a function in a new Python, with the descriptor LINES for acknowledged lines.
    Refused if a new Python can't find the function by file and name: a lambda, a function inside
    another one, one of `python -c` or of an interactive Python, or one without source_path()."""
    if isinstance(session, Sequence):
        return [session] if isinstance(session, str) else list(session)
    path, name = source_path(session), getattr(session, '__qualname__', repr(session))
    if path is None or '<' in name:
        raise Refused(f'{name} is no function of a module: a new Python can not call it')
    module = session.__module__
    if module == '__main__' and not os.path.isfile(path):
        raise Refused(f'{name} was not read from a file: a new Python can not call it')
    # The new Python is in another directory.
    folders = [os.path.abspath(folder) for folder in sys.path]
    python = [sys.executable, '-c', START, os.path.abspath(path), module, name, *folders]
    return ['sh', '-c', WITH_LINES, 'sh', *python]


def source_path(session: PathSession) -> Optional[str]:
    """The path of the source file of a function or class. None for a method of an object, since a
    new Python doesn't have that object, and for a callable without a source file, such as a
    partial."""
    if inspect.ismethod(session) and not inspect.isclass(session.__self__):
        return None
    try:
        return inspect.getsourcefile(session)
    except (OSError, TypeError):
        return None
