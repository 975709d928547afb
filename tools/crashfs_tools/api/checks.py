"""Checks a trace: what crashfs-check does, as a function."""

from __future__ import annotations

import functools
import io
import os
from dataclasses import replace
from pathlib import Path
from typing import Any, Callable, List, Optional, Sequence, Tuple, Union

from crashfs_tools.checker.checking import check_trace
from crashfs_tools.checker.options import (
    NAME,
    TIMEOUT,
    Options,
    RecoveryFunction,
    processor_count,
)
from crashfs_tools.checker.running.progress import Progress
from crashfs_tools.common.command import Refused
from crashfs_tools.common.guard import Guard

from .reports import PathLike, Report

# Opens a state's directory, and compares it with the acknowledged lines. It raises what is wrong:
# the text of an AssertionError is the cause, of another exception its type and text.
PathRecovery = Callable[[Path, List[str]], object]


def check(
    trace: PathLike,
    recovery: Union[PathRecovery, Sequence[str]],
    *,
    jobs: Optional[int] = None,
    every: Optional[int] = None,
    families: bool = False,
    prefixes: bool = False,
    quick: bool = False,
    profile: Optional[str] = None,
    nested: int = 0,
    fail_fast: bool = False,
    time_limit: Optional[float] = None,
    timeout: float = TIMEOUT,
    accept: Optional[PathLike] = None,
    cache: Optional[PathLike] = None,
    crashfs: Optional[PathLike] = None,
    unproved: bool = False,
) -> Report:
    """Runs a recovery in the crash states of a trace, and returns the report. No progress is shown.

    recovery is a function (PathRecovery), or a command: a list of words, not empty, or a text that
    is one program. A command runs in a directory that has the files as the crash left them, with
    the acknowledged lines on its standard input. A function is called in a fork of this process.

    The options are those of crashfs-check. jobs is one for each processor by default; every can't
    be combined with families, prefixes or quick; fail_fast ends the check at an accepted failure
    too. time_limit needs the main thread: it uses the timer of SIGALRM, and replaces the signal's
    handler. Once it has passed, the report has what was tried.

    Refused is raised for bad input, and if the recovery fails though nothing is lost. Any other
    fault is raised too, and then there is no report."""
    options = Options(os.fspath(trace), every=every, families=families, prefixes=prefixes)
    options.quick, options.profile, options.unproved = quick, profile, unproved
    options.jobs, options.nested, options.fail_fast = jobs or processor_count(), nested, fail_fast
    options.time_limit, options.timeout = time_limit, timeout
    options.crashfs, options.accept, options.cache = map(path_text, (crashfs, accept, cache))
    options.command, options.function = command_and_function(recovery)
    return run_check(options)


def run_check(options: Options) -> Report:
    """Runs a check with these options, which must have their recovery, and returns its report,
    which keeps all that a Report has. An exception that ends the check early is raised, and what
    was tried is lost then. Refused too as in refuse_wrong_options()."""
    refuse_wrong_options(options)
    with Guard(NAME, may_reap=False) as guard:
        checked = check_trace(replace(options, keeps_all=True), guard, Progress(io.StringIO()))
    if checked.exception is not None:
        raise checked.exception.__cause__ or checked.exception
    return Report(checked.report, checked.mode)


def path_text(path: Optional[PathLike]) -> Optional[str]:
    """A path as text; None for None."""
    return None if path is None else os.fspath(path)


def refuse_wrong_options(options: Options) -> None:
    """Refused if some of the options can't be combined: a recovery function with nested or cache,
    or `every` with families of states."""
    if options.function is not None and (options.nested or options.cache):
        raise Refused('nested and cache need a recovery that is a command')
    if options.every is not None and not options.may_try_all:
        raise Refused('every goes with no families, prefixes or quick')


def command_and_function(
    recovery: Union[PathRecovery, Sequence[str]]
) -> Tuple[List[str], Optional[RecoveryFunction]]:
    """The options `command` and `function` for a recovery. A list of words, or a text as the only
    word, is the command, and there is no function. Else the command is empty, and the function is
    with_text_path()."""
    if isinstance(recovery, str):
        return [recovery], None
    if isinstance(recovery, Sequence):
        return list(recovery), None
    return [], with_text_path(recovery)


def with_text_path(recovery: PathRecovery) -> RecoveryFunction:
    """A function that takes its directory as a text, and calls a recovery with it as a Path. It has
    the module and the name of named_callable()."""

    @functools.wraps(named_callable(recovery), updated=())
    def recover_in_text_path(directory: str, lines: List[str]) -> object:
        """Calls the recovery with the directory as a Path. What it raises is passed on."""
        return recovery(Path(directory), lines)

    return recover_in_text_path


def named_callable(recovery: PathRecovery) -> Any:
    """The callable whose module and name reports have for a recovery: the function itself; of a
    functools.partial the one for the function that it calls; of an object without a name its
    class."""
    while isinstance(recovery, functools.partial):
        recovery = recovery.func
    return recovery if hasattr(recovery, '__qualname__') else type(recovery)
