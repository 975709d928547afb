"""Proves crates in copies of the repository, one after the other in each copy."""

from __future__ import annotations

import shutil
import sys
import time
from contextlib import ExitStack, suppress
from pathlib import Path
from typing import Tuple

from crashfs_tools.common.command import shorten
from crashfs_tools.common.printable import escape_unprintable
from crashfs_tools.common.streams import flushed_output

from .checks import Check, killed_text, run_check
from .crates import PROGRAM, TOP, crates_below
from .order import Work, paths_of_texts
from .sharing import copy_library, library_folder, read_stamp


def is_library_current(copy: Path, name: str) -> bool:
    """Whether the library of a crate in a copy of the repository is no older than any text of the
    crate. False if there is no library. A removed text may go unnoticed; the crates below and the
    toolchain aren't looked at. OSError if a text is removed meanwhile."""
    stamp = library_folder(copy, name) / 'stamp'
    if not stamp.is_file():
        return False
    library_time = stamp.stat().st_mtime
    texts = paths_of_texts(copy / 'crates' / name)
    return all(path.stat().st_mtime <= library_time for path in texts)


def is_library_kept(work: Work, name: str) -> bool:
    """Whether a crate seems to need no proof, since its library in the repository itself
    is_library_current(), and each crate below, which must be in work.proved_in, has the library
    that the repository itself had when the build began. OSError as is_library_current() and
    read_stamp()."""
    return is_library_current(TOP, name) and all(
        read_stamp(library_folder(work.proved_in[lower], lower)) == work.old_stamps.get(lower)
        for lower in crates_below(work.uses, name)
    )


def copy_sources_to(folder: Path) -> Path:
    """Copies what `rt` reads of the repository, without the folders out/ that it made, to a folder,
    which is made if it isn't there; returns the folder. FileExistsError if it has crates already;
    after another OSError a part of the copy is left."""
    shutil.copytree(TOP / 'crates', folder / 'crates', ignore=shutil.ignore_patterns('out'))
    for name in ('crates.txt', 'HANDLES'):
        shutil.copy2(TOP / name, folder / name)
    return folder


def report_failure(name: str, check: Check, jobs: int, processors: int) -> None:
    """Prints on standard error what a failed check printed, and if the system killed the check,
    killed_text(). OSError as killed_text(), or if standard error can't be written."""
    sys.stderr.buffer.write(check.output)
    sys.stderr.buffer.flush()
    if check.is_killed:
        print(killed_text(name, check, jobs, processors), file=sys.stderr, flush=True)


def prove_crates_in(copy: Path, work: Work, start_time: float) -> None:
    """Proves one crate after the other in a copy of the repository, until none is left, or one
    isn't proved, here or in another thread. Prints a line for each, by print_progress(), and what a
    failed check printed. Errors as report_failure(): other threads continue."""
    for name, jobs in iter(work.begin_next_crate, None):
        used_copy, check = check_crate_in(copy, work, name, jobs)
        work.end_crate(name, used_copy if check.status == 0 else None)
        result = 'proved' if check.status == 0 else 'NOT PROVED'
        count = f'{len(work.proved_in)} of {len(work.uses)}'
        print_progress(f'{name} {result} ({count})', start_time)
        if check.status:
            report_failure(name, check, jobs, work.processors)


def print_progress(text: str, start_time: float) -> None:
    """Prints a text at once as a line, after the minutes since `start_time` (of time.monotonic()).
    If it can't be printed, because nobody reads it or the disk is full, it is dropped, as are later
    lines."""
    minutes = (time.monotonic() - start_time) / 60
    with suppress(OSError), flushed_output():
        print(f'{minutes:5.1f} min: {text}')


def check_crate_in(copy: Path, work: Work, name: str, jobs: int) -> Tuple[Path, Check]:
    """Checks a crate in a copy of the repository or, if is_library_kept(), in the repository
    itself, which takes a second unless a text was removed or the toolchain is another one. First
    copies the libraries of the crates below, which must be in work.proved_in, to the place of the
    check. Waits while another thread works in the repository itself, if that is the place. Returns
    the place, and the check. Any exception, as of a full disk, becomes a failed check with its
    text, since other threads wait for the crate's end."""
    used_copy = copy
    try:
        if is_library_kept(work, name):
            used_copy = TOP
        with ExitStack() as locks:
            if used_copy == TOP:
                locks.enter_context(work.top_lock)
            for library in crates_below(work.uses, name):
                copy_library(work.proved_in[library], used_copy, library)
            words = ['rt', 'lib', '--jobs', str(jobs)]
            check = run_check(words, used_copy / 'crates' / name)
    except Exception as error:
        check = Check(1, f'{name}: {error_text(error)}\n'.encode(), 0)
    return used_copy, check


def error_text(error: Exception) -> str:
    """An error as one line: its type and its text, with control characters escaped; a long text is
    shortened."""
    return shorten(escape_unprintable(f'{type(error).__name__}: {error}'))


def copy_proved_libraries(work: Work) -> None:
    """Copies each proved library to the repository itself. OSError if a library can't be copied:
    then those after it aren't copied either."""
    for name, copy in work.proved_in.items():
        copy_library(copy, TOP, name)


def build_program(start_time: float) -> int:
    """Builds the program in the repository itself, and runs it with --help. A library that isn't
    there is proved first, on one processor. Returns the status: 0, or 1 if the program isn't built
    or --help fails, after printing what `rt` printed. OSError if there is no `rt`, or as
    report_failure()."""
    words = ['rt', 'run', '--jobs', '1', '--', '--help']
    check = run_check(words, TOP / 'crates' / PROGRAM)
    if check.status:
        # It runs alone, with one job: fewer processors would be no help.
        report_failure(PROGRAM, check, jobs=1, processors=1)
        return 1
    print_progress(f'crates/{PROGRAM}/out/{PROGRAM} is built', start_time)
    return 0
