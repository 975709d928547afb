"""The command tools/build."""

from __future__ import annotations

import argparse
import os
import shutil
import sys
import tempfile
import threading
import time
from pathlib import Path

from crashfs_tools.common.command import Refused

from .crates import TOP, library_uses
from .order import Work, chain_lengths
from .proving import (
    build_program,
    copy_proved_libraries,
    copy_sources_to,
    error_text,
    prove_crates_in,
)
from .sharing import read_stamps

DESCRIPTION = """\
Proves all that crashfs uses, several crates side by side, and builds the program.

`rt run` in crates/crashfs does the same, one crate after the other. Here as many copies of the
repository as there are processors (4 at most) take a crate each: the lowest crates first, and of
these the one with the longest chain of crates above it. That crate has two processors, and also
those that no other crate can use, unless it is above many crates. The copies are in a temporary
folder that is removed at the end. A copy gets the libraries that it lacks from the copies that
proved them, and at the end the repository gets all, also if a crate was not proved.

Status 0: the program is crates/crashfs/out/crashfs. Else a crate was not proved: what its check
printed is printed, and the status is 1. If memory ran out, or there was another error, as a full
disk, the last line says so."""
MOST_PROCESSORS = 4
NO_RT = (
    'tools/build: rt: command not found; it is in the toolchain of Rattle, which the README names'
)


def main() -> int:
    """Runs tools/build with its command line, and returns the status: 1 if there is no `rt`, a
    crate isn't proved, or the program isn't built. A wrong crates.txt and an error of the system,
    as a full disk, are a line with status 1. A wrong word and --help end the program (SystemExit).
    --processors below 1 counts as 1, and may be above what the machine has."""
    parser = argparse.ArgumentParser(
        description=DESCRIPTION, formatter_class=argparse.RawDescriptionHelpFormatter
    )
    default = min(MOST_PROCESSORS, os.cpu_count() or 1)
    parser.add_argument(
        '--processors',
        type=int,
        default=default,
        metavar='N',
        help=f'how many processors it takes ({default})',
    )
    options = parser.parse_args()
    if shutil.which('rt') is None:
        print(NO_RT, file=sys.stderr)
        return 1
    try:
        return build_all(max(1, options.processors))
    except Refused as refused:
        print(f'tools/build: {refused}', file=sys.stderr)
        return 1
    except OSError as error:
        print(f'tools/build: {error_text(error)}', file=sys.stderr)
        return 1


def build_all(processors: int) -> int:
    """Proves the libraries on this number of processors, then builds the program. Returns the
    status: 0 if all is proved and built. After a crate that isn't proved no other is begun, but
    running checks continue to their end. Proved libraries are copied to the repository itself in
    either case. Refused as in library_uses(). OSError if a text of a crate or the stamp of a
    library can't be read, if a copy of the repository or of a library can't be made, or as
    build_program()."""
    uses, start_time = library_uses(), time.monotonic()
    work = Work(uses, chain_lengths(uses), processors, read_stamps(TOP, uses))
    with tempfile.TemporaryDirectory(prefix='crashfs-build-') as folder:
        copies = [
            TOP,
            *(copy_sources_to(Path(folder) / str(number)) for number in range(1, processors)),
        ]
        threads = [
            threading.Thread(target=prove_crates_in, args=(copy, work, start_time))
            for copy in copies
        ]
        for thread in threads:
            thread.start()
        for thread in threads:
            thread.join()
        # After a failure too: the next build then proves only what is left.
        copy_proved_libraries(work)
    return 1 if work.failed_crate else build_program(start_time)
