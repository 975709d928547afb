"""Records sessions of real stores and checks all their crash states, for docs/results.json.

Each session is one of examples/stores/stores.json. Its trace is the one that is committed, or made
by record.sh; check.sh is run in each crash state, and with --disks in what crashes of real file
systems leave. docs/results.json keeps a row for each session, and `tools/inventories` makes
docs/RESULTS.md from it. The Debian packages of a store must be installed: those that are missing
are named. Status 0: each session has a row.
"""

from __future__ import annotations

import argparse
import json
import subprocess
import sys
import tempfile
from pathlib import Path
from typing import List

from crashfs_tools.common.signals import Stopped, raise_on_stop_signals
from crashfs_tools.common.trace_fields import parse_lines
from inventory.results import Row

from .store_rows import ResultsFile, disk_counts, row_of_check
from .store_sessions import STORES, Session, find_sessions, installed_version

CHECK = Path(__file__).parents[1] / 'crashfs-check'
# Sessions of at most so many operations are made again on disks.
MOST_OPERATIONS = 200


class NoResult(Exception):
    """Why a session has no row."""


def parse_words(words: List[str]) -> argparse.Namespace:
    """The options that the words after `measure stores` give. Wrong words, and a name that no
    session and no folder has, with status 2, and --help end the program (SystemExit). The values of
    --disks, --jobs and --time-limit are only passed to checks, which may refuse them. Errors as
    read_sessions()."""
    parser = argparse.ArgumentParser(
        prog='measure stores',
        description=__doc__,
        formatter_class=argparse.RawDescriptionHelpFormatter,
    )
    parser.add_argument('--record', action='store_true', help='make traces again')
    parser.add_argument('--disks', metavar='LIST', help='file systems, as of crashfs-check')
    parser.add_argument('--jobs', type=int, default=4, metavar='N', help='at once (4)')
    parser.add_argument('--time-limit', metavar='S', help='seconds for the states of each')
    parser.add_argument('names', nargs='*', metavar='NAME', help='FOLDER or FOLDER/SESSION (all)')
    options = parser.parse_args(words)
    for name in options.names:
        if not find_sessions([name]):
            parser.error(f'{name} is no session of {STORES / "stores.json"}')
    return options


class SessionCheck:
    """Checks a session once, with the options of parse_words(). make_row() does it all: the
    session's trace and report are made in `folder`, which must be empty at first, and stay there.
    """

    def __init__(self, session: Session, options: argparse.Namespace, folder: Path) -> None:
        self.session = session
        self.options = options
        self.trace_path = folder / f'{session.name}.trace'
        self.report_path = folder / 'report.json'

    def make_row(self) -> Row:
        """Builds the store's program, makes the session's trace, checks it, and returns the
        session's row, with the version of the store's package. The program stays with the scripts.
        Waits for the scripts without limit, and ignores their status. NoResult if a package is
        missing, or if no trace or no report is made. OSError if dpkg-query or a script isn't there;
        errors as row_of_check()."""
        missing = self.session.missing_packages()
        if missing:
            raise NoResult(f'not installed: {", ".join(missing)}')
        run_command([str(STORES / 'build.sh'), str(self.session.scripts_folder)])
        self.make_trace()
        return self.check_for_row(installed_version(self.session.store['package']))

    def check_for_row(self, version: str) -> Row:
        """Checks the session, whose trace must be made, and returns its row, with this version of
        the store. With a time limit disks are tried by a second check: one that the limit ends
        tries none. NoResult if no report is made; errors as run_check() and row_of_check()."""
        limit, disks = self.limit_options(), self.disk_options()
        report = self.run_check(*limit, *([] if limit else disks))
        row = row_of_check(self.session, version, str(self.report_path), report)
        if limit and disks:
            self.run_check('--prefixes', *disks)
            row['disks'] = disk_counts(json.loads(self.report_path.read_text('utf-8')))
        return row

    def make_trace(self) -> None:
        """Puts the session's trace into the folder: a copy of the committed trace, or, if there is
        none or --record is given, what record.sh makes, however long that takes. NoResult if
        record.sh makes no trace, OSError if it can't be started."""
        if self.session.committed_trace.exists() and not self.options.record:
            self.trace_path.write_bytes(self.session.committed_trace.read_bytes())
            return
        script = self.session.scripts_folder / 'record.sh'
        run_command([str(script), self.session.name, str(self.trace_path)])
        if not self.trace_path.exists():
            raise NoResult('record.sh made no trace')

    def run_check(self, *options: str) -> str:
        """Checks the session with these options and those of all checks, and returns the text of
        the report. The file of --json is replaced. NoResult if the check wrote no such file; its
        status doesn't matter. OSError if crashfs-check can't be started. The trace must be made."""
        words = [str(CHECK), '--jobs', str(self.options.jobs)]
        words += ['--json', str(self.report_path), '--timeout', '60', *options]
        words += [str(self.trace_path), '--']
        words += [str(self.session.scripts_folder / 'check.sh'), self.session.name]
        self.report_path.unlink(missing_ok=True)
        report = run_command(words)
        if not self.report_path.exists():
            raise NoResult('crashfs-check made no report')
        return report

    def limit_options(self) -> List[str]:
        """The option of crashfs-check for a time limit, with its value; empty if --time-limit isn't
        given."""
        return ['--time-limit', self.options.time_limit] if self.options.time_limit else []

    def disk_options(self) -> List[str]:
        """The option of crashfs-check for disks, with its value; empty if --disks isn't given, or
        if the session is too long to be made again for each crash. Errors as has_few_operations().
        """
        may_try_disks = self.options.disks and self.has_few_operations()
        return ['--disks', self.options.disks] if may_try_disks else []

    def has_few_operations(self) -> bool:
        """Whether the trace has at most MOST_OPERATIONS operations, acknowledged lines among them.
        OSError if make_trace() hasn't made the trace, TraceError if a line isn't JSON."""
        with self.trace_path.open(encoding='utf-8') as lines:
            return sum('op' in fields for _, fields in parse_lines(lines)) <= MOST_OPERATIONS


def run_command(words: List[str]) -> str:
    """Runs a command, waits without limit until it, and each process that shares its standard
    output, has ended, and returns what was printed there. Its status is ignored: callers look for
    the files that it makes. OSError if it can't be started."""
    completed = subprocess.run(words, stdin=subprocess.DEVNULL, stdout=subprocess.PIPE, check=False)
    return completed.stdout.decode('utf-8', 'replace')


def make_and_save_row(session: Session, options: argparse.Namespace) -> bool:
    """Makes the row of a session, puts it into docs/results.json, prints the first line of its
    report, and returns true. If there is no row (NoResult), it prints why and returns false, and
    the file keeps the session's earlier row. Other errors are raised, those of put_row() too."""
    try:
        with tempfile.TemporaryDirectory(prefix='measure-stores-') as folder:
            row = SessionCheck(session, options, Path(folder)).make_row()
    except NoResult as why:
        print(f'{session.key}: no result: {why}', file=sys.stderr, flush=True)
        return False
    ResultsFile().put_row(row)
    print(f'{session.key}: {row["report"][0]}', flush=True)
    return True


def main(words: List[str]) -> int:
    """Runs `measure stores` with these words, and returns its status: 1 if a session has no row, or
    that of the signal after a stop, which is reported. Errors of parse_words() and
    make_and_save_row() are raised, and end the command. The rows that were made before a stop or an
    error stay."""
    options = parse_words(words)
    raise_on_stop_signals()
    try:
        sessions = find_sessions(options.names)
        have_rows = [make_and_save_row(session, options) for session in sessions]
    except Stopped as stop:
        print(f'measure stores: stopped by {stop}', file=sys.stderr)
        return stop.status
    return 0 if all(have_rows) else 1
