"""The command line of crashfs-campaign."""

from __future__ import annotations

import argparse
import os
import shlex
import sys
from dataclasses import dataclass
from typing import List, NamedTuple, Optional

from crashfs_tools.common.command import (
    Refused,
    parse_command_line,
    parse_number,
    parse_positive_number,
    split_command,
    version_text,
    with_program_path,
)

NAME = 'crashfs-campaign'

DESCRIPTION = """\
Records SESSION with one seed after another, runs RECOVERY in the crash states of each, and keeps
what is new.

SESSION runs in an empty directory, with a seed in the variable CRASHFS_SEED, as under
crashfs-record; RECOVERY as under crashfs-check. A failure is new if no earlier session had one with
the same kind of cause and the same two operations. For a new failure, and for a known one if a
later session is shorter, it looks for the session with the fewest acknowledged lines that still
fails in the same way. RESULTS, a directory, has its trace, its report as a page, and campaign.json.
The same command with the same RESULTS continues after the last seed."""

EPILOG = """\
status: 0 no state of any session fails; 1 some fail; 2 the command line is refused; 3 some sessions
were not recorded, or gave no answer, and none fails; 129, 130 or 143 it was stopped by SIGHUP,
Ctrl-C or SIGTERM.

example: crashfs-campaign --time-limit 28800 found -- ./session.sh -- ./recover.sh"""


class SeedRange(NamedTuple):
    """The first and the last of the seeds to try."""

    first: int
    last: int


SEEDS = SeedRange(1, 100)
# Those of a campaign that its time limit ends.
ALL_SEEDS = SeedRange(1, sys.maxsize)


@dataclass
class CampaignOptions:
    """The options of a command line, with SESSION and RECOVERY; record and check are options of the
    two other commands."""

    results: str
    session: List[str]
    recovery: List[str]
    seeds: SeedRange
    start: Optional[str]
    record: List[str]
    check: List[str]
    time_limit: float
    html: Optional[str]

    def identity(self) -> List[object]:
        """What must be equal for a campaign to be continued: all but the seeds, the time limit and
        the page. campaign.json has it in this order: after a change of the order no earlier
        campaign could be continued."""
        return [self.session, self.recovery, self.start, self.record, self.check]


def parse_seeds(text: str) -> SeedRange:
    """The seeds of a range, as `1-100`. ArgumentTypeError if the text is no range, or if the first
    seed is greater than the last."""
    first, last = map(parse_number, text.partition('-')[::2])
    if first is None or last is None or first > last:
        raise argparse.ArgumentTypeError(f'{text} is no range such as 1-100')
    return SeedRange(first, last)


def parse_time_limit(text: str) -> float:
    """A time limit: a number of seconds above 0, as `1.5`, or `inf` for no limit.
    ArgumentTypeError for any other text."""
    seconds = parse_positive_number(text)
    if seconds is None:
        raise argparse.ArgumentTypeError(f'{text} is no number of seconds above 0')
    return seconds


def split_words(text: str) -> List[str]:
    """The words of a text, quoted as for a shell. ArgumentTypeError if a quotation has no end."""
    try:
        return shlex.split(text)
    except ValueError as error:
        raise argparse.ArgumentTypeError(f'{text}: {error}') from error


def make_parser() -> argparse.ArgumentParser:
    """The parser of the words before the first `--`: the options and RESULTS. Each value that it
    reads has the name of a field of CampaignOptions."""
    parser = argparse.ArgumentParser(
        prog=NAME,
        usage=f'{NAME} [OPTION].. RESULTS -- SESSION [ARG].. -- RECOVERY [ARG]..',
        description=DESCRIPTION,
        epilog=EPILOG,
        formatter_class=argparse.RawDescriptionHelpFormatter,
    )
    parser.add_argument('results', metavar='RESULTS', help='the directory for what is found')
    parser.add_argument('--version', action='version', version=version_text(NAME))
    parser.add_argument(
        '--seeds',
        metavar='A-B',
        type=parse_seeds,
        help='the seeds (default: 1-100; with --time-limit all from 1 on)',
    )
    parser.add_argument(
        '--time-limit',
        metavar='S',
        type=parse_time_limit,
        default=float('inf'),
        help='begin no session after S seconds',
    )
    add_session_options(parser)
    parser.add_argument('--html', metavar='FILE', help='write an index of what was found as a page')
    return parser


def add_session_options(parser: argparse.ArgumentParser) -> None:
    """Adds the options that say how each session begins, is recorded and is checked."""
    parser.add_argument('--start', metavar='DIR', help='begin each session with a copy of DIR')
    parser.add_argument(
        '--record',
        metavar='WORDS',
        type=split_words,
        default=[],
        help='options of crashfs-record, in one argument',
    )
    parser.add_argument(
        '--check',
        metavar='WORDS',
        type=split_words,
        default=[],
        help='options of crashfs-check, in one argument',
    )


def read_options(arguments: List[str]) -> CampaignOptions:
    """The options of a command line, with absolute paths of the programs and of --start. Without
    --seeds the seeds are SEEDS, or ALL_SEEDS if there is a time limit. A wrong word, a missing
    command, --help and --version end the program (SystemExit). Refused as with_program_path(), or
    if --start names no directory."""
    parser = make_parser()
    values, commands = parse_command_line(parser, arguments)
    session, recovery = split_command(commands)
    has_time_limit = values.time_limit < float('inf')
    if not session or not recovery:
        parser.error('two commands are needed: -- SESSION [ARG].. -- RECOVERY [ARG]..')
    if values.start is not None and not os.path.isdir(values.start):
        raise Refused(f'{values.start} is no directory')
    return CampaignOptions(
        results=values.results,
        session=with_program_path(session),
        recovery=with_program_path(recovery),
        seeds=values.seeds or (ALL_SEEDS if has_time_limit else SEEDS),
        start=values.start and os.path.abspath(values.start),
        record=values.record,
        check=values.check,
        time_limit=values.time_limit,
        html=values.html,
    )
