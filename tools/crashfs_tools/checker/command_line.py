"""The command line of crashfs-check."""

from __future__ import annotations

import argparse
from typing import Any, Dict, List

from crashfs_tools.common.command import (
    parse_command_line,
    parse_number,
    parse_positive_number,
    version_text,
)

from .address import Address
from .options import (
    MOST_JOBS,
    MOST_STATES,
    NAME,
    TIMEOUT,
    Options,
    Shard,
    StateNumber,
    processor_count,
)

DESCRIPTION = """\
Runs COMMAND in the crash states of a trace, and reports in which states it fails, and why.

COMMAND runs in a directory that has the files as the crash left them; it may change them. The
variable CRASHFS_STATE is the state's number. CRASHFS_SAYS is the number of lines that the recorded
program had printed before the crash, no more and no less; these lines are COMMAND's standard input.
Exit status 0 means that the state is good, any other status that it is bad. The last line that
COMMAND printed is then the cause; the report counts failures by the word before a colon in it.

COMMAND is first run in the tree at the session's end and in the start tree, and must find both
good. The states are all that a crash may leave by the rules, if at most 20,000 of them differ and
if they take at most ten minutes; else the kinds that found most bugs, then random ones."""

EPILOG = """\
status: 0 none fails; 1 some fail; 2 bad input, or COMMAND fails though nothing is lost; 3 a command
gave no answer, or states were not tried; 129, 130 or 143 the check was stopped by SIGHUP, Ctrl-C or
SIGTERM, and the report has what was tried.

example: crashfs-check --jobs 4 store.trace -- ./recover.sh"""


# The types of values, for argparse: each raises ArgumentTypeError for a text that isn't one.


def parse_shard(text: str) -> Shard:
    """The shard of `I/N`, with I from 1 to N. ArgumentTypeError for any other text."""
    part, parts = map(parse_number, text.partition('/')[::2])
    if part is None or parts is None or not 1 <= part <= parts:
        raise argparse.ArgumentTypeError(f'{text} is not I/N with I from 1 to N')
    return Shard(part, parts)


def parse_address(text: str) -> Address:
    """The address of `HOST:PORT`, with a port from 1 to 65,535; an IPv6 host may be in brackets.
    ArgumentTypeError for any other text."""
    host, _, port_text = text.rpartition(':')
    port = parse_number(port_text)
    if not host or port is None or not 1 <= port <= 65_535:
        raise argparse.ArgumentTypeError(f'{text} is not HOST:PORT')
    return Address(host[1:-1] if host.startswith('[') and host.endswith(']') else host, port)


def parse_positive(text: str) -> int:
    """A whole number from 1 on. ArgumentTypeError for any other text."""
    number = parse_number(text)
    if not number:
        raise argparse.ArgumentTypeError(f'{text} is not a number from 1')
    return number


def parse_job_count(text: str) -> int:
    """A number of jobs, from 1 to MOST_JOBS. ArgumentTypeError for any other text."""
    count = parse_positive(text)
    if count > MOST_JOBS:
        raise argparse.ArgumentTypeError(f'{text} is more than {MOST_JOBS:,}')
    return count


def parse_state(text: str) -> StateNumber:
    """The state of `N` or, for `N/M`, state M of the recovery of state N. ArgumentTypeError for any
    other text."""
    state_text, separator, recovery_text = text.partition('/')
    state, recovery_state = parse_number(state_text), parse_number(recovery_text)
    if state is None or (separator and recovery_state is None):
        raise argparse.ArgumentTypeError(f'{text} is neither N nor N/M')
    return StateNumber(state, recovery_state)


def parse_names(text: str) -> List[str]:
    """The names in a list that is separated by commas; a text without a comma is one name."""
    return text.split(',')


def parse_seconds(text: str) -> float:
    """A duration in seconds, above 0 and below a billion. ArgumentTypeError for any other text."""
    seconds = parse_positive_number(text)
    if seconds is None or seconds >= 1e9:
        raise argparse.ArgumentTypeError(f'{text} is no number of seconds')
    return seconds


# The options in the order of --help, with what argparse takes for each. A value is the field of
# Options that has the option's name, or the name `dest`.
OPTIONS: Dict[str, Dict[str, Any]] = {
    '--jobs': dict(
        metavar='N',
        type=parse_job_count,
        default=processor_count(),
        help='run N commands at once (default: one per processor, %(default)s)',
    ),
    '--shard': dict(
        metavar='I/N',
        type=parse_shard,
        default=Shard(),
        help='try only part I of N; --merge merges the reports',
    ),
    # Whether all crash states of the trace are tried, or which families.
    '--every': dict(
        metavar='N',
        type=parse_positive,
        help='all crash states if at most N of them differ, however long that takes '
        f'(without a number: {MOST_STATES:,})',
    ),
    '--families': dict(
        action='store_true',
        help='not all crash states, but the prefixes, those with one hole, --lost and --files',
    ),
    '--prefixes': dict(action='store_true', help='the prefixes only: a crash lost what came last'),
    '--quick': dict(
        action='store_true',
        help='the prefixes and those with one hole; --lost and --files only if given',
    ),
    # What leaves states out of the plan, or adds a family to it. --window is for tests.
    '--in': dict(
        metavar='PROFILE',
        dest='profile',
        help='only states that this profile allows, such as ordered',
    ),
    '--window': dict(metavar='N', type=parse_positive, help=argparse.SUPPRESS),
    '--lost': dict(
        action='store_true',
        help='for each micro-operation, the smallest state that has it '
        '(adds to --prefixes, --quick or --serve)',
    ),
    '--files': dict(
        action='store_true',
        help='for each file, the states without its unsynced changes (as --lost)',
    ),
    # How a check runs: second crashes, a single state, when it stops, and from where it continues.
    '--nested': dict(
        metavar='N',
        type=parse_positive,
        default=0,
        help='crash the recovery too: record COMMAND in N states, and try each crash '
        'state of that recovery by a second run of COMMAND (needs strace)',
    ),
    '--state': dict(
        metavar='N',
        type=parse_state,
        help='try only state N, and leave it laid out as the crash left it; N/M is '
        'state M of the recovery of state N',
    ),
    '--fail-fast': dict(action='store_true', help='stop at the first failing state'),
    '--time-limit': dict(
        metavar='S',
        type=parse_seconds,
        help='stop after S seconds, and report what was tried',
    ),
    '--resume': dict(
        metavar='FILE',
        help='continue a check that was stopped, from its --json file; if there is '
        'no such file, start from the beginning',
    ),
    # What earlier checks left: a file of accepted failures, and a directory of outcomes.
    '--accept': dict(
        metavar='FILE',
        help='a JSON list of known failures: they are reported, and do not change the status',
    ),
    '--cache': dict(
        metavar='DIR',
        help='keep outcomes in this directory: a state with the same files and lines is not tried '
        'again, unless a file that COMMAND opens has changed (needs strace)',
    ),
    # Files that are written in addition to the report.
    '--json': dict(
        metavar='FILE', help='write the outcomes, for --merge, --resume and other tools'
    ),
    '--junit': dict(metavar='FILE', help='write the report as JUnit XML'),
    '--tap': dict(metavar='FILE', help='write the report in the Test Anything Protocol'),
    '--html': dict(metavar='FILE', help='write the report as one page, to be opened in a browser'),
    # How long COMMAND may take, and which program computes the states.
    '--timeout': dict(
        metavar='S',
        type=parse_seconds,
        default=TIMEOUT,
        help=f'kill a command after S seconds (default {TIMEOUT:g})',
    ),
    '--crashfs': dict(
        metavar='PATH',
        help='the program crashfs (default: the one on PATH, then next to this tool, then the one '
        'that tools/build made)',
    ),
    '--unproved': dict(
        action='store_true',
        help='use the Python implementation, even if there is a crashfs',
    ),
    # States, or their outcomes, from a server, from disks, or from the reports of earlier checks.
    '--serve': dict(
        metavar='ADDR',
        type=parse_address,
        help='mount each state from the `crashfs serve --again --client linux` that '
        'listens at this host and port, with the same trace and plan (as root)',
    ),
    '--uname': dict(
        metavar='NAME',
        help="with --serve: the user who attaches (default: the root's owner)",
    ),
    '--disks': dict(
        metavar='LIST',
        type=parse_names,
        help='make the session again on disk images of these file systems, such as '
        'ext4,xfs,btrfs, and report on which of them a crash left a failing state (as root)',
    ),
    '--merge': dict(
        metavar='FILE',
        nargs='+',
        help='try nothing; merge the reports of all shards from their --json files; with '
        'TRACE before it, and the options of the shards, --html and --json '
        'also show how files differ',
    ),
}


# The options of crashfs-record that crashfs-check doesn't have.
RECORDER_OPTIONS = (
    '--mapped',
    '--ignore',
    '--say-fd',
    '--say-each',
    '--no-say',
    '--stacks',
    '--begin-after',
    '--profile',
    '--block',
    '--trace-version',
    '--keep-log',
    '--from-log',
    '--log-dir',
)


def make_parser() -> argparse.ArgumentParser:
    """The parser of TRACE and OPTIONS, without COMMAND. Each value that it reads has the name of a
    field of Options."""
    parser = argparse.ArgumentParser(
        prog=NAME,
        description=DESCRIPTION,
        epilog=EPILOG,
        usage='crashfs-check [OPTION].. TRACE -- COMMAND [ARG]..\n'
        '       crashfs-check [TRACE] --merge REPORT.json.. [--json FILE] [--junit FILE] '
        '[--tap FILE] [--html FILE]',
        formatter_class=argparse.RawDescriptionHelpFormatter,
    )
    parser.add_argument('--version', action='version', version=version_text(NAME))
    parser.add_argument('trace', metavar='TRACE', nargs='?', help='the trace')
    for name, settings in OPTIONS.items():
        parser.add_argument(name, **settings)
    return parser


def with_default_every(words: List[str]) -> List[str]:
    """A copy of the arguments, in which each --every that no number follows has the number
    MOST_STATES: argparse would take the next argument, such as TRACE, for the number. An
    abbreviation such as --ever stays, and so does all after the first `--`."""
    end = words.index('--') if '--' in words else len(words)
    next_words = [*words[1:end], '']
    own_words = [
        f'--every={MOST_STATES}' if word == '--every' and not next_word.isdecimal() else word
        for word, next_word in zip(words[:end], next_words)
    ]
    return own_words + words[end:]


def read_options(arguments: List[str]) -> Options:
    """The options of a command line, given as its words. If they have a fault, or ask for the help
    or the version, a text is printed, and the program ends (SystemExit)."""
    parser = make_parser()
    words = with_default_every(arguments)
    values, command = parse_command_line(parser, words, RECORDER_OPTIONS)
    for line, is_fault in possible_faults(values, command).items():
        if is_fault:
            parser.error(line)
    return Options(command=command, **vars(values))


def possible_faults(values: argparse.Namespace, command: List[str]) -> Dict[str, bool]:
    """The faults that a command line may have, by the lines that report them, each with whether
    these values and COMMAND have it: a missing TRACE or COMMAND, and options that can't be
    combined. Options that only have no effect, such as --fail-fast with --state or --resume with
    --merge, are no fault."""
    is_merge, is_serve = values.merge is not None, values.serve is not None
    is_shard = values.shard.parts > 1
    has_own_states = values.families or values.prefixes or values.quick or is_serve
    return {
        '--merge goes with no COMMAND': is_merge and bool(command),
        'TRACE is missing': not is_merge and values.trace is None,
        'COMMAND is missing: put -- before it': not is_merge and not command,
        '--every goes with no --families, --prefixes, --quick or --serve': (
            values.every is not None and has_own_states
        ),
        '--accept goes with no --fail-fast or --shard; give it to --merge': (
            bool(values.accept) and (values.fail_fast or is_shard)
        ),
        '--cache goes with no --serve': bool(values.cache) and is_serve,
        '--uname goes with --serve': values.uname is not None and not is_serve,
        '--state writes no report: it goes with no --json, --junit, --tap, --html, --resume, '
        '--disks or --merge': (values.state is not None and has_report_option(values)),
        '--nested goes with no --serve, --shard or --merge': (
            values.nested > 0 and (is_serve or is_shard or is_merge)
        ),
    }


def has_report_option(values: argparse.Namespace) -> bool:
    """Whether an option is given that writes, continues or merges the report of a whole check, or
    adds to it what disks leave."""
    outputs = (values.json, values.junit, values.tap, values.html, values.resume)
    return any(value is not None for value in (*outputs, values.disks, values.merge))
