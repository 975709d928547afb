"""The command line of crashfs-record."""

from __future__ import annotations

import argparse
import os
from dataclasses import dataclass, replace
from typing import Any, Dict, List, Optional, Union

from crashfs_tools.common.command import (
    Refused,
    parse_command_line,
    parse_number,
    version_text,
    with_program_path,
)
from crashfs_tools.common.trace import BLOCK_SIZES, BLOCKS, JOURNAL, PROFILES
from crashfs_tools.common.whole_files import STANDARD_OUTPUT, folder_to_write

from .ignore import Rule
from .output_streams import AcknowledgingDescriptors, SayEach

NAME = 'crashfs-record'
# The versions of traces that can be written; AUTO is the oldest that has all that happens.
AUTO, VERSIONS = 'auto', ('3', '4')
# What --say-fd takes for every connection that COMMAND accepts.
SOCKETS = 'socket'
# The system keeps the number of a descriptor in an int.
LARGEST_DESCRIPTOR = 2**31 - 1

DESCRIPTION = """\
Records what COMMAND does to the directory DIR, as a trace of file operations.

COMMAND runs in DIR under strace, and changes DIR as it would without crashfs-record. The content of
DIR before the run becomes the start lines. Each call that changes something below DIR becomes an
operation. Each line that COMMAND writes to its standard output becomes a `say`: COMMAND
acknowledged it to its user."""

EPILOG = """\
status: 0 the trace is complete; 4 it is complete except for things that can't make a state good or
bad (each is printed); 3 it is written, but can't say all that happened, or no loss can be seen
(each is printed); 1 nothing is written; 2 the command line is refused. Ctrl-C and SIGTERM are
passed to COMMAND, and what was recorded is written; a second one kills COMMAND.

example: crashfs-record store.d store.trace -- sqlite3 test.db ".read session.sql" """


@dataclass(frozen=True)
class RecordOptions:
    """The values of a command line, by the names that the parser gives them, and COMMAND, which is
    empty with --from-log."""

    directory: str
    out: str
    command: List[str]
    ignore: List[str]
    mapped: bool
    stacks: bool
    begin_after: Optional[str]
    acknowledging_descriptors: AcknowledgingDescriptors
    say_each: Optional[str]
    no_say: bool
    keep_log: Optional[str]
    from_log: Optional[str]
    log_directory: Optional[str]
    crashfs: Optional[str]
    profile: str
    block: int
    trace_version: str

    @property
    def version(self) -> Optional[int]:
        """The version of the trace; None for the oldest that has all that happens."""
        return None if self.trace_version == AUTO else int(self.trace_version)


def check_pattern(text: str) -> str:
    """A pattern of --ignore, unchanged; ArgumentTypeError if Rule.parse() refuses it."""
    try:
        Rule.parse(text)
    except ValueError as error:
        raise argparse.ArgumentTypeError(str(error)) from error
    return text


def parse_say_fd(word: str) -> Union[int, str]:
    """A value of --say-fd: a number, or SOCKETS. ArgumentTypeError for any other text, and for a
    number above LARGEST_DESCRIPTOR."""
    if word == SOCKETS:
        return word
    if not word.isdecimal():
        raise argparse.ArgumentTypeError(f'{word} is neither a number nor `{SOCKETS}`')
    number = parse_number(word)
    if number is None or number > LARGEST_DESCRIPTOR:
        raise argparse.ArgumentTypeError(f'no descriptor has a number above {LARGEST_DESCRIPTOR}')
    return number


def as_descriptors(values: List[Union[int, str]]) -> AcknowledgingDescriptors:
    """What acknowledges something by these values of --say-fd: the default if there are none."""
    if not values:
        return AcknowledgingDescriptors()
    numbers = tuple(value for value in values if isinstance(value, int))
    return AcknowledgingDescriptors(numbers, SOCKETS in values)


def check_begin_after(text: str) -> str:
    """A value of --begin-after, unchanged. ArgumentTypeError for a number of so many digits that
    parse_number() doesn't take it; a text that isn't a number is a pattern."""
    if text.isdecimal() and parse_number(text) is None:
        raise argparse.ArgumentTypeError(f'no line has a number of {len(text):,} digits')
    return text


# The options in the order of --help, with what argparse takes for each. A value is the field of
# RecordOptions that has the option's name, or the name `dest`.
OPTIONS: Dict[str, Dict[str, Any]] = {
    # Which changes of the directory are recorded.
    '--mapped': dict(
        action='store_true',
        help='also record stores through shared mappings: COMMAND is stopped at each '
        'call that syncs, writes, maps or changes a name (slower)',
    ),
    '--ignore': dict(
        metavar='GLOB',
        action='append',
        type=check_pattern,
        default=[],
        help='leave out files that match, by the rules of .gitignore (may be repeated)',
    ),
    # What COMMAND acknowledges, and how.
    '--say-fd': dict(
        metavar='N',
        action='append',
        default=[],
        dest='acknowledging_descriptors',
        type=parse_say_fd,
        help="take the acknowledged lines from COMMAND's descriptor N, not from "
        f"standard output; `{SOCKETS}`: from each connection that it accepts "
        '(may be repeated)',
    ),
    '--say-each': dict(
        metavar='WHAT',
        choices=[each.value for each in SayEach],
        help='what acknowledges something: each `line`, or each `write`, as in binary '
        'protocols (default: line; over a connection without line feeds: write)',
    ),
    '--no-say': dict(
        action='store_true',
        help='do not warn if no line is acknowledged, if all are in one write, or if '
        'files change while one is written in parts',
    ),
    # How the trace is written: its notes, where it begins, its model of the disk, and its version.
    '--stacks': dict(
        action='store_true',
        help="note at each operation which of COMMAND's functions made it (slower)",
    ),
    '--begin-after': dict(
        metavar='LINE',
        type=check_begin_after,
        help='begin the trace after the acknowledged line with this number, or after '
        'the first that matches; earlier changes belong to the start tree',
    ),
    '--profile': dict(
        choices=[*PROFILES, JOURNAL],
        default=BLOCKS,
        help='which directory operations the file system keeps in order: only those of the same '
        'names (blocks, the default), all (ordered), or all, with each sync that writes the log '
        'making them durable (journal, as ext4 and XFS do; needs a trace of version 4)',
    ),
    '--block': dict(
        type=int,
        choices=BLOCK_SIZES,
        default=BLOCK_SIZES[-1],
        help='how many bytes the disk writes whole; with 512, records inside a page '
        'may be torn (default: 4096)',
    ),
    '--trace-version': dict(
        metavar='VERSION',
        choices=[AUTO, *VERSIONS],
        default=AUTO,
        help='the version of the trace. 4 has symbolic links, renamed directories and files of up '
        'to 1 GiB, and a check also says what ext4 and XFS may leave (default: auto, which is 3 if '
        'that has all that happens, else 4)',
    ),
    # What compares the directory at the end.
    '--crashfs': dict(
        metavar='PATH',
        help='the program crashfs, for the comparison at the end (default: the one on PATH, then '
        'next to this tool, then the one that tools/build made)',
    ),
    # strace's log.
    '--keep-log': dict(metavar='FILE', help="keep strace's log"),
    '--from-log': dict(
        metavar='FILE',
        help='run nothing, but convert the log of an earlier run; DIR must be as it '
        'was before that run',
    ),
    '--log-dir': dict(
        metavar='PATH',
        dest='log_directory',
        help="with --from-log: DIR's path where the log was written",
    ),
}


def make_parser() -> argparse.ArgumentParser:
    """A new parser of DIR, OUT.trace and OPTIONS, without COMMAND. Each value that it reads has the
    name of a field of RecordOptions."""
    parser = argparse.ArgumentParser(
        prog=NAME,
        description=DESCRIPTION,
        epilog=EPILOG,
        usage='crashfs-record [OPTION].. DIR OUT.trace -- COMMAND [ARG]..',
        formatter_class=argparse.RawDescriptionHelpFormatter,
    )
    parser.add_argument('--version', action='version', version=version_text(NAME))
    parser.add_argument('directory', metavar='DIR', help='the directory that COMMAND changes')
    parser.add_argument('out', metavar='OUT.trace', help='the trace to write; - is standard output')
    for name, settings in OPTIONS.items():
        parser.add_argument(name, **settings)
    return parser


def read_options(arguments: List[str]) -> RecordOptions:
    """The options in the words of a command line; no file is looked at: prepared_options() does
    that. SystemExit if the words are wrong or don't go together, and for --help and --version."""
    parser = make_parser()
    values, command = parse_command_line(parser, arguments)
    if values.from_log is None and not command:
        parser.error('COMMAND is missing: put -- before it')
    if values.from_log is not None and (
        command or values.mapped or values.keep_log or values.stacks
    ):
        parser.error('--from-log goes with no COMMAND, --mapped, --stacks or --keep-log')
    if values.profile == JOURNAL and values.trace_version == VERSIONS[0]:
        parser.error(f'--profile {JOURNAL} needs --trace-version {VERSIONS[-1]} or {AUTO}')
    values.acknowledging_descriptors = as_descriptors(values.acknowledging_descriptors)
    return RecordOptions(command=command, **vars(values))


def prepared_options(options: RecordOptions) -> RecordOptions:
    """The options with the directory's real path, and the absolute path of COMMAND's program.
    Refused if there is no such directory or program, or if OUT or the file of --keep-log can't be
    made or would be in the directory."""
    if not os.path.isdir(options.directory):
        raise Refused(f'{options.directory} is no directory')
    directory = os.path.realpath(options.directory)
    if options.out != STANDARD_OUTPUT:
        refuse_output_path(options.out, directory)
    if options.keep_log is not None:
        refuse_output_path(options.keep_log, directory)
    command = with_program_path(options.command) if options.command else []
    return replace(options, directory=directory, command=command)


def refuse_output_path(path: str, directory: str) -> None:
    """Refused if a file to write can't be made at a path, or would be in the directory, which is a
    real path."""
    folder = folder_to_write(path)
    if (folder + '/').startswith(directory.rstrip('/') + '/'):
        raise Refused(f'{path} would be in {directory}, which is recorded')
