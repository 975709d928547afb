"""The command line: that of the program's `list`, `picks` and `tar`. Its help is only HELP."""

from __future__ import annotations

import os
import sys
from typing import List

from .faults import ReadingFault, UsageFault
from .listing import json_listing, plain_listing
from .picking import Options, is_number_text, picks_lines, refuse_picks_options
from .plan import StatePlan, add_families, make_plan, read_picks
from .trace import parse_trace

# The options of each command that take no value, and those that take one. They are read without
# argparse: importing it takes longer than to list a small trace.
FLAGS = {
    'list': ('--holes', '--lines', '--same', '--json', '--lost', '--files'),
    'picks': ('--lost', '--files', '--every', '--different', '--count', '--help'),
    'tar': ('--holes', '--changes', '--sparse', '--help'),
}
VALUED = {
    'list': ('--trace', '--picks'),
    'picks': ('--trace', '--most', '--sample', '--seed', '--profile'),
    'tar': ('--trace', '--picks', '--state', '--states'),
}
# What --help prints after `picks` or `tar`: the tools look there for the options that they need.
HELP = (
    'tar --trace FILE [--holes] [--picks FILE] --state N [--sparse]\n'
    'tar --trace FILE [--holes] [--picks FILE] --states LIST [--changes] [--sparse]\n'
    'picks --trace FILE [--lost] [--files]\n'
    'picks --trace FILE --every [--different] [--most N] [--profile F]\n'
    'picks --trace FILE --every --count\n'
    'picks --trace FILE --sample M --seed S'
)


def main(words: List[str]) -> int:
    """Runs a command, given by its words, such as `list` and its options, and returns the exit
    status that the program has: 0; 1 for a ReadingFault, or if nobody reads standard output any
    more, which is /dev/null then; 2 for wrong words. A fault or a wrong word is printed on standard
    error, before any output. Any other OSError of standard output is raised."""
    try:
        options = read_options(words)
        print_output(words[0], options)
        sys.stdout.flush()
        return 0
    except UsageFault as fault:
        print(f'error: {fault}', file=sys.stderr)
        return 2
    except ReadingFault as fault:
        print(f'crashfs: {fault}', file=sys.stderr)
        if fault.why:
            print(f"crashfs: {options['--trace']}:{fault.line}: {fault.why}", file=sys.stderr)
        return 1
    except BrokenPipeError:
        # Nobody reads any more. What is left in the buffer goes nowhere.
        os.dup2(os.open(os.devnull, os.O_WRONLY), 1)
        return 1


def read_options(words: List[str]) -> Options:
    """The options in the words of a command line, of which the first is the command, as
    parse_options(). UsageFault if there is no command, or for an unknown command or option; without
    --help also if --trace is missing, and for `picks` as refuse_picks_options()."""
    if not words or words[0] not in FLAGS:
        raise UsageFault(f"unrecognized subcommand '{words[0] if words else ''}'")
    options = parse_options(words[0], words[1:])
    if '--help' in options:
        return options
    if '--trace' not in options:
        raise UsageFault('the following required arguments were not provided: --trace <FILE>')
    if words[0] == 'picks':
        refuse_picks_options(options)
    return options


def parse_options(command: str, words: List[str]) -> Options:
    """The options in the words after a command. If the last option lacks its value, that is an
    empty text; if an option is given twice, the last value counts. UsageFault for an option that
    the command doesn't have."""
    options: Options = {}
    words_left = iter(words)
    for word in words_left:
        if word in FLAGS[command]:
            options[word] = ''
        elif word in VALUED[command]:
            options[word] = next(words_left, '')
        else:
            raise UsageFault(f"unexpected argument '{word}' found")
    return options


def print_output(command: str, options: Options) -> None:
    """Prints the output of a command, with options that read_options() has accepted for it.
    ReadingFault if an input file can't be read or has a fault, if there are too many states or
    sets, or if there is no such state or profile. UsageFault as state_numbers(). An OSError of
    standard output is raised."""
    if '--help' in options:
        print(HELP)
        return
    reading = parse_trace(read_file(options['--trace']))
    if command == 'picks':
        sys.stdout.writelines(picks_lines(reading, options))
        return
    picks = read_picks(read_file(options['--picks'])) if '--picks' in options else []
    plan = make_plan(reading, has_holes='--holes' in options, picks=picks)
    add_families(plan, options)
    if command == 'list' and '--json' in options:
        sys.stdout.writelines(json_listing(plan))
    elif command == 'list':
        has_lines, has_same = '--lines' in options, '--same' in options
        sys.stdout.writelines(plain_listing(plan, has_lines=has_lines, has_same=has_same))
    else:
        write_archive(plan, options)


def read_file(path: str) -> bytes:
    """The bytes of a file. ReadingFault, with the path, if the file can't be read."""
    try:
        with open(path, 'rb') as file:
            return file.read()
    except OSError as error:
        raise ReadingFault(f'{path}: cannot read') from error


def write_archive(plan: StatePlan, options: Options) -> None:
    """Writes the archive that the options of `tar` ask for to standard output. Errors as
    state_numbers(), before anything is written. An OSError of standard output is raised."""
    # `list` begins faster without tarfile.
    from .archive import ArchiveWriter

    numbers = state_numbers(plan, options)
    with ArchiveWriter(plan, sys.stdout.buffer, is_sparse='--sparse' in options) as archive:
        if '--changes' in options:
            archive.write_changes(numbers)
        elif '--state' in options:
            archive.write_state(numbers[0])
        else:
            archive.write_states(numbers)


def state_numbers(plan: StatePlan, options: Options) -> List[int]:
    """The numbers of the states that --state or, without that, --states names, in the order of its
    list; a number may come twice. ReadingFault if the plan has no such state. UsageFault if the
    text is no number or list, or if neither option is given."""
    if '--state' in options:
        text = options['--state']
        if not is_number_text(text):
            raise UsageFault(f"invalid value '{text}' for '--state <N>'")
        ranges = [range(int(text), int(text) + 1)]
    else:
        ranges = parse_ranges(options.get('--states', ''))
    # A range may have more numbers than there is memory for.
    if any(numbers[-1] >= len(plan.states) for numbers in ranges):
        raise ReadingFault('no such state')
    return [number for numbers in ranges for number in numbers]


def parse_ranges(text: str) -> List[range]:
    """The ranges of a list of numbers and ranges, such as `0,4-7`, in its order; a number is a
    range of one. UsageFault if the text is no such list, or if a range ends before it begins."""
    ranges = [parse_range(range_text) for range_text in text.split(',')]
    if not all(ranges):
        raise UsageFault(f"invalid value '{text}' for '--states <LIST>'")
    return ranges


def parse_range(text: str) -> range:
    """The numbers of `4-7`, or of the single number `4`. An empty range if the text is neither, or
    if it ends before it begins."""
    first, dash, last = text.partition('-')
    if not is_number_text(first) or not is_number_text(last if dash else first):
        return range(0)
    return range(int(first), int(last or first) + 1)
