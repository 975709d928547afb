"""The command crashfs-check: the interface of the package, by a command line. What few checks need
is imported where they need it: it takes as long as many states."""

from __future__ import annotations

import os
import sys
import tempfile
from typing import Callable, List, NamedTuple, Optional

from crashfs_tools.api.reports import Report
from crashfs_tools.checker.running.progress import Progress
from crashfs_tools.checker.running.runner import LeftRunning
from crashfs_tools.checker.states.plan import PlanError
from crashfs_tools.common.command import NOT_ALL_TRIED, Refused, error_text, print_line
from crashfs_tools.common.guard import Guard
from crashfs_tools.common.own_faults import print_own_fault
from crashfs_tools.common.program import ProgramFault
from crashfs_tools.common.signals import Stopped, raise_on_stop_signals
from crashfs_tools.common.streams import (
    flushed_output,
    limit_inherited_descriptors,
    set_utf8_streams,
)
from crashfs_tools.common.whole_files import (
    STANDARD_OUTPUT,
    folder_to_write,
    is_written_in_place,
)

from .checking import CheckResult, Interrupted, check_trace
from .command_line import read_options
from .options import NAME, Options

BAD_INPUT = 2


class OutputFile(NamedTuple):
    """A file to write: the option that names it, its path, which may be STANDARD_OUTPUT, and the
    method that writes it."""

    option: str
    path: str
    write: Callable[[Report, str], None]


def carry_out(options: Options) -> int:
    """Does what the options ask for; returns the exit status. Refused for bad input, PlanError if
    the program prints no plan, and OSError if a file can't be read or written. What ended a check
    early, a Stopped or an Interrupted, is raised after the report is written and printed, unless
    writing or printing raises an OSError. Unless --merge is given, commands that this process
    starts later inherit only the standard streams."""
    refuse_wrong_outputs(options)
    if options.merge is not None:
        from .merging import merge_reports

        return write_and_print(options, merge_reports(options))
    limit_inherited_descriptors()
    with Guard(NAME) as guard:
        if options.state is not None:
            from .show_state import show_state

            return show_state(options, guard)
        checked = check_trace(options, guard, Progress(sys.stderr))
    status = write_and_print(options, checked)
    if checked.exception is not None:
        raise checked.exception
    return status


def refuse_wrong_outputs(options: Options) -> None:
    """Refused if an output file can't be written, if it is TRACE or the file of --accept, or if two
    are one file or both standard output. Only a device or a pipe may be named several times. The
    reports of --resume and --merge may be replaced."""
    inputs = {'TRACE': options.trace, '--accept': options.accept}
    names = {os.path.realpath(path): name for name, path in inputs.items() if path is not None}
    for name, path, _ in outputs_of(options):
        folder_to_write(path)
        is_standard_output = path == STANDARD_OUTPUT
        # No real path is `-`: standard output is never taken for a file with that name.
        first_name = names.setdefault(path if is_standard_output else os.path.realpath(path), name)
        is_device = is_written_in_place(path) and not is_standard_output
        if first_name != name and not is_device:
            raise Refused(f'{name} {path}: that is {first_name}')


def outputs_of(options: Options) -> List[OutputFile]:
    """The files to write, in the order in which they are written."""
    outputs = [
        ('--json', options.json, Report.write_json),
        ('--junit', options.junit, Report.write_junit),
        ('--tap', options.tap, Report.write_tap),
        ('--html', options.html, Report.write_html),
    ]
    return [OutputFile(option, path, write) for option, path, write in outputs if path is not None]


def write_and_print(options: Options, checked: CheckResult) -> int:
    """Writes the files of outputs_of(), in their order, then prints the report: on standard error
    if one of the files is standard output. Returns the exit status. If a file can't be written, the
    later ones aren't written either; the report is printed nevertheless, and then the OSError is
    raised; an OSError of the printing is raised in its place."""
    report, outputs = Report(checked.report, checked.mode), outputs_of(options)
    write_error = None
    try:
        for output in outputs:
            output.write(report, output.path)
    except OSError as error:
        write_error = error
    if any(output.path == STANDARD_OUTPUT for output in outputs):
        print(report, file=sys.stderr)
    else:
        with flushed_output():
            print(report)
    if write_error is not None:
        raise write_error
    return report.status


def print_fault(fault: BaseException) -> None:
    """Prints a fault that the user can repair, as lines that name it, and any other Exception as a
    fault of these tools. An OSError that names no file is printed as error_text(): with what the
    system has no room for, or with the directory of temporary files. Nothing is printed for a
    KeyboardInterrupt, or another exception that is no Exception."""
    if isinstance(fault, OSError) and fault.strerror:
        print_line(NAME, error_text(fault, tempfile.gettempdir()))
    elif isinstance(fault, (Refused, PlanError, ProgramFault)):
        for line in str(fault).split('\n'):
            print_line(NAME, line)
    elif isinstance(fault, Exception):
        print_own_fault(NAME, fault)


def main(arguments: Optional[List[str]] = None) -> int:
    """Runs crashfs-check with these words, or if None with those of its command line, and returns
    its status, which --help explains. Faults are printed, not raised; only --help, --version and a
    wrong option end the process (SystemExit). How this process takes signals that stop a command,
    and the encoding of its standard streams, stay changed."""
    set_utf8_streams()
    try:
        options = read_options(sys.argv[1:] if arguments is None else arguments)
        raise_on_stop_signals()
        return carry_out(options)
    except Stopped as stopped:
        print_line(NAME, f'stopped by {stopped}')
        return stopped.status
    except Interrupted as interrupted:
        print_fault(interrupted.__cause__ or interrupted)
    except (LeftRunning, OSError) as fault:
        # A LeftRunning is a Refused too, but the input isn't bad.
        print_fault(fault)
    except (Refused, PlanError) as refused:
        print_fault(refused)
        return BAD_INPUT
    except Exception as error:
        print_own_fault(NAME, error)
    return NOT_ALL_TRIED
