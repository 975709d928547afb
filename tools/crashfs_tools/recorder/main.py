"""The command crashfs-record."""

from __future__ import annotations

import os
import sys
from dataclasses import dataclass
from typing import List, Optional, Tuple

from crashfs_tools.common import descendants
from crashfs_tools.common.command import TRACE_NOT_WHOLE, Refused, error_text, print_line
from crashfs_tools.common.guard import Guard
from crashfs_tools.common.own_faults import print_own_fault
from crashfs_tools.common.printable import escape_unprintable
from crashfs_tools.common.program import Crashfs
from crashfs_tools.common.signals import Stopped, raise_on_stop_signals
from crashfs_tools.common.streams import prepare_standard_streams
from crashfs_tools.common.trace import NEWEST_VERSION
from crashfs_tools.common.whole_files import read_umask, write_whole_file

from . import stacks, strace_run, summary
from .begin_after import LateStart
from .arguments import LogError
from .calls.opens import opened_files
from .directory import Scan, group_name, scan_directory, user_name
from .ignore import IgnoreRules
from .log_filter import LogFilter
from .live_files import LiveFiles, StartConditions, no_target
from .log_stream import LogStream
from .mapped_files import FileCopies, MappedFiles
from .options import NAME, RecordOptions, prepared_options, read_options
from .output_streams import SayEach
from .own_path import NOTE as OWN_PATH
from .own_path import files_with_path
from .recording import Recording, TraceSettings, is_private
from .source_lines import source_frames
from .start_tree import files_at_start
from .strace_log import Call, Log, read_log
from .translate import Translator

NOTHING_WRITTEN = 1
# What the lines of errors end with.
WRITTEN, NOT_WRITTEN = 'the trace is written', 'no trace is written'
NEW_VERSION = f'the trace has version {NEWEST_VERSION} (%s): crashfs before 0.2 does not read it'
LATE_START = 'it begins after an acknowledged line: what was not yet synced then counts as durable'


@dataclass
class RecordedRun:
    """A run of COMMAND. Of an earlier run only the log is known: all else has the value of a run
    without faults. file_copies is None without --mapped; status is COMMAND's, as Popen has it.
    output_pipe is what strace shows for COMMAND's standard output, None if that isn't known.
    still_running_text names the processes that could not be ended, and log_fault says why the log
    was not kept whole: both are empty if all is well."""

    log: Log
    file_copies: Optional[FileCopies] = None
    status: int = 0
    passed_signals: Tuple[int, ...] = ()
    output_pipe: Optional[str] = None
    still_running_text: str = ''
    log_fault: str = ''


def run_under_strace(
    options: RecordOptions,
    guard: Guard,
    line_filter: LogFilter,
    mapped_files: Optional[MappedFiles],
) -> RecordedRun:
    """Runs COMMAND under strace to its end, without a time limit, and ends the processes that it
    leaves, also after an error. With mapped_files, which aren't None with --mapped, all lines of
    the log are read, else those that the filter finds needed. Refused as in find_strace() and
    refuse_incomplete_log(); LogError if the log isn't strace's; OSError if a file for the log can't
    be made or opened, strace can't be started, standard output can't be written, or a mapped file
    can't be read."""
    strace_path = strace_run.find_strace()
    # All calls decide where copies of mapped files belong, also those on other files.
    stream = LogStream(guard.directory, mapped_files, None if mapped_files else line_filter)
    stream.create_files(options.keep_log)
    command = strace_run.strace_command(strace_path, stream.pipe, options)
    traced_run = strace_run.StraceRun(command, options, stream, guard)
    try:
        status = traced_run.run_command()
    finally:
        still_running = guard.end_processes()
    log = stream.finish()
    refuse_incomplete_log(log, options.command[0])
    return RecordedRun(
        log,
        file_copies=mapped_files.file_copies if mapped_files else None,
        status=status,
        passed_signals=tuple(traced_run.signals),
        output_pipe=traced_run.output_pipe,
        still_running_text=descendants.processes_text(still_running),
        log_fault=stream.keep_fault.strerror if stream.keep_fault else '',
    )


def refuse_incomplete_log(log: Log, program: str) -> None:
    """Refused if a log has no calls, ends before the first process did, or shows no exec that
    succeeded. `program` is COMMAND's, for the text."""
    if log.first_thread is None:
        raise Refused('strace recorded nothing (it may not trace here: see its message)')
    if not log.is_whole:
        raise Refused("strace's log ends before COMMAND did")
    if not any(call.name == 'execve' and call.result == 0 for call in log.calls):
        raise Refused(f'{program} could not be started (strace prints why)')


def load_log(path: str, line_filter: LogFilter) -> Log:
    """Reads a log, which may end early, from a file, without lines that the filter finds needless.
    Refused if it has no call; LogError, with the line's number, if it isn't as strace writes it;
    OSError if it can't be read."""
    with open(path, encoding='utf-8', errors='surrogateescape') as lines:
        log = read_log(lines, line_filter)
    if log.first_thread is None:
        raise Refused(f'{path} has no call of any process: strace -f -o FILE writes such a log')
    return log


def start_conditions(options: RecordOptions) -> StartConditions:
    """What COMMAND starts with. With --from-log the umask is 022, the directory has the path of
    --log-dir, if that is given, and no targets of symbolic links outside it are known. New files
    have this process's owner and group in any case."""
    is_from_log = options.from_log is not None
    log_top = os.path.normpath(options.log_directory or options.directory)
    return StartConditions(
        top=log_top if is_from_log else options.directory,
        umask=0o022 if is_from_log else read_umask(),
        owner=user_name(os.geteuid()),
        group=group_name(os.getegid()),
        read_outside=no_target if is_from_log else read_link_target,
    )


def read_link_target(path: str) -> Optional[str]:
    """The target of a symbolic link on this system, as it is now. None if there is no link, or it
    can't be read, and for a path below /proc, which means something else in each process."""
    if path.startswith('/proc/'):
        return None
    try:
        return os.readlink(path)
    except OSError:
        return None


def record(options: RecordOptions) -> int:
    """Records a session, replaces OUT by the trace, and returns the status of
    report_written_trace(). Only OUT's owner may read a trace that has a file or directory which not
    everybody may read. Refused, LogError, Stopped or OSError if no trace is written, or if writing
    it fails: write_whole_file() says what is left then."""
    options = prepared_options(options)
    # A wrong --crashfs is refused before COMMAND runs.
    Crashfs.find(options.crashfs)
    # The same for all that asks: its answers are those of the first look at the disk.
    ignore_rules = IgnoreRules(options.ignore, options.directory)
    start_scan = scan_directory(options.directory, ignore_rules, options.version)
    recording = Recording(start_scan.header, trace_settings(options))
    files = files_at_start(
        recording,
        start_conditions(options),
        start_scan,
        ignore_rules,
        has_copies=options.mapped,
    )
    run = run_or_load_log(options, files)
    if options.ignore:
        ignore_rules.add_removed_files(opened_files(files, run.log.calls))
    translate_run(options, files, run)
    mode = 0o600 if is_private(recording.trace) else 0o666
    write_whole_file(options.out, (line + '\n' for line in recording.trace.lines()), mode)
    return report_written_trace(options, files, start_scan, run)


def report_written_trace(
    options: RecordOptions, files: LiveFiles, start_scan: Scan, run: RecordedRun
) -> int:
    """Does what report_recording() does, and returns its status. An error or a signal is only
    printed, as the trace is written already: the status is then TRACE_NOT_WHOLE, or that of the
    signal."""
    try:
        return report_recording(options, files, start_scan, run)
    except Stopped as stopped:
        print_text(f'stopped by {stopped}; {WRITTEN}')
        return stopped.status
    except Exception as error:
        print_error(error, options.out, WRITTEN)
    return TRACE_NOT_WHOLE


def print_error(error: Exception, out: str, outcome: str) -> None:
    """Prints a line on an error, with `outcome`: whether the trace is written to the path `out`. An
    OSError is printed as error_text(), of `out` if it names no file; any other error but Refused is
    an internal one."""
    if isinstance(error, OSError):
        print_text(f'{error_text(error, out)}; {outcome}')
    elif isinstance(error, Refused):
        print_text(f'{error}; {outcome}')
    else:
        print_own_fault(NAME, error, outcome)


def trace_settings(options: RecordOptions) -> TraceSettings:
    """The settings that the options give a trace. say_each is None without --say-each, and version
    unless --trace-version has a number."""
    return TraceSettings(
        acknowledging_descriptors=options.acknowledging_descriptors,
        say_each=SayEach(options.say_each) if options.say_each else None,
        profile=options.profile,
        block=options.block,
        version=options.version,
    )


def run_or_load_log(options: RecordOptions, files: LiveFiles) -> RecordedRun:
    """Runs COMMAND under strace, or loads the log of --from-log, and returns the run. If that log
    ends early, that is reported. It raises what run_under_strace() or load_log() does, and OSError
    if no temporary directory can be made."""
    numbers = options.acknowledging_descriptors.nonstandard_numbers
    line_filter = LogFilter(os.fsencode(files.conditions.top), numbers)
    if options.from_log is None:
        mapped_files = MappedFiles(options.directory, files.is_ignored) if options.mapped else None
        with Guard(NAME) as guard:
            return run_under_strace(options, guard, line_filter, mapped_files)
    run = RecordedRun(load_log(options.from_log, line_filter))
    if not run.log.is_whole:
        files.recording.report('the log ends before the program did', '/')
    return run


def report_recording(
    options: RecordOptions, files: LiveFiles, start_scan: Scan, run: RecordedRun
) -> int:
    """Compares the directory with the written trace, unless with --from-log, prints what the trace
    doesn't have, and then the summary. Returns the status. It raises what compare_directory() does,
    before it prints anything."""
    recording, comparison = files.recording, summary.DirectoryComparison()
    if options.from_log is None:
        comparison = summary.compare_directory(options, files, start_scan)
    failure = summary.failure_of_command(run.status, run.passed_signals)
    report = summary.final_report(recording, options, failure, comparison)
    for line in report.lines + report.notes + remarks_on_trace(options, recording):
        print_text(line)
    print_text(summary.summary_line(options, recording, comparison.result))
    return report.status


def remarks_on_trace(options: RecordOptions, recording: Recording) -> List[str]:
    """Lines that don't change the status: on a late start, on the reason for the newest version,
    and on operations for which --stacks found no function. Empty if none of these is there."""
    remarks = [LATE_START] if recording.has_late_start else []
    if recording.version_reason:
        remarks.append(NEW_VERSION % recording.version_reason)
    if options.stacks:
        remarks += summary.lines_on_missing_notes(recording.trace)
    return remarks


def print_text(text: str) -> None:
    """Prints a line on standard error, after the command's name, as print_line() does. Characters
    that would control the terminal are shown as escapes."""
    print_line(NAME, escape_unprintable(text))


def translate_run(options: RecordOptions, files: LiveFiles, run: RecordedRun) -> None:
    """Translates the log of a run into the recording's operations, and reports what the trace
    can't have, and the faults of the run. With stacks it prints the programs of which no source
    line is known. Refused if the log of --from-log has no operation in the directory but
    acknowledgements, also before a later start of the trace; LogError if a line isn't as strace
    writes it; OSError if addr2line can't be started."""
    recording = files.recording
    report_run_faults(options, recording, run)
    recording.streams.add_text_of_output(run.output_pipe)
    if options.stacks or any(call.frames for call in run.log.calls):
        note_functions(run.log.calls)
    translate_with_begin_after(options, files, run)
    for path in files_with_path(recording.trace, files.conditions.top):
        recording.report_note(OWN_PATH, path)
    if options.from_log is not None and not recording.change_count:
        # Most likely the directory had another path there.
        raise Refused(
            f'{options.from_log} changes nothing below {files.conditions.top}: '
            '--log-dir is the path that DIR had there'
        )


def translate_with_begin_after(options: RecordOptions, files: LiveFiles, run: RecordedRun) -> None:
    """Translates the calls of a run. With --begin-after the trace begins again after the line that
    this option names, or, if that never came, this is reported. LogError as in translate_log()."""
    translator = Translator(files, run.log, run.file_copies)
    if options.begin_after is None:
        translator.translate_log()
        return
    late_start = LateStart(files.recording, options.begin_after)
    files.recording.on_acknowledged = late_start.count_line
    translator.translate_log()
    if not files.recording.has_late_start:
        what = f'no acknowledged line is {options.begin_after}: the trace begins with COMMAND'
        files.recording.report(what, '--begin-after')


def note_functions(calls: List[Call]) -> None:
    """Sets each call's note to the functions that made the call, as far as they are known, and
    prints the programs of which no source line is known. OSError as in source_frames(), LogError as
    in stacks.note_calls()."""
    addresses = stacks.addresses_of_calls(calls)
    source_lines = source_frames(addresses)
    stacks.note_calls(calls, source_lines)
    for program in sorted({path for path, _ in addresses} - {path for path, _ in source_lines}):
        print_text(f'--stacks: no source line of {program} is known{stacks.addr2line_hint()}')


def report_run_faults(options: RecordOptions, recording: Recording, run: RecordedRun) -> None:
    """Reports the faults of a run: the first line of the log that is cut, why the log was not kept
    whole, and the processes of COMMAND that could not be ended."""
    if run.log.cut_line is not None:
        recording.report(
            f'line {run.log.cut_line} of the log is not a whole call, and is left out', '/'
        )
    if run.log_fault:
        recording.report(f'its log is cut: {run.log_fault}', options.keep_log or '')
    if run.still_running_text:
        text = f'a process that COMMAND left could not be ended: {run.still_running_text}'
        recording.report(text, '/')


def main(arguments: Optional[List[str]] = None) -> int:
    """Runs crashfs-record with these words, or (None) those of its command line, and returns its
    status, which --help explains. SystemExit for a wrong command line, --help and --version; any
    other exception is printed as a line. Standard streams that are closed are opened, and from then
    on signals that stop a command raise Stopped in this process."""
    prepare_standard_streams()
    options = read_options(sys.argv[1:] if arguments is None else arguments)
    raise_on_stop_signals()
    try:
        return record(options)
    except Stopped as stopped:
        print_text(f'stopped by {stopped}; nothing is written')
        return stopped.status
    except (Refused, LogError) as refused:
        print_text(f'{refused}')
    except Exception as error:
        print_error(error, options.out, NOT_WRITTEN)
    return NOTHING_WRITTEN
