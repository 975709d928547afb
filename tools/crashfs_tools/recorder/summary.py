"""Makes what crashfs-record prints at its end: what the trace leaves out, and what it has."""

from __future__ import annotations

import os
from contextlib import suppress
from dataclasses import dataclass
from typing import Dict, List, Optional, Sequence, Tuple

from crashfs_tools.common.command import (
    TRACE_NOT_WHOLE,
    TRACE_NOTED,
    TRACE_WHOLE,
    ending_text,
    relative_path_arguments,
)
from crashfs_tools.common.entry import Entries
from crashfs_tools.common.limits import MICRO_OPERATIONS
from crashfs_tools.common.printable import count_text
from crashfs_tools.common.program import Crashfs, ProgramFault
from crashfs_tools.common.trace import Say, Trace
from crashfs_tools.common.whole_files import STANDARD_OUTPUT

from .comparison import (
    entries_by_program,
    entries_by_replay,
    lines_on_changed_attributes,
    lines_on_differences,
    lines_on_links,
    lines_on_new_notes,
    lines_on_new_omissions,
)
from .directory import Scan, scan_directory
from .live_files import LiveFiles
from .options import RecordOptions
from .output_streams import ERRORS, OutputStream
from .recording import Recording, Trouble

NOT_COMPARED = 'its last state was compared with nothing'
# What computed the last state.
BY_PROGRAM, BY_REPLAY = 'crashfs tar', "the recorder's replay"


@dataclass(frozen=True)
class DirectoryComparison:
    """What the comparison of the directory with the trace's last state gives: its result in words,
    and the `lines` and `notes` on differences for the FinalReport."""

    result: str = NOT_COMPARED
    lines: Sequence[str] = ()
    notes: Sequence[str] = ()


@dataclass(frozen=True)
class FinalReport:
    """What is printed before the summary: `lines` on what the trace lacks, on COMMAND's failure and
    on why a loss could stay hidden; `notes` on what changes no verdict on a crash state."""

    lines: List[str]
    notes: List[str]

    @property
    def status(self) -> int:
        """The exit status: TRACE_NOT_WHOLE if there are lines, TRACE_NOTED if there are only notes,
        TRACE_WHOLE if there is neither."""
        return TRACE_NOT_WHOLE if self.lines else TRACE_NOTED if self.notes else TRACE_WHOLE


def final_report(
    recording: Recording,
    options: RecordOptions,
    failure: Optional[str],
    comparison: DirectoryComparison,
) -> FinalReport:
    """The report on what the trace doesn't have; on COMMAND's failure, which is in words (None: it
    didn't fail), with the likely cause; without --no-say, on why a loss could stay hidden; and on
    the differences that a comparison found."""
    troubles = list(recording.troubles.values())
    lines = [f'not in the trace: {trouble}' for trouble in troubles if not trouble.is_note]
    notes = [f'not in the trace: {line}' for line in lines_on_notes(troubles)]
    if failure is not None:
        lines += ['COMMAND ' + failure, *relative_path_hints(options)]
    if not options.no_say:
        lines += acknowledgement_faults(recording)
    return FinalReport([*lines, *comparison.lines], [*notes, *comparison.notes])


def lines_on_missing_notes(trace: Trace) -> List[str]:
    """A line with the number of operations for which --stacks found no function, and which so have
    no note in the trace. Empty if each operation has one."""
    missing = len(trace.operations) - len(trace.notes)
    if not missing:
        return []
    return [
        f'--stacks: {count_text(missing, "operation")} without a note: no function of the program '
        'itself was found in the stack (with frame pointers strace finds more: compile with '
        '-fno-omit-frame-pointer, Rust with -C force-frame-pointers=yes)'
    ]


def relative_path_hints(options: RecordOptions) -> List[str]:
    """A line for each relative path in COMMAND's arguments at which there is a file or directory
    seen from this process's working directory, but none seen from the recorded directory, where
    COMMAND runs: that is a likely cause of its failure."""
    return [
        f'{word} is a relative path, but COMMAND runs in {options.directory}: use '
        f'{os.path.abspath(word)}'
        for word in relative_path_arguments(options.command)
        if not os.path.exists(os.path.join(options.directory, word))
    ]


def lines_on_notes(troubles: List[Trouble]) -> List[str]:
    """A line for each different `what` of the notes among the troubles: its first note, and how
    many more paths have such a note. Other troubles are left out."""
    notes_by_what: Dict[str, List[Trouble]] = {}
    for trouble in troubles:
        if trouble.is_note:
            notes_by_what.setdefault(trouble.what, []).append(trouble)
    return [
        str(notes[0])
        + (f', and of {count_text(len(notes) - 1, "path")} more' if len(notes) > 1 else '')
        for notes in notes_by_what.values()
    ]


def acknowledgement_faults(recording: Recording) -> List[str]:
    """Why a loss could stay hidden, as lines: no line was acknowledged; or all were in one write;
    or held_line_faults() of each stream. Only the first of these reasons is returned. Empty if
    there is none."""
    streams = list(recording.streams.all_streams())
    acknowledging = [stream for stream in streams if stream.is_acknowledged and stream.text_count]
    line_count = sum(stream.text_count for stream in acknowledging)
    write_count = sum(stream.write_count for stream in acknowledging)
    if line_count == 0:
        return [no_acknowledgement_text(streams)]
    if line_count > 1 and write_count == 1:
        return [
            f'all {line_count:,} acknowledged lines came in one write: is standard output flushed '
            'after each? (--no-say if that is intended)'
        ]
    return [line for stream in acknowledging for line in held_line_faults(stream)]


def no_acknowledgement_text(streams: List[OutputStream]) -> str:
    """A line that says that no line was acknowledged, and how many lines standard error has, if it
    is among these streams and has some."""
    error_count = sum(stream.text_count for stream in streams if stream.name == ERRORS)
    where = f', and {count_text(error_count, "line")} on standard error' if error_count else ''
    hint = ' (--say-fd 2 takes these)' if error_count else ''
    return (
        f'no line was acknowledged{where}: no loss can be seen{hint}; --no-say if that is intended'
    )


def held_line_faults(stream: OutputStream) -> List[str]:
    """A line if a text of the stream counts too late, as files were changed while it was
    incomplete: a last line without a line feed, or a line between whose writes files were changed
    at more than one place. One such place is usual: a program prints what it does, and then, in the
    same line, that it is done. Empty if there is no such text."""
    if stream.is_held:
        reason = 'its last text has no line feed, so it counts from the end'
    elif stream.most_gaps > 1:
        reason = 'one line is of several writes, and counts from the last'
    else:
        return []
    return [
        f'{stream.name}: {reason}, but files were changed after it began; --say-each write counts '
        'each write (--no-say if that is intended)'
    ]


def compare_directory(
    options: RecordOptions, files: LiveFiles, at_start: Scan
) -> DirectoryComparison:
    """Compares the directory, without what was ignored in the session, with the trace's last state;
    the result names the reader of that. If
    the directory can't be read, that is a line, and nothing is compared. Errors as
    read_last_state()."""
    recording = files.recording
    try:
        at_end = scan_directory(options.directory, files.is_ignored, options.version)
    except OSError as error:
        return DirectoryComparison(lines=[f'{error.filename}: {error.strerror}: {NOT_COMPARED}'])
    last_state, reader_name = read_last_state(options, recording)
    troubles = recording.troubles.values()
    reported = {trouble.where for trouble in troubles if not trouble.is_note}
    reported |= recording.differing_paths
    omitted = {path for path, _ in at_end.omissions}
    differences = (
        lines_on_differences(at_end, last_state, reported | omitted)
        + lines_on_new_omissions(at_start, at_end, reported)
        + lines_on_links(at_end, recording.tree, reported)
    )
    known_paths = {trouble.where for trouble in troubles}
    notes = lines_on_changed_attributes(at_start, at_end, known_paths)
    notes += lines_on_new_notes(at_start, at_end, known_paths)
    verdict = 'differs from' if differences else 'equals'
    exception = ', except for what is reported' if reported and not differences else ''
    result = f'its last state {verdict} the directory{exception} (by {reader_name})'
    return DirectoryComparison(result, differences, notes)


def read_last_state(options: RecordOptions, recording: Recording) -> Tuple[Entries, str]:
    """The entries of the trace's last state, without the root, and the name of what computed them:
    program_for_last_state(), if it takes OUT; else a replay, of the trace in memory if OUT is no
    plain file. OSError if OUT can't be read; other errors as in program_for_last_state() and
    entries_by_replay()."""
    if options.out == STANDARD_OUTPUT or not os.path.isfile(options.out):
        return entries_by_replay(recording.trace.lines()), BY_REPLAY
    program = program_for_last_state(options, recording)
    if program is not None:
        # If the program refuses OUT, a replay shows the last state.
        with suppress(ProgramFault):
            return entries_by_program(program, options.out), BY_PROGRAM
    with open(options.out, encoding='utf-8', newline='\n') as lines:
        return entries_by_replay(lines), BY_REPLAY


def program_for_last_state(options: RecordOptions, recording: Recording) -> Optional[Crashfs]:
    """The program that computes the trace's last state. None if there is no program for the trace's
    version, if it isn't proved, or if the trace is longer than a plan: a check then uses windows.
    Refused if --crashfs names no program; OSError as in Crashfs.program_for_version()."""
    if recording.tree.micro_operations > MICRO_OPERATIONS:
        return None
    found = Crashfs.find(options.crashfs)
    program = None if found is None else found.program_for_version(recording.trace.version)
    return None if program is None or program.is_unproved else program


def summary_line(options: RecordOptions, recording: Recording, comparison: str) -> str:
    """The last line that is printed: what the trace has, and the result of the comparison, which is
    given in words."""
    trace = recording.trace
    counts = [
        count_text(len(trace.start), 'start line'),
        count_text(len(trace.operations), 'operation'),
        count_text(recording.tree.micro_operations, 'micro-operation'),
        acknowledged_text(recording),
    ]
    return f'{options.out}: {", ".join(counts)}; {comparison}'


def acknowledged_text(recording: Recording) -> str:
    """How many acknowledged lines the trace has, in words, and, in brackets, which streams
    acknowledged some, perhaps before a later start of the trace."""
    line_count = sum(isinstance(operation, Say) for operation in recording.trace.operations)
    names = dict.fromkeys(
        stream.name
        for stream in recording.streams.all_streams()
        if stream.is_acknowledged and stream.text_count
    )
    return count_text(line_count, 'acknowledged line') + (f' ({", ".join(names)})' if names else '')


def failure_of_command(status: int, passed_signals: Tuple[int, ...]) -> Optional[str]:
    """How COMMAND failed, in words, by its status as Popen has it; None if it didn't fail. An end
    by a signal that was passed to it is no failure: its status is the negative number of the
    signal, or, if COMMAND is a shell whose child ended so, 128 and the number."""
    ends_by_signals = [-number for number in passed_signals]
    ends_of_shells = [128 + number for number in passed_signals]
    has_failed = status not in [0, *ends_by_signals, *ends_of_shells]
    return ending_text(status) if has_failed else None
