"""The trace that is checked: its plans, window by window, and its lines. What few checks need is
imported where they need it."""

from __future__ import annotations

import os
import stat
from contextlib import contextmanager
from dataclasses import dataclass
from functools import cached_property
from typing import TYPE_CHECKING, Iterator, NamedTuple, Optional

from crashfs_tools.checker.running.progress import Progress
from crashfs_tools.checker.running.results import Head
from crashfs_tools.checker.running.runner import AcknowledgedLines
from crashfs_tools.checker.running.trials import Trials, Workplace
from crashfs_tools.checker.states.plan import Offsets, PlannedTrace
from crashfs_tools.checker.states.planning import Planner, TooLarge
from crashfs_tools.common.command import TEXT, Refused, write_text
from crashfs_tools.common.guard import Guard
from crashfs_tools.common.program import Crashfs, ProgramFault
from crashfs_tools.common.trace_fields import trace_version
from crashfs_tools.common.trace_lines import TraceText, parse_trace_text

from .options import Options

if TYPE_CHECKING:
    from crashfs_tools.checker.states.windows import Windows

# The number of the tree at the end of a session in windows, which is tried before it is known how
# many states the windows have: no session has so many. It is the largest that a C int has.
NUMBER_OF_END = 2**31 - 1


class TraceFile(NamedTuple):
    """A trace that was read: the absolute path of a file that has it, its text, and the mode of
    files which show parts of it."""

    path: str
    text: str
    mode: int


def read_trace_file(path: str, guard: Guard) -> TraceFile:
    """Reads a whole trace, but doesn't check its lines. A trace from a pipe is copied to a file in
    the guard's directory, since the program reads the trace several times. OSError if the trace
    can't be read or copied."""
    with open(path, **TEXT) as file:
        text = file.read()
        status = os.fstat(file.fileno())
    mode = mode_of_report(status)
    if stat.S_ISREG(status.st_mode):
        return TraceFile(os.path.abspath(path), text, mode)
    copy_path = os.path.join(guard.directory, 'trace')
    write_text(copy_path, text)
    return TraceFile(copy_path, text, mode)


@dataclass
class CheckedTrace:
    """A trace that is checked by one program, which must take traces of this version."""

    options: Options
    file: TraceFile
    program: Crashfs
    guard: Guard
    planner: Planner
    progress: Progress

    @staticmethod
    def read(
        options: Options, program: Crashfs, guard: Guard, progress: Optional[Progress] = None
    ) -> CheckedTrace:
        """Reads the trace that the options must name, and asks the program whether it takes traces
        of this version: if not, the second reading takes its place. Without `progress` none is
        shown. Exceptions as in read_trace_file() and
        Crashfs.program_for_version()."""
        assert options.trace is not None
        file = read_trace_file(options.trace, guard)
        program = program.program_for_version(trace_version(file.text))
        planner, progress = Planner(options, program, guard), progress or Progress(None)
        return CheckedTrace(options, file, program, guard, planner, progress)

    @cached_property
    def whole_plan(self) -> Optional[PlannedTrace]:
        """The plan of the whole trace. None if --window is given, or if the trace is too long for
        one plan: then it has windows. Refused for a trace with a fault, and for one that is too
        long with --serve or --disks; PlanError or ProgramFault if the program fails otherwise;
        OSError if a file can't be read or written."""
        if self.options.window is not None:
            return None
        try:
            return self.planner.plan(self.file.path)
        except TooLarge as fault:
            if self.options.serve is not None:
                raise Refused(f'{fault} (--serve has no windows)') from fault
            if self.options.disks is not None:
                raise Refused(f'{fault} (--disks has no windows)') from fault
        return None

    @cached_property
    def windows(self) -> Optional[Windows]:
        """The windows of a trace that has no whole_plan, else None. Errors as in whole_plan."""
        if self.whole_plan is not None:
            return None
        from crashfs_tools.checker.states.windows import windows_of

        return windows_of(self.planner, self.options, self.file.text)

    def all_planned(self) -> Iterator[PlannedTrace]:
        """Yields whole_plan or, for a trace in windows, the plan of each window, whose files are
        removed when the next plan is asked for. Call it once for a trace in windows. Errors as in
        whole_plan; OSError also if a file can't be removed."""
        if self.windows is not None:
            yield from self.windows.all_planned()
        elif self.whole_plan is not None:
            yield self.whole_plan

    @cached_property
    def lines(self) -> TraceText:
        """The trace's operations in words, and its acknowledged texts. Use them only after the
        program has accepted the trace: a fault in a line is a TraceError, KeyError or TypeError
        here."""
        return parse_trace_text(self.file.text)

    @cached_property
    def workplace(self) -> Workplace:
        """What the trials of all windows share: always the same object, so that all of them get a
        cache that is opened later. Use it only after the program has accepted the trace, as
        `lines`."""
        acknowledged_lines = AcknowledgedLines(self.lines.acknowledged, self.guard.directory)
        return Workplace(self.options, self.program, self.guard, acknowledged_lines, self.progress)

    def trials_with_state(self, number: int) -> Trials:
        """Plans window after window until one lists the state with this number, and returns the
        trials of that window, whose files stay. The state may be one that a check wouldn't try.
        Refused if no window lists the state; other errors as in all_planned()."""
        state_count = 0
        for planned in self.all_planned():
            if planned.plan.has_state(number):
                return Trials(self.workplace, planned)
            state_count += len(planned.plan.listed)
        raise no_such_state(number, state_count)

    def new_head(self) -> Head:
        """A new head of a report, which says what is checked. Its `lines` are empty: they can only
        be read after the program has accepted the trace."""
        return Head(
            os.path.basename(self.options.trace or ''),
            self.digest(),
            self.options.command,
            self.options.shard,
            unproved=self.program.is_unproved,
            refused_version=self.program.refused_version,
        )

    def digest(self) -> str:
        """The trace's SHA-256, in hexadecimal digits; an empty text unless --json, --resume or
        --merge is given, or keeps_all, which need the digest."""
        options = self.options
        if not (options.json or options.resume or options.merge or options.keeps_all):
            return ''
        import hashlib

        return hashlib.sha256(self.file.text.encode('utf-8', 'surrogateescape')).hexdigest()

    def plan_end(self) -> Optional[PlannedTrace]:
        """Plans the end of a session in windows: a trace that starts with the tree there and does
        nothing. Its only state is that tree with all acknowledged lines; the state's number is
        NUMBER_OF_END. None for a session in one plan, which has that tree. Errors as in whole_plan;
        OSError also if the trace can't be written."""
        if self.windows is None:
            return None
        path, line_count = self.windows.write_end(), len(self.lines.acknowledged)
        return self.planner.plan(path, Offsets(states=NUMBER_OF_END, says=line_count))

    @contextmanager
    def refused_faults(self) -> Iterator[None]:
        """Within this a ProgramFault, as of a state that can't be made, is raised as the Refused
        that Planner.make_refusal() makes of it. Other exceptions pass."""
        try:
            yield
        except ProgramFault as fault:
            raise self.planner.make_refusal('tar', fault) from fault


def refuse_unreadable(trace: str) -> None:
    """Refused unless a trace's path leads to a file that can be read, or to a pipe. A pipe isn't
    opened, because it can be read only once."""
    try:
        mode = os.stat(trace).st_mode
        if stat.S_ISREG(mode):
            with open(trace, 'rb'):
                return
        if not stat.S_ISFIFO(mode):
            raise Refused(f'{trace} is no file')
    except OSError as error:
        raise Refused(f'{trace}: {error.strerror}') from error


def mode_of_report(source: os.stat_result) -> int:
    """The mode of a file that shows parts of a source, such as the trace: its owner may read and
    write it, and others only if they may do so with the source."""
    return 0o600 | source.st_mode & 0o066


def no_such_state(number: int, state_count: int) -> Refused:
    """A new Refused for the number of a state that isn't among the state_count listed ones. It
    isn't raised yet."""
    return Refused(f'no such state: {number} (there are {state_count:,})')
