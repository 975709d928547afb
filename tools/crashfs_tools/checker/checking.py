"""A whole check: the windows of the session one after the other, and what is found in each. What
few checks need is imported where they need it."""

from __future__ import annotations

import os
from contextlib import contextmanager
from dataclasses import replace
from functools import cached_property
from typing import TYPE_CHECKING, Callable, Iterator, List, NamedTuple, Optional

from crashfs_tools.checker.findings.accepted_failures import AcceptedFailures
from crashfs_tools.checker.findings.groups import Findings
from crashfs_tools.checker.report.report import CheckReport
from crashfs_tools.checker.running.first_trials import FirstTrials
from crashfs_tools.checker.running.progress import Progress
from crashfs_tools.checker.running.recoveries import FunctionRecovery
from crashfs_tools.checker.running.results import AllResults, Head, Results
from crashfs_tools.checker.running.runner import do_nothing
from crashfs_tools.checker.running.total_loss import total_loss_question
from crashfs_tools.checker.running.trials import Trials
from crashfs_tools.checker.states.plan import equal_states_before
from crashfs_tools.common.command import Refused, print_line, with_program_path
from crashfs_tools.common.guard import Guard
from crashfs_tools.common.program import Crashfs
from crashfs_tools.common.signals import Stopped, TimeUp, time_limit
from crashfs_tools.common.whole_files import STANDARD_OUTPUT, write_whole_file

from .checked_trace import CheckedTrace, refuse_unreadable
from .options import NAME, Options

if TYPE_CHECKING:
    from crashfs_tools.checker.findings.nested import SecondCrashTrials

FIRST_FAILURE, TIME_LIMIT, FAULT = 'the first failure', 'the time limit', 'a fault'
SAVE_SECONDS = 60.0
# For so long examples are run again after the time limit.
RERUN_SECONDS = 10.0
OTHER_CHECK = '--resume: that is a report of another check'


class Interrupted(Exception):
    """An exception, its cause, ended a check after states were tried: the report has these."""


class CheckResult(NamedTuple):
    """The report, the mode of a file of it, and the exception to raise after it is printed: a
    Stopped, an Interrupted, or None if neither ended the check."""

    report: CheckReport
    mode: int
    exception: Optional[Exception] = None


class Window(NamedTuple):
    """A window of a session, or the whole session: where its states are tried, the findings, and
    whether each state that was chosen has an outcome."""

    trials: Trials
    findings: Findings
    is_whole: bool


class Check:
    """A check of one trace. run() goes through its windows: last_window is the latest one whose
    states were tried, None before the first, and has_tried_all says whether all states of the
    session's last window were tried, and its examples again."""

    def __init__(
        self, trace: CheckedTrace, report: CheckReport, earlier_results: Optional[AllResults]
    ) -> None:
        """The report, which must be new, gets what is found; earlier_results are those of --resume,
        None without them. Nothing is tried yet."""
        self.trace = trace
        self.options = trace.options
        self.report = report
        self.head = report.head
        self.earlier_results = earlier_results
        # The states of a shard or a server are too few to find losses and advice from them.
        self.is_of_shard_or_server = report.head.shard.parts > 1 or trace.options.serve is not None
        self.last_window: Optional[Window] = None
        self.has_tried_all = False
        # What ended the check early, also if all states had been tried.
        self.end_cause = ''

    def run(self) -> CheckResult:
        """Checks window after window, and returns the report, also if the check ends early. Then
        the result has a Stopped after a signal, an Interrupted with its cause after a fault, and no
        exception after --fail-fast or the time limit. A fault before the first window's states are
        tried is raised; so is a KeyboardInterrupt or SystemExit at any time. Call it once; with a
        time limit, in the main thread."""
        exception: Optional[Exception] = None
        try:
            with time_limit(self.options.time_limit):
                self.check_windows()
        except TimeUp:
            self.note_end(TIME_LIMIT)
        except Stopped as stopped:
            exception = stopped
            self.note_end(str(stopped))
        except Exception as fault:
            # After any fault the report has what was tried.
            if self.last_window is None:
                raise
            exception = interrupted_by(fault)
            self.note_end(FAULT)
        try:
            self.complete_report()
        except Stopped as stopped:
            exception = stopped
        except Exception as fault:
            exception = exception or interrupted_by(fault)
        return CheckResult(self.report, self.trace.file.mode, exception)

    def note_end(self, cause: str) -> None:
        """Notes the cause that ended the check early. Of several causes the first one stays."""
        self.end_cause = self.end_cause or cause

    def complete_report(self) -> None:
        """Adds to the report what is only known at the end: what stopped the check, unless all
        states were tried, what wasn't tried and why, and how many outcomes came from the cache.
        After the time limit it also runs the last window's examples again; no run begins after
        RERUN_SECONDS. Saves the cache, also if these runs raise an exception."""
        window = self.last_window
        self.head.stopped = '' if self.has_tried_all else self.end_cause
        self.head.has_rest = window is not None and not window.trials.planned.is_last
        if window is not None and self.trace.windows is not None:
            self.head.cut_off = self.trace.windows.cut_off
        self.report.not_done = list(self.options_not_done())
        try:
            if self.head.stopped == TIME_LIMIT and window is not None:
                self.report_reruns(window, RERUN_SECONDS)
        finally:
            self.save_cache()

    def options_not_done(self) -> Iterator[str]:
        """Yields a line for --nested if the check ended early with recoveries left to try, and one
        for --disks if nothing was tried on disks. Each has the reason: what ended the check or, for
        --disks, that only a part of the states is tried. No line for an option that isn't given."""
        why = f'stopped by {self.end_cause}' if self.end_cause else 'only a part of the states is'
        if self.options.nested and self.end_cause and self.second_crashes.recoveries_left:
            count = self.second_crashes.recoveries_left
            yield f'--nested: {count:,} of {self.options.nested:,} not tried ({why})'
        if self.options.disks is not None and self.report.sightings is None:
            yield f'--disks: not tried ({why})'

    def check_windows(self) -> None:
        """Checks window after window: tries its states, finds smallest losses, runs examples again,
        and adds details. With --fail-fast a state that fails or gives no answer ends the check
        before the details of its window, unless all states of the session were tried; such a state
        of a second crash ends it after its recovery. Any other early end is an exception."""
        for planned in self.trace.all_planned():
            trials = Trials(self.trace.workplace, planned, loads_all_trees=True)
            window = self.try_window(trials)
            self.report_losses(window)
            self.report_reruns(window)
            self.has_tried_all = planned.is_last and window.is_whole
            may_end_early = self.options.fail_fast and not self.has_tried_all
            if not window.is_whole or (may_end_early and window.findings.groups):
                self.note_end(FIRST_FAILURE)
                return
            self.report_details(window)
            if self.end_cause:
                return

    def try_window(self, trials: Trials) -> Window:
        """Tries the states of a window, and returns the window. Sets last_window, and adds the
        findings to the report, also after an exception of the trials, as in Trials.try_all().
        Before the trials it is Refused if --resume has another window here; for the first window
        other errors as in prepare_first_window()."""
        previous, planned = self.last_window, trials.planned
        numbers_before = equal_states_before(previous.trials.plan, planned.plan) if previous else {}
        results = Results(planned.plan, numbers_before=numbers_before)
        if self.earlier_results is not None:
            self.add_earlier_outcomes(results, self.earlier_results.windows)
        if previous is None:
            self.prepare_first_window(trials, results)
        is_whole = False
        try:
            save = self.make_saver(results, has_rest=not planned.is_last)
            is_whole = trials.try_all(results, save)
        finally:
            previous_outcomes = previous.findings.outcomes_by_state if previous else {}
            window = Window(trials, Findings(self.head, results, previous_outcomes), is_whole)
            self.last_window = window
            self.report.add(window.findings)
        return window

    def prepare_first_window(self, trials: Trials, results: Results) -> None:
        """Sets the lines of the head, opens the cache of --cache, and tries the tree at the
        session's end and the start tree, whose outcomes the results get. Refused as open_cache(),
        and if COMMAND fails in one of these trees; other errors as in FirstTrials.run()."""
        self.head.lines = self.trace.lines.operations
        if self.options.cache is not None:
            self.open_cache(self.options.cache, trials)
        FirstTrials(trials, results, self.trace.plan_end()).run()

    def open_cache(self, path: str, trials: Trials) -> None:
        """Opens the cache in the directory at this path for the trials of all windows, and makes
        the directory if it isn't there. If it isn't known which files COMMAND opens, or one of them
        has changed, runs COMMAND under strace in the first and the last prefix. Refused if the
        directory can't be used, or COMMAND can't be traced; OSError if the list of files can't be
        written."""
        from crashfs_tools.checker.running.cache import OutcomeCache, require_folder
        from crashfs_tools.checker.running.command_files import command_name

        require_folder(path)
        numbers = [state.number for state in trials.plan.first_and_last_prefix]
        name = command_name(path, self.options.command, numbers, trials.run_words)
        trials.workplace.cache = OutcomeCache(path, name)

    def save_cache(self) -> None:
        """Writes the outcomes for later checks, and counts in the report those that came from
        earlier ones. Does nothing without --cache, or if no window was tried. An OSError of the
        write is printed as a line: later checks are only slower."""
        cache = self.trace.workplace.cache if self.last_window is not None else None
        if cache is not None:
            self.report.cache_hits = cache.hits
            try:
                cache.save()
            except OSError as error:
                print_line(NAME, f'--cache {error.filename}: {error.strerror}')

    def add_earlier_outcomes(self, results: Results, earlier_windows: List[Results]) -> None:
        """Adds to the results of the window that is tried next its outcomes in an earlier check
        with these windows; nothing if that check ended before this window. Refused if the window
        had another plan there: then it was a check of something else."""
        place = self.report.counts.windows
        if place < len(earlier_windows):
            if earlier_windows[place].identity() != results.identity():
                raise Refused(OTHER_CHECK)
            results.take_earlier_results(earlier_windows[place])

    def make_saver(self, results: Results, *, has_rest: bool) -> Callable[[], None]:
        """Returns a function to call after each state of a window; has_rest says whether the
        session goes on after the window. Every SAVE_SECONDS that function writes what is known to
        the file of --json, so that a kill loses only what came later; an OSError is ignored. It
        does nothing without --json, or if the file is standard output."""
        path = self.options.json or STANDARD_OUTPUT
        if path == STANDARD_OUTPUT:
            return do_nothing
        from crashfs_tools.checker.report.json_report import partial_pieces
        from crashfs_tools.checker.running.saving import Saver

        def save() -> None:
            """Writes the file of --json as it is if the check is killed now."""
            pieces = partial_pieces(self.report, results, has_rest=has_rest)
            write_whole_file(path, pieces, self.trace.file.mode)

        return Saver(save, SAVE_SECONDS).save_if_due

    def report_losses(self, window: Window) -> None:
        """Finds the smallest losses of failing states whose pair is a guess, and makes the groups
        of the report again with these losses. Does nothing for a shard or a server. After an
        exception the report has the groups from before."""
        findings = window.findings
        has_guess = any(group.pair.is_guess for group in findings.groups)
        if self.is_of_shard_or_server or not has_guess:
            return
        from crashfs_tools.checker.findings.losses import find_losses

        find_losses(window.trials, self.trace.planner, findings)
        self.report.replace_last_window(findings)

    def report_reruns(self, window: Window, seconds: float = float('inf')) -> None:
        """Runs the example of each of the largest groups of a window again, one at a time, and adds
        the outcomes to the report. After so many seconds no further run begins. After an exception
        none of the outcomes is in the report."""
        if window.findings.groups:
            from crashfs_tools.checker.findings.details import rerun_examples

            rerun_examples(window.trials, window.findings, seconds)
            self.report.replace_last_window(window.findings)

    def report_details(self, window: Window) -> None:
        """Adds to the report what is found after a window's states: how files differ, what the
        advice changes, or if COMMAND passes where all is lost, second crashes, and what disks
        leave. Does nothing for a shard or a server. Disks are left out if second crashes ended the
        check. What was added before an exception stays."""
        if self.is_of_shard_or_server:
            return
        trials, findings = window.trials, window.findings
        if findings.groups:
            from crashfs_tools.checker.findings.details import add_details

            add_details(trials, self.trace.planner.planner_of_copies(trials.plan), findings)
            self.report.replace_last_window(findings)
        elif self.report.counts.windows == 1:
            self.report.total_loss_question = total_loss_question(trials)
        if self.options.nested:
            self.report_recoveries(window)
        if self.options.disks is not None and not self.end_cause:
            from crashfs_tools.checker.findings.disk_search import search_disks

            self.report.sightings = search_disks(trials, findings.outcomes_by_state)

    def report_recoveries(self, window: Window) -> None:
        """Adds to the report the recoveries in a window's states, each with the states of its
        second crashes. With --fail-fast the first recovery with a state that fails or gives no
        answer is the last one, and ends the check."""
        for recovery in self.second_crashes.try_recoveries(window.trials, window.findings):
            self.report.recoveries.append(recovery)
            if self.options.fail_fast and recovery.failing_count:
                self.note_end(FIRST_FAILURE)
                return

    @cached_property
    def second_crashes(self) -> SecondCrashTrials:
        """The object that tries recoveries: one for all windows, since it counts how many are left
        to try."""
        from crashfs_tools.checker.findings.nested import SecondCrashTrials

        return SecondCrashTrials(self.options.nested)


def new_check(trace: CheckedTrace) -> Check:
    """A check of a trace that isn't begun. Reads the files of --accept and --resume, if they are
    given. Refused as new_report() and read_earlier_results()."""
    report = new_report(trace.new_head(), trace.options)
    return Check(trace, report, read_earlier_results(trace.options.resume, report.head))


def read_earlier_results(path: Optional[str], head: Head) -> Optional[AllResults]:
    """The results in the file of --resume, without those of second crashes and disks; None without
    that option, or if there is no such file yet. Refused if the file can't be read, or isn't the
    report of a check of the same trace, COMMAND and shard as in `head`."""
    if path is None or not os.path.exists(path):
        return None
    from crashfs_tools.checker.running.read_results import read_json

    earlier = read_json(path)
    if earlier.head.identity() != head.identity():
        raise Refused(OTHER_CHECK)
    return earlier


def interrupted_by(fault: Exception) -> Interrupted:
    """A new Interrupted whose cause is this fault. It isn't raised yet."""
    interrupted = Interrupted()
    interrupted.__cause__ = fault
    return interrupted


def new_report(head: Head, options: Options) -> CheckReport:
    """A report without findings, with the failures of --accept if it is given. It keeps what --json
    and --html need if the options have them, and all with keeps_all. Refused if the file of
    --accept can't be read, or isn't a list of accepted failures."""
    return CheckReport(
        head,
        has_json=options.keeps_all or options.json is not None,
        has_page=options.keeps_all or options.html is not None,
        has_states=options.keeps_all,
        accept_list=AcceptedFailures.read(options.accept) if options.accept else None,
    )


@contextmanager
def open_trace(options: Options, guard: Guard, progress: Progress) -> Iterator[CheckedTrace]:
    """Yields the trace that some options name, ready for a check. Its own options have a `command`
    with the absolute path of the program, or with the name of the function. Refused if the trace,
    the program, COMMAND or a file system of --disks can't be used, and in the place of a
    ProgramFault that is raised within the `with`. OSError as CheckedTrace.read()."""
    refuse_unreadable(options.trace or '')
    if options.disks is not None:
        from crashfs_tools.disks.filesystems import require_filesystems

        require_filesystems(options.disks)
    program = Crashfs.find_or_second_reading(options.crashfs, is_unproved=options.unproved)
    if options.function is None:
        command = with_program_path(options.command)
    else:
        command = [FunctionRecovery(options.function).name]
    trace = CheckedTrace.read(replace(options, command=command), program, guard, progress)
    with trace.refused_faults():
        yield trace


def check_trace(options: Options, guard: Guard, progress: Progress) -> CheckResult:
    """Checks the trace that some options name. Returns or raises what Check.run() does; raises too
    what open_trace() and new_check() do. `progress` shows how far the check is."""
    with open_trace(options, guard, progress) as trace:
        return new_check(trace).run()
