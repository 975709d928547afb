"""A crash during recovery: in some states COMMAND is recorded, and a second run of it is tried in
each crash state of that recovery."""

from __future__ import annotations

import os
import subprocess
import sys
from typing import Iterator, List, Set, Tuple

from crashfs_tools.checker.running.results import Head, Results
from crashfs_tools.checker.running.runner import GOOD, Outcome
from crashfs_tools.checker.running.trials import Trials
from crashfs_tools.checker.states.plan import Offsets, State
from crashfs_tools.checker.states.planning import Planner
from crashfs_tools.common.command import (
    TEXT,
    TRACE_NOT_WHOLE,
    TRACE_NOTED,
    TRACE_WHOLE,
    Refused,
    code_to_run,
    ending_text,
    last_line,
    write_text,
)
from crashfs_tools.common.removal import remove_tree
from crashfs_tools.common.trace import WRITTEN_VERSION
from crashfs_tools.common.trace_fields import trace_version
from crashfs_tools.common.trace_lines import parse_trace_text, without_numbers, without_says
from crashfs_tools.common.trace_read import read_lines

from .details import rerun_examples
from .groups import Findings, Group, all_tried_states
from .second_crashes import Recovery

RECORD = code_to_run('recorder.main')
# Each line that the recorder prints begins with its name.
RECORDER = 'crashfs-record'
# A recorded command is slower than one that runs alone.
SLOWER = 10


class RecoveryRecorder:
    """Records COMMAND in a state by crashfs-record, in a trace without acknowledged lines: what
    COMMAND prints acknowledges nothing. The trials must be of a command, not of a function."""

    def __init__(self, trials: Trials) -> None:
        self.trials = trials
        self.guard = trials.guard

    def record_recovery(self, state: State) -> Trials:
        """Records COMMAND in the tree of a state, as run_recorder() does; returns the trials of
        what a crash of that run leaves, by the second reading if the program doesn't take the
        trace's version. Refused if COMMAND can't be recorded, or the trace is too long for one
        plan; ProgramFault if the program doesn't give the tree, PlanError if it prints no plan;
        OSError if the recorder can't be started, or a file can't be made or read. The folder of the
        trace stays until the guard ends, also after an exception: a second recording of one state
        is a FileExistsError."""
        folder = os.path.join(self.guard.directory, f'recovery-{state.number}')
        os.mkdir(folder)
        ((_, directory),) = self.trials.archive_layout(folder).states({state.number})
        trace = os.path.join(folder, f'recovery-{state.number}.trace')
        self.run_recorder(state, directory, trace)
        remove_tree(directory)
        text = remove_says(trace)
        program = self.trials.program.program_for_version(trace_version(text))
        planner = Planner(self.trials.options, program, self.guard)
        planned = planner.plan(trace, Offsets(says=state.says))
        return self.trials.with_plan(planned, program)

    def run_recorder(self, state: State, directory: str, trace: str) -> None:
        """Records COMMAND, by a process of the recorder, in a directory that has a state's tree,
        and writes the trace to a file, with what header_options() takes from the session's trace.
        COMMAND may fail; what it prints is dropped. The recorder may take SLOWER times as long as
        --timeout gives COMMAND. Refused if it takes longer, and is killed, or if it writes no
        trace; OSError if it can't be started, or the session's trace can't be read."""
        checker = self.trials.new_checker()
        options = ['--no-say', *header_options(self.trials.planned.trace)]
        recorder_words = [sys.executable, '-S', '-c', RECORD, *options, directory, trace, '--']
        environment = {
            **checker.environment,
            'CRASHFS_STATE': str(state.number),
            'CRASHFS_SAYS': str(state.says),
        }
        with open(checker.acknowledged_lines.write_file(state.says), 'rb') as acknowledged:
            try:
                ran = subprocess.run(
                    [*recorder_words, *self.trials.options.command],
                    stdin=acknowledged,
                    stdout=subprocess.DEVNULL,
                    stderr=subprocess.PIPE,
                    env=environment,
                    check=False,
                    timeout=SLOWER * checker.timeout,
                )
            except subprocess.TimeoutExpired as error:
                raise Refused('its recording took too long') from error
        if ran.returncode not in (TRACE_WHOLE, TRACE_NOTED, TRACE_NOT_WHOLE):
            raise Refused(recorder_fault(ran.returncode, ran.stderr.decode('utf-8', 'replace')))


class SecondCrashTrials:
    """Tries second crashes in the recoveries of up to `count` states, over all windows.
    recoveries_left is how many may still be tried, and seen_features has the features of the states
    that were chosen."""

    def __init__(self, count: int) -> None:
        self.recoveries_left = count
        self.seen_features: Set[Tuple[str, str]] = set()

    def try_recoveries(self, trials: Trials, findings: Findings) -> Iterator[Recovery]:
        """Chooses states of a window, records the recovery of each, and yields what second crashes
        of that recovery leave. A recovery that can't be recorded, or is too long, is yielded with
        its fault. Each lowers recoveries_left by one. Other exceptions as in record_recovery() and
        try_recovery()."""
        for state in self.choose_states(findings):
            self.recoveries_left -= 1
            try:
                recovery = RecoveryRecorder(trials).record_recovery(state)
            except Refused as fault:
                yield Recovery(state.number, fault=str(fault))
                continue
            yield self.try_recovery(recovery, state, findings.outcomes_by_state[state.number])

    def try_recovery(self, trials: Trials, state: State, first_outcome: Outcome) -> Recovery:
        """Tries the states of the recovery of a state, with the recovery's trials, and runs the
        examples of their groups again. If the first state wasn't good, as first_outcome says,
        failures with the same cause, except for numbers, are left out. Only tried states are
        counted: not all states are tried after a failure with --fail-fast, or if that would take
        too long. Exceptions as in Trials.try_all(); OSError also if the trace can't be read."""
        results = Results(trials.plan)
        trials.try_all(results)
        with open(trials.planned.trace, **TEXT) as file:
            head = Head('', '', [], lines=parse_trace_text(file.read()).operations)
        ignored = first_outcome if first_outcome.result != GOOD else None
        findings = Findings(head, results, {}, ignored)
        rerun_examples(trials, findings)
        groups = findings.groups
        return Recovery(
            state.number,
            len(results.outcomes),
            len(all_tried_states(groups)),
            groups,
            {group.example.number: crash_place(findings, group) for group in groups},
            unproved=trials.program.is_unproved,
        )

    def choose_states(self, findings: Findings) -> List[State]:
        """Up to recoveries_left of the states that were tried in a window, whatever their outcomes:
        first those of choose_by_features(), then some taken evenly from the others."""
        tried = [findings.plan.state(number) for number in sorted(findings.results.outcomes)]
        chosen = self.choose_by_features(findings, tried)
        others = [state for state in tried if state not in chosen]
        left_count = self.recoveries_left - len(chosen)
        if left_count > 0 and others:
            # The step is rounded up, so that no more than left_count are taken.
            chosen += others[:: -(-len(others) // left_count)]
        return chosen

    def choose_by_features(self, findings: Findings, states: List[State]) -> List[State]:
        """Up to recoveries_left of some states: one by one the state with the most features that
        aren't in seen_features, to which they are added; of several the one with the most
        acknowledged lines, then the first. Ends when no state has new features."""
        chosen: List[State] = []

        def rank(state: State) -> Tuple[int, int, int]:
            """More new features, then more lines, then a lower number rank higher."""
            new_features = features_of(findings, state) - self.seen_features
            return len(new_features), state.says, -state.number

        while states and len(chosen) < self.recoveries_left:
            best = max(states, key=rank)
            new_features = features_of(findings, best) - self.seen_features
            if not new_features:
                break
            self.seen_features |= new_features
            chosen.append(best)
        return chosen


def features_of(findings: Findings, state: State) -> Set[Tuple[str, str]]:
    """Two features of a tried state, each after its name: the cause, and the kind and path of the
    state's last micro-operation, both without numbers. The cause of a good state is an empty text,
    and so is the second feature of a state without micro-operations."""
    last = findings.plan.last_operation_of(state)
    operation = f'{last.kind} {without_numbers(last.path)}' if last else ''
    cause = findings.outcomes_by_state[state.number].cause_without_numbers
    return {('cause', cause), ('last', operation)}


def header_options(trace: str) -> List[str]:
    """The recorder's options for a trace with the profile and the block size of the trace in a
    file, and with its version if the recorder would write an older one, which has fewer profiles
    and other rules. TraceError if the file's first line is no header; OSError if the file can't be
    read."""
    with open(trace, **TEXT) as file:
        _, header = next(read_lines(file))
    options = ['--profile', header.profile, '--block', str(header.block)]
    if header.version > WRITTEN_VERSION:
        options += ['--trace-version', str(header.version)]
    return options


def remove_says(trace: str) -> str:
    """Removes the acknowledged lines from a trace's file, in place, and returns the new text of the
    trace. OSError if the file can't be read or written; other exceptions as in without_says()."""
    with open(trace, **TEXT) as file:
        text = without_says(file.read())
    write_text(trace, text)
    return text


def recorder_fault(status: int, printed: str) -> str:
    """Why the recorder wrote no trace: the text after its name in the last line of `printed`, its
    standard error. If that line has no text, or isn't the recorder's, the text is how the recorder
    ended, by its status as Popen has it. Never an empty text."""
    name, _, text = last_line(printed).partition(': ')
    return text if name == RECORDER and text else f'{RECORDER} {ending_text(status)}'


def crash_place(findings: Findings, group: Group) -> str:
    """Where the second crash of a group's example was, as text: at the line of the example's last
    micro-operation, or before the recovery changed anything. The findings must be of the recovery's
    own trace."""
    last = findings.plan.last_operation_of(group.example)
    if last is None:
        return 'before its recovery changed anything'
    return f'at line {last.line} of its recovery ({findings.head.lines[last.line].text})'
