"""--state N: tries one state in a copy, and leaves another that nothing ran in."""

from __future__ import annotations

import os
import shlex
import tempfile
from typing import List, Tuple

from crashfs_tools.checker.findings.nested import RecoveryRecorder
from crashfs_tools.checker.running.progress import Progress
from crashfs_tools.checker.running.runner import BAD, GOOD, NO_ANSWER
from crashfs_tools.checker.running.trials import Trials
from crashfs_tools.checker.states.plan import State
from crashfs_tools.common.command import NONE_FAILS, NOT_ALL_TRIED, SOME_FAIL, write_text
from crashfs_tools.common.guard import Guard
from crashfs_tools.common.removal import remove_tree
from crashfs_tools.common.streams import flushed_output

from .checked_trace import no_such_state
from .checking import open_trace
from .options import Options

# The exit statuses for the results of a state.
STATUSES = {GOOD: NONE_FAILS, BAD: SOME_FAIL, NO_ANSWER: NOT_ALL_TRIED}


def show_state(options: Options, guard: Guard) -> int:
    """Tries and shows the state that --state, which must be given, names; for N/M it records the
    recovery of state N, and shows state M of that recovery. Returns the exit status. Refused if
    there is no such state; other exceptions as in open_trace(), CheckedTrace.all_planned(),
    record_recovery() and try_and_show(). Options for a whole check, such as --fail-fast or --cache,
    are ignored."""
    with open_trace(options, guard, Progress(None)) as trace:
        assert options.state is not None
        number, recovery_number = options.state
        trials = trace.trials_with_state(number)
        if recovery_number is None:
            return try_and_show(trials, number)
        recovery = RecoveryRecorder(trials).record_recovery(trials.plan.state(number))
        return try_and_show(recovery, recovery_number)


def try_and_show(trials: Trials, number: int) -> int:
    """Tries the state with a number, lays it out again in a directory that stays, and prints the
    outcome and how to run COMMAND there. Returns the exit status for the outcome. Refused if the
    plan has no such state; other errors as in Trials.try_state() and lay_out_for_user(). The
    directory stays also if the printing raises an OSError."""
    if not trials.plan.has_state(number):
        raise no_such_state(number, len(trials.plan.listed))
    state = trials.plan.state(number)
    outcome = trials.try_state(state)
    directory, acknowledged = lay_out_for_user(trials, state)
    with flushed_output():
        print(
            f'state {number}, {trials.plan.state_text(state)}, says {state.says}: '
            f'{outcome.result}{": " if outcome.cause else ""}{outcome.cause}'
        )
        print(how_to_try_text(state, trials.options.command, directory, acknowledged))
    return STATUSES[outcome.result]


def how_to_try_text(state: State, command: List[str], directory: str, acknowledged: str) -> str:
    """The lines that say where a state is laid out, and how to run COMMAND there from a shell:
    `acknowledged` is the path of a file with the state's acknowledged lines, its input."""
    return (
        f'It is laid out in {directory}. To try it there:\n'
        f'    cd {shlex.quote(directory)}\n'
        f'    CRASHFS_STATE={state.number} CRASHFS_SAYS={state.says} '
        f'{shlex.join(command)} < {shlex.quote(acknowledged)}'
    )


def lay_out_for_user(trials: Trials, state: State) -> Tuple[str, str]:
    """Lays a state out below a new temporary directory, which stays after the command. Returns the
    paths of the state's directory, which is no mount even with --serve, and of a file with its
    acknowledged lines. After an exception, such as an OSError or ProgramFault, nothing stays."""
    folder = os.path.abspath(tempfile.mkdtemp(prefix=f'crashfs-state-{state.number}-'))
    try:
        ((_, directory),) = trials.archive_layout(folder).states({state.number})
        acknowledged = os.path.join(folder, f'says-{state.says}')
        write_text(acknowledged, trials.acknowledged_lines.text(0, state.says))
        return directory, acknowledged
    except BaseException:
        remove_tree(folder)
        raise
