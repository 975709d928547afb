"""COMMAND must find the tree at the session's end good, and the start tree: nothing is lost there,
so it is COMMAND that is wrong if it fails in one of them, or ends in neither."""

from __future__ import annotations

import os
from dataclasses import dataclass
from typing import List, Optional, Sequence

from crashfs_tools.checker.states.plan import PlannedTrace, State
from crashfs_tools.common.command import Refused, relative_path_arguments

from .results import Results
from .runner import BAD, Outcome
from .trials import Trials

END_TREE, START_TREE = "the tree at the session's end", 'the start tree'
LOSSLESS = 'where nothing is lost'
NO_END = 'does it wait for a lock or a port, print without end, or need a longer --timeout?'
REOPENED = 'or does the store itself lose something when it is opened again, without a crash?'


@dataclass
class FirstTrials:
    """Tries the tree at the session's end and the start tree. The trials must be of the session's
    first window, and the results of their plan. end_plan is the plan of a trace that has only the
    tree at the end, if the plan of the trials lacks that tree, as that of a window."""

    trials: Trials
    results: Results
    end_plan: Optional[PlannedTrace] = None

    def run(self) -> None:
        """Tries the two trees, first that at the end. Refused if COMMAND fails in one of them,
        or ends in neither; other exceptions as in try_prefix(). The results get the outcomes of
        states that are among those to try; the outcome of end_plan's state is dropped."""
        start, end = self.trials.plan.first_and_last_prefix
        if self.end_plan is None:
            outcome = self.try_prefix(end, END_TREE, next_numbers=[start.number])
        else:
            state = self.end_plan.plan.listed[0]
            outcome = Trials(self.trials.workplace, self.end_plan).try_state(state)
            self.refuse_if_bad(outcome, END_TREE, state, None)
        if self.try_prefix(start, START_TREE).has_no_end and outcome.has_no_end:
            first_line = f'{self.recovery_name} gives no answer, even {LOSSLESS}: {outcome.cause}'
            raise Refused('\n'.join([first_line, NO_END, *self.inspections(start.number)]))

    def try_prefix(self, state: State, tree_name: str, next_numbers: Sequence[int] = ()) -> Outcome:
        """The outcome of the tree of a prefix: that of the results, or else that of a run, which
        the results get if this shard must try the state. Refused, with tree_name, if it is BAD.
        next_numbers and other exceptions as in Trials.try_state() and Trials.wanted_numbers()."""
        number = self.results.tried_numbers[state.trial]
        outcome = self.results.outcomes.get(number)
        if outcome is None:
            tried_state = self.trials.plan.state(number)
            outcome = self.trials.try_state(tried_state, next_numbers=next_numbers)
        if number in self.trials.wanted_numbers(self.results):
            self.results.outcomes[number] = outcome
        self.refuse_if_bad(outcome, tree_name, state, number)
        return outcome

    @property
    def is_command(self) -> bool:
        """Whether a command is tried, not a function."""
        return self.trials.options.function is None

    @property
    def recovery_name(self) -> str:
        """What the texts call COMMAND, or the recovery function."""
        return self.trials.options.recovery_name

    def inspections(self, number: int) -> List[str]:
        """A line on how to inspect the state of a number; no line for a function."""
        return [f'inspect it with --state {number}'] if self.is_command else []

    def refuse_if_bad(
        self, outcome: Outcome, tree_name: str, state: State, number: Optional[int]
    ) -> None:
        """Refused if the outcome of a state is BAD: the first line of the text has the tree, the
        state and the cause; the hints on the cause follow. `number` is the state's for --state;
        None if --state doesn't make it, as a state of end_plan. Errors as in hints_on_cause()."""
        if outcome.result != BAD:
            return
        state_text = f'says {state.says}'
        hints = self.hints_on_cause(outcome.cause, tree_name)
        if number is not None:
            state_text = f'state {number}, {state_text}'
            hints += self.inspections(number)
        name = self.recovery_name
        first_line = f'{name} fails in {tree_name}, {LOSSLESS} ({state_text}): {outcome.cause}'
        raise Refused('\n'.join([first_line, *hints]))

    def hints_on_cause(self, cause: str, tree_name: str) -> List[str]:
        """One or more lines that ask what may be wrong with COMMAND, or with the recovery function,
        or else with the store, if that fails with this cause in one of the two trees. Errors as in
        hints_on_tree()."""
        if not self.is_command:
            question = 'does it expect more than the session did, or files of another place?'
            return [question, *self.hints_on_tree(tree_name)]
        relative_words = relative_path_arguments(self.trials.options.command)
        if relative_words:
            return [
                f'{word} is a relative path, but COMMAND runs in the directory of a state: '
                f'use {os.path.abspath(word)}'
                for word in relative_words
            ]
        # What shells and programs print, and a shell's status, if a program isn't found.
        if 'not found' in cause or 'No such file' in cause or cause == 'status 127':
            return ['does COMMAND run something that is neither on PATH nor an absolute path?']
        question = 'is COMMAND stricter than the session, or does it look for files elsewhere?'
        return [question, *self.hints_on_tree(tree_name)]

    def hints_on_tree(self, tree_name: str) -> List[str]:
        """The question REOPENED, if COMMAND fails at the session's end. Then a line that asks
        whether files of the start tree, which may be a mistake, are those of an earlier session; no
        line if it has none. Errors as in PlanTrees.of_state()."""
        hints = [REOPENED] if tree_name == END_TREE else []
        if self.trials.trees.of_state(self.trials.plan.first):
            hints.append('did the directory have files of an earlier session when it was recorded?')
        return hints
