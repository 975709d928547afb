"""Tries the states of a plan: runs COMMAND in each, keeps the outcomes, and stops when it must.
What few checks need is imported where they need it."""

from __future__ import annotations

from dataclasses import dataclass, field, replace
from functools import cached_property
from itertools import product
from typing import (
    TYPE_CHECKING,
    Callable,
    Dict,
    Iterable,
    List,
    Optional,
    Sequence,
    Set,
    Tuple,
)

from crashfs_tools.checker.address import Address
from crashfs_tools.checker.options import Options
from crashfs_tools.checker.states.layout import ArchiveLayout, Layout
from crashfs_tools.checker.states.plan import PlannedTrace, SetProfiles, State
from crashfs_tools.checker.states.plan_trees import PlanTrees
from crashfs_tools.common.command import TEXT, Refused
from crashfs_tools.common.guard import Guard
from crashfs_tools.common.limits import RUNS
from crashfs_tools.common.program import Crashfs
from crashfs_tools.common.trace_fields import root_owner

from .pace import Pace, TooSlow
from .progress import Progress
from .recoveries import CommandRecovery, FunctionRecovery, StateRecovery
from .results import Results
from .runner import BAD, AcknowledgedLines, Checker, Outcome, do_nothing, refuse_left_processes
from .batches import states_in_batches
from .workers import OnOutcome, StateWorkers

if TYPE_CHECKING:
    from .cache import OutcomeCache, StateKeys

# A state may be tried so often: once, and the example of an entry twice more.
ATTEMPTS = 3


@dataclass
class Workplace:
    """What all trials of a check share: its options, the program, the place for its files, the
    acknowledged lines, what shows the progress, and the outcomes of earlier checks, if there is a
    cache. left_processes has those of COMMAND that could not be ended: while there are any, nothing
    more is run."""

    options: Options
    program: Crashfs
    guard: Guard
    acknowledged_lines: AcknowledgedLines
    progress: Progress
    cache: Optional[OutcomeCache] = None
    left_processes: Dict[int, str] = field(default_factory=dict)


class Trials:
    """Tries the states of one plan, whose trees `trees` reads. With loads_all_trees these load all
    trees of a small plan at once, which pays for trials that need most of them."""

    def __init__(
        self, workplace: Workplace, planned: PlannedTrace, *, loads_all_trees: bool = False
    ) -> None:
        """Nothing is read or started here, only when it is needed."""
        self.workplace = workplace
        self.options = workplace.options
        self.program = workplace.program
        self.guard = workplace.guard
        self.acknowledged_lines = workplace.acknowledged_lines
        self.planned = planned
        self.plan = planned.plan
        self.trees = PlanTrees(self.program, planned, self.guard, loads_all=loads_all_trees)
        # That of the last call of try_states().
        self.pace = Pace(0, float('inf'))

    def with_plan(self, planned: PlannedTrace, program: Crashfs) -> Trials:
        """Trials of another plan, such as that of a recovery, with the same COMMAND and workplace,
        but with trees that another program makes. They load all trees at once."""
        return Trials(replace(self.workplace, program=program), planned, loads_all_trees=True)

    def with_states(self, listed: List[State]) -> Trials:
        """Trials of a plan that lists only these states, whose numbers must follow the first one of
        this plan, with the trees that they have in this one."""
        plan = self.plan.with_states(listed, None, SetProfiles())
        trials = Trials(self.workplace, replace(self.planned, plan=plan))
        trials.trees = self.trees
        return trials

    def new_checker(self) -> Checker:
        """A checker for COMMAND, or for the function in its place, with the environment that this
        process has now. Its `life` is None: StateWorkers sets it in each process."""
        recovery: StateRecovery = CommandRecovery(self.options.command)
        if self.options.function is not None:
            recovery = FunctionRecovery(self.options.function)
        return Checker(
            recovery, self.options.timeout, self.guard.environment, self.acknowledged_lines
        )

    def archive_layout(self, folder: str) -> ArchiveLayout:
        """A layout that makes states below a folder, each in a directory of its own, from the
        loaded trees if these are enough. Errors as in PlanTrees.loaded."""
        environment, loaded = self.guard.environment, self.trees.loaded
        return ArchiveLayout(self.program, self.planned, folder, environment, loaded)

    def new_layout(self, *, is_for_many: bool = False) -> Layout:
        """A new layout, below the guard's directory or, with --serve, that of server_layout(). If
        is_for_many is set, it may be one that changes a large tree from state to state, which is
        slow to begin. Refused as server_layout(); ProgramFault if the program fails, OSError if the
        trace can't be read."""
        if self.options.serve is not None:
            return self.server_layout(self.options.serve)
        if is_for_many and self.trees.are_large and self.program.has_tar_changes:
            from crashfs_tools.checker.states.kept_layout import KeptLayout

            return KeptLayout(
                self.program, self.planned, self.guard.directory, self.guard.environment
            )
        return self.archive_layout(self.guard.directory)

    def server_layout(self, address: Address) -> Layout:
        """A layout that mounts states from a server, as the user of --uname or, without it, the
        owner of the root. Refused if the user's name has a comma, or if the host isn't known;
        OSError if the trace, which has the owner, can't be read."""
        from crashfs_tools.checker.states.mounts import Mounts

        with open(self.planned.trace, **TEXT) as file:
            uname = self.options.uname or root_owner(file)
        return Mounts(address, uname, self.guard.directory, self.guard.environment)

    def try_state(
        self, state: State, attempt: int = 0, next_numbers: Iterable[int] = ()
    ) -> Outcome:
        """The outcome of a state, by a run of COMMAND or from the cache. `attempt`, a number below
        ATTEMPTS, says which of the state's outcomes in the cache it is. next_numbers are those of
        the states whose trees are needed next, see PlanTrees.load(). Exceptions as there and in
        pass_cached_outcomes(), new_layout() and run_workers()."""
        number = state.number
        outcomes: Dict[int, Outcome] = {}
        if self.pass_cached_outcomes({number}, outcomes.__setitem__, attempt):
            if self.options.serve is None:
                self.trees.load([number], next_numbers)
            self.run_workers(self.new_layout(), {number}, outcomes.__setitem__, attempt)
        return outcomes[number]

    def run_words(self, words: List[str], number: int) -> Tuple[Outcome, str]:
        """Runs other words than COMMAND in the state of a number, started by this process and never
        from the cache. Returns their outcome and the path of the state's directory, which is gone
        by then. Refused if they can't be started, LeftRunning if they leave a process that can't be
        ended; ProgramFault or OSError if the state can't be laid out."""
        checker = replace(self.new_checker(), recovery=CommandRecovery(words))
        layout = self.new_layout()
        ((own_number, directory),) = layout.states({number})
        with layout.laid_out(own_number, directory):
            outcome = checker.run(own_number, self.plan.state(own_number).says, directory)
        refuse_left_processes(checker.left_processes)
        return outcome, directory

    def try_states(
        self,
        batches: Sequence[Set[int]],
        on_outcome: OnOutcome,
        most_seconds: float = float('inf'),
    ) -> None:
        """Tries the states of some batches, one batch after the other, shows the progress, and
        calls on_outcome with each number and outcome. With --fail-fast the first failure ends its
        batch, and no other one is begun. TooSlow if all would take longer than most_seconds; other
        exceptions as in pass_cached_outcomes(), new_layout() and run_workers(). After any of them
        on_outcome was called for all outcomes found before."""
        progress, name = self.workplace.progress, self.planned.window_text()
        self.pace = pace = Pace(sum(map(len, batches)), most_seconds)

        def report_outcome(number: int, outcome: Outcome) -> None:
            """Passes an outcome to on_outcome, then counts and shows it; not after an exception."""
            on_outcome(number, outcome)
            pace.count_outcome(outcome)
            progress.show_pace(name, pace)

        layout: Optional[Layout] = None
        try:
            for batch in batches:
                uncached = self.pass_cached_outcomes(batch, report_outcome)
                if uncached:
                    # One for all batches: the program may be started for it.
                    layout = layout or self.new_layout(is_for_many=True)
                    self.run_workers(layout, uncached, report_outcome)
                if self.is_ended_by_failure:
                    break
        finally:
            progress.end_part(pace)

    @property
    def is_ended_by_failure(self) -> bool:
        """Whether --fail-fast is given, and a state has failed of those that the last call of
        try_states() was for."""
        return self.options.fail_fast and self.pace.failed_count > 0

    @cached_property
    def state_keys(self) -> StateKeys:
        """The keys by which the cache has the outcomes of this plan's states."""
        from .cache import StateKeys

        return StateKeys(self.planned.trace, self.plan, self.acknowledged_lines.texts)

    def pass_cached_outcomes(
        self, wanted: Set[int], on_outcome: OnOutcome, attempt: int = 0
    ) -> Set[int]:
        """Gives on_outcome those outcomes of an attempt in the wanted states that the cache has,
        ascending, and returns the numbers of the states that must be run: those that it lacks; all
        without a cache, none after a failure with --fail-fast. ReadingFault if the second reading
        refuses the trace, OSError if the trace is gone, or what on_outcome raises."""
        cache = self.workplace.cache
        if cache is None:
            return wanted
        uncached = set()
        for number in sorted(wanted):
            outcome = cache.look_up(self.state_keys.key(number, attempt))
            if outcome is None:
                uncached.add(number)
                continue
            on_outcome(number, outcome)
            if self.options.fail_fast and outcome.result == BAD:
                return set()
        return uncached

    def drop_from_cache(self, numbers: Iterable[int]) -> None:
        """Drops the outcomes of all attempts in the states of these numbers from the cache, if
        there is one: the next check must run COMMAND there."""
        if self.workplace.cache is not None:
            for number, attempt in product(numbers, range(ATTEMPTS)):
                self.workplace.cache.drop(self.state_keys.key(number, attempt))

    def run_workers(
        self, layout: Layout, wanted: Set[int], on_outcome: OnOutcome, attempt: int = 0
    ) -> None:
        """Runs COMMAND in some states, in processes that end with this one. Adds each outcome to
        the cache, if there is one, as that of the attempt, and gives it to on_outcome. With
        --fail-fast the first failure ends the processes. A fault of a process is raised, such as
        Refused, ProgramFault or OSError. Afterwards all that was started has ended: if something
        can't be ended, LeftRunning is raised, after all outcomes, and at once in each later
        call."""

        def cache_outcome(number: int, outcome: Outcome) -> None:
            """Adds an outcome to the cache, if there is one, and passes it to on_outcome."""
            if self.workplace.cache is not None:
                self.workplace.cache.add(self.state_keys.key(number, attempt), outcome)
            on_outcome(number, outcome)

        refuse_left_processes(self.workplace.left_processes)
        options = self.options
        workers = StateWorkers(
            self.new_checker(), layout, options.jobs, cache_outcome, fail_fast=options.fail_fast
        )
        try:
            workers.run({number: self.plan.state(number).says for number in wanted})
        finally:
            workers.end(self.guard.end_processes)
            self.workplace.left_processes.update(
                {**workers.left_processes, **self.guard.end_processes()}
            )
        refuse_left_processes(self.workplace.left_processes)

    def wanted_numbers(self, results: Results) -> Set[int]:
        """The numbers of this shard's states to try, one for each trial, also of those that have an
        outcome. Refused if --serve is given and the states are more than the runs of a server."""
        numbers = set(self.options.shard.share_of(results.wanted_numbers))
        if self.options.serve is not None and len(numbers) > RUNS:
            raise Refused(
                f'{len(numbers):,} states are more than the {RUNS:,} runs of one server: '
                'try them by --shard, each part with a server of its own'
            )
        return numbers

    def try_all(self, results: Results, after_each: Callable[[], None] = do_nothing) -> bool:
        """Tries the states of the shard that have no outcome yet, as try_remaining() does. If all
        crash states are asked for, but are too many or too slow, only the families and what was
        drawn are chosen in the results. Returns whether each state to try has an outcome: with
        --fail-fast some may lack one."""
        plan = results.plan
        if plan.all_states is not None and not plan.has_all_states:
            results.choose(states_in_batches(results, has_all=False))
        # Families alone are tried however long they take.
        is_bounded = plan.all_states is not None and results.chosen_numbers is None
        most_seconds = self.options.most_seconds if is_bounded else float('inf')
        try:
            self.try_remaining(results, after_each, most_seconds)
        except TooSlow:
            # The outcome by which it is known may be the first failure.
            if not self.is_ended_by_failure:
                results.choose(states_in_batches(results, has_all=False))
                self.try_remaining(results, after_each, float('inf'))
                self.try_others_if_fast(results, after_each, most_seconds)
        return self.wanted_numbers(results) <= set(results.outcomes)

    def try_others_if_fast(
        self, results: Results, after_each: Callable[[], None], most_seconds: float
    ) -> None:
        """Tries also the states that were not chosen, if all take at most most_seconds at the pace
        of those that were: what made the first ones slow may have ended. Exceptions as in
        try_remaining()."""
        all_seconds = results.seconds_per_state * len(results.own_numbers)
        if all_seconds <= most_seconds and not self.is_ended_by_failure:
            results.chosen_numbers = None
            self.try_remaining(results, after_each, float('inf'))

    def try_remaining(
        self, results: Results, after_each: Callable[[], None], most_seconds: float
    ) -> None:
        """Tries the states of the shard that have no outcome yet, adds each outcome to the results,
        and then calls after_each. Sets seconds_per_state of the results by the pace, also after an
        exception. Exceptions as in try_states() and wanted_numbers()."""
        remaining_numbers = self.wanted_numbers(results) - set(results.outcomes)

        def keep_outcome(number: int, outcome: Outcome) -> None:
            """Keeps an outcome, before after_each may raise an exception."""
            results.outcomes[number] = outcome
            after_each()

        batches = self.divide_in_batches(results, remaining_numbers)
        try:
            self.try_states(batches, keep_outcome, most_seconds)
        finally:
            results.seconds_per_state = self.pace.seconds or results.seconds_per_state

    def divide_in_batches(self, results: Results, numbers: Set[int]) -> List[Set[int]]:
        """Divides the numbers of states into batches, those first that find most: an early end then
        misses least. One batch, which may be empty, if only families are asked for, or if the check
        won't end early."""
        may_end_early = self.options.time_limit is not None or self.options.fail_fast
        if results.plan.all_states is None or not (results.is_part or may_end_early):
            return [numbers]
        all_batches = states_in_batches(results, has_all=not results.is_part)
        batches = [batch & numbers for batch in all_batches]
        other_numbers = numbers - set().union(*batches)
        return [batch for batch in [*batches, other_numbers] if batch]
