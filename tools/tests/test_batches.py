"""A check that can't try all crash states: their order, what is left out, what is said of it."""

from __future__ import annotations

import unittest
from collections import Counter
from contextlib import ExitStack
from types import SimpleNamespace
from typing import Any, List, Set

from crashfs_tools.checker.options import Shard
from crashfs_tools.checker.report.counts import StateCounts
from crashfs_tools.checker.report.summary import partial_check_lines, share_text
from crashfs_tools.checker.running.pace import MEASURED_STATES, Pace, TooSlow
from crashfs_tools.checker.running.progress import Progress
from crashfs_tools.checker.running.results import Results
from crashfs_tools.checker.running.runner import BAD, GOOD, GOOD_OUTCOME, NO_ANSWER, Outcome
from crashfs_tools.checker.running.trials import Trials, Workplace
from crashfs_tools.checker.running.batches import family_batches, states_in_batches
from crashfs_tools.checker.states.plan import AllStates, PlannedTrace, SetProfiles

from .support import EXAMPLES, FAKE
from .test_all_states import Listing
from .test_windows import HEADER, creat, said, sync, write

# Nine files that are made, so 512 sets, and a write of six blocks.
MANY = HEADER + ''.join(creat(f'/{number}') for number in range(9)) + said('1')
TORN = HEADER + creat('/a') + sync('/') + said('1') + write('/a', 6 * 4096) + said('2')


class TriedNowhere(Trials):
    """Gives each state an outcome without running anything."""

    def __init__(
        self, planned: PlannedTrace, seconds: float, *, outcome: Outcome = GOOD_OUTCOME, **more: Any
    ) -> None:
        self.outcome = outcome
        options = SimpleNamespace(
            most_seconds=seconds,
            shard=Shard(),
            serve=None,
            time_limit=None,
            fail_fast=False,
            **more,
        )
        found: Any = options
        nothing: Any = None
        super().__init__(Workplace(found, nothing, nothing, nothing, Progress(None)), planned)
        self.order: List[Set[int]] = []

    def new_layout(self, *, is_for_many: bool = False) -> Any:
        return None

    def run_workers(self, layout: Any, wanted: Set[int], on_outcome: Any) -> None:
        self.order.append(wanted)
        for number in sorted(wanted):
            on_outcome(number, self.outcome)


class Order(Listing):
    def test_batches_have_each_state_once_and_the_families_first(self) -> None:
        for text in (MANY, TORN, (EXAMPLES / 'store.trace').read_text('utf-8')):
            planned = self.planned(text)
            results = Results(planned.plan)
            found = states_in_batches(results, has_all=True)
            self.assertEqual(sum(map(len, found)), len(results.own_numbers))
            self.assertEqual(set().union(*found), set(results.own_numbers.values()))
            families = set().union(*states_in_batches(results, has_all=False))
            self.assertEqual(set().union(*found[:-1]), families - found[-1])

    def test_each_state_is_in_one_shard(self) -> None:
        numbers = [0, 2, 3, 7, 9]
        shares = [Shard(part, 2).share_of(numbers) for part in (1, 2)]
        self.assertEqual(shares, [[0, 3, 9], [2, 7]])
        self.assertEqual(Shard().share_of(numbers), numbers)

    def test_the_first_states_end_at_acknowledged_lines(self) -> None:
        plan = self.planned(TORN).plan
        first = states_in_batches(Results(plan), has_all=True)[0]
        kept = {plan.kept[number] for number in first}
        says = [place for place, one in enumerate(plan.operations) if one.kind == 'say']
        ends = {0, *((1 << place + 1) - 1 for place in says)}
        self.assertEqual(kept, ends)

    def test_of_a_torn_write_the_first_the_middle_and_the_last_block_are_lost(self) -> None:
        plan = self.planned(TORN, most=5).plan
        found = {one for batch in family_batches(plan) for one in batch}
        blocks = [place for place, one in enumerate(plan.operations) if one.kind == 'write_block']
        self.assertEqual(len(blocks), 6)
        for place in blocks:
            lost = plan.needs.full & ~plan.needs.set_needing(place)
            self.assertEqual(lost in found, place in (blocks[0], blocks[3], blocks[5]), place)

    def test_states_that_would_take_too_long_are_left_out(self) -> None:
        planned = self.planned(MANY)
        for seconds, is_part in ((1e9, False), (0.0, True)):
            results = Results(planned.plan)
            self.assertTrue(TriedNowhere(planned, seconds).try_all(results))
            self.assertEqual(results.is_part, is_part)
            self.assertTrue(results.is_whole)
            families = set().union(*states_in_batches(results, has_all=False))
            self.assertLessEqual(families, set(results.outcomes))
            wanted = len(results.own_numbers) if not is_part else len(results.chosen_numbers or ())
            self.assertEqual(len(results.outcomes), wanted)
            self.assertEqual(len(results.outcomes) < len(results.own_numbers), is_part)

    def test_families_are_all_tried_however_long_they_take(self) -> None:
        planned = self.planned(TORN + write('/a', 12 * 4096) + said('3'), most=5)
        plan = planned.plan
        planned.plan = plan.with_states(plan.families, None, SetProfiles())
        results = Results(planned.plan)
        self.assertGreater(len(results.own_numbers), MEASURED_STATES)
        self.assertTrue(TriedNowhere(planned, 0.0).try_all(results))
        self.assertEqual(set(results.outcomes), set(results.own_numbers.values()))
        self.assertIsNone(results.chosen_numbers)

    def test_all_are_tried_if_only_the_first_states_were_slow(self) -> None:
        planned = self.planned(HEADER + ''.join(creat(f'/{number}') for number in range(14)))
        results = Results(planned.plan)
        self.assertTrue(SlowAtFirst(planned, 600.0).try_all(results))
        self.assertIsNone(results.chosen_numbers)
        self.assertEqual(set(results.outcomes), set(results.own_numbers.values()))

    def test_the_pace_of_an_earlier_check_stays_if_nothing_is_left(self) -> None:
        planned = self.planned(MANY)
        results = Results(planned.plan, seconds_per_state=3.0)
        results.outcomes = dict.fromkeys(results.own_numbers.values(), GOOD_OUTCOME)
        self.assertTrue(TriedNowhere(planned, 1e9).try_all(results))
        self.assertEqual(results.seconds_per_state, 3.0)

    def test_with_a_limit_families_come_first(self) -> None:
        planned = self.planned(MANY)
        trials = TriedNowhere(planned, 1e9)
        trials.options.time_limit = 5.0
        results = Results(planned.plan)
        trials.try_all(results)
        self.assertEqual(trials.order, states_in_batches(results, has_all=True))
        self.assertGreater(len(trials.order), 2)

    def test_by_fail_fast_a_failure_that_the_cache_has_ends_it(self) -> None:
        planned = self.planned(MANY)
        for result in (BAD, NO_ANSWER):
            trials, outcome = TriedNowhere(planned, 1e9), Outcome(result, 'lost')
            trials.options.fail_fast = True
            cache: Any = SimpleNamespace(look_up=lambda key, found=outcome: found)
            trials.workplace.cache = cache
            vars(trials)['state_keys'] = SimpleNamespace(key=lambda number, attempt: number)
            results = Results(planned.plan)
            self.assertEqual(trials.try_all(results), result == NO_ANSWER)
            self.assertEqual((len(results.outcomes) == 1, trials.order), (result == BAD, []))

    def test_by_fail_fast_a_state_without_an_answer_ends_nothing(self) -> None:
        planned = self.planned(MANY)
        for result, is_ended in ((NO_ANSWER, False), (BAD, True)):
            trials = TriedNowhere(planned, 1e9, outcome=Outcome(result, 'slow'))
            trials.options.fail_fast = True
            results = Results(planned.plan)
            self.assertEqual(trials.try_all(results), not is_ended, result)
            self.assertEqual(trials.is_ended_by_failure, is_ended, result)
            self.assertEqual(len(trials.order) == 1, is_ended, result)

    def test_by_fail_fast_a_failure_ends_it_also_if_the_pace_is_too_slow_then(self) -> None:
        planned = self.planned(MANY)
        for seconds in (1e9, 0.0):
            trials = FailingLast(planned, seconds)
            trials.options.fail_fast = True
            results = Results(planned.plan)
            self.assertFalse(trials.try_all(results))
            self.assertEqual(len(results.outcomes), MEASURED_STATES)
            self.assertIsNone(results.chosen_numbers)


class SlowAtFirst(TriedNowhere):
    """The states by which the pace is known take a second each, and the others a millisecond."""

    def run_workers(self, layout: Any, wanted: Set[int], on_outcome: Any) -> None:
        seconds = [0.0]
        self.pace.clock, self.pace.begin_time = (lambda: seconds[0]), 0.0
        for count, number in enumerate(sorted(wanted)):
            seconds[0] += 0.001 if self.order else 1.0
            if count == MEASURED_STATES - 1:
                self.order.append(wanted)
            on_outcome(number, GOOD_OUTCOME)


class FailingLast(TriedNowhere):
    """The state after which the pace is known fails."""

    def run_workers(self, layout: Any, wanted: Set[int], on_outcome: Any) -> None:
        for number in sorted(wanted):
            is_last = self.pace.tried_count == MEASURED_STATES - 1
            on_outcome(number, Outcome(BAD, 'lost') if is_last else GOOD_OUTCOME)
            if is_last:
                return


class Paces(unittest.TestCase):
    def test_a_pace_is_too_slow_once(self) -> None:
        now = [0.0]
        for each, is_slow in ((0.59, False), (0.61, True)):
            pace = Pace(1_000, 600.0, lambda: now[0])
            found = []
            for number in range(2 * MEASURED_STATES):
                now[0] += each
                try:
                    pace.count_outcome(GOOD_OUTCOME)
                except TooSlow:
                    found.append(number)
            self.assertEqual(found, [MEASURED_STATES - 1] if is_slow else [])
        self.assertAlmostEqual(pace.seconds, 0.61)

    def test_no_pace_is_too_slow_if_no_state_is_left(self) -> None:
        for left_count in (1, 0):
            pace = Pace(MEASURED_STATES + left_count, 0.0)
            for _ in range(MEASURED_STATES - 1):
                pace.count_outcome(GOOD_OUTCOME)
            with ExitStack() as stack:
                if left_count:
                    stack.enter_context(self.assertRaises(TooSlow))
                pace.count_outcome(Outcome(BAD, 'lost'))
            self.assertEqual(pace.failed_count, 1)

    def test_shares_are_rounded_up(self) -> None:
        for share, text in [
            (1 - 0.05 ** (1 / 10_000), '0.030 %'),
            (1 - 0.05 ** (1 / 1_000), '0.30 %'),
            (0.0301, '3.1 %'),
            (0.31, '31 %'),
        ]:
            self.assertEqual(share_text(share), text)


class Rest(Listing):
    def check(self, *words: str, command: str = 'true') -> List[str]:
        trace = self.write('many.trace', MANY)
        words = ('--crashfs', FAKE, *words, trace)
        ran = self.run_tool('crashfs-check', *words, '--', 'sh', '-c', command)
        self.assertEqual(ran.stderr, '')
        return ran.stdout.splitlines()

    def test_the_report_says_how_much_was_tried_and_what_draws_show(self) -> None:
        head, _, drawn, rest = self.check('--every', '100')
        self.assertRegex(
            head,
            '^many.trace: 10 micro-operations, [0-9]+ of 1,024 crash states tried: '
            'none of these fails$',
        )
        self.assertEqual(
            drawn,
            '  1,000 drawn at random, none fails: with 95 % confidence fewer than 0.30 % of the '
            '1,024 sets do',
        )
        self.assertRegex(
            rest, '^  all are more than 100, and would take more than about .* seconds?: --every N$'
        )

    def test_draws_that_fail_are_counted(self) -> None:
        command = 'test -e 0 || test ! -e 1 || { echo bad: 1; exit 1; }'
        lines = self.check('--every', '100', command=command)
        self.assertRegex(lines[0], r' of 1,024 crash states tried: \d+ fail: \d+ bad$')
        drawn = int(lines[-2].split()[0])
        self.assertEqual(lines[-2], f'  {drawn} of 1,000 drawn at random fail')
        # A quarter of the sets, within five standard deviations.
        self.assertLess(abs(drawn - 250), 5 * (1_000 * 3 / 16) ** 0.5)

    def test_no_share_is_said_if_draws_gave_no_answer(self) -> None:
        """A draw in 64 gives no answer, and may fail."""
        command = 'test -e 0 -a -e 1 -a -e 2 -a -e 3 -a -e 4 -a ! -e 5 && sleep 9; exit 0'
        lines = self.check('--every', '100', '--timeout', '0.5', command=command)
        self.assertRegex(lines[-2], r'^  1,000 drawn at random: none fails; \d+ gave no answer$')

    def test_draws_without_an_answer_are_counted_with_those_that_fail(self) -> None:
        drawn = Counter({GOOD: 990, BAD: 7, NO_ANSWER: 3})
        counts = StateCounts(is_part=True, all_states=[AllStates(512, False)], drawn_results=drawn)
        (first, _) = partial_check_lines(counts)
        self.assertEqual(first, '7 of 1,000 drawn at random fail; 3 gave no answer')

    def test_shards_have_the_same_states_and_are_merged(self) -> None:
        paths = [self.path(f'{part}.json') for part in (1, 2)]
        for part, path in enumerate(paths, 1):
            self.check('--every', '100', '--shard', f'{part}/2', '--json', path)
        merged = self.run_tool('crashfs-check', '--merge', *paths).stdout.splitlines()
        whole = self.check('--every', '100')
        self.assertEqual(merged[:2], [whole[0], whole[2]])
        self.assertRegex(merged[2], '^  all are more than 100, and would take .*: --every N$')


if __name__ == '__main__':
    unittest.main()
