"""The smallest loss of a state that lacks several things."""

import json
import unittest
from types import SimpleNamespace
from unittest import mock

from crashfs_tools.checker.findings.losses import RUNS, LossSearch, LossSearches, loss_of
from crashfs_tools.checker.findings.pairs import Loss, Pair
from crashfs_tools.checker.findings.set_outcomes import (
    count_failing_states,
    find_equal_sets,
    outcome_of_set,
)
from crashfs_tools.checker.running.runner import BAD, GOOD, NO_ANSWER, Outcome
from crashfs_tools.checker.states.plan import AllStates, State
from crashfs_tools.checker.states.read_plan import read_plan
from crashfs_tools.reading import make_plan, parse_trace

from .support import FAKE
from .test_check_command import InStore
from .test_groups import THIRD, findings_of, line, plan_text, rename, write


def searched(plan, kept, fails):
    """The loss that a search finds, and the sets that it asks for."""
    asked, search = [], LossSearch(plan, kept)
    while search.wanted_set is not None:
        asked.append(search.wanted_set)
        search.answer(fails_alike=bool(fails(search.wanted_set)))
    return loss_of(search.kept_set), asked


class Searched(unittest.TestCase):
    """A session of 40 files that are made, and a state that lacks most of them."""

    def setUp(self):
        text = THIRD + ''.join(line('creat', f'/{number}') for number in range(40))
        self.plan = read_plan(plan_text(text, picks=False))

    def test_of_all_that_is_lost_only_what_is_needed_is_left(self):
        for needed in [(3,), (3, 17), (0, 38), (5, 6, 30)]:

            def fails(kept):
                return not any(kept >> one & 1 for one in needed) and kept >> 39 & 1

            loss, asked = searched(self.plan, 1 << 39, fails)
            self.assertEqual(loss, Loss(Pair(39, needed[0]), sum(1 << one for one in needed)))
            self.assertLess(len(asked), 12 + 12 * len(needed))

    def test_the_state_is_made_as_short_as_it_may_be(self):
        def fails(kept):
            return not kept >> 3 & 1 and kept >> 20 & 1

        loss, asked = searched(self.plan, 1 << 39 | 1 << 20, fails)
        self.assertEqual(loss, Loss(Pair(20, 3), 1 << 3))
        self.assertLess(len(asked), 16)

    def test_no_set_is_tried_whose_outcome_is_not_used(self):
        tried, answered = [], []

        class Fewer(LossSearches):
            """Every set fails, but not alike, so that a search ends only after RUNS of them."""

            def try_sets(self, sets):
                tried.extend(sets)
                self.outcomes.update({one: Outcome(BAD, 'another') for one in sets})

        def answer(search, fails_alike):
            answered.append(fails_alike)
            search.wanted_set = next(search.sets, None)

        self.plan.kept[0] = 1 << 39
        findings = SimpleNamespace(
            plan=self.plan,
            outcomes_by_state={0: Outcome(BAD, 'lost')},
            pairs=SimpleNamespace(is_same_failure=lambda one, other: False),
        )
        with mock.patch.object(LossSearch, 'answer', answer):
            found = Fewer(None, None, findings).run([State(0, 'pick', (), 0, 0)])
        self.assertEqual((len(tried), answered), (RUNS, [False] * RUNS))
        self.assertEqual(found, {0: Loss(Pair(39, 0), (1 << 39) - 1)})

    def test_what_needs_the_lost_one_is_not_put_back_without_it(self):
        text = THIRD + line('creat', '/a') + line('creat', '/b') + line('fsync', '/')
        text += rename('/a', '/c') + rename('/c', '/d') + line('creat', '/e')
        plan = read_plan(plan_text(text, picks=False))
        whole = (1 << len(plan.operations)) - 1

        def fails(kept):
            self.assertTrue(plan.needs.is_allowed(kept))
            return not kept >> 2 & 1

        loss, _ = searched(plan, whole & ~0b1100, fails)
        self.assertEqual(loss, Loss(Pair(4, 2), 0b1100))


class Equal(InStore):
    def test_a_set_has_the_outcome_of_a_tried_one_that_leaves_the_same(self):
        text = THIRD + line('creat', '/a') + line('unlink', '/a') + line('creat', '/b')
        planned = SimpleNamespace(trace=self.write('a.trace', text))
        families = read_plan(plan_text(text, picks=False))
        plan = families.with_states(families.listed, AllStates(None, True), families.profiles)
        start = Outcome(BAD, 'lost')
        equal_sets = find_equal_sets(
            planned, SimpleNamespace(plan=plan, outcomes_by_state={0: start})
        )
        self.assertEqual(outcome_of_set(0b11, {}, equal_sets), start)
        self.assertIsNone(outcome_of_set(0b11, {}, None))
        # No state with this file was tried.
        self.assertIsNone(outcome_of_set(0b111, {}, equal_sets))
        self.assertEqual(outcome_of_set(0b11, {0b11: Outcome(GOOD)}, equal_sets), Outcome(GOOD))
        self.assertIsNone(
            find_equal_sets(planned, SimpleNamespace(plan=families, outcomes_by_state={}))
        )


class Outcomes(unittest.TestCase):
    def test_failing_states_are_counted_once_for_each_tree_and_number_of_lines(self):
        text = THIRD + line('creat', '/a') + line('unlink', '/a') + line('creat', '/b')
        plan = read_plan(plan_text(text, picks=False))
        silent, good = Outcome(NO_ANSWER, 'no end'), Outcome(GOOD)
        # The first three sets are prefixes, of which two leave the start tree.
        for outcomes, count in (
            ({0b0: silent, 0b11: silent}, 1),
            ({0b0: silent, 0b1: Outcome(BAD, 'lost')}, 2),
            ({0b0: good, 0b1: good}, 0),
            ({}, 0),
        ):
            self.assertEqual(count_failing_states(plan, outcomes), count, outcomes)


LSM = (
    THIRD
    + line('creat', '/log')
    + write('/log', 'a')
    + line('creat', '/new')
    + write('/new', 'a')
    + line('fsync', '/')
    + line('fsync', '/log')
    + line('fsync', '/new')
)


class Guesses(InStore):
    """A log that is moved into a table. The row b is lost if both changes of names are: the log
    that has it comes back as the old one."""

    def text(self):
        text = LSM + line('say', text='a') + line('creat', '/other') + rename('/new', '/table')
        text += line('unlink', '/log') + line('creat', '/log2') + write('/log2', 'b')
        text += line('fsync', '/log2') + line('say', text='b') + line('creat', '/last')
        return text

    def test_the_report_names_them(self):
        trace = self.write('lsm.trace', self.text())
        check = self.write(
            'check.sh',
            '#!/bin/sh\n'
            'test $CRASHFS_SAYS = 0 || test -e table || test -e log || '
            '{ echo "refused: neither"; exit 1; }\n'
            'test $CRASHFS_SAYS -lt 2 || test -e table || { echo "lost: b"; exit 1; }\n',
            0o755,
        )
        ran = self.run_tool(
            'crashfs-check', '--crashfs', FAKE, '--json', 'r.json', trace, '--', check
        )
        self.assertEqual(ran.returncode, 1, ran.stderr)
        groups = json.loads(self.read('r.json'))['groups']
        (shown,) = [' '.join(one['text']) for one in groups if one['cause'] == 'lost: b']
        self.assertIn('line 11 (rename /new to /table) was not durable when line 16 ack', shown)
        self.assertIn('it fails only if this is lost too: line 12 (unlink /log)', shown)
        self.assert_nothing_left()

    def test_a_state_has_no_loss_of_another_cause(self):
        """A state that lacks all four files fails as those that lack only the last two."""
        text = THIRD + ''.join(line('creat', f'/{name}') for name in 'abcd') + line('fsync', '/')
        text += ''.join(write(f'/{name}', 'v') for name in 'abcd') + line('say', text='stored')
        check = self.write(
            'check.sh',
            '#!/bin/sh\ntest $CRASHFS_SAYS = 1 || exit 0\n'
            'test -s c || test -s d || { echo "second: c and d"; exit 1; }\n'
            'test -s a || test -s b || { echo "first: a and b"; exit 1; }\n',
            0o755,
        )
        words = '--crashfs', FAKE, '--json', 'r.json', self.write('four.trace', text), '--', check
        ran = self.run_tool('crashfs-check', *words)
        self.assertEqual(ran.returncode, 1, ran.stderr)
        entries = [
            (one['cause'], one['different'], [pair[0] for pair in one['lines']])
            for one in json.loads(self.read('r.json'))['groups']
        ]
        self.assertEqual(sorted(entries), [('first: a and b', 8, [7]), ('second: c and d', 9, [9])])

    def test_the_pair_is_of_the_smallest_loss(self):
        """The pick that has only the last file lacks four names, of which two matter."""

        def cause(files, says):
            if '/table' not in files and '/log' not in files:
                return 'refused: neither'
            is_old = '/table' not in files
            return 'lost: b' if is_old and says == 2 else ''

        findings = findings_of(self.text(), cause)
        guesses = [group for group in findings.groups if group.pair.is_guess]
        self.assertTrue(guesses)
        trees = make_plan(parse_trace(self.text().encode())).trees
        runs = []

        class Trees(LossSearches):
            """Answers from the trees in the place of COMMAND."""

            def try_sets(self, sets):
                says = findings.plan.say_places
                for kept in sets:
                    files = set(trees.tree(kept))
                    found = cause(files, bin(kept & says).count('1'))
                    self.outcomes[kept] = Outcome(BAD, found) if found else Outcome(GOOD)
                    runs.append(kept)

        states = [group.example for group in guesses]
        findings.add_losses(Trees(None, None, findings).run(states))
        self.assertFalse([group for group in findings.groups if group.pair.is_guess])
        self.assertLess(len(runs), 12 * len(states))
        for group in findings.groups:
            if group.outcome.cause == 'lost: b':
                self.assertEqual(group.lost_line.text, 'rename /new to /table')
                self.assertEqual(group.kept_line.text, 'say "b"')


if __name__ == '__main__':
    unittest.main()
