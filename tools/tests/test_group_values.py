"""What is computed of a group from its own values, and of groups from a window's findings."""

import unittest

from crashfs_tools.checker.findings.advice import (
    NOT_REPRODUCIBLE,
    ONE_CHANGE,
    Advice,
    AdviceResult,
    FailingCounts,
    overwriting_text,
)
from crashfs_tools.checker.findings.groups import Findings, Group
from crashfs_tools.checker.findings.pairs import Loss, Pair
from crashfs_tools.checker.running.results import Head, Results
from crashfs_tools.checker.running.runner import BAD, GOOD, NO_ANSWER, Outcome
from crashfs_tools.checker.states.plan import State
from crashfs_tools.common.trace_lines import TraceLine

from .test_pairs import LINES, LISTED, LOST, read_plan

CREAT, WRITE, SAY = TraceLine(2, 'creat', '/a'), TraceLine(3, 'write', '/a'), TraceLine(6, 'say')
DUE_TO_LOSS, WITHOUT_LOSS = Pair(4, 1), Pair(1, 4)


def group_of(kept, lost, pair, cause='lost: row 1', **more):
    """A group with these lines, and an example that loses something."""
    return Group(Outcome(BAD, cause), State(0, 'hole', (0, 2), 0, 0), pair, kept, lost, **more)


class Values(unittest.TestCase):
    def test_a_failure_needs_a_loss_if_what_was_lost_comes_first_or_a_line_is_torn(self):
        for pair, is_due_to_loss in (
            (DUE_TO_LOSS, True),
            (Pair(1, 0), True),
            (WITHOUT_LOSS, False),
            (Pair(None, 0), False),
            (Pair(3, None), False),
            (Pair(None, None), False),
        ):
            self.assertIs(group_of(CREAT, WRITE, pair).is_due_to_loss, is_due_to_loss, pair)
        self.assertTrue(group_of(WRITE, WRITE, WITHOUT_LOSS).is_due_to_loss)

    def test_two_lines_may_be_swapped_if_the_failure_is_real_and_needs_no_loss(self):
        good, bad, silent = Outcome(GOOD), LOST, Outcome(NO_ANSWER, 'no end')
        for kept, lost, pair, rerun, is_swappable in (
            (CREAT, WRITE, WITHOUT_LOSS, None, True),
            (CREAT, WRITE, WITHOUT_LOSS, bad, True),
            (CREAT, WRITE, WITHOUT_LOSS, silent, True),
            (CREAT, WRITE, WITHOUT_LOSS, good, False),
            (SAY, WRITE, WITHOUT_LOSS, None, True),
            (CREAT, SAY, WITHOUT_LOSS, None, False),
            (CREAT, WRITE, DUE_TO_LOSS, None, False),
            (None, WRITE, WITHOUT_LOSS, None, False),
            (CREAT, None, WITHOUT_LOSS, None, False),
        ):
            group = group_of(kept, lost, pair, rerun_outcome=rerun)
            self.assertIs(group.is_swappable, is_swappable, (kept, lost, pair, rerun))

    def test_groups_are_one_if_their_causes_and_lines_are_alike(self):
        group = group_of(CREAT, WRITE, WITHOUT_LOSS)
        self.assertEqual(group.key, group_of(CREAT, WRITE, WITHOUT_LOSS, 'lost: row 2').key)
        for other in (
            group_of(CREAT, WRITE, WITHOUT_LOSS, 'corrupt: row 1'),
            group_of(CREAT, WRITE, DUE_TO_LOSS),
            group_of(CREAT, SAY, WITHOUT_LOSS),
            group_of(CREAT, WRITE, WITHOUT_LOSS, rerun_outcome=Outcome(GOOD)),
        ):
            self.assertNotEqual(group.key, other.key)

    def test_failures_that_were_not_seen_again_are_one_whatever_their_lines(self):
        groups = [
            group_of(CREAT, lost, WITHOUT_LOSS, rerun_outcome=Outcome(GOOD))
            for lost in (WRITE, SAY)
        ]
        self.assertEqual(groups[0].key, groups[1].key)

    def test_a_group_that_is_added_leaves_the_other_covered_only_if_it_is_covered(self):
        for own, other in ((True, False), (False, True), (True, True)):
            group = group_of(CREAT, WRITE, DUE_TO_LOSS, is_covered=own)
            group.add_group(group_of(CREAT, WRITE, DUE_TO_LOSS, is_covered=other))
            self.assertIs(group.is_covered, own and other)

    def test_results_of_advice_are_added_up_if_both_are_there(self):
        first, second = AdviceResult(1, 2, 0), AdviceResult(3, 4, 5)
        for own, other, result in (
            (first, second, AdviceResult(4, 6, 5)),
            (first, None, None),
            (None, second, None),
        ):
            group = group_of(CREAT, WRITE, DUE_TO_LOSS, advice=Advice(result=own))
            more = group_of(CREAT, WRITE, DUE_TO_LOSS, advice=Advice(result=other))
            group.add_group(more)
            self.assertEqual((group.advice.result, more.advice.result), (result, other))


class AdviceOfGroups(unittest.TestCase):
    def test_bytes_in_use_belong_to_another_place_unless_another_order_helps(self):
        place = overwriting_text(CREAT, WRITE)
        order = 'no sync helps: do line 3 before line 2, with a sync between them '
        for counts, is_overwriting, remedy in (
            (None, False, ONE_CHANGE),
            (None, True, place),
            (FailingCounts(3, 3), True, place),
            (FailingCounts(3, 0), True, f'{order}(tried: then none fails)'),
        ):
            group = group_of(
                CREAT, WRITE, WITHOUT_LOSS, swap_counts=counts, is_overwriting=is_overwriting
            )
            self.assertEqual(group.best_no_loss_advice().remedy, remedy)
        group = group_of(None, WRITE, WITHOUT_LOSS, is_overwriting=True)
        self.assertEqual(group.best_no_loss_advice().remedy, ONE_CHANGE)

    def test_a_result_stays_only_if_a_sync_is_advised(self):
        result = AdviceResult(0, 2, 0)
        lines = {line.number: line for line in (CREAT, WRITE, SAY)}
        for lost, pair, rerun, kept_result in (
            (WRITE, DUE_TO_LOSS, None, result),
            (SAY, WITHOUT_LOSS, None, None),
            (WRITE, DUE_TO_LOSS, Outcome(GOOD), None),
        ):
            group = group_of(SAY, lost, pair, rerun_outcome=rerun, advice=Advice(result=result))
            group.line_pairs = [(lost.number, SAY.number)]
            group.set_advice(lines)
            self.assertEqual(group.advice.result, kept_result)


class InFindings(unittest.TestCase):
    def findings(self, outcomes, listed=LISTED, needs=(), ignored=None, **more):
        """The findings of a window whose other states are good."""
        plan = read_plan(listed, needs)
        outcomes = {**{state.number: Outcome(GOOD) for state in plan.states}, **outcomes}
        head = Head('a.trace', '', [], lines=LINES)
        return Findings(head, Results(plan, outcomes, **more), {}, ignored)


class Made(InFindings):
    def test_a_failure_that_was_not_seen_again_has_no_other_advice(self):
        (group,) = self.findings({9: LOST}, reruns={9: Outcome(GOOD)}).groups
        self.assertEqual(group.rerun_outcome, Outcome(GOOD))
        self.assertEqual(group.advice, Advice(list(NOT_REPRODUCIBLE)))
        (group,) = self.findings({9: LOST}, reruns={9: LOST}).groups
        self.assertEqual(list(group.advice.syncs.values()), ['/a b'])

    def test_states_that_have_one_operation_and_lack_the_other_are_explained(self):
        (hole,) = self.findings({9: LOST}).groups
        self.assertEqual(hole.explained_states, {(9,)})
        (prefix,) = self.findings({5: LOST}).groups
        self.assertEqual((prefix.tried_states, prefix.explained_states), ({(5,)}, set()))

    def test_a_cause_that_is_ignored_is_so_with_other_numbers_too(self):
        causes = {9: Outcome(BAD, 'lost: row 1'), 5: Outcome(BAD, 'corrupt: row 1')}
        (group,) = self.findings(causes, ignored=Outcome(BAD, 'lost: row 2')).groups
        self.assertEqual(group.outcome.cause, 'corrupt: row 1')

    def test_a_line_that_the_report_lacks_is_named_by_its_operation(self):
        findings = self.findings({})
        self.assertEqual(findings.line_at(3), LINES[5])
        self.assertIsNone(findings.line_at(None))
        findings.head.lines = {}
        self.assertEqual(findings.line_at(3), TraceLine(5, 'move_dir_entry', '/a b'))


PICK = '{"state":%d,"kind":"pick","places":%s,"says":0,"same":%d}\n'


class Losses(InFindings):
    def with_loss(self, second_pick, second_outcome):
        """Findings in which a pick has a loss, and another one may have the same loss."""
        listed = LISTED + PICK % (13, '[0,2]', 13) + PICK % (14, second_pick, 14)
        findings = self.findings({13: LOST, 14: second_outcome}, listed)
        self.assertTrue(all(group.pair.is_guess for group in findings.groups))
        findings.add_losses({13: Loss(Pair(2, 1), 0b10)})
        return findings

    def test_another_state_that_lacks_the_same_and_fails_alike_has_the_loss(self):
        findings = self.with_loss('[0,2,3]', LOST)
        self.assertEqual(set(findings.losses), {13, 14})
        (group,) = findings.groups
        self.assertEqual((group.pair, group.count), (Pair(2, 1), 2))
        for second_pick, outcome in (
            ('[0,3]', LOST),
            ('[1,2]', LOST),
            ('[0,2,3]', Outcome(BAD, 'corrupt: a')),
        ):
            self.assertEqual(set(self.with_loss(second_pick, outcome).losses), {13})

    def test_lines_are_needed_that_must_be_lost_too_and_not_for_the_lost_one(self):
        for needs, lines in (((), [3]), ((0b1, 0b10, 0b101, 0b1000, 0b10000), [])):
            findings = self.findings({13: LOST}, LISTED + PICK % (13, '[3]', 13), needs)
            (group,) = findings.groups
            self.assertEqual(group.needed_lines, [])
            findings.add_losses({13: Loss(Pair(3, 0), 0b101)})
            (group,) = findings.groups
            self.assertEqual((group.lost_line.number, group.needed_lines), (2, lines))


if __name__ == '__main__':
    unittest.main()
