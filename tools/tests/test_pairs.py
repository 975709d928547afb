"""The plan as it is listed, and the pair of each failing state."""

import unittest
from dataclasses import replace
from unittest import mock

from crashfs_tools.checker.findings.groups import Findings
from crashfs_tools.checker.findings.pairs import Loss, Pair, Pairs
from crashfs_tools.checker.report import text
from crashfs_tools.checker.report.report import CheckReport
from crashfs_tools.checker.report.text import ReportText
from crashfs_tools.checker.running.results import Head, Results
from crashfs_tools.checker.running.runner import BAD, GOOD, NO_ANSWER, Outcome
from crashfs_tools.checker.states.plan import (
    Offsets,
    PlannedMicroOperation,
    Needs,
    Plan,
    PlanError,
    State,
    Trial,
)
from crashfs_tools.checker.states.read_plan import read_plan as read_listed
from crashfs_tools.common.trace_lines import TraceLine

# The paths have a blank, and a text that lines of `list` have after a path.
LISTED = """\
{"op":0,"kind":"create_dir_entry","path":"/a line 3","node":"file","line":2,"needs":[0]}
{"op":1,"kind":"change_file_size","path":"/a b","file":0,"length":4,"line":3,"needs":[1]}
{"op":2,"kind":"write_block","path":"/a b","block":0,"at":12,"count":4,"line":3,"needs":[2]}
{"op":3,"kind":"move_dir_entry","path":"/a b","to":"/c\\nd","line":5,"needs":[3]}
{"op":4,"kind":"say","line":6,"needs":[4]}
{"state":0,"kind":"prefix","end":0,"says":0,"same":0}
{"state":1,"kind":"prefix","end":1,"says":0,"same":1}
{"state":2,"kind":"prefix","end":2,"says":0,"same":2}
{"state":3,"kind":"prefix","end":3,"says":0,"same":3}
{"state":4,"kind":"prefix","end":4,"says":0,"same":4}
{"state":5,"kind":"prefix","end":5,"says":1,"same":4}
{"state":6,"kind":"hole","missing":0,"end":2,"says":0,"same":0}
{"state":7,"kind":"hole","missing":1,"end":3,"says":0,"same":1}
{"state":8,"kind":"hole","missing":1,"end":4,"says":0,"same":8}
{"state":9,"kind":"hole","missing":1,"end":5,"says":1,"same":8}
{"state":10,"kind":"hole","missing":3,"end":5,"says":1,"same":3}
{"state":11,"kind":"pick","places":[0,2],"says":0,"same":1}
{"state":12,"kind":"pick","places":[],"says":0,"same":0}
"""
LINES = {
    line.number: line
    for line in [
        TraceLine(2, 'creat', '/a line 3'),
        TraceLine(3, 'write', '/a b', '', '16 bytes at 0'),
        TraceLine(5, 'rename', '/a b', '/c'),
        TraceLine(6, 'say', details='row 1'),
    ]
}
LOST = Outcome(BAD, 'lost: a')


def read_plan(listed, needs=()):
    """The plan; with other needs, if some are given."""
    plan = read_listed(listed)
    return Plan(plan.operations, plan.listed, Needs(list(needs))) if needs else plan


class Listed(unittest.TestCase):
    def test_operations_and_states_are_read(self):
        plan = read_plan(LISTED)
        self.assertEqual(
            plan.operations[0], PlannedMicroOperation(0, 'create_dir_entry', '/a line 3', 'file', 2)
        )
        self.assertEqual(plan.operations[2].text, 'op 2 write_block /a b 0 12 4')
        self.assertEqual(plan.operations[3].text, 'op 3 move_dir_entry /a b /c\nd')
        self.assertEqual(plan.operations[4].text, 'op 4 say')
        self.assertEqual(plan.listed[9], State(9, 'hole', (1, 5), 1, 8))
        self.assertEqual(plan.state_text(plan.listed[9]), 'hole 1 5')
        self.assertEqual(plan.listed[12].numbers, ())

    def test_modes_owners_and_files_without_a_path_are_read(self):
        plan = read_plan(
            '{"op":0,"kind":"set_attr","path":null,"file":0,"mode":"600","owner":"ann","group":"s",'
            '"line":3,"needs":[0]}\n'
            '{"op":1,"kind":"set_attr","path":"/d 7","mode":"700","owner":"bob","group":"s",'
            '"line":4,"needs":[0,1]}\n'
        )
        self.assertEqual(
            [operation.text for operation in plan.operations],
            ['op 0 set_attr 600 ann s', 'op 1 set_attr /d 7 700 bob s'],
        )
        self.assertEqual([operation.line for operation in plan.operations], [3, 4])
        self.assertEqual(plan.needs.masks, [0b1, 0b11])

    def test_a_window_has_the_numbers_places_says_and_lines_of_its_session(self):
        plan = read_listed(LISTED, Offsets(100, 40, 7, (0, 11, 12, 0, 14, 15)))
        self.assertEqual(
            plan.operations[3], PlannedMicroOperation(43, 'move_dir_entry', '/a b', '/c\nd', 14)
        )
        self.assertEqual(plan.state(109), State(109, 'hole', (1, 5), 8, 108))
        self.assertEqual(plan.state_text(plan.state(109)), 'hole 41 45')
        self.assertEqual(
            [plan.has_state(number) for number in (99, 100, 112, 113)], [False, True, True, False]
        )

    def test_equal_trees_are_tried_once_for_each_number_of_says(self):
        self.assertEqual(
            Results(read_plan(LISTED)).own_numbers,
            {
                Trial(0, 0): 0,
                Trial(1, 0): 1,
                Trial(2, 0): 2,
                Trial(3, 0): 3,
                Trial(4, 0): 4,
                Trial(4, 1): 5,
                Trial(8, 0): 8,
                Trial(8, 1): 9,
                Trial(3, 1): 10,
            },
        )

    def test_a_line_of_the_session_is_found_by_its_last_part_in_the_trace(self):
        offsets = Offsets(lines=(0, 7, 7, 9))
        self.assertEqual([offsets.line_in_trace(line) for line in (7, 8, 9)], [3, None, 4])
        self.assertEqual(Offsets().line_in_trace(8), 8)

    def test_a_line_of_another_form_is_refused(self):
        for line in [
            'op 1 write_block 0 0 12 4',
            '{"op":1,"kind":"say","needs":[1]}',
            '[]',
            '3',
            '{"state":1,"kind":"cut","end":3,"says":0,"same":1}',
            '',
            '[' * 100_000,
            '{"op":1,"kind":"say","line":2,"needs":[%d]}' % 10**30,
        ]:
            with self.subTest(line[:80]), self.assertRaises(PlanError):
                read_plan(line)
        listed = '{"op":0,"kind":"say","line":%d,"needs":[0]}'
        offsets = Offsets(lines=(0, 7))
        self.assertEqual(read_listed(listed % 2, offsets).operations[0].line, 7)
        with self.assertRaises(PlanError):
            read_listed(listed % 3, offsets)


class Blame(unittest.TestCase):
    def pair(self, number, failing, needs=(), cause=LOST):
        outcomes = {state: Outcome(GOOD) for state in range(13)}
        outcomes.update({state: cause for state in failing})
        plan = read_plan(LISTED, needs)
        return Pairs(plan, outcomes).pair_of(plan.listed[number])

    def test_the_pair_of_a_set_is_its_last_place_and_the_first_that_it_lacks(self):
        for kept_set, pair in (
            (0b11001, Pair(4, 1)),
            (0b111, Pair(2, None)),
            (0b100, Pair(2, 0)),
            (0, Pair(None, None)),
        ):
            self.assertEqual(Pair.of_set(kept_set), pair)

    def test_a_pair_explains_sets_with_the_kept_and_without_the_lost_one(self):
        for pair, kept_set, may_explain in (
            (Pair(4, 1), 0b11001, True),
            (Pair(4, 1), 0b11011, False),
            (Pair(4, 1), 0b01001, False),
            (Pair(None, 1), 0b00001, False),
            (Pair(4, None), 0b10000, False),
        ):
            self.assertEqual(pair.may_explain(kept_set), may_explain, (pair, bin(kept_set)))

    def test_a_loss_explains_sets_that_lack_all_of_it_and_have_the_kept_one(self):
        loss = Loss(Pair(4, 1), 0b0110)
        for kept_set, lost_set, may_explain in (
            (0b11001, 0b0110, True),
            (0b10001, 0b1110, True),
            (0b11101, 0b0010, False),
            (0b01001, 0b0110, False),
        ):
            self.assertIs(loss.may_explain(kept_set, lost_set), may_explain, bin(kept_set))

    def test_two_failures_are_the_same_only_if_both_are_bad_or_both_gave_no_answer(self):
        pairs = Pairs(read_plan(LISTED), {})
        silent = Outcome(NO_ANSWER, LOST.cause)
        for one, other, is_same in (
            (LOST, LOST, True),
            (silent, silent, True),
            (LOST, silent, False),
            (Outcome(GOOD), Outcome(GOOD), False),
        ):
            self.assertIs(pairs.is_same_failure(one, other), is_same, (one, other))

    def test_states_that_were_not_tried_are_skipped(self):
        plan = read_plan(LISTED)
        for number, untried, failing, pair in (
            (9, 8, (7, 9), Pair(2, 1)),
            (9, 8, (9,), Pair(4, 1)),
            (2, 3, (2,), Pair(1, 3)),
        ):
            outcomes = {state: Outcome(GOOD) for state in range(13) if state != untried}
            outcomes.update({state: LOST for state in failing})
            self.assertEqual(Pairs(plan, outcomes).pair_of(plan.listed[number]), pair)

    def test_a_hole_is_what_was_lacking_when_it_began_to_fail(self):
        self.assertEqual(self.pair(9, [9]), Pair(4, 1))
        self.assertEqual(self.pair(9, [7, 8, 9]), Pair(2, 1))
        self.assertEqual(self.pair(9, [7, 9]), Pair(4, 1))
        # A longer hole doesn't matter.
        self.assertEqual(self.pair(8, [7, 8]), Pair(2, 1))

    def test_a_hole_that_lacks_less_and_fails_too_is_to_blame(self):
        three_needs_one = [0b1, 0b11, 0b101, 0b1010, 0b10000]
        self.assertEqual(self.pair(9, [9, 10], three_needs_one), Pair(4, 3))
        self.assertEqual(self.pair(9, [9], three_needs_one), Pair(4, 1))
        self.assertEqual(self.pair(9, [9, 10]), Pair(4, 1))

    def test_states_that_fail_otherwise_count_as_good(self):
        outcomes = {state: Outcome(GOOD) for state in range(13)}
        outcomes.update({9: LOST, 8: Outcome(BAD, 'corrupt: a'), 7: LOST})
        plan = read_plan(LISTED)
        self.assertEqual(Pairs(plan, outcomes).pair_of(plan.listed[9]), Pair(4, 1))
        outcomes[8] = Outcome(BAD, 'lost: another')
        self.assertEqual(Pairs(plan, outcomes).pair_of(plan.listed[9]), Pair(4, 1))
        # No other state has this very cause, so that the word counts.
        outcomes[9] = Outcome(BAD, 'lost: the third')
        self.assertEqual(Pairs(plan, outcomes).pair_of(plan.listed[9]), Pair(2, 1))
        # Causes that differ in numbers are one.
        outcomes.update({9: Outcome(BAD, 'lost: row 3'), 8: Outcome(BAD, 'lost: row 2'), 7: LOST})
        self.assertEqual(Pairs(plan, outcomes).pair_of(plan.listed[9]), Pair(3, 1))

    def test_a_hole_whose_prefix_fails_alike_is_not_to_blame(self):
        self.assertEqual(self.pair(9, [5, 9]), Pair(4, None))

    def test_a_prefix_is_reported_with_what_mends_it(self):
        self.assertEqual(self.pair(2, [2, 3]), Pair(1, 3))
        self.assertEqual(self.pair(0, [0]), Pair(None, 0))
        self.assertEqual(self.pair(5, [4, 5]), Pair(3, None))

    def test_a_state_that_is_equal_to_a_prefix_has_its_pair(self):
        self.assertEqual(self.pair(7, [7]), Pair(2, 1))
        self.assertEqual(self.pair(7, [1, 7]), Pair(0, 1))
        self.assertEqual(self.pair(11, [1, 2, 7, 11]), Pair(0, 2))
        # The tree of prefix 3, but a line more was acknowledged.
        self.assertEqual(self.pair(10, [3, 10]), Pair(4, 3))

    def test_a_pick_is_reported_with_a_hole_that_fails_too_or_the_first_that_it_lacks(self):
        self.assertEqual(self.pair(11, [11]), Pair(2, 1, is_guess=True))
        self.assertEqual(self.pair(11, [11, 7]), Pair(2, 1))
        self.assertEqual(self.pair(12, [12]), Pair(None, None))
        for places, pair in (('0,1', Pair(1, None)), ('1', Pair(1, 0, is_guess=True))):
            pick = f'{{"state":13,"kind":"pick","places":[{places}],"says":0,"same":13}}\n'
            plan = read_plan(LISTED + pick)
            self.assertEqual(Pairs(plan, {13: LOST}).pair_of(plan.listed[13]), pair)


class Text(unittest.TestCase):
    def report(self, outcomes):
        report = CheckReport(Head('a.trace', '', [], lines=LINES))
        report.add(Findings(report.head, Results(read_plan(LISTED), outcomes), {}))
        return report

    def test_equal_states_have_the_outcome_of_the_first(self):
        outcomes = {state: Outcome(GOOD) for state in (0, 1, 2, 3, 4, 5, 8, 10)}
        report = self.report({**outcomes, 9: LOST, 1: LOST})
        self.assertEqual(
            ReportText(report).lines(),
            [
                'a.trace: 5 micro-operations, 13 states, 9 different: '
                '2 fail (4 of all 13 states): 2 lost',
                '  lost: a                                              1 state: --state 1',
                '    from line 2 (creat /a line 3) until line 3 (write /a b, 16 bytes at 0) it '
                'fails, though nothing',
                '      is lost',
                '    no sync helps: make these lines one change (write a new file, sync it, '
                'rename it, sync the',
                '      directory)',
                '  lost: a                                              1 state: --state 9',
                '    line 3 (write /a b, 16 bytes at 0) was not durable when line 6 acknowledged '
                '"row 1":',
                '    fsync /a b between them, before line 5 (rename /a b to /c)',
            ],
        )
        self.assertEqual(report.status, 1)

    def test_a_state_of_several_entries_is_counted_once_as_a_further_one(self):
        report = self.report({0: LOST})
        (group,) = report.groups()
        entries = [
            replace(group, tried_states=frozenset((number,) for number in numbers))
            for numbers in ((1, 2), (2, 3), (3, 4, 5), (1,))
        ]
        end = '(all are in the file of --json)'
        for shown_count, words in (
            (0, '5 more states in 4 other entries'),
            (1, '3 more states in 3 other entries'),
            (2, '2 more states in 2 other entries'),
            (3, '1 other entry'),
        ):
            with self.subTest(shown_count), mock.patch.object(text, 'SHOWN_GROUPS', shown_count):
                line = ReportText(report).entry_lines(entries)[-1]
                self.assertEqual(line, f'  and {words} {end}')

    def test_states_that_the_window_before_tried_are_not_counted_again(self):
        results = Results(read_plan(LISTED), numbers_before={0: 40, 1: 41})
        report = CheckReport(Head('a.trace', '', []), has_states=True)
        report.add(Findings(report.head, results, {40: LOST, 41: LOST}))
        # These are equal to the states 0 and 1.
        rows = [state.number for state, _, _ in report.state_outcomes]
        self.assertEqual(rows, [6, 7, 11, 12])
        self.assertEqual((report.counts.all_failing_states, report.counts.tried_states), (4, 0))
        groups = report.windows[0].groups
        self.assertEqual(sorted(state.number for group in groups for state in group.states), rows)
        self.assertEqual({group.tried_states for group in groups}, {frozenset()})

    def test_no_answer_counts_more_than_a_failure(self):
        report = self.report({0: Outcome(NO_ANSWER, 'it had not ended'), 1: LOST})
        self.assertIn(
            ': 1 of the 2 tried fails: 1 lost; 1 gave no answer; 7 not tried',
            ReportText(report).summary(),
        )
        self.assertEqual(report.status, 3)
        self.assertEqual(self.report({0: Outcome(GOOD)}).status, 3)


if __name__ == '__main__':
    unittest.main()
