"""Sessions in windows: all that is tried is of the session, and all in a window is tried."""

import os
import unittest
from types import SimpleNamespace
from unittest import mock

from crashfs_tools.checker.checked_trace import NUMBER_OF_END
from crashfs_tools.checker.findings.read_trees import entries_of
from crashfs_tools.checker.report.report import CheckReport
from crashfs_tools.checker.report.text import ReportText
from crashfs_tools.checker.running.results import Head, Results
from crashfs_tools.checker.states.place_sets import places_of
from crashfs_tools.checker.states.plan import Offsets, PlannedTrace, equal_states_before
from crashfs_tools.checker.states.planning import Planner
from crashfs_tools.checker.states.read_plan import read_plan
from crashfs_tools.checker.states.steps import Session, Steps
from crashfs_tools.checker.states.windows import Windows
from crashfs_tools.common import limits
from crashfs_tools.common.command import Refused
from crashfs_tools.common.program import ProgramFault
from crashfs_tools.common.trace_lines import parse_trace_text
from crashfs_tools.reading import ReadingFault, make_plan, parse_trace
from crashfs_tools.reading.listing import json_listing
from crashfs_tools.reading.main import read_options
from crashfs_tools.reading.picking import different_places
from crashfs_tools.reading.plan import file_sets, lost_sets, read_picks

from .random_traces import RandomTrace
from .support import EXAMPLE_TRACES, EXAMPLES, FAKE
from .test_check_command import InStore

RIGHTS = '"owner":"u","group":"u","mode":"644"'
HEADER = '{"trace":3,"profile":"blocks","block":4096,"owner":"u","group":"u","mode":"755"}\n'
# Prints the tree that it runs in, and how many lines were acknowledged.
SHOW = [
    'sh',
    '-c',
    'echo "$CRASHFS_SAYS $(find . -type f | sort | xargs -d "\\n" -r sha256sum) '
    '$(find . -printf "%P %y %m\\n" | sort)" | sha256sum >> "$0"',
]


def creat(path):
    return f'{{"op":"creat","path":"{path}",{RIGHTS}}}\n'


def write(path, size, offset=0):
    return f'{{"op":"write","path":"{path}","offset":{offset},"bytes":"{"61" * size}"}}\n'


def sync(path):
    return f'{{"op":"fsync","path":"{path}"}}\n'


def said(text):
    return f'{{"op":"say","text":"{text}"}}\n'


def log_of(count):
    """A log that is synced after each line, which is then acknowledged."""
    text = HEADER + creat('/log') + sync('/')
    for number in range(count):
        text += write('/log', 8, 8 * number) + sync('/log') + said(f'row {number}')
    return text


class Reader:
    """The second reading in this process, in the place of the program."""

    is_unproved = True

    @staticmethod
    def plan(options):
        with open(options['--trace'], 'rb') as file:
            reading = parse_trace(file.read())
        picks = []
        if '--picks' in options:
            with open(options['--picks'], 'rb') as file:
                picks = read_picks(file.read())
        return make_plan(reading, has_holes='--holes' in options, picks=picks)

    def output_of(self, words, _environment=None):
        """What the program would print."""
        options = read_options(words)
        try:
            plan = self.plan(options)
        except ReadingFault as fault:
            raise ProgramFault(1, str(fault).encode()) from fault
        if words[0] == 'list':
            return ''.join(json_listing(plan))
        has_lost = '--lost' in options
        sets = lost_sets(plan.order) if has_lost else file_sets(plan.order, plan.trees)
        return ''.join(f'{places}\n' for places in different_places(sets))

    def tree_with_root(self, words, _environment=None):
        options = read_options(['tar', *words])
        plan = self.plan(options)
        tree = plan.trees.tree(plan.states[int(options['--state'])].place_set)
        return entries_of(tree)


class InWindows(InStore):
    def made(self, text, size, quick=False):
        options = SimpleNamespace(
            prefixes=False,
            has_lost=not quick,
            has_files=not quick,
            serve=None,
            may_try_all=False,
            profile=None,
        )
        guard = SimpleNamespace(directory=self.temporary, environment={})
        return Windows(Planner(options, Reader(), guard), Session('w', text), size)

    def windows(self, text, size, quick=False):
        """The windows, and the results of each if nothing is tried."""
        windows = self.made(text, size, quick)
        results = []
        for planned in windows.all_planned():
            known = equal_states_before(results[-1].plan, planned.plan) if results else {}
            results.append(Results(planned.plan, numbers_before=known))
        for name in os.listdir(self.temporary):
            os.unlink(os.path.join(self.temporary, name))
        return windows, results


class Tried(InWindows):
    """What is tried of each session, beside the plan of the whole."""

    def sessions(self):
        for path in EXAMPLE_TRACES:
            if path.parent.name != 'sqlite':
                yield path.name, path.read_text(encoding='utf-8')
        for version in (1, 2, 3):
            for seed in range(4):
                text = RandomTrace(version, seed).text()
                try:
                    parse_trace(text.encode())
                except ReadingFault:
                    continue  # Its last line has a fault.
                yield f'{version} {seed}', text

    def test_states_are_those_of_the_session_and_all_that_lie_within_a_window(self):
        windows = 0
        for name, text in self.sessions():
            whole = read_plan(
                ''.join(json_listing(make_plan(parse_trace(text.encode()), has_holes=True)))
            )
            with self.subTest(name):
                _, results = self.windows(text, 5, quick=True)
                windows += len(results)
                tried = set()
                for one in results:
                    self.assert_same_operations(one.plan, whole)
                    tried |= {
                        one.plan.kept[state.number] << one.plan.first_place
                        | (1 << one.plan.first_place) - 1
                        for state in one.own_states
                    }
                    self.assert_all_within(one.plan, whole)
                self.assertLessEqual(tried, {whole.kept[state.number] for state in whole.states})
                ends = [one.plan.first_place + len(one.plan.operations) for one in results]
                self.assertEqual(ends[-1], len(whole.operations))
        self.assertGreater(windows, 30)

    def assert_same_operations(self, part, whole):
        """But for the numbers of files, which texts of files don't have."""
        same = whole.operations[part.first_place : part.first_place + len(part.operations)]
        if part.operations:
            self.assertEqual(
                [(one.place, one.kind, one.path, one.line) for one in part.operations],
                [(one.place, one.kind, one.path, one.line) for one in same],
            )

    def assert_all_within(self, part, whole):
        """Each prefix and hole of the whole that lies within a window is in it."""
        begin, end = part.first_place, part.first_place + len(part.operations)
        wanted = {
            tuple(number - begin for number in state.numbers)
            for state in whole.states
            if state.numbers[0] >= begin and state.numbers[-1] <= end
        }
        self.assertEqual({state.numbers for state in part.states}, wanted)

    def test_picks_are_allowed_sets_of_the_session(self):
        for name, text in self.sessions():
            whole = read_plan(
                ''.join(json_listing(make_plan(parse_trace(text.encode()), has_holes=True)))
            )
            with self.subTest(name):
                for one in self.windows(text, 7)[1]:
                    lead = (1 << one.plan.first_place) - 1
                    for state in one.own_states:
                        kept = one.plan.kept[state.number] << one.plan.first_place | lead
                        self.assertTrue(whole.needs.is_allowed(kept), list(places_of(kept)))

    def test_trees_says_and_lines_are_those_of_the_session(self):
        """COMMAND sees in the windows only what it sees in the whole, but for which state it is."""
        text = (EXAMPLES / 'store.trace').read_text(encoding='utf-8')
        trace = self.write('s.trace', text)
        seen = []
        for words in [('--quick',), ('--quick', '--window', '4')]:
            log = self.path('seen')
            self.run_tool('crashfs-check', '--crashfs', FAKE, *words, trace, '--', *SHOW, log)
            seen.append(set(self.read('seen').split('\n')))
            os.unlink(log)
        self.assertGreater(len(seen[1]), 10)
        self.assertLessEqual(seen[1], seen[0])

    def test_the_tree_at_the_end_has_a_number_that_no_other_state_has(self):
        trace = self.write('s.trace', log_of(5))
        words = ['--crashfs', FAKE, '--jobs', '1', '--window', '6', '--prefixes', trace]
        log = 'echo $CRASHFS_STATE >> "$0"'
        ran = self.run_tool('crashfs-check', *words, '--', 'sh', '-c', log, self.path('log'))
        self.assertEqual((ran.returncode, ran.stderr), (0, ''))
        numbers = [int(line) for line in self.read('log').split()]
        self.assertEqual(numbers[0], NUMBER_OF_END)
        # After the states of the first window the start tree is tried with all acknowledged lines.
        self.assertEqual(sorted(numbers[1:]), sorted([0, *set(numbers[1:]) - {NUMBER_OF_END}]))
        self.assertGreater(len(numbers), 15)

    def test_no_state_is_tried_twice(self):
        _, results = self.windows(log_of(12), 9)
        sets = [
            one.plan.kept[state.number] << one.plan.first_place | (1 << one.plan.first_place) - 1
            for one in results
            for state in one.own_states
            if state.family != 'pick'
        ]
        self.assertEqual(len(sets), len(set(sets)))
        self.assertTrue(any(one.numbers_before for one in results[1:]))


class Cuts(InWindows):
    def test_the_next_window_begins_at_the_first_pending_operation(self):
        """Each row is two writes, of two micro-operations each, a sync and a line."""
        text = log_of(12).replace(
            sync('/log') + '{"op":"say"',
            write('/log', 4096, 4096)
            + '{"op":"truncate","path":"/log","length":5000}\n'
            + sync('/log')
            + '{"op":"say"',
        )
        windows, results = self.windows(text, 9)
        begins = [(one.plan.first_place, len(one.plan.operations)) for one in results]
        self.assertEqual(begins[:3], [(0, 8), (7, 9), (16, 9)])
        self.assertEqual(windows.cut_off, [])

    def test_what_stays_pending_is_cut_off_after_half_a_window_and_reported(self):
        text = HEADER + ''.join(creat(f'/{number}') for number in range(20))
        windows, results = self.windows(text, 8)
        self.assertEqual([one.plan.first_place for one in results], [0, 4, 8, 12])
        self.assertEqual(
            [(one.line, one.tried_count) for one in windows.cut_off[:5]],
            [(2, 7), (3, 6), (4, 5), (5, 4), (6, 7)],
        )
        lines = parse_trace_text(text).operations
        report = CheckReport(Head('a', '', [], lines=lines, cut_off=[(2, 7), (3, 6)]))
        self.assertEqual(
            ReportText(report).lines()[1:],
            [
                '  the loss of line 2 (creat /0) was tried for 7 later micro-operations only, '
                'and so with 1 more line'
            ],
        )

    def test_only_the_last_window_has_files(self):
        text = HEADER + ''.join(creat(f'/{number}') for number in range(20))
        windows = 0
        for planned in self.made(text, 8).all_planned():
            name = os.path.basename(planned.trace)
            self.assertEqual(sorted(os.listdir(self.temporary)), [name, f'{name}.picks'])
            windows += 1
        self.assertEqual(windows, 4)

    def test_a_trace_that_is_written_for_a_question_goes_also_if_it_is_refused(self):
        windows = self.made(log_of(4), 8)
        steps, probe = Steps(windows.session), os.path.join(self.temporary, 'probe')
        refuse = mock.Mock(side_effect=Refused)
        with mock.patch.multiple(windows.planner, has_few_states=refuse, plan_prefixes=refuse):
            for ask in (
                lambda: windows.has_few_states(steps, 3),
                lambda: windows.needs_with_probe(probe, log_of(4)),
            ):
                with self.assertRaises(Refused):
                    ask()
                self.assert_nothing_left()
        self.assertEqual(refuse.call_count, 2)

    def test_each_window_is_planned_once(self):
        """Also the second: from half a window on the long write after the first has 94 states with
        what is before it, so that with fewer it would end where the first does."""
        text = log_of(4).replace(
            sync('/'), creat('/never') + creat('/big') + sync('/') + write('/never', 3), 1
        )
        text += 3 * (write('/big', 40_960) + sync('/big')) + log_of(4).partition(sync('/'))[2]
        for states, begins in ((93, [0, 17, 28, 38]), (94, [0, 10, 28, 38])):
            with mock.patch.object(limits, 'STATES', states), mock.patch.object(
                Reader, 'output_of', autospec=True, side_effect=Reader.output_of
            ) as asked:
                _, results = self.windows(text, 60)
            plans = [call for call in asked.mock_calls if '--holes' in call.args[1]]
            self.assertEqual([one.plan.first_place for one in results], begins)
            self.assertEqual(len(plans), len(results))

    def test_links_stay_links_over_a_cut(self):
        text = HEADER + creat('/a') + '{"op":"link","from":"/a","to":"/b"}\n'
        text += '{"op":"sync"}\n' * 2 + ''.join(said(str(number)) for number in range(6))
        text += write('/b', 3)
        last = self.windows(text, 4)[1][-1]
        self.assertEqual(last.plan.operations[-1].path, '/a')

    def test_a_long_write_is_cut_into_what_makes_the_same_micro_operations(self):
        text = HEADER + creat('/a') + write('/a', 5) + write('/a', 300 * 4096, 100)
        text += write('/a', 130 * 4096, 3)
        session = Session('a', text)
        whole = read_plan(''.join(json_listing(make_plan(parse_trace(text.encode())))))
        cut, lines = Steps(session).trace_until(len(session.steps))
        plan = read_plan(''.join(json_listing(make_plan(parse_trace(cut.encode())))))
        self.assertEqual(
            [(one.text, lines[one.line - 1]) for one in plan.operations],
            [(one.text, one.line) for one in whole.operations],
        )
        self.assertEqual(plan.needs.masks, whole.needs.masks)
        self.assertEqual(session.places[-1], len(whole.operations))
        self.assertLess(max(one.size for one in session.steps), 66)


class Shown(InWindows):
    def test_progress_says_which_part_of_the_session_it_is(self):
        _, results = self.windows(log_of(12), 9)
        planned = [
            PlannedTrace('', [], one.plan, Offsets(operations=one.plan.first_place), is_last)
            for one, is_last in ((results[0], False), (results[1], True))
        ]
        self.assertEqual(
            [one.window_text() for one in planned],
            ['micro-operations 0 to 8: ', 'micro-operations 9 to 17: '],
        )
        self.assertEqual(PlannedTrace('', [], results[0].plan).window_text(), '')


class Limits(InWindows):
    def test_a_session_of_more_micro_operations_is_checked_in_windows(self):
        trace = self.write('long.trace', log_of(400))
        ran = self.run_tool('crashfs-check', '--crashfs', FAKE, '--prefixes', trace, '--', 'true')
        self.assertEqual((ran.returncode, ran.stderr), (0, ''))
        self.assertEqual(
            ran.stdout.splitlines(),
            [
                'long.trace: 1,201 micro-operations in 2 windows, 1,202 states, 1,202 different: '
                'none fails',
                '  COMMAND passes even if the whole session is lost: does it look for what was '
                'acknowledged?',
            ],
        )

    def test_a_window_has_no_more_states_than_a_plan_takes(self):
        text = HEADER + ''.join(creat(f'/{number}') for number in range(200))
        with self.assertRaisesRegex(ReadingFault, 'plan too large'):
            make_plan(parse_trace(text.encode()), has_holes=True)
        _, (window, *_) = self.windows(text, limits.MICRO_OPERATIONS, quick=True)
        self.assertLessEqual(len(window.plan.listed), limits.STATES)
        self.assertGreater(len(window.plan.operations), 170)

    def test_a_fault_of_a_later_line_is_reported_with_it(self):
        trace = self.write('bad.trace', log_of(400) + creat('/log'))
        ran = self.run_tool('crashfs-check', '--crashfs', FAKE, trace, '--', 'true')
        self.assertEqual(
            (ran.returncode, ran.stdout, ran.stderr),
            (2, '', f'crashfs-check: crashfs: {trace}:1204: /log is there already\n'),
        )


if __name__ == '__main__':
    unittest.main()
