"""Advice: where syncs belong, what is tried, and what is only said if it helps."""

import itertools
import os
import tempfile
import unittest
from pathlib import Path
from types import SimpleNamespace
from unittest import mock

from crashfs_tools.checker.findings.advice import (
    Advice,
    AdviceResult,
    FailingCounts,
    loss_advice,
    no_loss_advice,
)
from crashfs_tools.checker.findings.swaps import Swap, lines_to_move
from crashfs_tools.checker.findings.sync_points import never_synced_directory, sync_points
from crashfs_tools.checker.report.text import ReportText
from crashfs_tools.checker.states.plan import Offsets
from crashfs_tools.common.trace_lines import TraceLine, parse_trace_text, with_syncs

from .support import FAKE
from .test_check_command import InStore
from .test_groups import THIRD, line, rename, report_of, write


def lines_of(*lines):
    """A file of so many lines, by their numbers from 2."""
    return parse_trace_text(THIRD + ''.join(lines)).operations


class Points(unittest.TestCase):
    def test_one_sync_serves_all_pairs_that_it_is_between(self):
        lines = lines_of(*[write('/f', 'x', at) for at in range(12)])
        for places, wanted in [
            ([(2, 5), (3, 5), (4, 5)], {4: '/f'}),
            ([(2, 3), (4, 5)], {2: '/f', 4: '/f'}),
            ([(2, 9), (3, 4), (5, 9)], {3: '/f', 5: '/f'}),
            ([(2, 13)], {2: '/f'}),
        ]:
            self.assertEqual(sync_points(places, lines), wanted)

    def test_there_are_as_few_as_possible(self):
        lines = lines_of(*[write('/f', 'x', at) for at in range(7)])
        pairs = [(lost, kept) for lost in range(2, 8) for kept in range(lost + 1, 9)]
        for places in itertools.combinations(pairs, 3):
            points = sync_points(places, lines)
            self.assertTrue(all(any(a <= at < b for at in points) for a, b in places), places)
            fewer = itertools.combinations(range(2, 8), len(points) - 1)
            for other in fewer:
                self.assertFalse(all(any(a <= at < b for at in other) for a, b in places))

    def test_each_file_has_its_own_and_before_it_is_renamed(self):
        lines = lines_of(
            write('/a', 'x'), write('/b', 'x'), rename('/a', '/c'), line('creat', '/d')
        )
        self.assertEqual(sync_points([(2, 5), (3, 5)], lines), {2: '/a', 3: '/b'})
        self.assertEqual(sync_points([(4, 5)], lines), {4: '/'})

    def test_a_file_is_synced_while_its_path_names_it(self):
        creat, log = line('creat', '/a'), line('creat', '/log')
        link = [write('/a', 'x'), line('link', **{'from': '/a', 'to': '/c'})]
        for before, number in [
            ([*link, line('unlink', '/a'), creat], 6),
            ([*link, rename('/x', '/a')], 5),
            ([write('/a', 'x'), rename('/a', '/c'), creat], 5),
        ]:
            lines = lines_of(*before, write('/a', 'x'), log)
            kept = number + 1
            self.assertEqual(
                sync_points([(2, kept), (number, kept)], lines), {2: '/a', number: '/a'}
            )
        lines = lines_of(*link, rename('/c', '/a/b'), write('/a', 'x'), log)
        self.assertEqual(sync_points([(2, 6), (5, 6)], lines), {5: '/a'})

    def test_a_directory_is_synced_while_its_path_names_it(self):
        for end in (rename('/d', '/e'), rename('/d/f', '/e'), line('rmdir', '/d/f')):
            lines = lines_of(
                write('/d/f/a', 'x'),
                line('creat', '/d/f/b'),
                end,
                line('mkdir', '/d/f'),
                write('/d/f/a', 'x'),
                line('creat', '/d/f/b'),
                line('creat', '/log'),
            )
            self.assertEqual(
                sync_points([(2, 8), (3, 8), (6, 8), (7, 8)], lines),
                {2: '/d/f/a', 3: '/d/f', 6: '/d/f/a', 7: '/d/f'},
            )

    def test_lost_lines_that_no_sync_makes_durable_are_left_out(self):
        lines = lines_of(write('/f', 'x'), line('say', text='stored'), write('/g', 'x'))
        self.assertEqual(sync_points([(2, 4), (3, 4), (5, 6)], lines), {2: '/f'})

    def test_a_pair_whose_lost_line_is_unknown_has_no_sync(self):
        lines = lines_of(write('/f', 'x'))
        self.assertEqual(sync_points([(7, 9), (2, 4)], lines), {2: '/f'})

    def test_a_directory_is_never_synced_if_all_syncs_are_of_it(self):
        creat, later = line('creat', '/d/a'), line('creat', '/d/b')
        for syncs, more, path in (
            ({2: '/d', 3: '/d'}, [], '/d'),
            # The line 9 is that of another window.
            ({2: '/d', 9: '/d'}, [], '/d'),
            ({2: '/d', 3: '/e'}, [], ''),
            ({}, [], ''),
            ({2: '/d/a'}, [], ''),
            ({2: '/d'}, [line('fsync', '/d')], ''),
            ({2: '/d'}, [line('sync')], ''),
            ({2: '/d'}, [line('fsync', '/')], '/d'),
            ({2: '/d'}, [line('mkdir', '/d')], '/d'),
        ):
            with self.subTest(syncs=syncs, more=more):
                self.assertEqual(never_synced_directory(syncs, lines_of(creat, later, *more)), path)

    def test_two_paths_may_be_synced_after_one_line(self):
        text = with_syncs('1\n2\n3', [(2, '/b'), (2, '/a'), (3, '/')])
        self.assertEqual(
            text,
            '1\n2\n{"op": "fsync", "path": "/a"}\n{"op": "fsync", "path": "/b"}\n3\n'
            '{"op": "fsync", "path": "/"}',
        )


class Said(unittest.TestCase):
    def test_results_for_one_entry_of_two_windows_are_added_up(self):
        result = AdviceResult(1, 5, 3, 2, FailingCounts(9, 4))
        self.assertEqual(
            result + AdviceResult(10, 60, 40, 30, FailingCounts(90, 50)),
            AdviceResult(11, 65, 43, 32, FailingCounts(99, 54)),
        )

    def test_what_makes_a_lost_line_durable_is_advised_before_its_path_changes(self):
        lines = lines_of(
            rename('/d/x', '/d/a'),
            write('/d/a', 'x'),
            rename('/d/a', '/d/b'),
            line('say', text='b'),
            line('creat', '/e/c'),
            line('fsync', '/d'),
        )
        write_text, say_text = 'line 3 (write /d/a, 1 bytes at 0)', 'line 5 (say "b")'
        for lost, kept, advised in (
            (
                3,
                5,
                [
                    f'{write_text} was not durable when line 5 acknowledged "b":',
                    'fsync /d/a between them, before line 4 (rename /d/a to /d/b)',
                ],
            ),
            (
                3,
                4,
                [
                    f'{write_text} was not durable when line 4 (rename /d/a to /d/b) was:',
                    'fsync /d/a between them',
                ],
            ),
            (
                4,
                5,
                [
                    'line 4 (rename /d/a to /d/b) was not durable when line 5 acknowledged "b":',
                    'fsync the directory /d between them',
                ],
            ),
            (
                6,
                7,
                [
                    'line 6 (creat /e/c) was not durable when line 7 (fsync /d) was:',
                    'the directory /e is never synced: fsync it between them',
                ],
            ),
            (5, 6, [f'{say_text} was not durable when line 6 (creat /e/c) was']),
        ):
            advice = loss_advice(lines[kept], lines[lost], [(lost, kept)], lines)
            self.assertEqual(advice.lines(), advised)
        both = loss_advice(lines[5], lines[3], [(3, 5), (6, 7)], lines)
        self.assertTrue(both.remedy.endswith(' (and at 1 more place)'), both.remedy)

    def test_a_failure_that_nothing_repairs_has_no_remedy(self):
        creat = TraceLine(2, 'creat', '/a')
        for kept, begin in ((None, 'the beginning'), (creat, 'line 2 (creat /a)')):
            advised = [f'from {begin} on it fails, though nothing is lost']
            self.assertEqual(no_loss_advice(kept, None).lines(), advised)

    def test_states_that_are_left_are_said_to_be(self):
        for result, sync_count, text in (
            (AdviceResult(5, 52, 0), 3, '5 of these 52 states are left, so they are not enough'),
            (AdviceResult(1, 1, 0), 1, 'this state is still left, so one sync is not enough'),
        ):
            self.assertIn(f' {text}, and no other fails', result.text(sync_count))

    def test_failures_are_counted_before_and_after(self):
        for counts, text, is_lower in (
            (FailingCounts(3, 0), 'none fails', True),
            (FailingCounts(3, 1), '1 state fails, 3 before', True),
            (FailingCounts(2000, 2000), '2,000 states fail, 2,000 before', False),
        ):
            self.assertEqual((counts.text, counts.is_lower), (text, is_lower))

    def test_advice_without_a_remedy_is_its_sentence(self):
        self.assertEqual(Advice(['line 2 was not durable']).lines(), ['line 2 was not durable'])

    def test_advice_that_leaves_as_many_failures_is_none(self):
        advice = Advice(['line 2 was not durable:'], 'fsync /f between them', {2: '/f'})
        advice.result = AdviceResult(0, 2, 84, 84, FailingCounts(84, 84))
        self.assertEqual(
            advice.lines(),
            [
                'line 2 was not durable:',
                'tried, and not enough alone: fsync /f between them '
                '(84 states fail then, 84 before)',
            ],
        )
        advice.result = AdviceResult(0, 2, 82, 82, FailingCounts(84, 82))
        self.assertEqual(advice.lines()[1], 'fsync /f between them')
        self.assertIn('tried: with that sync 0 of these 2 states', advice.lines()[2])

    def test_a_directory_that_is_never_synced_is_named_once(self):
        text = THIRD + line('creat', '/a') + line('say', text='a') + line('creat', '/b')
        text += line('mkdir', '/d') + line('say', text='b')

        def cause(files, says):
            gone = [name for name, least in (('a', 1), ('b', 2)) if says >= least]
            gone = [name for name in gone if f'/{name}' not in files]
            return f'lost: {gone[0]}' if gone else ''

        report = report_of(text, cause)
        remedies = [group.advice.remedy for group in report.groups()]
        self.assertEqual(
            [one for one in remedies if '1 more place' in one],
            ['the directory / is never synced: fsync it between them (and at 1 more place)'],
        )
        self.assertEqual(report.groups()[0].advice.syncs, {2: '/', 4: '/'})
        synced = report_of(text + line('fsync', '/'), cause)
        self.assertNotIn('never synced', ' '.join(ReportText(synced).lines()))


class Swapped(unittest.TestCase):
    def test_the_later_line_moves_with_what_it_needs(self):
        lines = lines_of(
            line('unlink', '/old'),
            line('creat', '/new+'),
            line('say', text='a'),
            write('/new+', 'x'),
            line('fsync', '/new+'),
            line('creat', '/other'),
            rename('/new+', '/new'),
        )
        self.assertEqual(lines_to_move(lines[2], lines[8], lines), [3, 5, 6, 8])

    def test_a_sync_of_everything_does_not_move(self):
        lines = lines_of(write('/a', 'x'), line('sync'), line('fsync', '/b'), write('/b', 'y'))
        self.assertEqual(lines_to_move(lines[2], lines[5], lines), [4, 5])

    def test_lines_of_the_same_file_do_not_change_places(self):
        lines = lines_of(line('truncate', '/f', length=0), line('creat', '/g'), rename('/f', '/g'))
        self.assertEqual(lines_to_move(lines[2], lines[4], lines), [])

    def planned_copy(self, moved_numbers, text, line_numbers):
        """The text of a copy in which these lines come before line 5, and its lines' numbers, from
        a window with this text and these lines of the session; None if there is no copy."""
        kept, lost = (TraceLine(number, 'write', f'/{number}') for number in (5, 6))
        with tempfile.TemporaryDirectory() as folder:
            trace = os.path.join(folder, 'window.trace')
            Path(trace).write_text(text, encoding='utf-8')
            trials = SimpleNamespace(
                planned=SimpleNamespace(offsets=Offsets(lines=line_numbers), trace=trace),
                guard=SimpleNamespace(directory=folder),
            )
            planner = mock.Mock()
            group = SimpleNamespace(kept_line=kept, lost_line=lost)
            if Swap(trials, planner, None, group).plan_copy(moved_numbers) is None:
                return None
            path, copied = planner.plan.call_args.args
            return Path(path).read_text(encoding='utf-8').split('\n'), copied.lines

    def test_a_kept_line_in_parts_comes_after_the_moved_lines_and_one_sync(self):
        text = 'header\n5 a\n5 b\n6\n7\n'
        lines, numbers = self.planned_copy([6], text, (0, 5, 5, 6, 7))
        sync = '{"op": "fsync", "path": "/6"}'
        self.assertEqual(lines, ['header', '6', sync, '5 a', '5 b', '7'])
        self.assertEqual(numbers, (0, 6, 0, 5, 5, 7))

    def test_a_window_that_has_a_line_in_parts_or_lacks_it_has_no_copy(self):
        text = 'header\n5\n6 a\n6 b\n8\n'
        for moved_numbers in ([6], [6, 7], [9]):
            with self.subTest(moved=moved_numbers):
                self.assertIsNone(self.planned_copy(moved_numbers, text, (0, 5, 6, 6, 8)))
        self.assertIsNone(self.planned_copy([6], 'header\n6\n', (0, 6)))


class Tries(InStore):
    def check(self, text, script):
        trace = self.write('a.trace', text)
        command = self.write('check.sh', '#!/bin/sh\n' + script, 0o755)
        ran = self.run_tool('crashfs-check', '--crashfs', FAKE, trace, '--', command)
        self.assertEqual(ran.returncode, 1, ran.stderr)
        self.assert_nothing_left()
        return ' '.join(ran.stdout.split())

    def test_another_order_is_advised_if_it_helps(self):
        """The old table is removed before the new one is named."""
        text = THIRD + line('creat', '/old') + line('fsync', '/') + line('say', text='made')
        text += line('unlink', '/old') + line('creat', '/new+') + line('fsync', '/new+')
        text += rename('/new+', '/new') + line('fsync', '/')
        script = (
            'test $CRASHFS_SAYS = 0 || test -e old || test -e new || '
            '{ echo "refused: no table"; exit 1; }\n'
        )
        shown = self.check(text, script)
        self.assertIn(
            'no sync helps: do line 8 before line 5, with a sync between them (tried: then none '
            'fails)',
            shown,
        )

    def test_another_order_that_does_not_help_is_not_advised(self):
        """A block that the old root refers to is used again before the new root is durable."""
        text = THIRD + line('creat', '/blocks') + write('/blocks', 'a') + line('creat', '/root')
        text += write('/root', 'a') + line('fsync', '/blocks') + line('fsync', '/root')
        text += line('fsync', '/') + line('say', text='a') + write('/blocks', 'b')
        text += line('fsync', '/blocks') + write('/root', 'b') + line('fsync', '/root')
        script = (
            'test $CRASHFS_SAYS = 0 || test $(cat root) = $(cat blocks) || '
            '{ echo "corrupt: another block"; exit 1; }\n'
        )
        shown = self.check(text, script)
        self.assertIn(
            'no sync helps: line 10 overwrites bytes that are needed until line 12 (write /root, '
            '1 bytes at 0) is durable: write to another place until then',
            shown,
        )
        self.assertNotIn('do line 12 before', shown)

    def test_all_syncs_are_tried_at_once_and_entries_are_folded(self):
        """Two files, each lost without a sync of its own; the row that is lost with the first one
        has another cause in states that lack more. Of such a cause the first entry has its
        sentences."""
        text = THIRD + line('creat', '/a') + line('creat', '/b') + line('fsync', '/')
        text += write('/a', '1') + line('say', text='a') + write('/b', '1')
        text += line('say', text='b') + line('creat', '/c')
        script = (
            'for f in a b; do test $CRASHFS_SAYS -lt 1 && exit; test $CRASHFS_SAYS = 1 && test $f '
            '= b && exit\ngrep -q 1 $f || { test -e c && echo "gone: $f" || echo "lost: $f"; exit '
            '1; }; done\n'
        )
        shown = self.check(text, script)
        self.assertIn(
            'with both syncs none fails with these syncs these entries are gone too:', shown
        )
        folded = shown.partition('are gone too:')[2]
        self.assertLess(folded.index('gone: a'), folded.index('was not durable'))
        self.assertLess(folded.index('was not durable'), folded.index('gone: b'))
        self.assertEqual(folded.count('was not durable'), 1)


if __name__ == '__main__':
    unittest.main()
