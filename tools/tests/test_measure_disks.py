"""measure disks: random sessions, and whether disks are crash states of them."""

from __future__ import annotations

import contextlib
import hashlib
import io
import json
import os
import subprocess
import sys
import unittest
from dataclasses import asdict
from pathlib import Path
from typing import List
from unittest import mock

from crashfs_tools.checker.findings.read_trees import entries_of
from crashfs_tools.checker.states.steps import trace_text
from crashfs_tools.common.entry import Entries
from crashfs_tools.common.trace import KINDS, Chmod, Chown, Trace
from crashfs_tools.disks.disk import Crash, Disk, digest_of
from crashfs_tools.disks.filesystems import missing_requirement, filesystems_by_names
from crashfs_tools.disks.flushes import FlushKind
from crashfs_tools.disks.moments import Moment
from crashfs_tools.reading import parse_trace
from crashfs_tools.reading.every import every_set
from crashfs_tools.reading.order import Order
from crashfs_tools.reading.trees import Trees
from measuring.command import main
from measuring.disk_sessions import (
    OPERATIONS,
    SessionResult,
    session_result,
    sums_table,
)
from measuring.disks import Measurement, parse_words
from measuring.random_sessions import draw_session

from .support import PATIENCE, TOOLS, InFolder, needed


def disk_of(tree: Entries, says: int) -> Disk:
    """A disk that one crash left, after so many acknowledged lines."""
    return Disk(tree, digest_of(tree), [Crash(Moment(1, says, says, 5), FlushKind.NOTHING)])


def disks_of(trace: Trace, profile: str) -> List[Disk]:
    """A disk for each of the first sets that a profile may leave."""
    reading = parse_trace(trace_text(trace).encode())
    trees, order = Trees(reading), Order(reading, profile)
    return [
        disk_of(entries_of(trees.tree(one)), trees.count_says(one))
        for one in every_set(Order(reading))
        if order.is_allowed(one)
    ][:100]


class Sessions(unittest.TestCase):
    def test_a_seed_gives_one_session_and_all_kinds_are_drawn(self) -> None:
        found = set()
        for seed in range(150):
            trace = draw_session(seed, OPERATIONS)
            self.assertEqual(trace_text(trace), trace_text(draw_session(seed, OPERATIONS)))
            self.assertGreater(len(parse_trace(trace_text(trace).encode()).operations), 1)
            found.update(map(type, trace.operations))
        self.assertEqual(set(KINDS.values()) - found, {Chmod, Chown})

    def test_a_seed_gives_the_session_that_it_always_gave(self) -> None:
        text = ''.join(trace_text(draw_session(seed, 7)) for seed in range(1, 31))
        self.assertEqual(
            hashlib.sha256(text.encode()).hexdigest(),
            '091ca81d648c470b9ecc62ebecd749dd76d43d865ae7a0626a42756dcb266598',
        )


class Judgements(unittest.TestCase):
    def test_states_are_inside_and_other_trees_are_not(self) -> None:
        for seed in range(20):
            trace = draw_session(seed, OPERATIONS)
            for name, profile in (('ext4', 'journal'), ('btrfs', 'blocks')):
                disks = disks_of(trace, profile)
                result = session_result(name, seed, trace, disks)
                self.assertEqual((result.outside, result.different), ([], len(disks)))
                self.assertEqual(result.allowed[profile], len(disks))

    def test_a_tree_that_no_set_leaves_is_outside(self) -> None:
        trace = draw_session(3, OPERATIONS)
        for disk in disks_of(trace, 'blocks')[:10]:
            odd = {**disk.tree, '/odd': disk.tree['/']}
            late = disk_of(disk.tree, 9)
            result = session_result('btrfs', 3, trace, [disk_of(odd, disk.line_counts[0]), late])
            self.assertEqual((len(result.outside), result.allowed['blocks']), (2, 0))
            self.assertIn('/odd directory', result.outside[0])
            self.assertTrue(result.outside[0].startswith('line 5, nothing more written: '))

    def test_what_only_a_weaker_profile_may_leave_is_outside_of_the_file_systems(self) -> None:
        outside = 0
        for seed in range(20):
            trace = draw_session(seed, OPERATIONS)
            disks = disks_of(trace, 'blocks')
            result = session_result('ext4', seed, trace, disks)
            self.assertEqual(result.allowed['blocks'], len(disks))
            self.assertEqual(len(result.outside), len(disks) - result.allowed['journal'])
            outside += len(result.outside)
        self.assertGreater(outside, 100)

    def test_the_table_has_a_row_for_each_file_system(self) -> None:
        one = SessionResult('ext4', 1, 1000, 20, 99, {'blocks': 20, 'ordered': 19, 'journal': 18})
        rows = list(sums_table([one, one, SessionResult('xfs', 1, 1, 1, 1, dict(one.allowed))]))
        self.assertEqual(rows[2], '| ext4 | 2 | 2,000 | 40 | 40 | 38 | 36 |')
        self.assertEqual([row.split(' ')[1] for row in rows[2:]], ['ext4', 'xfs'])


class Kept(InFolder):
    """Results that DIR has."""

    def seeds_done(self, *words: str) -> List[int]:
        given = ['--on', 'ext4', '--sessions', '3', *words, self.path('found')]
        run = Measurement(parse_words(given))
        missing = {seed for _, seed in run.tasks_left()}
        self.assertEqual(missing, {1, 2, 3} - {one.seed for one in run.read_results()})
        return [one.seed for one in run.read_results()]

    def test_counts_below_one_are_wrong_words(self) -> None:
        for words in (['--jobs', '0'], ['--sessions', '0'], ['--operations', '-1']):
            with self.subTest(words):
                with contextlib.redirect_stderr(io.StringIO()) as printed:
                    with self.assertRaises(SystemExit) as ended:
                        parse_words([*words, self.path('found')])
                self.assertEqual(ended.exception.code, 2)
                self.assertIn('is not a number from 1', printed.getvalue())

    def test_a_file_system_that_is_named_twice_is_measured_once(self) -> None:
        words = ['--on', 'ext4,xfs,ext4', '--sessions', '1', self.path('found')]
        tasks = Measurement(parse_words(words)).tasks_left()
        self.assertEqual(tasks, [('ext4', 1), ('xfs', 1)])

    def test_a_session_with_another_number_of_operations_is_not_done(self) -> None:
        os.mkdir(self.path('found'))
        run = Measurement(parse_words(['--operations', '99', self.path('found')]))
        run.save_result(SessionResult('ext4', 1, operations=99))
        run.save_result(SessionResult('ext4', 2))
        # A line of a file that didn't say how many they are.
        old = asdict(SessionResult('ext4', 3))
        del old['operations']
        with run.results_path.open('a', encoding='utf-8') as file:
            file.write(json.dumps(old) + '\n')
        self.assertEqual(self.seeds_done(), [2, 3])
        self.assertEqual(self.seeds_done('--operations', '99'), [1])
        self.assertEqual(self.seeds_done('--operations', '3'), [])

    def test_a_disk_outside_its_profile_is_printed_and_its_session_kept(self) -> None:
        words = ['--on', 'ext4', '--sessions', '1', self.path('found')]
        os.mkdir(self.path('found'))
        counts = {'blocks': 20, 'ordered': 19, 'journal': 18}
        result = SessionResult('ext4', 1, 1000, 20, 99, counts, ['line 5, more: /a'])
        Measurement(parse_words(words)).save_result(result)
        trace = Path(self.path('found', f'ext4-1-{OPERATIONS}.trace')).read_text('utf-8')
        self.assertEqual(trace, trace_text(draw_session(1, OPERATIONS)))
        with mock.patch('measuring.disks.missing_requirement', return_value=None):
            with contextlib.redirect_stdout(io.StringIO()) as printed:
                self.assertEqual(main(['disks', *words]), 1)
        self.assertIn('| ext4 | 1 | 1,000 | 20 | 20 | 19 | 18 |\n', printed.getvalue())
        self.assertTrue(
            printed.getvalue().endswith('\n\noutside journal: ext4, session 1, line 5, more: /a\n')
        )


class OnImages(InFolder):
    def run_measure(self, *words: str) -> str:
        """In a process of its own: its guard ends what this process has started."""
        ran = subprocess.run(
            [sys.executable, str(TOOLS / 'measure'), 'disks', *words, self.path('found')],
            stdout=subprocess.PIPE,
            stderr=subprocess.DEVNULL,
            text=True,
            check=False,
            timeout=PATIENCE,
        )
        self.assertEqual(ran.returncode, 0)
        return ran.stdout

    @needed(
        missing_requirement(filesystems_by_names(['ext4'])) is None,
        'no root, loop devices or mkfs.ext4',
    )
    def test_a_session_is_made_once(self) -> None:
        words = ['--on', 'ext4', '--sessions', '1', '--operations', '3', '--jobs', '1']
        printed = self.run_measure(*words)
        self.assertIn('\n| ext4 | 1 | ', printed)
        results = Path(self.path('found')) / 'results.jsonl'
        before = results.read_text('utf-8')
        self.assertEqual(self.run_measure(*words), printed)
        self.assertEqual(results.read_text('utf-8'), before)
        self.assertEqual([json.loads(line)['operations'] for line in before.splitlines()], [3])

    def test_file_systems_that_have_no_profile_are_refused(self) -> None:
        with contextlib.redirect_stderr(io.StringIO()) as err:
            self.assertEqual(main(['disks', '--on', 'ext4,zfs', self.path('found')]), 2)
        self.assertEqual(err.getvalue(), 'measure disks: zfs is none of ext4, xfs, btrfs\n')
        self.assertFalse(os.path.exists(self.path('found')))


if __name__ == '__main__':
    unittest.main()
