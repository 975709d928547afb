"""What was seen on disks, as a report says it, and the search for the trees of disks among the
crash states. No disks are made."""

from __future__ import annotations

import os
import unittest
from pathlib import Path
from types import SimpleNamespace
from typing import Any, List, Tuple
from unittest import mock

from crashfs_tools.checker.findings import disk_search
from crashfs_tools.checker.findings.read_trees import tree_and_count
from crashfs_tools.checker.findings.sightings import (
    DiskCounts,
    DiskFailure,
    Explanation,
    Reason,
    Sightings,
    sighting_text,
)
from crashfs_tools.checker.running.progress import Progress
from crashfs_tools.checker.running.runner import BAD, GOOD, LeftRunning, Outcome
from crashfs_tools.common.entry import Entries, Entry
from crashfs_tools.disks.disk import Crash, Disk, different_disks, digest_of
from crashfs_tools.disks.flushes import FlushKind
from crashfs_tools.disks.moments import Moment
from crashfs_tools.reading import parse_trace
from crashfs_tools.reading.trees import Trees

from .support import EXAMPLES, InFolder
from .test_pairs import LISTED, read_plan

CONFIG = EXAMPLES / 'config'
FIRST = Crash(Moment(6, 0, 1, 9), FlushKind.NOTHING)
LATER = Crash(Moment(7, 1, 1, 10), FlushKind.NOTHING)
LOG = Crash(Moment(2, 0, 0, 3), FlushKind.LOG)


class Sentences(unittest.TestCase):
    def test_where_states_were_seen_and_where_not(self) -> None:
        names = ['ext4', 'xfs', 'btrfs']
        self.assertEqual(sighting_text(names, {}), 'not seen on ext4, xfs or btrfs')
        self.assertEqual(
            sighting_text(names, {'xfs': LOG, 'ext4': FIRST}),
            'seen on ext4 (after line 9, nothing more written) and xfs (after line 3, the log '
            'written); not on btrfs',
        )
        self.assertEqual(
            sighting_text(['ext4'], {'ext4': Crash(Moment(0, 0, 0, 0), FlushKind.NOTHING)}),
            'seen on ext4 (before the first operation, nothing more written)',
        )

    def test_the_crash_that_says_most_is_named(self) -> None:
        found = Sightings()
        found.crashes_by_state = {
            3: {'ext4': LOG},
            4: {'ext4': LATER, 'xfs': LOG},
            5: {'ext4': FIRST},
        }
        self.assertEqual(found.crashes_of_states([3, 4, 5]), {'ext4': FIRST, 'xfs': LOG})
        self.assertEqual(found.crashes_of_states([5, 4, 3]), {'ext4': FIRST, 'xfs': LOG})
        found.counts = {name: DiskCounts(9, 3, 0) for name in ('ext4', 'xfs', 'f2fs')}
        self.assertEqual(
            found.text_of_states([4]),
            'seen on ext4 (after line 10, nothing more written) and xfs (after line 3, the log '
            'written); not on f2fs',
        )
        self.assertEqual(found.crashes_of_states([3]), {'ext4': LOG})
        self.assertEqual(found.crashes_of_states([9]), {})

    def test_of_two_crashes_of_one_rank_the_first_stays(self) -> None:
        same = FIRST._replace(moment=FIRST.moment._replace(least_says=1))
        found = Sightings(crashes_by_state={3: {'ext4': FIRST}, 4: {'ext4': same}})
        self.assertEqual(found.crashes_of_states([3, 4]), {'ext4': FIRST})
        self.assertEqual(found.crashes_of_states([4, 3]), {'ext4': same})

    def test_the_json_has_the_counts_the_first_crashes_and_the_further_failures(self) -> None:
        tree = {path: Entry('u', 'g', 0o755, None) for path in ('/b', '/')}
        failure = DiskFailure(
            Outcome(BAD, 'lost: a', 'out'), [1], {'xfs': LOG}, tree, Explanation(Reason.UNTRIED)
        )
        found = Sightings({'ext4': DiskCounts(9, 3, 1)}, further_failures=[failure])
        found.add_crashes([12, 3], {'ext4': LATER})
        found.add_crashes([3], {'ext4': FIRST})
        self.assertEqual(
            found.fields(),
            {
                'filesystems': {'ext4': {'crashes': 9, 'different': 3, 'failing': 1}},
                'states': {
                    '3': {'ext4': [9, 'nothing more written']},
                    '12': {'ext4': [10, 'nothing more written']},
                },
                'further': [
                    {
                        'cause': 'lost: a',
                        'where': 'not tried',
                        'says': [1],
                        'crashes': {'xfs': [3, 'the log written']},
                        'paths': ['/', '/b'],
                    }
                ],
            },
        )
        self.assertEqual(
            failure.lines()[1:],
            ['a crash state has this tree, and is not among those that were tried', '/, /b'],
        )

    def test_a_tree_on_a_disk_is_shown_with_its_first_paths(self) -> None:
        tree = {f'/{number:02}': Entry('u', 'g', 0o644, bytearray(3)) for number in range(14)}
        one = DiskFailure(
            Outcome(BAD, 'lost: a'), [1, 2], {'ext4': FIRST}, tree, Explanation(Reason.OUTSIDE)
        )
        where, why, paths = one.lines()
        self.assertEqual(why, 'no crash state has this tree')
        self.assertEqual(where, 'seen on ext4 (after line 9, nothing more written), says 1 or 2')
        self.assertTrue(paths.startswith('/00 (3 bytes), /01 (3 bytes)'), paths)
        self.assertTrue(paths.endswith('/11 (3 bytes) and 2 more'), paths)
        for count, end in ((13, '/11 (3 bytes) and 1 more'), (12, ', /11 (3 bytes)')):
            one.tree = dict(list(tree.items())[:count])
            self.assertTrue(one.lines()[2].endswith(end), one.lines())


class Explanations(unittest.TestCase):
    def test_a_search_that_was_cut_off_says_how_many_states_it_saw(self) -> None:
        trace = (CONFIG / 'config.trace').read_bytes()
        with mock.patch.object(disk_search, 'MOST_STATES', 3):
            result = disk_search.search_trees(trace, {('none', 0)})
        self.assertEqual(
            result.explanation(('none', 0)).text,
            'none of the 3 crash states that were looked through has this tree',
        )
        whole = disk_search.search_trees(trace, {('none', 0)})
        self.assertEqual(whole.explanation(('none', 0)), Explanation(Reason.OUTSIDE))

    def test_a_tree_of_an_allowed_set_was_not_tried(self) -> None:
        trace = (CONFIG / 'config.trace').read_bytes()
        trees = Trees(parse_trace(trace))
        wanted, unknown = tree_and_count(trees, 0b1), ('none', 0)
        result = disk_search.search_trees(trace, {wanted, unknown})
        self.assertEqual(result.explanation(wanted), Explanation(Reason.UNTRIED))
        self.assertEqual(result.explanation(unknown), Explanation(Reason.OUTSIDE))

    def test_a_search_ends_when_all_trees_are_found(self) -> None:
        trace = (CONFIG / 'config.trace').read_bytes()
        start = tree_and_count(Trees(parse_trace(trace)), 0)
        result = disk_search.search_trees(trace, {start})
        self.assertEqual((result.searched_states, result.is_whole), (1, True))
        with mock.patch.object(disk_search, 'MOST_SECONDS', -1):
            self.assertFalse(disk_search.search_trees(trace, {start}).is_whole)

    def test_failures_with_one_tree_cause_and_reason_are_one(self) -> None:
        trace = (CONFIG / 'config.trace').read_bytes()
        lost, torn = Outcome(BAD, 'lost'), Outcome(BAD, 'torn')
        one, later = (tree_on_disk('a', says, crash) for says, crash in ((1, LATER), (2, FIRST)))
        other = tree_on_disk('b', 1, FIRST)
        failures = disk_search.explain_failures(
            trace, [(one, lost), (later, lost), (one, torn), (other, lost)]
        )
        self.assertEqual([failure.says for failure in failures], [[1, 2], [1], [1]])
        self.assertEqual(
            [failure.name for failure in failures],
            [f'{cause} (outside the model)' for cause in ('lost', 'torn', 'lost')],
        )
        self.assertEqual(failures[0].crashes, {'ext4': FIRST})
        self.assertEqual(disk_search.explain_failures(b'no trace', []), [])


class DifferentDisks(unittest.TestCase):
    def test_equal_trees_are_one_disk_with_all_crashes_and_their_counts_of_lines(self) -> None:
        late = Crash(Moment(9, 4, 5, 12), FlushKind.LOG)
        crashed_trees = [(named('a'), FIRST), (named('b'), LATER), (named('a'), late)]
        first, second = different_disks(crashed_trees)
        self.assertEqual((first.tree, first.crashes), (named('a'), [FIRST, late]))
        self.assertEqual((second.digest, second.crashes), (digest_of(named('b')), [LATER]))
        self.assertEqual(first.line_counts, [0, 1, 4, 5])


class Counts(unittest.TestCase):
    def test_a_tree_counts_once_with_each_number_of_lines_and_fails_once(self) -> None:
        both = Crash(Moment(6, 0, 1, 9), FlushKind.LOG)
        disks = {
            'ext4': [Disk({}, 'a', [FIRST, both]), Disk({}, 'b', [LATER])],
            'xfs': [Disk({}, 'a', [LATER])],
        }
        trees = disk_search.different_trees(disks)
        self.assertEqual(
            [(tree.tree_and_count, tree.crashes) for tree in trees],
            [
                (('a', 0), {'ext4': FIRST}),
                (('a', 1), {'ext4': FIRST, 'xfs': LATER}),
                (('b', 1), {'ext4': LATER}),
            ],
        )
        failing = [
            disk_search.TriedTree(tree, Outcome(BAD, 'lost'), is_of_state=False)
            for tree in trees[:2]
        ]
        for name, counts in (('ext4', DiskCounts(3, 2, 1)), ('xfs', DiskCounts(1, 1, 1))):
            found = disk_search.filesystem_counts(name, disks[name], failing)
            self.assertEqual(found, counts)
        self.assertEqual(disk_search.filesystem_counts('xfs', disks['xfs'], failing[:1]).failing, 0)

    def test_a_folder_has_room_if_it_is_there_and_more_is_free(self) -> None:
        free = os.statvfs('/').f_bavail * os.statvfs('/').f_frsize
        for folder, size, has_room in (('/', free // 2, True), ('/', 2 * free, False)):
            self.assertIs(disk_search.has_room(folder, size), has_room)
        self.assertIs(disk_search.has_room('/nowhere/at/all', 0), False)
        with mock.patch('os.access', return_value=False):
            self.assertIs(disk_search.has_room('/', 0), False)


class Searches(InFolder):
    """The search in a plan of 13 states, whose trees have a file named after the state `same`."""

    def setUp(self) -> None:
        super().setUp()
        self.runs: List[Tuple[int, int, List[str]]] = []
        self.checker = SimpleNamespace(run=self.run_command, left_processes={})
        trials: Any = SimpleNamespace(
            plan=read_plan(LISTED),
            trees=SimpleNamespace(read=lambda numbers: [(one, named(one)) for one in numbers]),
            new_checker=lambda: self.checker,
            guard=SimpleNamespace(directory=self.folder),
            options=SimpleNamespace(jobs=1),
        )
        outcomes = {1: Outcome(GOOD), 5: Outcome(BAD, 'lost: old')}
        trace = (CONFIG / 'config.trace').read_bytes()
        self.search = disk_search.DiskSearch(trials, outcomes, trace)
        disks = [
            Disk(named(name), digest_of(named(name)), [Crash(moment, FlushKind.NOTHING)])
            for name, moment in ((1, NO_LINE), (4, ONE_LINE), (3, NO_LINE), ('new', ONE_LINE))
        ]
        self.pool: Any = SimpleNamespace(disks=lambda jobs, on_step: {'ext4': disks})

    def run_command(self, number: int, says: int, directory: str) -> Outcome:
        """Fails only in the new tree."""
        self.runs.append((number, says, os.listdir(directory)))
        return Outcome(BAD, 'lost: new') if 'new' in self.runs[-1][2] else Outcome(GOOD)

    def test_only_trees_that_no_tried_state_has_are_tried(self) -> None:
        found = self.search.run(self.pool, do_nothing)
        self.assertEqual(self.runs, [(13, 0, ['3']), (13, 1, ['new'])])
        self.assertNotIn('disk', os.listdir(self.folder))
        self.assertEqual(found.counts, {'ext4': DiskCounts(4, 4, 2)})
        self.assertEqual(sorted(found.crashes_by_state), [1, 3, 5, 7, 11])
        names = [failure.name for failure in found.further_failures]
        self.assertEqual(names, ['lost: new (outside the model)'])

    def test_a_process_that_is_left_is_refused(self) -> None:
        self.checker.left_processes[7] = 'sleep'
        with self.assertRaises(LeftRunning):
            self.search.run(self.pool, do_nothing)


NO_LINE, ONE_LINE = Moment(3, 0, 0, 4), Moment(6, 1, 1, 9)


def do_nothing(*_: int) -> None:
    """Takes the place of what shows the progress."""


def named(name: object) -> Entries:
    """A tree with one empty file."""
    return {
        '/': Entry('u', 'g', 0o755, None),
        f'/{name}': Entry('u', 'g', 0o644, bytearray()),
    }


def tree_on_disk(digest: str, says: int, crash: Crash) -> disk_search.DiskTree:
    """A tree that one crash left on ext4."""
    return disk_search.DiskTree(digest, says, {}, {'ext4': crash})


class Lines(unittest.TestCase):
    def test_a_moment_has_its_line_s_number_though_lines_are_empty(self) -> None:
        trace = str(EXAMPLES / 'store.trace')
        numbers = [
            number
            for number, line in enumerate(Path(trace).read_text('utf-8').split('\n'), 1)
            if '"op"' in line and '"say"' not in line
        ]
        options = SimpleNamespace(disks=['ext4'], jobs=1)
        trials: Any = SimpleNamespace(
            options=options,
            planned=SimpleNamespace(trace=trace),
            workplace=SimpleNamespace(progress=Progress(None)),
            new_checker=mock.Mock(),
        )
        with mock.patch.object(disk_search.DiskSearch, 'run', lambda _, pool, __: pool):
            pool: Any = disk_search.search_disks(trials, {})
        self.assertEqual([one.moment.line for one in pool.tasks()], [0, *numbers])


if __name__ == '__main__':
    unittest.main()
