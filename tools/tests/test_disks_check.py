"""crashfs-check --disks: which failing states real file systems leave."""

from __future__ import annotations

import io
import json
import os
import shutil
import signal
import unittest
from pathlib import Path
from typing import Any, Dict, List, Set, Tuple
from unittest import mock
from xml.etree import ElementTree

from crashfs_tools.api.reports import Report
from crashfs_tools.checker.checking import Check, check_trace
from crashfs_tools.checker.findings.sightings import (
    DiskCounts,
    DiskFailure,
    Explanation,
    Reason,
    Sightings,
)
from crashfs_tools.checker.options import Options, Shard
from crashfs_tools.checker.report.json_report import json_pieces
from crashfs_tools.checker.report.junit import junit_pieces
from crashfs_tools.checker.report.page import page_pieces
from crashfs_tools.checker.report.report import CheckReport
from crashfs_tools.checker.running.progress import Progress
from crashfs_tools.checker.running.results import Head
from crashfs_tools.checker.running.runner import BAD, Outcome
from crashfs_tools.common.entry import Entry
from crashfs_tools.common.guard import Guard
from crashfs_tools.common.signals import TimeUp
from crashfs_tools.disks import filesystems

from .support import EXAMPLES, FAKE
from .test_check_command import InStore
from .test_disk_search import FIRST
from .test_disks import loops, mounted_below, needs_disks

CONFIG = EXAMPLES / 'config'
HEADER = '{"trace":3,"profile":"blocks","block":4096,"owner":"root","group":"root","mode":"755"}\n'
# A truncate to a length inside a page: ext4 writes the page before the size.
TRUNCATED = (
    HEADER
    + '{"start":"file","path":"/f","owner":"root","group":"root","mode":"644","text":"%s"}\n'
    % ('x' * 5000)
    + '{"op":"truncate","path":"/f","length":1}\n{"op":"say","text":"cut"}\n'
)
NO_ZEROS = 'tr -d "\\0" < f | cmp -s - f || { echo "zeros: in the middle"; exit 1; }'


class NotDone(InStore):
    """What a check that ends early says of what was asked for besides its states."""

    def checked(self, time_limit: float, **more: Any) -> Tuple[List[str], Dict[str, Any]]:
        """The report's lines, and its JSON."""
        options = Options(str(CONFIG / 'config.trace'), unproved=True, jobs=1, **more)
        options.command = ['sh', '-c', 'sleep 0.2'] if time_limit else [str(CONFIG / 'check.sh')]
        options.time_limit = time_limit or None
        with mock.patch.object(filesystems, 'require_filesystems'):
            with Guard('crashfs-check', may_reap=False) as guard:
                found = check_trace(options, guard, Progress(io.StringIO()))
        report = Report(found.report)
        report.write_json(self.path('r.json'))
        return report.lines, json.loads(Path(self.path('r.json')).read_text('utf-8'))

    def test_disks_and_recoveries_that_no_time_is_left_for_are_named(self) -> None:
        lines, fields = self.checked(0.7, disks=['ext4'], nested=2)
        self.assertIn('  --nested: 2 of 2 not tried (stopped by the time limit)', lines)
        self.assertIn('  --disks: not tried (stopped by the time limit)', lines)
        self.assertEqual(len(fields['not_done']), 2)

    def test_a_time_limit_may_come_when_all_states_are_tried(self) -> None:
        with mock.patch.object(Check, 'report_details', side_effect=TimeUp):
            lines, fields = self.checked(0, disks=['ext4'])
        self.assertIn('  --disks: not tried (stopped by the time limit)', lines)
        self.assertNotIn('not tried', lines[1])
        self.assertEqual(fields['stopped'], '')

    def test_of_the_first_failure_and_of_shards_it_is_said_too(self) -> None:
        for more, why in (
            ({'fail_fast': True}, 'stopped by the first failure'),
            ({'shard': Shard(1, 2)}, 'only a part of the states is'),
        ):
            lines, _ = self.checked(0, disks=['ext4'], **more)
            self.assertIn(f'  --disks: not tried ({why})', lines)

    def test_a_merged_report_says_it_once_as_its_shards_do(self) -> None:
        for part in (1, 2):
            self.checked(0, disks=['ext4'], shard=Shard(part, 2), json='-')
            os.rename(self.path('r.json'), self.path(f'{part}.json'))
        ran = self.run_tool('crashfs-check', '--json', 'all.json', '--merge', '1.json', '2.json')
        line = '--disks: not tried (only a part of the states is)'
        self.assertEqual((ran.returncode, ran.stdout.count(f'  {line}\n')), (1, 1), ran.stdout)
        self.assertEqual(json.loads(self.read('all.json'))['not_done'], [line])

    def test_of_what_was_not_asked_for_nothing_is_said(self) -> None:
        lines, fields = self.checked(0, fail_fast=True)
        self.assertFalse([line for line in lines if line.startswith('  --')])
        self.assertNotIn('not_done', fields)


class Reports(unittest.TestCase):
    """The file of --junit and the page of --html have what was seen on disks."""

    def setUp(self) -> None:
        self.report = CheckReport(Head('t.trace', '', ['true']))
        tree = {'/f': Entry('u', 'g', 0o644, bytearray(3))}
        why = Explanation(Reason.OUTSIDE)
        one = DiskFailure(Outcome(BAD, 'zeros: <1>', 'out'), [1], {'ext4': FIRST}, tree, why)
        self.seen = Sightings({'ext4': DiskCounts(1200, 9, 1)}, {}, [one])

    def test_a_failure_that_no_state_has_is_a_test_case(self) -> None:
        before = ElementTree.fromstring(''.join(junit_pieces(self.report)))
        self.assertEqual((before.get('tests'), before.get('failures')), ('1', '0'))
        self.report.sightings = self.seen
        suite = ElementTree.fromstring(''.join(junit_pieces(self.report)))
        counts = suite.get('tests'), suite.get('failures'), suite.get('errors')
        self.assertEqual(counts, ('2', '1', '0'))
        case = suite[0]
        self.assertEqual(case.get('name'), 'zeros: <1> (outside the model)')
        self.assertIn('seen on ext4 (after line 9', case[0].get('message') or '')
        self.assertIn('/f (3 bytes)', case[0].text or '')
        self.assertEqual(case[1].text, 'out')

    def test_the_page_has_the_counts_and_the_failure(self) -> None:
        self.assertNotIn('On real disks', ''.join(page_pieces(self.report)))
        self.report.sightings = self.seen
        text = ''.join(page_pieces(self.report))
        self.assertIn('<li>ext4: 1,200 crashes, 9 different trees: 1 fails</li>', text)
        self.assertIn('<h3>zeros: &lt;1&gt;</h3>\n<p>outside the model</p>', text)
        self.assertIn('<li>no crash state has this tree</li>', text)


class Refusals(InStore):
    def test_a_report_of_disks_is_not_merged(self) -> None:
        """The merged report would lack the failures that only disks have."""
        self.assertEqual(self.check('--json', 'r.json', self.good).returncode, 0)
        self.assertEqual(self.run_tool('crashfs-check', '--merge', 'r.json').returncode, 0)
        report = CheckReport(Head('t.trace', '', ['true']))
        report.sightings = Sightings({'ext4': DiskCounts(9, 9, 0)})
        seen = json.loads(''.join(json_pieces(report)))['disks']
        fields = {**json.loads(self.read('r.json')), 'disks': seen}
        self.write('r.json', json.dumps(fields))
        ran = self.run_tool('crashfs-check', '--merge', 'r.json')
        told = 'crashfs-check: r.json: it has findings of --disks, which --merge would drop\n'
        self.assertEqual((ran.returncode, ran.stdout, ran.stderr), (2, '', told))

    def test_what_is_missing_is_named(self) -> None:
        for words, wanted in [
            (('--disks', 'ext4,zfs'), '--disks zfs: no such file system'),
            (('--disks', ''), '--disks : no such file system'),
        ]:
            trace = str(CONFIG / 'config.trace')
            result = self.run_tool('crashfs-check', *words, trace, '--', 'true')
            self.assertEqual(result.returncode, 2)
            self.assertIn(wanted, result.stderr)


def images() -> Set[str]:
    """The folders of images in memory."""
    return {name for name in os.listdir('/dev/shm') if name.startswith('crashfs-disks-')}


@needs_disks
class OnDisks(InStore):
    def check_disks(self, trace: str, *command: str, more: str = 'ext4'):
        words = (
            '--unproved',
            '--disks',
            more,
            '--json',
            self.path('r.json'),
            trace,
            '--',
            *command,
        )
        result = self.run_tool('crashfs-check', *words)
        return result, json.loads(Path(self.path('r.json')).read_text('utf-8'))['disks']

    def test_an_entry_says_where_it_was_seen(self) -> None:
        result, disks = self.check_disks(str(CONFIG / 'config.trace'), str(CONFIG / 'check.sh'))
        self.assertEqual(result.returncode, 1)
        text = ' '.join(result.stdout.split())
        self.assertIn('seen on ext4 (after line 6, nothing more written)', text)
        self.assertRegex(
            result.stdout, r'  ext4: \d+ crashes, \d+ different trees: [1-9]\d* fail\n'
        )
        self.assertEqual(list(disks['filesystems']), ['ext4'])
        self.assertIn([6, 'nothing more written'], [it['ext4'] for it in disks['states'].values()])
        self.assertEqual(disks['further'], [])

    def test_a_failure_that_no_crash_state_has_is_outside_the_model(self) -> None:
        trace = self.write('cut.trace', TRUNCATED)
        result, disks = self.check_disks(trace, 'sh', '-c', NO_ZEROS)
        self.assertIn('none fails', result.stdout)
        self.assertIn('zeros: in the middle', result.stdout)
        self.assertIn(' outside the model\n', result.stdout)
        self.assertIn('different trees: 1 fails\n', result.stdout)
        self.assertIn('/f (5,000 bytes)', result.stdout)
        self.assertEqual(
            [(it['where'], it['says']) for it in disks['further']], [('outside the model', [0, 1])]
        )
        self.assertEqual(result.returncode, 1)

    @unittest.skipIf(shutil.which('mkfs.xfs') is None, 'there is no mkfs.xfs')
    def test_several_file_systems(self) -> None:
        trace = self.write('cut.trace', HEADER + '{"op":"sync"}\n')
        _, disks = self.check_disks(trace, 'true', more='ext4,xfs')
        counts = disks['filesystems']
        self.assertEqual(
            {name: it['failing'] for name, it in counts.items()}, {'ext4': 0, 'xfs': 0}
        )

    def test_a_stop_leaves_no_mount_no_image_and_no_device(self) -> None:
        before = images()
        for number in (signal.SIGINT, signal.SIGKILL):
            child = self.start(
                *('crashfs-check', '--crashfs', FAKE, '--disks', 'ext4'),
                *(str(EXAMPLES / 'sqlite' / 'full.trace'), '--', 'true'),
            )
            self.wait_until(lambda: bool(images() - before), 'images are made', child)
            made = images() - before
            child.send_signal(number)
            child.communicate()
            self.wait_until(lambda: not made & images(), 'the images are gone')
            self.assertEqual(mounted_below('crashfs-disks-'), [])
            self.wait_until(lambda: 'crashfs-disks-' not in loops(), 'the loop devices are free')


if __name__ == '__main__':
    unittest.main()
