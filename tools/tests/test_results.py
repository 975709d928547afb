"""The table of stores: its data, the sessions behind it, and that a row can be repeated."""

from __future__ import annotations

import argparse
import contextlib
import io
import shutil
import signal
import unittest
from pathlib import Path
from typing import Any, Dict, List, Tuple
from unittest import mock

from crashfs_tools.common.signals import Stopped
from crashfs_tools.reading import parse_trace
from crashfs_tools.reading.every import count_sets
from crashfs_tools.reading.order import Order
from inventory.results import results_part, row_cells, session_table
from measuring import store_sessions, stores
from measuring.store_rows import ResultsFile, disk_counts, row_of_check
from measuring.store_sessions import (
    STORES,
    Session,
    find_sessions,
    installed_version,
    read_sessions,
)
from measuring.stores import SessionCheck

from .support import InFolder

# Committed traces are smaller, and those with at most so many sets are counted again.
MOST_BYTES, MOST_SETS = 150_000, 2_000
ROWS: List[Dict[str, Any]] = ResultsFile().read_rows()
KEYS = [session.key for session in read_sessions()]
# The options of a check that say what is tried besides states.
DISK_WORDS = ('--time-limit', '--prefixes', '--disks')


def row(**changes: Any) -> Dict[str, Any]:
    made = {
        'key': 'kv/puts',
        'store': 'KV',
        'version': '1.2',
        'session': 'three puts',
        'micro_operations': 9,
        'sets': 1234,
        'is_whole': True,
        'tried': 100,
        'failing': 12,
        'causes': {'lost': 2, 'torn': 10},
        'profiles': {'blocks': 12, 'ordered': 3, 'journal': 0},
        'disks': {},
        'report': ['t: fails', '  torn: a'],
    }
    return {**made, **changes}


class Data(unittest.TestCase):
    def test_each_session_has_its_scripts_and_each_row_its_session(self) -> None:
        for one in find_sessions([]):
            for name in ('record.sh', 'check.sh'):
                self.assertTrue((one.scripts_folder / name).exists(), one.key)
        self.assertLessEqual({one['key'] for one in ROWS}, set(KEYS))
        self.assertEqual(len(KEYS), len(set(KEYS)))

    def test_committed_traces_are_small_and_of_sessions(self) -> None:
        for trace in STORES.glob('*/*.trace'):
            self.assertIn(f'{trace.parent.name}/{trace.stem}', KEYS)
            self.assertLessEqual(trace.stat().st_size, MOST_BYTES, trace)

    def test_states_and_sets_of_small_rows_are_those_of_their_traces(self) -> None:
        counted = 0
        for one in ROWS:
            trace = STORES / f'{one["key"]}.trace'
            if one['is_whole'] and one['sets'] <= MOST_SETS and trace.exists():
                reading = parse_trace(trace.read_bytes())
                order = Order(reading)
                self.assertEqual(order.count, one['micro_operations'], one['key'])
                self.assertEqual(count_sets(order), one['sets'], one['key'])
                counted += 1
        self.assertGreater(counted, 10)

    def test_a_row_says_how_many_states_of_each_profile_fail(self) -> None:
        for one in ROWS:
            self.assertEqual(sum(one['causes'].values()), one['failing'], one['key'])
            self.assertLessEqual(one['failing'], one['tried'], one['key'])
            self.assertGreaterEqual(one['profiles']['blocks'], one['failing'], one['key'])
            for name in ('ordered', 'journal'):
                self.assertLessEqual(one['profiles'][name], one['failing'], one['key'])


class Tables(unittest.TestCase):
    def test_a_row_has_its_states_failures_profiles_and_disks(self) -> None:
        seen = {'ext4': {'trees': 9, 'failing': 0, 'outside': 0}}
        seen['xfs'] = {'trees': 1000, 'failing': 2, 'outside': 1}
        (_, _, line) = session_table([row(disks=seen)])
        self.assertEqual(
            line,
            '| KV 1.2 | [three puts](../examples/stores/kv) | 100 (1,234) '
            '| 12: 10 torn, 2 lost | 12 | 3 | 0 | none | 2 of 1,000 (1 outside) |  |',
        )

    def test_a_check_that_was_not_whole_says_how_many_were_tried(self) -> None:
        some = list(row_cells(row(is_whole=False, sets=None, causes={'lost': 12})))
        self.assertEqual(some[2:4], ['100 tried (of uncounted)', '12 lost'])
        self.assertEqual(list(row_cells(row(failing=0, causes={})))[3:6], ['none', '', ''])

    def test_the_page_has_each_row_and_the_first_failure_of_each_store(self) -> None:
        text = results_part()
        first: Dict[str, str] = {}
        for one in ROWS:
            self.assertIn(f'[{one["session"]}]', text)
            if one['failing']:
                first.setdefault(one['store'], one['key'])
        for one in ROWS:
            is_shown = first.get(one['store']) == one['key']
            self.assertEqual(f'(`{one["key"]}`)' in text, is_shown, one['key'])


class Rows(InFolder):
    def test_results_keep_the_order_of_the_sessions(self) -> None:
        kept = ResultsFile(Path(self.path('results.json')))
        for key in (KEYS[2], KEYS[0], KEYS[2]):
            kept.put_row(row(key=key, tried=len(kept.read_rows())))
        self.assertEqual([one['key'] for one in kept.read_rows()], [KEYS[0], KEYS[2]])
        self.assertEqual(kept.read_rows()[1]['tried'], 2)

    def test_disks_count_what_is_outside_the_model(self) -> None:
        fields = {
            'disks': {
                'filesystems': {'ext4': {'crashes': 5, 'different': 3, 'failing': 2}},
                'further': [
                    {'where': 'outside the model', 'crashes': {'ext4': []}},
                    {'where': 'not tried', 'crashes': {'ext4': []}},
                ],
            },
        }
        self.assertEqual(disk_counts(fields), {'ext4': {'trees': 3, 'failing': 2, 'outside': 1}})

    @unittest.skipIf(shutil.which('yes') is None, 'there is no yes')
    def test_rows_are_what_a_check_says_today(self) -> None:
        for name in ('config/durable', 'config/synced'):
            (session,) = find_sessions([name])
            words = argparse.Namespace(record=False, disks=None, jobs=2, time_limit=None)
            made = SessionCheck(session, words, Path(self.path(''))).make_row()
            (kept,) = (one for one in ROWS if one['key'] == name)
            report, seen = (
                kept['report'][: len(made['report'])],
                kept['report'][len(made['report']) :],
            )
            # A check on disks says last where an entry was seen.
            self.assertEqual(
                [line[:12] for line in seen[:1]], ['    seen on '] * bool(kept['failing'])
            )
            wanted = {**kept, 'version': made['version'], 'disks': {}, 'report': report}
            self.assertEqual(made, wanted)

    @unittest.skipIf(shutil.which('yes') is None, 'there is no yes')
    def test_only_a_check_of_all_states_is_whole(self) -> None:
        (session,) = find_sessions(['config/durable'])
        words = argparse.Namespace(record=False, disks=None, jobs=2, time_limit=None)
        check = SessionCheck(session, words, Path(self.path('')))
        check.make_trace()
        for options, is_whole in (
            ([], True),
            (['--window', '6'], True),
            # The loss of a line is tried only up to a window's end.
            (['--window', '4'], False),
            (['--prefixes'], False),
            (['--every', '5'], False),
            (['--shard', '1/2'], False),
            (['--time-limit', '0.001'], False),
        ):
            report = check.run_check(*options)
            made = row_of_check(session, '1', str(check.report_path), report)
            self.assertEqual(made['is_whole'], is_whole, options)
            self.assertEqual(' all 22 crash states' in report, is_whole, options)


class Limited(InFolder):
    def test_disks_have_a_check_of_their_own_if_the_time_for_the_states_is_limited(self) -> None:
        (session,) = find_sessions(['config/durable'])
        called: List[List[str]] = []

        def run_command(words: List[str]) -> str:
            called.append(words)
            if '--json' in words:
                Path(words[words.index('--json') + 1]).write_text('{"disks":%d}' % len(called))
            return ''

        words = argparse.Namespace(record=False, disks='ext4', jobs=1, time_limit='5')
        with mock.patch.object(stores, 'run_command', side_effect=run_command):
            with mock.patch.object(stores, 'row_of_check', return_value=row()):
                with mock.patch.object(stores, 'disk_counts', side_effect=lambda one: one['disks']):
                    made = SessionCheck(session, words, Path(self.path(''))).make_row()
        _, first, second = called
        self.assertEqual([word for word in first if word in DISK_WORDS], ['--time-limit'])
        self.assertEqual([word for word in second if word in DISK_WORDS], ['--prefixes', '--disks'])
        self.assertEqual(made['disks'], 3)


class NoRows(unittest.TestCase):
    def measured(self, *words: str) -> Tuple[int, str]:
        """The status of `measure stores`, which has no row to write, and what it says."""
        said = io.StringIO()
        with contextlib.redirect_stderr(said), mock.patch.object(stores, 'raise_on_stop_signals'):
            with mock.patch.object(ResultsFile, 'put_row', side_effect=AssertionError):
                return stores.main(list(words)), said.getvalue()

    def test_packages_that_a_session_needs_and_lacks_are_named(self) -> None:
        def version(package: str) -> str:
            return '' if package == 'python3-lmdb' else '1'

        with mock.patch.object(store_sessions, 'installed_version', side_effect=version):
            status, said = self.measured('lmdb/rows', 'lmdb/new')
        wanted = [
            f'lmdb/{name}: no result: not installed: python3-lmdb' for name in ('rows', 'new')
        ]
        self.assertEqual((status, said.splitlines()), (1, wanted))

    def test_a_session_that_is_not_recorded_or_checked_has_its_reason(self) -> None:
        for tool, reason in [('record.sh', 'record.sh made no trace'), ('', 'made no report')]:
            words = ['--record'] if tool else []
            with mock.patch.object(stores, 'run_command', return_value=''):
                status, said = self.measured(*words, 'config/place')
            self.assertEqual(status, 1)
            self.assertRegex(said, f'^config/place: no result: .*{reason}\n$')

    def test_a_stop_is_one_line_and_its_status(self) -> None:
        with mock.patch.object(stores, 'run_command', side_effect=Stopped(signal.SIGTERM)):
            ended = self.measured('config/place', 'config/rename')
        self.assertEqual(ended, (143, 'measure stores: stopped by SIGTERM\n'))

    def test_a_name_that_is_no_session_is_refused(self) -> None:
        with self.assertRaises(SystemExit) as ended:
            self.measured('config/place', 'config/nothing')
        self.assertEqual(ended.exception.code, 2)


class Versions(unittest.TestCase):
    def test_a_package_that_is_not_installed_has_no_version(self) -> None:
        self.assertEqual(installed_version('no-such-package'), '')

    def test_what_debian_adds_is_left_out(self) -> None:
        for given, wanted in [
            ('1:2.3.19.1+dfsg1-2.1+deb12u7', '2.3.19.1'),
            ('1.23-4', '1.23'),
            ('7.8.3-2', '7.8.3'),
        ]:
            ran = mock.Mock(stdout=f'install ok installed {given}'.encode())
            with mock.patch.object(store_sessions.subprocess, 'run', return_value=ran):
                self.assertEqual(installed_version('it'), wanted)

    def test_a_package_of_two_architectures_has_one_version(self) -> None:
        printed = 'deinstall ok config-files 1.1-1\n' + 2 * 'install ok installed 1.2-3\n'

        def run(words: List[str], **_: Any) -> Any:
            end_of_line = words[words.index('-f') + 1].partition('${Version}')[2]
            return mock.Mock(stdout=printed.replace('\n', end_of_line).encode())

        with mock.patch.object(store_sessions.subprocess, 'run', run):
            self.assertEqual(installed_version('it'), '1.2')

    def test_sessions_are_chosen_by_folder_or_key(self) -> None:
        self.assertEqual([one.key for one in find_sessions(['config/place'])], ['config/place'])
        self.assertEqual({one.folder for one in find_sessions(['lmdb'])}, {'lmdb'})
        self.assertEqual(find_sessions(['nothing']), [])
        self.assertIsInstance(find_sessions([])[0], Session)


if __name__ == '__main__':
    unittest.main()
