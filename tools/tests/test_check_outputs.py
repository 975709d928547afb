"""The files that a check reads and writes: whose they are, who may read them, which it refuses."""

import copy
import json
import os
import re
import stat
import unittest
from unittest import mock

from crashfs_tools.checker.running.read_results import read_json
from crashfs_tools.checker.states.layout import lay_out
from crashfs_tools.checker.states.rewriting import rewrite
from crashfs_tools.common.command import Refused
from crashfs_tools.common.entry import Entry
from crashfs_tools.common.whole_files import write_whole_file
from crashfs_tools.recorder.log_stream import create_log

from .support import EXAMPLES, FAKE, InFolder
from .test_check_command import InStore


class Outputs(InStore):
    def test_the_trace_is_never_written_over(self):
        trace = self.write('own.trace', (EXAMPLES / 'store.trace').read_text(encoding='utf-8'))
        os.symlink('own.trace', self.path('link'))
        before = self.read('own.trace')
        for option in ('--json', '--junit', '--tap', '--html'):
            for path in ('own.trace', './own.trace', 'link'):
                ran = self.check(option, path, trace, command=['true'])
                self.assertEqual((ran.returncode, ran.stdout), (2, ''))
                self.assertEqual(ran.stderr, f'crashfs-check: {option} {path}: that is TRACE\n')
        self.assertEqual(self.read('own.trace'), before)

    def test_an_empty_name_is_refused_before_anything_is_tried(self):
        for option in ('--json', '--junit', '--tap', '--html'):
            ran = self.check(option, '', self.good, command=['touch', self.path('tried')])
            line = 'crashfs-check: the name of a file to write is empty\n'
            self.assertEqual((ran.returncode, ran.stdout, ran.stderr), (2, '', line))
        self.assertFalse(os.path.exists(self.path('tried')))

    def test_known_failures_are_never_written_over(self):
        self.write('known.json', '[]')
        words = '--accept', 'known.json', '--json', './known.json'
        ran = self.check('--prefixes', *words, self.good, command=['true'])
        line = 'crashfs-check: --json ./known.json: that is --accept\n'
        self.assertEqual((ran.returncode, ran.stdout, ran.stderr), (2, '', line))
        self.assertEqual(self.read('known.json'), '[]')

    def test_two_reports_are_not_written_to_one_file(self):
        for one, other in [('r', './r'), ('-', '-')]:
            ran = self.check('--json', one, '--html', other, self.good, command=['true'])
            self.assertEqual((ran.returncode, ran.stdout), (2, ''))
            self.assertEqual(ran.stderr, f'crashfs-check: --html {other}: that is --json\n')
        ran = self.check('--json', '/dev/null', '--html', '/dev/null', self.good, command=['true'])
        self.assertEqual(ran.returncode, 0)

    def test_a_file_on_standard_output_is_alone_there(self):
        os.mkdir(self.path('-'))
        ran = self.check('--prefixes', '--json', '-', self.good, command=['true'])
        self.assertEqual(json.loads(ran.stdout)['stopped'], '')
        self.assertIn(': none fails\n', ran.stderr)

    def test_a_file_with_the_name_of_standard_output_is_another_one(self):
        for first, second in [('-', './-'), ('./-', '-')]:
            words = '--prefixes', '--json', first, '--tap', second, self.good
            ran = self.check(*words, command=['true'])
            self.assertEqual(ran.returncode, 0, ran.stderr)
            report, tap = (ran.stdout, self.read('-'))[:: 1 if first == '-' else -1]
            self.assertEqual(json.loads(report)['stopped'], '')
            self.assertTrue(tap.startswith('TAP version 13\n'), tap)
            os.unlink(self.path('-'))

    def test_a_trace_with_the_name_of_standard_output_is_a_file(self):
        text = (EXAMPLES / 'store.trace').read_text(encoding='utf-8')
        self.write('-', text)
        ran = self.check('--prefixes', '--json', '-', './-', command=['true'])
        self.assertEqual(ran.returncode, 0, ran.stderr)
        self.assertEqual(json.loads(ran.stdout)['stopped'], '')
        ran = self.check('--prefixes', '--json', './-', './-', command=['true'])
        line = 'crashfs-check: --json ./-: that is TRACE\n'
        self.assertEqual((ran.returncode, ran.stdout, ran.stderr), (2, '', line))
        self.assertEqual(self.read('-'), text)

    def test_a_file_may_have_the_longest_name(self):
        for name in ('a' * 255, '\N{HIRAGANA LETTER A}' * 85, '\N{GRINNING FACE}' * 63):
            write_whole_file(self.path(name), ['whole'])
            self.assertEqual(self.read(name), 'whole')

    def test_a_state_is_laid_out_in_an_absolute_directory(self):
        with mock.patch.object(self, 'temporary', '.'):
            ran = self.check('--state', '3', self.good, command=['true'])
        found = re.search(r'It is laid out in (\S+)\. ', ran.stdout)
        self.assertTrue(found and os.path.isabs(found[1]), ran.stdout)

    def test_nobody_may_read_in_a_report_what_he_may_not_read_in_the_trace(self):
        for mode, wanted in [(0o600, 0o600), (0o640, 0o640), (0o644, 0o644)]:
            trace = self.write(
                'own.trace', (EXAMPLES / 'store.trace').read_text(encoding='utf-8'), mode
            )
            names = ['r.json', 'r.xml', 'r.tap', 'r.html']
            kinds = 'json', 'junit', 'tap', 'html'
            words = [f'--{kind}={name}' for kind, name in zip(kinds, names)]
            for _ in range(2):
                self.check('--prefixes', *words, trace, command=['true'])
                self.assertEqual({self.mode(name) for name in names}, {wanted})
            merge = '--merge', 'r.json', '--html', 'merged.html'
            self.run_tool('crashfs-check', *merge)
            self.assertEqual(self.mode('merged.html'), wanted)
            os.chmod(trace, 0o600)
            self.assertEqual(self.run_tool('crashfs-check', '--prefixes', trace, *merge).stderr, '')
            self.assertEqual(self.mode('merged.html'), 0o600)
            for name in (*names, 'merged.html'):
                os.unlink(self.path(name))

    def mode(self, name):
        return stat.S_IMODE(os.stat(self.path(name)).st_mode)

    def test_so_many_jobs_are_refused(self):
        ran = self.check('--jobs', '1000000000', self.good, command=['true'])
        self.assertEqual(ran.returncode, 2)
        self.assertIn('1000000000 is more than 1,024', ran.stderr)

    @unittest.skipUnless(os.geteuid() == 0, 'only root makes files of other users')
    def test_what_another_user_planted_is_refused(self):
        os.mkdir(self.path('shared'))
        os.chmod(self.path('shared'), 0o1777)
        victim = self.write('victim', 'kept')
        os.symlink(victim, self.path('shared', 'link'))
        os.mkfifo(self.path('shared', 'pipe'))
        for name in ('link', 'pipe'):
            path = self.path('shared', name)
            os.chown(path, 65534, 65534, follow_symlinks=False)
            with self.assertRaisesRegex(OSError, 'another user made it'):
                write_whole_file(path, ['x'])
            with self.assertRaisesRegex(OSError, 'another user made it'):
                create_log(path)
        os.chown(self.path('shared', 'link'), 0, 0, follow_symlinks=False)
        write_whole_file(self.path('shared', 'link'), ['mine'])
        self.assertEqual(self.read('victim'), 'mine')


class Reports(InStore):
    def setUp(self):
        super().setUp()
        for part in (1, 2):
            words = ['--shard', f'{part}/2', '--json', f'{part}.json', self.bad]
            self.assertEqual(
                self.check(*words, command=['./recover.sh']).returncode in (0, 1), True
            )

    def change(self, name, change):
        fields = json.loads(self.read(name))
        change(fields)
        self.write(name, json.dumps(fields))

    def test_parts_of_different_commands_are_not_merged(self):
        self.change('2.json', lambda fields: fields.update(command=['true']))
        ran = self.run_tool('crashfs-check', '--merge', '1.json', '2.json')
        self.assertEqual((ran.returncode, ran.stdout), (2, ''))
        self.assertIn('of different COMMANDs: ', ran.stderr)

    def test_a_state_without_an_outcome_was_not_tried(self):
        self.change('1.json', lambda fields: fields['windows'][0]['outcomes'].clear())
        self.change('2.json', lambda fields: fields['windows'][0]['outcomes'].pop('11', 0))
        for name in ('1.json', '2.json'):
            fields = json.loads(self.read(name))
            for one in fields['windows'][0]['outcomes'].values():
                one[0] = 'good'
            self.write(name, json.dumps(fields))
        ran = self.run_tool('crashfs-check', '--merge', '1.json', '2.json')
        self.assertEqual(ran.returncode, 3, ran.stdout)
        self.assertIn('a part without all outcomes', ran.stdout)

    def test_what_is_no_report_is_refused(self):
        fields = json.loads(self.read('1.json'))
        for place in (
            (),
            ('crashfs-check',),
            ('command', 0),
            ('shard', 0),
            ('lines', 0, 1),
            ('unproved',),
            ('stopped',),
            ('windows',),
            ('windows', 0),
            ('windows', 0, 'first'),
            ('windows', 0, 'known'),
            ('windows', 0, 'outcomes'),
            ('windows', 0, 'needs', 3),
            ('windows', 0, 'operations', 2),
            ('windows', 0, 'operations', 2, 4),
            ('windows', 0, 'states', 3),
            ('windows', 0, 'states', 3, 1),
            ('windows', 0, 'states', 3, 2),
            ('windows', 0, 'states', 13, 2, 0),
        ):
            for value in (None, -1, 10**30, 1.5, '\ud800', [[]], {'1': ['odd', 1]}):
                with self.subTest(place=place, value=value):
                    self.write('odd.json', json.dumps(changed(fields, place, value)))
                    with self.assertRaisesRegex(Refused, 'is no report of crashfs-check'):
                        read_json(self.path('odd.json'))
        for odd in ('[' * 100_000, '', '\ufeff{}'):
            self.write('odd.json', odd)
            with self.assertRaises(Refused):
                read_json(self.path('odd.json'))

    def test_a_state_that_no_plan_has_is_refused(self):
        fields = json.loads(self.read('1.json'))
        count = len(fields['windows'][0]['operations'])
        places = {one[1]: one[0] for one in fields['windows'][0]['states']}
        for family, numbers in (
            ('prefix', [0]),
            ('hole', [3, 4]),
            ('hole', [3, 2]),
            ('hole', [0, count + 1]),
            ('pick', [0, count]),
            ('pick', [count]),
            ('set', [0]),
        ):
            with self.subTest(f'{family} {numbers}'):
                at = 'windows', 0, 'states', places.get(family, 0)
                odd = changed(changed(fields, (*at, 2), numbers), (*at, 1), family)
                self.write('odd.json', json.dumps(odd))
                with self.assertRaisesRegex(Refused, 'is no report of crashfs-check'):
                    read_json(self.path('odd.json'))
                ran = self.run_tool('crashfs-check', '--merge', 'odd.json', '2.json')
                self.assertEqual(ran.returncode, 2, ran.stderr)

    def test_a_report_with_more_windows_than_the_trace_is_refused(self):
        self.check('--json', 'r.json', self.bad)
        self.change('r.json', lambda fields: fields['windows'].append(fields['windows'][0]))
        ran = self.run_tool('crashfs-check', '--crashfs', FAKE, self.bad, '--merge', 'r.json')
        self.assertEqual((ran.returncode, ran.stdout), (2, ''))
        self.assertIn('crashfs-check: the trace has other states than the reports: ', ran.stderr)

    def test_a_whole_report_is_read(self):
        self.assertEqual(len(read_json(self.path('1.json')).windows), 1)


def changed(fields, place, value):
    """The fields with another value at a place."""
    if not place:
        return value
    fields = copy.deepcopy(fields)
    within = fields
    for key in place[:-1]:
        within = within[key]
    within[place[-1]] = value
    return fields


class Sparse(InFolder):
    DATA = b'a' + bytes(3 << 20) + b'b' + bytes(1 << 20)

    def blocks(self, path):
        return os.stat(path).st_blocks * 512

    def test_zeros_of_a_large_file_take_no_place(self):
        root = '', Entry('u', 'u', 0o755, None)
        file = 'f', Entry('u', 'u', 0o644, self.DATA)
        lay_out(self.path('tree'), [root, file])
        with open(self.path('tree', 'f'), 'rb') as laid:
            self.assertEqual(laid.read(), self.DATA)
        self.assertLess(self.blocks(self.path('tree', 'f')), 1 << 18)

    def test_a_file_that_is_rewritten_has_the_bytes_and_no_more_place(self):
        for before in (b'', b'x' * 100_000, self.DATA + b'more', b'c' * len(self.DATA)):
            path = self.path('f')
            with open(path, 'wb') as file:
                file.write(before)
            file = os.open(path, os.O_RDWR)
            rewrite(file, before, self.DATA)
            os.close(file)
            with open(path, 'rb') as written:
                self.assertEqual(written.read(), self.DATA)
            if len(before) < len(self.DATA):
                self.assertLess(self.blocks(path), 1 << 18)


if __name__ == '__main__':
    unittest.main()
