"""crashfs-check as its users run it, on the fake program."""

import json
import os
import re
import sys
import unittest

from crashfs_tools.common import program

from .support import EXAMPLES, FAKE, InFolder, long_time

CHECK = """\
#!/bin/sh
test "$CRASHFS_SAYS" = "$(grep -c stored)" || { echo "texts: not those told"; exit 1; }
test "$CRASHFS_SAYS" = 0 && exit 0
grep -qs a=2 log table && exit 0
echo some more
echo 'lost: a=2 was told'
exit 1
"""

RIGHTS = '"owner":"u","group":"u","mode":"755"'
# Two copies of a value, of which neither is synced.
DOUBLE = '\n'.join(
    [
        f'{{"trace":3,"profile":"blocks","block":4096,{RIGHTS}}}',
        f'{{"op":"creat","path":"/a",{RIGHTS}}}',
        f'{{"op":"creat","path":"/b",{RIGHTS}}}',
        '{"op":"fsync","path":"/"}',
        '{"op":"write","path":"/a","offset":0,"text":"v1"}',
        '{"op":"write","path":"/b","offset":0,"text":"v1"}',
        '{"op":"say","text":"stored"}',
        '',
    ]
)


def processes(command):
    """The processes whose command line has a text."""
    found = []
    for name in filter(str.isdigit, os.listdir('/proc')):
        try:
            with open(f'/proc/{name}/cmdline', encoding='utf-8', errors='replace') as file:
                if command in file.read():
                    found.append(int(name))
        except OSError:
            continue
    return found


class InStore(InFolder):
    def setUp(self):
        super().setUp()
        self.good = str(EXAMPLES / 'store.trace')
        lines = (EXAMPLES / 'store.trace').read_text(encoding='utf-8').splitlines(True)
        syncs = [place for place, line in enumerate(lines) if '"fsync","path":"/"' in line]
        # Without the second sync of the root, the one behind the rename.
        self.bad = self.write('bad.trace', ''.join(lines[: syncs[1]] + lines[syncs[1] + 1 :]))
        self.command = self.write('recover.sh', CHECK, 0o755)
        self.long = long_time()

    def check(self, *words, command=None):
        return self.run_tool(
            'crashfs-check', '--crashfs', FAKE, *words, '--', *(command or ['./recover.sh'])
        )

    def assert_ended(self):
        """No `sleep` of this test runs any more."""
        self.assertEqual(processes(f'sleep\0{self.long}'), [])


class Checks(InStore):
    def test_a_store_that_is_right_fails_nowhere(self):
        ran = self.check(self.good)
        self.assertEqual((ran.returncode, ran.stderr), (0, ''))
        self.assertEqual(
            ran.stdout,
            'store.trace: 11 micro-operations, all 13 crash states (21 sets): none fails\n',
        )
        self.assert_nothing_left()

    def test_a_missing_sync_is_reported_by_its_pair(self):
        ran = self.check(self.bad)
        self.assertEqual(ran.returncode, 1, ran.stderr)
        self.assertEqual(
            ran.stdout.splitlines(),
            [
                'bad.trace: 11 micro-operations, all 16 crash states (24 sets): 3 fail: 3 lost',
                '  lost: a=2 was told                                   3 states, e.g. --state 20',
                '    line 13: put the new table in place',
                '    line 15: the table has all of it',
                '    line 13 (rename /tmp/table to /table) was not durable when line 15 (truncate '
                '/log, 0 bytes) was:',
                '    fsync the directory / between them',
                '    tried: with that sync 0 of these 3 states are left, and no other fails',
                '    state 20 also lacks line 14 (rmdir /tmp)',
                '    under blocks and ordered (for ext4 and XFS, record with --trace-version 4)',
            ],
        )
        self.assert_nothing_left()

    def test_without_a_program_the_second_reading_is_used_and_the_report_says_so(self):
        whole = self.check(self.bad)
        for words in [('--unproved', '--crashfs', FAKE), ('--unproved',)]:
            ran = self.run_tool(
                'crashfs-check', *words, '--json', 'r.json', self.bad, '--', './recover.sh'
            )
            first, _, rest = ran.stdout.partition('\n')
            self.assertEqual((ran.returncode, rest), (1, whole.stdout), ran.stderr)
            self.assertTrue(first.startswith('unproved: ') and 'tools/build' in first, first)
        ran = self.run_tool('crashfs-check', '--merge', 'r.json')
        self.assertTrue(ran.stdout.startswith('unproved: '), ran.stdout)

    def test_a_trace_of_a_version_that_the_program_refuses_is_read_by_the_second_reading(self):
        old = 'grep -q \'"trace":4\' "$3" && echo "crashfs: trace line 1: Syntax" >&2 && exit 1\n'
        new = f'exec {sys.executable} -S {FAKE} "$@"\n'
        text = self.read('bad.trace')
        wanted = (
            'unproved: the Python implementation computed these states, '
            'as crashfs takes no traces of version 4 yet\n'
        )
        self.write('refuses', f'#!/bin/sh\n{old}{new}', 0o755)
        self.write('takes', f'#!/bin/sh\n{new}', 0o755)
        for version, name, first in [
            (3, 'refuses', ''),
            (4, 'takes', ''),
            (4, 'refuses', wanted),
        ]:
            trace = self.write('new.trace', text.replace('"trace":3', f'"trace":{version}'))
            words = ['--crashfs', f'./{name}', '--json', 'r.json', trace, '--', './recover.sh']
            ran = self.run_tool('crashfs-check', *words)
            self.assertEqual((ran.returncode, ran.stderr), (1, ''), ran.stdout)
            self.assertEqual(ran.stdout.startswith('unproved: '), bool(first), name)
            self.assertTrue(ran.stdout.startswith(first), ran.stdout)
        ran = self.run_tool('crashfs-check', '--merge', 'r.json')
        self.assertTrue(ran.stdout.startswith(wanted), ran.stdout)

    def test_a_program_on_the_path_comes_before_the_second_reading(self):
        os.mkdir(self.path('bin'))
        search = f"{self.path('bin')}:/usr/bin:/bin"
        for is_there in (False, True):
            if is_there:
                self.write(
                    'bin/crashfs', f'#!/bin/sh\nexec {sys.executable} -S {FAKE} "$@"\n', 0o755
                )
            elif program.Crashfs.find(None) is not None:
                continue  # One is built here, or there is one on PATH.
            ran = self.run_tool('crashfs-check', self.good, '--', 'true', path=search)
            self.assertEqual((ran.returncode, ran.stderr), (0, ''))
            self.assertEqual(ran.stdout.startswith('unproved: '), not is_there, ran.stdout)

    def test_prefixes_alone_find_nothing_of_it(self):
        ran = self.check('--prefixes', self.bad)
        self.assertEqual((ran.returncode, ran.stdout.split(', ')[1]), (0, '12 states'))

    def test_families_find_a_sync_that_a_second_copy_hides(self):
        trace = self.write('double.trace', DOUBLE)
        both_gone = ['sh', '-c', 'test $CRASHFS_SAYS = 0 || grep -qs v1 a b || exit 1']
        for families, failing in [
            ([], 1),
            (['--quick'], 0),
            (['--prefixes'], 0),
            (['--quick', '--lost'], 1),
            (['--prefixes', '--files'], 0),
        ]:
            ran = self.check(*families, trace, command=both_gone)
            self.assertEqual(ran.returncode, failing, f'{families} {ran.stdout}{ran.stderr}')

    def test_families_add_what_the_plan_has_not(self):
        for families, states in [
            (['--prefixes'], 12),
            (['--prefixes', '--lost'], 23),
            (['--prefixes', '--files'], 15),
            (['--quick'], 19),
            (['--families'], 20),
        ]:
            ran = self.check(*families, self.good, command=['true'])
            self.assertIn(f', {states} states, ', ran.stdout)

    def test_a_state_is_left_as_the_crash_left_it(self):
        ran = self.check(
            '--state',
            '20',
            self.bad,
            command=['sh', '-c', 'cat log table; ls; rm log; echo "$CRASHFS_STATE"; ' 'exit 1'],
        )
        self.assertEqual((ran.returncode, ran.stderr), (1, ''))
        self.assertIn('state 20, hole 8 11, says 1: bad: 20\n', ran.stdout)
        (folder,) = os.listdir(self.temporary)
        left = os.path.join(self.temporary, folder, '20')
        self.assertIn(f'It is laid out in {left}.', ran.stdout)
        self.assertEqual(sorted(os.listdir(left)), ['log', 'table', 'tmp'])
        with open(os.path.join(left, 'table'), encoding='utf-8') as file:
            self.assertEqual(file.read(), 'a=1\n')
        self.assertEqual(os.stat(os.path.join(left, 'tmp')).st_mode & 0o777, 0o700)
        with open(os.path.join(left, '..', 'says-1'), encoding='utf-8') as file:
            self.assertEqual(file.read(), 'a=2 is stored\n')

    def test_shards_are_merged_into_the_whole(self):
        whole = self.check('--json', self.path('whole.json'), self.bad)
        files = []
        for part in (1, 2):
            files.append(self.path(f'{part}.json'))
            ran = self.check('--shard', f'{part}/2', '--json', files[-1], self.bad)
            self.assertIn(f'tried by shard {part}/2', ran.stdout)
        ran = self.run_tool('crashfs-check', '--json', 'all.json', '--merge', *files)
        # What was tried of the advice is known only where COMMAND runs.
        untried = re.sub(' *tried: .*\n', '', whole.stdout)
        self.assertEqual((ran.returncode, ran.stdout), (1, untried), ran.stderr)
        all_outcomes, merged, *parts = (
            json.loads(self.read(f'{name}.json'))['windows'][0]['outcomes']
            for name in ('whole', 'all', '1', '2')
        )
        self.assertEqual(merged, all_outcomes)
        self.assertEqual(merged, {**parts[0], **parts[1]})
        self.assertEqual(len(merged), sum(map(len, parts)))
        self.merged_with_trace(whole.stdout, files)
        for given, told in [
            ((1, 1), 'shard 1/2 is missing'),
            ((0,), 'shard 2/2 is missing'),
            ((0, 1, 0), 'shard 1/2 was given 2 times'),
        ]:
            ran = self.run_tool('crashfs-check', '--merge', *(files[one] for one in given))
            self.assertEqual((ran.returncode, ran.stderr), (2, f'crashfs-check: {told}\n'))

    def test_shards_of_different_commands_are_refused(self):
        files = [self.path('1.json'), self.path('2.json')]
        self.check('--shard', '1/2', '--json', files[0], self.good, command=['true'])
        self.check('--shard', '2/2', '--json', files[1], self.good, command=['test', '1'])
        ran = self.run_tool('crashfs-check', '--merge', *files)
        self.assertEqual(
            (ran.returncode, ran.stdout, ran.stderr),
            (2, '', 'crashfs-check: the reports are of different COMMANDs: true and test 1\n'),
        )

    def merged_with_trace(self, whole, files):
        """The trace gives a merged report the differences of files."""
        words = ['--crashfs', FAKE, '--json', 'all.json', '--html', 'all.html']
        ran = self.run_tool('crashfs-check', *words, self.bad, '--merge', *files)
        self.assertEqual((ran.returncode, ran.stdout), (1, re.sub(' *tried: .*\n', '', whole)))
        (group,) = json.loads(self.read('all.json'))['groups']
        self.assertIn('/log has 0 bytes, in the good state 4 bytes', group['differences'][0])
        self.assertIn('class="differences"', self.read('all.html'))
        for more, told in [
            ((self.good,), f'{self.good}: that is not the trace of the reports'),
            (('--quick', self.bad), 'the trace has other states than the reports'),
            (('none',), 'none: No such file or directory'),
        ]:
            ran = self.run_tool('crashfs-check', *words, *more, '--merge', *files)
            self.assertEqual(ran.returncode, 2)
            self.assertIn(told, ran.stderr)
        cut = self.write('cut', f'#!/bin/sh\ntest $1 != tar || exit 5\nexec {FAKE} "$@"\n', 0o755)
        ran = self.run_tool('crashfs-check', '--crashfs', cut, self.bad, '--merge', *files)
        self.assertEqual((ran.returncode, ran.stdout), (2, ''))
        self.assertTrue(ran.stderr.startswith('crashfs-check: crashfs tar ended with status 5'))
        self.assert_nothing_left()

    def test_causes_are_last_lines_signals_and_statuses(self):
        for script, told in [
            ('echo a; echo "b: c"; echo', 'b: c'),
            ('true', 'status 7'),
            ('kill -9 $$', 'ended by SIGKILL'),
        ]:
            with self.subTest(script):
                ran = self.check(
                    '--prefixes',
                    self.good,
                    command=['sh', '-c', f'test $CRASHFS_STATE != 3 || {{ {script}; exit 7; }}'],
                )
                self.assertEqual(ran.stdout.splitlines()[1].strip().split('  ')[0], told)
                self.assertEqual(ran.returncode, 1)

    def test_a_command_that_hangs_is_ended_and_has_no_answer(self):
        for seconds in ('1.5', '15', '150'):
            ran = self.check(
                '--prefixes',
                '--timeout',
                seconds,
                '--jobs',
                '4',
                '--json',
                'r.json',
                self.good,
                command=['sh', '-c', 'test $CRASHFS_STATE != 3 || ' '{ echo begun; sleep 900; }'],
            )
            self.assertEqual(ran.returncode, 3, ran.stderr)
            self.assertIn(' gave no answer', ran.stdout)
            self.assert_nothing_left()
            # On a machine that is loaded others may be ended too, and this one before it began.
            *told, printed = json.loads(self.read('r.json'))['windows'][0]['outcomes']['3']
            self.assertEqual(told, ['no answer', f'it had not ended after {seconds} seconds'])
            if printed:
                break
        self.assertEqual(printed, 'begun\n')

    def test_what_a_command_leaves_running_is_ended(self):
        self.check(
            '--prefixes',
            self.good,
            command=['sh', '-c', f'sleep {self.long} & setsid sleep {self.long} &'],
        )
        self.assert_ended()
        self.assert_nothing_left()

    def test_an_empty_tree_is_an_empty_directory(self):
        trace = self.write('empty.trace', '{"trace":1,"owner":"u","group":"u","mode":"755"}\n')
        ran = self.check(trace, command=['sh', '-c', 'test -z "$(ls)"'])
        self.assertEqual((ran.returncode, ran.stderr), (0, ''))

    def test_modes_that_forbid_everything_are_no_hindrance(self):
        trace = self.write(
            'modes.trace',
            '\n'.join(
                [
                    '{"trace":1,"owner":"u","group":"u","mode":"755"}',
                    '{"start":"dir","path":"/d","owner":"u","group":"u","mode":"500"}',
                    '{"start":"file","path":"/d/f","owner":"u","group":"u","mode":"000",'
                    '"bytes":"00"}',
                    '{"start":"dir","path":"/e","owner":"u","group":"u","mode":"000"}',
                    '{"start":"dir","path":"/e/g","owner":"u","group":"u","mode":"000"}',
                ]
            ),
        )
        ran = self.check(
            trace,
            command=['sh', '-c', 'test "$(stat -c %a d d/f e | xargs)" = "500 0 0" && chmod 0 .'],
        )
        self.assertEqual(ran.returncode, 0, ran.stdout + ran.stderr)
        self.assert_nothing_left()


class Room(InStore):
    def test_what_has_no_room_is_reported_and_not_there(self):
        for words, told in [
            (('--json', 'r.json'), 'r.json: File too large'),
            ((), f'{self.temporary}: File too large'),
        ]:
            ran = self.run_tool(
                'crashfs-check',
                '--crashfs',
                FAKE,
                *words,
                self.good,
                '--',
                'true',
                file_bytes=300 if words else 4,
            )
            # The report is printed all the same.
            self.assertEqual((ran.returncode, 'none fails' in ran.stdout), (3, bool(words)))
            self.assertEqual(ran.stderr, f'crashfs-check: {told}\n')
            self.assertFalse(os.path.exists(self.path('r.json')))
            self.assert_nothing_left()

    def test_a_standard_output_that_takes_nothing_is_reported(self):
        for tool, status, *words in [
            ('crashfs-check', 3, '--crashfs', FAKE, self.good, '--', 'true'),
            ('crashfs-check', 3, '--crashfs', FAKE, '--state', '3', self.good, '--', 'true'),
        ]:
            ran = self.run_tool(tool, *words, output='/dev/full')
            self.assertEqual(
                (ran.returncode, ran.stderr),
                (status, f'{tool}: standard output: No space left on device\n'),
            )


if __name__ == '__main__':
    unittest.main()
