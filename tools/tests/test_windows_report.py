"""Reports of sessions that are checked in windows."""


import json
import re
import unittest
from unittest import mock

from crashfs_tools.checker import checking
from crashfs_tools.checker.options import Options
from crashfs_tools.checker.running.progress import Progress
from crashfs_tools.common.guard import Guard

from .support import FAKE
from .test_windows import InWindows, log_of, said, sync

LOSING = """\
#!/bin/sh
test "$CRASHFS_SAYS" = "$(grep -c row)" || { echo "texts: not those told"; exit 1; }
size=$(stat -c %s log 2> /dev/null || echo 0)
test "$size" -ge $((8 * CRASHFS_SAYS)) && exit 0
echo "lost: row $((size / 8)) of $CRASHFS_SAYS"
exit 1
"""


class Reports(InWindows):
    """A log that two of its rows are not synced in, each in another window."""

    def setUp(self):
        super().setUp()
        text = log_of(12)
        for row in (2, 9):
            text = text.replace(sync('/log') + said(f'row {row}'), said(f'row {row}'))
        self.trace = self.write('log.trace', text)
        self.command = self.write('losing.sh', LOSING, 0o755)

    def check(self, *words, command=None):
        return self.run_tool(
            'crashfs-check', '--crashfs', FAKE, *words, '--', *(command or [self.command])
        )

    def test_what_fails_in_several_windows_is_one_entry_with_one_advice(self):
        whole, cut = self.check(self.trace), self.check('--window', '12', self.trace)
        for ran in (whole, cut):
            self.assertEqual(ran.returncode, 1, ran.stderr)
            lines = [line.strip() for line in ran.stdout.splitlines()]
            self.assertIn('fsync /log between them (and at 1 more place)', lines)
            self.assertRegex(
                ran.stdout,
                'tried: with those 2 syncs 0 of these [0-9]+ states are '
                'left, and no other fails',
            )
        self.assertIn(' in 4 windows, ', cut.stdout)
        first = re.search('line (.*) was not durable', whole.stdout)[0]
        self.assertIn(first, cut.stdout)

    def test_a_state_of_a_later_window_is_found_by_its_number(self):
        self.check('--window', '12', '--json', 'r.json', self.trace)
        report = json.loads(self.read('r.json'))
        number = max(report['groups'][0]['states'])
        self.assertGreaterEqual(number, report['windows'][2]['first'])
        ran = self.check('--window', '12', '--state', str(number), self.trace)
        self.assertEqual(ran.returncode, 1, ran.stderr)
        self.assertRegex(ran.stdout, f'state {number}, [a-z0-9 ]+, says 1[0-2]: bad: lost: row 9')
        total = report['windows'][-1]['first'] + len(report['windows'][-1]['states'])
        ran = self.check('--window', '12', '--state', str(total), self.trace)
        self.assertEqual(ran.stderr, f'crashfs-check: no such state: {total} (there are {total})\n')

    def test_shards_are_merged_into_the_whole(self):
        whole = self.check('--window', '12', self.trace)
        for part in (1, 2):
            self.check(
                '--window', '12', '--shard', f'{part}/2', '--json', f'{part}.json', self.trace
            )
        ran = self.run_tool('crashfs-check', '--merge', '2.json', '1.json')
        self.assertEqual(ran.returncode, 1, ran.stderr)
        untried = re.sub(' *tried: .*\n', '', whole.stdout)
        self.assertEqual(ran.stdout, untried)

    def test_if_one_shard_has_all_windows_nothing_comes_after_them(self):
        for part, words in ((1, ['--fail-fast']), (2, [])):
            json_file = f'{part}.json'
            words += ['--shard', f'{part}/2', '--json', json_file]
            self.check('--window', '12', *words, self.trace)
        for names in (('1.json', '2.json'), ('2.json', '1.json')):
            ran = self.run_tool('crashfs-check', '--merge', *names)
            first = ran.stdout.splitlines()[0]
            self.assertRegex(first, r' in 4 windows, .*; [0-9,]+ not tried \(stopped by the first')
            self.assertNotIn('micro-operation ', first)

    def test_what_is_saved_in_between_says_whether_the_session_goes_on(self):
        saved = []
        options = Options(self.trace, [self.command], jobs=1, unproved=True, json='r.json')
        options.window, options.prefixes = 12, True
        with mock.patch.multiple(
            checking,
            SAVE_SECONDS=0,
            write_whole_file=lambda _, pieces, __: saved.append(json.loads(''.join(pieces))),
        ):
            with Guard('crashfs-check', may_reap=False) as guard:
                checking.check_trace(options, guard, Progress(None))
        found = {len(one['windows']): one['has_rest'] for one in saved}
        self.assertGreater(len(found), 2)
        self.assertEqual(found, {count: count < max(found) for count in range(1, len(found) + 1)})

    def test_a_stopped_check_goes_on_in_its_window(self):
        whole = self.check('--window', '12', self.trace)
        ran = self.check('--window', '12', '--fail-fast', '--json', 'r.json', self.trace)
        self.assertIn('(stopped by the first failure)', ran.stdout)
        ran = self.check('--window', '12', '--resume', 'r.json', self.trace)
        self.assertEqual((ran.returncode, ran.stdout), (1, whole.stdout), ran.stderr)

    def test_the_page_draws_the_windows_in_which_states_fail(self):
        self.check('--window', '12', '--html', 'r.html', '--junit', 'r.xml', self.trace)
        page = self.read('r.html')
        drawn = json.loads(re.search(r'const windows = (.*);\n', page)[1])
        self.assertEqual(len(drawn), 2)
        self.assertIn('of 4 windows', page)
        self.assertIn('<testcase', self.read('r.xml'))

    def test_a_command_that_fails_at_the_end_is_refused_before_anything(self):
        ran = self.check(
            '--window', '12', self.trace, command=['sh', '-c', 'test $CRASHFS_SAYS != 12']
        )
        self.assertEqual((ran.returncode, ran.stdout), (2, ''))
        self.assertIn(
            "COMMAND fails in the tree at the session's end, where nothing is lost "
            '(says 12): status 1',
            ran.stderr,
        )


if __name__ == '__main__':
    unittest.main()
