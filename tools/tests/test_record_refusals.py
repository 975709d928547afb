"""What crashfs-record refuses, and in which words."""


import os
import unittest

from .support import InFolder


class Refuses(InFolder):
    def setUp(self):
        super().setUp()
        os.mkdir(self.path('d'))

    def refusal(self, *words):
        ran = self.run_tool('crashfs-record', *words)
        self.assertEqual((ran.returncode, ran.stdout), (1, ''), ran.stderr)
        self.assert_nothing_left()
        self.assertEqual(sorted(os.listdir(self.folder)), ['d', 'tmp'])
        return ran.stderr

    def test_bad_input_is_reported_in_one_line(self):
        for told, *words in [
            ('x is no directory', 'x', 'o', '--', 'true'),
            ('no-such-command: command not found', 'd', 'o', '--', 'no-such-command'),
            ('./d: not executable', 'd', 'o', '--', './d'),
            ('x/o: its directory is not there', 'd', 'x/o', '--', 'true'),
            ('d/o would be in ', 'd', 'd/o', '--', 'true'),
            ('--crashfs /none: no such program', '--crashfs', '/none', 'd', 'o', '--', 'true'),
            ('tmp is a directory', 'd', 'tmp', '--', 'true'),
            ('the name of a file to write is empty', 'd', '', '--', 'true'),
            ('the name of a file to write is empty', '--keep-log', '', 'd', 'o', '--', 'true'),
            ('/dev/null has no call of any process', '--from-log', '/dev/null', 'd', 'o'),
            ('none: No such file or directory', '--from-log', 'none', 'd', 'o'),
        ]:
            with self.subTest(told):
                err = self.refusal(*words)
                self.assertTrue(err.startswith(f'crashfs-record: {told}'), err)
                self.assertEqual(err.count('\n'), 1, err)

    def test_without_strace_nothing_runs(self):
        ran = self.run_tool(
            'crashfs-record', 'd', 'o', '--', '/bin/sh', '-c', 'echo 1 > a', path=self.path('tmp')
        )
        self.assertEqual(ran.returncode, 1)
        self.assertIn('strace: command not found', ran.stderr)
        self.assertEqual(os.listdir(self.path('d')), [])

    def test_a_strace_that_is_old_or_may_not_trace_is_reported(self):
        os.mkdir(self.path('tmp', 'bin'))
        for version, told in [
            ('5.10', 'strace is 5.10; 5.18 or later is needed'),
            ('6.1', 'strace recorded nothing'),
        ]:
            strace = self.write(
                'tmp/bin/strace',
                f"""#!/bin/sh
                test "$1" = -V && echo 'strace -- version {version}' && exit
                exit 1""",
                0o755,
            )
            ran = self.run_tool(
                'crashfs-record',
                '--keep-log',
                'log',
                'd',
                'o',
                '--',
                '/bin/true',
                path=os.path.dirname(strace),
            )
            self.assertEqual(ran.returncode, 1)
            self.assertIn(told, ran.stderr)
            self.assertFalse(os.path.exists(self.path('o')))

    def test_the_command_line_is_refused_with_status_2(self):
        for words in [
            ('d',),
            ('d', 'o'),
            ('d', 'o', '--'),
            ('--from-log', 'l', 'd', 'o', '--', 'x'),
        ]:
            self.assertEqual(self.run_tool('crashfs-record', *words).returncode, 2)


if __name__ == '__main__':
    unittest.main()
