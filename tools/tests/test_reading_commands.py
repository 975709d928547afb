"""The command line of the second reading."""

import itertools
import os
import subprocess
import unittest

from .case_runs import Runner
from .random_traces import RandomTrace
from .support import EXAMPLES, FAKE, InFolder
from .test_reading import HEADERS


class AsAProgram(InFolder):
    def run_reading(self, *words):
        return subprocess.run(
            [FAKE, *words],
            cwd=self.folder,
            stdout=subprocess.PIPE,
            stderr=subprocess.PIPE,
            text=True,
            check=False,
        )

    def test_random_traces_are_read_in_all_versions(self):
        runner = Runner(self.folder, None)
        for version, seed in itertools.product((1, 2, 3, 4), range(20)):
            text = RandomTrace(version, seed).text()
            self.assertEqual(text, RandomTrace(version, seed).text())
            for words in (['list'], ['picks', '--lost'], ['picks', '--files']):
                self.assertIn(runner.run(words, {'trace': text.encode()}).status, (0, 1))

    def test_faults_are_printed_as_the_program_prints_them_and_then_why(self):
        mode = HEADERS[1].replace('775', '0775')
        ran = self.run_reading('list', '--trace', self.write('mode.trace', mode))
        self.assertEqual((ran.returncode, ran.stdout), (1, ''))
        self.assertEqual(
            ran.stderr.splitlines(),
            [
                'crashfs: trace line 1: Syntax',
                f'crashfs: {self.path("mode.trace")}:1: mode "0775" is not three octal digits',
            ],
        )
        ran = self.run_reading('list', '--trace', 'none')
        self.assertEqual((ran.returncode, ran.stderr), (1, 'crashfs: none: cannot read\n'))

    def test_command_lines_that_the_program_refuses_are_refused(self):
        for words in (
            [],
            ['serve'],
            ['list'],
            ['list', '--trace', 'a', '--count'],
            *(
                ['tar', '--trace', str(EXAMPLES / 'store.trace'), '--states', states]
                for states in ('', '3-1', '3-', 'x', '1,,2', '²', '١', '9' * 5000)
            ),
        ):
            ran = self.run_reading(*words)
            self.assertEqual((ran.returncode, ran.stdout), (2, ''), words)
            self.assertTrue(ran.stderr.startswith('error: '), ran.stderr)
        for option, states in (
            ('--state', '99'),
            ('--states', '0-99'),
            ('--states', '0-99999999999999'),
            ('--states', f'1,{2**64 - 1}'),
        ):
            words = 'tar', '--trace', str(EXAMPLES / 'store.trace'), option, states
            ran = self.run_reading(*words)
            self.assertEqual((ran.returncode, ran.stderr), (1, 'crashfs: no such state\n'), words)

    def test_a_reader_that_leaves_is_no_fault_to_report(self):
        reader, writer = os.pipe()
        os.close(reader)
        with os.fdopen(writer, 'w') as closed:
            ran = subprocess.run(
                [FAKE, 'list', '--trace', str(EXAMPLES / 'store.trace')],
                stdout=closed,
                stderr=subprocess.PIPE,
                check=False,
            )
        self.assertEqual((ran.returncode, ran.stderr), (1, b''))


if __name__ == '__main__':
    unittest.main()
