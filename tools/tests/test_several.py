"""Tests that run at once, each in another process."""

import os
import signal
import time
import unittest
from unittest import mock

from . import several
from .support import PATIENCE, InFolder


def samples(folder):
    """Tests that a test runs: `unittest discover` finds no class that is made in a function."""

    class Samples(unittest.TestCase):
        def mark(self, name):
            with open(os.path.join(folder, name), 'w', encoding='ascii'):
                pass

        def wait_for(self, name):
            end = time.monotonic() + PATIENCE
            while not os.path.exists(os.path.join(folder, name)):
                self.assertLess(time.monotonic(), end, name)
                time.sleep(0.01)

        def test_a_changes_its_process(self):
            os.chdir('/')
            os.umask(0o077)
            with mock.patch('os.pwrite', None):
                self.mark('changed')
                self.wait_for('seen')

        def test_b_sees_nothing_of_it(self):
            self.wait_for('changed')
            seen = os.getcwd(), os.umask(0o022), os.pwrite is None
            self.mark('seen')
            self.assertEqual(seen, (folder, 0o022, False))

        def test_c_fails(self):
            """What it says."""
            with self.subTest(part=1):
                self.fail('no')
            raise OSError('odd')

        def test_d_is_skipped(self):
            self.skipTest('so')

        def test_e_ends_its_process(self):
            os.kill(os.getpid(), signal.SIGKILL)

        def test_f_passes(self):
            self.assertTrue(True)

    return unittest.defaultTestLoader.loadTestsFromTestCase(Samples)


class Several(InFolder):
    def setUp(self):
        super().setUp()
        self.addCleanup(os.chdir, os.getcwd())
        self.addCleanup(os.umask, os.umask(0o022))
        os.chdir(self.folder)

    def run_all(self, processes):
        """Runs the samples; returns their letters in the order in which they are told, and what
        came of them."""
        told, result = [], unittest.TestResult()
        result.startTest = lambda test: told.append(letter(test))
        with mock.patch.object(several, 'PROCESSES', processes):
            several.SeveralAtOnce(samples(self.folder)).run(result)
        return ''.join(told), result

    def test_what_came_of_each_is_reported_in_their_order(self):
        told, result = self.run_all(3)
        self.assertEqual(told, 'abcdef')
        self.assertEqual(
            [
                (letter(test), test.shortDescription(), last_line(text))
                for test, text in result.failures + result.errors
            ],
            [
                ('c', 'What it says.', 'AssertionError: no'),
                ('c', 'What it says.', 'OSError: odd'),
                ('e', None, several.__name__ + '.Broken: the process of the test ended'),
            ],
        )
        self.assertIn('(part=1)', str(result.failures[0][0]))
        self.assertEqual([reason for _, reason in result.skipped], ['so'])

    def test_a_test_that_no_process_is_left_for_is_an_error(self):
        self.write('seen', '')
        told, result = self.run_all(1)
        self.assertEqual(told, 'abcdef')
        self.assertEqual([letter(test) for test, _ in result.errors], ['c', 'e', 'f'])


def letter(test):
    return test.id().rpartition('.test_')[2][0]


def last_line(text):
    return text.rstrip().splitlines()[-1]


if __name__ == '__main__':
    unittest.main()
