"""A guard that can't have its directory, and the processes that guards find."""

import io
import os
import signal
import subprocess
import sys
import time
import unittest
from contextlib import redirect_stderr
from unittest import mock

from crashfs_tools.common import descendants
from crashfs_tools.common.guard import VARIABLE, Guard, processes_with_token, with_token
from crashfs_tools.common.signals import STOPS, TimeUp, stop_signals_blocked, time_limit

from .support import TOOLS, InFolder

# Writes whether a guard's directory is there half a second after its begin.
GUARDED = """\
import os, sys, time
from crashfs_tools.common.guard import Guard
with Guard('guard', may_reap=False) as guard:
    time.sleep(.5)
    with open(sys.argv[1], 'w') as out:
        out.write(str(os.path.isdir(guard.directory)))
"""


class Guards(InFolder):
    def error_of(self, folder):
        """The error of a guard in a folder; no child is left of it, and no signal blocked."""
        children = descendants.child_processes()
        with self.assertRaises(OSError) as raised, Guard('guard', folder, may_reap=False):
            pass
        self.assertEqual(descendants.child_processes(), children)
        self.assertFalse(set(STOPS) & signal.pthread_sigmask(signal.SIG_BLOCK, []))
        self.assert_nothing_left()
        return raised.exception

    def test_a_place_that_is_not_there_is_named(self):
        error = self.error_of(self.path('none'))
        self.assertIsInstance(error, FileNotFoundError)
        self.assertTrue(error.filename.startswith(self.path('none/guard-')), error.filename)

    def test_a_watcher_that_is_killed_is_an_error(self):
        def kill_watcher(**_):
            os.kill(os.getpid(), signal.SIGKILL)

        with mock.patch('tempfile.mkdtemp', kill_watcher):
            error = self.error_of(self.temporary)
        self.assertEqual(error.strerror, 'its watcher was killed')

    def test_the_directory_is_where_it_was_asked_for_and_removed_in_the_end(self):
        printed = io.StringIO()
        with redirect_stderr(printed), Guard('guard', self.temporary, may_reap=False) as guard:
            self.assertEqual(os.path.dirname(guard.directory), self.temporary)
            self.assertTrue(os.path.isdir(guard.directory))
        self.assertEqual(printed.getvalue(), '')
        self.assert_nothing_left()

    def test_closed_standard_streams_do_not_end_it(self):
        for closed in ('<&-', '>&-', '2>&-', '<&- >&- 2>&-'):
            out = self.path('out')
            script = f'exec {sys.executable} -c "$1" "$2" {closed}'
            subprocess.run(['sh', '-c', script, 'sh', GUARDED, out], cwd=TOOLS, check=True)
            self.assertEqual(self.read('out'), 'True', closed)


class Tokens(unittest.TestCase):
    def test_a_process_has_the_tokens_of_all_guards_around_it_and_no_other(self):
        environment = {f'{VARIABLE}_2': 'e5', 'LAST': 'f6'}
        for token in ('a1', 'b2', 'c3'):
            environment = with_token(environment, token)
        child = subprocess.Popen(['/bin/sleep', '60'], env={**environment, f'X{VARIABLE}': 'd4'})
        self.addCleanup(child.wait)
        self.addCleanup(child.kill)
        for token in ('a1', 'b2', 'c3', 'd4', 'e5', 'f6', 'a', '1', '2:c'):
            is_found = child.pid in processes_with_token(token)
            self.assertEqual(is_found, token in ('a1', 'b2', 'c3'), token)


class Limits(unittest.TestCase):
    def test_a_time_limit_waits_while_a_process_is_forked(self):
        """In the hooks of a fork, such as those of logging, an exception would be lost."""
        steps = []
        with self.assertRaises(TimeUp), time_limit(0.01):
            with stop_signals_blocked():
                time.sleep(0.1)
                steps.append('forked')
            steps.append('after')
        self.assertEqual(steps, ['forked'])


if __name__ == '__main__':
    unittest.main()
