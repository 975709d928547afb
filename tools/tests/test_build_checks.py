"""One check of `tools/build`: how it ended, and how much memory it and the machine have."""

from __future__ import annotations

import signal
import sys
import unittest
from pathlib import Path
from unittest import mock

from building import checks
from building.checks import Check, killed_text, run_check
from building.memory import GIGABYTE, available_memory, memory_of_machine

# A check that takes so much memory, and then ends as its last word says.
HUNGRY = "import os, sys; memory = b'x' * %d; print('so far: 0 of 9 functions checked', flush=True)"


class Checks(unittest.TestCase):
    def ended(self, last: str, size: int = 0) -> Check:
        words = [sys.executable, '-S', '-c', f'{HUNGRY % size}; {last}']
        return run_check(words, Path('/'))

    def test_a_check_has_its_status_and_what_it_printed(self) -> None:
        check = self.ended('sys.exit(1)')
        self.assertEqual((check.status, check.is_killed), (1, False))
        self.assertEqual(check.output, b'so far: 0 of 9 functions checked\n')

    def test_its_memory_is_that_of_its_largest_process(self) -> None:
        size = 200 << 20
        other = f'[sys.executable, "-S", "-c", "x = bytes(1) * {size}"]'
        below = f'import subprocess; subprocess.run({other})'
        for check in (self.ended('sys.exit(0)', size), self.ended(below)):
            self.assertGreater(check.memory, size)
            self.assertLess(check.memory, 2 * size)

    def test_a_process_that_the_system_killed_is_seen_in_each_form(self) -> None:
        self.assertTrue(self.ended('os.kill(os.getpid(), 9)').is_killed)
        for status in (-9, 137, 247):
            self.assertTrue(Check(status, b'', 0).is_killed)
        for status in (0, 1, 2, -signal.SIGTERM):
            self.assertFalse(Check(status, b'', 0).is_killed)

    def test_the_text_has_the_crate_its_memory_and_what_to_do(self) -> None:
        check = Check(247, b'', 5 * GIGABYTE)
        with mock.patch.object(checks, 'memory_of_machine', return_value=8 * GIGABYTE):
            text = killed_text('cs_session', check, 3, 4)
            alone = killed_text('crashfs', check, 1, 1)
        self.assertRegex(text, '^cs_session: the system killed its check, .* memory ran out')
        self.assertIn('with 3 jobs, had 5.0 GB; the machine has 8.0 GB', text)
        self.assertTrue(text.endswith(': run tools/build --processors 2'))
        self.assertIn('with a job, had 5.0 GB', alone)
        self.assertTrue(alone.endswith(': it needs a machine with more memory'))

    def test_the_machine_has_some_memory(self) -> None:
        self.assertGreater(memory_of_machine(), GIGABYTE // 4)
        self.assertGreater(memory_of_machine(), available_memory())
        self.assertGreater(available_memory(), 0)


if __name__ == '__main__':
    unittest.main()
