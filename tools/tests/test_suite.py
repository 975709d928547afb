"""How the gate runs the tools' tests: modules at once, once more if they fail, and counts."""

from __future__ import annotations

import io
import os
import signal
import time
import unittest
from contextlib import redirect_stdout
from typing import List
from unittest import mock

from gating.modules import ModuleResult, PassCounter, result_of_tests, run_module
from gating.suite import count_at_once, has_passed, main, run_modules, summary_line

from .support import PATIENCE, InFolder

ENDLESS = f"""import time
import unittest


class Endless(unittest.TestCase):
    def test_it_waits(self) -> None:
        time.sleep({PATIENCE})
"""


class SuiteTests(InFolder):
    def test_a_module_that_fails_beside_others_is_run_again_alone(self) -> None:
        asked: List[str] = []

        def run_once(name: str) -> ModuleResult:
            asked.append(name)
            is_first = asked.count(name) == 1
            failed = {'slow': is_first, 'wrong': True}.get(name, False)
            return ModuleResult(name, run=1, failed=int(failed), output=f'{name}\n')

        with mock.patch('gating.suite.run_module', run_once):
            with mock.patch('sys.stderr', io.StringIO()) as printed:
                results = run_modules(['right', 'slow', 'wrong'], 2)
        self.assertEqual(sorted(asked[:3]) + asked[3:], ['right', 'slow', 'wrong', 'slow', 'wrong'])
        failed = {result.name: result.failed for result in results}
        self.assertEqual(failed, {'right': 0, 'slow': 0, 'wrong': 1})
        self.assertFalse(has_passed(results))
        again = 'slow failed beside others: again, alone\nslow\n'
        self.assertEqual(printed.getvalue()[: 17 + len(again)], f'right\nslow\nwrong\n{again}')

    def test_a_module_that_fails_alone_is_not_run_again(self) -> None:
        wrong = ModuleResult('wrong', run=1, failed=1)
        with mock.patch('gating.suite.run_module', return_value=wrong) as run:
            self.assertEqual(run_modules(['wrong'], 1), [wrong])
        run.assert_called_once_with('wrong')
        self.assertEqual([count_at_once(count) for count in (1, 2, 4, 8)], [1, 1, 3, 6])

    def test_the_line_counts_all_modules(self) -> None:
        results = [
            ModuleResult('a', run=3, failed=1, skips=['x', 'no crashfs']),
            ModuleResult('b', run=2, passed=1, skips=['x']),
        ]
        line = '5 run, 1 failed, 3 skipped (2: x; 1: no crashfs)'
        self.assertEqual(summary_line(results), line)
        self.assertFalse(has_passed(results[1:] + results[:1]))
        self.assertTrue(has_passed(results[1:]))
        self.assertFalse(has_passed([ModuleResult('none')]))

    def test_with_the_program_no_test_is_skipped_for_lack_of_it(self) -> None:
        skipped = ModuleResult('a', run=3, passed=1, skips=['crashfs is not built', 'x'])
        line = "tools' tests: 3 run, 0 failed, 2 skipped (1: crashfs is not built; 1: x)"
        fault = '; 1 must not be skipped, as crashfs is built'
        for words, end, status in ((['--program'], fault, 1), ([], '', 0)):
            with mock.patch('gating.suite.run_modules', return_value=[skipped]):
                with redirect_stdout(io.StringIO()) as printed:
                    self.assertEqual(main(words), status)
            self.assertEqual(printed.getvalue(), f'{line}{end}\n')

    def test_a_run_in_which_every_test_was_skipped_has_not_passed(self) -> None:
        results = [ModuleResult('a', run=3, skips=['x'] * 3), ModuleResult('b')]
        self.assertFalse(has_passed(results))
        self.assertTrue(has_passed([*results, ModuleResult('c', 1, 1)]))

    def test_skipped_tests_are_no_passed_ones_whatever_skips_them(self) -> None:
        class Right(unittest.TestCase):
            def test_it_passes(self) -> None:
                self.assertTrue(self)

            def test_its_subtests_are_skipped(self) -> None:
                for number in range(3):
                    with self.subTest(number):
                        self.skipTest('part')

            @unittest.skip('decorated')
            def test_it_is_skipped(self) -> None:
                self.fail()

        class Skipped(Right):
            @classmethod
            def setUpClass(cls) -> None:
                raise unittest.SkipTest('class')

        load = unittest.defaultTestLoader.loadTestsFromTestCase
        suite = unittest.TestSuite([load(Skipped), load(Right)])
        runner = unittest.TextTestRunner(io.StringIO(), resultclass=PassCounter)
        result = result_of_tests('m', runner.run(suite))
        self.assertEqual((result.run, result.passed, result.failed), (3, 1, 0))
        self.assertEqual(sorted(result.skips), ['class', 'decorated', 'part', 'part', 'part'])
        self.assertTrue(has_passed([result]))

    def test_a_module_is_run_and_one_that_is_not_there_fails(self) -> None:
        result = run_module('tests.test_order')
        self.assertEqual((result.failed, result.skips), (0, []))
        self.assertGreater(result.run, 0)
        self.assertEqual(result.passed, result.run)
        self.assertIn(f'Ran {result.run} test', result.output)
        self.assertEqual(run_module('tests.test_that_is_not_there').failed, 1)

    def test_a_process_that_ends_without_a_result_fails(self) -> None:
        self.write('python', '#!/bin/sh\necho "ends early"\nexit 0\n', 0o755)
        with mock.patch('sys.executable', self.path('python')):
            result = run_module('tests.test_order')
        self.assertEqual((result.run, result.failed, result.output), (0, 1, 'ends early\n'))

    def test_a_process_that_the_tests_leave_is_not_waited_for(self) -> None:
        left = self.path('left')
        self.write('python', f'#!/bin/sh\nsleep {PATIENCE} &\necho $! >{left}\n', 0o755)
        begin_time = time.monotonic()
        with mock.patch('sys.executable', self.path('python')):
            run_module('tests.test_order')
        os.kill(int(self.read('left')), signal.SIGKILL)
        self.assertLess(time.monotonic() - begin_time, PATIENCE / 2)

    def test_a_module_that_does_not_end_says_what_it_was_doing(self) -> None:
        self.write('endless.py', ENDLESS)
        with mock.patch.dict(os.environ, PYTHONPATH=self.folder):
            with mock.patch('gating.modules.MODULE_SECONDS', 10.0):
                result = run_module('endless')
        self.assertEqual((result.run, result.failed), (0, 1))
        self.assertIn('in test_it_waits', result.output)


if __name__ == '__main__':
    unittest.main()
