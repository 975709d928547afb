"""What `tools/test` makes of what the tests print, and how many parts it runs at once."""

from __future__ import annotations

import io
import os
import threading
import unittest
from contextlib import redirect_stderr, redirect_stdout
from pathlib import Path
from typing import Dict, Iterator, List, Optional
from unittest import mock

from testing import crates, examples, main, tools_tests
from testing.at_once import Part, Progress, most_parts_at_once, run_parts
from testing.commands import EndedCommand
from testing.crates import GATE_CRATES, GATE_TESTS, Crate, crates_with_tests
from testing.examples import EXAMPLES, ScriptFiles, run_examples, run_scripts, example_scripts
from testing.outcome import Outcome

from .support import InFolder

SLOW = 'tests::a::slow'
OK = 'test tests::a::one ... ok\n'


class Crates(unittest.TestCase):
    def counts(self, printed: str, left: Optional[Dict[str, str]] = None) -> List[int]:
        found = crates.outcome_of_crate(Crate('low', 2, 9, left or {}), printed)
        self.assertEqual(found.output != '', found.failed > 0)
        return [found.passed, found.failed, len(found.not_run)]

    def test_a_test_that_is_not_named_has_failed(self) -> None:
        self.assertEqual(self.counts(OK + 'test tests::a::two ... ok\n'), [2, 0, 0])
        self.assertEqual(self.counts(OK + 'test tests::a::two ... FAILED\n'), [1, 1, 0])
        self.assertEqual(self.counts(OK), [1, 1, 0])
        self.assertEqual(self.counts('rt: no such toolchain\n'), [0, 2, 0])

    def test_a_test_that_is_left_to_the_gate_has_not_failed(self) -> None:
        left = {SLOW: 'too slow'}
        self.assertEqual(self.counts(f'{OK}test {SLOW} ... FAILED\n', left), [1, 0, 1])
        self.assertEqual(self.counts(OK, left), [1, 0, 1])
        self.assertEqual(self.counts(f'{OK}test {SLOW} ... ok\n', left), [2, 0, 0])
        self.assertEqual(self.counts(f'test {SLOW} ... FAILED\n', left), [0, 1, 1])

    def test_what_passed_is_not_printed(self) -> None:
        found = crates.outcome_of_crate(
            Crate('low', 2, 9, {}), OK + 'test tests::a::two ... FAILED\nwhy\n'
        )
        lines = ['low: results of 2 of 2 tests', 'test tests::a::two ... FAILED', 'why']
        self.assertEqual(found.output.splitlines(), lines)

    def test_what_is_left_to_the_gate_exists(self) -> None:
        known = {crate.name: crate for crate in crates_with_tests()}
        self.assertLessEqual(set(GATE_CRATES), set(known))
        for name, tests in GATE_TESTS.items():
            self.assertEqual(known[name].gate_tests, tests)


class RunsOfCrates(InFolder):
    def test_a_crate_is_tested_in_its_folder_whatever_the_status_is(self) -> None:
        self.write('rt', f'#!/bin/sh\necho "{OK[:-1]}"\necho "$PWD $*"\nexit 1\n', 0o755)
        os.mkdir(self.path('low'))
        path = f'{self.folder}:{os.environ["PATH"]}'
        with mock.patch.dict(os.environ, PATH=path), mock.patch.object(
            crates, 'CRATES', Path(self.folder)
        ):
            one, two = (crates.run_crate_tests(Crate('low', count, 9, {})) for count in (1, 2))
        self.assertEqual((one.passed, one.failed, one.output), (1, 0, ''))
        self.assertEqual((two.passed, two.failed), (1, 1))
        self.assertRegex(two.output, '/low try --test --seconds [0-9]+$')


class Tools(unittest.TestCase):
    def test_all_tests_of_the_tools_are_run(self) -> None:
        ended = EndedCommand(1, 'Ran 3 tests in 1s\n\nFAILED (errors=1)\n')
        with mock.patch.object(tools_tests, 'run_command', return_value=ended) as run:
            found = tools_tests.run_tools_tests()
        self.assertEqual((found.passed, found.failed), (2, 1))
        words, folder = run.call_args.args
        self.assertEqual(words[1:], '-m unittest discover -s tools -t tools'.split())
        self.assertTrue((folder / 'tools' / 'tests').is_dir())

    def test_the_counts_are_those_of_the_last_lines(self) -> None:
        rows = [
            ('Ran 9 tests in 1.2s\n\nOK\n', 0, (9, 0, 0)),
            (
                'x: the tests that need it are skipped\nRan 9 tests in 1.2s\n\nOK (skipped=2)\n',
                0,
                (7, 0, 2),
            ),
            ('Ran 9 tests in 1.2s\n\nFAILED (failures=1, errors=2, skipped=3)\n', 1, (3, 3, 3)),
            ('Ran 1 test in 0.1s\n\nFAILED (unexpected successes=1)\n', 1, (0, 1, 0)),
            ('Ran 9 tests in 1.2s\n\nOK (skipped=2, expected failures=1)\n', 0, (7, 0, 2)),
            ('ImportError: no such module\n', 1, (0, 1, 0)),
            ('Ran 9 tests in 1.2s\n\nOK\n', 2, (8, 1, 0)),
        ]
        for printed, status, counts in rows:
            with self.subTest(printed):
                found = tools_tests.outcome_of_tools(printed, status)
                self.assertEqual((found.passed, found.failed, found.skipped), counts)
                self.assertEqual(found.output, printed if counts[1] else '')

    def test_what_is_skipped_is_named_once_with_its_reason(self) -> None:
        line = 'fish is not there: the tests that need it are skipped\n'
        found = tools_tests.outcome_of_tools(
            f'{line}{line}Ran 3 tests in 1s\n\nOK (skipped=2)\n', 0
        )
        self.assertEqual(found.not_run, ['2 tests of the tools: fish is not there'])


FAKE_RT = """#!/bin/sh
for word; do case $word in */crashfs-test-*) folder=$word ;; esac; done
for script in "$folder"/*; do
    name=$(basename "$script" .script)
    echo "== $name.script"
    {command}
    echo "case=$name.script run=ended status=0"
done
"""


class Examples(InFolder):
    def with_rt(self, command: str) -> Outcome:
        """What comes of the scripts over the usual files, with a command in the place of `rt`."""
        self.write('rt', FAKE_RT.format(command=command), 0o755)
        path = f'{self.folder}:{os.environ["PATH"]}'
        files, names = next(iter(example_scripts().items()))
        with mock.patch.dict(os.environ, PATH=path):
            return run_scripts(files, names)

    def test_each_script_has_its_files(self) -> None:
        self.assertEqual(
            example_scripts(),
            {
                ScriptFiles('start.trace', 'users'): ['first_exchange', 'shared_run', 'versions'],
                ScriptFiles('store.trace', 'store.users'): ['recovery'],
            },
        )

    def test_replies_are_compared_byte_for_byte(self) -> None:
        self.write('one.replies', 'a\r\nb\n')
        with mock.patch.object(examples, 'EXAMPLES', Path(self.folder)):
            for printed, counts in (('a\r\nb\n', (1, 0)), ('a\nb\n', (0, 1))):
                outcome = Outcome('examples')
                examples.count_example(outcome, 'one.replies', printed)
                self.assertEqual((outcome.passed, outcome.failed), counts)

    def test_replies_are_compared_with_those_that_are_kept(self) -> None:
        found = self.with_rt(f'cat {EXAMPLES}/$name.replies')
        self.assertEqual((found.passed, found.failed, found.output), (3, 0, ''))
        found = self.with_rt(f'sed s/^[0-9]/9/ {EXAMPLES}/$name.replies')
        self.assertEqual((found.passed, found.failed), (0, 3))
        self.assertIn('examples/versions.replies is not what was printed', found.output)

    def test_a_toolchain_that_says_nothing_has_failed(self) -> None:
        self.assertEqual(self.with_rt('exit 1').failed, 3)

    def test_without_a_program_the_lists_are_those_of_the_second_reading(self) -> None:
        with mock.patch.object(examples.Crashfs, 'find', return_value=None):
            found, not_run = run_examples(), main.not_run_lines_without_rt()
        self.assertEqual((found.passed, found.failed), (2, 0))
        self.assertRegex(not_run[0], '^the [0-9]+ tests of the crates: ')
        self.assertRegex(not_run[1], '^4 examples: ')

    def test_with_a_program_it_prints_all_examples(self) -> None:
        path = self.write('crashfs', '#!/bin/sh\necho another list\n', 0o755)
        with mock.patch.object(examples.Crashfs, 'find', return_value=examples.Crashfs(path)):
            found, not_run = run_examples(), main.not_run_lines_without_rt()
        self.assertEqual((found.passed, found.failed), (0, 6))
        self.assertEqual(len(not_run), 1)


class AtOnce(unittest.TestCase):
    def test_there_is_a_place_for_each_processor_that_has_memory(self) -> None:
        rows = [(4, 24, 4), (4, 7.5, 2), (4, 1, 1), (1, 100, 1), (2, 6, 2)]
        for processors, gigabytes, count in rows:
            self.assertEqual(most_parts_at_once(processors, gigabytes), count)

    def test_parts_run_at_once_and_each_has_its_outcome(self) -> None:
        both = threading.Barrier(2)

        def part(name: str) -> Part:
            def run() -> Outcome:
                both.wait(60)
                return Outcome(name, 1)

            return run

        found = list(run_parts({name: part(name) for name in 'ab'}, 2))
        self.assertEqual(sorted(one.name for one in found), ['a', 'b'])
        self.assertTrue(all(one.seconds > 0 for one in found))

    def test_a_part_that_breaks_is_no_success(self) -> None:
        def broken() -> Outcome:
            raise OSError('no rt')

        threads = threading.active_count()
        with self.assertRaises(OSError):
            list(run_parts({'a': broken}, 1))
        self.assertEqual(threading.active_count(), threads)


class Shown(unittest.TestCase):
    def test_the_line_names_the_parts_that_run(self) -> None:
        progress = Progress(3)
        with self.assertRaises(OSError), progress.running_part('b'), progress.running_part('a'):
            self.assertRegex(progress.text(), '^0 of 3 done after [0-9]+ s; running: a, b$')
            raise OSError
        self.assertRegex(progress.text(), '^2 of 3 done after [0-9]+ s; running: $')

    def test_it_is_shown_on_a_terminal_only_and_cut_to_its_width(self) -> None:
        shown = '\r\033[K2 of 3 don\r\033[K'
        for is_terminal, wanted in ((True, shown), (False, '')):
            progress = Progress(3)
            progress.done, progress.is_shown = {'a', 'b'}, is_terminal
            with mock.patch('sys.stderr') as stream, mock.patch(
                'os.get_terminal_size', return_value=os.terminal_size((11, 9))
            ):
                progress.show()
                progress.clear()
            printed = [call.args[0] for call in stream.write.call_args_list if call.args[0]]
            self.assertEqual(''.join(printed), wanted)


class Parts(unittest.TestCase):
    def test_only_the_gate_runs_its_crates_and_a_program_runs_the_scripts(self) -> None:
        known = [Crate('low', 1, 9, {}), Crate(next(iter(GATE_CRATES)), 1, 9, {})]
        scripts = ['scripts over start.trace', 'scripts over store.trace']
        for program, names in ((None, ['low', *scripts]), (examples.Crashfs('crashfs'), ['low'])):
            with mock.patch.object(main, 'crates_with_tests', return_value=known):
                with mock.patch.object(examples.Crashfs, 'find', return_value=program):
                    self.assertEqual(list(main.parts_with_rt()), names)

    def test_those_of_the_toolchain_come_last(self) -> None:
        for has_rt, names in ((True, ['examples', 'tools', 'low']), (False, ['examples', 'tools'])):
            with mock.patch.multiple(
                main,
                run_tools_tests=lambda: Outcome('tools'),
                run_examples=lambda: Outcome('examples'),
                parts_with_rt=lambda: {'low': lambda: Outcome('low')},
            ):
                found = [outcome.name for outcome in main.run_all_parts(has_rt=has_rt, count=1)]
            self.assertEqual([*sorted(found[:2]), *found[2:]], names)


class Main(unittest.TestCase):
    def run_main(self, found: List[Outcome], rt: Optional[str]) -> List[str]:
        """The lines that the command prints for these outcomes, and its status."""

        def run_all_parts(has_rt: bool, count: int) -> Iterator[Outcome]:
            return iter(found)

        printed, errors = io.StringIO(), io.StringIO()
        with mock.patch.object(main, 'run_all_parts', run_all_parts), mock.patch.object(
            main.shutil, 'which', return_value=rt
        ), mock.patch('sys.argv', ['test']), redirect_stdout(printed), redirect_stderr(errors):
            status = main.main()
        return [*printed.getvalue().splitlines(), str(status)]

    def test_the_last_line_counts_all(self) -> None:
        lines = self.run_main([Outcome('a', 2), Outcome('b', 3, not_run=['one: why'])], 'rt')
        self.assertEqual(lines[:2], ['a: 2 passed, 0 s', 'b: 3 passed, 0 s'])
        self.assertIn('not run: one: why', lines)
        self.assertTrue(any('cs_growth_tests' in line for line in lines))
        self.assertEqual(lines[-2:], ['5 passed, 0 failed', '0'])

    def test_one_failure_is_status_1(self) -> None:
        lines = self.run_main([Outcome('a', 2, 1, output='why')], None)
        self.assertEqual(lines[0], 'a: 2 passed, 1 FAILED, 0 s')
        self.assertTrue(any(line.startswith('not run: the ') for line in lines))
        self.assertEqual(lines[-2:], ['2 passed, 1 failed', '1'])


if __name__ == '__main__':
    unittest.main()
