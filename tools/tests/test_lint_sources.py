"""What the linters read of this repository, and that a fault in any of it is found."""

from __future__ import annotations

import tempfile
import unittest
from pathlib import Path
from typing import List
from unittest import mock

from inventory.sources import DescribedTest
from linting import command, layout, pages, python, sources, words
from linting.sources import CRATES, TOOLS, TOP, is_python, path_from_top

MODULE, TEST, SCRIPT = 'tools/linting/words.py', 'tools/tests/test_lint.py', 'tools/lint'
CRATE_FILE = 'crates/cs_names/src/lib.rt'


def names(paths: List[Path]) -> List[str]:
    return [path_from_top(path) for path in paths]


class Files(unittest.TestCase):
    def test_a_script_is_python_by_its_first_line(self) -> None:
        with tempfile.TemporaryDirectory() as folder:
            for name, text, wanted in (
                ('module.py', '', True),
                ('script', '#!/usr/bin/env python3\n', True),
                ('shell', '#!/bin/sh\n# python\n', False),
                ('text', 'python\n', False),
                ('page.md', '#!/usr/bin/env python3\n', False),
            ):
                path = Path(folder) / name
                path.write_text(text)
                self.assertEqual(is_python(path), wanted, name)
            self.assertFalse(is_python(Path(folder)))

    def test_tests_are_apart_from_programs(self) -> None:
        everything = names(sources.python_files())
        self.assertLessEqual({MODULE, TEST, SCRIPT}, set(everything))
        self.assertEqual(everything, sorted(everything))
        programs, tests = names(sources.program_files()), names(sources.test_files())
        self.assertLessEqual({MODULE, SCRIPT}, set(programs))
        self.assertIn(TEST, tests)
        self.assertEqual(set(programs) & set(tests), set())
        self.assertEqual({name.split('/')[0] for name in everything}, {'examples', 'tools'})

    def test_the_prover_reads_three_folders_of_a_crate(self) -> None:
        found = names(sources.crate_sources())
        self.assertIn(CRATE_FILE, found)
        folders = {name.split('/')[2] for name in found}
        self.assertEqual(folders, {'src', 'specs', 'proofs'})
        self.assertEqual({Path(name).suffix for name in found}, {'.rt', '.antt'})


class Limits(unittest.TestCase):
    def test_a_file_with_more_lines_is_found(self) -> None:
        with mock.patch.object(layout, 'MOST_LINES', 20):
            faults = ' '.join(layout.long_file_faults())
        for name in (MODULE, TEST, CRATE_FILE):
            self.assertRegex(faults, f'{name} has [0-9]+ lines: 20 at most')

    def test_a_line_with_more_columns_is_found(self) -> None:
        with mock.patch.object(layout, 'CODE_COLUMNS', 60):
            python_faults = layout.wide_python_line_faults()
            crate_faults = layout.wide_crate_line_faults()
        for name in (MODULE, TEST):
            fault = next(fault for fault in python_faults if fault.startswith(name))
            self.assertRegex(fault, r':[0-9]+: longer than 60 columns$')
        faults = [fault for fault in crate_faults if fault.startswith(CRATE_FILE)]
        self.assertRegex(faults[0], ': longer than 60 columns: [^ ]')

    def test_proofs_and_laws_have_wider_lines(self) -> None:
        for name, columns in (
            ('cs_names/src/lib.rt', 100),
            ('cs_names/specs/Lib.antt', 100),
            ('cs_apm/specs/Laws/Sets.antt', 140),
            ('cs_names/proofs/name/is_below/Answers.antt', 140),
            ('proofs/src/lib.rt', 100),
        ):
            self.assertEqual(layout.most_columns(CRATES / name), columns, name)

    def test_all_kinds_of_layout_are_looked_at(self) -> None:
        with mock.patch.multiple(
            layout, MOST_LINES=300, CODE_COLUMNS=90, MOST_LINES_OF_FUNCTION=30
        ):
            faults = '\n'.join(layout.layout_faults())
        for form in (r'\.rt: longer than 90', r'\.py:[0-9]+: longer than 90', 'lines: 300 at most'):
            self.assertRegex(faults, form)
        self.assertRegex(faults, r'tools/[a-z_/]+\.py: [a-z_]+ has [0-9]+ lines: 30 at most')
        self.assertNotRegex(faults, r'tests/test_\w+\.py: \w+ has [0-9]+ lines: 30')


class Texts(unittest.TestCase):
    def test_pages_and_texts_of_programs_are_read(self) -> None:
        lines = list(words.all_lines())
        files = {line.file for line in lines}
        wanted = {'README.md', 'docs/man/crashfs-check.1', 'helpers/go/README.md', MODULE, SCRIPT}
        self.assertLessEqual({*wanted, 'examples/config/check.sh'}, files)
        self.assertEqual([name for name in files if name.startswith('tools/tests/')], [])
        self.assertNotIn(words.TABLES, files)
        first_line = (TOP / 'README.md').read_text('utf-8').splitlines()[0]
        self.assertIn(words.Line('README.md', 1, first_line), lines)

    def test_what_only_tests_print_is_not_read(self) -> None:
        for name, wanted in (
            ('cs_linux/src/rules.rt', True),
            ('cs_linux/src/tests.rt', False),
            ('cs_linux/src/tests/rules.rt', False),
            ('cs_run_tests/src/lib.rt', False),
            ('cs_test_stores/src/lib.rt', False),
        ):
            self.assertEqual(words.may_print(CRATES / name), wanted, name)
        files = {line.file for line in words.lines_of_crates()}
        self.assertIn('crates/cs_linux/src/errno.rt', files)
        self.assertTrue(all(words.may_print(TOP / name) for name in files))

    def test_names_of_programs_are_read(self) -> None:
        found = {(line.file, line.text) for line in words.names_of_tools()}
        self.assertIn((MODULE, 'names_of_tools'), found)
        self.assertEqual([name for name, _ in found if name.startswith('tools/tests/')], [])


class Made(unittest.TestCase):
    def test_an_edit_of_a_crate_that_is_not_listed_is_a_fault(self) -> None:
        self.assertEqual(pages.stray_edit_faults(), [])
        with mock.patch.object(pages, 'crate_names', return_value=['cs_sets']):
            faults = pages.stray_edit_faults()
        edits = len(list(CRATES.glob('*/must-fail/*.edit')))
        self.assertEqual(len(faults), edits - len(pages.edits_of('cs_sets')))
        self.assertRegex(faults[0], r'^crates/\w+/must-fail/\w+\.edit: crates.txt has no such')

    def test_a_test_without_a_sentence_is_a_fault(self) -> None:
        bare = [DescribedTest('bare', ''), DescribedTest('other', 'It is described.')]
        with mock.patch.multiple(
            pages, tests_in=lambda _: bare, tests_of_tools=lambda: bare, CRATES=CRATES / 'none'
        ):
            faults = pages.undescribed_test_faults()
        self.assertEqual(faults, ['tools/tests/bare has no sentence that says what it shows'])
        with mock.patch.multiple(pages, tests_in=lambda _: bare, tests_of_tools=lambda: []):
            faults = pages.undescribed_test_faults()
        self.assertIn(f'{CRATE_FILE}: bare has no sentence that says what it shows', faults)

    def test_each_fault_of_what_is_made_is_given(self) -> None:
        with mock.patch.multiple(
            pages,
            outdated_source_lines=lambda: ['old'],
            undescribed_test_faults=lambda: ['bare'],
            stray_edit_faults=lambda: ['stray'],
        ):
            self.assertEqual(pages.inventory_faults(), ['old', 'bare', 'stray'])


class Programs(unittest.TestCase):
    def test_each_linter_gets_its_files(self) -> None:
        for linter, name, has_tests in (
            (python.flake8_faults, 'flake8', True),
            (python.black_faults, 'black', True),
            (python.mypy_faults, 'mypy', False),
        ):
            with mock.patch.object(python, 'run_linter', return_value=['fault']) as run:
                self.assertEqual(linter(), ['fault'])
            linter_words, paths = run.call_args.args
            self.assertEqual(linter_words[0], name)
            self.assertIn(TOOLS / 'linting' / 'words.py', paths)
            self.assertEqual(TOOLS / 'tests' / 'test_lint.py' in paths, has_tests, name)

    def test_black_changes_nothing(self) -> None:
        with mock.patch.object(python, 'run_linter') as run:
            python.black_faults()
        self.assertIn('--check', run.call_args.args[0])

    def test_comments_are_looked_at_in_each_file(self) -> None:
        with mock.patch.object(python, 'unexplained_comments_in', dict):
            found = dict(python.unexplained_comment_faults())
        self.assertEqual(found[TEST], (TOP / TEST).read_text('utf-8'))
        self.assertEqual(set(found), set(names(sources.python_files())))

    def test_only_missing_linters_are_installed_and_only_if_asked(self) -> None:
        for line, installed in (([], []), (['--install'], [['black']])):
            with mock.patch.object(
                python.shutil, 'which', side_effect=lambda name: None if name == 'black' else name
            ), mock.patch.object(command, 'install_packages') as install, mock.patch.object(
                command, 'run_linters', return_value=7
            ) as run:
                self.assertEqual(command.main(line), 7)
            self.assertEqual([call.args[0] for call in install.call_args_list], installed)
            run.assert_called_once_with(command.LINTERS)


if __name__ == '__main__':
    unittest.main()
