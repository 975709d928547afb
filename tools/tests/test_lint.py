"""The linters: what each finds, and that one that isn't installed is named."""

from __future__ import annotations

import contextlib
import io
import os
import shutil
import tempfile
import unittest
from pathlib import Path
from typing import Tuple
from unittest import mock

from crashfs_tools.common.command import Refused
from inventory.pages import BEGIN, END
from linting import crates_page, python, words
from linting.command import LINTERS, Faults, run_linters
from linting.crates_page import architecture_faults, crate_page_faults, occurrence_faults
from linting.layout import CODE_COLUMNS, long_function_faults, long_lines
from linting.python import (
    install_packages,
    run_linter,
    unexplained_comments_in,
    unknown_name_faults,
)
from linting.sources import TOP
from linting.words import (
    Line,
    name_faults,
    names_in_python,
    retired_word_faults,
    texts_in_python,
    texts_in_rattle,
    without_made_parts,
    word_faults,
)

PAGE = """
## The layers

| 2 above | cs_b |
| 1 below | cs_a |

## The crates

| Crate | What it is | What it promises |
|---|---|---|
| **1 below** | | |
| cs_a | a | all |
| **2 above** | | |
| cs_b | b | all |
"""
USES = {'cs_a': [], 'cs_b': ['cs_a', 'hex'], 'cs_b_tests': ['cs_b']}


class Words(unittest.TestCase):
    def test_a_retired_word_is_found_with_its_line(self) -> None:
        line = Line('README.md', 7, 'A row that was told stands in the log.')
        self.assertEqual(
            word_faults(line),
            [
                'README.md:7: "told": acknowledged, reported, printed',
                'README.md:7: "stands": is, is in',
            ],
        )
        self.assertEqual(word_faults(line._replace(text='Untold understandings')), [])

    def test_documentation_and_texts_are_read_and_comments_are_not(self) -> None:
        source = '"""It tells."""\ndef f():\n    """It stands."""\n    # told\n    print("yes")\n'
        self.assertEqual(
            sorted(texts_in_python(source)), [(1, 'It tells.'), (3, 'It stands.'), (5, 'yes')]
        )
        self.assertEqual(texts_in_rattle('//! "told"\nfn f() {\n    g("yes")\n}\n'), [(3, 'yes')])
        self.assertEqual(texts_in_rattle('a\n\n\n  // "told"\n"yes"\n'), [(5, 'yes')])

    def test_each_name_that_is_given_is_read(self) -> None:
        source = 'class A:\n    def b(self, c):\n        self.d = e = c.f\n'
        names = {name for _, name in names_in_python(source)}
        self.assertEqual(names, {'A', 'b', 'self', 'c', 'd', 'e'})
        for (
            name
        ) in 'told _told_path as_told go_on Told ToldPaths OldVoice ToGoOn IOVoice ATold'.split():
            self.assertEqual(len(name_faults(Line('a.py', 1, name))), 1, name)
        for name in 'untold metre teller go_only UntoldPaths OldVoiced'.split():
            self.assertEqual(name_faults(Line('a.py', 1, name)), [], name)

    def test_an_allowance_is_for_a_name_too_and_must_be_needed(self) -> None:
        text, name = Line('a.py', 1, 'It was told.'), Line('a.py', 2, 'told')
        allowed = {('a.py', 'told'): 'a test', ('b.py', 'told'): 'a test'}
        unused = 'b.py: "told" is allowed, and no longer there'
        for lines, names in (([text], []), ([], [name])):
            with mock.patch.multiple(
                words, all_lines=lambda: lines, names_of_tools=lambda: names, ALLOWED=allowed
            ):
                self.assertEqual(retired_word_faults(), [unused])
            with mock.patch.multiple(
                words, all_lines=lambda: lines, names_of_tools=lambda: names, ALLOWED={}
            ):
                self.assertEqual(len(retired_word_faults()), 1)

    def test_a_made_part_is_left_out(self) -> None:
        self.assertEqual(without_made_parts(f'a\n{BEGIN}\ntold\n{END}\nb'), 'a\n\n\n\nb')


class Layout(unittest.TestCase):
    def test_a_long_comment_or_clause_is_found_and_a_text_is_not(self) -> None:
        comment = '/// ' + '"a" ' * 25
        self.assertEqual(long_lines(f'{comment}\nfn f()\n', CODE_COLUMNS), [comment])
        clause = '    ensures { ' + 'a ' * 50 + '}'
        self.assertEqual(long_lines(f'fn f()\n{clause}\n', CODE_COLUMNS), [clause])
        self.assertEqual(long_lines('    let text = "' + 'a ' * 50 + '";', CODE_COLUMNS), [])

    def test_a_long_function_is_found_but_for_its_options(self) -> None:
        body = '    f()\n' * 40
        self.assertEqual(
            list(long_function_faults(f'def a():\n{body}')), ['a has 41 lines: 40 at most']
        )
        self.assertEqual(list(long_function_faults(f'def a():\n{body[8:]}')), [])
        self.assertEqual(
            list(long_function_faults('def a():\n' + '    p.add_argument(1)\n' * 60)), []
        )
        option_rows = '    p.add_argument(\n        1\n    )\n' * 20
        self.assertEqual(list(long_function_faults('def a():\n' + option_rows)), [])


class Python(unittest.TestCase):
    def test_a_comment_for_a_linter_must_have_a_code_and_a_reason(self) -> None:
        mark = '# type: ' + 'ignore'
        for line in (mark, f'{mark}[misc]', f'{mark}  # so', '# no' + 'qa', '# no' + 'qa: E402'):
            self.assertEqual(len(unexplained_comments_in({'a.py': f'x\n{line}\n'})), 1, line)
        for line in (f'{mark}[misc]  # so', '# no' + 'qa: E402  # so', '# a ' + 'type'):
            self.assertEqual(unexplained_comments_in({'a.py': line}), [], line)

    def test_what_a_linter_prints_counts_only_if_it_fails(self) -> None:
        self.assertEqual(run_linter(['true'], []), [])
        self.assertEqual(run_linter(['sh', '-c', 'echo a; echo b >&2; exit 1'], []), ['a', 'b'])
        self.assertEqual(run_linter(['false'], []), ['false: status 1'])
        self.assertIsNone(run_linter(['no-such-linter'], []))

    def test_a_linter_gets_paths_from_the_top_in_which_it_runs(self) -> None:
        words = ['sh', '-c', 'pwd; printf "%s\\n" "$@"; exit 1', 'sh', '--check']
        self.assertEqual(
            run_linter(words, [Path(__file__), TOP / 'tools' / 'lint']),
            [str(TOP), '--check', 'tools/tests/test_lint.py', 'tools/lint'],
        )

    def test_a_name_that_nothing_has_is_a_fault_of_a_test(self) -> None:
        unknown = 'a.py:1: error: "Client" has no attribute "end"  [attr-defined]'
        others = [
            'a.py:2: error: Function is missing a return type  [no-untyped-def]',
            'a.py:2: note: Use "-> None" if function does not return a value',
            'Found 2 errors in 1 file (checked 9 source files)',
        ]
        for ran, wanted in (([unknown, *others], [unknown]), ([], []), (None, None)):
            with mock.patch.object(python, 'run_linter', return_value=ran) as linter:
                self.assertEqual(unknown_name_faults(), wanted)
            self.assertTrue(all(path.name != 'python.py' for path in linter.call_args.args[1]))
            self.assertIn(Path(__file__), linter.call_args.args[1])

    def test_a_linter_that_fails_itself_is_a_fault_of_the_tests(self) -> None:
        for fault in (
            'a.py:1: error: invalid syntax  [syntax]',
            'Found 1 error in 1 file (errors prevented further checking)',
            "mypy: can't read file 'a.py': No such file or directory",
            'mypy: status 2',
        ):
            with mock.patch.object(python, 'run_linter', return_value=[fault]):
                self.assertEqual(unknown_name_faults(), [fault])

    @unittest.skipUnless(shutil.which('mypy'), 'mypy is not installed')
    def test_names_in_untyped_tests_and_of_other_tests_are_looked_up(self) -> None:
        with tempfile.TemporaryDirectory() as folder:
            names = {
                'one': 'import os\n',
                'two': 'from one import os\ndef f():\n    os.nothing()\n',
            }
            paths = [Path(folder, f'{name}.py') for name in names]
            for path in paths:
                path.write_text(names[path.stem])
            with mock.patch.object(python, 'test_files', return_value=paths), mock.patch.object(
                python, 'path_from_top', str
            ), mock.patch.dict(os.environ, MYPYPATH=folder):
                faults = unknown_name_faults()
        self.assertEqual(
            [fault.partition(': error: ')[2] for fault in faults or ()],
            ['Module has no attribute "nothing"  [attr-defined]'],
        )

    def test_only_root_installs_and_only_what_is_missing(self) -> None:
        for user, names, calls in ((0, ['mypy'], 1), (0, [], 0), (1000, ['mypy'], 0)):
            with mock.patch.object(python.os, 'geteuid', return_value=user), mock.patch.object(
                python.shutil, 'which', return_value='/usr/bin/apt-get'
            ), mock.patch.object(python.subprocess, 'run') as started:
                install_packages(names)
            self.assertEqual(started.call_count, calls, (user, names))
            for call in started.call_args_list:
                words = ['apt-get', 'install', '--yes', '--no-install-recommends', *names]
                self.assertEqual(call.args, (words,))
                self.assertEqual(call.kwargs['env']['DEBIAN_FRONTEND'], 'noninteractive')

    def test_without_apt_get_nothing_is_installed(self) -> None:
        with mock.patch.object(python.os, 'geteuid', return_value=0), mock.patch.object(
            python.shutil, 'which', return_value=None
        ), mock.patch.object(python.subprocess, 'run') as started:
            install_packages(['mypy'])
        started.assert_not_called()


class CratesPage(unittest.TestCase):
    def faults(self, old: str = '', new: str = '') -> str:
        return '; '.join(crate_page_faults(PAGE.replace(old, new, 1) if old else PAGE, USES))

    def test_a_page_that_has_each_crate_once_is_right(self) -> None:
        self.assertEqual(self.faults(), '')

    def test_each_fault_is_found(self) -> None:
        for old, new, fault in (
            ('| cs_a | a | all |\n', '', 'cs_a is 0 times in the table, not 1 times'),
            ('| 1 below | cs_a |\n', '', 'cs_a is 0 times in the picture, not 1 times'),
            ('cs_b |', 'cs_b cs_b |', 'cs_b is 2 times in the picture, not 1 times'),
            ('| cs_b | b |', '| cs_b_tests | b |', 'cs_b_tests is 1 times in the table, not 0'),
            ('| 2 above', '| 3 above', 'cs_b is in layer 3 of the picture, 2 of the table'),
            ('| cs_a | a | all |', '| cs_a | a | |', 'cs_a: its row must say what it is'),
            ('| cs_a | a | all |', '| cs_a | a |', 'cs_a: its row must say what it is'),
            (
                '| cs_a | a | all |',
                '| cs_a | a | all | more |',
                'cs_a: its row must say what it is',
            ),
            (
                '| **2 above** |',
                '| **above** |',
                'cs_b is in layer 2 of the picture, 0 of the table',
            ),
            ('| 1 below', '| 3 below', 'cs_b uses cs_a of a higher layer'),
        ):
            self.assertIn(fault, self.faults(old, new), new)

    def test_the_page_is_read_with_the_list_of_crates(self) -> None:
        with tempfile.TemporaryDirectory() as folder, mock.patch.object(
            crates_page, 'TOP', Path(folder)
        ):
            page = Path(folder, crates_page.PAGE)
            page.parent.mkdir(parents=True)
            for name, uses in USES.items():
                Path(folder, 'crates', name).mkdir(parents=True)
                with open(Path(folder, 'crates.txt'), 'a', encoding='utf-8') as file:
                    file.write(f'{name}: {" ".join(uses)}\n')
            page.write_text(PAGE, 'utf-8')
            self.assertEqual(architecture_faults(), [])
            page.write_text(PAGE.replace('| cs_a | a | all |\n', ''), 'utf-8')
            fault = f'{crates_page.PAGE}: cs_a is 0 times in the table, not 1 times'
            self.assertEqual(architecture_faults(), [fault])

    def test_a_page_without_a_section_is_refused(self) -> None:
        for heading in ('The layers', 'The crates'):
            with self.assertRaisesRegex(Refused, f'{crates_page.PAGE} has no section "{heading}"'):
                self.faults(f'## {heading}', '## Another')

    def test_faults_are_in_the_order_of_the_names(self) -> None:
        names = ['e', 'd', 'c', 'b', 'a']
        faults = [fault[0] for fault in occurrence_faults('the table', names, [])]
        self.assertEqual(faults, sorted(names))

    def test_a_crate_that_the_picture_lacks_is_one_fault(self) -> None:
        fault = 'cs_b is 0 times in the picture, not 1 times'
        self.assertEqual(self.faults('| 2 above | cs_b |\n'), fault)


class Command(unittest.TestCase):
    def linted(self, **linters: Faults) -> Tuple[int, str]:
        with contextlib.redirect_stdout(io.StringIO()) as printed:
            status = run_linters(
                {name: lambda found=found: found for name, found in linters.items()}
            )
        return status, printed.getvalue()

    def test_the_last_line_names_what_failed_and_what_was_skipped(self) -> None:
        self.assertEqual(self.linted(a=[], b=[]), (0, 'lint: 2 passed, 0 failed, 0 skipped\n'))
        self.assertEqual(
            self.linted(a=['x', 'y'], b=None, c=[]),
            (1, 'a: x\na: y\nlint: 1 passed, 1 failed (a), 1 skipped (not installed: b)\n'),
        )
        self.assertEqual(
            self.linted(b=None), (0, 'lint: 0 passed, 0 failed, 1 skipped (not installed: b)\n')
        )

    def test_a_wrong_list_of_crates_is_a_fault_and_the_other_linters_are_run(self) -> None:
        def refuse() -> Faults:
            raise Refused('crates.txt: line 2 has no colon')

        with contextlib.redirect_stdout(io.StringIO()) as printed:
            self.assertEqual(run_linters({'a': refuse, 'b': lambda: []}), 1)
        self.assertEqual(
            printed.getvalue(),
            'a: crates.txt: line 2 has no colon\nlint: 1 passed, 1 failed (a), 0 skipped\n',
        )

    def test_each_linter_is_run(self) -> None:
        self.assertLessEqual({'flake8', 'black', 'mypy', 'words', 'layout'}, set(LINTERS))


if __name__ == '__main__':
    unittest.main()
