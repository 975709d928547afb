"""The parts of pages that are made from the sources."""

import io
import os
import pathlib
import tempfile
import unittest
from contextlib import redirect_stderr, redirect_stdout
from unittest import mock

from inventory import pages, sources
from inventory.command import main
from inventory.made_files import outdated_files, outdated_lines, write_outdated_files
from inventory.markdown import table_cell, table_lines
from inventory.pages import BEGIN, END, calls_text, page_with_part
from inventory.sources import TOP, Word, contracts_in, tests_in, words_in

from .support import InFolder

TESTS = '''\
//! Lists.

/// A list of two is
/// longer than one of one.
#[test]
#[tactic(auto)]
fn a_longer_list_is_longer() {
}

/// A list may be empty.
#[tactic(auto)]
#[test]
fn an_empty_list_is_a_list() {
}

#[test]
fn nothing_is_said() {
}
'''

WORDS = '''\
-- the first two
abbrev pub first_two : List Nat
first_two = []

module _ (serves : HasTree) where
  -- What is given,
  -- and kept.
  pub record IsGiven (old : List Nat) : Type 0 where
    -- a field
    pub kept : Nat

  abbrev hidden : Nat
'''

CALLS = '''\
ghost use Rattle.cs_low.specs.Words.{IsSorted};

impl<T> List<T> {
    /// Sorts.
    pub fn sort(&mut self)
        ensures { IsSorted self.new }
    {
        self.other(IsKnown)
    }
}

fn hidden(x: u8)
    ensures { IsSorted x }
{
}

pub fn sorted(x: &List<u8>) -> bool
    ensures { result \N{IDENTICAL TO} is_sorted x.now }
{
    true
}

pub fn first(x: &List<u8>) -> u8 {
    x.sorted_first(IsKnown)
}
'''


# A repository: what its files have, by their paths.
REPOSITORY = {
    'crates.txt': 'low:\nhigh: low\n',
    'crates/low/specs/Words.antt': '-- a | b\nabbrev pub IsSorted : Prop\n\npub data Order\n',
    'crates/low/src/lib.rt': CALLS.replace('Rattle.cs_low.', 'crate.'),
    'crates/low/must-fail/wrong.edit': '',
    'crates/low/must-fail/other.edit': '',
    'crates/high/src/lib.rt': CALLS.replace('cs_low', 'low'),
    'crates/high/src/tests.rt': TESTS,
    'crates/high/src/tests/more.rt': 'use x;\n' + TESTS,
    'tools/tests/test_it.py': '"""It\nworks."""\n',
    'tools/tests/support.py': '"""No test."""\n',
    'tools/tests/data/cases/rules/first.case': 'A rule\nholds.\n\n== args\nlist\n',
    'tools/tests/data/cases/rules/README.md': 'No case.\n',
    'tools/tests/data/cases/README.md': 'No area.\n',
}
TESTS_LIST = '''\
### high

`tests/more.rt`:

| Example | Test |
|---|---|
| A list of two is longer than one of one. | `a_longer_list_is_longer` |
| A list may be empty. | `an_empty_list_is_a_list` |
|  | `nothing_is_said` |

`tests.rt`: Lists.

| Example | Test |
|---|---|
| A list of two is longer than one of one. | `a_longer_list_is_longer` |
| A list may be empty. | `an_empty_list_is_a_list` |
|  | `nothing_is_said` |

### tools/tests/data/cases/rules

| Example | File |
|---|---|
| A rule holds. | `first` |

### tools/tests

| What it shows | File |
|---|---|
| It works. | `test_it.py` |

## Wrong bodies that the prover refuses

| Crate | Must-fail edits |
|---|---|
| low | `other`, `wrong` |
'''
WORDS_LIST = '''\
## low

| Word | What it says | File | Cited by |
|---|---|---|---|
| `IsSorted` | a \\| b | Words | `List::sort`, `high List::sort` |
| `Order` |  | Words |  |
'''


class Lists(InFolder):
    """The lists of a repository that has little of everything."""

    def setUp(self) -> None:
        super().setUp()
        for name, text in REPOSITORY.items():
            os.makedirs(os.path.dirname(self.path(name)), exist_ok=True)
            self.write(name, text)
        top = pathlib.Path(self.folder)
        folders = {'TOP': top, 'CRATES': top / 'crates', 'TOOLS_TESTS': top / 'tools' / 'tests'}
        folders['CASES'] = folders['TOOLS_TESTS'] / 'data' / 'cases'
        for patch in (
            mock.patch.multiple(sources, **folders),
            mock.patch.object(pages, 'TOP', top),
        ):
            patch.start()
            self.addCleanup(patch.stop)

    def printed(self, name: str) -> str:
        with redirect_stdout(io.StringIO()) as out:
            self.assertEqual(main(['--print', name]), 0)
        return out.getvalue()

    def test_each_test_and_edit_is_listed_with_what_it_shows(self) -> None:
        self.assertEqual(self.printed('tests'), TESTS_LIST)

    def test_each_word_is_listed_with_the_calls_that_cite_it(self) -> None:
        self.assertEqual(self.printed('words'), WORDS_LIST)


class Inventories(unittest.TestCase):
    def written(self, text):
        folder = tempfile.TemporaryDirectory()
        self.addCleanup(folder.cleanup)
        path = pathlib.Path(folder.name) / 'file.rt'
        path.write_text(text, encoding='utf-8')
        return path

    def test_a_test_has_the_comment_above_it(self):
        found = [(it.name, it.sentence) for it in tests_in(self.written(TESTS))]
        self.assertEqual(
            found,
            [
                ('a_longer_list_is_longer', 'A list of two is longer than one of one.'),
                ('an_empty_list_is_a_list', 'A list may be empty.'),
                ('nothing_is_said', ''),
            ],
        )

    def test_a_word_in_a_module_with_parameters_is_found(self):
        self.assertEqual(
            words_in(self.written(WORDS), 'Given'),
            [
                Word('first_two', 'Given', 'the first two'),
                Word('IsGiven', 'Given', 'What is given, and kept.'),
            ],
        )

    def test_contracts_are_those_of_public_calls_without_their_bodies(self):
        found = dict(contracts_in(CALLS))
        self.assertEqual(list(found), ['List::sort', 'sorted', 'first'])
        self.assertEqual(found['List::sort'], '        ensures { IsSorted self.new }')
        self.assertEqual(found['first'], '')

    def test_a_bar_and_many_calls_stay_in_their_cell(self):
        self.assertEqual(table_cell('a || b'), 'a \\|\\| b')
        for calls, text in (
            ('', ''),
            ('abcd', '`a`, `b`, `c`, `d`'),
            ('abcde', '`a`, `b`, `c`, `d` and 1 more'),
        ):
            self.assertEqual(calls_text(list(calls)), text)

    def test_a_table_has_a_head_and_then_a_line_for_each_row(self):
        lines = list(table_lines(('Key', 'Value'), [('a', 'b'), ('c', '')]))
        self.assertEqual(lines, ['| Key | Value |', '|---|---|', '| a | b |', '| c |  |'])

    def test_a_part_is_put_between_its_marks_alone(self):
        page = page_with_part(f'head\n{BEGIN}\nold\n{END}\ntail\n', 'new')
        self.assertEqual(page, f'head\n{BEGIN}\n\nnew\n\n{END}\ntail\n')
        for text in ('no marks', f'{END} {BEGIN}', f'{BEGIN} {END} not made {BEGIN} {END}'):
            with self.assertRaises(ValueError):
                page_with_part(text, 'new')

    def test_a_file_that_is_older_than_its_text_is_found(self):
        older, same = self.written('old'), self.written('same')
        missing = older.with_name('missing')
        found = outdated_files({older: 'new', same: 'same', missing: ''})
        self.assertEqual(found, [older, missing])

    def test_only_outdated_files_are_written_and_their_folder_is_made(self):
        older, same = self.written('old'), self.written('same')
        new = older.parent / 'folder' / 'new'
        os.utime(same, (100, 100))
        write_outdated_files({older: 'new', same: 'same', new: 'text'})
        self.assertEqual([path.read_text('utf-8') for path in (older, new)], ['new', 'text'])
        self.assertEqual(same.stat().st_mtime, 100)
        self.assertEqual(outdated_files({older: 'new', same: 'same', new: 'text'}), [])

    def test_a_line_names_the_command_that_writes_an_outdated_file(self):
        page, readme = TOP / 'docs' / 'absent.txt', (TOP / 'README.md').read_text('utf-8')
        self.assertEqual(
            outdated_lines({page: 'text', TOP / 'README.md': readme}, 'the as', 'b'),
            ['docs/absent.txt is missing, or not as the as make it: run tools/b'],
        )

    def test_a_wrong_list_of_crates_is_one_line_with_a_status(self):
        folder = tempfile.TemporaryDirectory()
        self.addCleanup(folder.cleanup)
        path = pathlib.Path(folder.name)
        (path / 'crates.txt').write_text('low:\nlow\n')
        for name in ('tests', 'words'):
            with mock.patch.object(sources, 'TOP', path), redirect_stdout(
                io.StringIO()
            ) as out, redirect_stderr(io.StringIO()) as err:
                self.assertEqual(main(['--print', name]), 1)
            self.assertEqual(out.getvalue(), '')
            self.assertEqual(err.getvalue(), 'inventories: crates.txt: line 2 has no colon\n')


if __name__ == '__main__':
    unittest.main()
