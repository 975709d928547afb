"""The README: its commands do what it says, its figures are those of other pages, and pictures."""

from __future__ import annotations

import os
import re
import subprocess
import unittest
from html import unescape
from pathlib import Path
from typing import Dict, List, Tuple

from measuring.store_rows import ResultsFile

from .support import EXAMPLES, PATIENCE, TOOLS, InFolder, needs_strace

TOP = TOOLS.parent
DOCS = TOP / 'docs'
READMES = sorted((TOP / 'helpers').glob('*/README.md'))
PAGES = [TOP / 'README.md', *sorted(DOCS.rglob('*.md')), *READMES]
README = (TOP / 'README.md').read_text('utf-8')
MOST_LINES = 125
BLOCK = re.compile(r'(?<=\n\n)(?:    .*\n|\n+(?=    ))+')
UNPROVED = re.compile(r'^unproved: .*\n', re.M)
# What a reader has in the place of these two: here the store of the tutorial, and its check.
PUTS = 'a=1 a=2 compact b=3'
STAND_INS = {
    'my-program': f'exec {EXAMPLES}/tutorial/kv.py {PUTS}',
    'my-recovery': f'exec {EXAMPLES}/tutorial/check.py {EXAMPLES}/tutorial/kv.py 0 {PUTS}',
}
STORES = {
    'LevelDB': 'leveldb/puts',
    'bbolt': 'bbolt/new',
    'Redis': 'redis/aof',
    'LMDB': 'lmdb/rows',
}
# The suffixes of files that may name a page; commands have none.
NAMING = ('', '.antt', '.go', '.hpp', '.py', '.rs', '.rt', '.sh')
IMAGE = re.compile(r'!\[([^]]*)\]\(([^)]*)\)')


def blocks() -> List[str]:
    """The README's indented blocks, without their indentation."""
    return [re.sub('^    ', '', one, flags=re.M) for one in BLOCK.findall(README)]


def is_report(block: str) -> bool:
    return re.match(r'\w+\.trace: ', block) is not None


def commands() -> List[str]:
    """The README's commands in their order, without the comments after them."""
    lines = [line for block in blocks() if not is_report(block) for line in block.splitlines()]
    return [line.partition('  #')[0].strip() for line in lines if line.strip()]


def reports() -> Dict[str, str]:
    """The reports of the README, by their trace."""
    return {block.partition(':')[0]: block.rstrip('\n') for block in blocks() if is_report(block)}


def rows_of(page: str) -> Dict[str, List[str]]:
    """The rows of a page's tables, by their first cell."""
    lines = (TOP / 'docs' / page).read_text('utf-8').splitlines()
    rows = [[cell.strip() for cell in line.strip('|').split('|')] for line in lines if '|' in line]
    return {cells[0]: cells[1:] for cells in rows}


def headings(path: Path) -> List[str]:
    """The anchors of a page."""
    lines = path.read_text('utf-8').splitlines()
    titles = [line.lstrip('#').strip().lower() for line in lines if line.startswith('#')]
    return [re.sub(r'[^\w -]', '', title).replace(' ', '-') for title in titles]


class Commands(InFolder):
    def setUp(self) -> None:
        super().setUp()
        for name in ('tools', 'examples'):
            os.symlink(TOP / name, self.path(name))
        os.mkdir(self.path('bin'))
        for name, line in STAND_INS.items():
            self.write(f'bin/{name}', f'#!/bin/sh\n{line}\n', 0o755)

    def printed(self, command: str) -> str:
        """What a command prints on standard output, without the line on the second reading."""
        environment = self.environment(f'{self.path("bin")}:{os.environ["PATH"]}')
        ran = subprocess.run(
            ['sh', '-c', command],
            cwd=self.folder,
            timeout=PATIENCE,
            text=True,
            stdin=subprocess.DEVNULL,
            stdout=subprocess.PIPE,
            check=False,
            stderr=subprocess.PIPE,
            env={**os.environ, **environment},
        )
        self.assertIn(ran.returncode, (0, 1), ran.stderr)
        return UNPROVED.sub('', ran.stdout).rstrip('\n')

    def test_a_report_of_an_example_is_what_the_check_prints(self) -> None:
        (command,) = (it for it in commands() if 'config.trace' in it)
        self.assertEqual(self.printed(command), reports()['config.trace'])

    @needs_strace
    def test_the_first_commands_record_and_check_a_program(self) -> None:
        first = commands()[:4]
        self.assertEqual(first[:2], ['export PATH="$PWD/tools:$PATH"', 'mkdir store'])
        report = reports()['first.trace'].replace('first.trace', 'my.trace')
        self.assertEqual('\n'.join(self.printed('\n'.join(first)).splitlines()[3:]), report)


class Figures(unittest.TestCase):
    def test_the_readme_is_short(self) -> None:
        self.assertLessEqual(len(README.splitlines()), MOST_LINES)

    def test_the_figures_of_stores_are_those_of_their_table(self) -> None:
        rows = {one['key']: one for one in ResultsFile().read_rows()}
        text = ' '.join(README.split())
        for store, key in STORES.items():
            states, fail = str(rows[key]['tried']), str(rows[key]['failing'] or 'none')
            found = re.search(rf'{store}\b[^,;]*? in (none|\d+) of (\d+)', text)
            self.assertIsNotNone(found, store)
            self.assertEqual(found and found.groups(), (fail, states), store)

    def test_the_figures_of_sqlite_are_those_of_its_reports(self) -> None:
        extra = (EXAMPLES / 'sqlite' / 'extra.report').read_text()
        (states,) = re.findall(r'all (\d+) crash states \([\d,]+ sets\): none fails', extra)
        self.assertIn(f'none of {states} crash states fails', ' '.join(README.split()))

    def test_the_times_of_builds_are_those_of_contributing(self) -> None:
        cell = rows_of('CONTRIBUTING.md')['a first build by `tools/build`'][0]
        self.assertEqual(
            cell, 'over 200 processor minutes, an hour and a half or more on four cores; 10 GB'
        )
        text = ' '.join(README.split())
        for words in (
            'over 200 minutes of processor time',
            'an hour and a half or more on four cores',
            '10 GB',
        ):
            self.assertIn(words, text)


class Links(unittest.TestCase):
    def test_each_link_leads_to_a_file_and_a_heading(self) -> None:
        for page in [*PAGES, TOP / 'SECURITY.md', TOP / 'CHANGELOG.md']:
            for target in re.findall(r'\]\(([^)]*)\)', page.read_text('utf-8')):
                self.assertTrue(target, page.name)
                path, _, anchor = ''.join(target.split()).partition('#')
                if '://' in target:
                    continue
                place = (page.parent / path).resolve() if path else page
                self.assertTrue(place.exists(), f'{page.name}: {target}')
                if anchor:
                    self.assertIn(anchor, headings(place), f'{page.name}: {target}')

    def test_each_page_that_a_program_names_exists(self) -> None:
        found = named_pages()
        self.assertGreater(len(found), 20)
        self.assertEqual([it for it in found if not (TOP / it[1]).exists()], [])


def named_pages() -> List[Tuple[Path, str]]:
    """Each page of docs/ that a program, a crate, an example or a helper names, with the file that
    names it."""
    folders = ('tools', 'crates', 'examples', 'helpers', '.ci')
    files = [path for folder in folders for path in (TOP / folder).rglob('*') if path.is_file()]
    files = [it for it in files if it.suffix in NAMING and 'out' not in it.relative_to(TOP).parts]
    return [
        (path, name)
        for path in [*files, TOP / 'action.yml', TOP / 'Dockerfile']
        for name in re.findall(r'docs/[\w/-]+\.md', path.read_text('utf-8', 'ignore'))
    ]


def images() -> List[Tuple[Path, str, Path]]:
    """Each picture of a page: the page, the text in its place, and its file."""
    return [
        (page, ' '.join(found[1].split()), (page.parent / found[2]).resolve())
        for page in PAGES
        for found in IMAGE.finditer(page.read_text('utf-8'))
    ]


class Images(unittest.TestCase):
    def test_the_text_in_the_place_of_a_picture_says_what_it_shows(self) -> None:
        self.assertGreaterEqual(len(images()), 2)
        for page, text, path in images():
            found = re.search('<desc[^>]*>(.*?)</desc>', path.read_text('utf-8'))
            assert found is not None
            self.assertEqual(text, unescape(found[1]), page.name)

    def test_each_picture_is_on_a_page(self) -> None:
        shown = {path for _, _, path in images()}
        self.assertEqual(set((TOP / 'docs' / 'images').iterdir()), shown)


if __name__ == '__main__':
    unittest.main()
