"""The recovery commands of the examples: which stores they accept, and which they refuse."""

from __future__ import annotations

import os
import subprocess
from typing import List, Sequence, Tuple

from .support import EXAMPLES, PATIENCE, InFolder, needs_sqlite

CITIES = ('Bern', 'Oslo', 'Quito', 'Rome')
# A store that prints what a file of the state has, in place of the tutorial's.
STORE = '#!/bin/sh\ncat rows\n'

# A store's rows, how many lines were acknowledged, and the cause that is printed.
Row = Tuple[Sequence[str], int, str]


class Commands(InFolder):
    def verdict(self, command: List[str], acknowledged: List[str]) -> str:
        """The last line that the command prints in the folder, and nothing if its status is 0."""
        ran = subprocess.run(
            [str(EXAMPLES / command[0]), *command[1:]],
            cwd=self.folder,
            timeout=PATIENCE,
            text=True,
            input=''.join(f'{line}\n' for line in acknowledged),
            stdout=subprocess.PIPE,
            stderr=subprocess.STDOUT,
            check=False,
            env={**os.environ, 'CRASHFS_SAYS': str(len(acknowledged))},
        )
        self.assertEqual(ran.returncode == 0, ran.stdout == '', ran.stdout)
        return (ran.stdout.splitlines() or [''])[-1]


class Config(Commands):
    lost = 'lost: a version that was saved is not there'
    wrong = 'wrong: a version that was not saved is there'
    corrupt = 'corrupt: the file has no version'

    def test_the_file_has_the_acknowledged_version_or_the_next(self) -> None:
        rows: List[Tuple[str, int, str]] = [
            ('version=0\n', 0, ''),
            ('version=1\n', 0, ''),
            ('version=1\n', 1, ''),
            ('version=2\n', 1, ''),
            ('version=3\n', 3, ''),
            ('version=0\n', 1, self.lost),
            ('version=1\n', 3, self.lost),
            ('version=2\n', 0, self.wrong),
            ('version=12\n', 1, self.wrong),
            ('', 1, self.corrupt),
            ('version=\n', 0, self.corrupt),
            ('version=1x\n', 1, self.corrupt),
            ('version=1\nversion=2\n', 1, self.corrupt),
            ('version=1\nport=80\n', 1, self.corrupt),
        ]
        for text, says, cause in rows:
            with self.subTest(text=text, says=says):
                self.write('config', text)
                lines = [f'version {number} is saved' for number in range(1, says + 1)]
                self.assertEqual(self.verdict(['config/check.sh'], lines), cause)


@needs_sqlite
class SQLite(Commands):
    lost = 'lost: an acknowledged row is missing'
    wrong = 'wrong: a row that was not stored is there'

    def cause(self, rows: Sequence[str], says: int) -> str:
        """What the check says of a database with these rows, after so many acknowledged lines."""
        name = self.path('test.db')
        if os.path.exists(name):
            os.remove(name)
        values = ''.join(f"INSERT INTO city VALUES ('{row}');" for row in rows)
        subprocess.run(['sqlite3', name, f'CREATE TABLE city (name TEXT); {values}'], check=True)
        return self.verdict(['sqlite/recover.sh'], [f'{row} is stored' for row in CITIES[:says]])

    def test_the_table_has_the_acknowledged_rows_and_at_most_the_next(self) -> None:
        rows: List[Row] = [
            ((), 0, ''),
            (CITIES[:1], 0, ''),
            (CITIES[:2], 2, ''),
            (CITIES[:3], 2, ''),
            (CITIES, 4, ''),
            ((), 1, self.lost),
            (CITIES[:2], 3, self.lost),
            (('Bern', 'Quito'), 2, self.lost),
            (('x', 'y', 'z', 'w'), 4, self.lost),
            (('Oslo', 'Bern'), 2, self.lost),
            (('Bern', 'Oslo', 'x'), 2, self.wrong),
            (CITIES[:4], 2, self.wrong),
            (('Bern', 'Bern'), 1, self.wrong),
            ((*CITIES, ''), 4, self.wrong),
            ((*CITIES, 'Rome'), 4, self.wrong),
        ]
        for names, says, cause in rows:
            with self.subTest(names=names, says=says):
                self.assertEqual(self.cause(names, says), cause)

    def test_a_file_that_is_no_database_is_corrupt(self) -> None:
        self.write('test.db', 'no database at all\n' * 100)
        self.assertRegex(self.verdict(['sqlite/recover.sh'], []), '^corrupt: .*not a database')

    def test_a_database_without_the_table_is_corrupt(self) -> None:
        subprocess.run(
            ['sqlite3', self.path('test.db'), 'CREATE TABLE town (name TEXT)'], check=True
        )
        self.assertRegex(self.verdict(['sqlite/recover.sh'], []), '^corrupt: .*no such table')


class Tutorial(Commands):
    lost = 'lost: an acknowledged row is not there'
    wrong = 'wrong: neither the acknowledged rows nor those and the next'
    twice = 'wrong: a key has two rows'

    def test_the_store_has_the_acknowledged_rows_and_at_most_the_next(self) -> None:
        store = self.write('store.sh', STORE, 0o755)
        puts = ['a=1', 'b=2', 'compact', 'a=3', 'c=4']
        rows: List[Row] = [
            ((), 0, ''),
            (('a=1',), 0, ''),
            (('a=1', 'b=2'), 2, ''),
            (('a=3', 'b=2'), 2, ''),
            (('a=3', 'b=2', 'c=4'), 4, ''),
            (('a=1',), 2, self.lost),
            ((), 1, self.lost),
            (('b=1',), 1, self.lost),
            (('a=2',), 1, self.wrong),
            (('a=1', 'b=2'), 3, self.wrong),
            (('a=3', 'b=2', 'c=4'), 2, self.wrong),
            (('a=1', 'd=5'), 1, self.wrong),
            (('a=1', 'a=3', 'b=2'), 3, self.twice),
        ]
        for lines, says, cause in rows:
            with self.subTest(lines=lines, says=says):
                self.write('rows', ''.join(f'{line}\n' for line in lines))
                acknowledged = ['a line is stored'] * says
                command = ['tutorial/check.py', store, '0', *puts]
                self.assertEqual(self.verdict(command, acknowledged), cause)

    def test_a_store_that_fails_is_refused(self) -> None:
        store = self.write('store.sh', '#!/bin/sh\nexit 1\n', 0o755)
        self.assertEqual(
            self.verdict(['tutorial/check.py', store, '0', 'a=1'], []),
            'refused: the store does not open',
        )
