"""The second reading's `picks`: all allowed sets, those of a profile, their number, sets drawn."""

from __future__ import annotations

import subprocess
import sys
import unittest
from typing import List, Tuple

from .support import FAKE, InFolder
from .test_every import HEADERS, OLD_AND_NEW, RENAMED, creat, fsync, rename, say, write

REPLACED = [
    *(HEADERS['blocks'], OLD_AND_NEW[0], creat('/t'), write('/t', 0, 'new'), fsync('/t')),
    *(rename('/t', '/a'), creat('/b'), say('1')),
]


class Picks(InFolder):
    def picks(self, lines: List[str], *words: str) -> Tuple[int, str, str]:
        """Its status, and what it prints."""
        trace = self.write('a.trace', '\n'.join(lines) + '\n')
        ran = subprocess.run(
            [sys.executable, '-S', FAKE, 'picks', '--trace', trace, *words],
            capture_output=True,
            text=True,
            check=False,
        )
        return ran.returncode, ran.stdout, ran.stderr

    def printed(self, lines: List[str], *words: str) -> List[str]:
        status, out, err = self.picks(lines, *words)
        self.assertEqual((status, err), (0, ''))
        return out.splitlines()

    def test_every_set_and_how_many_they_are(self) -> None:
        members = self.printed(RENAMED, '--every')
        self.assertEqual((len(members), members[0], members[-1]), (17, '[]', '[0,1,2,3,4]'))
        self.assertEqual(self.printed(RENAMED, '--every', '--count'), ['17'])
        creats = [HEADERS['blocks'], *(creat(f'/{number}') for number in range(64))]
        self.assertEqual(
            self.printed(creats, '--every', '--count'), ['more than 18446744073709551615']
        )

    def test_nothing_is_printed_of_more_sets_than_are_wanted(self) -> None:
        self.assertEqual(
            self.picks(RENAMED, '--every', '--most', '16'), (1, '', 'crashfs: more than 16 sets\n')
        )
        self.assertEqual(len(self.printed(RENAMED, '--every', '--most', '17')), 17)
        different = self.printed(RENAMED, '--every', '--different')
        self.assertLess(len(different), 17)
        most = str(len(different))
        self.assertEqual(self.printed(RENAMED, '--every', '--different', '--most', most), different)

    def test_the_sets_of_a_profile_are_members_that_it_allows(self) -> None:
        members = self.printed(REPLACED, '--every')
        ordered = self.printed(REPLACED, '--every', '--profile', 'ordered')
        self.assertLess(set(ordered), set(members))
        self.assertEqual(self.printed(REPLACED, '--every', '--profile', 'blocks'), members)
        self.assertEqual(
            self.picks(REPLACED, '--every', '--profile', 'journal'),
            (1, '', 'crashfs: no such profile\n'),
        )

    def test_sets_that_are_drawn_are_members_and_the_same_each_time(self) -> None:
        drawn = self.printed(RENAMED, '--sample', '40', '--seed', '3')
        self.assertEqual(len(drawn), 40)
        self.assertLessEqual(set(drawn), set(self.printed(RENAMED, '--every')))
        self.assertEqual(self.printed(RENAMED, '--sample', '40', '--seed', '3'), drawn)
        self.assertNotEqual(self.printed(RENAMED, '--sample', '40', '--seed', '4'), drawn)

    def test_options_that_don_t_go_together(self) -> None:
        for words in [
            *((), ('--every', '--lost'), ('--every', '--sample', '2', '--seed', '1')),
            *(('--different',), ('--lost', '--most', '3'), ('--files', '--count')),
            *(('--every', '--count', '--different'), ('--every', '--count', '--most', '3')),
            *(('--sample', '3'), ('--every', '--seed', '3'), ('--every', '--most', '0')),
            *(('--every', '--most', '16777217'), ('--sample', '16385', '--seed', '1')),
            *(('--every', '--profile', 'none'), ('--every', '--count', '--profile', 'blocks')),
        ]:
            with self.subTest(words):
                status, out, err = self.picks(RENAMED, *words)
                self.assertEqual((status, out), (2, ''), err)


if __name__ == '__main__':
    unittest.main()
