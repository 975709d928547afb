"""Which must-fail edits the gate tries."""

from __future__ import annotations

import os
import shutil
import unittest
from pathlib import Path

from gating import turns

from .support import InFolder


class Turns(InFolder):
    def write_crate(self, name: str, lines: int, edits: int) -> None:
        os.makedirs(self.path(f'crates/{name}/src'))
        self.write(f'crates/{name}/src/lib.rt', '//\n' * lines)
        if edits:
            os.makedirs(self.path(f'crates/{name}/must-fail'))
        for number in range(edits):
            self.write(f'crates/{name}/must-fail/{number}.edit', '')

    def test_each_crate_is_in_one_group_and_the_groups_cost_about_the_same(self) -> None:
        costs = {f'c{number}': 10 * number for number in range(40)}
        groups = turns.group_crates(costs)
        self.assertEqual(len(groups), turns.GROUPS)
        self.assertEqual(sorted(name for group in groups for name in group), sorted(costs))
        sums = [sum(costs[name] for name in group) for group in groups]
        self.assertLessEqual(max(sums) - min(sums), 20)

    def test_every_group_has_commits(self) -> None:
        numbers = {turns.group_in_turn(f'{number:040x}') for number in range(100)}
        self.assertEqual(numbers, set(range(turns.GROUPS)))
        with self.assertRaises(ValueError):
            turns.group_in_turn('main')

    def test_a_crate_costs_its_lines_and_its_edits(self) -> None:
        self.write_crate('large', 500, 0)
        self.write_crate('tried', 7, 3)
        crates = Path(self.path('crates'))
        self.assertEqual(turns.edits_cost(crates / 'large'), 500)
        self.assertEqual(turns.edits_cost(crates / 'tried'), 7 + 3 * turns.LINES_PER_EDIT)

    def test_the_edits_of_the_other_group_are_away_until_they_are_moved_back(self) -> None:
        for name, edits in (('one', 2), ('two', 2), ('three', 2), ('none', 0)):
            self.write_crate(name, 10, edits)
        crates, aside = Path(self.path('crates')), Path(self.path('aside'))
        whole = sorted(crates.rglob('*'))
        for commit, there in (('f', 'one'), ('10', 'three'), ('11', 'two')):
            line = turns.move_others_aside(commit, aside, crates)
            self.assertEqual(line, 'edits: 2 of 6, those of 1 of 3 crates')
            self.assertEqual({path.parent.name for path in crates.glob('*/must-fail')}, {there})
            turns.move_back(aside, crates)
            self.assertEqual(sorted(crates.rglob('*')), whole)
            shutil.rmtree(aside)
        turns.move_back(aside, crates)

    def test_edits_are_not_moved_into_a_folder_of_edits_that_is_there_again(self) -> None:
        for name in ('one', 'two', 'three'):
            self.write_crate(name, 10, 1)
        crates, aside = Path(self.path('crates')), Path(self.path('aside'))
        whole = sorted(crates.rglob('*'))
        turns.move_others_aside('f', aside, crates)
        moved = sorted(aside.rglob('*'))
        for name in ('three', 'two'):
            (crates / name / 'must-fail').mkdir()
            self.write(f'crates/{name}/must-fail/0.edit', '')
        with self.assertRaises(FileExistsError):
            turns.move_back(aside, crates)
        self.assertEqual((sorted(crates.rglob('*')), sorted(aside.rglob('*'))), (whole, moved))


if __name__ == '__main__':
    unittest.main()
