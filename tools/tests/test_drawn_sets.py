"""Sets that the program draws at random, and the states that have them."""

from __future__ import annotations

import subprocess
import unittest
from collections import Counter
from typing import List, Tuple

from crashfs_tools.checker.states.plan import (
    Needs,
    Plan,
    PlannedMicroOperation,
    State,
    equal_states_before,
)
from crashfs_tools.checker.states.planning import numbers_of_sets
from crashfs_tools.common.program import Crashfs

from .support import InFolder, needed
from .test_every import HEADERS, creat, say

FOUND = Crashfs.find(None)
ACKNOWLEDGED = [HEADERS['blocks'], say('1'), creat('/a')]
FREE = [HEADERS['blocks'], creat('/a'), creat('/b')]


@needed(FOUND is not None, 'crashfs is not built')
class DrawnSets(InFolder):
    def drawn(self, lines: List[str], count: int, seed: int) -> List[str]:
        assert FOUND is not None
        trace = self.write('a.trace', '\n'.join(lines) + '\n')
        words = ['picks', trace, '--sample', str(count), '--seed', str(seed)]
        ran = subprocess.run([FOUND.path, *words], capture_output=True, text=True, check=True)
        return ran.stdout.splitlines()

    def test_a_seed_draws_the_same_members(self) -> None:
        sets = self.drawn(ACKNOWLEDGED, 5, 1)
        self.assertEqual(len(sets), 5)
        self.assertLessEqual(set(sets), {'[]', '[0]', '[0,1]'})
        self.assertEqual(self.drawn(ACKNOWLEDGED, 5, 1), sets)
        others = {tuple(self.drawn(ACKNOWLEDGED, 5, seed)) for seed in range(2, 12)}
        self.assertGreater(len(others), 1)

    def test_each_set_is_drawn_about_as_often_as_the_others(self) -> None:
        counts = Counter(self.drawn(FREE, 4000, 7))
        self.assertEqual(set(counts), {'[]', '[0]', '[1]', '[0,1]'})
        for times in counts.values():
            self.assertTrue(850 < times < 1150, counts)


class Numbers(unittest.TestCase):
    def test_a_set_has_the_number_of_the_first_state_that_has_it(self) -> None:
        places = enumerate([(0,), (1,), (0,)])
        states = [
            State(number, 'pick', places_of_state, 0, 0) for number, places_of_state in places
        ]
        plan = Plan([], states, Needs([0b01, 0b10]))
        self.assertEqual(numbers_of_sets(plan, [0b10, 0b01, 0b10]), (1, 0, 1))
        with self.assertRaises(KeyError):
            numbers_of_sets(plan, [0b11])

    def test_a_state_is_equal_to_the_first_before_that_has_its_set(self) -> None:
        def plan(first_place: int, first: int, sets: List[Tuple[int, ...]]) -> Plan:
            places = range(first_place, first_place + 3)
            operations = [PlannedMicroOperation(place, 'create', '/a', '', 2) for place in places]
            states = [State(first + at, 'pick', one, 0, first + at) for at, one in enumerate(sets)]
            return Plan(operations, states, Needs([1, 2, 4]), first)

        before = plan(4, 10, [(0,), (0, 1), (0, 1), (1, 2), (0, 2)])
        after = plan(5, 20, [(0,), (), (0, 1), (1,), (0,), (2,)])
        self.assertEqual(equal_states_before(before, after), {20: 11, 21: 10, 23: 14, 24: 11})
        self.assertEqual(equal_states_before(before, before)[12], 11)


if __name__ == '__main__':
    unittest.main()
