"""All crash states of a session in windows: those of the whole, unless a loss was cut off."""

from __future__ import annotations

import os
import unittest
from collections import Counter
from types import SimpleNamespace
from typing import Any, List, Set, Tuple

from crashfs_tools.checker.report.counts import AcceptedStates, StateCounts
from crashfs_tools.checker.report.summary import Summary
from crashfs_tools.checker.running.results import Head
from crashfs_tools.checker.states.plan import AllStates
from crashfs_tools.checker.states.planning import Planner
from crashfs_tools.checker.states.steps import Session
from crashfs_tools.checker.states.windows import Windows, with_probe
from crashfs_tools.reading import ReadingFault, StatePlan, parse_trace
from crashfs_tools.reading.order import Order

from .random_traces import RandomTrace
from .support import InFolder
from .test_all_states import OPTIONS, trace_texts, wanted_trials
from .test_windows import HEADER, RIGHTS, Reader, creat, log_of, sync


def mkdir(path: str) -> str:
    return f'{{"op":"mkdir","path":"{path}",{RIGHTS}}}\n'


def synced_texts() -> List[Tuple[str, str]]:
    """Random sessions of which all is durable after each third line, of not too many sets."""
    found = []
    for version in (1, 2, 3):
        for seed in range(60, 75):
            lines = RandomTrace(version, seed).text().splitlines()
            first = sum(not line.startswith('{"op"') for line in lines)
            for at in range(len(lines), first, -3):
                lines.insert(at, '{"op":"sync"}')
            try:
                reading = parse_trace(('\n'.join(lines) + '\n').encode())
            except ReadingFault:
                continue  # Its last line has a fault.
            if 9 < len(reading.operations) < 26:
                found.append((f'{version} {seed}', '\n'.join(lines) + '\n'))
    return found


class Pending(unittest.TestCase):
    def test_what_is_pending_is_what_a_change_of_another_file_does_not_need(self) -> None:
        """But for acknowledged lines, which come first in some versions only."""
        # A sync of /d makes the rename durable, and with it the file that is renamed.
        renamed = HEADER + mkdir('/d') + sync('/') + creat('/a')
        renamed += '{"op":"rename","from":"/a","to":"/d/a"}\n' + sync('/d')
        texts = [RandomTrace(1 + seed % 4, seed).text() for seed in range(120)]
        compared = indirect = 0
        for text in (renamed, *texts):
            # The last line of a random trace may have a fault.
            lines = text.splitlines()[: None if text == renamed else -1]
            while lines and lines[-1].startswith('{"op"'):
                reading = parse_trace(with_probe('\n'.join(lines) + '\n').encode())
                order, says = Order(reading), StatePlan(reading).trees.say_places
                last = order.count - 1
                needed = order.needs[last] | says
                self.assertEqual(order.pending_set(last) & ~says, (1 << last) - 1 & ~needed)
                compared += 1
                indirect += needed != (order.synced_sets[last] | order.logged_sets[last] | says)
                lines.pop()
        self.assertGreater(compared, 600)
        self.assertGreater(indirect, 0)


class AllWindows(InFolder):
    def windows(
        self, text: str, size: int, most: int = 20_000
    ) -> Tuple[Windows, int, Set[Tuple[object, int]]]:
        """The windows, how many they are, and what all their states leave."""
        options: Any = SimpleNamespace(
            **OPTIONS, may_try_all=True, most_states=most, profile=None, draw_count=50
        )
        guard: Any = SimpleNamespace(directory=self.temporary, environment=None)
        program: Any = Reader()
        windows = Windows(Planner(options, program, guard), Session('w', text), size)
        trees = StatePlan(parse_trace(text.encode())).trees
        count, found = 0, set()
        self.unlisted = 0
        self.sizes: List[int] = []
        for planned in windows.all_planned():
            count += 1
            plan = planned.plan
            assert plan.all_states is not None
            self.unlisted += not plan.all_states.are_listed
            self.sizes.append(len(plan.operations))
            for state in plan.states:
                kept = plan.kept[state.number] << plan.first_place | (1 << plan.first_place) - 1
                found.add((trees.digest(kept), trees.count_says(kept)))
        for name in os.listdir(self.temporary):
            os.unlink(os.path.join(self.temporary, name))
        return windows, count, found

    def test_without_a_cut_the_windows_have_the_crash_states_of_the_session(self) -> None:
        whole = cut = 0
        texts = [*trace_texts(), ('log', log_of(5))]
        for name, text in texts:
            for size in (4, 6, 9):
                windows, count, found = self.windows(text, size)
                with self.subTest(f'{name} {size}'):
                    wanted = wanted_trials(text)
                    self.assertLessEqual(found, wanted)
                    if not windows.cut_off:
                        self.assertEqual(found, wanted)
                    whole += count > 1 and not windows.cut_off
                    cut += found < wanted
        self.assertGreater(whole, 5)
        self.assertGreater(cut, 3)

    def test_a_window_ends_before_its_states_are_too_many(self) -> None:
        """With a bound that the whole session passes, and no window up to a quarter of it."""
        shorter = 0
        for name, text in synced_texts():
            wanted = wanted_trials(text)
            size = Order(parse_trace(text.encode())).count
            for most in (len(wanted) - 1, len(wanted) * 2 // 3, len(wanted) // 2):
                windows, count, found = self.windows(text, size, most)
                with self.subTest(f'{name} {most}'):
                    self.assertLessEqual(found, wanted)
                    if not self.unlisted:
                        self.assertEqual(windows.cut_off, [])
                        self.assertEqual(found, wanted)
                        self.assertGreater(count, 1)
                        shorter += 1
        self.assertGreater(shorter, 8)

    def test_such_a_window_is_as_long_as_it_may_be(self) -> None:
        """Each row is three micro-operations: size, bytes and line; it adds as many states."""
        most = len(wanted_trials(log_of(6)))
        for bound, size in ((most, 1 + 6 * 3), (most - 1, 6 * 3)):
            self.windows(log_of(20), 34, bound)
            self.assertEqual((self.unlisted, self.sizes[0]), (0, size))

    def test_a_window_without_such_an_end_is_as_long_as_ever(self) -> None:
        """Each row stays pending until the next one, or there are too many states in a quarter."""
        pending = log_of(9).replace('{"op":"fsync","path":"/log"}\n', '')
        for text, most in ((pending, 20), (log_of(9), 4)):
            self.windows(text, 20, most)
            self.assertEqual(self.sizes[0], 1 + 6 * 3)
            self.assertGreater(self.unlisted, 0)

    def test_all_is_said_only_if_no_loss_was_cut_off(self) -> None:
        every = [AllStates(5, True), AllStates(6, True)]
        counts = StateCounts(2, 30, 50, 40, 40, 40, all_states=[*every])
        begin = 't: 30 micro-operations in 2 windows, '
        for cut_off, text in [
            ([], 'all 40 crash states: none fails'),
            ([(2, 7)], '40 crash states of the windows: none fails'),
        ]:
            head = Head('t', '', [], cut_off=cut_off)
            self.assertEqual(Summary(head, counts, AcceptedStates(0, Counter())).line, begin + text)


if __name__ == '__main__':
    unittest.main()
