"""How often a check starts the program, and what it does with one archive of a whole plan."""

from __future__ import annotations

import os
import unittest
from types import SimpleNamespace
from typing import Any, List
from unittest import mock

from crashfs_tools.checker.states import plan_trees
from crashfs_tools.checker.states.layout import ArchiveLayout
from crashfs_tools.checker.states.plan import PlannedTrace
from crashfs_tools.checker.states.plan_trees import PlanTrees
from crashfs_tools.common.command import Refused
from crashfs_tools.common.guard import Guard
from crashfs_tools.common.program import BUILT, Crashfs, ProgramFault

from .support import EXAMPLES, FAKE
from .test_all_states import Listing
from .test_windows import HEADER, creat, said, sync, write

# Each saved version is 15 micro-operations; none is lost if the directory is synced.
CONFIG = str(EXAMPLES / 'config' / 'config.trace')
RECOVERY = str(EXAMPLES / 'config' / 'check.sh')
# Of this session so many states differ that their trees aren't all kept in memory.
SQLITE = str(EXAMPLES / 'sqlite' / 'full.trace')
FAILS_IN_99 = '#!/bin/sh\ntest "$CRASHFS_STATE" -ne 99 || { echo "lost: a row"; exit 1; }\n'
STORE = HEADER + creat('/a') + write('/a', 9) + sync('/a') + said('1') + write('/a', 3, 9)


def programs() -> List[str]:
    """The second reading in the place of the program, and the program itself if it is built."""
    return [f'python3 -S {FAKE}', *([BUILT] if os.access(BUILT, os.X_OK) else [])]


def say_of(size: int) -> str:
    """A line of so many bytes."""
    line = '{"op":"say","text":""}'
    return line[:-2] + 'x' * (size - len(line)) + line[-2:]


class Starts(Listing):
    def starts(self, program: str, *words: str) -> List[str]:
        """The commands with which a check starts a program; one of its states or more must fail."""
        log = self.write('starts', '')
        script = f'#!/bin/sh\necho "$*" >> {log}\nexec {program} "$@"\n'
        crashfs = self.write('crashfs', script, 0o755)
        ran = self.run_tool('crashfs-check', '--crashfs', crashfs, '--jobs', '2', *words)
        self.assertEqual((ran.returncode, ran.stderr), (1, ''))
        self.assertRegex(ran.stdout, 'tried: with .* sync.* left, and no other fails')
        return self.read('starts').splitlines()

    def test_a_check_with_advice_starts_the_program_four_times(self) -> None:
        for program in programs():
            with self.subTest(program):
                starts = [
                    f"{line.split(' ')[0]} {' '.join(line.split(' ')[3:5])}"
                    for line in self.starts(program, CONFIG, '--', RECOVERY)
                ]
                # These run at the same time.
                self.assertEqual(
                    set(starts[:2]), {'picks --every --different', 'picks --every --count'}
                )
                self.assertEqual(starts[2:], ['list --holes --picks', 'tar --holes --states'])

    def test_families_take_two_starts(self) -> None:
        starts = self.starts(programs()[0], '--families', CONFIG, '--', RECOVERY)
        self.assertEqual([line.split(' ')[0] for line in starts], ['list', 'tar'])

    def test_trees_that_are_needed_one_by_one_are_read_together(self) -> None:
        """Two states are tried first. At the end the one that fails is tried twice again, and is
        compared with a good one; the program isn't asked for the copy that has the advised sync."""
        command = self.write('command', FAILS_IN_99, 0o755)
        starts = self.starts(programs()[0], SQLITE, '--', command)
        names = [line.split(' ')[0] for line in starts]
        self.assertEqual(names, ['picks', 'picks', 'list', *4 * ['tar']])
        options = [line.split(' ')[3:] for line in (starts[3], starts[-1])]
        self.assertEqual(options, [['--holes', '--states', states] for states in ('0,87', '4,99')])


class Archived(Listing):
    def loaded_trees(self, planned: PlannedTrace, loads_all: bool = True) -> Any:
        program, guard = Crashfs(FAKE, is_unproved=True), Guard('test', may_reap=False)
        with guard:
            return PlanTrees(program, planned, guard, loads_all).loaded

    def test_each_state_of_a_small_plan_has_its_tree(self) -> None:
        planned = self.planned(STORE)
        program, trees = Crashfs(FAKE, is_unproved=True), self.loaded_trees(planned)
        # No program is started for trees that are loaded.
        layout = ArchiveLayout(Crashfs('/none'), planned, self.temporary, {}, trees)
        for state in planned.plan.listed:
            ((number, directory),) = layout.states({state.number})
            (request,) = planned.requests([state.number])
            ((_, tree),) = program.trees(request.options)
            with layout.laid_out(number, directory):
                found = {
                    f'/{name}': (os.stat(os.path.join(directory, name)).st_size)
                    for name in os.listdir(directory)
                }
            wanted = {path: len(entry.data or b'') for path, entry in tree.items() if path != '/'}
            self.assertEqual((number, found), (state.number, wanted))
            self.assertFalse(os.path.exists(directory))

    def test_trees_of_a_larger_plan_are_not_loaded(self) -> None:
        planned = self.planned(STORE)
        count = len({state.same for state in planned.plan.listed})
        for bounds, are_loaded in (
            ({'MOST_TREES': count, 'MOST_BYTES': 1 << 20}, True),
            ({'MOST_TREES': count - 1, 'MOST_BYTES': 1 << 20}, False),
            ({'MOST_TREES': count, 'MOST_BYTES': 11}, False),
        ):
            with self.subTest(bounds), mock.patch.multiple(plan_trees, **bounds):
                self.assertEqual(len(self.loaded_trees(planned)), count if are_loaded else 0)
        self.assertEqual(self.loaded_trees(planned, loads_all=False), {})

    def test_trees_are_large_if_they_are_large_at_any_time(self) -> None:
        start = '{"start":"dir","path":"/d"}\n'
        grown = '{"op":"truncate","path":"/f","length":%d}\n'
        for text, expected in (
            (start * 31, False),
            (start * 32, True),
            (grown % 1_000_000, False),
            (grown % 500_000 * 3, True),
            (grown % 1_048_576, True),
            (say_of(1_048_575), False),
            (say_of(524_288) + '\n' + say_of(524_288), True),
        ):
            planned: Any = SimpleNamespace(trace=self.write('much.trace', text))
            trees = PlanTrees(mock.Mock(), planned, mock.Mock(), loads_all=False)
            self.assertEqual(trees.are_large, expected, text[:99])

    def test_a_program_that_leaves_a_state_out_is_named(self) -> None:
        planned = self.planned(STORE)
        planned.parts[0] = planned.parts[0]._replace(end=2)
        with self.assertRaisesRegex(ProgramFault, 'crashfs tar wrote no state 2'):
            self.loaded_trees(planned)


class OtherNeeds(Listing):
    def test_a_program_with_other_needs_is_refused(self) -> None:
        """Its last micro-operation doesn't need the acknowledged line before it."""
        lies = f'#!/bin/sh\npython3 -S {FAKE} "$@" | sed "s/,3,5\\]/,5]/"\n'
        program = self.write('crashfs', lies, 0o755)
        with self.assertRaisesRegex(Refused, 'second reading, of which one is wrong'):
            self.planned(STORE, program=program)


if __name__ == '__main__':
    unittest.main()
