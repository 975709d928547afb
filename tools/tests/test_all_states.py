"""Checks of all crash states: what is listed, in one part or several, and what the report says."""

from __future__ import annotations

import json
from dataclasses import replace
from types import SimpleNamespace
from typing import Any, Dict, List, Set, Tuple
from unittest import mock

from crashfs_tools.checker.states import planning
from crashfs_tools.checker.states.all_sets import ReadingSets
from crashfs_tools.checker.states.plan import Needs, Offsets, PlannedTrace, Trial
from crashfs_tools.checker.states.planning import Planner
from crashfs_tools.common import limits
from crashfs_tools.common.command import Refused
from crashfs_tools.common.program import Crashfs
from crashfs_tools.reading import ReadingFault, StatePlan, make_plan, parse_trace
from crashfs_tools.reading.every import every_set
from crashfs_tools.reading.order import Order

from .random_traces import RandomTrace
from .support import EXAMPLE_TRACES, EXAMPLES, FAKE, TOOLS, InFolder
from .test_windows import HEADER, Reader, creat, said, sync, write

OPTIONS = {'prefixes': False, 'has_lost': True, 'has_files': True, 'serve': None}
TREES = Dict[int, Any]


def trace_texts() -> List[Tuple[str, str]]:
    """Traces of the examples, and random ones of each version, of not too many sets."""
    paths = [path for path in EXAMPLE_TRACES if path.parent.name != 'sqlite']
    found = [(path.name, path.read_text('utf-8')) for path in paths]
    for version in (1, 2, 3):
        for seed in range(40, 48):
            text = RandomTrace(version, seed).text()
            try:
                if Order(parse_trace(text.encode())).count < 13:
                    found.append((f'{version} {seed}', text))
            except ReadingFault:
                continue  # Its last line has a fault.
    return found


def wanted_trials(text: str) -> Set[Tuple[object, int]]:
    """The trees of all sets that have all acknowledged lines before their members, with how many
    lines are acknowledged."""
    reading = parse_trace(text.encode())
    order = Order(reading).with_earlier_lines()
    trees = StatePlan(reading).trees
    return {(trees.digest(one), trees.count_says(one)) for one in every_set(order)}


class Listing(InFolder):
    def planner(self, program: Any, most: int = 20_000) -> Planner:
        options: Any = SimpleNamespace(
            **OPTIONS, may_try_all=True, most_states=most, profile=None, draw_count=50
        )
        guard: Any = SimpleNamespace(directory=self.temporary, environment=None)
        return Planner(options, program, guard)

    def planned(self, text: str, most: int = 20_000, program: str = '') -> PlannedTrace:
        found: Any = Crashfs(program) if program else Reader()
        return self.planner(found, most).plan(self.write('a.trace', text))

    def trials(self, text: str, planned: PlannedTrace) -> List[Tuple[object, int]]:
        """What is tried of a plan, once for each trial."""
        trees = StatePlan(parse_trace(text.encode())).trees
        firsts: Dict[Trial, int] = {}
        for state in planned.plan.states:
            firsts.setdefault(state.trial, state.number)
        kept = [planned.plan.kept[number] for number in firsts.values()]
        return [(trees.digest(one), trees.count_says(one)) for one in kept]


class AllListed(Listing):
    def test_each_crash_state_is_tried_once(self) -> None:
        for name, text in trace_texts():
            with self.subTest(name):
                planned = self.planned(text)
                tried = self.trials(text, planned)
                self.assertEqual(len(tried), len(set(tried)))
                self.assertEqual(set(tried), wanted_trials(text))
                assert planned.plan.all_states is not None
                self.assertTrue(planned.plan.all_states.are_listed)

    def test_the_second_reading_alone_lists_each_crash_state_once(self) -> None:
        for name, text in trace_texts():
            with self.subTest(name):
                plan, path = self.planned(text).plan, self.path('a.trace')
                known = self.planner(None).plan_different_states(path, plan)
                assert known is not None
                tried, states = self.trials(text, known), known.plan.states
                self.assertEqual((len(tried), set(tried)), (len(states), wanted_trials(text)))
                self.assertEqual([state.says for state in states], [says for _, says in tried])
                few = self.planner(None, most=len(states) - 1)
                self.assertIsNone(few.plan_different_states(path, plan))

    def test_a_plan_of_other_sets_is_at_the_same_place_of_the_session(self) -> None:
        text = HEADER + creat('/a') + creat('/b') + sync('/') + write('/b', 2)
        path, planner = self.write('a.trace', text), self.planner(Reader())
        for offsets, is_last in (
            (Offsets(), False),
            (Offsets(states=100, operations=7, lines=(0, 5, 6, 7, 8)), True),
        ):
            window = replace(planner.plan_picks(path, offsets, []), is_last=is_last)
            found = planner.plan_sets(window, [0b10, 0b11, 0b10])
            self.assertEqual((found.offsets, found.is_last), (offsets, is_last))
            self.assertEqual(found.window_text(), window.window_text())
            self.assertNotEqual(found.window_text(), '')
            self.assertEqual(found.plan.first, window.plan.first)
            self.assertEqual(found.plan.operations, window.plan.operations)
            prefixes, picks = found.plan.listed[:-2], found.plan.listed[-2:]
            self.assertEqual([found.plan.kept[state.number] for state in picks], [0b10, 0b11])
            self.assertEqual({state.family for state in prefixes}, {'prefix'})
            (part,) = found.parts
            self.assertEqual((part.first, part.end), (found.plan.first, picks[-1].number + 1))

    def test_copies_of_a_small_plan_are_planned_by_the_second_reading(self) -> None:
        planner, plan = self.planner(Reader()), self.planned(HEADER + creat('/a')).plan
        copies = planner.planner_of_copies(plan)
        self.assertTrue(copies.program.is_unproved)
        self.assertIsInstance(copies.program, Crashfs)
        with mock.patch.object(planning, 'is_small', return_value=False):
            self.assertIs(planner.planner_of_copies(plan), planner)

    def test_readings_that_differ_in_what_is_needed_are_refused(self) -> None:
        other_needs = Needs([0b1, 0b11])
        with mock.patch.object(ReadingSets, 'needs', other_needs):
            with self.assertRaisesRegex(Refused, f'a.trace: {planning.OTHER_NEEDS}$'):
                self.planned(HEADER + creat('/a') + creat('/b'))

    def test_picks_are_divided_by_the_room_next_to_prefixes_and_holes(self) -> None:
        for most_states, hole_count, has_only_prefixes, sizes in (
            (10, 2, False, [4, 6, 6, 4]),
            (10, 2, True, [6, 6, 6, 2]),
            (10, 8, False, [0, 6, 6, 6, 2]),
            (30, 2, False, [20]),
        ):
            planner = self.planner(Reader())
            planner.options.prefixes = has_only_prefixes
            needs: Any = SimpleNamespace(masks=[0b1, 0b10, 0b100], hole_count=hole_count)
            with mock.patch.object(limits, 'STATES', most_states):
                parts = planner.divide_picks(list(range(20)), needs)
            self.assertEqual([len(part) for part in parts], sizes)
            self.assertEqual(sum(parts, []), list(range(20)))

    def test_sets_that_the_plan_has_need_no_pick_unless_it_lacks_holes_or_is_served(self) -> None:
        needs: Any = SimpleNamespace(is_prefix_or_hole=lambda members: members < 4)
        planner = self.planner(Reader())
        for has_only_prefixes, address, wanted in (
            (False, None, [5, 7]),
            (True, None, [5, 1, 7, 3]),
            (False, 'host:1', [5, 1, 7, 3]),
        ):
            planner.options.prefixes, planner.options.serve = has_only_prefixes, address
            self.assertEqual(planner.without_listed(needs, [5, 1, 7, 3]), wanted)

    def test_a_plan_in_parts_has_the_same_states_as_in_one(self) -> None:
        for name, text in trace_texts():
            whole = self.planned(text)
            size = len(whole.plan.operations) + 4
            holes = whole.plan.needs.hole_count
            with self.subTest(name), mock.patch.object(limits, 'STATES', size + holes):
                parts = self.planned(text)
                self.assertEqual(parts.plan.listed, whole.plan.listed)
                self.assertEqual(parts.plan.kept, whole.plan.kept)

    def test_the_program_gives_each_state_of_each_part_the_tree_of_its_set(self) -> None:
        text = (EXAMPLES / 'rights.trace').read_text('utf-8')
        planned = self.planned(text)
        size = len(planned.plan.operations) + 4 + planned.plan.needs.hole_count
        with mock.patch.object(limits, 'STATES', size):
            planned = self.planned(text)
        self.assertGreater(len(planned.parts), 1)
        program, trees = (
            Crashfs(FAKE, is_unproved=True),
            StatePlan(parse_trace(text.encode())).trees,
        )
        found = {}
        for request in planned.requests(one.number for one in planned.plan.listed):
            for own, tree in program.trees(request.options):
                found[own + request.number_offset] = {
                    path: entry.data for path, entry in tree.items()
                }
        for number, kept in planned.plan.kept.items():
            wanted = {path: item.content for path, item in trees.tree(kept).items()}
            self.assertEqual(found[number], wanted, number)

    def test_a_program_that_lists_all_is_asked(self) -> None:
        text = HEADER + creat('/a') + write('/a', 9) + sync('/a') + said('1') + write('/a', 3, 9)
        for program, is_read in ((FAKE, False), (self.without_every(), True)):
            planned = self.planned(text, program=program)
            assert planned.plan.all_states is not None
            self.assertEqual(planned.plan.all_states.are_from_reading, is_read)
            self.assertEqual(set(self.trials(text, planned)), wanted_trials(text))

    def without_every(self) -> str:
        """A program that has no `picks --every`."""
        lines = '#!/bin/sh\ncase "$*" in *--every*|picks*--help*) echo "error: no" >&2; exit 2;; '
        return self.write('crashfs', f'{lines}esac\nexec python3 -S {FAKE} "$@"\n', 0o755)

    def test_too_many_states_leave_the_families(self) -> None:
        text = HEADER + ''.join(creat(f'/{number}') for number in range(8))
        for most, are_listed in ((256, True), (255, False)):
            plan = self.planned(text, most).plan
            assert plan.all_states is not None
            self.assertEqual(plan.all_states[:4], (256, are_listed, True, most))
            self.assertEqual(len(plan.all_states.drawn), 0 if are_listed else 50)
            families = make_plan(parse_trace(text.encode()), has_holes=True)
            self.assertGreaterEqual(len(plan.families), len(families.states))
            firsts = {one.trial for one in plan.states}
            self.assertEqual(len(firsts) == 256, are_listed)

    def test_more_states_than_a_plan_takes_are_laid_out(self) -> None:
        """In several picks files, and by the program's own limits."""
        text = HEADER + ''.join(creat(f'/{number:02}') for number in range(14))
        log, trace = self.path('log'), self.write('many.trace', text)
        show = f'echo $CRASHFS_STATE $(ls | tr "\\n" " ") >> {log}'
        ran = self.run_tool(
            'crashfs-check', '--every', '--shard', '1/64', trace, '--', 'sh', '-c', show
        )
        self.assertEqual(ran.returncode, 0, ran.stderr)
        self.assertIn('16,384 crash states (16,384 sets): none of the 256 tried', ran.stdout)
        lines = self.read('log').splitlines()
        # The tree at the end, which is tried first, isn't in this shard.
        self.assertEqual(len({tuple(line.split()[1:]) for line in lines}), 257)


class Reported(InFolder):
    def check(self, *words: str, command: str = 'true') -> List[str]:
        trace = str(EXAMPLES / 'store.trace')
        ran = self.run_tool('crashfs-check', *words, trace, '--', 'sh', '-c', command)
        self.assertEqual(ran.stderr, '')
        return ran.stdout.splitlines()

    def test_the_first_line_counts_all_crash_states(self) -> None:
        first = 'store.trace: 11 micro-operations, '
        for words, line in [
            (['--every'], 'all 13 crash states (21 sets): none fails'),
            (['--every', '13'], 'all 13 crash states (21 sets): none fails'),
            (['--every', '12'], '13 of 21 crash states tried: none of these fails'),
            (['--families'], '20 states, 13 different: none fails'),
        ]:
            self.assertEqual(self.check('--crashfs', FAKE, *words)[0], first + line)
        shard = self.check('--crashfs', FAKE, '--every', '--shard', '1/2')
        self.assertEqual(
            shard, [first + '13 crash states (21 sets): none of the 7 tried by shard 1/2 fails']
        )

    def test_the_report_says_who_found_the_states(self) -> None:
        program = self.write(
            'crashfs',
            '#!/bin/sh\ncase "$*" in picks*--every*) echo "error: no" >&2; exit 2;; esac\n'
            f'exec python3 -S {FAKE} "$@"\n',
            0o755,
        )
        for words, line in [
            (
                ['--unproved'],
                'unproved: the Python implementation computed these states, not crashfs',
            ),
            (
                ['--crashfs', program],
                'unproved: the Python implementation found which states there are, ',
            ),
        ]:
            first, second = self.check('--every', *words)[:2]
            self.assertIn(line, first)
            self.assertIn(' all 13 crash states (21 sets): none fails', second)

    def test_shards_of_all_states_are_merged(self) -> None:
        files = [self.path(f'{part}.json') for part in (1, 2)]
        for part, path in zip(('1/2', '2/2'), files):
            self.check('--crashfs', FAKE, '--every', '--shard', part, '--json', path)
        ran = self.run_tool('crashfs-check', '--merge', *files)
        self.assertEqual(
            ran.stdout,
            'store.trace: 11 micro-operations, all 13 crash states (21 sets): none fails\n',
        )


# As LevelDB opens: by the manifest that CURRENT names. The old one names the old log.
LEVELDB = """#!/bin/sh
manifest=$(cat CURRENT)
test -e "$manifest" || { echo "corrupt: CURRENT names no file"; exit 1; }
test $manifest = MANIFEST-000004 || test -e 000003.log || { echo "lost: a row"; exit 1; }
"""


class TwoLosses(InFolder):
    def test_a_failure_that_needs_two_losses_is_an_entry_with_both_calls(self) -> None:
        trace = str(TOOLS / 'tests' / 'data' / 'leveldb.trace')
        recover = self.write('recover.sh', LEVELDB, 0o755)
        words = ['--crashfs', FAKE, '--json', self.path('r.json')]
        ran = self.run_tool('crashfs-check', '--every', *words, trace, '--', recover)
        lines = ran.stdout.splitlines()
        self.assertIn('all 190 crash states (297 sets): 78 fail: 52 corrupt, 26 lost', lines[0])
        self.assertIn('    tried: with that sync 0 of these 52 states are left', ran.stdout)
        self.assertIn('    lost: a row  ', ran.stdout)
        corrupt, lost = json.loads(self.read('r.json'))['groups']
        self.assertEqual(corrupt['lines'], [[19, 20]])
        self.assertEqual((lost['lines'], lost['lost']), ([[19, 21]], [19, 20]))
        self.assertEqual((corrupt['explained'], lost['explained']), (52, 26))
        self.assertTrue(lost['covered'])
        shown = ' '.join(ran.stdout.split())
        self.assertIn(
            'line 19 (rename /000004.dbtmp to /CURRENT) was not durable when line 21', shown
        )
        self.assertIn('it fails only if this is lost too: line 20 (unlink /MANIFEST-000002)', shown)


if __name__ == '__main__':
    import unittest

    unittest.main()
