"""Under which profiles a crash may leave a state: one of the sets that leave it is allowed."""

from __future__ import annotations

import json
import re
import unittest
from types import SimpleNamespace
from typing import Any, Dict, List, Set, Tuple

from crashfs_tools.checker.report.report import add_version_hint
from crashfs_tools.checker.report.text import profiles_text
from crashfs_tools.checker.states.plan import PlannedTrace, PlanError, SetProfiles
from crashfs_tools.checker.states.planning import Planner
from crashfs_tools.checker.states.read_plan import read_plan
from crashfs_tools.common.command import Refused
from crashfs_tools.reading import StatePlan, parse_trace
from crashfs_tools.reading.every import every_set
from crashfs_tools.reading.order import order_under, profile_names

from .support import EXAMPLES, FAKE, InFolder
from .test_all_states import OPTIONS, trace_texts
from .test_windows import HEADER, Reader, creat, said, write

UNLINK = '{"op":"unlink","path":"/a"}\n'
# A crash may leave /b alone by the rules of ordered too: if /a was made and removed.
REMOVED = HEADER + creat('/a') + UNLINK + creat('/b') + said('1')
# The same, of a file that is torn in two places: no family has the sets of ordered that leave it.
TORN = HEADER + creat('/a') + UNLINK + creat('/b') + write('/b', 3 * 4096)
HINT = ' (for ext4 and XFS, record with --trace-version 4)'
# Fails if /b is there, and /a isn't.
WITHOUT_A = 'test -e a -o ! -e b || { echo lost: a; exit 1; }'
TreeAndCount = Tuple[object, int]


def allowed_trees(text: str) -> Dict[TreeAndCount, Set[str]]:
    """The profiles of each tree and number of lines, by all sets."""
    reading = parse_trace(text.encode())
    trees = StatePlan(reading).trees
    found: Dict[TreeAndCount, Set[str]] = {}
    for name in profile_names(reading):
        order = order_under(reading, name)
        if reading.version < 3:
            order = order.with_earlier_lines()
        for one in every_set(order):
            found.setdefault((trees.digest(one), trees.count_says(one)), set()).add(name)
    return found


class Planning(InFolder):
    def planner(self, profile: str, program: Any) -> Planner:
        options: Any = SimpleNamespace(
            **OPTIONS, may_try_all=True, most_states=20_000, profile=profile, draw_count=50
        )
        guard: Any = SimpleNamespace(directory=self.temporary, environment=None)
        return Planner(options, program, guard)

    def planned(self, text: str, profile: str = '', program: Any = None) -> PlannedTrace:
        return self.planner(profile, program or Reader()).plan(self.write('a.trace', text))

    def trees_of(self, text: str, planned: PlannedTrace) -> Dict[TreeAndCount, Set[str]]:
        trees, plan = StatePlan(parse_trace(text.encode())).trees, planned.plan
        return {
            (trees.digest(plan.kept[one.number]), one.says): set(plan.profile_names_of(one))
            for one in plan.states
        }

    def test_a_state_has_the_profiles_of_all_sets_that_leave_it(self) -> None:
        for name, text in [*trace_texts(), ('torn', TORN)]:
            with self.subTest(name):
                self.assertEqual(self.trees_of(text, self.planned(text)), allowed_trees(text))

    def test_a_state_that_another_set_leaves_in_order(self) -> None:
        planned = self.planned(REMOVED)
        firsts = {one.same for one in planned.plan.states if planned.plan.kept[one.number] == 0b100}
        (first,) = (one for one in planned.plan.states if one.number in firsts and not one.says)
        self.assertEqual(planned.plan.profile_names_of(first), ['blocks', 'ordered'])

    def test_only_the_states_of_a_profile_are_tried(self) -> None:
        for name, text in [*trace_texts(), ('torn', TORN)]:
            for profile in ('blocks', 'ordered'):
                with self.subTest(f'{name} {profile}'):
                    wanted = {one for one, names in allowed_trees(text).items() if profile in names}
                    planned = self.planned(text, profile)
                    self.assertEqual(set(self.trees_of(text, planned)), wanted)
                    known = self.planner(profile, None).plan_different_states(
                        self.path('a.trace'), planned.plan
                    )
                    assert known is not None
                    self.assertEqual(set(self.trees_of(text, known)), wanted)

    def test_a_profile_that_a_trace_lacks_is_refused(self) -> None:
        known = 'the profiles of this trace are blocks, ordered'
        for profile, hint in (('journal', '; record with --trace-version 4'), ('ext4', '')):
            with self.assertRaisesRegex(Refused, f'^--in {profile}: {known}{hint}$'):
                self.planned(REMOVED, profile)

    def test_profiles_that_the_program_prints_are_taken(self) -> None:
        planned = self.planned(REMOVED, program=Printing())
        self.assertEqual(planned.plan.profiles.names, ('blocks', 'ordered'))
        self.assertEqual(set(planned.plan.profiles.of_sets), {0b11, 0b01})
        kept = [planned.plan.kept[one.number] for one in planned.plan.listed]
        wanted = tuple(0b01 if one == 0b1 else 0b11 for one in kept)
        self.assertEqual(planned.plan.profiles.of_sets, wanted)

    def test_profiles_in_another_order_are_those_of_the_second_reading(self) -> None:
        program = Printing()
        program.step = -1
        planned = self.planned(REMOVED, program=program)
        self.assertEqual(planned.plan.profiles, self.planned(REMOVED).plan.profiles)


class Listings(unittest.TestCase):
    def test_a_state_with_other_profiles_than_the_first_makes_no_plan(self) -> None:
        def line(number: int, **more: object) -> str:
            numbers = {'state': number, 'end': number, 'says': 0, 'same': number}
            return json.dumps({**numbers, 'kind': 'prefix', **more})

        names = ['blocks', 'ordered']
        first = line(0, profiles=names)
        plan = read_plan('\n'.join([first, line(1, profiles=names[1:])]))
        self.assertEqual(plan.profiles, SetProfiles(tuple(names), (3, 2)))
        for lines in (
            (first, line(1, profiles=['journal'])),
            (first, line(1)),
            (line(0), line(1, profiles=names)),
        ):
            with self.assertRaisesRegex(PlanError, '^crashfs list printed: .*"state": 1'):
                read_plan('\n'.join(lines))


class Printing(Reader):
    """A program that prints profiles: it says that the set of the first place is no ordered one.
    With the step -1 their names are in the order of the second reading backwards."""

    step = 1

    def output_of(self, words: List[str], _environment: Any = None) -> str:
        lines = super().output_of(words).splitlines()
        if words[0] != 'list':
            return '\n'.join(lines)
        found = []
        for fields in map(json.loads, lines):
            if 'state' in fields:
                is_first = fields.get('end', 0) == 1 or fields.get('places') == [0]
                is_first = is_first and fields['kind'] != 'hole'
                names = ['blocks'] if is_first else ['blocks', 'ordered']
                fields['profiles'] = names[:: self.step]
            found.append(json.dumps(fields))
        return '\n'.join(found)


class Reports(InFolder):
    def check(self, *words: str, which: str = '--every') -> List[str]:
        trace = self.write('a.trace', HEADER + creat('/a') + creat('/b') + said('1'))
        ran = self.run_tool(
            *('crashfs-check', '--crashfs', FAKE, which, *words, trace, '--'),
            *('sh', '-c', WITHOUT_A),
        )
        self.assertEqual(ran.stderr, '')
        return ran.stdout.splitlines()

    def test_an_entry_names_the_profiles(self) -> None:
        path = self.path('a.json')
        lines = self.check('--json', path)
        self.assertIn('all 8 crash states (8 sets): 2 fail: 2 lost', lines[0])
        self.assertEqual(lines[-1], '    under blocks; not under ordered')
        (group,) = json.loads(self.read('a.json'))['groups']
        self.assertEqual(group['under'], {'blocks': 2, 'ordered': 0})
        merged = self.run_tool('crashfs-check', '--merge', path)
        self.assertEqual(merged.stdout.splitlines()[-1], lines[-1])

    def test_what_a_profile_does_not_allow_is_no_failure_in_it(self) -> None:
        self.assertEqual(
            self.check('--in', 'ordered')[0],
            'a.trace: 3 micro-operations, all 6 crash states under ordered: none fails',
        )
        shards = [self.path(f'{part}.json') for part in (1, 2)]
        for part, path in enumerate(shards, 1):
            self.check('--in', 'ordered', '--shard', f'{part}/2', '--json', path)
        merged = self.run_tool('crashfs-check', '--merge', *shards)
        self.assertIn('all 6 crash states under ordered: none fails', merged.stdout)

    def test_shards_of_different_profiles_are_not_merged(self) -> None:
        shards = [self.path(f'{part}.json') for part in (1, 2)]
        self.check('--in', 'ordered', '--shard', '1/2', '--json', shards[0])
        for words in ([], ['--in', 'blocks']):
            self.check(*words, '--shard', '2/2', '--json', shards[1])
            for given in (shards, shards[::-1]):
                ran = self.run_tool('crashfs-check', '--merge', *given)
                self.assertEqual(ran.returncode, 2, ran.stdout)
                self.assertIn('the reports are not shards of one check', ran.stderr)

    def test_a_check_of_another_profile_is_not_resumed(self) -> None:
        path = self.path('r.json')
        for first, second in [(['--in', 'ordered'], []), ([], ['--in', 'ordered'])]:
            lines = self.check(*first, '--json', path)
            self.assertEqual(self.check(*first, '--resume', path), lines)
            words = *('--every', *second, '--resume', path, self.path('a.trace')), '--'
            ran = self.run_tool('crashfs-check', '--crashfs', FAKE, *words, 'sh', '-c', WITHOUT_A)
            self.assertEqual((ran.returncode, ran.stdout), (2, ''))
            self.assertIn('--resume: that is a report of another check', ran.stderr)

    def test_of_families_too_only_the_states_of_a_profile_are_tried(self) -> None:
        for which, before, after in (
            ('--families', '8 states, 8 different: 2 fail', '6 states under ordered, 6 different'),
            ('--quick', '7 states, 7 different: 2 fail', '5 states under ordered, 5 different'),
            ('--prefixes', '4 states, 4 different: none', '4 states under ordered, 4 different'),
        ):
            with self.subTest(which):
                self.assertIn(f' 3 micro-operations, {before}', self.check(which=which)[0])
                self.assertEqual(
                    self.check('--in', 'ordered', which=which)[0],
                    f'a.trace: 3 micro-operations, {after}: none fails',
                )

    def test_a_prefix_that_a_profile_does_not_allow_has_no_outcome(self) -> None:
        """The first half of a rename into another directory is a prefix of `blocks` only."""
        rights = '"owner":"u","group":"u"'
        lines = ['{"trace":4,"profile":"blocks","block":4096,%s,"mode":"755"}' % rights]
        lines += ['{"start":"dir","path":"/%s",%s,"mode":"755"}' % (it, rights) for it in 'ab']
        lines += ['{"start":"file","path":"/a/f",%s,"mode":"644","text":""}' % rights]
        lines += ['{"op":"rename","from":"/a/f","to":"/b/f"}']
        lines += ['{"op":"creat","path":"/%s",%s,"mode":"644"}' % (it, rights) for it in 'cd']
        trace = self.write('renamed.trace', ''.join(f'{line}\n' for line in lines))
        script = 'test -e a/f || test -e c -a -e d || { echo "lost: c or d"; exit 1; }'
        found = {}
        for words in ([], ['--in', 'journal']):
            command = [*words, trace, '--', 'sh', '-c', script]
            ran = self.run_tool('crashfs-check', '--unproved', *command)
            self.assertEqual((ran.returncode, ran.stderr), (1, ''), ran.stdout)
            found[' '.join(words)] = ran.stdout
        self.assertIn('all 12 crash states (12 sets): 3 fail: 3 lost', found[''])
        self.assertIn('all 4 crash states under journal: 2 fail: 2 lost', found['--in journal'])

    def test_an_entry_that_only_the_window_before_tried_names_no_profiles(self) -> None:
        """States 15, 17 and 20 are equal to state 4 of the window before, and have another pair."""
        script = 'case $CRASHFS_STATE in 4|15|17|20) echo lost a; exit 1; esac'
        words = '--unproved', '--window', '6', '--json', 'r.json', str(EXAMPLES / 'store.trace')
        ran = self.run_tool('crashfs-check', *words, '--', 'sh', '-c', script)
        self.assertEqual((ran.returncode, ran.stderr), (1, ''))
        self.assertEqual(ran.stdout.count('e.g.') + ran.stdout.count('1 state: '), 2)
        self.assertEqual(re.findall('under .*', ran.stdout), [f'under blocks and ordered{HINT}'])
        found = [group['under'] for group in json.loads(self.read('r.json'))['groups']]
        self.assertEqual(found, [{'blocks': 1, 'ordered': 1}, {}])

    def test_the_text_counts_where_not_all_are_allowed(self) -> None:
        def text(are_all: bool = True, **under: int) -> str:
            sets = {name: frozenset((it,) for it in range(count)) for name, count in under.items()}
            most = max(under.values())
            group = SimpleNamespace(
                states_by_profile=sets, tried_states=sets, count=most, has_version_hint=False
            )
            found: Any = group
            return profiles_text(found, are_all=are_all)

        self.assertEqual(text(blocks=3, ordered=3), 'under blocks and ordered')
        self.assertEqual(
            text(blocks=3, ordered=2, journal=0),
            'under blocks: 3 and ordered: 2; not under journal (ext4, XFS)',
        )
        self.assertEqual(
            text(blocks=3, ordered=0, journal=0),
            'under blocks; not under ordered or journal (ext4, XFS)',
        )
        self.assertEqual(
            text(False, blocks=3, ordered=0),
            'under blocks; by the sets that were tried not under ordered',
        )

    def test_one_entry_of_an_older_trace_says_how_to_learn_of_ext4_and_xfs(self) -> None:
        """The first entry that `ordered` allows, and that isn't accepted or covered; none if the
        trace has `journal`."""

        def hinted(*groups: Any) -> List[bool]:
            for one in groups:
                one.has_version_hint, one.tried_states = False, {(0,)}
            add_version_hint(list(groups))
            return [one.has_version_hint for one in groups]

        def group(*names: str, is_covered: bool = False, accepted: Any = None) -> Any:
            sets = {name: {(0,)} if name in names else set() for name in ('blocks', 'ordered')}
            return SimpleNamespace(
                states_by_profile=sets, is_covered=is_covered, accepted_entry=accepted
            )

        both = 'blocks', 'ordered'
        skipped = [group('blocks'), group(*both, is_covered=True), group(*both, accepted=1)]
        self.assertEqual(
            hinted(*skipped, group(*both), group(*both)), [False, False, False, True, False]
        )
        newer = group(*both)
        newer.states_by_profile['journal'] = set()
        self.assertEqual(hinted(newer), [False])
        newer.has_version_hint, newer.count = True, 1
        self.assertEqual(
            profiles_text(newer, are_all=True),
            f'under blocks and ordered; not under journal (ext4, XFS){HINT}',
        )


if __name__ == '__main__':
    unittest.main()
