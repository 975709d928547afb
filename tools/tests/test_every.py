"""All crash states by the second reading: all allowed sets, those that differ, their number."""

from __future__ import annotations

import json
import unittest
from itertools import product
from typing import Dict, List, Tuple

from crashfs_tools.reading import StatePlan, ReadingFault, Reading, make_plan, parse_trace
from crashfs_tools.reading.classes import SetClasses
from crashfs_tools.reading.every import count_sets, drawn_sets, every_set
from crashfs_tools.reading.order import Order, order_under
from crashfs_tools.reading.place_sets import places_of

from .random_traces import RandomTrace
from .support import EXAMPLES

H1 = '{"trace":1,"owner":"cat","group":"staff","mode":"775"}'
HEADERS = {
    profile: f'{{"trace":3,"profile":"{profile}","block":4096,'
    '"owner":"cat","group":"staff","mode":"775"}'
    for profile in ('blocks', 'ordered')
}
RIGHTS = '"owner":"ann","group":"staff","mode":"644"'


def creat(path: str) -> str:
    return f'{{"op":"creat","path":"{path}",{RIGHTS}}}'


def write(path: str, at: int, text: str) -> str:
    return f'{{"op":"write","path":"{path}","offset":{at},"bytes":"{text.encode().hex()}"}}'


def say(text: str) -> str:
    return f'{{"op":"say","text":"{text}"}}'


def fsync(path: str) -> str:
    return f'{{"op":"fsync","path":"{path}"}}'


def rename(old: str, new: str) -> str:
    return f'{{"op":"rename","from":"{old}","to":"{new}"}}'


# A file of 5,000 bytes that is synced and renamed.
RENAMED = [H1, creat('/t'), write('/t', 0, 'a' * 5000), fsync('/t'), rename('/t', '/a')]
ACKNOWLEDGED = [
    *(HEADERS['blocks'], creat('/a'), write('/a', 0, 'hi'), fsync('/a'), say('1')),
    *(write('/a', 2, 'oo'), say('2'), rename('/a', '/b')),
]
OLD_AND_NEW = [
    *('{"start":"file","path":"/a",%s,"text":"old"}' % RIGHTS,),
    *(creat('/b'), rename('/b', '/c')),
]


def reading_of(lines: List[str]) -> Reading:
    return parse_trace(('\n'.join(lines) + '\n').encode())


def every(lines: List[str]) -> List[str]:
    """All allowed sets of a trace, as lines of a picks file."""
    return [text_of(places) for places in every_set(Order(reading_of(lines)))]


def text_of(places: int) -> str:
    return json.dumps(list(places_of(places)), separators=(',', ':'))


def count(lines: List[str]) -> int:
    return count_sets(Order(reading_of(lines)))


def by_hand(reading: Reading, order: Order) -> List[int]:
    """The allowed sets, of all sets."""
    wholes = product((0, 1), repeat=order.count)
    sets = [sum(bit << place for place, bit in enumerate(whole)) for whole in wholes]
    return [places for places in sets if order.is_allowed(places)]


def first_of_each(plan: StatePlan, sets: List[int]) -> List[int]:
    """The sets with whose states no earlier one agrees, by the trees of all."""
    seen: Dict[Tuple[int, object], int] = {}
    for places in sets:
        seen.setdefault((plan.trees.count_says(places), plan.trees.digest(places)), places)
    return list(seen.values())


class Rows(unittest.TestCase):
    def test_every_set_of_a_renamed_file(self) -> None:
        wanted = (
            '[] [3] [2] [2,3] [1] [1,3] [1,2] [1,2,3] [0] [0,3] [0,2] [0,2,3] [0,1] [0,1,3] '
            '[0,1,2] [0,1,2,3] [0,1,2,3,4]'
        )
        self.assertEqual(every(RENAMED), wanted.split(' '))
        self.assertEqual(count(RENAMED), 17)
        plan = make_plan(reading_of(RENAMED), has_holes=True)
        self.assertEqual(len(plan.states), 12)

    def test_sets_that_the_plan_has_not(self) -> None:
        self.assertEqual(count(ACKNOWLEDGED), 28)
        plan = make_plan(reading_of(ACKNOWLEDGED), has_holes=True)
        self.assertEqual(len(plan.states), 21)
        members = every(ACKNOWLEDGED)
        listed = {text_of(state.place_set) for state in plan.states}
        self.assertTrue(listed < set(members))
        self.assertTrue({'[2]', '[1,2,3,5,6]'} <= set(members) - listed)

    def test_numbers_of_sets(self) -> None:
        creats = [creat(f'/{number}') for number in range(64)]
        blocks, ordered = HEADERS['blocks'], HEADERS['ordered']
        both = [line for it in range(21) for line in (creat(f'/{it}'), write(f'/{it}', 0, 'x'))]
        for lines, wanted in [
            ([H1], 1),
            ([H1, *[say('x')] * 1024], 1025),
            ([blocks, *creats[:20]], 1048576),
            ([ordered, *creats[:20]], 21),
            ([blocks, *creats], 2**64),
            ([blocks, *creats[:63]], 9223372036854775808),
            ([blocks, *both, '{"op":"sync"}', say('x')], 9223372036854775809),
            ([blocks, say('1'), creat('/a')], 3),
        ]:
            with self.subTest(wanted):
                self.assertEqual(count(lines), wanted)
        self.assertEqual(every([H1]), ['[]'])
        self.assertEqual(len(every([ordered, *creats[:20]])), 21)

    def test_what_is_acknowledged_comes_first(self) -> None:
        lines = [HEADERS['blocks'], say('1'), creat('/a')]
        self.assertEqual(every(lines), ['[]', '[0]', '[0,1]'])
        order = Order(reading_of(lines))
        drawn = list(drawn_sets(order, 5, 1))
        self.assertEqual(len(drawn), 5)
        self.assertLessEqual(set(drawn), set(every_set(order)))
        self.assertEqual(list(drawn_sets(order, 5, 1)), drawn)

    def test_sets_that_two_profiles_allow(self) -> None:
        reading = reading_of([HEADERS['blocks'], creat('/a'), creat('/b')])
        self.assertEqual(
            list(map(text_of, every_set(Order(reading)))), ['[]', '[1]', '[0]', '[0,1]']
        )
        both = order_under(reading, 'ordered')
        self.assertEqual(list(map(text_of, every_set(both))), ['[]', '[0]', '[0,1]'])

    def test_what_one_of_two_profiles_makes_durable_is_not_pending(self) -> None:
        # The fsync of /b writes the log, with the profile journal: /a is in it.
        sync = '{"op":"fsync","path":"/b"}'
        header = HEADERS['blocks'].replace('"trace":3', '"trace":4')
        reading = reading_of([header, creat('/a'), creat('/b'), sync, creat('/c')])
        blocks, both = Order(reading), order_under(reading, 'journal')
        self.assertEqual((blocks.pending_set(2), both.pending_set(2)), (0b11, 0))
        self.assertEqual((blocks.pending_set(3), both.pending_set(3)), (0b111, 0b100))


class AllSets(unittest.TestCase):
    def test_every_allowed_set_is_there_once_and_ascending(self) -> None:
        for version, seed in product((1, 2, 3), range(40)):
            text = RandomTrace(version, seed).text().encode()
            try:
                reading = parse_trace(text)
            except ReadingFault:
                continue
            order = Order(reading)
            if order.count > 14:
                continue
            with self.subTest(version=version, seed=seed):
                sets = by_hand(reading, order)
                self.assertEqual(list(every_set(order)), sets)
                self.assertEqual(count_sets(order), len(sets))
                plan = make_plan(reading)
                found = list(SetClasses(reading, order).different_sets())
                self.assertEqual(found, first_of_each(plan, sets))

    def test_the_different_states_of_sqlite(self) -> None:
        reading = parse_trace((EXAMPLES / 'sqlite' / 'full.trace').read_bytes())
        order = Order(reading)
        self.assertEqual(count_sets(order), 5302)
        plan = make_plan(reading)
        found = list(SetClasses(reading, order).different_sets())
        self.assertEqual(len(found), 565)
        self.assertEqual(found, first_of_each(plan, list(every_set(order))))

    def test_hidden_bytes_count_as_long_as_a_size_can_show_them(self) -> None:
        lines = [
            *(H1, f'{{"start":"file","path":"/f",{RIGHTS},"bytes":"78"}}'),
            *(write('/f', 1, 'y'), write('/f', 2, 'z')),
        ]
        reading = reading_of(lines)
        order = Order(reading)
        found = list(SetClasses(reading, order).different_sets())
        self.assertEqual(found, first_of_each(make_plan(reading), list(every_set(order))))

    def test_sets_that_leave_one_tree_in_other_ways_are_equal(self) -> None:
        mkdir = f'{{"op":"mkdir","path":"%s",{RIGHTS}}}'
        fourth = HEADERS['blocks'].replace('"trace":3', '"trace":4')
        for lines, wanted in (
            # Two files of one name.
            ([creat('/a'), '{"op":"unlink","path":"/a"}', creat('/a')], [0, 0b1]),
            # A directory that is gone, after a file was made that can't be there without it.
            (
                [mkdir % '/d', fsync('/'), creat('/a'), '{"op":"rmdir","path":"/d"}'],
                [0, 0b1, 0b11, 0b111],
            ),
            # A directory that moves with a file, and one that is made in its place.
            (
                [
                    *(mkdir % '/d', creat('/d/a'), '{"op":"rename","from":"/d","to":"/e"}'),
                    *(mkdir % '/d', creat('/d/a')),
                ],
                [0, 0b1, 0b11, 0b101, 0b111, 0b1101, 0b1111, 0b11101, 0b11111],
            ),
            (['{"op":"chmod","path":"/","mode":"700"}'], [0, 0b1]),
        ):
            reading = reading_of([fourth, *lines])
            order = Order(reading)
            found = list(SetClasses(reading, order).different_sets())
            self.assertEqual(found, first_of_each(make_plan(reading), list(every_set(order))))
            self.assertEqual(sorted(found), wanted)

    def test_a_file_without_a_name_can_get_one_again(self) -> None:
        link = '{"op":"link","from":"%s","to":"%s"}'
        lines = [
            *(HEADERS['blocks'], creat('/a'), link % ('/a', '/b'), write('/a', 0, 'x')),
            *('{"op":"unlink","path":"/a"}', link % ('/b', '/c')),
        ]
        reading = reading_of(lines)
        order = Order(reading)
        found = list(SetClasses(reading, order).different_sets())
        self.assertEqual(found, first_of_each(make_plan(reading), list(every_set(order))))
        self.assertTrue(any(places & 0b110111 == 0b110101 for places in found), found)

    def test_each_set_has_the_same_chance(self) -> None:
        order = Order(reading_of(RENAMED))
        drawn = list(drawn_sets(order, 16_384, 7))
        counts = [drawn.count(places) for places in every_set(order)]
        self.assertEqual(sum(counts), 16_384)
        # Within five standard deviations of 16,384 / 17.
        for count in counts:
            self.assertLess(abs(count - 16_384 / 17), 5 * (16_384 / 17 * 16 / 17) ** 0.5)


if __name__ == '__main__':
    unittest.main()
