"""The values of a plan: what needs what, its parts, and how the program is asked for them."""

import random
import unittest
from typing import Iterable, Iterator, List

from crashfs_tools.checker.states.place_sets import (
    first_missing,
    missing_set,
    places_of,
    prefix_set,
    set_of,
    size_of,
)
from crashfs_tools.checker.states.plan import (
    Needs,
    Part,
    Plan,
    PlannedMicroOperation,
    PlannedTrace,
    PlanOptions,
    State,
    ranges_text,
)


def random_needs(seed: int, count: int) -> Needs:
    """Needs of so many micro-operations: some of those before each, and all that these need."""
    draw = random.Random(seed)
    masks: List[int] = []
    for place in range(count):
        mask = 1 << place
        for earlier in range(place):
            mask |= masks[earlier] if draw.random() < 0.3 else 0
        masks.append(mask)
    return Needs(masks)


def union(sets: Iterable[int]) -> int:
    return set_of(place for members in sets for place in places_of(members))


class OfNeeds(unittest.TestCase):
    def allowed_sets(self) -> Iterator[tuple]:
        for seed in range(20):
            needs = random_needs(seed, 7)
            yield needs, [members for members in range(1 << 7) if needs.is_allowed(members)]

    def test_an_allowed_set_has_what_each_member_needs(self) -> None:
        for needs, allowed in self.allowed_sets():
            for members in range(1 << 7):
                needed = union(needs.masks[place] for place in places_of(members))
                self.assertEqual(members in allowed, needed == members)

    def test_holes_are_the_prefixes_without_one_and_what_needs_it(self) -> None:
        for needs, allowed in self.allowed_sets():
            holes = []
            for end in range(8):
                for lost in range(end - 1):
                    if not needs.is_needed(lost, by=end - 1):
                        holes.append(prefix_set(end) & ~needs.set_needing(lost))
            self.assertEqual(needs.hole_count, len(holes))
            wanted = {*holes, *map(prefix_set, range(8))}
            found = {members for members in allowed if needs.is_prefix_or_hole(members)}
            self.assertEqual(found, wanted)

    def test_the_set_without_a_line_is_the_largest_allowed_one(self) -> None:
        lines = [4, 4, 2, 7, 2, 7, 7]
        for needs, allowed in self.allowed_sets():
            wanted = []
            for line in (4, 2, 7):
                lost = set_of(place for place, number in enumerate(lines) if number == line)
                # The union of allowed sets is allowed.
                wanted.append(union(members for members in allowed if not members & lost))
            self.assertEqual(needs.sets_without_lines(lines), wanted)

    def test_nothing_needs_a_later_one_or_one_past_the_end(self) -> None:
        needs = Needs([1, 3])
        self.assertEqual([needs.is_needed(0, by=place) for place in range(3)], [True, True, False])
        self.assertFalse(needs.is_needed(1, by=0))


class OfSets(unittest.TestCase):
    def test_what_is_missing_is_before_the_last_member(self) -> None:
        for members, missing, first in ((0, 0, None), (0b111, 0, None), (0b10110, 0b1001, 0)):
            self.assertEqual((missing_set(members), first_missing(members)), (missing, first))
        self.assertEqual(first_missing(0b10101), 1)
        self.assertEqual(size_of(0b10110), 3)


class OfParts(unittest.TestCase):
    def planned(self) -> PlannedTrace:
        """Two prefixes and a pick in the first part, two picks in the second."""
        operations = [PlannedMicroOperation(0, 'create', '/a', '', 2)]
        states = [
            *(State(end, 'prefix', (end,), 0, end) for end in (0, 1)),
            *(State(number, 'pick', (0,), 0, number) for number in (2, 3, 4)),
        ]
        parts = [
            Part(PlanOptions(['--trace', 't', '--holes'], 't.picks'), 0, 3, 0),
            Part(PlanOptions(['--trace', 't'], 't.picks1'), 3, 5, 2),
        ]
        return PlannedTrace('t', parts, Plan(operations, states, Needs([1])))

    def test_each_part_is_asked_for_its_states_by_its_own_numbers(self) -> None:
        requests = list(self.planned().requests([4, 0, 3, 2]))
        self.assertEqual(
            [tuple(request) for request in requests],
            [
                (['--trace', 't', '--holes', '--picks', 't.picks', '--states', '0,2'], 0),
                (['--trace', 't', '--picks', 't.picks1', '--states', '2-3'], 1),
            ],
        )

    def test_picks_are_not_named_for_prefixes(self) -> None:
        (request,) = self.planned().requests([1, 99])
        self.assertEqual(request.options, ['--trace', 't', '--holes', '--states', '1'])

    def test_the_files_are_the_trace_and_the_picks(self) -> None:
        self.assertEqual(self.planned().files(), ['t', 't.picks', 't.picks1'])
        without = PlannedTrace(
            't', [Part(PlanOptions(['--trace', 't']), 0, 2, 0)], Plan([], [], Needs([]))
        )
        self.assertEqual(without.files(), ['t'])
        self.assertEqual(without.parts[0].options.with_picks, ['--trace', 't'])

    def test_ranges_are_as_long_as_they_can_be(self) -> None:
        for numbers, text in (((), ''), ((5,), '5'), ((6, 4, 1, 5), '1,4-6'), ((2, 1, 4), '1-2,4')):
            self.assertEqual(ranges_text(numbers), text)


if __name__ == '__main__':
    unittest.main()
