"""What MODEL answers to users' questions is so in the second reading."""

from __future__ import annotations

import unittest
from typing import List

from crashfs_tools.reading.every import count_sets, every_set
from crashfs_tools.reading.order import Order
from crashfs_tools.reading.trace import parse_trace

RIGHTS = '"owner":"a","group":"a","mode":"755"'
FSYNC = '{"op":"fsync","path":"%s"}'
SAY = '{"op":"say","text":"1"}'
RENAME = [
    f'{{"start":"dir","path":"/a",{RIGHTS}}}',
    f'{{"start":"dir","path":"/b",{RIGHTS}}}',
    f'{{"start":"file","path":"/a/f",{RIGHTS},"text":"x"}}',
    '{"op":"rename","from":"/a/f","to":"/b/f"}',
]
CREAT = f'{{"op":"creat","path":"/f",{RIGHTS}}}'
MKDIR = f'{{"op":"mkdir","path":"/d",{RIGHTS}}}'


def order_of(profile: str, lines: List[str], version: int = 4) -> Order:
    header = f'{{"trace":{version},"profile":"{profile}","block":4096,{RIGHTS}}}'
    return Order(parse_trace('\n'.join([header, *lines, '']).encode()))


def kept_with_say(profile: str, lines: List[str], version: int = 4) -> List[int]:
    """The sets that have the last micro-operation, an acknowledged line, without it."""
    order = order_of(profile, [*lines, SAY], version)
    last = 1 << (order.count - 1)
    return [places & ~last for places in every_set(order) if places & last]


class Answers(unittest.TestCase):
    def test_new_files_are_as_many_states_as_no_sync_forbids(self) -> None:
        creats = [CREAT.replace('/f', f'/f{number}') for number in range(20)]
        self.assertEqual(count_sets(order_of('blocks', creats, 3)), 2**20)
        synced = [line for creat in creats for line in (creat, '{"op":"sync"}')]
        self.assertEqual(count_sets(order_of('blocks', synced, 3)), 21)

    def test_an_fsync_makes_a_new_name_durable_only_by_the_journal(self) -> None:
        for made, path in ((CREAT, '/f'), (MKDIR, '/d')):
            for profile in ('blocks', 'ordered'):
                self.assertIn(0, kept_with_say(profile, [made, FSYNC % path]))
            self.assertEqual(kept_with_say('journal', [made, FSYNC % path]), [1])

    def test_a_durable_file_keeps_its_new_directory(self) -> None:
        lines = [MKDIR, CREAT.replace('/f', '/d/f'), FSYNC % '/d']
        self.assertEqual(kept_with_say('blocks', lines), [0b11])

    def test_a_rename_is_durable_by_an_fsync_of_either_directory(self) -> None:
        for path in ('/a', '/b'):
            for profile in ('ordered', 'journal'):
                self.assertEqual(kept_with_say(profile, [*RENAME, FSYNC % path]), [1])
            self.assertEqual(kept_with_say('blocks', [*RENAME, FSYNC % path], 3), [1])

    def test_of_two_halves_the_new_directory_makes_only_the_new_name_durable(self) -> None:
        self.assertEqual(kept_with_say('blocks', [*RENAME, FSYNC % '/b']), [0b01, 0b11])
        self.assertEqual(kept_with_say('blocks', [*RENAME, FSYNC % '/a']), [0b11])


if __name__ == '__main__':
    unittest.main()
