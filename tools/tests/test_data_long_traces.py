"""Traces that are too long to be examples of data/cases: many digits, and many transactions."""

from __future__ import annotations

import unittest
from typing import Optional

from crashfs_tools.common.program import Crashfs

from .case_runs import Runner
from .case_trees import archived
from .support import InFolder, needed

PROGRAM = Crashfs.find(None)
needs_program = needed(PROGRAM is not None, 'crashfs is not built')
HEADER = '{"trace":1,"owner":"cat","group":"staff","mode":"775"}\n'
THIRD = HEADER.replace('"trace":1', '"trace":3,"profile":"blocks","block":4096')
FILE = '{"start":"file","path":"/f","owner":"ann","group":"ann","mode":"644","bytes":"%s"}'
TRANSACTION = (
    '{"op":"write","path":"/f","bytes":"78","offset":%d}\n'
    '{"op":"fsync","path":"/f"}\n'
    '{"op":"say","text":"%d"}\n'
)


def counting(count: int) -> bytes:
    """So many bytes: 0 to 250, and then 0 again."""
    return bytes(place % 251 for place in range(count))


class LongTraces(InFolder):
    program: Optional[str] = None

    def setUp(self) -> None:
        super().setUp()
        self.runner = Runner(self.folder, self.program)

    def assert_syntax(self, digits: str) -> None:
        trace = (HEADER + FILE % digits).encode()
        ran = self.runner.run(['list'], {'trace': trace})
        self.assertEqual(ran.text(), 'crashfs: trace line 2: Syntax\n')

    def test_an_even_number_of_digits_is_read(self) -> None:
        """4,096, 4,098 and 8,192 digits are read as the bytes that they spell."""
        for count in (2_048, 2_049, 4_096):
            trace = (HEADER + FILE % counting(count).hex()).encode()
            tree = archived(self.runner, ['--state', '0'], {'trace': trace})
            self.assertEqual(tree['/f'].data, counting(count))
            self.assertEqual(list(tree), ['/', '/f'])

    def test_an_odd_number_of_digits_is_syntax(self) -> None:
        """4,095, 4,097 and 8,193 digits are Syntax."""
        for count in (2_047, 2_048, 4_096):
            self.assert_syntax(counting(count).hex() + '0')

    def test_a_bad_digit_after_many_is_syntax(self) -> None:
        """After 4,096 digits a `g` is Syntax, as the first digit of a byte and as the second."""
        for digits in ('g0', '0g'):
            self.assert_syntax(counting(2_048).hex() + digits)

    def test_a_session_of_341_transactions_has_four_states_for_each(self) -> None:
        """So many transactions, of three micro-operations each, have 1,365 states."""
        session = ''.join(TRANSACTION % (number, number) for number in range(341))
        trace = (THIRD + FILE % '' + '\n' + session).encode()
        ran = self.runner.run(['list', '--holes'], {'trace': trace})
        self.assertEqual(ran.text().count('\nstate '), 1_365)


@needs_program
class LongTracesByTheProgram(LongTraces):
    program = PROGRAM.path if PROGRAM is not None else None


if __name__ == '__main__':
    unittest.main()
