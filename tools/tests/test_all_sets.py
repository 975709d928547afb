"""Who lists the different states of a trace for a check: the program, or the second reading."""

from __future__ import annotations

import unittest
from pathlib import Path
from typing import Any, List, Sequence
from unittest import mock

from crashfs_tools.checker.states import all_sets as choices
from crashfs_tools.checker.states.all_sets import AllSets, ReadingSets, all_sets, parse_set
from crashfs_tools.checker.states.plan import PlanError
from crashfs_tools.common.program import Crashfs, ProgramFault

from .support import InFolder
from .test_every import H1, HEADERS, RIGHTS, creat, say

TRACE = [HEADERS['blocks'], creat('/a'), say('1')]
START = f'{{"start":"file","path":"/s",{RIGHTS},"text":"twelve bytes"}}'


class Program:
    """Lists two sets, or refuses by a text, or lacks some options."""

    is_unproved = False

    def __init__(self, refusal: str = '', lacks: Sequence[str] = ()) -> None:
        self.refusal = refusal
        self.lacks = lacks
        self.asked: List[List[str]] = []

    def output_of(self, words: List[str], _: Any) -> str:
        self.asked.append(words[3:])
        for option in self.lacks:
            if option in words:
                raise ProgramFault(2, f"error: unexpected argument '{option}' found\n".encode())
        if self.refusal:
            raise ProgramFault(1, f'crashfs: {self.refusal}\n'.encode())
        return '[]\n[0,1]\n'


class Choices(InFolder):
    def sets(self, program: Any, lines: List[str]) -> AllSets:
        path = self.write('a.trace', '\n'.join(lines) + '\n')
        return all_sets(program, {}, ReadingSets(path))

    def test_the_program_lists_the_states_of_a_trace_of_version_3(self) -> None:
        program = Program()
        sets = self.sets(program, TRACE)
        self.assertFalse(sets.are_from_reading)
        self.assertEqual(sets.different_sets(9), [0b00, 0b11])
        self.assertEqual(program.asked, [['--every', '--different', '--most', '9']])

    def test_more_states_than_are_wanted_are_none(self) -> None:
        for refusal in ('more than 9 sets', 'too many sets to compare', 'too many sets to count'):
            with self.subTest(refusal):
                self.assertIsNone(self.sets(Program(refusal=refusal), TRACE).different_sets(9))

    def test_a_count_is_one_number(self) -> None:
        sets = self.sets(Program(), TRACE)
        for lines, count in ((['12'], 12), (None, None), ([str(1 << 1024)], 1 << 1024)):
            with mock.patch.object(sets, 'printed_lines', return_value=lines):
                self.assertEqual(sets.count_sets(), count)
        for line in ('', '-1', '[]', '²', '1 2'):
            with mock.patch.object(sets, 'printed_lines', return_value=[line]):
                with self.subTest(line), self.assertRaisesRegex(PlanError, 'crashfs picks printed'):
                    sets.count_sets()

    def test_a_line_that_is_no_set_is_refused(self) -> None:
        self.assertEqual(parse_set('[0,2]'), 0b101)
        for line in ('', '5', '{"a":1}', '{}', '""', '[-1]', '[[0]]', f'[{10**30}]', '[' * 100_000):
            with self.subTest(line[:80]), self.assertRaises(PlanError):
                parse_set(line)

    def test_started_commands_run_at_once_and_are_killed_unless_they_are_read(self) -> None:
        log = self.path('log')
        script = f'#!/bin/sh\necho $$ >> {log}\n[ "$5" = --count ] && exec sleep 99\necho "[0]"\n'
        sets = self.sets(Crashfs(self.write('crashfs', script, 0o755)), TRACE)
        with sets.started(9):
            self.assertEqual(sets.different_sets(9), [0b1])
            self.wait_until(lambda: len(self.read('log').split()) >= 2, 'two starts')
        processes = self.read('log').split()
        self.assertEqual(len(processes), 2)
        self.assertEqual([Path('/proc', one).exists() for one in processes], [False, False])
        self.assertEqual(sets.different_sets(9), [0b1])

    def test_any_other_refusal_is_a_fault(self) -> None:
        with self.assertRaises(ProgramFault):
            self.sets(Program(refusal='out of memory'), TRACE).different_sets(9)

    def test_the_second_reading_lists_those_of_older_traces(self) -> None:
        program = Program()
        sets = self.sets(program, [H1, *TRACE[1:]])
        self.assertTrue(sets.are_from_reading)
        self.assertEqual(len(sets.different_sets(9) or []), 4)
        self.assertEqual(program.asked, [])

    def test_the_second_reading_lists_those_for_older_programs(self) -> None:
        program = Program(lacks=['--different', '--count', '--sample'])
        sets = self.sets(program, TRACE)
        self.assertEqual(len(sets.different_sets(9) or []), 4)
        self.assertTrue(sets.are_from_reading)
        self.assertEqual(sets.count_sets(), 4)
        self.assertEqual(len(sets.drawn_sets(7, 1) or []), 7)
        self.assertNotIn(['--every', '--count'], program.asked)

    def test_a_program_that_draws_no_sets_leaves_that_to_the_second_reading(self) -> None:
        program = Program(lacks=['--sample'], refusal='more than 9 sets')
        sets = self.sets(program, TRACE)
        self.assertIsNone(sets.different_sets(9))
        self.assertFalse(sets.are_from_reading)
        self.assertEqual(len(sets.drawn_sets(7, 1) or []), 7)
        self.assertTrue(sets.are_from_reading)

    def test_the_second_reading_lists_those_of_a_large_start(self) -> None:
        lines = [TRACE[0], START, *TRACE[1:]]
        for most, is_read in ((12, False), (11, True)):
            with self.subTest(most), mock.patch.object(choices, 'START_BYTES', most):
                self.assertEqual(self.sets(Program(), lines).are_from_reading, is_read)

    def test_the_program_lists_those_of_another_profile(self) -> None:
        program = Program()
        sets = self.sets(program, TRACE)
        self.assertEqual(sets.different_sets(9, 'ordered'), [0b00, 0b11])
        asked = ['--every', '--different', '--most', '9', '--profile', 'ordered']
        self.assertEqual((program.asked, sets.are_from_reading), ([asked], False))

    def test_those_of_another_profile_that_it_can_not_list_are_read(self) -> None:
        for program in (Program(lacks=['--profile']), Program(refusal='too many sets to compare')):
            sets = self.sets(program, TRACE)
            self.assertEqual(len(sets.different_sets(9, 'ordered') or []), 4)
            self.assertTrue(sets.are_from_reading)


if __name__ == '__main__':
    unittest.main()
