"""The command `measure`, over programs that the tests make. Nothing is built or timed."""

from __future__ import annotations

import contextlib
import io
import os
import shutil
import subprocess
import sys
from pathlib import Path
from typing import List
from unittest import mock

from building.usage import Usage
from measuring.programs import Programs, Tally
from measuring.sets import COMMANDS, add_command_rows, add_set_rows
from measuring.states import AllTimes, Checks, Times, add_rate_lines, add_time_rows

from .support import FAKE as READING
from .support import TOOLS, InFolder, needed

CRATES = """# Each crate with the libraries that it stands on.
cs_bench:
first_bench: cs_bench
second_bench may_wait=2: cs_bench
serve_bench: cs_bench
"""
ROWS = """looked up: 3 ns; beside: 2 ns: 1.50 times, within (at most 2)
kept: 41.200 MB, past (at most 40)
no row, within reason
"""
FAKE = str(TOOLS / 'tests' / 'fake_server.py')


class WithPrograms(InFolder):
    """A repository in which programs are what the tests write."""

    def setUp(self) -> None:
        super().setUp()
        self.write('crates.txt', CRATES)
        for line in CRATES.splitlines()[1:]:
            name = line.partition(':')[0].split()[0]
            os.makedirs(self.path('crates', name, 'src'))
            os.mkdir(self.path('crates', name, 'out'))
            root = 'lib.rt' if name == 'cs_bench' else 'main.rt'
            self.write(os.path.join('crates', name, 'src', root), '')

    def program(self, name: str, lines: List[str]) -> None:
        """Puts a program where it would be built."""
        os.makedirs(self.path('crates', name, 'out'), exist_ok=True)
        self.write(os.path.join('crates', name, 'out', name), '\n'.join(lines) + '\n', 0o755)

    def printing(self, name: str, text: str, status: int = 0) -> None:
        shown = ['test "$1" = time || exit 9', "cat <<'END'", text + 'END', f'exit {status}']
        self.program(name, ['#!/bin/sh', *shown])

    def measure(self, *names: str) -> subprocess.CompletedProcess:
        words = [sys.executable, str(TOOLS / 'measure'), '--top', self.folder, *names]
        return subprocess.run(words, stdout=subprocess.PIPE, stderr=subprocess.PIPE, text=True)


class Measure(WithPrograms):
    def test_rows_of_built_programs_are_printed_and_the_others_named(self) -> None:
        self.printing('first_bench', ROWS)
        told = self.measure()
        self.assertEqual(
            told.stdout.splitlines(),
            [
                '== first_bench',
                *ROWS.splitlines(),
                '== second_bench: not built: second_bench',
                '== serve_bench: not built: serve_bench, crashfs',
                '== memory: not built: crashfs',
                '== states: not built: crashfs',
                '== sets: not built: crashfs',
                'past: first_bench: kept: 41.200 MB, past (at most 40)',
                '1 rows within, 1 past; not built: second_bench, serve_bench, memory, states, '
                'sets',
            ],
        )
        self.assertEqual((told.returncode, told.stderr), (1, ''))

    def test_a_wrong_list_of_crates_is_one_line_with_a_status(self) -> None:
        for text, line in (
            ('first_bench: cs_bench\ncs_bench\n', 'line 2 has no colon'),
            ('no_bench: cs_bench\n', 'crates that are not there: no_bench'),
        ):
            self.write('crates.txt', text)
            told = self.measure()
            self.assertEqual((told.returncode, told.stdout), (1, ''))
            self.assertEqual(told.stderr, f'measure: crates.txt: {line}\n')
        os.remove(self.path('crates.txt'))
        self.assertEqual(self.measure().stderr, 'measure: crates.txt: No such file or directory\n')

    def test_a_program_that_fails_is_named(self) -> None:
        self.printing('second_bench', ROWS.splitlines()[0] + '\n', status=3)
        told = self.measure('second_bench')
        self.assertEqual(
            told.stdout.splitlines()[-2:],
            [
                'second_bench failed: status 3',
                '1 rows within, 0 past; failed: second_bench',
            ],
        )
        self.assertEqual(told.returncode, 1)

    def test_where_all_rows_are_within_the_status_is_zero(self) -> None:
        self.printing('first_bench', ROWS.splitlines()[0] + '\n')
        self.assertEqual(self.measure('first_bench').returncode, 0)

    def test_a_name_that_is_no_benchmark_is_refused(self) -> None:
        told = self.measure('cs_bench')
        self.assertEqual(told.returncode, 2)
        self.assertIn(
            'cs_bench is none of first_bench, second_bench, serve_bench, memory, states, ' 'sets\n',
            told.stderr,
        )

    def test_clients_get_the_served_address_and_those_of_three_bare_servers(self) -> None:
        self.program('crashfs', ['#!/bin/sh', f'exec {FAKE} "$@"'])
        self.program(
            'serve_bench',
            ['#!/bin/sh', f'test $# = 3 && exec {FAKE} "$@"', 'echo "$# words, $5 clients, $6"'],
        )
        told = self.measure('serve_bench')
        self.assertEqual(
            [line for line in told.stdout.splitlines() if 'words' in line],
            ['6 words, 8 clients, own', '6 words, 8 clients, one', '6 words, 64 clients, own'],
            told.stdout + told.stderr,
        )
        self.assertEqual(told.returncode, 0)

    def test_a_server_that_does_not_listen_is_reported(self) -> None:
        self.program('crashfs', ['#!/bin/sh', 'exit 4'])
        told = self.measure('memory')
        self.assertEqual(told.returncode, 1)
        self.assertEqual(told.stdout.count('memory failed: '), 3)

    def test_only_programs_are_benchmarks(self) -> None:
        names = Programs(TOOLS.parent).benchmark_names()
        self.assertIn('serve_bench', names)
        self.assertNotIn('cs_bench', names)


class States(WithPrograms):
    @needed(shutil.which('cc') is not None, 'cc is not there')
    def test_states_are_measured_beside_a_c_program(self) -> None:
        self.program('crashfs', ['#!/bin/sh', f'exec {READING} "$@"'])
        told = self.measure('states').stdout
        self.assertRegex(
            told, r'\n625 states, 295 of them tried, by \d+ jobs: [\d.]+ s, \d+ states'
        )
        self.assertRegex(told, r'\nthe C program by one: \d+ a second\n')
        self.assertRegex(told, r'\na state beside the C program: [\d.]+ times, (within|past) ')

    def test_a_state_takes_what_more_states_add_to_a_check(self) -> None:
        times = AllTimes(
            check=Times(600, 300, processor_seconds=0.5, wall_seconds=0.3),
            short_check=Times(100, 50, processor_seconds=0.25, wall_seconds=0.2),
            one_job_check=Times(600, 300, processor_seconds=0.6, wall_seconds=0.5),
            c_program=Times(300, 300, processor_seconds=0.15, wall_seconds=0.25),
        )
        with contextlib.redirect_stdout(io.StringIO()) as out:
            add_rate_lines(times, Tally())
            add_time_rows(times, Tally())
        jobs = len(os.sched_getaffinity(0))
        tried = '600 states, 300 of them tried, by'
        self.assertEqual(
            out.getvalue().splitlines(),
            [
                f'{tried} {jobs} jobs: 0.300 s, 2000 states and 1000 trials a second',
                f'{tried} 1 jobs: 0.500 s, 1200 states and 600 trials a second',
                'the C program by one: 1200 a second',
                'processor time of a state: 1.000 ms; of the C program 0.500 ms',
                'a state beside the C program: 2.000 times, past (at most 1.5)',
                'a state by all jobs: 0.500 ms, within (at most 1)',
            ],
        )

    def test_the_least_times_are_those_of_all_checks(self) -> None:
        all_times = [Times(9, 5, 3.0, 4.0), Times(9, 5, 2.0, 5.0), Times(9, 5, 4.0, 1.0)]
        with mock.patch.object(Checks, 'measure_check', side_effect=[None, *all_times]):
            checks = Checks(Programs(Path(self.folder)), self.folder)
            self.assertEqual(checks.least_times('--families'), Times(9, 5, 2.0, 1.0))

    def test_a_check_that_fails_is_reported(self) -> None:
        self.program('crashfs', ['#!/bin/sh', 'exit 4'])
        self.assertIn('states failed: ', self.measure('states').stdout)


class Sets(WithPrograms):
    """Rows of sets, of as few files as the second reading finds at once."""

    def printed(self, lines: List[int]) -> str:
        """What is printed of the commands with 4 files each and without acknowledged lines; each
        must print so many lines."""
        commands = [
            command._replace(say_count=0, file_count=4, line_count=count)
            for command, count in zip(COMMANDS, lines)
        ]
        with contextlib.redirect_stdout(io.StringIO()) as out:
            tally = Tally()
            tally.begin_benchmark('sets')
            add_set_rows(Programs(Path(self.folder)), tally, commands)
        return out.getvalue()

    def test_each_way_to_find_sets_is_measured(self) -> None:
        self.program('crashfs', ['#!/bin/sh', f'exec {READING} "$@"'])
        printed = self.printed([16, 16, 1, 16_384])
        self.assertNotIn('failed', printed)
        verdict = r'(within|past) \(at most [\d.]+\)'
        for one in COMMANDS:
            self.assertRegex(printed, rf'(?m)^{one.label}: [\d.]+ {one.unit}, {verdict}$')
        self.assertRegex(printed, rf'(?m)^a class .*: memory: -?[\d.]+ bytes, {verdict}$')

    def test_figures_are_for_one_of_the_things_that_a_command_finds(self) -> None:
        command = COMMANDS[1]._replace(label='a set', divisor=4, most=2.0, most_bytes=300)
        with contextlib.redirect_stdout(io.StringIO()) as out:
            add_command_rows(command, Usage(processor_seconds=12e-6, memory_bytes=1_000), Tally())
        self.assertEqual(
            out.getvalue(),
            'a set: 3.000 us, past (at most 2)\n'
            'a set: memory: 250.000 bytes, within (at most 300)\n',
        )

    def test_other_lines_than_those_of_all_sets_are_a_failure(self) -> None:
        self.program('crashfs', ['#!/bin/sh', f'exec {READING} "$@"'])
        printed = self.printed([15, 16, 1, 16_384])
        self.assertEqual(printed.count('sets failed: '), 1)
        self.assertIn(' printed 16 lines with status 0', printed)

    def test_a_start_that_fails_has_no_row(self) -> None:
        self.program('crashfs', ['#!/bin/sh', 'exit 4'])
        printed = self.measure('sets').stdout
        self.assertEqual(printed.count('sets failed: '), len(COMMANDS))
        self.assertIn('0 rows within, 0 past; failed: sets', printed)
