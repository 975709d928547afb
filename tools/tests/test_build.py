"""The order in which `tools/build` proves crates, where and with how many processors, and what it
says if it fails."""

from __future__ import annotations

import errno
import io
import os
import tempfile
import threading
import unittest
from contextlib import redirect_stderr, redirect_stdout
from pathlib import Path
from typing import Dict, List, Optional, Tuple
from unittest import mock

from building import crates, main, order, proving
from building.checks import Check
from building.crates import library_uses
from building.order import MANY_BELOW, Work, count_crate_lines
from building.proving import (
    build_program,
    copy_proved_libraries,
    is_library_current,
    prove_crates_in,
)
from building.sharing import copy_library, read_stamps

from .support import PATIENCE

# a is below all; b, c and d stand on it, and e on b.
BELOW: Dict[str, List[str]] = {'a': [], 'b': ['a'], 'c': ['a'], 'd': ['a'], 'e': ['b']}
CHAINS = {'a': 50, 'b': 40, 'c': 20, 'd': 10, 'e': 30}


def all_ready(work: Work) -> List[Tuple[str, int]]:
    """Takes each crate that can begin now, with its processors."""
    taken: List[Tuple[str, int]] = []
    while True:
        chosen = work.next_check()
        if chosen is None:
            return taken
        taken.append(chosen)
        work.begun_crates.add(chosen[0])
        work.jobs[chosen[0]] = chosen[1]


class Order(unittest.TestCase):
    def test_the_longest_chain_has_two_processors(self) -> None:
        work = Work(BELOW, CHAINS, 4)
        self.assertEqual(all_ready(work), [('a', 3)])
        work.end_crate('a', Path('/'))
        self.assertEqual(all_ready(work), [('b', 2), ('c', 1), ('d', 1)])
        work.end_crate('c', Path('/'))
        self.assertEqual(all_ready(work), [])
        work.end_crate('b', Path('/'))
        self.assertEqual(all_ready(work), [('e', 3)])

    def test_a_crate_over_many_has_one_processor(self) -> None:
        low = [f'low{it}' for it in range(MANY_BELOW)]
        below = {'top': low[-1:], **{it: low[at - 1 : at] for at, it in enumerate(low)}}
        work = Work(below, {it: 1 for it in below}, 4)
        work.begun_crates.update(low)
        work.proved_in.update((it, Path('/')) for it in low)
        self.assertEqual(all_ready(work), [('top', 1)])

    def test_one_processor_takes_a_crate_at_a_time(self) -> None:
        work = Work(BELOW, CHAINS, 1)
        order = []
        for _ in BELOW:
            [(name, jobs)] = all_ready(work)
            order.append(name)
            self.assertEqual(jobs, 1)
            work.end_crate(name, Path('/'))
        self.assertEqual(order, ['a', 'b', 'e', 'c', 'd'])

    def test_nothing_begins_once_a_crate_is_not_proved(self) -> None:
        work = Work(BELOW, CHAINS, 4)
        name, _ = work.begin_next_crate()
        work.end_crate(name, None)
        self.assertIsNone(work.begin_next_crate())
        self.assertEqual(work.failed_crate, 'a')

    def test_a_library_that_is_older_than_its_text_is_made_again(self) -> None:
        with tempfile.TemporaryDirectory() as room:
            crate = Path(room) / 'crates' / 'a'
            (crate / 'src').mkdir(parents=True)
            (crate / 'out' / 'rlib').mkdir(parents=True)
            text, library = crate / 'src' / 'lib.rt', crate / 'out' / 'rlib' / 'stamp'
            text.write_text('fn f() {}')
            self.assertFalse(is_library_current(Path(room), 'a'))
            library.write_text('')
            os.utime(crate / 'src', (100, 100))
            os.utime(text, (100, 100))
            os.utime(library, (200, 200))
            self.assertTrue(is_library_current(Path(room), 'a'))
            os.utime(text, (300, 300))
            self.assertFalse(is_library_current(Path(room), 'a'))

    def test_a_library_does_not_change_how_many_lines_a_crate_has(self) -> None:
        with tempfile.TemporaryDirectory() as room, mock.patch.object(order, 'TOP', Path(room)):
            for path, lines in (
                ('src/lib.rt', 1),
                ('src/deep/x.rt', 2),
                ('specs/X.antt', 4),
                ('proofs/x/X.antt', 8),
                ('out/rlib/lib.rt', 16),
                ('out/rlib/specs/X.antt', 32),
                ('must-fail/x.antt', 64),
            ):
                file = Path(room) / 'crates' / 'a' / path
                file.parent.mkdir(parents=True, exist_ok=True)
                file.write_text('line\n' * lines)
            self.assertEqual(count_crate_lines('a'), 15)

    def test_the_libraries_are_all_that_the_program_uses(self) -> None:
        below = library_uses()
        self.assertIn('cs_names', below)
        self.assertNotIn('cs_bench', below)
        self.assertTrue(all(it in below for its in below.values() for it in its))


class Sharing(unittest.TestCase):
    """Copies of the repository in which a library is written as `rt` does, its stamp last."""

    def setUp(self) -> None:
        folder = tempfile.TemporaryDirectory()
        self.addCleanup(folder.cleanup)
        self.room = Path(folder.name)

    def library(self, copy: str, name: str) -> Path:
        return self.room / copy / 'crates' / name / 'out' / 'rlib'

    def prove(self, copy: str, name: str, text: str) -> None:
        self.library(copy, name).mkdir(parents=True, exist_ok=True)
        (self.library(copy, name) / 'statements').write_text(text)
        (self.library(copy, name) / 'stamp').write_text(f'stamp of {text}')

    def given(self, copy: str, name: str) -> str:
        return (self.library(copy, name) / 'statements').read_text()

    def test_a_library_is_given_whole(self) -> None:
        self.prove('1', 'a', 'new')
        copy_library(self.room / '1', self.room / '2', 'a')
        self.assertEqual(self.given('2', 'a'), 'new')
        self.assertEqual(os.listdir(self.library('2', 'a').parent), ['rlib'])

    def test_a_library_of_another_text_is_replaced(self) -> None:
        self.prove('1', 'a', 'new')
        self.prove('2', 'a', 'old')
        (self.library('2', 'a') / 'left').touch()
        copy_library(self.room / '1', self.room / '2', 'a')
        self.assertEqual(self.given('2', 'a'), 'new')
        self.assertFalse((self.library('2', 'a') / 'left').exists())

    def test_a_library_of_the_same_text_stays(self) -> None:
        self.prove('1', 'a', 'new')
        self.prove('2', 'a', 'new')
        (self.library('2', 'a') / 'left').touch()
        copy_library(self.room / '1', self.room / '2', 'a')
        self.assertTrue((self.library('2', 'a') / 'left').exists())

    def test_what_was_interrupted_is_given_again(self) -> None:
        self.prove('1', 'a', 'new')
        self.library('2', 'a').mkdir(parents=True)
        copy_library(self.room / '1', self.room / '2', 'a')
        self.assertEqual(self.given('2', 'a'), 'new')

    def test_a_check_has_all_libraries_of_the_copies_that_proved_them(self) -> None:
        work = Work(BELOW, CHAINS, 1)
        work.begun_crates.update('abcd')
        for copy, name in (('1', 'a'), ('1', 'b'), ('2', 'c'), ('2', 'd')):
            self.prove(copy, name, name)
            work.proved_in[name] = self.room / copy
        with mock.patch.object(
            proving, 'run_check', return_value=Check(0, b'', 1)
        ), redirect_stdout(io.StringIO()):
            prove_crates_in(self.room / '2', work, 0)
            self.assertEqual((self.given('2', 'a'), self.given('2', 'b')), ('a', 'b'))
            with mock.patch.object(proving, 'TOP', self.room / 'top'):
                copy_proved_libraries(work)
        self.assertEqual([self.given('top', it) for it in 'abcd'], list('abcd'))
        self.assertEqual(work.proved_in['e'], self.room / '2')

    def prove_two(self, newest: str) -> Tuple[Work, List[str]]:
        """Proves x and y, above a, in two threads, each with a copy of its own. The repository
        itself has current libraries of all three, and a copy proved this text of a. Returns what is
        proved, and the names of the crates whose checks ran at the same time."""
        top = self.room / 'top'
        for name in 'xy':
            text = top / 'crates' / name / 'src' / 'lib.rt'
            text.parent.mkdir(parents=True)
            text.write_text('fn f() {}')
        for name in 'axy':
            self.prove('top', name, name)
        self.prove('1', 'a', newest)
        uses = {'a': [], 'x': ['a'], 'y': ['a']}
        work = Work(uses, {'a': 2, 'x': 1, 'y': 1}, 4, read_stamps(top, uses))
        work.begun_crates.add('a')
        work.proved_in['a'] = self.room / '1'
        meeting = threading.Barrier(2)
        met: List[str] = []

        def check(_: List[str], crate: Path) -> Check:
            self.assertEqual(self.given(crate.parent.parent.name, 'a'), newest)
            try:
                meeting.wait(1)
                met.append(crate.name)
            except threading.BrokenBarrierError:
                pass
            return Check(0, b'', 1)

        with mock.patch.object(proving, 'run_check', check), mock.patch.object(
            proving, 'TOP', top
        ), redirect_stdout(io.StringIO()):
            threads = [
                threading.Thread(target=prove_crates_in, args=(self.room / copy, work, 0))
                for copy in '23'
            ]
            for thread in threads:
                thread.start()
            for thread in threads:
                thread.join()
        self.assertIsNone(work.failed_crate)
        return work, met

    def test_one_thread_at_a_time_works_in_the_repository_itself(self) -> None:
        work, met = self.prove_two('a')
        self.assertEqual(met, [])
        self.assertEqual({work.proved_in['x'], work.proved_in['y']}, {self.room / 'top'})

    def test_crates_above_a_changed_one_are_proved_side_by_side(self) -> None:
        work, met = self.prove_two('new')
        self.assertEqual(sorted(met), ['x', 'y'])
        copies = {work.proved_in['x'], work.proved_in['y']}
        self.assertEqual(copies, {self.room / '2', self.room / '3'})

    def build(self, refused: str) -> int:
        """A build whose crates a to e are all proved in the copy 1, but for those of `refused`."""

        def check(words: List[str], crate: Path) -> Check:
            if crate.name in refused:
                return Check(1, b'', 1)
            if words[1] == 'lib':
                self.prove('1', crate.name, crate.name)
            return Check(0, b'', 1)

        top, copy = self.room / 'top', self.room / '1'
        with mock.patch.object(main, 'library_uses', return_value=BELOW), mock.patch.object(
            main, 'chain_lengths', return_value=CHAINS
        ), mock.patch.object(main, 'TOP', top), mock.patch.object(
            proving, 'TOP', top
        ), mock.patch.object(
            main, 'prove_crates_in', lambda _, work, begun: prove_crates_in(copy, work, begun)
        ), mock.patch.object(
            proving, 'run_check', check
        ), redirect_stdout(
            io.StringIO()
        ):
            return main.build_all(1)

    def test_what_is_proved_is_kept_whether_or_not_all_is(self) -> None:
        with redirect_stderr(io.TextIOWrapper(io.BytesIO(), 'utf-8')):
            self.assertEqual(self.build('e'), 1)
        self.assertEqual([self.given('top', it) for it in 'ab'], ['a', 'b'])
        self.assertFalse(self.library('top', 'e').exists())
        self.assertEqual(self.build(''), 0)
        self.assertEqual([self.given('top', it) for it in 'abcde'], list('abcde'))


class Threads(unittest.TestCase):
    def test_an_error_in_a_thread_ends_all_and_is_one_line(self) -> None:
        work = Work({'a': [], 'b': ['a']}, {'a': 2, 'b': 1}, 2)
        out, err = io.StringIO(), io.TextIOWrapper(io.BytesIO(), 'utf-8')
        full = OSError(errno.ENOSPC, 'No space left on device', '/copy\n' + 'x' * 9999)
        with mock.patch.object(proving, 'run_check', side_effect=[full]) as run, redirect_stdout(
            out
        ), redirect_stderr(err):
            threads = [
                threading.Thread(target=prove_crates_in, args=(Path('/'), work, 0), daemon=True)
                for _ in range(2)
            ]
            for thread in threads:
                thread.start()
            for thread in threads:
                thread.join(PATIENCE)
        self.assertEqual([thread.is_alive() for thread in threads], [False, False])
        self.assertEqual((work.failed_crate, work.proved_in, run.call_count), ('a', {}, 1))
        self.assertRegex(out.getvalue(), r'min: a NOT PROVED \(0 of 2\)\n$')
        err.flush()
        assert isinstance(err.buffer, io.BytesIO)
        [line] = err.buffer.getvalue().decode().splitlines()
        self.assertTrue(line.startswith('a: OSError: [Errno 28] No space left on device: '), line)
        self.assertLess(len(line), 9000)


class Reports(unittest.TestCase):
    """What is printed of checks that end in a given way."""

    def printed(self, check: Check, work: Optional[Work] = None) -> Tuple[str, str]:
        out, err = io.StringIO(), io.TextIOWrapper(io.BytesIO(), 'utf-8')
        with mock.patch.object(proving, 'run_check', return_value=check), redirect_stdout(
            out
        ), redirect_stderr(err):
            if work is None:
                self.status = build_program(0)
            else:
                prove_crates_in(Path('/'), work, 0)
        err.flush()
        assert isinstance(err.buffer, io.BytesIO)
        return out.getvalue(), err.buffer.getvalue().decode()

    def test_a_killed_check_ends_the_build_and_says_that_memory_ran_out(self) -> None:
        work = Work(BELOW, CHAINS, 4)
        out, err = self.printed(Check(247, b'so far: 0 of 139 functions checked\n', 1), work)
        self.assertRegex(out, r'min: a NOT PROVED \(0 of 5\)\n$')
        first, last = err.splitlines()
        self.assertEqual(first, 'so far: 0 of 139 functions checked')
        self.assertRegex(last, '^a: the system killed its check')
        self.assertEqual((work.failed_crate, work.begun_crates), ('a', {'a'}))

    def test_a_refused_check_says_nothing_of_memory(self) -> None:
        _, err = self.printed(Check(1, b'fn a::b: not proved\n', 1), Work(BELOW, CHAINS, 4))
        self.assertEqual(err, 'fn a::b: not proved\n')

    def test_all_crates_are_proved_in_their_order(self) -> None:
        out, err = self.printed(Check(0, b'', 1), Work(BELOW, CHAINS, 4))
        names = [line.split()[2] for line in out.splitlines()]
        self.assertEqual((names, err), (['a', 'b', 'e', 'c', 'd'], ''))

    def test_all_crates_are_proved_if_nobody_reads_what_is_printed(self) -> None:
        work = Work(BELOW, CHAINS, 4)
        reader, writer = os.pipe()
        os.close(reader)
        with open(writer, 'w') as out, redirect_stdout(out):
            with mock.patch.object(proving, 'run_check', return_value=Check(0, b'', 1)):
                prove_crates_in(Path('/'), work, 0)
        self.assertEqual(sorted(work.proved_in), list('abcde'))

    def test_the_program_s_check_is_reported_like_those_of_libraries(self) -> None:
        _, err = self.printed(Check(137, b'so far\n', 1))
        self.assertRegex(err, '^so far\ncrashfs: the system killed its check')
        self.assertEqual(self.status, 1)
        out, err = self.printed(Check(0, b'help\n', 1))
        self.assertRegex(out, 'min: crates/crashfs/out/crashfs is built\n$')
        self.assertEqual((self.status, err), (0, ''))

    def test_without_the_toolchain_it_says_what_is_missing(self) -> None:
        err = io.StringIO()
        with mock.patch.object(main.shutil, 'which', return_value=None), mock.patch(
            'sys.argv', ['build']
        ), redirect_stderr(err):
            self.assertEqual(main.main(), 1)
        self.assertIn('rt: command not found', err.getvalue())

    def test_a_full_disk_is_one_line_with_a_status(self) -> None:
        full = OSError(errno.ENOSPC, 'No space left on device', '/copy')
        with mock.patch.object(main.shutil, 'which', return_value='rt'), mock.patch(
            'sys.argv', ['build']
        ), mock.patch.object(main, 'copy_sources_to', side_effect=full), redirect_stderr(
            io.StringIO()
        ) as err:
            self.assertEqual(main.main(), 1)
        text = 'tools/build: OSError: [Errno 28] No space left on device: \'/copy\'\n'
        self.assertEqual(err.getvalue(), text)

    def test_a_wrong_list_of_crates_is_one_line_with_a_status(self) -> None:
        itself = 'crates that use themselves:'
        for text, line in (
            (b'low: kit\n : low\n', 'line 2 has no crate before its colon'),
            (b'low: kit\n\n# mid: low\nmid\n', 'line 4 has no colon'),
            (b'\xff: low\n', 'it is not UTF-8'),
            (b'low: kit\nno:\nsuch: low\n', 'crates that are not there: no, such'),
            (b'crashfs: top\ntop: mid\nmid: low\nlow: mid\n', f'{itself} low, mid'),
            (b'crashfs: low\nlow: crashfs kit\n', f'{itself} crashfs, low'),
        ):
            with self.subTest(line), tempfile.TemporaryDirectory() as room:
                (Path(room) / 'crates.txt').write_bytes(text)
                for name in ('low', 'mid', 'top', 'crashfs'):
                    (Path(room) / 'crates' / name).mkdir(parents=True)
                with mock.patch.object(crates, 'TOP', Path(room)), mock.patch.object(
                    main.shutil, 'which', return_value='rt'
                ), mock.patch('sys.argv', ['build']), redirect_stderr(io.StringIO()) as err:
                    self.assertEqual(main.main(), 1)
                self.assertEqual(err.getvalue(), f'tools/build: crates.txt: {line}\n')


if __name__ == '__main__':
    unittest.main()
