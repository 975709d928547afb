"""The processor time of the provers that run below the gate, by crate and by kind."""

from __future__ import annotations

import os
import shutil
import signal
import subprocess
import sys
import threading
import unittest
from typing import List

from gating.provers import Kind, Prover, process_and_ancestors, kind_of_work, provers_below
from gating.times import Share, Shares, add_sample, sample_until_end, format_table

from .support import PATIENCE, TOOLS, InFolder


def prover(number: int, seconds: float, crate: str = 'a', kind: Kind = Kind.PROOF) -> Prover:
    return Prover(number, 10.0, seconds, 5_000_000, crate, kind)


def catches(process: int, number: int) -> bool:
    """Whether a process has a handler of its own for a signal."""
    with open(f'/proc/{process}/status', encoding='ascii') as file:
        (caught,) = (line.split()[1] for line in file if line.startswith('SigCgt:'))
    return bool(int(caught, 16) >> (number - 1) & 1)


class Sums(unittest.TestCase):
    def test_a_prover_is_of_the_kind_that_its_words_say(self) -> None:
        for words, folder, kind in (
            (['rattle', 'check'], '/x/crates/a', Kind.PROOF),
            (['rattle', 'check'], '/tmp/a', Kind.EDITS),
            (['rattle', 'build', '--test'], '/x/crates/a', Kind.TESTS),
            (['rattle', 'build', '--crate-checked'], '/x/crates/a', Kind.PROGRAMS),
        ):
            self.assertEqual(kind_of_work(words, folder), kind)

    def test_ancestors_end_where_no_more_are_known(self) -> None:
        self.assertEqual(list(process_and_ancestors(3, {3: 2, 2: 1, 1: 0})), [3, 2, 1])
        self.assertEqual(list(process_and_ancestors(4, {3: 2})), [])

    def test_the_table_sums_by_crate_and_the_largest_is_first(self) -> None:
        shares: Shares = {}
        add_sample(shares, [[prover(1, 2.0)], [prover(2, 1.0, 'b')]], 12.0)
        add_sample(
            shares, [[prover(1, 4.0), prover(3, 1.0)], [prover(4, 9.0, 'b', Kind.EDITS)]], 16.0
        )
        self.assertEqual(
            format_table(shares, 60.0).splitlines(),
            [
                'crate\tproof\ttests\tedits\tprograms\tall\tlongest wall\tmost MB',
                'b\t1\t0\t9\t0\t10\t6\t5',
                'a\t5\t0\t0\t0\t5\t6\t10',
                'all: 0 processor minutes in 1 minutes',
            ],
        )

    def test_a_prover_that_ends_keeps_what_it_had_taken(self) -> None:
        share = Share()
        for seconds in (3.0, 1.0):
            share.add_group([prover(1, seconds)], 12.0)
        self.assertEqual(list(share.seconds.values()), [3.0])


class Processes(InFolder):
    def start_prover(self, name: str) -> 'subprocess.Popen[bytes]':
        os.makedirs(self.path(name, 'crates'), exist_ok=True)
        program = self.write(f'{name}/rattle.py', 'import time; time.sleep(300)\n')
        words = [self.path(name, 'rattle'), program, '--crate-name', f'cs_{name}']
        child = subprocess.Popen(words, executable=sys.executable, cwd=self.path(name, 'crates'))
        self.addCleanup(child.wait)
        self.addCleanup(child.kill)
        return child

    def crates_below(self, process: int) -> List[str]:
        return [group[0].crate for group in provers_below(process)]

    def test_the_provers_below_a_process_are_found_and_no_others(self) -> None:
        child = self.start_prover('a')
        self.wait_until(lambda: self.crates_below(os.getpid()) == ['cs_a'], 'the prover')
        self.assertEqual(self.crates_below(child.pid), ['cs_a'])
        other = subprocess.Popen(['sleep', '300'])
        self.addCleanup(other.wait)
        self.addCleanup(other.kill)
        self.assertEqual(self.crates_below(other.pid), [])

    def test_the_name_of_another_process_may_be_cut_within_a_letter(self) -> None:
        self.start_prover('a')
        name = self.path('ä' * 8)
        os.symlink(shutil.which('sleep') or '', name)
        other = subprocess.Popen([name, '300'])
        self.addCleanup(other.wait)
        self.addCleanup(other.kill)
        self.wait_until(lambda: self.crates_below(os.getpid()) == ['cs_a'], 'the prover')
        with open(f'/proc/{other.pid}/comm', 'rb') as file, self.assertRaises(UnicodeDecodeError):
            file.read().decode()

    def test_it_ends_with_the_event_or_with_the_process(self) -> None:
        self.start_prover('a')
        has_ended = threading.Event()
        threading.Timer(0.3, has_ended.set).start()
        self.assertIn('\ncs_a\t', sample_until_end(os.getpid(), 0.05, has_ended))
        gone = subprocess.Popen(['true'])
        gone.wait()
        self.assertTrue(sample_until_end(gone.pid, 300.0, threading.Event()).startswith('crate\t'))

    def test_the_command_prints_its_table_when_it_is_ended(self) -> None:
        self.start_prover('a')
        child = subprocess.Popen(
            [sys.executable, str(TOOLS / 'gate-times'), '--every', '0.05', str(os.getpid())],
            stdout=subprocess.PIPE,
            text=True,
        )
        self.wait_until(lambda: catches(child.pid, signal.SIGTERM), 'it listens to signals', child)
        child.send_signal(signal.SIGTERM)
        out, _ = child.communicate(timeout=PATIENCE)
        self.assertEqual(child.returncode, 0)
        self.assertIn('processor minutes', out)


if __name__ == '__main__':
    unittest.main()
