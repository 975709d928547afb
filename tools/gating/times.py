"""The command gate-times: sums the processor time of the provers below a process."""

from __future__ import annotations

import argparse
import signal
import sys
import threading
import time
from collections import defaultdict
from dataclasses import dataclass, field
from pathlib import Path
from typing import Dict, List, Optional, Tuple

from .provers import Kind, Prover, provers_below

ABOUT = """\
Samples the provers below a process until it gets SIGTERM or SIGINT, or the process ends, and prints
the processor time of each crate, by kind: proof, tests, must-fail edits, programs.

It runs beside the gate and has no part in its verdict. It reads /proc, so it needs Linux. What a
prover takes between the last sample and its end is missed, so the sums are a little low."""


@dataclass
class Share:
    """What the provers of one crate and kind took: the processor seconds and the wall seconds of
    each group, by the number and the start time of its first prover, and the most memory of a group
    at a time, in bytes."""

    seconds: Dict[Tuple[int, float], float] = field(default_factory=dict)
    wall_seconds: Dict[Tuple[int, float], float] = field(default_factory=dict)
    memory: int = 0

    def add_group(self, group: List[Prover], now: float) -> None:
        """Adds a sample of a group, a prover and those that it started, at the time `now`, in
        seconds since the system began. The sample replaces an earlier one of the group, but the
        processor seconds never fall: those of an ended process are missing until the prover has
        waited for it. IndexError for an empty group."""
        first_prover = group[0]
        key = first_prover.number, first_prover.start_time
        seconds = sum(prover.seconds for prover in group)
        self.seconds[key] = max(seconds, self.seconds.get(key, 0))
        self.wall_seconds[key] = now - first_prover.start_time
        self.memory = max(self.memory, sum(prover.memory for prover in group))


# By crate and kind.
Shares = Dict[Tuple[str, Kind], Share]


def add_sample(shares: Shares, groups: List[List[Prover]], now: float) -> None:
    """Adds a sample of all groups of running provers to `shares`: each group to the share of the
    crate and the kind of its first prover. `now` is as in Share.add_group(), and no group may be
    empty."""
    for group in groups:
        shares.setdefault((group[0].crate, group[0].kind), Share()).add_group(group, now)


def crate_row(crate: str, shares: Shares) -> List[str]:
    """A crate's row of the table: processor seconds by kind, their sum, the wall seconds of the
    group that ran longest, and the most megabytes that a group had. ValueError if `shares` has
    nothing of the crate."""
    crate_shares = {kind: share for (name, kind), share in shares.items() if name == crate}
    seconds = [
        sum(crate_shares[kind].seconds.values()) if kind in crate_shares else 0.0 for kind in Kind
    ]
    longest_wall = max(
        wall for share in crate_shares.values() for wall in share.wall_seconds.values()
    )
    megabytes = max(share.memory for share in crate_shares.values()) // 1_000_000
    times = [*seconds, sum(seconds), longest_wall]
    return [crate, *(f'{time_taken:.0f}' for time_taken in times), str(megabytes)]


def format_table(shares: Shares, wall_seconds: float) -> str:
    """The table, with tabs between its columns: their names, a line for each crate, those with the
    most processor seconds first, and a line with the sum and with `wall_seconds`, for how long
    samples were taken."""
    seconds_by_crate: Dict[str, float] = defaultdict(float)
    for (crate, _), share in shares.items():
        seconds_by_crate[crate] += sum(share.seconds.values())
    kinds = [kind.value for kind in Kind]
    rows = [['crate', *kinds, 'all', 'longest wall', 'most MB']]
    crates = sorted(seconds_by_crate, key=lambda crate: -seconds_by_crate[crate])
    rows += [crate_row(crate, shares) for crate in crates]
    minutes = sum(seconds_by_crate.values()) / 60
    rows.append([f'all: {minutes:.0f} processor minutes in {wall_seconds / 60:.0f} minutes'])
    return ''.join('\t'.join(row) + '\n' for row in rows)


def is_running(process: int) -> bool:
    """Whether there is a process of this number; False without /proc."""
    return Path(f'/proc/{process}').exists()


def sample_until_end(process: int, pause_seconds: float, stop_event: threading.Event) -> str:
    """Takes a sample at once and after each pause, until stop_event is set or the process of this
    number has ended, and returns the table. The table has no crates if there is no such process, or
    no /proc. A pause of 0 or less is none."""
    shares: Shares = {}
    start_time = time.monotonic()
    while is_running(process):
        add_sample(shares, provers_below(process), time.clock_gettime(time.CLOCK_BOOTTIME))
        if stop_event.wait(pause_seconds):
            break
    return format_table(shares, time.monotonic() - start_time)


def main(words: Optional[List[str]] = None) -> int:
    """Runs gate-times with these words, or with those of its command line if they are None, until
    the process ends or SIGTERM or SIGINT comes. Returns 0, also if there is no such process. The
    two signals don't end this process afterwards either. A wrong word and --help end the program
    (SystemExit)."""
    parser = argparse.ArgumentParser(
        prog='gate-times', description=ABOUT, formatter_class=argparse.RawDescriptionHelpFormatter
    )
    parser.add_argument(
        '--every', type=float, default=1.0, metavar='SECONDS', help='how often it samples (1)'
    )
    parser.add_argument('process', type=int, metavar='PROCESS', help='the number of the process')
    options = parser.parse_args(words)
    stop_event = threading.Event()
    for signal_number in (signal.SIGTERM, signal.SIGINT):
        signal.signal(signal_number, lambda *_: stop_event.set())
    sys.stdout.write(sample_until_end(options.process, options.every, stop_event))
    return 0
