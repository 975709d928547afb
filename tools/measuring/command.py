"""Prints the rows of all benchmark programs that are built, and whether each is within its bound.

What isn't built is named, and nothing is built here. The rows of `serve_bench`, of `memory`, of
`states` (the time that `crashfs-check` takes for each) and of `sets` (how fast `crashfs picks`
finds allowed sets) need the program `crashfs`, too. Servers and their clients use half of the
processors each. The figures count only if nothing else runs.
Status 0: no row is past its bound, and no program failed.

Two commands have other options: `measure disks` compares crashes of real file systems with
crash states, and `measure stores` checks the sessions of examples/stores.
"""

from __future__ import annotations

import argparse
import sys
from pathlib import Path
from typing import Callable, List, NamedTuple, Optional

from crashfs_tools.common.command import Refused

from . import disks, stores
from .memory import add_memory_rows
from .programs import Programs, Tally
from .serving import add_serving_rows
from .sets import add_set_rows
from .states import add_state_rows

TOP = Path(__file__).resolve().parents[2]


class Benchmark(NamedTuple):
    """A benchmark: the programs that it needs, and the function that measures and prints its rows
    once these are built."""

    needed_programs: List[str]
    add_rows: Callable[[Programs, Tally], None]


# The benchmarks, by name, that need more than a program that prints its rows itself.
MEASURED = {
    'serve_bench': Benchmark(['serve_bench', 'crashfs'], add_serving_rows),
    'memory': Benchmark(['crashfs'], add_memory_rows),
    'states': Benchmark(['crashfs'], add_state_rows),
    'sets': Benchmark(['crashfs'], add_set_rows),
}


def parse_words(words: List[str]) -> argparse.Namespace:
    """The options that the words after `measure` give, of which the first is neither `disks` nor
    `stores`. Wrong words, with status 2, and --help end the program (SystemExit). Only main()
    checks that the names are of benchmarks."""
    parser = argparse.ArgumentParser(
        prog='measure', description=__doc__, formatter_class=argparse.RawDescriptionHelpFormatter
    )
    parser.add_argument(
        '--top', type=Path, default=TOP, metavar='DIR', help='the repository (this one)'
    )
    parser.add_argument(
        'names',
        nargs='*',
        metavar='NAME',
        help='a benchmark program, `memory`, `states` or `sets` (all)',
    )
    return parser.parse_args(words)


def benchmark_of_program(name: str) -> Benchmark:
    """The benchmark of a program that prints its rows itself, given by its name. By the word `time`
    each row has how long it took, and whether that is within its bound. Its add_rows raises OSError
    if the program can't be started."""

    def add_printed_rows(programs: Programs, tally: Tally) -> None:
        """Adds the rows that the program prints."""
        tally.run_program([programs.path(name), 'time'])

    return Benchmark([name], add_printed_rows)


def measure_benchmark(programs: Programs, name: str, tally: Tally) -> None:
    """Measures a benchmark, given by its name, and prints its rows, or which programs that it needs
    aren't built. Rows and failures are counted in the tally. OSError as benchmark_of_program(), if
    the benchmark isn't in MEASURED."""
    benchmark = MEASURED.get(name) or benchmark_of_program(name)
    not_built = [program for program in benchmark.needed_programs if not programs.is_built(program)]
    if not_built:
        tally.add_not_built(name, not_built)
        return
    tally.begin_benchmark(name)
    benchmark.add_rows(programs, tally)


def main(arguments: Optional[List[str]] = None) -> int:
    """Runs `measure` with these words, or with those of its command line if they are None. Returns
    the status: 1 if a row is past its bound, a program failed, or crates.txt is wrong; 2 if a name
    is unknown. After a wrong crates.txt or name, which is a line, nothing is measured. After
    `disks` or `stores` what their main() returns. Errors as measure_benchmark(), or as that
    main()."""
    words = sys.argv[1:] if arguments is None else arguments
    if words[:1] == ['disks']:
        return disks.main(words[1:])
    if words[:1] == ['stores']:
        return stores.main(words[1:])
    options = parse_words(words)
    programs = Programs(options.top)
    try:
        known_names = [*programs.benchmark_names(), 'memory', 'states', 'sets']
    except Refused as refused:
        print(f'measure: {refused}', file=sys.stderr)
        return 1
    unknown = [name for name in options.names if name not in known_names]
    if unknown:
        print(f'measure: {unknown[0]} is none of {", ".join(known_names)}', file=sys.stderr)
        return 2
    tally = Tally()
    for name in options.names or known_names:
        measure_benchmark(programs, name, tally)
    return tally.print_summary()
