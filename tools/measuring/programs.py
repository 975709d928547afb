"""Benchmark programs that are built, how programs are run, and the tally of the rows that they
print."""

from __future__ import annotations

import os
import re
import subprocess
from dataclasses import dataclass, field
from pathlib import Path
from typing import List, Optional, Sequence

from building.crates import read_uses

VERDICT = re.compile(r', (within|past) \(at (?:most|least) ')


@dataclass
class Programs:
    """The programs of the repository at `top`. Each call looks for them again."""

    top: Path

    def path(self, name: str) -> str:
        """The path of a crate's program, which may not be built yet, or be older than its
        sources."""
        return str(self.top / 'crates' / name / 'out' / name)

    def is_built(self, name: str) -> bool:
        """Whether a crate's program is built, and may be executed."""
        return os.access(self.path(name), os.X_OK)

    def benchmark_names(self) -> List[str]:
        """The names of the benchmark programs, built or not, in the order of crates.txt: those of
        crates that end in `_bench` and are no library. Refused as in read_uses()."""
        crates = read_uses(self.top)
        return [name for name in crates if name.endswith('_bench') and self.is_program(name)]

    def is_program(self, name: str) -> bool:
        """Whether a crate is a program, and no library; false if there is no such crate."""
        return (self.top / 'crates' / name / 'src' / 'main.rt').exists()


@dataclass
class Tally:
    """Prints rows, and counts for the last line how many are within their bounds, which are past
    them, and which benchmarks lack a program or failed. `benchmark` is the one whose rows are
    printed now."""

    within_count: int = 0
    past_rows: List[str] = field(default_factory=list)
    not_built: List[str] = field(default_factory=list)
    failed: List[str] = field(default_factory=list)
    benchmark: str = ''

    def begin_benchmark(self, name: str) -> None:
        """Prints the head of a benchmark. Rows and failures that are added after this call, until
        the next one, are this benchmark's."""
        self.benchmark = name
        print(f'== {name}', flush=True)

    def add_not_built(self, name: str, programs: Sequence[str]) -> None:
        """Prints that a benchmark can't be measured since these programs aren't built. This doesn't
        change the status that print_summary() returns."""
        self.not_built.append(name)
        print(f'== {name}: not built: {", ".join(programs)}', flush=True)

    def add_failure(self, reason: str) -> None:
        """Prints that the benchmark of the last begin_benchmark() has failed, and why.
        print_summary() then returns 1, and names a benchmark once for each of its failures."""
        self.failed.append(self.benchmark)
        print(f'{self.benchmark} failed: {reason}', flush=True)

    def add_line(self, line: str) -> None:
        """Prints a line. If it is a row that says `within` or `past` of its bound, in the form of
        the programs, it is counted as such; other lines aren't counted."""
        print(line, flush=True)
        verdict = VERDICT.search(line)
        if verdict and verdict[1] == 'past':
            self.past_rows.append(f'{self.benchmark}: {line}')
        elif verdict:
            self.within_count += 1

    def add_figure(
        self, label: str, figure: float, unit: str, most: Optional[float] = None
    ) -> None:
        """Prints a row in the form of the programs: a figure with its unit. With a bound `most` the
        row also says whether the figure is within it, and is counted."""
        verdict = ''
        if most is not None:
            verdict = f', {"within" if figure <= most else "past"} (at most {most:g})'
        self.add_line(f'{label}: {figure:.3f} {unit}{verdict}')

    def run_program(self, words: List[str], processors: Optional[Sequence[int]] = None) -> None:
        """Runs a program on these processors, or on all, and adds each line that it prints, until
        it, and each process that shares its standard output, has ended, however long that takes. A
        status that isn't 0 is added as a failure. Errors as start_program()."""
        child = start_program(words, processors)
        assert child.stdout is not None
        with child.stdout:
            for line in child.stdout:
                self.add_line(line.rstrip('\n'))
        status = child.wait()
        if status != 0:
            self.add_failure(f'status {status}')

    def print_summary(self) -> int:
        """Prints the rows that are past their bounds, and a line with all counts. Returns the
        command's status: 1 if a row is past its bound or a benchmark failed, else 0, also if
        programs aren't built."""
        for row in self.past_rows:
            print(f'past: {row}')
        not_built = f'; not built: {", ".join(self.not_built)}' if self.not_built else ''
        failed = f'; failed: {", ".join(self.failed)}' if self.failed else ''
        print(f'{self.within_count} rows within, {len(self.past_rows)} past{not_built}{failed}')
        return 1 if self.past_rows or self.failed else 0


def start_program(
    words: List[str], processors: Optional[Sequence[int]] = None
) -> subprocess.Popen[str]:
    """Starts a program on these processors, or on all if none are named. Its standard output is a
    pipe, its standard input is empty, and standard error is this process's. The caller must close
    the pipe and wait for the program. OSError if it can't be started, SubprocessError if it may not
    use these processors."""

    def set_processors() -> None:
        if processors:
            os.sched_setaffinity(0, processors)

    return subprocess.Popen(
        words,
        stdin=subprocess.DEVNULL,
        stdout=subprocess.PIPE,
        text=True,
        preexec_fn=set_processors,
    )
