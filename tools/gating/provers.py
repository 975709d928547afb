"""The processes that prove crates, as proc(5) has them."""

from __future__ import annotations

import os
from collections import defaultdict
from dataclasses import dataclass
from enum import Enum
from pathlib import Path
from typing import Dict, Iterator, List, Optional

from crashfs_tools.common.descendants import all_processes, parent_process, read_process_stat

# Clock ticks in a second, and bytes in a page, as the system counts them.
TICKS = os.sysconf('SC_CLK_TCK')
PAGE = os.sysconf('SC_PAGE_SIZE')


class Kind(Enum):
    """What a prover works on, in the order of the columns of gate-times, with their names."""

    PROOF = 'proof'
    TESTS = 'tests'
    EDITS = 'edits'
    PROGRAMS = 'programs'


@dataclass(frozen=True)
class Prover:
    """A process that proves: its number, when it began, in seconds after the system did, how many
    processor seconds it and its ended children took, its memory in bytes, its crate, and what it
    works on."""

    number: int
    start_time: float
    seconds: float
    memory: int
    crate: str
    kind: Kind


def kind_of_work(words: List[str], folder: str) -> Kind:
    """What a prover with these words of its command line works on in a folder. A must-fail edit is
    tried in a copy of its crate, outside a folder `crates`."""
    if '--test' in words:
        return Kind.TESTS
    if '--crate-checked' in words:
        return Kind.PROGRAMS
    if words[1:2] == ['check'] and '/crates/' not in folder:
        return Kind.EDITS
    return Kind.PROOF


def read_prover(number: int) -> Optional[Prover]:
    """The process of this number as a prover, as it is now. None if the process is no prover of a
    crate, has ended, or may not be read."""
    try:
        words = Path(f'/proc/{number}/cmdline').read_bytes().decode(errors='replace').split('\0')
        if not words[0].endswith('/rattle') or '--crate-name' not in words:
            return None
        folder = os.readlink(f'/proc/{number}/cwd')
        stat = read_process_stat(number)
    except OSError:
        return None
    return Prover(
        number=number,
        start_time=stat.start_ticks / TICKS,
        seconds=stat.processor_ticks / TICKS,
        memory=stat.memory_pages * PAGE,
        crate=words[words.index('--crate-name') + 1],
        kind=kind_of_work(words, folder),
    )


def process_and_ancestors(number: int, parents: Dict[int, int]) -> Iterator[int]:
    """A process, then its parent, and so on upwards. `parents` has the parent of each known
    process: the iterator ends before the first unknown one."""
    while number in parents:
        yield number
        number = parents[number]


def provers_below(top: int) -> List[List[Prover]]:
    """The provers among the process `top` and those below it, in groups: first a prover that no
    other prover started, then those below it. If a process ends meanwhile, it is left out, and
    perhaps those that it started. Empty if there is no prover, or if `top` has ended; OSError
    without /proc."""
    processes = list(all_processes())
    parents = {process: parent_process(process) for process in processes}
    running_provers = {prover.number: prover for prover in map(read_prover, processes) if prover}
    groups: Dict[int, List[Prover]] = defaultdict(list)
    for prover in running_provers.values():
        lineage = list(process_and_ancestors(prover.number, parents))
        if top in lineage:
            first_number = [number for number in lineage if number in running_provers][-1]
            groups[first_number].append(prover)
    return [
        sorted(group, key=lambda prover: prover.number != first_number)
        for first_number, group in groups.items()
    ]
