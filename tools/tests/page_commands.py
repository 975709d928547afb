"""The commands of the pages: where they are, and why some of them are run by no test."""

from __future__ import annotations

import re
from pathlib import Path
from typing import Dict, List, Tuple

from .support import TOOLS

TOP = TOOLS.parent
PAGES = [TOP / name for name in ('README.md', 'SECURITY.md')]
PAGES += sorted((TOP / 'docs').rglob('*.md')) + sorted((TOP / 'helpers').glob('*/README.md'))
BLOCK = re.compile(r'(?<=\n\n)(?:    .*\n|\n+(?=    ))+')
FENCE = re.compile(r'^```.*?^```$', re.M | re.S)
FIRST_WORD = re.compile(
    r'(?:\$ )?(?:tools/[\w-]+|crashfs[\w-]*|rt|apt-get|array=\S+|cargo|cd|\(cd|export|g\+\+|git|'
    r'go|ls|man|mkdir|mount|PATH=\S+|pip|pipx|python3|rm|sbatch|sleep|sqlite3|strace|sudo|tar|'
    r'truncate|/usr/bin/time|#!/bin/sh)'
    r'(?=\s|$)'
)
# A synopsis, and not a command.
SYNOPSIS = re.compile(r'\[OPTION\]|TRACE --|TRACE\]')
# Pages whose commands other tests run, one after the other: see there.
ELSEWHERE = {
    'docs/TUTORIAL.md': 'test_tutorial.py',
    'helpers/cpp/README.md': 'test_testing_page.py',
    'helpers/go/README.md': 'test_testing_page.py',
    'helpers/rust/README.md': 'test_testing_page.py',
}
# Commands that no test runs, with the reason. A key is the beginning of a command.
NOT_RUN = {
    'README.md': {
        'apt-get install git python3 strace': 'it needs root and a network',
        'tools/test': 'it runs these tests',
        'tools/build': 'it needs the toolchain, and 200 minutes of processor time',
    },
    'docs/CONTRIBUTING.md': {
        'python3 -m unittest': 'they run tests, these too',
        '(cd crates/crashfs && rt try': 'it needs the toolchain; the gate builds the program',
    },
    'docs/DISKS.md': {
        'sudo tools/measure disks': 'it needs root and hours; test_measure_disks.py runs its parts',
        'truncate -s 120M image': 'it needs root and btrfs, and shows what one kernel did',
        'printf': 'the same',
        'truncate -s 0 disk': 'the same',
        'touch disk/other': 'the same',
        'cp --sparse=always image': 'the same',
        'cat disk/': 'the same',
    },
    'docs/how-to/ci.md': {
        'crashfs-campaign --time-limit 3600': 'it takes an hour; test_examples.py has two sessions',
        'array=$(sbatch': 'it needs Slurm; the parts are run here, one after the other',
        'sbatch --dependency': 'the same',
    },
    'docs/how-to/mount.md': {
        'sleep infinity | crashfs serve': 'it needs the proved program; test_serving.py runs it',
        'mount -t 9p': 'it needs root and a kernel with 9P; test_mounts.py has a substitute',
        'ls -l /mnt': 'the same',
        'crashfs-check --serve': 'the same',
    },
    'docs/how-to/record.md': {
        'apt-get install strace sqlite3': 'it needs root and a network',
        'tools/crashfs-check full.trace': 'test_examples.py runs it',
        'tools/crashfs-check extra.trace': 'test_examples.py runs an eighth of it',
    },
    'docs/how-to/testing.md': {
        'pip install': 'it needs a network; test_pytest_plugin.py uses the plugin of the clone',
        '#!/bin/sh -e': 'test_testing_page.py runs it',
    },
    'docs/internals/BENCHMARKS.md': {
        'tools/measure': 'it needs programs that the toolchain builds; test_measure.py',
        '/usr/bin/time': 'the same',
    },
    'docs/reference/crashfs-check.md': {
        'crashfs-check --disks': 'it needs root and loop devices; test_disks_check.py',
    },
}


def name_of(page: Path) -> str:
    return str(page.relative_to(TOP))


def blocks_of(page: Path) -> List[str]:
    """The indented blocks of a page, without their indentation."""
    text = FENCE.sub('', page.read_text('utf-8'))
    return [re.sub('^    ', '', one, flags=re.M).strip('\n') for one in BLOCK.findall(text)]


def is_of_commands(block: str) -> bool:
    return bool(FIRST_WORD.match(block)) and not SYNOPSIS.search(block.splitlines()[0])


def command_blocks(page: Path) -> List[List[str]]:
    """The commands of each block of a page. One that continues on the next line, or a whole script,
    is one command; comments after a command are left out."""
    found = []
    for block in filter(is_of_commands, blocks_of(page)):
        if block.startswith('#!'):
            script, _, rest = block.partition('\n\n')
            found.append([script, *rest.splitlines()])
        else:
            lines = re.sub(r'\\\n\s*', '', block).splitlines()
            found.append([re.split(r'  +#|   +', line)[0] for line in lines if line.strip()])
    return found


def all_commands() -> Dict[str, List[str]]:
    """The commands of each page that has some, and whose commands no other test runs."""
    found = {
        name_of(page): [one for block in command_blocks(page) for one in block] for page in PAGES
    }
    return {name: them for name, them in found.items() if them and name not in ELSEWHERE}


def reason(page: str, command: str) -> str:
    """Why a command of a page is not run; nothing if it is."""
    known: List[Tuple[str, str]] = list(NOT_RUN.get(page, {}).items())
    return next((why for begin, why in known if command.startswith(begin)), '')
