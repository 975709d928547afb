"""What the program prints of random traces, and what the second reading does."""

from __future__ import annotations

import io
import unittest
from typing import Dict, Iterator, List, Sequence, Tuple

from crashfs_tools.common.archive import Member, read_members
from crashfs_tools.common.program import Crashfs
from crashfs_tools.reading import ReadingFault, parse_trace
from crashfs_tools.reading.every import count_sets
from crashfs_tools.reading.lines import PROFILES
from crashfs_tools.reading.order import Order

from .case_runs import Ran, Runner
from .random_traces import RandomTrace
from .support import EXAMPLE_TRACES, InFolder, needed

TRACES = 300
# The second reading takes long for the different sets of a trace that has more.
MOST_SETS = 3000
# Of so many states of a trace the archives are compared.
MOST_ARCHIVED = 30
COMMANDS = (
    ['list', '--holes', '--lines', '--same'],
    ['list', '--holes', '--json'],
    ['picks', '--lost'],
    ['picks', '--files'],
)
DIFFERENT = ['picks', '--every', '--different']
# In turn, from trace to trace, each with one of the profiles in turn.
OF_PROFILES: Sequence[List[str]] = (['picks', '--every'], DIFFERENT)
# In turn, from trace to trace.
ARCHIVES: Sequence[List[str]] = ([], ['--sparse'], ['--changes'], ['--changes', '--sparse'])

NEEDS_LOST = (
    '{"trace":3,"profile":"blocks","block":4096,"owner":"cat","group":"staff","mode":"775"}\n'
    """\
{"op":"creat","path":"/a","owner":"ann","group":"staff","mode":"644"}
{"op":"write","path":"/a","offset":0,"text":"aaaa"}
{"op":"write","path":"/a","offset":4,"text":"bb"}
{"op":"fsync_range","path":"/a","offset":4,"length":2}
{"op":"say","text":"1"}
{"op":"say","text":"2"}
"""
)
PROGRAM = Crashfs.find(None)
needs_program = needed(PROGRAM is not None, 'crashfs is not built')
needs_version_4 = needed(
    PROGRAM is not None and PROGRAM.can_read_version(4),
    'a crashfs that reads traces of version 4 is not there',
)


def texts_of(version: int) -> Iterator[Tuple[int, str]]:
    for seed in range(TRACES):
        yield seed, RandomTrace(version, seed).text()
    if version == 3:
        yield TRACES, NEEDS_LOST


def has_few_sets(text: str) -> bool:
    try:
        return count_sets(Order(parse_trace(text.encode()))) <= MOST_SETS
    except ReadingFault:
        return True


class BesideTheProgram(InFolder):
    def setUp(self) -> None:
        super().setUp()
        assert PROGRAM is not None
        self.program = Runner(self.folder, PROGRAM.path)
        self.reading = Runner(self.folder, None)

    def ran(self, words: List[str], text: str) -> Tuple[Ran, Ran]:
        given: Dict[str, bytes] = {'trace': text.encode()}
        return self.program.run(words, given), self.reading.run(words, given)

    def assert_printed_alike(self, words: List[str], text: str) -> None:
        program, reading = self.ran(words, text)
        self.assertEqual(program.text(), reading.text(), words)

    def assert_archived_alike(self, words: List[str], text: str) -> None:
        """Bytes of archives may differ: entries may not."""
        listed = self.reading.run(['list', '--holes'], {'trace': text.encode()})
        if listed.status != 0:
            return
        count = listed.text().count('state ')
        numbers = ','.join(map(str, range(0, count, 1 + count // MOST_ARCHIVED)))
        program, reading = self.ran(['tar', '--holes', *words, '--states', numbers], text)
        self.assertEqual(members_of(program), members_of(reading), words)

    def compare(self, version: int) -> None:
        for seed, text in texts_of(version):
            with self.subTest(version=version, seed=seed):
                for words in COMMANDS:
                    self.assert_printed_alike(words, text)
                few = has_few_sets(text)
                if version < 4 or few:
                    self.assert_printed_alike(DIFFERENT, text)
                if few:
                    words = OF_PROFILES[seed % len(OF_PROFILES)]
                    profile = PROFILES[seed % len(PROFILES)]
                    self.assert_printed_alike([*words, '--profile', profile], text)
                if version >= 4:
                    self.assert_archived_alike(ARCHIVES[seed % len(ARCHIVES)], text)

    @needs_program
    def test_random_traces_of_versions_1_and_2(self) -> None:
        for version in (1, 2):
            self.compare(version)

    @needs_program
    def test_random_traces_of_version_3(self) -> None:
        self.compare(3)

    @needs_version_4
    def test_random_traces_of_version_4(self) -> None:
        self.compare(4)

    @needs_program
    def test_the_sets_that_differ_in_the_examples(self) -> None:
        for path in EXAMPLE_TRACES:
            with self.subTest(trace=path.name):
                text = path.read_text('utf-8')
                self.assert_printed_alike(DIFFERENT, text)
                for profile in PROFILES:
                    self.assert_printed_alike([*DIFFERENT, '--profile', profile], text)


def members_of(ran: Ran) -> List[Member]:
    """The entries of the archive that a command wrote."""
    assert (ran.status, ran.err) == (0, b''), ran
    return list(read_members(io.BytesIO(ran.out)))


if __name__ == '__main__':
    unittest.main()
