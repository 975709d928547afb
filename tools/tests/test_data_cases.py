"""The examples of data/cases: what the program prints, and what the second reading prints where it
has the command."""

from __future__ import annotations

import json
import re
import unittest
from functools import partialmethod
from typing import Iterator, List, Optional, Type

from crashfs_tools.common.program import Crashfs

from .case_file import CASES, Case, Check, bytes_of, cases_of
from .case_runs import Ran, Runner
from .case_trees import archived, lines_of, served_lines
from .support import InFolder, needed
from .wire_replies import answer_of
from .wire_words import message_of

PROGRAM = Crashfs.find(None)
needs_program = needed(PROGRAM is not None, 'crashfs is not built')
# The commands that the second reading has, by the names of checks.
READ_TOO = (
    *('list', 'picks', 'fault', 'no', 'states', 'firsts', 'state', 'pick', 'tar'),
    *('profiles', 'below'),
)
# Areas whose traces have a version that the program may not take yet.
VERSIONS = {'version_4': 4}
ANY_LINES = '...'


def pattern_of(lines: List[str]) -> str:
    """A pattern of these lines; `...` stands for any."""
    return ''.join('(?:.*\n)*' if line == ANY_LINES else re.escape(line) + '\n' for line in lines)


class Cases(InFolder):
    """The checks, by the first word of their name."""

    program: Optional[str] = None

    def setUp(self) -> None:
        super().setUp()
        self.runner = Runner(self.folder, self.program)

    def run_area(self, area: str) -> None:
        if not self.takes(VERSIONS.get(area, 1)):
            self.skipTest('the program reads no trace of this version')
        cases = cases_of(area)
        self.assertNotEqual(cases, [])
        for case in cases:
            for check in self.checks_of(case):
                with self.subTest(case.name, check=check.name):
                    getattr(self, 'check_' + check.name.split()[0])(check)

    def checks_of(self, case: Case) -> Iterator[Check]:
        for check in case.checks:
            if self.program is not None or check.name.split()[0] in READ_TOO:
                yield check

    def takes(self, version: int) -> bool:
        """Whether what is tested takes traces of a version."""
        header = (
            f'{{"trace":{version},"profile":"blocks","block":4096,'
            '"owner":"cat","group":"staff","mode":"775"}'
        )
        if self.program is None or version < 4:
            return True
        return self.runner.run(['list'], {'trace': header.encode()}).status == 0

    def assert_printed(self, printed: str, wanted: List[str]) -> None:
        if not re.fullmatch(pattern_of(wanted), printed):
            self.assertEqual(printed.splitlines(), wanted)

    def check_list(self, check: Check) -> None:
        self.assert_printed(self.runner.run(check.name.split(), check.given).text(), check.lines)

    check_picks = check_tar = check_list

    def check_profiles(self, check: Check) -> None:
        """In which profiles the state of a set may be left."""
        given = {**check.given, 'picks': check.name.partition(' ')[2].encode()}
        ran = self.runner.run(['list', '--json'], given)
        last = json.loads(ran.text().splitlines()[-1])
        self.assertEqual([' '.join(last['profiles'])], check.lines)

    def check_below(self, check: Check) -> None:
        """A command prints fewer bytes than a number."""
        most, *words = check.name.split()[1:]
        ran = self.runner.run(words, check.given)
        self.assertEqual((ran.status, ran.err), (0, b''))
        self.assertLess(len(ran.out), int(most))

    def check_states(self, check: Check) -> None:
        """How many states a trace has."""
        ran = self.runner.run(['list', *check.name.split()[1:]], check.given)
        self.assertEqual([str(len(re.findall('(?m)^state ', ran.text())))], check.lines)

    def check_firsts(self, check: Check) -> None:
        """For each state the first one with an equal tree."""
        ran = self.runner.run(['list', '--same', *check.name.split()[1:]], check.given)
        self.assertEqual(' '.join(re.findall('(?m) same (.*)$', ran.text())), check.lines[0])

    def check_fault(self, check: Check) -> None:
        """Each line, after the trace, has the fault; without a line the trace has it."""
        wanted = f'crashfs: {check.name.partition(" ")[2]}\n'
        for line in check.lines or ['']:
            self.assertEqual(self.listed_after(check, line).text(), wanted, line[:200])

    def check_no(self, check: Check) -> None:
        """No line, after the trace, has a fault."""
        for line in check.lines or ['']:
            self.assertEqual(self.listed_after(check, line).status, 0, line[:200])

    def listed_after(self, check: Check, line: str) -> Ran:
        trace = check.given.get('trace', b'')
        if line:
            trace += (b'\n' if trace else b'') + bytes_of(line)
        return self.runner.run(['list'], {**check.given, 'trace': trace})

    def check_state(self, check: Check) -> None:
        """The tree of a state of a number."""
        number, *words = check.name.split()[1:]
        self.assert_tree(check, int(number), words)

    def check_pick(self, check: Check) -> None:
        """The tree of a set of places."""
        given = {**check.given, 'picks': check.name.partition(' ')[2].encode()}
        ran = self.runner.run(['list'], given)
        if check.lines[:1] == ['crashfs: pick 0 not allowed']:
            self.assert_printed(ran.text(), check.lines)
        else:
            last = len(re.findall('(?m)^state ', ran.text())) - 1
            self.assert_tree(check._replace(given=given), last, [])

    def assert_tree(self, check: Check, number: int, words: List[str]) -> None:
        tree = archived(self.runner, [*words, '--state', str(number)], check.given)
        self.assertEqual(lines_of(tree), check.lines)
        if self.program is not None:
            served = served_lines(self.runner, tree, number, words, check.given)
            self.assertEqual(list(served), check.lines)

    def check_archive(self, check: Check) -> None:
        """How long an archive is, and what it has at some offsets."""
        ran = self.runner.run(['tar', *check.name.split()[1:]], check.given)
        self.assertEqual((ran.status, ran.err), (0, b''))
        (_, length), *parts = (line.split(' ', 1) for line in check.lines)
        self.assertEqual(str(len(ran.out)), length)
        for offset, text in parts:
            wanted = text.encode().replace(rb'\0', b'\0')
            self.assertEqual(ran.out[int(offset) :][: len(wanted)], wanted, offset)

    def check_script(self, check: Check) -> None:
        """Lines of standard input (<), of the output (>) and of standard error (!)."""
        given, out, err = (
            ''.join(line[2:] + '\n' for line in check.lines if line[0] == mark) for mark in '<>!'
        )
        ran = self.runner.run(check.name.split(), check.given, given[:-1].encode())
        if err.startswith('crashfs: '):
            self.assertEqual((ran.status, ran.text()), (1, err))
        else:
            printed = ran.status, ran.out.decode(), ran.err.decode()
            self.assertEqual(printed, (0, out, err))

    def check_dialogue(self, check: Check) -> None:
        """Messages in words with their replies. Named users are attached to `0/x` first."""
        wanted = [*joined(check.name.split()[1:]), *filter(None, check.lines)]
        asked = [line.split(' => ')[0] for line in wanted]
        printed = self.runner.replies([script_line(line) for line in asked], check.given)
        found = [f'{line} => {shown(line, it)}' for line, it in zip(asked, printed)]
        self.assertEqual(found, wanted)

    def check_messages(self, check: Check) -> None:
        """Bytes of messages, and what `--verbose` prints of them."""
        asked = [line.split(' => ') for line in check.lines]
        script = '\n'.join(f'0 7 {digits}' for digits, _ in asked)
        ran = self.runner.run(['script', '--verbose'], check.given, script.encode())
        found = re.findall('(?m)^0 <- (.*)$', ran.err.decode())
        self.assertEqual(found, [text for _, text in asked])


def joined(users: List[str]) -> Iterator[str]:
    """What begins a session for each user, on a connection of its own."""
    for conn, user in enumerate(users):
        yield f'{conn} version 8192 9P2000 => Rversion tag 1 msize 8192 version "9P2000"'
        yield f'{conn} attach 0 {user} 0/x => Rattach tag 1 qid (80 0 0)'


def script_line(line: str) -> str:
    conn, words = line.split(' ', 1)
    if conn == 'reload' or words == 'hangup':
        return f'{conn} {words}' if conn == 'reload' else f'{conn} 7 hangup'
    return f'{conn} 7 {message_of(words).hex()}'


def shown(line: str, printed: str) -> str:
    """What was printed for a line, as a dialogue has it."""
    conn, words = line.split(' ', 1)
    if conn == 'reload':
        return printed
    found, told = printed.split(' ', 1)
    assert found == conn.lstrip('0') or found == conn
    return told if told == 'closed' else answer_of(words, bytes.fromhex(told))


def areas() -> List[str]:
    return sorted(path.name for path in CASES.iterdir() if path.is_dir())


def with_areas(cls: Type[Cases]) -> Type[Cases]:
    """A test for each area, so that they run beside each other."""
    for area in areas():
        setattr(cls, f'test_{area}', partialmethod(Cases.run_area, area))
    return cls


@with_areas
class ByTheSecondReading(Cases):
    """Commands that the second reading has."""


@needs_program
@with_areas
class ByTheProgram(Cases):
    """All of them."""

    program = PROGRAM.path if PROGRAM is not None else None


class Files(unittest.TestCase):
    def test_each_example_says_what_it_shows_and_checks_something(self) -> None:
        for area in areas():
            for case in cases_of(area):
                with self.subTest(case.name):
                    self.assertRegex(case.shows, '[.]$')
                    self.assertNotEqual(case.checks, [])
                    for check in case.checks:
                        self.assertTrue(hasattr(Cases, 'check_' + check.name.split()[0]))


if __name__ == '__main__':
    unittest.main()
