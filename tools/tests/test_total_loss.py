"""The question of a check whose COMMAND passes where the whole session is lost."""

from __future__ import annotations

import os
import unittest
from typing import List

from crashfs_tools import check

from .support import FAKE, InFolder

RIGHTS = '"owner":"u","group":"u","mode":"755"'
HEADER = f'{{"trace":3,"profile":"blocks","block":4096,{RIGHTS}}}\n'
KEPT = f'{{"start":"file","path":"/kept",{RIGHTS},"text":"1"}}\n'
CREAT = f'{{"op":"creat","path":"/new",{RIGHTS}}}\n'
SYNC = '{"op":"fsync","path":"/"}\n'
SAY = '{"op":"say","text":"new is stored"}\n'
STORED = CREAT + SYNC + SAY + SAY
QUESTION = '  COMMAND passes even if the whole session is lost: does it look'
# Looks for what was acknowledged, by its number and by its text.
LOOKS = 'test "$CRASHFS_SAYS" = 0 || test -e new'
READS = '! grep -q stored || test -e new'


class Asked(InFolder):
    def check(self, text: str, *words: str, command: str = 'true', status: int = 0) -> List[str]:
        """The lines of the report, without the first one; each run of COMMAND is counted."""
        trace = self.write('t.trace', HEADER + text)
        self.write('runs', '')
        script = f'echo "$CRASHFS_STATE $CRASHFS_SAYS" >> {self.path("runs")}; {command}'
        ran = self.run_tool(
            *('crashfs-check', '--crashfs', FAKE, '--jobs', '1', *words, trace),
            *('--', 'sh', '-c', script),
        )
        self.assertEqual((ran.returncode, ran.stderr), (status, ''), ran.stdout)
        return ran.stdout.splitlines()[1:]

    def runs(self) -> List[str]:
        return self.read('runs').splitlines()

    def test_a_command_that_looks_for_nothing_is_asked_whether_it_does(self) -> None:
        self.assertEqual(self.check(STORED), [f'{QUESTION} for what was acknowledged?'])
        self.assertEqual(self.runs()[-1], '0 2')

    def test_if_files_were_there_before_that_is_asked_too(self) -> None:
        self.assertEqual(self.check(KEPT + STORED), [f'{QUESTION}, or was all there before?'])
        # What `new` has was there before: a command that looks for it can't notice a loss.
        before = KEPT.replace('/kept', '/old') + CREAT.replace('/new', '/other') + SYNC + SAY
        command = 'test "$CRASHFS_SAYS" = 0 || test -e old'
        asked = self.check(before, command=command)
        self.assertEqual(asked, [f'{QUESTION}, or was all there before?'])

    def test_a_command_that_looks_is_not_asked(self) -> None:
        for command in (LOOKS, READS):
            with self.subTest(command):
                self.assertEqual(self.check(STORED, command=command), [])
                self.assertEqual(self.check(KEPT + STORED, command=command), [])

    def test_a_command_that_fails_somewhere_is_not_asked(self) -> None:
        command = 'test ! -e new || test "$CRASHFS_SAYS" != 0 || { echo early: new; exit 1; }'
        lines = self.check(STORED, command=command, status=1)
        self.assertNotIn('whole session', ''.join(lines))
        self.assertNotIn('0 2', self.runs())

    def test_without_acknowledged_lines_nothing_more_is_run(self) -> None:
        self.assertEqual(self.check(CREAT + SYNC), [])
        self.assertEqual(len(self.runs()), len(set(self.runs())))

    def test_a_shard_does_not_ask(self) -> None:
        self.assertEqual(self.check(STORED, '--shard', '1/2'), [])
        self.assertNotIn('0 2', self.runs())

    def test_no_answer_is_no_pass(self) -> None:
        command = 'test "$CRASHFS_STATE $CRASHFS_SAYS" != "0 2" || sleep 9'
        self.assertEqual(self.check(STORED, '--timeout', '0.5', command=command), [])

    def test_the_first_window_asks_for_the_whole_session(self) -> None:
        text = ''.join(
            CREAT.replace('new', f'{number}') + SYNC + SAY.replace('new', f'{number}')
            for number in range(6)
        )
        (asked,) = self.check(text, '--window', '4', '--prefixes')
        self.assertEqual(asked, f'{QUESTION} for what was acknowledged?')
        self.assertIn('0 6', self.runs())
        bad = 'test "$CRASHFS_SAYS" != 5 || test ! -e 5 || { echo bad: 5; exit 1; }'
        lines = self.check(text, '--window', '4', '--prefixes', command=bad, status=1)
        self.assertNotIn('whole session', ''.join(lines))

    def test_the_page_asks_too_and_a_cache_keeps_the_outcome(self) -> None:
        cached = self.check(STORED, '--cache', self.path('cache'), '--html', self.path('p.html'))
        self.assertEqual(cached, [f'{QUESTION} for what was acknowledged?'])
        self.assertIn(QUESTION.strip(), self.read('p.html'))
        again = self.check(STORED, '--cache', self.path('cache'))
        self.assertEqual(again[0], cached[0])
        self.assertEqual(self.runs(), [])

    def test_a_function_is_asked_as_a_recovery(self) -> None:
        trace = self.write('t.trace', HEADER + STORED)
        report = check(trace, looks_for_nothing, crashfs=FAKE)
        question = QUESTION.replace('COMMAND', 'the recovery') + ' for what was acknowledged?'
        self.assertEqual(str(report).splitlines()[1:], [question])
        self.assertEqual(len(str(check(trace, looks_for_new, crashfs=FAKE)).splitlines()), 1)


def looks_for_nothing(_directory: object, _acknowledged: List[str]) -> None:
    """Accepts each state."""


def looks_for_new(directory: object, acknowledged: List[str]) -> None:
    """Refuses a state without what was acknowledged."""
    assert not acknowledged or os.path.exists(f'{directory}/new')


if __name__ == '__main__':
    unittest.main()
