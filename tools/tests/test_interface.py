"""The Python interface: sessions, checks and states, as functions and as objects."""

from __future__ import annotations

import functools
import json
import os
import re
import subprocess
import sys
import time
import unittest
from pathlib import Path
from typing import List
from unittest import mock

import crashfs_tools
from crashfs_tools import Refused, check, record, states
from crashfs_tools.api import crash_states
from crashfs_tools.api.checks import with_text_path
from crashfs_tools.checker.options import Options
from crashfs_tools.checker.running.recoveries import FunctionRecovery, cause_text

from . import data_store
from .data_store import recovery, session, synced_session
from .support import EXAMPLES, TOOLS, InFolder, needs_strace

STORE = EXAMPLES / 'store.trace'
CONFIG = EXAMPLES / 'config' / 'config.trace'
SENTENCE = (
    'line 6 (rename /config.new to /config) was not durable when line 7 acknowledged "version 1 is '
    'saved":'
)

DRAWINGS = re.compile(r'const windows = (\[\{.*\]);')
# Prints whether the recording is complete.
SCRIPT = '''
from crashfs_tools import record

def session(directory, acknowledge):
    (directory / 'a').write_text('x')
    acknowledge('said')

if __name__ == '__main__':
    print(record('store', session, 's.trace').is_complete)
'''

RIGHTS = '"owner":"u","group":"u","mode":"755"'
TWO_FILES = (
    f'{{"trace":3,"profile":"blocks","block":4096,{RIGHTS}}}\n'
    f'{{"op":"creat","path":"/a",{RIGHTS}}}\n{{"op":"creat","path":"/b",{RIGHTS}}}\n'
)


class Opening:
    """A recovery that is an object, and one that is its method."""

    def __call__(self, directory: Path, acknowledged: List[str]) -> None:
        """Accepts each state."""

    def reads(self, directory: Path, acknowledged: List[str]) -> None:
        """Accepts each state."""


class InterfaceCase(InFolder):
    def setUp(self) -> None:
        super().setUp()
        self.before = sorted(os.listdir(self.temporary))
        os.environ['TMPDIR'], earlier = self.temporary, os.environ.get('TMPDIR')
        import tempfile

        tempfile.tempdir = None
        self.addCleanup(setattr, tempfile, 'tempdir', None)
        self.addCleanup(
            lambda: os.environ.pop('TMPDIR')
            if earlier is None
            else os.environ.__setitem__('TMPDIR', earlier)
        )


class Names(unittest.TestCase):
    def test_all_public_names_are_there_and_no_other(self) -> None:
        self.assertEqual(list(crashfs_tools.PUBLIC), crashfs_tools.__all__)
        for name in crashfs_tools.__all__:
            self.assertTrue(callable(getattr(crashfs_tools, name)), name)
        with self.assertRaises(AttributeError):
            crashfs_tools.no_such_name  # type: ignore[attr-defined]  # it isn't there

    def test_the_types_are_for_others_too(self) -> None:
        self.assertTrue((TOOLS / 'crashfs_tools' / 'py.typed').exists())


def lost_version(directory: Path, acknowledged: List[str]) -> None:
    """What examples/config/check.sh looks for."""
    path = directory / 'config'
    found = path.read_text() if path.exists() else 'none'
    assert found.startswith('version='), f'corrupt: {found}'
    version = int(found.split('=')[1].split()[0])
    assert version >= len(acknowledged), 'lost: a version that was saved is not there'


class Checks(InterfaceCase):
    def test_a_function_and_a_command_have_the_same_report(self) -> None:
        by_function = check(CONFIG, lost_version)
        by_command = check(str(CONFIG), [str(EXAMPLES / 'config' / 'check.sh')], jobs=2)
        self.assertEqual(by_function.lines, by_command.lines)
        ran = self.run_tool(
            'crashfs-check', str(CONFIG), '--', str(EXAMPLES / 'config' / 'check.sh')
        )
        self.assertEqual(ran.stdout, f'{by_command}\n')
        self.assertEqual((by_command.status, ran.returncode), (1, 1))
        self.assert_nothing_left()

    def test_a_report_has_its_entries_states_and_lines(self) -> None:
        report = check(CONFIG, lost_version)
        (entry,) = report.entries
        self.assertEqual(entry.cause, 'lost: a version that was saved is not there')
        self.assertEqual(entry.text[0], SENTENCE)
        self.assertEqual(
            (entry.lost and entry.lost.number, entry.kept and entry.kept.number), (6, 7)
        )
        self.assertEqual(entry.syncs[6], '/')
        self.assertEqual(entry.profiles, {'blocks': entry.count, 'ordered': entry.count})
        self.assertEqual(report.profiles, ['blocks', 'ordered'])
        failing = {one.number for one in report.states if one.result == 'bad'}
        self.assertEqual(failing, set(entry.states))
        self.assertEqual(
            {one.cause for one in report.states if one.number in failing}, {entry.cause}
        )
        self.assertEqual(report.operations[6].text, 'rename /config.new to /config')
        self.assertEqual(report.failures, report.entries)

    def test_a_cause_is_the_text_of_an_assertion_or_an_exception_with_its_type(self) -> None:
        def raises(directory: Path, acknowledged: List[str]) -> None:
            try:
                lost_version(directory, acknowledged)
            except AssertionError as fault:
                raise LookupError(f'{fault}\nand more') from fault

        with self.assertRaisesRegex(Refused, 'the recovery fails in .*: ZeroDivisionError: div'):
            check(CONFIG, lambda directory, acknowledged: 1 / 0)
        report = check(CONFIG, raises)
        cause = 'LookupError: lost: a version that was saved is not there'
        self.assertEqual(report.entries[0].cause, cause)
        bad = next(one for one in report.states if one.result == 'bad')
        self.assertIn('Traceback', bad.output)

    def test_a_cause_is_neither_a_note_nor_a_line_of_a_script(self) -> None:
        noted = ValueError('no table\nat all')
        vars(noted)['__notes__'] = ['of the second store']
        self.assertEqual(cause_text(noted), 'ValueError: no table')
        wrong = SyntaxError('invalid syntax', ('script', 1, 1, 'x y', 1, 2))
        self.assertEqual(cause_text(wrong), 'SyntaxError: invalid syntax')
        self.assertEqual(cause_text(AssertionError()), 'AssertionError')

    def test_the_number_of_an_exit_has_the_bits_that_a_status_has(self) -> None:
        for number, result in ((1 << 40, 'good'), (1 << 40 | 7, 'bad')):
            report = check(
                STORE,
                lambda *_: sys.exit(number if '3' == os.environ['CRASHFS_STATE'] else 0),
                prefixes=True,
                jobs=1,
            )
            self.assertEqual({one.number: one.result for one in report.states}[3], result)

    def test_what_a_function_does_is_seen_by_no_later_call(self) -> None:
        seen: List[str] = []

        def counts(directory: Path, acknowledged: List[str]) -> None:
            seen.append(os.getcwd())
            (directory / 'more').write_text('x')
            assert len(seen) == 1, 'called before'
            assert os.getcwd() == str(directory) and os.environ['CRASHFS_SAYS'].isdigit()

        self.assertEqual(check(STORE, counts).status, 0)
        self.assertEqual(seen, [])
        self.assert_nothing_left()

    def test_a_function_that_hangs_gives_no_answer(self) -> None:
        def hangs(directory: Path, acknowledged: List[str]) -> None:
            if os.environ['CRASHFS_STATE'] == '3':
                time.sleep(600)

        report = check(STORE, hangs, timeout=5, prefixes=True)
        self.assertEqual(report.status, 3)
        self.assertEqual(report.entries[0].cause, 'it had not ended after 5 seconds')

    def test_a_callable_is_named_by_its_function_or_its_class(self) -> None:
        for named, name in (
            (recovery, 'data_store.recovery'),
            (functools.partial(functools.partial(recovery)), 'data_store.recovery'),
            (Opening(), 'test_interface.Opening'),
            (Opening().reads, 'test_interface.Opening.reads'),
        ):
            found = FunctionRecovery(with_text_path(named)).name
            self.assertEqual(found, f'{__package__}.{name}')

    def test_what_a_function_starts_can_be_ended_by_the_guard(self) -> None:
        outer = os.environ.get('CRASHFS_GUARD')

        def recovery_with_token(folder: str, lines: List[str]) -> None:
            assert os.environ['CRASHFS_GUARD'] != outer, 'the token of the check is missing'

        trace = str(EXAMPLES / 'config' / 'config.trace')
        report = check(trace, recovery_with_token, unproved=True, prefixes=True)
        self.assertEqual(report.entries, [])

    def test_children_of_the_caller_are_left_alone(self) -> None:
        child = os.spawnlp(os.P_NOWAIT, 'sleep', 'sleep', '600')
        try:
            check(STORE, ['true'])
            os.kill(child, 0)
            self.assertEqual(os.waitpid(child, os.WNOHANG), (0, 0))
        finally:
            os.kill(child, 9)
            os.waitpid(child, 0)

    def test_files_of_a_report_are_those_of_the_command(self) -> None:
        command = str(EXAMPLES / 'config' / 'check.sh')
        report = check(CONFIG, [command])
        report.write_json(self.path('r.json'))
        report.write_junit(self.path('r.xml'))
        report.write_tap(self.path('r.tap'))
        report.write_html(self.path('r.html'))
        fields = json.loads(self.read('r.json'))
        self.assertEqual(fields['groups'][0]['text'][0], SENTENCE)
        self.assertIn('<failure', self.read('r.xml'))
        self.assertIn(f'\n#   {SENTENCE}\n', self.read('r.tap'))
        words = ('--json', 'c.json', '--html', 'c.html', str(CONFIG), '--', command)
        self.run_tool('crashfs-check', *words)
        self.assertEqual(fields, json.loads(self.read('c.json')))
        drawings = [DRAWINGS.findall(self.read(name)) for name in ('r.html', 'c.html')]
        self.assertTrue(drawings[0])
        self.assertEqual(*drawings)
        merged = self.run_tool('crashfs-check', str(CONFIG), '--merge', 'r.json')
        self.assertEqual(merged.returncode, 1, merged.stderr)
        self.assertIn('12 fail: 12 lost\n', merged.stdout)

    def test_bad_input_is_refused(self) -> None:
        for words in (['/nowhere/command'], ['true']):
            with self.assertRaises(Refused):
                check(self.path('no.trace'), words)
        with self.assertRaisesRegex(Refused, 'a command'):
            check(STORE, lost_version, nested=1)
        for option in ('families', 'prefixes', 'quick'):
            with self.assertRaisesRegex(Refused, 'every goes with no families, prefixes or quick'):
                check(STORE, ['true'], every=5, **{option: True})
            with self.assertRaisesRegex(Refused, 'every goes with no families, prefixes or quick'):
                next(states(STORE, every=5, **{option: True}))


class States(InterfaceCase):
    def test_a_loop_over_states_finds_what_a_check_finds(self) -> None:
        failing, count = set(), 0
        for count, state in enumerate(states(CONFIG), 1):
            with state.laid_out() as directory:
                self.assertTrue(directory.is_dir())
                found = sorted(path.name for path in directory.iterdir())
                self.assertEqual(found, sorted(state.files()))
                for name, data in state.files().items():
                    self.assertEqual((directory / name).read_bytes(), data)
                try:
                    lost_version(directory, state.acknowledged)
                except AssertionError:
                    failing.add(state.number)
            self.assertFalse(directory.exists())
        report = check(CONFIG, [str(EXAMPLES / 'config' / 'check.sh')])
        self.assertEqual(count, 28)
        self.assertLessEqual(failing, set(report.entries[0].states))
        self.assertEqual(len(failing), report.entries[0].count)
        self.assert_nothing_left()

    def test_a_trace_that_can_not_be_read_is_refused(self) -> None:
        for path, why in ((self.path('no.trace'), 'No such file'), (self.folder, 'is no file')):
            with self.assertRaisesRegex(Refused, why):
                next(states(path))

    def test_a_loop_may_be_left_and_states_kept(self) -> None:
        kept = [state for _, state in zip(range(3), states(STORE))]
        with kept[1].laid_out() as directory:
            self.assertTrue(directory.is_dir())
        self.assert_nothing_left()

    def test_the_options_say_which_states(self) -> None:
        self.assertEqual(len(list(states(STORE, prefixes=True))), 10 + 2)
        trace = self.write('two.trace', TWO_FILES)
        self.assertEqual(
            [len(list(states(trace, profile=one))) for one in (None, 'ordered')], [4, 3]
        )

    def test_a_state_has_the_profiles_that_allow_it(self) -> None:
        trace = self.write('two.trace', TWO_FILES)
        found = {tuple(sorted(state.files())): state.profiles for state in states(trace)}
        both = ['blocks', 'ordered']
        self.assertEqual(found, {(): both, ('a',): both, ('a', 'b'): both, ('b',): ['blocks']})

    def test_a_state_of_two_windows_comes_once(self) -> None:
        whole = list(states(STORE, unproved=True))
        with mock.patch.object(crash_states, 'Options', functools.partial(Options, window=6)):
            found = list(states(STORE, unproved=True))
        self.assertGreater(found[-1].number, whole[-1].number)
        left = [sorted((str(it.tree), it.acknowledged) for it in each) for each in (found, whole)]
        self.assertEqual(*left)


@needs_strace
class Records(InterfaceCase):
    def test_a_session_that_is_a_function_is_recorded_and_checked(self) -> None:
        os.mkdir(self.path('store'))
        recording = record(self.path('store'), session, self.path('s.trace'))
        self.assertTrue(recording.is_complete, recording.messages)
        self.assertIn('2 acknowledged lines (descriptor 3)', recording.messages[-1])
        report = check(recording, recovery)
        (entry,) = report.failures
        self.assertIn('the directory / is never synced', ' '.join(entry.text))
        self.assertEqual(Path(self.path('store', 'config')).read_text(), 'version 2')

    def test_with_the_sync_none_fails(self) -> None:
        os.mkdir(self.path('store'))
        recording = record(self.path('store'), synced_session, self.path('s.trace'))
        self.assertEqual(check(recording, recovery).status, 0)

    def test_a_command_and_its_options(self) -> None:
        os.mkdir(self.path('store'))
        words = ['sh', '-c', 'echo a > a; echo b > b; echo said >&2']
        recording = record(
            self.path('store'), words, self.path('s.trace'), ignore=['b'], acknowledged=['2']
        )
        text = self.read('s.trace')
        self.assertTrue('"/a"' in text and '"/b"' not in text and '"said"' in text, text)
        self.assertTrue(recording.is_complete)

    def test_what_is_missing_is_reported(self) -> None:
        os.mkdir(self.path('store'))
        words = ['sh', '-c', 'echo a > a; echo "seen: crashfs-record: b" >&2']
        recording = record(self.path('store'), words, self.path('s.trace'))
        self.assertFalse(recording.is_complete)
        self.assertEqual(recording.messages[0], 'seen: crashfs-record: b')
        self.assertTrue(recording.messages[1].startswith('no line was acknowledged'))
        with self.assertRaisesRegex(Refused, 'nowhere'):
            record(self.path('nowhere'), ['true'], self.path('t.trace'))
        for callable_object in (
            lambda directory, acknowledge: None,
            functools.partial(session),
            self.run_python,
        ):
            with self.assertRaisesRegex(Refused, 'no function of a module'):
                record(self.path('store'), callable_object, self.path('t.trace'))

    def test_a_text_is_one_program(self) -> None:
        os.mkdir(self.path('store'))
        program = self.write('session.sh', '#!/bin/sh\necho a > a\necho said\n', 0o755)
        recording = record(self.path('store'), program, self.path('s.trace'), trace_version=4)
        self.assertTrue(recording.is_complete, recording.messages)
        self.assertTrue(self.read('s.trace').startswith('{"trace":4,'))

    def test_a_function_of_a_script_is_recorded(self) -> None:
        os.mkdir(self.path('store'))
        for name in ('script.py', 'script'):
            self.write(name, SCRIPT)
            ran = self.run_python(name)
            self.assertEqual((ran.stdout, ran.returncode), ('True\n', 0), ran.stderr)
            self.assertIn('"said"', self.read('s.trace'))

    def test_a_function_without_a_file_is_refused_before_anything_begins(self) -> None:
        os.mkdir(self.path('store'))
        ran = self.run_python('-c', SCRIPT)
        self.assertIn('Refused: session was not read from a file', ran.stderr)
        self.assertFalse(os.path.exists(self.path('s.trace')))

    def test_modules_next_to_it_are_found_from_python_c(self) -> None:
        """There the first place to look is the current directory, as an empty text."""
        os.mkdir(self.path('store'))
        self.write('constants.py', "TEXT = 'said'\n")
        self.write(
            'sessions.py',
            'from constants import TEXT\n'
            'def session(directory, acknowledge):\n'
            '    acknowledge(TEXT)\n',
        )
        call = "print(record('store', sessions.session, 's.trace').is_complete)"
        ran = self.run_python('-c', f'from crashfs_tools import record; import sessions; {call}')
        self.assertEqual((ran.stdout, ran.returncode), ('True\n', 0), ran.stderr)

    def run_python(self, *words: str) -> 'subprocess.CompletedProcess[str]':
        path = {**os.environ, 'PYTHONPATH': str(TOOLS)}
        line = [sys.executable, *words]
        return subprocess.run(
            line, cwd=self.folder, env=path, capture_output=True, text=True, check=False
        )

    def test_a_session_that_raises_is_reported(self) -> None:
        os.mkdir(self.path('store'))
        recording = record(self.path('store'), data_store.failing_session, self.path('s.trace'))
        self.assertFalse(recording.is_complete)
        self.assertIn('status 1', ' '.join(recording.messages))


if __name__ == '__main__':
    unittest.main()
