"""The plugin, as pytest runs it: each entry is a failure, and without the option nothing runs."""

from __future__ import annotations

import json
import os
import re
import shutil
import subprocess
import unittest
from typing import Any
from xml.etree import ElementTree

from .support import PATIENCE, TOOLS, InFolder, needed, needs_strace

PYTEST = shutil.which('pytest')
needs_pytest = needed(PYTEST is not None, 'pytest is not installed')

# Two files of a store: the directory of the first is never synced, and the second itself isn't.
TESTS = """\
import os
import pytest

def save(directory, name, text, is_synced):
    new = directory / (name + '.new')
    new.write_text(text)
    if is_synced:
        with open(new) as file:
            os.fsync(file.fileno())
    os.rename(new, directory / name)

def session(directory, acknowledge):
    save(directory, 'config', 'version 1', True)
    save(directory, 'other', 'other', OTHER)
    if SYNCED:
        number = os.open(directory, os.O_RDONLY)
        os.fsync(number)
    print('no acknowledged line')
    acknowledge('version 1')

def recovery(directory, acknowledged):
    found = {path.name: path.read_text() for path in directory.iterdir()}
    assert found.get('other') in (None, 'other'), 'corrupt: the other file'
    assert not acknowledged or 'config' in found, 'lost: the last version'

def test_crash_states(crash_states):
    crash_states(session, recovery, jobs=2)

def test_without_it():
    pass
"""
REPORT = re.compile(r'^_+ (\S.*\S) _+$', re.M)


@needs_pytest
@needs_strace
class Plugin(InFolder):
    def run_pytest(self, *words: str, other: bool, synced: bool) -> Any:
        values = f'OTHER, SYNCED = {other}, {synced}\n'
        self.write('test_store.py', values + TESTS)
        plugin = ['-p', 'crashfs_tools.pytest_plugin', '-p', 'no:cacheprovider']
        environment = {**os.environ, **self.environment(None), 'PYTHONPATH': str(TOOLS)}
        return subprocess.run(
            [PYTEST or '', *plugin, *words],
            cwd=self.folder,
            env=environment,
            text=True,
            stdout=subprocess.PIPE,
            stderr=subprocess.STDOUT,
            timeout=PATIENCE,
        )

    def test_each_entry_is_a_failure_with_its_sentence(self) -> None:
        ran = self.run_pytest('--crash-states', '--junitxml=j.xml', other=False, synced=False)
        self.assertEqual(ran.returncode, 1, ran.stdout)
        self.assertIn('2 failed, 1 passed', ran.stdout)
        names = REPORT.findall(ran.stdout)
        self.assertEqual(names, ['test_crash_states', 'test_crash_states (2)'])
        text = ' '.join(ran.stdout.split())
        for sentence in (
            'was not durable when line 9 acknowledged "version 1":',
            'line 7 (write /other.new, 5 bytes at 0) was not durable when line 8',
            'fsync /other.new between them',
            'session.trace',
        ):
            self.assertIn(sentence, text)
        cases = ElementTree.parse(self.path('j.xml')).getroot().iter('failure')
        self.assertEqual(len(list(cases)), 2)

    def test_a_store_that_syncs_passes(self) -> None:
        ran = self.run_pytest('--crash-states', other=True, synced=True)
        self.assertEqual(ran.returncode, 0, ran.stdout)
        self.assertIn('2 passed', ran.stdout)

    def test_without_the_option_it_is_skipped(self) -> None:
        ran = self.run_pytest('-rs', other=False, synced=False)
        self.assertIn('1 passed, 1 skipped', ran.stdout)
        self.assertIn('needs --crash-states', ran.stdout)

    def test_known_failures_are_passed_on(self) -> None:
        lost = {'cause': 'lost: the last version', 'lost': 'rename /config.new to /config'}
        lost.update(kept='say', why='it is known')
        self.write('known.json', json.dumps([lost]))
        words = '--crash-states', '--crash-accept', 'known.json'
        ran = self.run_pytest(*words, other=True, synced=False)
        self.assertEqual(ran.returncode, 0, ran.stdout)
        self.write('known.json', json.dumps([{**lost, 'until': '2020-01-31'}]))
        ran = self.run_pytest(*words, other=True, synced=False)
        self.assertIn('1 failed, 1 passed', ran.stdout)
        self.assertIn('accepted until 2020-01-31: it is known (this day has passed)', ran.stdout)

    def test_a_recovery_that_is_too_strict_fails_with_a_line(self) -> None:
        ran = self.run_pytest('--crash-states', '-k', 'crash', other=True, synced=True)
        self.assertEqual(ran.returncode, 0, ran.stdout)
        strict = TESTS.replace("'lost: the last version'", "'lost'") + (
            '\ndef test_strict(crash_states):\n'
            "    crash_states(session, ['sh', '-c', 'echo never good; exit 1'])\n"
        )
        self.write('test_strict.py', 'OTHER = SYNCED = True\n' + strict)
        ran = self.run_pytest('--crash-states', '-k', 'strict', other=True, synced=True)
        self.assertIn("COMMAND fails in the tree at the session's end", ran.stdout)


if __name__ == '__main__':
    unittest.main()
