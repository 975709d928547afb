"""The merge gate with a faked `rt`: its status, its last lines, and the logs a release takes."""

from __future__ import annotations

import glob
import os
import re
import shutil
import signal
import subprocess
import sys
import unittest
from typing import Dict, List

from gating import turns
from gating.suite import QUICK
from gating.verdict import COUNTS, counts_of_passed_gate, parse_verdict

from .support import PATIENCE, TOOLS, InFolder, needed

TOP = TOOLS.parent
KIT = 'kit-1 logic ab'
# Names of crates, each with one edit.
SIX = ('one', 'two', 'three', 'four', 'five', 'six')
RT = """\
#!/bin/sh
if [ "$1" = version ]; then
    echo 'kit-1 logic ab'
    exit
fi
test "$*" = ci || exit 9
ls -d crates/*/must-fail/*.edit 2>/dev/null
echo "$(ls -d .git/edits.*/*/must-fail/*.edit 2>/dev/null | wc -l) edits are aside"
[ -z "$FAKE_SIGNAL" ] || kill -s "$FAKE_SIGNAL" "$PPID"
[ -z "$FAKE_CHECKOUT" ] || git checkout --quiet crates
mkdir -p crates/crashfs/out
[ "$FAKE_BUILDS" = no ] || touch crates/crashfs/out/crashfs
echo 'cs_names proved'
# What runs beside it gets the time to begin.
sleep 0.5
[ -z "$FAKE_COUNTS" ] || echo "$FAKE_COUNTS"
exit "$FAKE_STATUS"
"""
# A tool that fails if the test says so, and else does as little as it can.
TOOL = """\
#!/bin/sh
echo "{0}: ran"
exit "${{FAKE_{1}:-0}}"
"""
QUICK_TESTS = """\
import os, unittest

class Quick(unittest.TestCase):
    def test_it(self):
        self.assertNotEqual(os.environ.get('FAKE_SUITE'), 'fails early')
"""
TESTS = """\
import os, unittest

class Sample(unittest.TestCase):
    def test_it(self):
        self.assertNotEqual(os.environ.get('FAKE_SUITE'), 'fails')

    def test_the_program(self):
        if os.environ.get('FAKE_SUITE') == 'skips':
            self.skipTest('crashfs is not built')
        if os.environ['PATH'].startswith(os.getcwd()[:-len('tools')] + 'crates/crashfs/out:'):
            print('on the program of this commit')

    def test_strace(self):
        self.skipTest('strace is not there')
"""

needs_git = needed(shutil.which('git') is not None, 'git is not there')


def log_with(**changed: str) -> str:
    """What a gate prints, with other last lines."""
    fields = {'commit': 'c0ffee', 'tree': 'clean', 'toolchain': KIT, 'edits': 'all'}
    fields.update({'lint': '8 passed', "tools' tests": '3 run', 'status': '0', **changed})
    counts = fields.pop('counts', '9 passed, 0 failed')
    return '\n'.join(['rt: ok', *(f'{name}: {fields[name]}' for name in fields), counts, ''])


@needs_git
class QuickTests(unittest.TestCase):
    def test_each_quick_module_is_there(self) -> None:
        there = {path.stem for path in (TOOLS / 'tests').glob('test_*.py')}
        self.assertEqual({f'test_{name}' for name in QUICK} - there, set())


class Gate(InFolder):
    def setUp(self) -> None:
        super().setUp()
        for name in ('repo/.ci', 'repo/tools/tests', 'repo/tools/gating', 'bin'):
            os.makedirs(self.path(name))
        self.gate = self.write('repo/.ci/run', (TOP / '.ci' / 'run').read_text('utf-8'), 0o755)
        self.write('bin/rt', RT, 0o755)
        for name in ('lint', 'gate-times', 'build'):
            self.write(
                f'repo/tools/{name}', TOOL.format(name, re.sub('-', '_', name).upper()), 0o755
            )
        for name in ('__init__', 'modules', 'suite', 'turns'):
            shutil.copy2(TOOLS / 'gating' / f'{name}.py', self.path(f'repo/tools/gating/{name}.py'))
        self.write('repo/tools/tests/__init__.py', '')
        self.write('repo/tools/tests/test_sample.py', TESTS)
        self.write(f'repo/tools/tests/test_{QUICK[0]}.py', QUICK_TESTS)
        self.write('repo/.gitignore', 'out/\n__pycache__/\n')
        self.git('init', '--quiet')
        self.git('add', '.')
        self.git('-c', 'user.name=a', '-c', 'user.email=a@b', 'commit', '--quiet', '-m', 'All')

    def git(self, *words: str) -> str:
        ran = subprocess.run(
            ['git', *words], cwd=self.path('repo'), check=True, capture_output=True, text=True
        )
        return ran.stdout.strip()

    def run_gate(self, *options: str, **fakes: str) -> 'subprocess.CompletedProcess[str]':
        """Runs the gate with these options; each fake says how one part of it goes."""
        asked: Dict[str, str] = {'STATUS': '0', 'COUNTS': '9 passed, 0 failed', **fakes}
        folders = [self.path('bin'), os.path.dirname(sys.executable), os.environ['PATH']]
        return subprocess.run(
            [self.gate, *options],
            env={
                **os.environ,
                'PATH': ':'.join(folders),
                'TMPDIR': self.temporary,
                **{f'FAKE_{name}': value for name, value in asked.items()},
            },
            stdout=subprocess.PIPE,
            stderr=subprocess.STDOUT,
            text=True,
            timeout=PATIENCE,
        )

    def assert_verdict(self, status: int, counts: str, **fakes: str) -> List[str]:
        """Runs the gate, which must end so; returns what it printed."""
        ran = self.run_gate(**fakes)
        lines = ran.stdout.splitlines()
        self.assertEqual((ran.returncode, lines[-1]), (status, counts), ran.stdout)
        self.assertEqual(parse_verdict(ran.stdout).status, str(status))
        self.assert_nothing_left()
        return lines

    def test_a_gate_that_passes_ends_with_its_commit_and_its_counts(self) -> None:
        lines = self.assert_verdict(0, '9 passed, 0 failed')
        self.assertEqual(
            lines[-8:],
            [
                f'commit: {self.git("rev-parse", "HEAD")}',
                'tree: clean',
                f'toolchain: {KIT}',
                'edits: 0 of 0, those of 0 of 0 crates',
                'lint: ran',
                "tools' tests: 4 run, 0 failed, 1 skipped (1: strace is not there)",
                'status: 0',
                '9 passed, 0 failed',
            ],
        )
        self.assertIn('gate-times: ran', lines)
        self.assertNotIn('build: ran', lines)
        printed = '\n'.join(lines)
        self.assertRegex(printed, '(?s)cs_names proved\n.*on the program of this commit\n')

    def test_a_failed_proof_fails_it_whatever_gate_times_does(self) -> None:
        for times in ('0', '1', '77'):
            self.assert_verdict(
                1, '8 passed, 1 failed', STATUS='1', COUNTS='8 passed, 1 failed', GATE_TIMES=times
            )
        os.remove(self.path('repo/tools/gate-times'))
        self.assert_verdict(1, '8 passed, 1 failed', STATUS='1', COUNTS='8 passed, 1 failed')
        self.assert_verdict(0, '9 passed, 0 failed')

    def test_the_status_of_rt_counts_without_its_line_and_its_line_without_the_status(self) -> None:
        self.assert_verdict(3, '9 passed, 1 failed', STATUS='3')
        self.assert_verdict(1, '0 passed, 9 failed', COUNTS='0 passed, 9 failed')
        for counts in ('', 'rt: ok', '9 passed, 0 failed (cs_names alone)', '9 passed, 0 failed.'):
            self.assert_verdict(1, '0 passed, 1 failed', COUNTS=counts)

    def test_a_linter_that_finds_a_fault_ends_it_before_the_prover(self) -> None:
        lines = self.assert_verdict(1, '0 passed, 1 failed', LINT='1')
        self.assertNotIn('cs_names proved', lines)
        self.assertIn("tools' tests: not run", lines)

    def test_a_quick_test_that_fails_ends_it_before_the_prover(self) -> None:
        lines = self.assert_verdict(1, '0 passed, 1 failed', SUITE='fails early')
        self.assertNotIn('cs_names proved', lines)
        self.assertIn("tools' tests: 1 run, 1 failed, 0 skipped", lines)

    def test_a_test_of_the_tools_that_fails_is_one_failure_more(self) -> None:
        lines = self.assert_verdict(1, '9 passed, 1 failed', SUITE='fails')
        self.assertIn("tools' tests: 4 run, 1 failed, 1 skipped (1: strace is not there)", lines)

    def test_a_test_may_not_be_skipped_because_there_is_no_program(self) -> None:
        lines = self.assert_verdict(1, '9 passed, 1 failed', SUITE='skips')
        self.assertTrue(lines[-3].endswith('; 1 must not be skipped, as crashfs is built'), lines)

    def test_a_program_that_was_there_before_is_not_taken(self) -> None:
        os.makedirs(self.path('repo/crates/crashfs/out'))
        self.write('repo/crates/crashfs/out/crashfs', '')
        lines = self.assert_verdict(0, '9 passed, 0 failed', BUILDS='no')
        self.assertIn('build: ran', lines)
        self.assert_verdict(1, '9 passed, 1 failed', BUILDS='no', BUILD='1')

    def write_edits(self) -> List[str]:
        """Makes SIX crates that cost the same, with an edit each, and returns the edits' paths."""
        edits = [f'crates/{name}/must-fail/no.edit' for name in SIX]
        for edit in edits:
            os.makedirs(os.path.dirname(self.path(f'repo/{edit}')))
            self.write(f'repo/{edit}', 'file: src/lib.rt\n')
        self.git('add', '.')
        self.git('-c', 'user.name=a', '-c', 'user.email=a@b', 'commit', '--quiet', '-m', 'Edits')
        return sorted(edits)

    def test_the_edits_of_a_third_of_the_crates_are_tried_and_the_others_come_back(self) -> None:
        edits = self.write_edits()
        names = turns.group_crates(dict.fromkeys(SIX, 1))[
            turns.group_in_turn(self.git('rev-parse', 'HEAD'))
        ]
        for status, counts in (('0', '9 passed, 0 failed'), ('1', '8 passed, 1 failed')):
            lines = self.assert_verdict(int(status), counts, STATUS=status, COUNTS=counts)
            tried = [line for line in lines if line.endswith('.edit')]
            self.assertEqual(tried, [f'crates/{name}/must-fail/no.edit' for name in names])
            self.assertIn('4 edits are aside', lines)
            self.assertIn('edits: 2 of 6, those of 2 of 6 crates', lines)
            self.assertIn('tree: clean', lines)
            self.assertEqual(self.paths_of_edits(), edits)

    def paths_of_edits(self) -> List[str]:
        """The paths of all edits in the repository, also of those that are aside."""
        return sorted(
            os.path.relpath(path, self.path('repo'))
            for path in glob.glob(self.path('repo/crates/**/*.edit'), recursive=True)
            + glob.glob(self.path('repo/.git/edits.*/**/*.edit'), recursive=True)
        )

    def test_the_edits_come_back_if_a_signal_ends_the_gate(self) -> None:
        edits = self.write_edits()
        ran = self.run_gate(SIGNAL='TERM')
        self.assertEqual(ran.returncode, -signal.SIGTERM, ran.stdout)
        self.assertIn('4 edits are aside', ran.stdout)
        self.assertEqual(self.paths_of_edits(), edits)
        self.assertEqual(glob.glob(self.path('repo/.git/edits.*')), [])
        self.assert_nothing_left()

    def test_edits_that_can_not_come_back_fail_the_gate_and_are_not_lost(self) -> None:
        edits = self.write_edits()
        ran = self.run_gate(CHECKOUT='yes')
        self.assertEqual(ran.returncode, 1, ran.stdout)
        self.assertIn('.ci/run: edits are left in ', ran.stdout)
        paths = self.paths_of_edits()
        self.assertEqual([path for path in paths if path.startswith('crates/')], edits)
        self.assertEqual(len(paths) - len(edits), 4)

    def test_all_edits_are_tried_if_it_is_asked_for(self) -> None:
        edits = self.write_edits()
        lines = self.run_gate('--all-edits').stdout.splitlines()
        self.assertEqual([line for line in lines if line.endswith('.edit')], edits)
        self.assertIn('edits: all', lines)

    def test_a_wrong_word_is_refused_before_anything_runs(self) -> None:
        for words in (('--all',), ('--all-edits', '--all-edits')):
            ran = self.run_gate(*words)
            self.assertEqual((ran.returncode, ran.stdout), (2, 'usage: .ci/run [--all-edits]\n'))

    def test_a_tree_that_differs_from_its_commit_is_named(self) -> None:
        self.write('repo/tools/more.py', '')
        lines = self.assert_verdict(0, '9 passed, 0 failed')
        self.assertIn('tree: differs from the commit', lines)


class Verdicts(unittest.TestCase):
    def test_a_gate_of_this_commit_and_toolchain_that_passed_is_taken(self) -> None:
        self.assertEqual(counts_of_passed_gate(log_with(), 'c0ffee', KIT), '9 passed, 0 failed')

    def test_any_other_gate_is_refused(self) -> None:
        for changed, reason in (
            ({'commit': 'beef'}, 'it is of commit beef, not of c0ffee'),
            ({'tree': 'differs from the commit'}, 'its tree differs from the commit'),
            ({'toolchain': 'kit-2'}, f'its toolchain is kit-2, not {KIT}'),
            (
                {'edits': '3 of 9, those of 1 of 2 crates'},
                'it tried not all edits, but 3 of 9, those of 1 of 2 crates: give --all-edits',
            ),
            ({'status': '1'}, 'its status is 1'),
            ({'counts': '0 passed, 9 failed'}, 'it counts 0 passed, 9 failed'),
            ({'counts': '9 passed, 1 failed'}, 'it counts 9 passed, 1 failed'),
            ({'counts': '0 passed, 0 failed'}, 'it counts 0 passed, 0 failed'),
        ):
            with self.assertRaises(ValueError) as caught:
                counts_of_passed_gate(log_with(**changed), 'c0ffee', KIT)
            self.assertEqual(str(caught.exception), f'the gate is not of this release: {reason}')

    def test_lines_that_are_not_the_last_are_not_read(self) -> None:
        whole = log_with()
        for log in ('', '9 passed, 0 failed\n', whole + 'more\n', whole.replace('tree', 'trees')):
            with self.assertRaises(ValueError):
                parse_verdict(log)
        self.assertEqual(parse_verdict('9 passed, 9 failed\n' + whole).counts, '9 passed, 0 failed')
        self.assertIsNone(COUNTS.fullmatch('9 passed, 0 failed (cs_names alone)'))


@needed(shutil.which('bash') is not None, 'bash is not there')
class Action(InFolder):
    """The step of action.yml that records and checks, as a runner runs it."""

    def run_step(self, recorded: int) -> 'subprocess.CompletedProcess[str]':
        step = (TOP / 'action.yml').read_text('utf-8').split('- name: Record and check\n')[1]
        script = step.split('run: |\n')[1].split('    - name:')[0]
        os.makedirs(self.path('bin'), exist_ok=True)
        self.write('bin/crashfs-record', f'#!/bin/sh\necho recorded\nexit {recorded}\n', 0o755)
        self.write('bin/crashfs-check', '#!/bin/sh\necho checked\n', 0o755)
        words = {'DIRECTORY': 'd', 'SESSION': 's', 'CHECK': 'c', 'OPTIONS': '', 'REPORT': 'r'}
        return subprocess.run(
            ['bash', '--noprofile', '--norc', '-e', '-o', 'pipefail', '-c', script],
            cwd=self.folder,
            env={**os.environ, **words, 'PATH': f'{self.path("bin")}:{os.environ["PATH"]}'},
            capture_output=True,
            text=True,
        )

    def test_a_recording_that_is_incomplete_fails_the_job_and_is_not_checked(self) -> None:
        for status in (1, 2, 3, 130):
            ran = self.run_step(status)
            self.assertEqual((ran.returncode != 0, ran.stdout), (True, 'recorded\n'), status)

    def test_a_recording_that_is_complete_or_only_noted_is_checked(self) -> None:
        for status in (0, 4):
            ran = self.run_step(status)
            self.assertEqual((ran.returncode, ran.stdout), (0, 'recorded\nchecked\n'), status)


if __name__ == '__main__':
    unittest.main()
