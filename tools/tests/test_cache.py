"""The cache of outcomes: what is not tried again, and what is, since something has changed."""

from __future__ import annotations

import hashlib
import os
import subprocess
import tracemalloc
import threading
import unittest
from pathlib import Path
from typing import Any, List, Tuple
from unittest import mock

from crashfs_tools.checker.running import cache as outcome_cache
from crashfs_tools.checker.running.cache import (
    OutcomeCache,
    StateKeys,
    require_folder,
    read_cache_file,
    write_cache_file,
)
from crashfs_tools.checker.running.command_files import (
    command_name,
    digest_of_file,
    interpreters,
    opened_paths,
)
from crashfs_tools.checker.running.runner import BAD, GOOD, NO_ANSWER, Outcome
from crashfs_tools.common.command import Refused

from .support import EXAMPLES, InFolder, needs_strace
from .test_all_states import Listing

CONFIG = EXAMPLES / 'config' / 'config.trace'
# Counts its runs, and asks a module beside it.
RECOVER = """\
#!/usr/bin/env python3
import os, sys
sys.path.insert(0, os.environ['MODULES'])
import judge
with open(os.environ['RUNS'], 'a') as file:
    file.write('.')
sys.exit(judge.judged())
"""
JUDGE = """\
import os
def judged():
    version = open('config').read() if os.path.exists('config') else ''
    print('lost: a version')
    return not version.startswith('version=') or int(version[8:]) < int(os.environ['CRASHFS_SAYS'])
"""


class Files(InFolder):
    def test_only_whole_files_of_ours_are_read(self) -> None:
        path = self.path('c.json')
        write_cache_file(path, {'a': ['good', '', '']})
        self.assertEqual(read_cache_file(path), {'a': ['good', '', '']})
        whole = Path(path).read_bytes()
        for damaged in (whole[:-1], whole.replace(b'good', b'goad'), b'', b'x', whole[1:]):
            Path(path).write_bytes(damaged)
            self.assertEqual(read_cache_file(path), {}, damaged)
        Path(path).write_bytes(whole)
        os.chmod(path, 0o666)
        self.assertEqual(read_cache_file(path), {})
        os.chmod(path, 0o600)
        os.symlink(path, self.path('link.json'))
        self.assertEqual(read_cache_file(self.path('link.json')), {})

    def test_a_folder_that_others_may_write_is_refused(self) -> None:
        require_folder(self.path('new', 'cache'))
        self.assertTrue(os.path.isdir(self.path('new', 'cache')))
        os.mkdir(self.path('open'))
        os.chmod(self.path('open'), 0o777)
        with self.assertRaisesRegex(Refused, 'others may write it'):
            require_folder(self.path('open'))
        with self.assertRaisesRegex(Refused, '^--cache .*/file is no directory$'):
            require_folder(self.write('file', ''))

    def test_what_gave_no_answer_or_was_not_confirmed_is_not_kept(self) -> None:
        cache = OutcomeCache(self.folder, 'n')
        for key, result in (('a', GOOD), ('b', BAD), ('c', NO_ANSWER), ('d', BAD)):
            cache.add(key, Outcome(result, 'cause', 'output'))
        cache.drop('d')
        cache.save()
        later = OutcomeCache(self.folder, 'n')
        self.assertEqual(later.look_up('a'), Outcome(GOOD, 'cause', 'output'))
        self.assertEqual(later.look_up('b'), Outcome(BAD, 'cause', 'output'))
        self.assertEqual([later.look_up(key) for key in 'cd'], [None, None])
        other_values: Any = {'e': 7, 'f': [GOOD], 'g': [''] * 3, 'h': [BAD, 7, ''], 'i': [[]] * 3}
        later.earlier_outcomes = other_values
        self.assertEqual([later.look_up(key) for key in 'efghi'], [None] * 5)

    def test_checks_at_the_same_time_keep_each_other_s_outcomes(self) -> None:
        good = Outcome(GOOD, '', '')
        for key in 'xyz':
            one = OutcomeCache(self.folder, 'n')
            one.add(key, good)
            one.save()
        first, second = OutcomeCache(self.folder, 'n'), OutcomeCache(self.folder, 'n')
        first.add('a', good)
        first.drop('x')
        second.add('b', good)
        second.drop('a')  # The other one saves it meanwhile.
        second.look_up('y')
        first.save()
        second.save()
        self.assertEqual(list(OutcomeCache(self.folder, 'n').earlier_outcomes), ['z', 'b', 'y'])

    def test_the_outcomes_that_were_used_last_are_kept(self) -> None:
        for keys in ('ab', 'cd', 'ae'):
            cache = OutcomeCache(self.folder, 'n')
            for key in keys:
                cache.add(key, Outcome(GOOD, '', ''))
            with mock.patch.object(outcome_cache, 'MOST_OUTCOMES', 3):
                cache.save()
        self.assertEqual(list(OutcomeCache(self.folder, 'n').earlier_outcomes), ['d', 'a', 'e'])

    def test_a_check_waits_while_another_one_saves(self) -> None:
        cache = OutcomeCache(self.folder, 'n')
        cache.add('a', Outcome(GOOD, '', ''))
        saving = threading.Thread(target=cache.save)
        with outcome_cache.folder_lock(self.folder):
            saving.start()
            saving.join(0.3)
            self.assertFalse(os.path.exists(cache.path))
        saving.join()
        self.assertEqual(list(OutcomeCache(self.folder, 'n').earlier_outcomes), ['a'])

    def test_each_outcome_of_an_earlier_check_counts_once(self) -> None:
        cache = OutcomeCache(self.folder, 'n')
        cache.add('a', Outcome(GOOD, '', ''))
        self.assertEqual((cache.look_up('a'), cache.hits), (Outcome(GOOD, '', ''), 0))
        cache.save()
        later = OutcomeCache(self.folder, 'n')
        for _ in range(2):
            later.look_up('a')
        self.assertEqual(later.hits, 1)

    def test_the_source_of_a_compiled_module_is_looked_at(self) -> None:
        os.mkdir(self.path('__pycache__'))
        compiled = self.write('__pycache__/judge.cpython-311.pyc', '')
        source = self.write('judge.py', '')
        lines: List[str] = [
            f'12 openat(AT_FDCWD, "{compiled}", O_RDONLY|O_CLOEXEC) = 3\n',
            '12 openat(AT_FDCWD, "/nowhere", O_RDONLY) = -1 ENOENT (No such file or directory)\n',
            '12 openat(AT_FDCWD, "config", O_RDONLY) = 3\n',
            '13 execve("/bin/true", ["true", "a"], 0x7ffe /* 3 vars */) = 0\n',
        ]
        found = list(opened_paths(lines))
        self.assertEqual(found, [source, '/nowhere', '/bin/true'])

    def test_a_file_that_is_only_written_is_not_looked_at(self) -> None:
        lines = [
            '7 openat(AT_FDCWD, "/O_WRONLY.conf", O_RDONLY) = 3</O_WRONLY.conf>\n',
            '7 openat(AT_FDCWD, "/written", O_WRONLY|O_CREAT, 0666) = 3\n',
            '7 openat2(AT_FDCWD, "/also", {flags=O_WRONLY|O_CREAT, mode=0666}, 24) = 3\n',
            '7 execve("/bin/sh", ["sh", "O_WRONLY"], 0x7ffe /* 3 vars */) = 0\n',
        ]
        self.assertEqual(list(opened_paths(lines)), ['/O_WRONLY.conf', '/bin/sh'])

    def test_the_interpreters_of_a_script_are_followed_up_to_four(self) -> None:
        chain = [self.write(f'script{number}', '') for number in range(7)]
        for script, interpreter in zip(chain, chain[1:]):
            Path(script).write_text(f'#! {interpreter} -x\n')
        self.assertEqual(list(interpreters(chain[0])), chain[1:5])
        self.assertEqual(list(interpreters(chain[4])), chain[5:])
        for first_line, found in (
            ('#!/bin/none', ['/bin/none']),
            ('#!/bin/none\n#!/bin/other', ['/bin/none']),
            ('#!sh', []),
            ('#!', []),
            ('no script', []),
        ):
            self.assertEqual(list(interpreters(self.write('script', first_line))), found)

    def test_a_large_file_is_not_in_memory_as_a_whole(self) -> None:
        os.truncate(self.write('large', 'x'), 1 << 26)
        wanted = hashlib.sha256(b'x' + bytes((1 << 26) - 1)).hexdigest()
        tracemalloc.start()
        self.addCleanup(tracemalloc.stop)
        self.assertEqual(digest_of_file(self.path('large')), wanted)
        self.assertLess(tracemalloc.get_traced_memory()[1], 1 << 23)
        self.assertEqual(digest_of_file(self.path('none')), '')

    @needs_strace
    def test_a_file_is_found_whatever_its_name(self) -> None:
        files = [self.write(name, 'x') for name in ('jür"g\\n.sh', 'a\n\t1', '\udcff2')]
        words = ['strace', '-qq', '-e', 'trace=openat', '-o', self.path('log'), 'cat', *files]
        subprocess.run(words, stdout=subprocess.DEVNULL, check=True)
        found = list(opened_paths(self.read('log').splitlines()))
        self.assertEqual(found[-3:], files)


@needs_strace
class Cuts(InFolder):
    """A run under strace that the check has ended: late, or printing too much."""

    LATE = Outcome(NO_ANSWER, 'it had not ended after 5 seconds')

    def name(self, lines: str) -> str:
        """The name of a command by a run that is late and has this log."""

        def run(words: List[str], state: int) -> Tuple[Outcome, str]:
            Path(words[words.index('-o') + 1]).write_text(lines, 'utf-8')
            return self.LATE, self.path('state')

        return command_name(self.folder, ['recover'], [0], run)

    def test_the_files_of_a_command_that_was_cut_are_not_kept(self) -> None:
        script = self.write('recover', '')
        started = f'12 execve("{script}", ["recover"], 0x7ffe /* 3 vars */) = 0\n'
        for more in ('', '13 +++ exited with 0 +++\n', '12 +++ killed by SIGKILL +++\n'):
            with self.assertRaisesRegex(Refused, 'no answer under strace: .* after 5 seconds'):
                self.name(started + more)
        self.assertEqual([one for one in os.listdir(self.folder) if 'command' in one], [])

    def test_the_files_of_a_command_that_leaves_a_process_are_whole(self) -> None:
        script = self.write('recover', '')
        started = f'12 execve("{script}", ["recover"], 0x7ffe /* 3 vars */) = 0\n'
        first = self.name(started + '12 +++ exited with 1 +++\n')
        self.write('recover', 'changed')
        self.assertNotEqual(self.name(started + '12 +++ exited with 1 +++\n'), first)

    def test_a_link_that_leads_to_another_file_makes_another_command(self) -> None:
        for number in (1, 2):
            self.write(f'recover-{number}', str(number))
        os.symlink('recover-1', self.path('recover'))
        started = f'12 execve("{self.path("recover")}", ["recover"], 0x7ffe /* 3 vars */) = 0\n'
        looked = f'12 openat(AT_FDCWD, "{self.path("to-none")}", O_RDONLY) = -1 ENOENT (No such)\n'
        os.symlink('none', self.path('to-none'))
        lines = started + looked + '12 +++ exited with 1 +++\n'
        names = {self.name(lines)}
        os.unlink(self.path('recover'))
        os.symlink('recover-2', self.path('recover'))
        names.add(self.name(lines))
        self.write('none', 'it is there')
        names.add(self.name(lines))
        self.assertEqual(len(names), 3)

    def test_an_interpreter_of_a_script_counts_though_no_call_opens_it(self) -> None:
        inner = self.write('inner', 'a program')
        outer = self.write('outer', f'#! {inner} -x\n')
        script = self.write('recover', f'#!{outer}\n')
        lines = f'12 execve("{script}", ["recover"], 0x7ffe /* 3 vars */) = 0\n'
        names = {self.name(lines + '12 +++ exited with 1 +++\n')}
        for changed, text in ((inner, 'another'), (outer, f'#!{inner}\n')):
            Path(changed).write_text(text, 'utf-8')
            names.add(self.name(lines + '12 +++ exited with 1 +++\n'))
        self.assertEqual(len(names), 3)

    def test_a_relative_path_counts_outside_the_state(self) -> None:
        os.mkdir(self.path('a "b>'))
        library = self.write('a "b>/lib.sh', 'x=1')
        script = f'cd \'{self.path("a")} "b>\'; . ./lib.sh'

        def run(words: List[str], state: int) -> Tuple[Outcome, str]:
            subprocess.run(words, check=True, cwd=self.folder)
            return Outcome(GOOD), self.path('state')

        names = set()
        for text in ('x=1', 'x=2'):
            Path(library).write_text(text, 'utf-8')
            names.add(command_name(self.folder, ['sh', '-c', script], [0], run))
        self.assertEqual(len(names), 2)

    def test_files_of_the_state_are_left_out_by_whatever_path(self) -> None:
        os.mkdir(self.path('state'))
        script = self.write('recover', '')
        os.symlink('state', self.path('link'))
        started = f'12 execve("{script}", ["recover"], 0x7ffe /* 3 vars */) = 0\n'
        ended = '12 +++ exited with 1 +++\n'
        first = self.name(started + ended)
        os.unlink(next(iter(Path(self.folder).glob('command-*'))))
        opened = f'12 openat(AT_FDCWD, "{self.path("link", "file")}", O_RDONLY) = 3\n'
        self.assertEqual(self.name(started + opened + ended), first)


class Keys(Listing):
    def test_states_have_equal_keys_if_files_and_lines_are_equal(self) -> None:
        planned = self.planned(CONFIG.read_text('utf-8'))
        plan, lines = planned.plan, ['one', 'two', 'three']
        keys = StateKeys(planned.trace, plan, lines)
        found: Any = {}
        for state in plan.states:
            found.setdefault(keys.key(state.number, 0), set()).add((state.same, state.says))
        self.assertEqual({len(one) for one in found.values()}, {1})
        self.assertEqual(len(found), len({(one.same, one.says) for one in plan.states}))
        others = StateKeys(planned.trace, plan, ['one', 'two', 'other'])
        last = plan.states[-1].number if plan.states[-1].says == 3 else len(plan.operations)
        self.assertNotEqual(keys.key(last, 0), others.key(last, 0))
        self.assertNotEqual(keys.key(0, 0), keys.key(0, 1))


@needs_strace
class Checks(InFolder):
    def setUp(self) -> None:
        super().setUp()
        self.write('recover.py', RECOVER, 0o755)
        self.write('judge.py', JUDGE)
        for name, path in (('RUNS', 'runs'), ('MODULES', '')):
            os.environ[name] = self.path(path)
            self.addCleanup(os.environ.pop, name)

    def check(self, *words: str) -> Any:
        """A check with the cache; returns also how often the recovery ran."""
        self.write('runs', '')
        ran = self.run_tool(
            'crashfs-check', '--cache', 'cache', *words, str(CONFIG), '--', './recover.py'
        )
        return ran, len(self.read('runs'))

    def environment(self, path: Any) -> Any:
        more = {name: os.environ[name] for name in ('RUNS', 'MODULES') if name in os.environ}
        return {**super().environment(path), **more}

    def test_an_unchanged_store_is_not_tried_again(self) -> None:
        first, count = self.check()
        self.assertGreater(count, 28)
        second, again = self.check()
        self.assertEqual(again, 0)
        self.assertEqual(second.returncode, first.returncode)
        *lines, last = second.stdout.splitlines()
        self.assertEqual(lines, first.stdout.splitlines())
        self.assertRegex(last, r'^  \d+ outcomes from earlier checks \(--cache\)$')

    def test_a_module_that_the_recovery_imports_counts(self) -> None:
        first, _ = self.check()
        self.assertEqual(first.returncode, 1)
        self.write('judge.py', 'def judged():\n    return 0 # and it is longer\n')
        second, count = self.check()
        self.assertGreaterEqual(count, 28)
        self.assertIn('none fails', second.stdout)
        self.assertEqual(self.check()[1], 0)

    def test_a_command_that_gives_no_answer_under_strace_is_refused(self) -> None:
        rule = self.write('rule', 'good')
        is_alone = "grep -q '^TracerPid:.0$' /proc/self/status"
        command = self.write(
            'slow.sh', f'#!/bin/sh\n{is_alone} || exec yes\ngrep good {rule}\n', 0o755
        )
        words = '--prefixes', str(CONFIG), '--', command
        self.assertIn('none fails', self.run_tool('crashfs-check', *words).stdout)
        for _ in range(2):
            ran = self.run_tool('crashfs-check', '--cache', 'cache', *words)
            self.assertEqual(ran.returncode, 2)
            self.assertIn('--cache: COMMAND gave no answer under strace: it printed', ran.stderr)
        self.assertEqual(os.listdir(self.path('cache')), [])

    def test_other_options_share_the_outcomes(self) -> None:
        self.check()
        self.assertEqual(self.check('--prefixes')[1], 0)

    def test_it_goes_with_no_server(self) -> None:
        words = '--serve', 'localhost:1', str(CONFIG), '--', 'true'
        ran = self.run_tool('crashfs-check', '--cache', 'cache', *words)
        self.assertEqual(ran.returncode, 2)


if __name__ == '__main__':
    unittest.main()
