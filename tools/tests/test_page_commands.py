"""Each command of each page is run, or is named with the reason why not; its options are known."""

from __future__ import annotations

import os
import re
import shutil
import subprocess
import sys
import unittest
from typing import Dict, List, Set

from inventory.command_lines import TOOLS as PARSERS
from inventory.command_lines import commands_of_program, options_of_tool

from .page_commands import NOT_RUN, PAGES, TOP, all_commands, command_blocks, name_of, reason
from .support import EXAMPLES, FAKE, PATIENCE, InFolder, needs_sqlite, needs_strace

KV, CHECK = (EXAMPLES / 'tutorial' / name for name in ('kv.py', 'check.py'))
PUTS = 'a=1 a=2 b=3'
# A server that acknowledges rows over its connection, and its client.
SOCKETS = """\
import os, socket, threading

listener = socket.create_server(('127.0.0.1', 0))


def serve():
    connection, _ = listener.accept()
    connection.sendall(b'ready\\n')
    with open('log', 'wb') as log:
        for row in (b'a\\n', b'b\\n'):
            log.write(row)
            log.flush()
            os.fsync(log.fileno())
            connection.sendall(row)
    connection.close()


server = threading.Thread(target=serve)
server.start()
with socket.create_connection(listener.getsockname()) as client:
    while client.recv(100):
        pass
server.join()
"""
MAPPED = """\
import mmap, os

with open('data', 'w+b') as file:
    file.truncate(4096)
    with mmap.mmap(file.fileno(), 4096) as pages:
        pages[0:3] = b'a=1'
        pages.flush()
    os.fsync(file.fileno())
print('a=1 is stored', flush=True)
"""
SESSION = f'#!/bin/sh\nexec {KV} {PUTS}\n'
RECOVER = f'#!/bin/sh\nexec {CHECK} {KV} 0 {PUTS}\n'
# What a reader has in the place of these, by page; `*` is of all pages.
STAND_INS: Dict[str, Dict[str, str]] = {
    '*': {
        'my-program': SESSION,
        'my-recovery': RECOVER,
        'session.sh': SESSION,
        'recover.sh': RECOVER,
    },
    'docs/reference/crashfs.md': {
        'crashfs': f'#!/bin/sh\nword=$1 trace=$2\nshift 2\n'
        f'exec {sys.executable} -S {FAKE} "$word" --trace "$trace" "$@"\n',
    },
    'docs/how-to/record.md': {
        'session.sh': f'#!/bin/sh\nexec {sys.executable} ../sockets.py\n',
        'sockets.py': SOCKETS,
        'lmdb-session': f'#!/bin/sh\nexec {sys.executable} ../mapped.py\n',
        'mapped.py': MAPPED,
    },
}
# What a test has in the place of a text: less time, a part's number, a folder of its own.
INSTEAD = {
    '--time-limit 28800': '--time-limit 2',
    '/var/lib/store': '"$PWD/store"',
    '-o session.log ./my-program': '-o session.log sh -c "cd store && ../my-program"',
}
FOLDERS = {'docs/how-to/record.md': ['before']}


class Run(InFolder):
    def lay_out(self, page: str) -> None:
        """Makes a folder as a reader of the page has it: a clone's tools, and a store to test."""
        for name in ('tools', 'examples', 'docs'):
            os.symlink(TOP / name, self.path(name))
        os.mkdir(self.path('bin'))
        for name, text in {**STAND_INS['*'], **STAND_INS.get(page, {})}.items():
            self.write(name, text, 0o755)
            os.symlink(self.path(name), self.path('bin', name))
        shutil.copy(EXAMPLES / 'store.trace', self.path('store.trace'))
        for name in FOLDERS.get(page, []):
            os.mkdir(self.path(name))

    def run_line(self, command: str) -> None:
        for shown, here in INSTEAD.items():
            command = command.replace(shown, here)
        path = f'{self.path("bin")}:{TOP / "tools"}:{os.environ["PATH"]}'
        ran = subprocess.run(
            ['bash', '-c', f'umask 022\n{command}'],
            cwd=self.folder,
            timeout=PATIENCE,
            text=True,
            stdin=subprocess.DEVNULL,
            stdout=subprocess.PIPE,
            stderr=subprocess.STDOUT,
            check=False,
            env={**os.environ, **self.environment(path), 'SLURM_ARRAY_TASK_ID': '1'},
        )
        # A check's status is 1 if some states fail, and a recorder's 4 if something is noted.
        self.assertIn(ran.returncode, (0, 1, 4), f'{command}\n{ran.stdout}')
        self.assertNotIn('Traceback', ran.stdout)
        self.assertNotRegex(ran.stdout, '(not found|No such file)')

    def run_page(self, page: str) -> None:
        """Runs the commands of a page in their order; each begins with no store of an earlier."""
        self.lay_out(page)
        for block in command_blocks(TOP / page):
            shutil.rmtree(self.path('store'), ignore_errors=True)
            os.mkdir(self.path('store'))
            if block[0].startswith('mkdir') or any(it.startswith('mkdir store') for it in block):
                os.rmdir(self.path('store'))
            for command in block:
                if not reason(page, command):
                    with self.subTest(command):
                        self.run_line(command)

    @needs_strace
    def test_those_of_the_readme(self) -> None:
        self.run_page('README.md')

    @needs_strace
    @needs_sqlite
    def test_those_on_recording(self) -> None:
        self.run_page('docs/how-to/record.md')

    def test_those_of_the_program(self) -> None:
        self.run_page('docs/reference/crashfs.md')

    def test_those_of_the_results(self) -> None:
        self.run_page('docs/RESULTS.md')

    def test_those_for_contributors(self) -> None:
        self.run_page('docs/CONTRIBUTING.md')

    @needs_strace
    def test_those_of_continuous_integration(self) -> None:
        self.lay_out('docs/how-to/ci.md')
        for block in command_blocks(TOP / 'docs' / 'how-to' / 'ci.md'):
            for command in block:
                if command.startswith('#!'):
                    self.write('parts.sh', command, 0o755)
                    for part in range(1, 5):
                        self.run_line(f'SLURM_ARRAY_TASK_ID={part} ./parts.sh')
                    self.run_line('crashfs-check --merge part-*.json')
                elif not reason('docs/how-to/ci.md', command) and '--merge' not in command:
                    os.makedirs(self.path('store'), exist_ok=True)
                    self.run_line(command)


RUN = {
    'README.md',
    'docs/CONTRIBUTING.md',
    'docs/RESULTS.md',
    'docs/how-to/ci.md',
    'docs/how-to/record.md',
    'docs/reference/crashfs.md',
}


class Listed(unittest.TestCase):
    def test_each_command_is_run_or_has_a_reason(self) -> None:
        """A page whose commands aren't run has a reason for each of them."""
        for page, commands in all_commands().items():
            if page not in RUN:
                self.assertEqual([it for it in commands if not reason(page, it)], [], page)

    def test_each_reason_is_of_a_command(self) -> None:
        commands = all_commands()
        for page, reasons in NOT_RUN.items():
            for begin in reasons:
                found = [it for it in commands.get(page, []) if it.startswith(begin)]
                self.assertTrue(found, f'{page} has no command that begins with {begin}')


# A command with what follows it, in a block or within a sentence.
USE = re.compile(r'\b(crashfs(?:-\w+)?)((?: +(?!--? )[^\s`|]+)*)')


class Options(unittest.TestCase):
    def test_each_option_that_a_page_gives_to_a_command_is_known(self) -> None:
        known: Dict[str, Set[str]] = {
            tool: {name for one in options_of_tool(tool) for name in one.names} for tool in PARSERS
        }
        program = commands_of_program()
        for name, options in program.items():
            known[f'crashfs {name}'] = {it for one in options for it in one.names}
        for page in PAGES:
            for name, words in used(page.read_text('utf-8')):
                for option in re.findall(r'(?<![\w-])--[a-z][\w-]*', words):
                    if name in known and option not in ('--help', '--version', '--trace'):
                        self.assertIn(option, known[name], f'{name_of(page)}: {name} {words}')


def used(text: str) -> List[List[str]]:
    """The commands that a page has, each with its words before `--`."""
    found = []
    for code in [*re.findall(r'`([^`\n]+)`', text), *re.findall(r'^    (.*)$', text, re.M)]:
        for name, words in USE.findall(code):
            words = words.split(' -- ')[0]
            first = words.split()[:1]
            whole = f'{name} {first[0]}' if name == 'crashfs' and first else name
            found.append([whole, words])
    return found


if __name__ == '__main__':
    unittest.main()
