"""The manual pages and the completions have each option of each command, and no other."""

from __future__ import annotations

import re
import shutil
import subprocess
import unittest
from pathlib import Path
from typing import Dict, List, Optional, Set

from crashfs_tools import VERSION
from crashfs_tools.common.program import Crashfs
from inventory.command_lines import TOOLS, Option, commands_of_program, options_of_tool

from .support import TOOLS as FOLDER
from .support import InFolder, needed

DOCS = FOLDER.parent / 'docs'
PAGES = DOCS / 'man'
COMPLETIONS = FOLDER / 'completions'
SOURCES = FOLDER.parent / 'crates' / 'cs_command_line' / 'src'
PROGRAM_VERSION = (SOURCES / 'version.rt').read_text('utf-8')
HELP = {'-h', '--help'}

Options = Dict[str, Optional[str]]

needs_bash = needed(shutil.which('bash') is not None, 'bash is not there')
needs_groff = needed(shutil.which('groff') is not None, 'groff is not there')


def section(page: str, name: str) -> str:
    """A section of a manual page, with its fonts gone: lines of plain text."""
    text = (PAGES / page).read_text('utf-8').replace('\\-', '-')
    return text.split(f'.SH {name}\n')[1].split('\n.SH ')[0]


def described(page: str) -> Options:
    """The options that a page describes, each with the name of its value."""
    tags = re.findall(r'^\.TP\n\.B[IR]? (-.*)$', section(page, 'OPTIONS'), re.M)
    found: Options = {}
    for tag in tags:
        value = re.search(r'^\S+ " ([^"]+)"$', tag)
        for name in re.findall(r'(?<!\w)--?\w[\w-]*', tag):
            found[name] = value[1].rstrip('.') if value else None
    return found


def values_of(options: List[Option]) -> Options:
    """Each name of an option, with the name of its value."""
    return {name: option.value for option in options for name in option.names}


class Manual(unittest.TestCase):
    def test_the_tools_have_their_options(self) -> None:
        for command in TOOLS:
            page, known = described(f'{command}.1'), values_of(options_of_tool(command))
            self.assertEqual(set(page), set(known), command)
            for name, value in known.items():
                if value in ('PROFILE', 'BLOCK'):
                    continue  # Their values are in braces in the help.
                self.assertEqual(page[name], value, name)

    def test_the_program_has_its_options(self) -> None:
        commands = commands_of_program()
        self.assertEqual(len(commands), 5)
        known: Options = {'-h': None, '--help': None, '-V': None, '--version': None}
        for options in commands.values():
            known.update(values_of(options))
        self.assertEqual(described('crashfs.1'), known)

    def test_the_synopsis_has_the_options_of_each_command(self) -> None:
        lines = section('crashfs.1', 'SYNOPSIS').split('.br\n')
        written = {line.split()[2]: set(re.findall(r'--[\w-]+', line)) for line in lines}
        self.assertEqual(
            written,
            {name: set(values_of(options)) for name, options in commands_of_program().items()},
        )

    def test_the_trace_has_the_lines_of_its_page(self) -> None:
        trace = (DOCS / 'reference' / 'trace.md').read_text('utf-8')
        formats = trace.split('\n## Lines\n')[1].split('\n## ')[0]
        page = section('crashfs-trace.5', 'LINES') + section('crashfs-trace.5', 'VERSIONS')
        self.assertEqual(
            sorted(re.findall(r'^\{.*\}$', page, re.M)),
            sorted(re.findall(r'^\{.*\}$', formats, re.M)),
        )

    def test_pages_name_their_version(self) -> None:
        program = re.search(r'VERSION: &str = "([\d.]+) ', PROGRAM_VERSION)
        assert program is not None
        self.assertEqual(program[1], VERSION)
        for page in sorted(PAGES.iterdir()):
            name, number = page.name.upper().split('.')
            head = page.read_text('utf-8').splitlines()[0]
            self.assertTrue(head.startswith(f'.TH {name} {number} "" "crashfs {VERSION}" '), head)

    @needs_groff
    def test_pages_have_no_faults(self) -> None:
        for page in sorted(PAGES.iterdir()):
            ran = subprocess.run(
                ['groff', '-man', '-ww', '-Tascii', str(page)],
                check=True,
                capture_output=True,
                text=True,
            )
            self.assertEqual(ran.stderr, '', page.name)
            self.assertIn('SEE ALSO', re.sub(r'.\x08|\x1b\[\d*m', '', ran.stdout))


class Example(InFolder):
    def test_the_trace_of_the_page_is_one(self) -> None:
        text = section('crashfs-trace.5', 'EXAMPLES').replace('\\en', '\\n')
        trace = self.write('t', '\n'.join(re.findall(r'^\{.*\}$', text, re.M)))
        self.assertEqual(
            Crashfs.find_or_second_reading(None, is_unproved=True).count_states(trace), 3
        )


@needs_bash
class Completions(unittest.TestCase):
    def complete(self, *words: str) -> List[str]:
        """What the last of these words may become."""
        command = words[0]
        script = (
            'set -eu; . "$0"; COMP_WORDS=("$@"); COMP_CWORD=$(($# - 1)); '
            f'_{command.replace("-", "_")} || true; printf "%s\\n" "${{COMPREPLY[@]}}"'
        )
        file: Path = COMPLETIONS / f'{command}.bash'
        ran = subprocess.run(
            ['bash', '-c', script, str(file), *words], check=True, capture_output=True, text=True
        )
        self.assertEqual(ran.stderr, '')
        return ran.stdout.split()

    def test_the_tools_have_their_options(self) -> None:
        for command in TOOLS:
            self.assertEqual(
                sorted(self.complete(command, '-')), sorted(values_of(options_of_tool(command)))
            )

    def test_the_program_has_its_options(self) -> None:
        for command, options in commands_of_program().items():
            self.assertEqual(
                set(self.complete('crashfs', command, '-')), {*HELP, *values_of(options)}
            )
        first: Set[str] = {*commands_of_program(), 'help', *HELP, '-V', '--version'}
        self.assertEqual(set(self.complete('crashfs', '')), first)

    def test_values_that_are_known_are_offered(self) -> None:
        for option in options_of_tool('crashfs-record'):
            if option.choices:
                self.assertEqual(
                    self.complete('crashfs-record', option.names[0], ''), list(option.choices)
                )
        self.assertEqual(self.complete('crashfs', 'serve', '--client', 'l'), ['linux'])

    def test_nothing_is_offered_after_the_two_dashes(self) -> None:
        self.assertEqual(self.complete('crashfs-check', 't', '--', '-'), [])
        self.assertEqual(self.complete('crashfs-record', 'd', 't', '--', '-'), [])


if __name__ == '__main__':
    unittest.main()
