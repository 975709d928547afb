"""The completions for zsh and fish: each shell reads them, and fish offers each option."""

from __future__ import annotations

import os
import re
import shutil
import subprocess
import unittest
from pathlib import Path
from typing import Dict, List, Set, Tuple

from crashfs_tools.checker.command_line import OPTIONS as CHECK
from crashfs_tools.checker.command_line import RECORDER_OPTIONS
from crashfs_tools.common.program import Crashfs
from crashfs_tools.recorder.options import OPTIONS as RECORD
from inventory.command_lines import (
    HELP,
    TOOLS,
    Option,
    command_helps,
    commands_of_program,
    options_of_tool,
)
from inventory.completions import FOLDER, fish_option, zsh_option

from .support import InFolder, needed

FOUND = Crashfs.find(None)
# An option of `crashfs COMMAND --help`: its name, the name of its value, and its help.
HELP_LINE = re.compile(r'^ +(?:-\w, )?(--[\w-]+)( <([\w-]+)>)? +(.*)$')

needs_program = needed(FOUND is not None, 'crashfs is not built')
needs_zsh = needed(shutil.which('zsh') is not None, 'zsh is not there')
needs_fish = needed(shutil.which('fish') is not None, 'fish is not there')


def long_names(options: List[Option]) -> Set[str]:
    return {name for option in options for name in option.names if name.startswith('--')}


class Lines(unittest.TestCase):
    def test_an_option_of_zsh_has_its_help_and_its_values(self) -> None:
        for option, line in (
            (Option(('--a',), "isn't [b]: c"), "'--a[isn’t (b)\\: c]'"),
            (Option(('--a',), 'b', 'FILE'), "'--a[b]:FILE:_files'"),
            (Option(('--a',), 'b', 'C', ('x', 'y')), "'--a[b]:C:(x y)'"),
            (Option(('-a', '--all'), 'b'), "'(-a --all)'{-a,--all}'[b]'"),
        ):
            self.assertEqual(zsh_option(option), line)

    def test_an_option_of_fish_has_its_help_and_its_values(self) -> None:
        for option, line in (
            (Option(('--a',), "isn't"), "complete -c p -l a -d 'isn’t'"),
            (Option(('-a', '--all'), 'b', 'FILE'), "complete -c p -s a -l all -r -d 'b'"),
            (Option(('--a',), 'b', 'C', ('x', 'y')), "complete -c p -l a -x -a 'x y' -d 'b'"),
        ):
            self.assertEqual(fish_option('p', option), line)


class OfTools(unittest.TestCase):
    def test_each_option_of_a_parser_is_in_its_help_and_no_other(self) -> None:
        for command, parser in TOOLS.items():
            printed = re.findall(r'^  (--?[a-z].*)$', parser().format_help(), re.M)
            names = {
                name for line in printed for name in re.findall(r'(?<![\w-])--?[a-z][\w-]*', line)
            }
            options = options_of_tool(command)
            self.assertEqual({name for it in options for name in it.names} - names, set(), command)
            self.assertEqual(len(printed), len(options), command)

    def test_the_check_knows_the_options_that_only_the_recorder_has(self) -> None:
        self.assertEqual(set(RECORDER_OPTIONS), set(RECORD) - set(CHECK))


@needs_program
class OfProgram(unittest.TestCase):
    """The options that are read from the program's source are those of its help."""

    def help_of(self, *words: str) -> str:
        assert FOUND is not None
        return FOUND.output_of([*words, '--help'])

    def printed_options(self, command: str) -> Dict[str, Tuple[str, str, Tuple[str, ...]]]:
        """Each option of a command's help: its value, its help, the values that are known."""
        found: Dict[str, Tuple[str, str, Tuple[str, ...]]] = {}
        lines = self.help_of(command).split('\nOptions:\n')[1].split('\n\n')[0].splitlines()
        for name, _, value, text in (HELP_LINE.findall(line)[0] for line in lines):
            known = re.findall(r'\[possible values: ([^]]*)\]', text)
            choices = tuple(known[0].split(', ')) if known else ()
            found[name] = (value, re.sub(r' \[(default|possible)[^]]*\]', '', text), choices)
        return found

    def test_each_command_has_the_options_of_its_help(self) -> None:
        for command, options in commands_of_program().items():
            printed = self.printed_options(command)
            self.assertEqual(printed.pop('--help')[0], '')
            self.assertEqual(
                {it.names[0]: (it.value or '', it.help, it.choices) for it in options}, printed
            )

    def test_each_command_is_in_the_program_s_help(self) -> None:
        printed = dict(re.findall(r'^  (\w+) +(.*)$', self.help_of(), re.M))
        self.assertEqual(printed.keys() - {'help'}, set(commands_of_program()))
        for command, help_text in command_helps().items():
            self.assertEqual(help_text, printed[command])


@needs_zsh
class Zsh(unittest.TestCase):
    def test_it_reads_the_files(self) -> None:
        for path in sorted(FOLDER.glob('*.zsh')):
            ran = subprocess.run(['zsh', '-n', str(path)], capture_output=True, text=True)
            self.assertEqual((ran.returncode, ran.stderr), (0, ''), path.name)


@needs_fish
class Fish(InFolder):
    def offered(self, command: str, words: str) -> Dict[str, str]:
        """What may complete the words, each with its help."""
        line = f'source {FOLDER / command}.fish; complete -C "{command} {words}"'
        ran = subprocess.run(
            ['fish', '--no-config', '-c', line],
            cwd=self.folder,
            check=True,
            capture_output=True,
            text=True,
            env={**os.environ, 'HOME': self.folder, 'LC_ALL': 'C.UTF-8'},
        )
        self.assertEqual(ran.stderr, '')
        return dict(row.partition('\t')[::2] for row in ran.stdout.splitlines())

    def test_it_reads_the_files(self) -> None:
        for path in sorted(Path(FOLDER).glob('*.fish')):
            ran = subprocess.run(['fish', '-n', str(path)], capture_output=True, text=True)
            self.assertEqual((ran.returncode, ran.stderr), (0, ''), path.name)

    def test_it_offers_each_option_of_the_tools(self) -> None:
        for command in TOOLS:
            offered = self.offered(command, '--')
            self.assertEqual(set(offered), long_names(options_of_tool(command)))
            self.assertNotIn('', offered.values())

    def test_it_offers_the_commands_and_options_of_the_program(self) -> None:
        commands = commands_of_program()
        self.assertLessEqual(set(commands), set(self.offered('crashfs', '')))
        self.assertEqual(set(self.offered('crashfs', '--')), {'--help', '--version'})
        for command, options in commands.items():
            self.assertEqual(
                set(self.offered('crashfs', f'{command} --')), long_names([HELP, *options])
            )

    def test_it_offers_the_values_that_are_known(self) -> None:
        for option in options_of_tool('crashfs-record'):
            if option.choices:
                self.assertEqual(
                    set(self.offered('crashfs-record', f'{option.names[-1]} ')), set(option.choices)
                )


if __name__ == '__main__':
    unittest.main()
