"""The examples of docs/how-to/testing.md and of the packages' READMEs fail, each in its language,
with the entry that the page prints."""

from __future__ import annotations

import os
import re
import shutil
import subprocess
import unittest

from .support import PATIENCE, TOOLS, InFolder, needed, needs_strace

PYTEST = shutil.which('pytest')
TOP = TOOLS.parent
PAGE = (TOP / 'docs' / 'how-to' / 'testing.md').read_text('utf-8')
BLOCK = r'((?:    .*\n|\n+(?=    ))+)'

# A session and a recovery as commands: a file whose directory is never synced.
SESSION = """\
#!/bin/sh
echo version 1 > config.new && sync config.new && mv config.new config && echo saved
"""
RECOVERY = """\
#!/bin/sh
test "$CRASHFS_SAYS" = 0 || test -s config || { echo 'lost: the last version'; exit 1; }
"""

# The folders of the packages, with the names that the page has for them.
LANGUAGES = {'go': 'Go', 'rust': 'Rust', 'cpp': 'C++'}

needs_pytest = needed(PYTEST is not None, 'pytest is not installed')


def readme_of(helper: str) -> str:
    """The README of a package, by the name of its folder."""
    return (TOP / 'helpers' / helper / 'README.md').read_text('utf-8')


def block_after(words: str, page: str = PAGE) -> str:
    """The block of a page that follows a line with these words, which may go on, and a blank line;
    without its indentation."""
    found = re.search(re.escape(words) + r'.*\n\n' + BLOCK, page)
    assert found is not None, words
    return re.sub('^    ', '', found[1], flags=re.M)


@needs_pytest
@needs_strace
class Example(InFolder):
    def test_it_fails_with_the_entry_of_the_page(self) -> None:
        self.write('test_store.py', block_after('`test_store.py`:'))
        words = ['-p', 'crashfs_tools.pytest_plugin', '-p', 'no:cacheprovider', '--crash-states']
        ran = subprocess.run(
            [PYTEST or '', *words, '--basetemp', self.path('base')],
            cwd=self.folder,
            env={**os.environ, **self.environment(None), 'PYTHONPATH': str(TOOLS)},
            text=True,
            stdout=subprocess.PIPE,
            stderr=subprocess.STDOUT,
            timeout=PATIENCE,
            check=False,
        )
        self.assertEqual(ran.returncode, 1, ran.stdout)
        printed = ran.stdout.replace(self.path('base'), '/tmp/pytest-of-me/pytest-0')
        self.assertIn(block_after('Each entry of the report is one failure:'), printed)


@needs_strace
class Languages(InFolder):
    """The examples in other languages, from an empty directory."""

    def run_lines(self, script: str, folder: str = '') -> str:
        """Runs commands of a page, and returns what they print."""
        variables = self.environment(f'{TOOLS}:{os.environ["PATH"]}')
        ran = subprocess.run(
            ['sh', '-c', script.replace('CLONE', str(TOP))],
            cwd=self.path(folder),
            env={**os.environ, **variables, 'CARGO_NET_OFFLINE': 'true'},
            text=True,
            stdout=subprocess.PIPE,
            stderr=subprocess.STDOUT,
            timeout=PATIENCE,
            check=False,
        )
        return ran.stdout

    def check_example(self, helper: str, name: str) -> None:
        """Does what a package's README says, with the example in the file of this name; the test
        prints the entry that the README has."""
        page = readme_of(helper)
        made = self.run_lines(block_after('In a new', page))
        self.assertTrue(os.path.isdir(self.path('store')), made)
        self.write(f'store/{name}', block_after(f'`{name}`,', page))
        printed = self.run_lines(block_after('un it:', page), 'store')
        entry = without_numbers(block_after('of the report', page))
        self.assertIn('the directory / is never synced', entry)
        self.assertIn(entry, without_numbers(printed))

    @needed(shutil.which('go') is not None, 'go is not installed')
    def test_go(self) -> None:
        self.check_example('go', 'store_test.go')

    @needed(shutil.which('cargo') is not None, 'cargo is not installed')
    def test_rust(self) -> None:
        self.check_example('rust', 'tests/crash_states.rs')

    @needed(os.path.exists('/usr/include/gtest/gtest.h'), 'googletest is not installed')
    def test_cpp(self) -> None:
        self.check_example('cpp', 'store_test.cpp')

    def test_the_page_has_the_commands_of_each_readme(self) -> None:
        for helper, language in LANGUAGES.items():
            name = rf'\*\*{re.escape(language)}\*\*'
            (item,) = re.findall(rf'^- {name}, .*\n(?:  .*\n)*', PAGE, re.M)
            readme, *commands = re.findall('`([^`]*)`', item)
            self.assertEqual(readme, f'helpers/{helper}/README.md')
            self.assertGreaterEqual(len(commands), 2, item)
            for command in commands:
                self.assertIn(f'    {command}\n', readme_of(helper))

    @needed(shutil.which('prove') is not None, 'prove is not installed')
    def test_any_language(self) -> None:
        self.write('crash_states.t', block_after('recovery that are commands:'), 0o755)
        self.write('session', SESSION, 0o755)
        self.write('recovery', RECOVERY, 0o755)
        printed = self.run_lines('prove -v ./crash_states.t')
        self.assertIn('\nnot ok 1 - lost: the last version\n# lost: the last version\n', printed)
        self.assertIn('fsync it between them', printed)
        self.assertIn('Failed test:  1\n', printed)


def without_numbers(text: str) -> str:
    """What a test prints, without seconds, a thread's number and the number of the line that
    failed."""
    text = re.sub(r'\d+\.\d+s', 'Ns', text)
    return re.sub(r'(?<=\.go|\.rs):\d+|(?<=\.cpp):\d+| \(\d+\)(?= panicked)', '', text)


if __name__ == '__main__':
    unittest.main()
