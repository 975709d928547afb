"""The tutorial: its commands print what the page shows, and its code is that of its files."""

import os
import re
import subprocess
import unittest
from typing import List, Tuple

from crashfs_tools.common.trace_read import read_trace

from .support import EXAMPLES, PATIENCE, PROGRESS, TOOLS, InFolder, strace_works

FILES = EXAMPLES / 'tutorial'
PAGE = (TOOLS.parent / 'docs' / 'TUTORIAL.md').read_text(encoding='utf-8')
BLOCK = re.compile(r'(?<=\n\n)(?:    .*\n|\n+(?=    ))+')
OWNERS, NOBODY = re.compile(r'"(owner|group)":"[^"]*"'), r'"\1":"nobody"'
END = '--- the end of a command ---'
RECORDER = 'crashfs-record '
# The page shows the tools without the proved program, and what is printed may differ in these.
UNPROVED = re.compile(r'^unproved: .*\n', re.M)
LAST_STATE = re.compile(r"\(by (crashfs tar|the recorder's replay)\)")


def blocks() -> List[str]:
    """The page's indented blocks, without their indentation."""
    return [re.sub('^    ', '', one, flags=re.M) for one in BLOCK.findall(PAGE)]


def commands() -> List[Tuple[str, str]]:
    """Each command of the page, and what the page says that it prints."""
    text = ''.join(one for one in blocks() if one.startswith('$ '))
    parts = [one.partition('\n') for one in re.split(r'^\$ ', text, flags=re.M)[1:]]
    return [(command, printed) for command, _, printed in parts]


def unfolded(text: str) -> str:
    """A text without its line ends, and without what hangs on the program that is there."""
    text = ' '.join(UNPROVED.sub('', PROGRESS.sub('', text)).split())
    return LAST_STATE.sub('(by ..)', OWNERS.sub(NOBODY, text))


def without_recorder(shown: List[Tuple[str, str]]) -> List[Tuple[str, str]]:
    """The commands for a reader without strace: they take the traces that are kept."""
    copied = next(place for place, (command, _) in enumerate(shown) if command.startswith('cp '))
    shown = [*shown[: copied + 1], ('cp "$TUTORIAL"/*.trace .', ''), *shown[copied + 1 :]]
    return [one for one in shown if not one[0].startswith((RECORDER, 'head '))]


class Tutorial(InFolder):
    def run_all(self, lines: List[str]) -> List[str]:
        """What each command prints, in one shell that begins in the clone."""
        script = ''.join(f'{line}\necho "{END}"\n' for line in lines)
        ran = subprocess.run(
            ['bash', '-c', 'umask 022\n' + script],
            cwd=TOOLS.parent,
            text=True,
            stdout=subprocess.PIPE,
            stderr=subprocess.STDOUT,
            timeout=PATIENCE,
            stdin=subprocess.DEVNULL,
            check=False,
            env={**os.environ, **self.environment(None)},
        )
        return ran.stdout.split(END + '\n')[:-1]

    def assert_page(self, shown: List[Tuple[str, str]]) -> None:
        toy = self.path('toy')
        printed = self.run_all([command.replace('/tmp/toy', toy) for command, _ in shown])
        self.assertEqual(len(printed), len(shown), printed[-1:])
        for (command, wanted), found in zip(shown, printed):
            with self.subTest(command):
                self.assertEqual(unfolded(found.replace(toy, '/tmp/toy')), unfolded(wanted))

    def assert_traces(self) -> None:
        """The traces that are kept are those that were recorded now."""
        for kept in FILES.glob('*.trace'):
            with self.subTest(kept.name):
                found, wanted = (
                    read_trace(OWNERS.sub(NOBODY, text))
                    for text in (self.read(f'toy/{kept.name}'), kept.read_text(encoding='utf-8'))
                )
                self.assertEqual((found.start, found.operations), (wanted.start, wanted.operations))

    def test_the_commands_print_what_the_page_shows(self):
        if strace_works():
            self.assert_page(commands())
            self.assert_traces()
        else:
            self.assert_page(without_recorder(commands()))
            self.skipTest('strace is not there, or may not trace: nothing was recorded')

    def test_the_code_that_the_page_shows_is_that_of_the_files(self):
        code = ''.join((FILES / name).read_text(encoding='utf-8') for name in ('kv.py', 'check.py'))
        shown = [one for one in blocks() if not one.startswith('$ ')]
        self.assertEqual(len(shown), 2)
        for one in shown:
            self.assertIn(one, code)

    def test_the_page_has_each_trace(self):
        self.assertEqual(
            {one.name for one in FILES.glob('*.trace')},
            set(re.findall(r'\w+\.trace', ' '.join(one for one, _ in commands()))),
        )


if __name__ == '__main__':
    unittest.main()
