"""A saver of a configuration in four ways, recorded and checked: how many of its states fail."""

import inspect
import os
import sys
import unittest

from .support import FAKE, TOOLS, InFolder, needs_strace, needs_version_3


def text_of(version):
    """A version of 5,011 bytes, so of two blocks."""
    return ('version=%d\n' % version + 1252 * ('%03d\n' % version))[:5011]


TEXT_OF = inspect.getsource(text_of)
# Stores three versions, and tells each. The first word says how.
SAVER = (
    TEXT_OF
    + """
import os, sys
def sync(path):
    file = os.open(path, os.O_RDONLY)
    os.fsync(file)
    os.close(file)
way = sys.argv[1]
for version in (1, 2, 3):
    name = 'config' if way == 'in place' else 'config.new'
    with open(name, 'w') as file:
        file.write(text_of(version))
    if way != 'by a rename':
        sync(name)
    if way != 'in place':
        os.rename(name, 'config')
    if way == 'with both syncs':
        sync('.')
    os.write(1, b'version %d is saved\\n' % version)
"""
)
# The file has a version, whole, which isn't older than what was told.
CHECK = (
    TEXT_OF
    + """
import os, sys
with open('config') as file:
    text = file.read()
whole = [version for version in range(4) if text == text_of(version)]
if not whole:
    sys.exit('corrupt: no version is whole')
if whole[0] < int(os.environ['CRASHFS_SAYS']):
    sys.exit('lost: an older version')
"""
)

# Two reports that the tools' own saver writes, and what must be found of them.
OWN_SAVER = f"""
import os, sys
sys.path.insert(0, {str(TOOLS)!r})
from crashfs_tools.common.whole_files import write_whole_file
for version in (1, 2):
    write_whole_file('r.json', (f'version {{version}}, line {{line}}\\n' for line in range(900)))
    os.write(1, b'written\\n')
"""
OWN_CHECK = """
import os, sys
lines = open('r.json').readlines() if os.path.exists('r.json') else []
if lines and lines != [f'version {lines[0][8]}, line {line}\\n' for line in range(900)]:
    sys.exit('corrupt: the report is not whole')
if int(lines[0][8] if lines else 0) < int(os.environ['CRASHFS_SAYS']):
    sys.exit('lost: a report that was written')
"""

# The way, its micro-operations, its crash states, the sets that leave them, and how many fail.
WAYS = [
    ('in place', 15, 25, 37, 18),
    ('by a rename', 18, 176, 7512, 154),
    ('synced before it', 18, 34, 106, 12),
    ('with both syncs', 18, 22, 52, 0),
]


@needs_strace
@needs_version_3
class Savers(InFolder):
    def first_line(self, way: str) -> str:
        """What crashfs-check tells of the saver that saves in that way."""
        os.mkdir(self.path(way))
        self.write(f'{way}/config', text_of(0))
        ran = self.run_tool(
            'crashfs-record',
            way,
            'out.trace',
            '--',
            sys.executable,
            '-S',
            self.path('saver.py'),
            way,
        )
        self.assertEqual(ran.returncode, 0, ran.stderr)
        self.assertIn('its last state equals the directory', ran.stderr)
        ran = self.run_tool(
            'crashfs-check',
            '--crashfs',
            FAKE,
            'out.trace',
            '--',
            sys.executable,
            '-S',
            self.path('check.py'),
        )
        self.assertEqual(ran.stderr, '')
        return ran.stdout.splitlines()[0]

    def test_so_many_states_fail(self):
        os.umask(0o022)
        self.write('saver.py', SAVER)
        self.write('check.py', CHECK)
        for way, operations, states, sets, failing in WAYS:
            with self.subTest(way):
                line = self.first_line(way)
                begin = f'out.trace: {operations} micro-operations, all {states:,} crash states '
                begin += f'({sets:,} sets): {f"{failing:,} fail: " if failing else "none fails"}'
                self.assertEqual(line[: len(begin)], begin)

    def test_no_state_fails_of_the_tools_own_files(self):
        os.mkdir(self.path('own'))
        for name, text in [('saver.py', OWN_SAVER), ('check.py', OWN_CHECK)]:
            self.write(name, text)
        saver = [sys.executable, '-S', self.path('saver.py')]
        ran = self.run_tool('crashfs-record', 'own', 'own.trace', '--', *saver)
        self.assertEqual(ran.returncode, 0, ran.stderr)
        check = [sys.executable, '-S', self.path('check.py')]
        ran = self.run_tool('crashfs-check', '--crashfs', FAKE, 'own.trace', '--', *check)
        self.assertEqual((ran.returncode, ran.stderr), (0, ''), ran.stdout)


if __name__ == '__main__':
    unittest.main()
