"""How the tools write their own files, recorded and checked: no crash loses what they printed."""

import os
import sys
import unittest

from .support import FAKE, TOOLS, InFolder, needs_strace, needs_version_3

# Writes a file twice as the tools write traces and reports, and acknowledges each.
SAVE = f"""
import sys
sys.path.insert(0, {str(TOOLS)!r})
from crashfs_tools.common.whole_files import write_whole_file
for version in (1, 2):
    write_whole_file('report.json', ['version ', f'{{version}}\\n'])
    print('saved', version, flush=True)
"""
# The file is whole, and not older than what was printed.
CHECK = """
import os, sys
said = int(os.environ['CRASHFS_SAYS'])
found = open('report.json').read() if os.path.exists('report.json') else 'version 0\\n'
if found not in [f'version {version}\\n' for version in range(said, 3)]:
    sys.exit(f'lost: {found}')
"""


@needs_strace
@needs_version_3
class OwnSaver(InFolder):
    def test_no_state_fails(self):
        os.mkdir(self.path('d'))
        save, check = self.write('save.py', SAVE), self.write('check.py', CHECK)
        python = [sys.executable, '-S']
        ran = self.run_tool('crashfs-record', 'd', 'out.trace', '--', *python, save)
        self.assertEqual(ran.returncode, 0, ran.stderr)
        ran = self.run_tool('crashfs-check', '--crashfs', FAKE, 'out.trace', '--', *python, check)
        self.assertEqual(ran.returncode, 0, ran.stdout + ran.stderr)
        self.assertIn('none fails', ran.stdout)


if __name__ == '__main__':
    unittest.main()
