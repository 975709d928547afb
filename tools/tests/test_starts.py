"""How often a check starts `crashfs`, and for what."""

from __future__ import annotations

import os
import shutil
import unittest
from typing import List

from crashfs_tools.common.program import Crashfs

from .support import EXAMPLES, FAKE, InFolder

CONFIG = EXAMPLES / 'config'
# Writes a line for each start, and is the second reading.
PROGRAM = """\
#!/bin/sh
echo "$*" >> {0}
exec {1} "$@"
"""


class Starts(InFolder):
    def setUp(self) -> None:
        super().setUp()
        for name in ('config.trace', 'check.sh'):
            shutil.copy(CONFIG / name, self.path(name))
        self.program = self.write('crashfs', PROGRAM.format(self.path('starts'), FAKE), 0o755)

    def starts(self) -> List[str]:
        """What the program was asked since the last time, without the path of the trace."""
        lines = self.read('starts').splitlines()
        os.unlink(self.path('starts'))
        return [' '.join(line.replace(self.folder, '').split()) for line in lines]

    def check(self, *options: str) -> List[str]:
        ran = self.run_tool(
            'crashfs-check',
            *('--crashfs', self.program, '--jobs', '1', *options, 'config.trace'),
            *('--', self.path('check.sh')),
        )
        self.assertIn(ran.returncode, (0, 1), ran.stderr)
        return self.starts()

    def test_a_plan_without_more_families_is_asked_for_once(self) -> None:
        for option in ('--quick', '--prefixes'):
            starts = self.check(option)
            holes = ' --holes' if option == '--quick' else ''
            wanted = f'list --trace /config.trace{holes} --json'
            self.assertEqual(
                [it for it in starts if 'config.trace' in it and it[0] != 't'], [wanted]
            )

    def test_two_trees_are_asked_for_at_once(self) -> None:
        program = Crashfs(self.program)
        words = ['--trace', self.path('config.trace'), '--states', '0,3']
        trees = dict(program.trees(words))
        self.assertEqual(len(self.starts()), 1)
        for number, tree in trees.items():
            self.assertEqual(tree.pop('/').data, None)
            self.assertEqual(tree, program.tree_of_state(self.path('config.trace'), number))
        self.assertEqual(set(trees), {0, 3})


if __name__ == '__main__':
    unittest.main()
