"""The action for GitHub: its steps, run here with a substitute for what GitHub gives them."""

from __future__ import annotations

import os
import re
import subprocess
import unittest
from typing import Dict, List

from .support import EXAMPLES, PATIENCE, TOOLS, InFolder, needs_strace

ACTION = (TOOLS.parent / 'action.yml').read_text('utf-8')
STEP = re.compile(r'^      run: \|\n((?:        .*\n|\n)+)', re.M)
KV, CHECK = (EXAMPLES / 'tutorial' / name for name in ('kv.py', 'check.py'))
PUTS = 'a=1 a=2 b=3'
# As `sudo apt-get install .. PACKAGE` does, without root and a network.
SUDO = '#!/bin/sh\necho "$@" >>"$INSTALLED"\n'


def steps() -> List[str]:
    """The shell scripts of the action, in their order."""
    return [re.sub('^        ', '', one, flags=re.M) for one in STEP.findall(ACTION)]


class Steps(InFolder):
    def run_step(self, script: str, path: str, inputs: Dict[str, str]) -> int:
        given = {
            'GITHUB_ACTION_PATH': str(TOOLS.parent),
            'GITHUB_PATH': self.path('paths'),
            'INSTALLED': self.path('installed'),
            'DIRECTORY': 'store',
            'SESSION': f'{KV} {PUTS}',
            'CHECK': f'{CHECK} {KV} 0 {PUTS}',
            'OPTIONS': '--jobs 2',
            'REPORT': 'crash-states',
        }
        return subprocess.run(
            ['bash', '-e', '-c', script],
            cwd=self.folder,
            timeout=PATIENCE,
            stdin=subprocess.DEVNULL,
            stdout=subprocess.DEVNULL,
            stderr=subprocess.DEVNULL,
            check=False,
            env={**os.environ, **self.environment(path), **given, **inputs},
        ).returncode

    def install(self, package: str) -> str:
        """Runs the first step, and returns what it would install."""
        os.makedirs(self.path('bin'), exist_ok=True)
        self.write('bin/sudo', SUDO, 0o755)
        path = f'{self.path("bin")}:{os.environ["PATH"]}'
        self.assertEqual(self.run_step(steps()[0], path, {'PACKAGE': package}), 0)
        return self.read('installed')

    def test_with_a_package_it_is_installed(self) -> None:
        package = self.write('crashfs.deb', '')
        self.assertIn(f'strace {os.path.realpath(package)}', self.install(package))
        self.assertFalse(os.path.exists(self.path('paths')))

    @needs_strace
    def test_without_a_package_the_tools_of_the_repository_make_the_report(self) -> None:
        self.assertIn('strace python3', self.install(''))
        path = f'{self.read("paths").strip()}:{os.environ["PATH"]}'
        self.assertEqual(self.run_step(steps()[1], path, {}), 0)
        self.assertEqual(
            sorted(os.listdir(self.path('crash-states'))),
            ['report.html', 'report.json', 'report.xml', 'session.trace'],
        )


if __name__ == '__main__':
    unittest.main()
