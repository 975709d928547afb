"""--ignore has the rules of .gitignore."""

import json
import os
import shutil
import subprocess
import unittest
import warnings
from typing import List, Set, Tuple

from crashfs_tools.recorder.ignore import IgnoreRules

from .support import InFolder, needed, needs_strace

Case = Tuple[List[str], str, bool]
# Nothing is there, so each path may be that of a directory.
NOWHERE = '/nowhere'

# (the patterns, a path, whether it is left out)
CASES: List[Case] = [
    (['LOG'], '/db/LOG', True),
    (['LOG'], '/LOG', True),
    (['LOG'], '/LOGS', False),
    (['LOG'], '/LOG/a/b', True),
    (['/LOG'], '/db/LOG', False),
    (['/LOG'], '/LOG', True),
    (['db/LOG'], '/db/LOG', True),
    (['db/LOG'], '/x/db/LOG', False),
    (['**/db/LOG'], '/x/db/LOG', True),
    (['**/db/LOG'], '/db/LOG', True),
    (['db/**'], '/db/x/y', True),
    (['db/**'], '/db', False),
    (['a/**/b'], '/a/b', True),
    (['a/**/b'], '/a/x/y/b', True),
    (['a/*/b'], '/a/x/b', True),
    (['a/*/b'], '/a/x/y/b', False),
    (['a/**x/b'], '/a/y/x/b', False),
    (['*-shm'], '/x/test.db-shm', True),
    (['x/*'], '/x/a', True),
    (['/x*'], '/y/x', False),
    (['a?c'], '/abc', True),
    (['a?c'], '/a/c', False),
    (['[a-c]x'], '/bx', True),
    (['[!a-c]x'], '/bx', False),
    (['log/'], '/db/log/x', True),
    (['*.tmp', '!keep.tmp'], '/keep.tmp', False),
    (['*.tmp', '!keep.tmp'], '/a.tmp', True),
    (['d', '!d/a'], '/d/a', True),
    (['\\!x'], '/!x', True),
    (['a.b'], '/axb', False),
    (['a[!x]b'], '/a/b', False),
    (['x[a/b]y'], '/x/y', False),
    (['x[a//b]y'], '/xay', True),
    (['x?y', 'a*b'], '/x\ny', True),
    (['a**'], '/a\nb', True),
    (['[[:digit:]]x'], '/7x', True),
    (['[[:digit:]]x'], '/ax', False),
    (['[]a]x'], '/]x', True),
    ([], '/x', False),
    (['*', '!x'], '/', False),
    (['**', '!x'], '/', False),
    (['*/', '!x'], '/', False),
    (['*', '!x'], '/x', False),
    (['*', '!x'], '/y', True),
    (['[!]a]x'], '/]x', False),
    (['[\\]]x'], '/]x', True),
    (['[a\\]b]x'], '/]x', True),
    (['[\\\\]x'], '/\\x', True),
    (['[\\a-c]x'], '/bx', True),
    (['[a-\\c]x'], '/bx', True),
    (['[a-\\c]x'], '/\\x', False),
    (['[[a]x'], '/[x', True),
    (['[a&&b]x'], '/&x', True),
    (['[a||b]x'], '/|x', True),
    (['[a~~b]x'], '/~x', True),
    (['[a--b]x'], '/ax', True),
    (['[a--b]x'], '/bx', True),
    (['[a--b]x'], '/-x', False),
    (['[--a]x'], '/Ax', True),
    (['[a-]x'], '/-x', True),
    (['[a-c-e]x'], '/dx', False),
    (['[a-c-e]x'], '/-x', True),
    (['[z-a]x'], '/zx', True),
    (['[z-a]x'], '/mx', False),
    (['[[:digit:]-a]x'], '/-x', True),
    (['[[:punct:]]x'], '/-x', True),
    (['[![:punct:]]x'], '/-x', False),
    (['[[:]x'], '/:x', True),
    (['[[:a]x'], '/[x', True),
    (['[:digit:]x'], '/7x', False),
    (['a**b'], '/a/x/b', False),
    (['a**b'], '/axb', True),
    (['/a**b'], '/a/x/b', False),
    (['/foo**bar'], '/foo/bar', False),
    (['/foo**bar'], '/fooxbar', True),
    (['a**/b'], '/ax/b', True),
    (['a/**b'], '/a/xb', True),
    (['a/**b'], '/a/x/b', False),
    (['a/***/b'], '/a/x/y/b', True),
    (['a/**\\/b'], '/a/x/y/b', True),
    (['a/**\\/b'], '/a/b', False),
    (['**'], '/a/b', True),
    (['**x'], '/a/bx', True),
]
# Versions of git that compare `a` first, and take the rest as a whole pattern, say otherwise.
OWN_CASES: List[Case] = [(['a**/b'], '/ax/y/b', False), (['a**/b'], '/ab', False)]
# The classes that git knows, and patterns that match nothing in git, with why they are refused.
CLASSES = 'alnum alpha blank cntrl digit graph lower print punct space upper xdigit'.split()
NEVER_MATCH = {
    '[a': 'has no end',
    '[]': 'has no end',
    '[!]': 'has no end',
    'x[a\\]': 'has no end',
    '[a\\': 'has no end',
    '[[:digit:]': 'has no end',
    '[[:word:]]': 'is no class of letters',
    '[[::]]': 'is no class of letters',
    'a\\': 'ends in a backslash',
    '': 'has an empty name',
    '/': 'has an empty name',
    '!//': 'has an empty name',
    'a//b': 'has an empty name',
}


class Patterns(unittest.TestCase):
    def test_what_each_pattern_leaves_out(self):
        for globs, path, wanted in [*CASES, *OWN_CASES]:
            with self.subTest(f'{globs} {path}'), warnings.catch_warnings():
                warnings.simplefilter('error')
                self.assertEqual(IgnoreRules(globs, NOWHERE)(path), wanted)

    def test_a_pattern_that_never_matches_is_refused(self):
        for glob, why in NEVER_MATCH.items():
            with self.subTest(glob), self.assertRaisesRegex(ValueError, why):
                IgnoreRules([glob], NOWHERE)


class RemovedFiles(InFolder):
    def test_a_pattern_of_directories_matches_no_path_of_a_file_that_was_removed(self) -> None:
        rules = IgnoreRules(['x/', 'y'], self.folder)
        paths = ['/x', '/a/x', '/y', '/b/x']
        self.assertEqual([rules(path) for path in paths], [True] * 4)
        rules.add_removed_files(paths[:3])
        self.assertEqual([rules(path) for path in paths], [False, False, True, True])

    def test_what_is_there_now_decides_as_before(self) -> None:
        os.mkdir(self.path('x'))
        rules = IgnoreRules(['x/'], self.folder)
        rules.add_removed_files(['/x'])
        self.assertTrue(rules('/x'))

    @needs_strace
    def test_the_log_says_what_a_path_was(self) -> None:
        os.makedirs(self.path('d', 'e', 'x'))
        os.mkdir(self.path('d', 'f'))
        self.write('d/f/x', 'a file that is there from the start')
        script = 'echo 1 > x; mv x y; echo 1; mkdir -p a/x; echo 2 > a/x/b; sync a/x; rm -r a/x'
        words = ('--ignore', 'x/', 'd', 'out.trace', '--', 'sh', '-c', script)
        ran = self.run_tool('crashfs-record', *words)
        self.assertEqual(ran.returncode, 0, ran.stderr)
        operations = [json.loads(line) for line in self.read('out.trace').splitlines()[1:]]
        paths = [operation.get('path', operation.get('from')) for operation in operations]
        self.assertEqual(paths, ['/e', '/f', '/f/x', '/x', '/x', '/x', None, '/a'])


@needed(shutil.which('git') is not None, 'git is not there')
class AsGit(InFolder):
    """What git itself says, which has each list of patterns in a directory of its own."""

    def ignored(self, cases: List[Case]) -> Set[int]:
        """The places of the cases whose path git leaves out."""
        environment = {**os.environ, 'GIT_CONFIG_GLOBAL': os.devnull, 'GIT_CONFIG_NOSYSTEM': '1'}
        subprocess.run(['git', 'init', '-q', self.folder], check=True, env=environment)
        paths = []
        for place, (globs, path, _) in enumerate(cases):
            os.mkdir(self.path(f'{place}'))
            self.write(f'{place}/.gitignore', ''.join(f'{glob}\n' for glob in globs))
            paths.append(f'{place}{path}'.rstrip('/') + '\0')
        ran = subprocess.run(
            ['git', 'check-ignore', '--no-index', '-z', '--stdin'],
            input=''.join(paths),
            cwd=self.folder,
            env=environment,
            stdout=subprocess.PIPE,
            text=True,
            check=False,
        )
        self.assertIn(ran.returncode, (0, 1))
        return {int(path.split('/')[0]) for path in ran.stdout.split('\0') if path}

    def assert_as_git(self, cases: List[Case]) -> None:
        found = self.ignored(cases)
        for place, (globs, path, wanted) in enumerate(cases):
            with self.subTest(f'{globs} {path}'):
                self.assertEqual(place in found, wanted)

    def test_git_leaves_the_same_out(self) -> None:
        self.assert_as_git(CASES)

    def test_each_class_has_the_letters_of_gits(self) -> None:
        letters = [chr(code) for code in range(1, 128) if chr(code) != '/']
        patterns = [(f'[[:{name}:]]x', letter) for name in CLASSES for letter in letters]
        self.assert_as_git(
            [
                ([glob], f'/{letter}x', IgnoreRules([glob], NOWHERE)(f'/{letter}x'))
                for glob, letter in patterns
            ]
        )

    def test_a_path_of_many_names_is_found_by_each_of_them(self) -> None:
        deep = '/a' * 2000
        for path, wanted in ((f'/x{deep}', True), (f'{deep}/x', True), (deep, False)):
            rules = IgnoreRules(['x'], NOWHERE)
            self.assertIs(rules(path), wanted)
            self.assertIs(rules(path), wanted)

    def test_git_leaves_nothing_out_by_what_is_refused(self) -> None:
        self.assert_as_git([([glob], f'/{glob}', False) for glob in NEVER_MATCH])


if __name__ == '__main__':
    unittest.main()
