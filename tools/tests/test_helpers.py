"""The packages for Go, Rust and C++ that run crash states as tests. Each has an example store,
whose test passes with its syncs and fails without them."""

import json
import os
import re
import shutil
import subprocess
import tempfile
import unittest
from pathlib import Path

from .support import PATIENCE, TOOLS

HELPERS = TOOLS.parent / 'helpers'
# What each report has of the store without syncs, whatever the language.
FOUND = (
    'fsync /config.new between them',
    '(rename /config.new to /config) was not durable when line 5 acknowledged "version 1":',
    'the directory / is never synced: fsync it between them',
)

# The entry of the second sentence as a known failure, with its causes in the three examples.
CAUSES = 'lost: there is no configuration', 'lost: a version that was saved is not there'
ACCEPTED = [
    {
        'cause': cause,
        'lost': 'rename /config.new to /config',
        'kept': 'say',
        'why': 'the example has this bug',
    }
    for cause in CAUSES
]


# The sources of each package, and the most lines that all of them may have.
PACKAGES = {
    'go': ['crashstates/crashstates.go'],
    'rust': ['src/lib.rs'],
    'cpp': ['crash_states.hpp'],
}
MOST_LINES = 200
GO_TEST = 'go', 'test', '-count=1', './...'
CARGO_TEST = 'cargo', 'test', '--offline', '-q'
FORMATTERS = {
    'go': ['gofmt', '-l', '.'],
    'rust': ['rustfmt', '--check', '--edition', '2021', 'src/lib.rs', 'tests/example.rs'],
    'cpp': ['clang-format', '--dry-run', '--Werror', 'crash_states.hpp', 'example_test.cpp'],
}


def needs(*programs):
    lacking = [name for name in programs if shutil.which(name) is None]
    return unittest.skipIf(bool(lacking), f'{" and ".join(lacking)} not installed')


@needs('strace')
class Helpers(unittest.TestCase):
    def setUp(self):
        folder = tempfile.TemporaryDirectory()
        self.addCleanup(folder.cleanup)
        self.folder = Path(folder.name)

    def copy_of(self, helper):
        """A copy of the helper's folder."""
        copy = self.folder / helper
        if not copy.exists():
            shutil.copytree(HELPERS / helper, copy)
        return copy

    def change(self, helper, name, old, new):
        """Changes a file in the copy of the helper's folder."""
        path = self.copy_of(helper) / name
        text = path.read_text()
        self.assertEqual(text.count(old), 1, text)
        path.write_text(text.replace(old, new))

    def run_in(self, helper, *words, **variables):
        """Runs a command in a copy of the helper's folder, with the traces that it keeps there."""
        copy = self.copy_of(helper)
        variables = {'CRASHFS_TOOLS': str(TOOLS), 'TMPDIR': str(self.folder), **variables}
        return subprocess.run(
            words,
            cwd=copy,
            env={**os.environ, **variables},
            stdout=subprocess.PIPE,
            stderr=subprocess.STDOUT,
            text=True,
            timeout=PATIENCE,
        )

    def check(self, helper, *words, **variables):
        """The example passes. Without its syncs each sentence of the report is printed, but not the
        one of a known failure."""
        ran = self.run_in(helper, *words, **variables)
        self.assertEqual(ran.returncode, 0, ran.stdout)
        ran = self.run_in(helper, *words, EXAMPLE_BUG='1', **variables)
        self.assertNotEqual(ran.returncode, 0)
        for sentence in FOUND:
            self.assertIn(sentence, ran.stdout)
        known = self.folder / 'known.json'
        known.write_text(json.dumps(ACCEPTED))
        variables.update(EXAMPLE_BUG='1', EXAMPLE_ACCEPT=str(known))
        accepted = self.run_in(helper, *words, **variables)
        self.assertIn(FOUND[0], accepted.stdout)
        self.assertNotIn(FOUND[1], accepted.stdout)
        return ran.stdout

    def make_cpp(self):
        """Compiles the test in the copy of the C++ helper's folder; returns the executable."""
        if not os.path.exists('/usr/include/gtest/gtest.h'):
            self.skipTest('googletest not installed')
        program = str(self.folder / 'example_test')
        words = ['g++', '-std=c++17', '-Wall', '-Wextra', '-Werror', 'example_test.cpp']
        made = self.run_in('cpp', *words, '-o', program, '-lgtest', '-lgtest_main', '-lpthread')
        self.assertEqual((made.returncode, made.stdout), (0, ''))
        return program

    @needs('go')
    def test_each_entry_is_a_subtest_of_go(self):
        printed = self.check('go', *GO_TEST, GOTOOLCHAIN='local')
        self.assertIn('--- FAIL: TestCrashStates/lost:_there_is_no_configuration', printed)

    @needs('go')
    def test_a_panic_in_go_is_the_cause(self):
        self.change('go', 'example/store_test.go', 'fmt.Errorf("lost: there is no', 'panicked("no')
        store = self.copy_of('go') / 'example' / 'store_test.go'
        store.write_text(store.read_text() + 'func panicked(text string) error { panic(text) }\n')
        ran = self.run_in('go', *GO_TEST, EXAMPLE_BUG='1')
        self.assertIn('--- FAIL: TestCrashStates/panic:_no_configuration', ran.stdout)
        self.assertIn(FOUND[1], ran.stdout)

    @needs('go')
    def test_what_a_store_in_go_prints_is_not_acknowledged(self):
        self.change('go', 'example/store.go', '	saved := path', '	println(path)\n	saved := path')
        self.change('go', 'example/store.go', 'import "os"', 'import ("fmt"; "os")')
        self.change('go', 'example/store.go', '	println(', '	fmt.Println(')
        ran = self.run_in('go', *GO_TEST)
        self.assertEqual(ran.returncode, 0, ran.stdout)

    @needs('go')
    def test_a_suite_in_go_that_never_serves_is_told_so(self):
        self.change('go', 'example/store_test.go', '	crashstates.Serve(session, recovery)\n', '')
        self.change(
            'go',
            'example/store_test.go',
            'func TestMain',
            'var _, _ = session, recovery\n\nfunc TestMain',
        )
        ran = self.run_in('go', *GO_TEST)
        self.assertEqual(ran.returncode, 1)
        self.assertIn('TestMain must call crashstates.Serve before m.Run', ran.stdout)

    @needs('go')
    def test_a_command_that_is_not_found_is_named(self):
        ran = self.run_in('go', *GO_TEST, CRASHFS_TOOLS='/nowhere')
        self.assertIn('/nowhere/crashfs-record: no such file or directory (set ', ran.stdout)

    @needs('cargo', 'rustc')
    def test_each_entry_is_in_the_message_of_a_test_of_rust(self):
        printed = self.check('rust', *CARGO_TEST)
        self.assertIn('\nlost: there is no configuration\n  line 4 (rename ', printed)

    @needs('cargo', 'rustc')
    def test_a_panic_in_rust_is_the_cause(self):
        error = 'Err("lost: there is no configuration".into())'
        self.change('rust', 'tests/example.rs', error, 'panic!("lost: {}", "a panic")')
        self.change('rust', 'tests/example.rs', '#[test]', '#[test]\n#[ignore]')
        ran = self.run_in('rust', *CARGO_TEST, '--', '--include-ignored', EXAMPLE_BUG='1')
        self.assertIn('\nlost: a panic\n  line 4 (rename ', ran.stdout)

    @needs('cargo', 'rustc')
    def test_a_wrong_name_of_a_test_of_rust_is_named(self):
        self.change('rust', 'tests/example.rs', '#[test]\n', 'mod tests {use super::*;\n#[test]\n')
        example = self.copy_of('rust') / 'tests' / 'example.rs'
        example.write_text(example.read_text() + '}\n')
        ran = self.run_in('rust', *CARGO_TEST)
        self.assertEqual(ran.returncode, 101)
        wanted = 'this test is tests::every_crash_state, not every_crash_state'
        self.assertIn(wanted, ran.stdout)

    @needs('g++')
    def test_each_entry_is_a_failure_of_googletest(self):
        program = self.make_cpp()
        printed = self.check('cpp', program)
        self.assertEqual(len(re.findall(r'example_test.cpp:\d+: Failure\n', printed)), 2)
        # Of three tests it is the last, and the only one that it starts itself.
        shard = {'GTEST_TOTAL_SHARDS': '3', 'GTEST_SHARD_INDEX': '2'}
        self.assertIn(FOUND[1], self.run_in('cpp', program, EXAMPLE_BUG='1', **shard).stdout)

    @needs('g++')
    def test_an_assertion_of_googletest_is_the_cause(self):
        lost = 'expect(content >= last, "lost: a version that was saved is not there")'
        self.change('cpp', 'example_test.cpp', lost, 'ASSERT_GE(content, last) << "lost"')
        ran = self.run_in('cpp', self.make_cpp(), EXAMPLE_BUG='1')
        cause = 'Expected: (content) >= (last), actual: "" vs "version 1" lost\n  line 4 (rename '
        self.assertIn(cause, ran.stdout)

    def test_the_packages_are_small_and_formatted(self):
        for helper, names in PACKAGES.items():
            texts = [(HELPERS / helper / name).read_text() for name in names]
            self.assertLess(sum(text.count('\n') for text in texts), MOST_LINES, helper)
            if shutil.which(FORMATTERS[helper][0]):
                ran = self.run_in(helper, *FORMATTERS[helper])
                self.assertEqual((ran.returncode, ran.stdout), (0, ''))


if __name__ == '__main__':
    unittest.main()
