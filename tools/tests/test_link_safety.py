"""Nothing is written, changed or removed through a symbolic link, whoever made it."""

import os
import subprocess
import unittest
from unittest import mock

from crashfs_tools.checker.running.runner import AcknowledgedLines
from crashfs_tools.checker.states import kept_tree
from crashfs_tools.checker.states.kept_tree import KeptTree
from crashfs_tools.checker.states.layout import lay_out
from crashfs_tools.common import removal
from crashfs_tools.common.entry import Entry
from crashfs_tools.common.removal import remove_tree, set_folder_mode

from .support import InFolder
from .test_kept_tree import file, folder, listing


def link(target: str) -> Entry:
    return Entry('u', 'g', 0o777, None, target)


TREE = {
    '': folder(),
    'a': file('one'),
    'd': folder(0o750),
    'd/c': file('two', 0o600),
    'd/e': folder(0o500),
    'd/e/f': file(''),
    'l': link('d'),
    'm': link('/nowhere/at all'),
    'self': link('self'),
}
# What COMMAND may leave, in a shell: OUT is a directory that is not the state's.
DEEDS = [
    'rm -r d; ln -s "$OUT" d',
    'rm -r d; ln -s .. d',
    'rm -r d; ln -s d d',
    'chmod 700 d/e; rm -r d/e; ln -s "$OUT" d/e',
    'chmod 700 d/e; mv d/e x; ln -s ../x d/e',
    'rm a; ln -s "$OUT/file" a',
    'rm d/c; ln -s "$OUT/file" d/c',
    'rm l; ln -s "$OUT" l',
    'rm l; mkdir l; ln -s "$OUT" l/l',
    'mkdir -p n/o; ln -s "$OUT" n/o/p; chmod 0 n/o; chmod 0 n',
    'ln -s / n; ln -s .. o; ln -s . p; ln -s q q',
    'chmod 0 d/e d; ln -s "$OUT/closed" n',
    'here=$PWD; cd /; rm -r "$here"; ln -s "$OUT" "$here"',
    'ln -s "$OUT" "$PWD.left"',
]


def times(directory: str):
    """When the files of a directory, and it, were last changed in any way."""
    paths = [directory] + [os.path.join(directory, path) for path in listing(directory)]
    return {path: os.lstat(path).st_ctime_ns for path in paths}


class Safety(InFolder):
    def setUp(self):
        super().setUp()
        self.outside = self.path('outside')
        os.makedirs(os.path.join(self.outside, 'closed', 'inner'))
        os.mkdir(os.path.join(self.outside, 'e'), 0o500)
        for name in ('file', 'f', 'c', 'l', 'closed/inner/file'):
            self.write(f'outside/{name}', 'precious', 0o400)
        os.chmod(os.path.join(self.outside, 'closed'), 0o500)
        self.before = listing(self.outside), times(self.outside)
        self.wanted = {path: (one.mode, one.data, one.link) for path, one in TREE.items()}

    def assert_untouched(self):
        self.assertEqual((listing(self.outside), times(self.outside)), self.before)

    def do(self, deed: str, directory: str):
        subprocess.run(
            ['sh', '-c', deed], cwd=directory, check=True, env={**os.environ, 'OUT': self.outside}
        )

    def found(self, directory: str):
        """What is laid out, in the form of `wanted`."""
        found = {}
        for path, (mode, _, data, _) in listing(directory).items():
            full = os.path.join(directory, path)
            target = os.readlink(full) if os.path.islink(full) else None
            found['' if path == '.' else path] = (mode & 0o777, data, target)
        return found

    def test_a_tree_that_is_kept(self):
        for number, deed in enumerate(DEEDS):
            with self.subTest(deed), mock.patch.object(kept_tree, 'TICK_SECONDS', 0.0):
                kept = KeptTree(self.path(f'kept-{number}'))
                kept.change_to(TREE)
                self.assertEqual(self.found(kept.directory), self.wanted)
                kept.note_start()
                self.do(deed, kept.directory)
                self.assert_untouched()
                try:
                    kept.change_to(TREE)
                    self.assertEqual(self.found(kept.directory), self.wanted)
                    kept.remove()
                    self.assertFalse(os.path.lexists(kept.directory))
                except OSError:  # It may be refused, but not done elsewhere.
                    self.assertIn('.left', deed)
                self.assert_untouched()

    def test_a_tree_that_is_laid_out_and_removed(self):
        for number, deed in enumerate(DEEDS):
            with self.subTest(deed):
                directory = self.path(f'state-{number}')
                lay_out(directory, TREE.items())
                self.assertEqual(self.found(directory), self.wanted)
                self.do(deed, directory)
                try:
                    self.assertTrue(remove_tree(directory))
                    self.assertFalse(os.path.lexists(directory))
                except OSError:
                    self.assertIn('.left', deed)
                self.assert_untouched()

    def test_a_tree_that_has_files_below_a_link(self):
        """No program makes such an archive."""
        for inner in (file('x'), folder(0), link('x')):
            for name in ('e', 'new'):
                tree = {'': folder(), 'l': link(self.outside), f'l/{name}': inner}
                with self.assertRaises(OSError):
                    lay_out(self.path('bad'), tree.items())
                remove_tree(self.path('bad'))
                with self.assertRaises(OSError):
                    KeptTree(self.path('bad')).change_to(tree)
                remove_tree(self.path('bad'))
                self.assert_untouched()

    def test_a_directory_that_is_replaced_by_a_link_while_it_is_emptied(self):
        for place in ('rename', 'open', 'scandir', 'unlink'):
            with self.subTest(place):
                directory = self.path(f'state-{place}')
                lay_out(directory, TREE.items())
                self.remove_while_swapping(directory, place)
                self.assert_untouched()

    def remove_while_swapping(self, directory: str, place: str):
        """Removes a tree, and puts links in the places of its directories before each such call."""
        real, is_swapping = getattr(os, place), []

        def swapped(*words, **named):
            if not is_swapping:
                is_swapping.append(True)
                self.put_links()
                is_swapping.clear()
            return real(*words, **named)

        with mock.patch.object(removal.os, place, swapped):
            try:
                remove_tree(directory)
            except OSError:
                pass

    def put_links(self):
        """Puts a link to the outside in the place of each directory that has one of two names."""
        for path, names, _ in list(os.walk(self.folder, topdown=False)):
            for name in {'d', 'e'} & set(names):
                full = os.path.join(path, name)
                if not full.startswith(self.outside) and not os.path.islink(full):
                    os.rename(full, f'{full}-{os.urandom(4).hex()}')
                    os.symlink(self.outside, full)

    def test_acknowledged_lines_are_not_written_through_a_link(self):
        says = AcknowledgedLines(['one', 'two'], self.folder)
        self.assertEqual(self.read(says.write_file(2)), 'one\ntwo\n')
        self.assertEqual(self.read(says.write_file(1)), 'one\n')
        os.unlink(says.file_path)
        os.symlink(os.path.join(self.outside, 'file'), says.file_path)
        for count in (0, 2):
            with self.assertRaises(OSError):
                says.write_file(count)
        self.assert_untouched()

    def test_a_mode_is_only_set_of_a_directory_itself(self):
        os.symlink(self.outside, self.path('link'))
        for name in ('link', 'outside/file'):
            with self.assertRaises(OSError):
                set_folder_mode(self.path(name), 0o777)
        self.assert_untouched()
        os.mkdir(self.path('d'), 0)
        set_folder_mode(self.path('d'), 0o751)
        self.assertEqual(os.stat(self.path('d')).st_mode & 0o777, 0o751)


if __name__ == '__main__':
    unittest.main()
