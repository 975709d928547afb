"""Directories of any depth and any modes are removed, and nothing else is."""

import errno
import os
import subprocess
import sys
import tempfile
import unittest
from unittest import mock

from crashfs_tools.common.removal import remove_tree

from .support import InFolder
from .test_check_command import InStore

DEEP = """\
import os
for place in range({depth}):
    os.mkdir('d')
    os.chdir('d')
open('deepest', 'w').close()
"""


class Removes(InFolder):
    def remove(self, path):
        """As another user, if this one is root, who needs no rights."""
        if os.geteuid() != 0:
            return remove_tree(path)
        for top, directories, files in os.walk(self.folder):
            for name in ('.', *directories, *files):
                os.chown(os.path.join(top, name), 65534, 65534, follow_symlinks=False)
        read, write = os.pipe()
        child = os.fork()
        if child == 0:
            os.setgroups([])
            os.setresgid(65534, 65534, 65534)
            os.setresuid(65534, 65534, 65534)
            os.write(write, b'yes' if remove_tree(path) else b'no')
            os._exit(0)
        os.waitpid(child, 0)
        self.addCleanup(os.close, read)
        self.addCleanup(os.close, write)
        return os.read(read, 3) == b'yes'

    def test_modes_forbid_nothing(self):
        os.makedirs(self.path('top', 'closed', 'inner', 'more'))
        os.makedirs(self.path('top', 'unwritable', 'empty'))
        self.write('top/closed/inner/file', 'x', 0)
        self.write('top/unwritable/file', 'x')
        os.chmod(self.path('top', 'unwritable', 'empty'), 0o500)
        for name, mode in [('closed/inner', 0), ('closed', 0o300), ('unwritable', 0o500)]:
            os.chmod(self.path('top', name), mode)
        os.chmod(self.path('top'), 0o500)
        self.assertTrue(self.remove(self.path('top')))
        self.assertEqual(os.listdir(self.folder), ['tmp'])

    def test_a_full_disk_has_no_place_for_a_directory(self):
        """Removing needs a directory of its own; something that goes first makes its place."""
        make, full = os.mkdir, OSError(errno.ENOSPC, 'No space left on device')

        def make_if_one_is_gone(*words):
            if len(list(os.walk(self.path('top')))) + self.files_below('top') == before:
                raise full
            make(*words)

        for files in (['file'], ['a/b/c/file'], ['a/b', 'a/c']):
            for name in files:
                os.makedirs(os.path.dirname(self.path('top', name)), exist_ok=True)
                self.write(f'top/{name}', 'x')
            os.makedirs(self.path('top', 'empty'), exist_ok=True)
            before = len(list(os.walk(self.path('top')))) + self.files_below('top')
            with mock.patch.object(os, 'mkdir', make_if_one_is_gone):
                self.assertTrue(remove_tree(self.path('top')))
            self.assertEqual(os.listdir(self.folder), ['tmp'])

    def files_below(self, name):
        return sum(len(files) for _, _, files in os.walk(self.path(name)))

    def test_an_empty_directory_needs_no_place(self):
        os.mkdir(self.path('top'))
        with mock.patch.object(os, 'mkdir', side_effect=OSError(errno.ENOSPC, 'full')):
            self.assertTrue(remove_tree(self.path('top')))
        self.assertEqual(os.listdir(self.folder), ['tmp'])

    def test_what_a_link_names_stays(self):
        os.makedirs(self.path('outside', 'inner'))
        os.mkdir(self.path('top'))
        os.symlink(self.path('outside'), self.path('top', 'link'))
        self.assertTrue(remove_tree(self.path('top')))
        os.symlink(self.path('outside'), self.path('top'))
        self.assertTrue(remove_tree(self.path('top')))
        self.assertEqual(sorted(os.listdir(self.folder)), ['outside', 'tmp'])
        self.assertEqual(os.listdir(self.path('outside')), ['inner'])

    def test_what_is_not_there_is_gone(self):
        self.assertTrue(remove_tree(self.path('none')))
        self.assertTrue(remove_tree(self.write('file', '')))
        self.assertEqual(os.listdir(self.folder), ['tmp'])

    @unittest.skipUnless(os.geteuid() == 0, 'only root makes files that may not be removed')
    def test_what_may_not_be_removed_stays_beside_and_all_else_goes(self):
        os.makedirs(self.path('top', 'kept'))
        for name in ('top/kept/file', 'top/kept/other', 'top/more'):
            self.write(name, '')
        if subprocess.run(['chattr', '+i', self.path('top/kept/file')], check=False).returncode:
            self.skipTest('this file system has no immutable files')
        self.assertFalse(remove_tree(self.path('top')))
        (place,) = os.listdir(self.path('top.left'))
        self.assertIn('file', os.listdir(self.path('top.left', place)))
        subprocess.run(['chattr', '-i', self.path('top.left', place, 'file')], check=True)
        self.assertTrue(remove_tree(self.path('top.left')))
        self.assertEqual(os.listdir(self.folder), ['tmp'])

    def test_what_was_beside_before_stays_and_all_else_goes(self):
        for name in ('top/inner', 'top.left/other'):
            os.makedirs(self.path(name))
            self.write(f'{name}/file', 'x')
        self.assertTrue(remove_tree(self.path('top')))
        self.assertEqual(sorted(os.listdir(self.folder)), ['tmp', 'top.left'])
        self.assertEqual(self.read('top.left/other/file'), 'x')
        self.assertEqual(os.listdir(self.path('top.left')), ['other'])

    def test_a_directory_beside_that_is_given_stays_for_later(self):
        beside = self.path('beside')
        for name in ('first', 'second'):
            os.makedirs(self.path(name, 'inner'))
            self.assertTrue(remove_tree(self.path(name), trash=beside))
            self.assertEqual(os.listdir(beside), [])
        self.assertEqual(sorted(os.listdir(self.folder)), ['beside', 'tmp'])

    def test_nothing_is_left_beside_what_can_not_be_moved(self):
        os.makedirs(self.path('top', 'inner'))
        with mock.patch.object(os, 'rename', side_effect=OSError(errno.EBUSY, 'mounted')):
            self.assertFalse(remove_tree(self.path('top')))
        self.assertEqual(sorted(os.listdir(self.folder)), ['tmp', 'top'])

    def test_names_as_long_as_they_may_be_are_removed(self):
        os.makedirs(self.path('top', 'n' * 255, 'm' * 255))
        self.assertTrue(remove_tree(self.path('top')))
        self.assertEqual(os.listdir(self.folder), ['tmp'])

    def test_depth_does_not_matter(self):
        top = tempfile.mkdtemp(dir='/dev/shm' if os.path.isdir('/dev/shm') else None)
        subprocess.run([sys.executable, '-S', '-c', DEEP.format(depth=30_000)], cwd=top, check=True)
        self.assertTrue(remove_tree(top))
        self.assertFalse(os.path.exists(top))


class Deep(InStore):
    def test_a_state_may_become_as_deep_as_it_likes(self):
        self.write('deep.py', DEEP.format(depth=1_500))
        ran = self.check(
            *('--prefixes', '--shard', '1/6', self.good),
            command=[sys.executable, '-S', self.path('deep.py')],
        )
        self.assertEqual((ran.returncode, ran.stderr), (0, ''), ran.stdout)
        self.assert_nothing_left()


if __name__ == '__main__':
    unittest.main()
