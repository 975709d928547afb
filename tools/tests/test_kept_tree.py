"""Trees that stay from state to state: what COMMAND did to them is undone."""

import errno
import os
import subprocess
import time
import unittest
from dataclasses import replace
from unittest import mock

from crashfs_tools.checker.states import kept_tree
from crashfs_tools.checker.states.kept_tree import KeptTree, file_system_type
from crashfs_tools.common.entry import Entry
from crashfs_tools.common.file_bytes import read_file_bytes
from crashfs_tools.common.sparse import SparseBytes

from .support import FAKE, InFolder
from .test_check_command import InStore

RIGHTS = '"owner":"u","group":"u","mode"'


def file(text: str, mode: int = 0o644) -> Entry:
    return Entry('u', 'g', mode, text.encode())


def folder(mode: int = 0o755) -> Entry:
    return Entry('u', 'g', mode, None)


TREE = {
    '': folder(),
    'a': file('one'),
    'b': file('two', 0o600),
    'd': folder(0o750),
    'd/c': file('three'),
    'd/e': folder(),
    'd/e/f': file(''),
}
# What COMMAND may do, in a shell, to a tree that is to be kept.
DEEDS = [
    'echo more >> a',
    'printf eno > a',
    'printf xxx | dd of=b conv=notrunc 2>/dev/null',
    'cp -p a old; printf xxx > a; touch -r old a; rm old',
    'mv a b',
    'ln a g',
    'ln -f a ../outside',
    'rm -r d',
    'rm d/c; mkdir d/c',
    'rm a; ln -s b a',
    'chmod 000 a',
    'chmod 000 d/e d',
    'chmod 0 .',
    'mkdir -p x/y; echo > x/y/z',
    'mv d dd; mkdir d',
    'chmod 4755 b',
    'cp -p a n; mv n a',
    'echo > "new\nline"',
    'chmod 600 d/e; chmod 755 d/e',
    'mkfifo p',
    'true',
]
if os.geteuid() == 0:
    DEEDS += ['chown 12345 d/e', 'chgrp 12345 d/e', 'chown 12345 a', 'chown 12345:12345 .']
STORE = """
import mmap
with open('a', 'r+b') as file, mmap.mmap(file.fileno(), 0) as m:
    m[0]
    m[0:1] = b'X'
"""


def listing(directory: str):
    """All that a tree has, by path."""
    found = {}
    for path, names, files in os.walk(directory):
        for name in names + files + ([''] if path == directory else []):
            full = os.path.join(path, name).rstrip('/')
            status = os.lstat(full)
            data = None
            if os.path.isfile(full) and not os.path.islink(full):
                with open(full, 'rb') as file_read:
                    data = file_read.read()
            found[os.path.relpath(full, directory)] = (
                status.st_mode,
                status.st_nlink * (data is not None),
                data,
                (status.st_uid, status.st_gid),
            )
    return found


def fresh(tree, directory):
    one = KeptTree(directory)
    one.change_to(tree)
    found = listing(directory)
    one.remove()
    return found


class Kept(InFolder):
    def setUp(self):
        super().setUp()
        self.place = self.path('kept')
        self.patch('TICK_SECONDS', 0.02)

    def patch(self, name, value):
        patched = mock.patch.object(kept_tree, name, value)
        patched.start()
        self.addCleanup(patched.stop)

    def times(self):
        return {
            path: os.lstat(os.path.join(self.place, path)).st_ctime_ns
            for path in TREE
            if TREE[path].data is not None
        }

    def test_a_file_that_can_not_be_removed_is_left_beside_the_next_trees(self):
        unlink, kept = os.unlink, KeptTree(self.place)

        def unlink_others(path, **words):
            if path == 'f':
                raise PermissionError(errno.EPERM, os.strerror(errno.EPERM), path)
            unlink(path, **words)

        kept.change_to(TREE)
        with mock.patch.object(os, 'unlink', unlink_others):
            for tree in ({'': folder(), 'a': file('one')}, TREE, {'': folder()}):
                kept.note_start()
                kept.change_to(tree)
                self.assertEqual(set(listing(kept.directory)), {path or '.' for path in tree})

    def test_whatever_was_done_to_it_the_next_tree_is_right(self):
        for has_times, large in ((True, 9), (False, 9), (True, 1), (False, 1)):
            self.patch('LARGE_BYTES', large)
            kept, wanted = KeptTree(self.place), fresh(TREE, self.path('fresh'))
            for deed in DEEDS:
                with self.subTest(deed):
                    kept.change_to(TREE)
                    self.assertEqual(listing(self.place), wanted)
                    kept.has_times = has_times
                    kept.note_start()
                    subprocess.run(['sh', '-c', deed], cwd=self.place, check=True)
            kept.change_to(TREE)
            self.assertEqual(listing(self.place), wanted)
            kept.remove()
            self.assertFalse(os.path.exists(self.place))

    def test_a_store_through_a_mapping_is_seen(self):
        kept = KeptTree(self.place)
        for place in (self.place, '/dev/shm/' + os.path.basename(self.folder)):
            kept = KeptTree(place)
            kept.change_to(TREE)
            self.addCleanup(kept.remove)
            kept.note_start()
            subprocess.run(['python3', '-S', '-c', STORE], cwd=place, check=True)
            self.assertEqual(listing(place)['a'][2], b'Xne')
            kept.change_to(TREE)
            self.assertEqual(listing(place)['a'][2], b'one')

    def test_a_store_through_a_mapping_into_a_large_file_is_seen(self):
        for place in (self.place, '/dev/shm/' + os.path.basename(self.folder)):
            kept = KeptTree(place)
            self.addCleanup(kept.remove)
            kept.change_to({'': folder(), 'a': file('x' * 70_000)})
            kept.note_start()
            subprocess.run(['python3', '-S', '-c', STORE], cwd=place, check=True)
            kept.change_to({'': folder(), 'a': file('x' * 69_000 + 'y' * 1_000)})
            self.assertEqual(listing(place)['a'][2], b'x' * 69_000 + b'y' * 1_000)

    def test_what_nobody_changed_stays(self):
        kept = KeptTree(self.place)
        kept.change_to(TREE)
        before = self.times()
        kept.note_start()
        kept.change_to(TREE)
        self.assertEqual(self.times(), before)
        kept.note_start()
        subprocess.run(['sh', '-c', 'echo >> a; rm b'], cwd=self.place, check=True)
        kept.change_to(TREE)
        self.assertEqual(
            [path for path in before if self.times()[path] == before[path]], ['d/c', 'd/e/f']
        )

    def test_a_file_that_was_written_in_the_same_tick_is_written_again(self):
        kept = KeptTree(self.place)
        kept.change_to(TREE)
        kept.note_start()
        changed = {**TREE, 'a': file('new')}
        kept.change_to(changed)
        kept.command_start = os.stat(self.path('kept', 'a')).st_ctime_ns
        before = self.times()
        time.sleep(kept_tree.TICK_SECONDS)
        kept.change_to(changed)
        self.assertNotEqual(self.times()['a'], before['a'])
        self.assertEqual(self.times()['d/c'], before['d/c'])

    def test_of_a_large_file_only_what_differs_is_written(self):
        whole = bytes(range(256)) * 1_024
        tree = {'': folder(), 'a': replace(file(''), data=whole)}
        kept = KeptTree(self.place)
        kept.change_to(tree)
        kept.has_times = True
        for deed, data, pieces in (
            ('true', whole[:50_000] + b'changed' + whole[50_007:], [3]),
            ('printf new | dd of=a conv=notrunc bs=1 seek=100000 2> ../told', whole, [3, 6]),
            ('echo >> a', whole[:-1], [15]),
            ('cp a b; mv b a', whole, list(range(16))),
            (': > a', whole + b'x', list(range(17))),
            ('ln a b', whole, []),
        ):
            with self.subTest(deed), mock.patch('os.pwrite', side_effect=os.pwrite) as written:
                node = os.stat(self.path('kept', 'a')).st_ino
                kept.note_start()
                subprocess.run(['sh', '-c', deed], cwd=self.place, check=True)
                kept.change_to({**tree, 'a': replace(tree['a'], data=data)})
                with open(self.path('kept', 'a'), 'rb') as stream:
                    self.assertEqual(stream.read(), data)
                places = [call.args[2] >> 14 for call in written.mock_calls]
                # A file that is made again is written whole.
                self.assertEqual(places, pieces)
                if 'mv' not in deed and 'ln' not in deed:
                    self.assertEqual(os.stat(self.path('kept', 'a')).st_ino, node)
                self.assertEqual(os.listdir(self.place), ['a'])
        kept.remove()
        kept.change_to(tree)
        kept.has_times = False
        kept.note_start()
        with mock.patch('os.pwrite', side_effect=os.pwrite) as written:
            kept.change_to({**tree, 'a': replace(tree['a'], data=whole[::-1])})
        self.assertEqual(sum(len(call.args[1]) for call in written.mock_calls), len(whole))
        kept.remove()

    def test_a_file_with_holes_takes_no_room_for_them(self):
        sparse = SparseBytes(1 << 30, [(5, b'one'), (1 << 29, b'two')])
        other = SparseBytes(1 << 30, [(5, b'one'), (3 << 28, b'new')])
        tree = {'': folder(), 'a': replace(file(''), data=sparse)}
        for has_times in (True, False):
            kept = KeptTree(self.place)
            kept.change_to(tree)
            kept.has_times = has_times
            for deed, data in (
                ('true', other),
                ('printf xxx | dd of=a conv=notrunc bs=1 seek=700M 2> ../told', sparse),
                ('truncate -s 600M a', other),
                (': > a', sparse),
                ('cp --sparse=always a b; mv b a', other),
            ):
                with self.subTest(deed, has_times=has_times):
                    kept.note_start()
                    subprocess.run(['sh', '-c', deed], cwd=self.place, check=True)
                    kept.change_to({**tree, 'a': replace(tree['a'], data=data)})
                    with open(self.path('kept', 'a'), 'rb', buffering=0) as stream:
                        self.assertEqual(read_file_bytes(stream.fileno()), data)
                        self.assertLess(os.fstat(stream.fileno()).st_blocks, 1_000)
            kept.remove()

    def test_a_large_file_with_a_new_attribute_is_made_again(self):
        tree = {'': folder(), 'a': file('x' * 70_000)}
        kept = KeptTree(self.place)
        kept.change_to(tree)
        kept.note_start()
        try:
            os.setxattr(self.path('kept', 'a'), 'user.mark', b'1')
        except OSError as error:
            self.skipTest(f'{error}')
        kept.change_to({**tree, 'a': file('y' * 70_000)})
        self.assertEqual(os.listxattr(self.path('kept', 'a')), [])

    def test_a_directory_that_lost_a_part_is_made_again(self):
        kept = KeptTree(self.place)
        kept.change_to(TREE)
        with mock.patch.object(kept_tree, 'remove_tree', side_effect=OSError):
            self.assertRaises(OSError, kept.remove)
        with mock.patch.object(kept, 'make_again') as made:
            kept.change_to(TREE)
        made.assert_called_once_with(TREE)

    def test_the_type_of_a_file_system_is_that_of_the_last_mount_of_its_device(self):
        self.assertEqual(file_system_type('/proc'), 'proc')
        self.assertRaises(FileNotFoundError, file_system_type, '/none')
        device = os.stat(self.folder).st_dev
        mount = f'36 35 {os.major(device)}:{os.minor(device)} / /mnt rw - {{}} /dev/root rw\n'
        other = '37 35 0:0 / /other rw - tmpfs tmpfs rw\n'
        for lines, wanted in (
            (other, ''),
            (mount.format('ext4') + other, 'ext4'),
            (mount.format('ext4') + mount.format('overlay'), 'overlay'),
            ('36 35\n', ''),
        ):
            with mock.patch('builtins.open', mock.mock_open(read_data=lines)):
                self.assertEqual(file_system_type(self.folder), wanted)
        with mock.patch('builtins.open', side_effect=PermissionError):
            self.assertEqual(file_system_type(self.folder), '')

    def test_a_file_that_is_another_one_is_written_again(self):
        """Also if its times say nothing."""
        kept = KeptTree(self.place)
        kept.change_to(TREE)
        kept.note_start()
        before = self.times()
        kept.files['a'] = kept.files['a']._replace(signature=(0,))
        kept.change_to(TREE)
        self.assertEqual([path for path in before if self.times()[path] != before[path]], ['a'])

    def test_one_tree_after_another(self):
        trees = [
            TREE,
            {'': folder(0o700)},
            {'': folder(), 'a': folder(0), 'a/x': file('y')},
            {**TREE, 'd/e': file('now a file')},
            TREE,
            {**TREE, 'a': file('one', 0o400)},
        ]
        trees[3].pop('d/e/f')
        for large in (9, 1):
            self.patch('LARGE_BYTES', large)
            kept = KeptTree(self.place)
            for tree in trees:
                kept.change_to(tree)
                self.assertEqual(listing(self.place), fresh(tree, self.path('fresh')))
                kept.note_start()
            kept.remove()


class Checks(InStore):
    """The same states by what they change as by whole archives."""

    def trace_of_many(self, count: int) -> str:
        start = ''.join(
            f'{{"start":"file","path":"/f{number}",{RIGHTS}:"644","text":"{number}"}}\n'
            for number in range(count)
        )
        return self.write(
            'many.trace',
            f'{{"trace":3,"profile":"blocks","block":4096,{RIGHTS}:'
            f'"755"}}\n{start}'
            '{"op":"write","path":"/f1","offset":0,"text":"changed"}\n'
            f'{{"op":"mkdir","path":"/d",{RIGHTS}:"750"}}\n'
            '{"op":"rename","from":"/f2","to":"/d/g"}\n'
            '{"op":"unlink","path":"/f3"}\n'
            '{"op":"chmod","path":"/f4","mode":"600"}\n'
            '{"op":"say","text":"done"}\n',
        )

    def states(self, program: str, trace: str, script: str):
        """What COMMAND found in each state."""
        log = self.path('log')
        os.makedirs(log)
        listed = (
            f'find . -printf "%P %y %m %s %n\\n" | sort > {log}/$CRASHFS_STATE; find . -type f '
            f'| sort | xargs cat >> {log}/$CRASHFS_STATE; {script}'
        )
        ran = self.run_tool(
            'crashfs-check', '--crashfs', program, '--jobs', '2', trace, '--', 'sh', '-c', listed
        )
        self.assertEqual((ran.returncode, ran.stderr), (0, ''), ran.stdout)
        found = {name: self.read(os.path.join('log', name)) for name in os.listdir(log)}
        os.rename(log, self.path(f'log-{len(os.listdir(self.folder))}'))
        self.assert_nothing_left()
        return found

    def test_states_are_those_of_whole_archives(self):
        trace = self.trace_of_many(40)
        whole = self.write(
            'whole', f'#!/bin/sh\ntest "$2" = --help && exit 2\n{FAKE} "$@"\n', 0o755
        )
        # No archive of many whole states is asked for.
        only = self.write(
            'only',
            '#!/bin/sh\nfor last; do :; done\ncase "$last" in --*) ;; '
            f'*,*|*[0-9]-[0-9]*) exit 9;; esac\n{FAKE} "$@"\n',
            0o755,
        )
        wanted = self.states(whole, trace, 'true')
        self.assertGreater(len(wanted), 10)
        for script in (
            'echo x >> f1; rm f9; mv f5 f6; chmod 0 .',
            f'(setsid sh -c "sleep 0.1; echo x >> f8; sleep {self.long}" &) ' '> /dev/null 2>&1',
        ):
            self.assertEqual(self.states(only, trace, script), wanted)
        self.assert_ended()

    def test_a_small_tree_is_laid_out_whole(self):
        no_changes = self.write(
            'none', f'#!/bin/sh\ncase "$*" in *--changes*) exit 9;; esac\n' f'{FAKE} "$@"\n', 0o755
        )
        ran = self.run_tool('crashfs-check', '--crashfs', no_changes, self.good, '--', 'true')
        self.assertEqual(ran.returncode, 0, ran.stderr)


if __name__ == '__main__':
    unittest.main()
