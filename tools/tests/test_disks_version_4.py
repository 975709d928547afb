"""Sessions with symbolic links, renamed directories and large files on real file systems."""

from __future__ import annotations

import os
import subprocess
import tempfile
import unittest

from crashfs_tools.common.trace_read import read_trace, tree_at_end
from crashfs_tools.disks import disk, filesystems
from crashfs_tools.disks.flushes import FlushKind
from crashfs_tools.disks.owners import Owners
from crashfs_tools.disks.pool import DiskPool
from crashfs_tools.disks.replay import Replay

from .support import InFolder
from .test_disks import ALL_KINDS, InReplays, needs_disks, without_root

# What version 4 has besides.
NEW_KINDS = """\
{"trace":4,"profile":"blocks","block":4096,"owner":"root","group":"root","mode":"755"}
{"start":"symlink","path":"/l","owner":"root","group":"root","target":"/etc"}
{"start":"dir","path":"/d","owner":"root","group":"root","mode":"700"}
{"start":"symlink","path":"/d/m","owner":"daemon","group":"root","target":"../d/f"}
{"start":"file","path":"/d/f","owner":"root","group":"root","mode":"644","length":500000000,\
"parts":[{"at":400000000,"text":"middle"}]}
{"op":"symlink","path":"/n","owner":"root","group":"daemon","target":"d"}
{"op":"creat","path":"/d/g","owner":"root","group":"root","mode":"600"}
{"op":"write","path":"/d/g","offset":20000000,"text":"far"}
{"op":"rename","from":"/d","to":"/e"}
{"op":"fdatasync","path":"/e/g"}
{"op":"write","path":"/e/f","offset":499999999,"text":"end"}
{"op":"fdatasync","path":"/e/f"}
{"op":"rename","from":"/n","to":"/l"}
{"op":"chown","path":"/l","owner":"daemon","group":"daemon"}
{"op":"mkdir","path":"/d","owner":"root","group":"root","mode":"700"}
{"op":"rename","from":"/e","to":"/d"}
{"op":"unlink","path":"/d/m"}
"""


class Replays(InReplays):
    @unittest.skipIf(os.geteuid() != 0, 'it gives files to others')
    def test_symbolic_links_holes_and_renamed_directories_are_made_again(self) -> None:
        tree = self.replayed(read_trace(NEW_KINDS))
        wanted = tree_at_end(NEW_KINDS.splitlines()).entries
        self.assertEqual(without_root(tree), without_root(wanted))
        self.assertEqual(set(tree), {'/', '/d', '/d/f', '/d/g', '/l'})
        self.assertEqual(disk.digest_of(tree), disk.digest_of(wanted))
        self.assertLess(os.stat(self.path('d/d/f')).st_blocks, 1_000)

    @unittest.skipIf(os.geteuid() != 0, 'it gives files to others')
    def test_the_start_tree_has_its_owners_and_the_holes_at_the_ends_of_files(self) -> None:
        lines = NEW_KINDS.splitlines()[:5]
        tree = self.replayed(read_trace('\n'.join(lines)))
        self.assertEqual(without_root(tree), without_root(tree_at_end(lines).entries))
        self.assertEqual(tree['/d/m'].owner, 'daemon')

    def test_what_is_made_has_its_mode_whatever_the_umask(self) -> None:
        header, file, folder = (ALL_KINDS.splitlines()[place] for place in (0, 4, 10))
        lines = [header, file.replace('600', '644'), folder]
        tree = self.replayed(read_trace('\n'.join(lines)), mask=0o77)
        self.assertEqual((tree['/a'].mode, tree['/e'].mode), (0o644, 0o711))

    def test_files_are_open_until_the_end_of_a_replay(self) -> None:
        trace = read_trace('\n'.join(ALL_KINDS.splitlines()[place] for place in (0, 4, 5)))
        os.mkdir(self.path('d'))
        with Replay(self.path('d'), Owners(trace)) as made:
            for operation in trace.operations:
                made.make_operation(operation)
            (descriptor,) = made.descriptors.values()
            self.assertEqual(os.fstat(descriptor).st_size, 3)
        with self.assertRaises(OSError):
            os.fstat(descriptor)

    @unittest.skipIf(os.geteuid() != 0, 'it gives files to others')
    def test_nothing_is_made_through_a_symbolic_link(self) -> None:
        """No program accepts such a trace."""
        os.mkdir(self.path('outside'))
        self.write('outside/f', 'precious', 0o400)
        before = os.stat(self.path('outside/f'))
        link = '{"start":"symlink","path":"/l","owner":"root","group":"root","target":"%s"}'
        for line, target in (
            ('{"op":"write","path":"/l","offset":0,"text":"x"}', 'outside/f'),
            ('{"op":"truncate","path":"/l","length":0}', 'outside/f'),
            ('{"op":"creat","path":"/l","owner":"root","group":"root","mode":"600"}', 'outside/n'),
            ('{"op":"chown","path":"/l","owner":"daemon","group":"daemon"}', 'outside/f'),
        ):
            lines = [NEW_KINDS.partition('\n')[0], link % self.path(target), line]
            with self.subTest(line):
                try:
                    self.replayed(read_trace('\n'.join(lines)))
                except OSError:
                    pass
                self.assertEqual(os.listdir(self.path('outside')), ['f'])
                self.assertEqual(os.stat(self.path('outside/f')), before)
                subprocess.run(['rm', '-r', self.path('d')], check=True)

    def test_images_need_no_room_for_holes(self) -> None:
        self.assertLess(filesystems.most_session_bytes(read_trace(NEW_KINDS)), 100_000)


@needs_disks
class Disks(InFolder):
    def test_links_and_renamed_directories_are_durable_by_a_sync_of_their_directory(self) -> None:
        """An fdatasync makes the bytes of its file durable, and none of them."""
        lines = [
            *NEW_KINDS.splitlines()[:2],
            ALL_KINDS.splitlines()[2].replace('/d/f', '/f'),
            '{"start":"dir","path":"/d","owner":"root","group":"root","mode":"700"}',
            '{"op":"write","path":"/f","offset":0,"text":"HELLO"}',
            '{"op":"fdatasync","path":"/f"}',
            '{"op":"symlink","path":"/m","owner":"root","group":"root","target":"f"}',
            '{"op":"rename","from":"/d","to":"/e"}',
            '{"op":"rename","from":"/m","to":"/l"}',
        ]
        for synced in (False, True):
            text = lines + ['{"op":"fsync","path":"/"}'] * synced + ['{"op":"say","text":"1"}']
            folder = tempfile.mkdtemp(dir=self.path(''))
            kind = [filesystems.KNOWN['ext4']]
            pool = DiskPool(kind, read_trace('\n'.join(text)), folder, [FlushKind.NOTHING])
            (tree,) = [
                one.tree
                for one in pool.disks(1, lambda *_: None)['ext4']
                if any(crash.moment.most_says == 1 for crash in one.crashes)
            ]
            self.assertEqual(tree['/f'].data, b'HELLO')
            self.assertEqual(tree['/l'].link, 'f' if synced else '/etc')
            self.assertEqual(set(tree), {'/', '/f', '/l', '/e' if synced else '/d'})


if __name__ == '__main__':
    unittest.main()
