"""Sessions that are made again on real file systems, and the disks that crashes leave."""

from __future__ import annotations

import contextlib
import errno
import os
import shutil
import signal
import subprocess
import sys
import tempfile
import unittest
from collections import Counter
from pathlib import Path
from typing import Callable, Dict, List, Optional, Set
from unittest import mock

from crashfs_tools.checker.findings.read_trees import entries_of
from crashfs_tools.common.command import Refused
from crashfs_tools.common.entry import Entries, Entry
from crashfs_tools.common.limits import RECORDS
from crashfs_tools.common.signals import time_limit
from crashfs_tools.common.sparse import SparseBytes
from crashfs_tools.common.trace import KINDS, Start, Trace
from crashfs_tools.common.trace_read import read_trace, tree_at_end
from crashfs_tools.disks import crashing, disk, filesystems, images, own_mounts
from crashfs_tools.disks.crashing import CrashMaker
from crashfs_tools.disks.flushes import FlushKind
from crashfs_tools.disks.moments import Moment, crash_moments
from crashfs_tools.disks.owners import FIRST_UNKNOWN, AccountNumbers, Owners
from crashfs_tools.disks.pool import DiskPool
from crashfs_tools.disks.replay import CALLS, Replay, lay_out_start
from crashfs_tools.reading import make_plan, parse_trace
from crashfs_tools.reading.order import Order

from .support import EXAMPLES, TOOLS, InFolder

CONFIG = EXAMPLES / 'config' / 'config.trace'
LACKING = filesystems.missing_requirement([filesystems.KNOWN['ext4']])
needs_disks = unittest.skipIf(LACKING is not None, f'no disks can be made here: {LACKING}')

ALL_KINDS = """\
{"trace":3,"profile":"blocks","block":4096,"owner":"root","group":"root","mode":"755"}
{"start":"dir","path":"/d","owner":"root","group":"root","mode":"700"}
{"start":"file","path":"/d/f","owner":"root","group":"root","mode":"644","text":"hello"}
{"start":"link","path":"/g","from":"/d/f"}
{"op":"creat","path":"/a","owner":"root","group":"root","mode":"600"}
{"op":"write","path":"/a","offset":0,"text":"one"}
{"op":"say","text":"1"}
{"op":"fsync","path":"/a"}
{"op":"say","text":"2"}
{"op":"say","text":"3"}
{"op":"mkdir","path":"/e","owner":"root","group":"root","mode":"711"}
{"op":"rename","from":"/a","to":"/e/b"}
{"op":"fsync","path":"/e"}
{"op":"link","from":"/e/b","to":"/c"}
{"op":"write","path":"/c","offset":5000,"text":"two"}
{"op":"fsync_range","path":"/c","offset":4096,"length":100}
{"op":"fsync_range","path":"/c","offset":0,"length":5003}
{"op":"truncate","path":"/g","length":2}
{"op":"chmod","path":"/g","mode":"640"}
{"op":"chown","path":"/d","owner":"root","group":"root"}
{"op":"creat","path":"/h","owner":"root","group":"root","mode":"644"}
{"op":"unlink","path":"/h"}
{"op":"mkdir","path":"/i","owner":"root","group":"root","mode":"755"}
{"op":"rmdir","path":"/i"}
{"op":"sync"}
"""


def without_root(tree: Entries) -> Dict[str, Entry]:
    return {path: entry for path, entry in tree.items() if path != '/'}


def allowed_trees(path: Path) -> Set[str]:
    """The digests of the trees of all allowed sets, as the second reading has them."""
    plan = make_plan(parse_trace(path.read_bytes()))
    order = Order(plan.reading)
    found = set()
    for places in range(1 << order.count):
        if order.is_allowed(places):
            found.add(disk.digest_of(entries_of(plan.trees.tree(places))))
    return found


def mounted_below(folder: str) -> List[str]:
    return [
        line for line in Path('/proc/self/mountinfo').read_text().splitlines() if folder in line
    ]


class Moments(unittest.TestCase):
    def test_lines_that_follow_an_operation_are_joined_with_it(self) -> None:
        trace = read_trace(ALL_KINDS)
        found = list(crash_moments(trace.operations, range(5, 26)))
        self.assertEqual(found[0], Moment(0, 0, 0, 0))
        self.assertEqual(found[2], Moment(2, 0, 1, 6))
        self.assertEqual(found[3], Moment(4, 1, 3, 8))
        self.assertEqual(found[4], Moment(7, 3, 3, 11))
        self.assertEqual(found[-1], Moment(21, 3, 3, 25))
        self.assertEqual(len(found), len(trace.operations) + 1 - 3)


class StartImages(InFolder):
    def test_one_without_the_whole_tree_is_not_kept(self) -> None:
        def make_image(_: object, image: str) -> None:
            Path(image).write_bytes(b'')

        maker = CrashMaker(filesystems.KNOWN['ext4'], read_trace(ALL_KINDS), self.folder)
        with mock.patch.multiple(
            images,
            make_image=make_image,
            mounted_image=lambda *_: contextlib.nullcontext(self.folder),
            dig_holes=mock.Mock(),
        ), mock.patch.object(crashing, 'lay_out_start') as lay_out:
            lay_out.side_effect = OSError(errno.ENOSPC, 'full')
            for _ in range(2):
                with self.assertRaises(OSError):
                    maker.start_image()
                self.assertEqual(os.listdir(self.folder), ['tmp'])
            lay_out.side_effect = None
            self.assertEqual(maker.start_image(), maker.start_image())
        self.assertEqual(lay_out.call_count, 3)
        maker.remove_images()
        self.assertEqual(os.listdir(self.folder), ['tmp'])


class InReplays(InFolder):
    def replayed(self, trace: Trace, mask: int = 0) -> Entries:
        owners = Owners(trace)
        umask = os.umask(mask)
        try:
            lay_out_start(trace, self.path('d'), owners)
            with Replay(self.path('d'), owners) as made:
                for operation in trace.operations:
                    made.make_operation(operation)
                self.assertEqual((made.unsynced, made.operation_count), ({}, len(trace.operations)))
        finally:
            os.umask(umask)
        return disk.read_tree(self.path('d'), owners)


class Replays(InReplays):
    @unittest.skipIf(os.geteuid() != 0, 'it gives files to others')
    def test_the_tree_at_the_end_is_that_of_the_trace(self) -> None:
        tree = self.replayed(read_trace(ALL_KINDS))
        wanted = tree_at_end(ALL_KINDS.splitlines()).entries
        self.assertEqual(without_root(tree), without_root(wanted))
        self.assertEqual(set(tree), {'/', '/d', '/d/f', '/g', '/e', '/e/b', '/c'})

    @unittest.skipIf(os.geteuid() != 0, 'it gives files to others')
    def test_users_that_this_machine_lacks_have_numbers(self) -> None:
        text = ALL_KINDS.replace('"owner":"root"', '"owner":"no such user"')
        tree = self.replayed(read_trace(text))
        self.assertEqual({entry.owner for entry in tree.values()}, {'no such user'})
        self.assertEqual(os.stat(self.path('d/c')).st_uid, FIRST_UNKNOWN)

    def test_a_number_with_two_names_is_read_as_the_first(self) -> None:
        users = AccountNumbers(lambda name: 0)
        self.assertEqual([users.number(name) for name in ('root', 'toor')], [0, 0])
        self.assertEqual((users.name(0), users.name(7)), ('root', '7'))

    def test_each_name_without_an_account_has_a_number_of_its_own(self) -> None:
        users = AccountNumbers({'root': 0}.__getitem__)
        names = ('ann', 'root', 'bob', 'ann')
        ann, bob = FIRST_UNKNOWN, FIRST_UNKNOWN + 2
        self.assertEqual([users.number(name) for name in names], [ann, 0, bob, ann])
        self.assertEqual(users.name(bob), 'bob')

    def test_a_user_and_a_group_of_one_name_have_the_numbers_of_their_accounts(self) -> None:
        user, group = mock.Mock(pw_uid=7), mock.Mock(gr_gid=8)
        with mock.patch('pwd.getpwnam', return_value=user), mock.patch(
            'grp.getgrnam', return_value=group
        ):
            owners = Owners(read_trace(ALL_KINDS))
        self.assertEqual((owners.users.number('root'), owners.groups.number('root')), (7, 8))

    def test_each_kind_of_operation_has_its_call(self) -> None:
        self.assertEqual(set(CALLS), set(KINDS.values()))


class Digests(unittest.TestCase):
    def test_trees_that_differ_have_other_digests(self) -> None:
        tree: Entries = {
            '/': Entry('u', 'g', 0o755, None),
            '/a': Entry('u', 'g', 0o644, bytearray()),
        }
        digest = disk.digest_of(tree)
        digests = [digest]
        for path, entry in [
            ('/a', Entry('u', 'g', 0o644, bytearray(b'x'))),
            ('/a', Entry('u', 'g', 0o600, bytearray())),
            ('/a', Entry('v', 'g', 0o644, bytearray())),
            ('/a', Entry('u', 'g', 0o644, None)),
            ('/a', Entry('u', 'g', 0o644, None, 'x')),
            ('/a', Entry('u', 'g', 0o644, None, 'y')),
            ('/a', Entry('u', 'g', 0o644, bytes(1 << 17))),
            ('/a', Entry('u', 'g', 0o644, SparseBytes(1 << 17, [(9, b'x')]))),
            ('/b', Entry('u', 'g', 0o644, bytearray())),
        ]:
            digests.append(disk.digest_of({**tree, path: entry}))
        self.assertEqual(len(set(digests)), len(digests))
        self.assertEqual(disk.digest_of(dict(reversed(list(tree.items())))), digest)

    def test_equal_bytes_have_one_digest_however_they_are_kept(self) -> None:
        for size in (9, 65_535, 65_536, 1 << 20):
            whole = b'x' * 5 + bytes(size - 6) + b'y'
            digests = {
                disk.digest_of({'/a': Entry('u', 'g', 0o644, data)})
                for data in (whole, bytearray(whole), SparseBytes.copy_of(whole))
            }
            self.assertEqual(len(digests), 1, size)


class Names(InFolder):
    def test_file_systems_are_named(self) -> None:
        self.assertEqual(
            [it.name for it in filesystems.filesystems_by_names(['xfs', 'ext4', 'xfs'])],
            ['xfs', 'ext4'],
        )
        with self.assertRaisesRegex(Refused, '--disks zfs: no such file system'):
            filesystems.filesystems_by_names(['ext4', 'zfs'])

    def test_images_have_room_for_what_is_written(self) -> None:
        bytes_of_all = filesystems.most_session_bytes(read_trace(ALL_KINDS))
        self.assertEqual(bytes_of_all, 3 * 8192 + 11 + 8 * 4096)
        ext4 = filesystems.KNOWN['ext4']
        self.assertEqual(filesystems.with_room_for(ext4, 8 << 20), ext4)
        self.assertEqual(
            filesystems.with_room_for(ext4, (12 << 20) + 1).size, ext4.size + (9 << 20)
        )

    @unittest.skipIf(shutil.which('dumpe2fs') is None, 'dumpe2fs is not installed')
    def test_images_have_room_for_every_directory(self) -> None:
        trace = read_trace(ALL_KINDS)
        for count in (5_000, RECORDS - 1):
            trace.start = [Start(f'/{number}', 'u', 'u', 0o755, None) for number in range(count)]
            size = filesystems.most_session_bytes(trace)
            for name in ('ext4', 'ext2'):
                with self.subTest(name, count=count):
                    image = self.path(f'{name}-{count}')
                    filesystem = filesystems.KNOWN[name]
                    images.make_image(filesystems.with_room_for(filesystem, size), image)
                    words = ['dumpe2fs', '-h', image]
                    head = subprocess.run(words, capture_output=True, text=True, check=True).stdout
                    for line in ('Free inodes', 'Free blocks'):
                        free = int(head.partition(f'{line}:')[2].split()[0])
                        self.assertGreater(free, count + 1_000, line)

    def test_what_is_lacking_is_named(self) -> None:
        none = filesystems.FileSystem('none', 'nothing', (), 0)
        if LACKING is None:
            self.assertEqual(
                filesystems.missing_requirement([none]),
                'none needs mkfs.nothing, which is not installed',
            )


@unittest.skipIf(os.geteuid() != 0, 'chroot needs root')
class OwnMounts(InFolder):
    def in_chroot(self, call: Callable[[], Optional[str]]) -> str:
        """What a function returns in a process whose root is a directory of the test."""
        reading, writing = os.pipe()
        process = os.fork()
        if process == 0:
            try:
                os.chroot(self.path(''))
                os.write(writing, str(call()).encode())
            finally:
                os._exit(0)
        os.close(writing)
        os.waitpid(process, 0)
        with open(reading, encoding='utf-8') as pipe:
            return pipe.read()

    def test_a_root_that_is_no_mount_point_is_a_missing_requirement(self) -> None:
        def required() -> Optional[str]:
            with self.assertRaises(Refused) as refused:
                filesystems.require_filesystems(['ext4'])
            return str(refused.exception)

        said = "a process can't have mounts of its own: / is not a mount point"
        self.assertEqual(self.in_chroot(own_mounts.own_mounts_fault), said)
        self.assertEqual(self.in_chroot(required), f'--disks: {said}')

    def test_what_the_system_forbids_is_named(self) -> None:
        with mock.patch.object(own_mounts, 'unshare_mounts', return_value=errno.EPERM):
            said = "a process can't have mounts of its own: Operation not permitted"
            self.assertEqual(own_mounts.own_mounts_fault(), said)
            with self.assertRaisesRegex(Refused, f'--disks: {said}'):
                own_mounts.use_own_mounts()

    @unittest.skipIf(own_mounts.own_mounts_fault() is not None, 'no mounts of its own here')
    def test_trying_leaves_the_mounts_of_this_process(self) -> None:
        before = os.readlink('/proc/self/ns/mnt')
        self.assertIsNone(own_mounts.own_mounts_fault())
        self.assertEqual(os.readlink('/proc/self/ns/mnt'), before)


@needs_disks
class Disks(InFolder):
    def test_every_disk_of_ext4_is_an_allowed_set(self) -> None:
        trace = read_trace(CONFIG.read_text('utf-8'))
        made = DiskPool([filesystems.KNOWN['ext4']], trace, self.path(''))
        steps: List[int] = []
        seen: List[str] = []

        def on_step(_: int, of: int) -> None:
            steps.append(of)
            seen.extend(mounted_below(self.path('')))

        found = made.disks(2, on_step)['ext4']
        self.assertEqual(steps, [len(made.tasks())] * len(made.tasks()))
        self.assertEqual(seen, [], 'mounts of workers are seen by others')
        self.assertGreater(len(found), 5)
        self.assertLessEqual({one.digest for one in found}, allowed_trees(CONFIG))
        flush_kinds = Counter(crash.flush_kind for one in found for crash in one.crashes)
        self.assertEqual(flush_kinds[FlushKind.NOTHING], len(made.tasks()))
        self.assertEqual(mounted_below(self.path('')), [])

    def test_syncs_of_data_make_what_they_cover_durable(self) -> None:
        for sync in ('"offset":0,"length":9000', '"offset":4096,"length":4096', ''):
            lines = [
                *ALL_KINDS.splitlines()[:3],
                '{"op":"write","path":"/d/f","offset":4096,"text":"%s"}' % ('x' * 4096),
                *(['{"op":"fsync_range","path":"/d/f",%s}' % sync] if sync else []),
                '{"op":"say","text":"written"}',
            ]
            with self.subTest(sync):
                crashes = DiskPool(
                    [filesystems.KNOWN['ext4']],
                    read_trace('\n'.join(lines)),
                    tempfile.mkdtemp(dir=self.path('')),
                    [FlushKind.NOTHING],
                )
                last = [
                    one.tree['/d/f'].data
                    for one in crashes.disks(1, lambda *_: None)['ext4']
                    for crash in one.crashes
                    if crash.moment.most_says == 1
                ]
                self.assertEqual(last[0] == b'hello'.ljust(4096, b'\0') + b'x' * 4096, bool(sync))

    def test_a_kill_leaves_nothing_mounted_and_no_process(self) -> None:
        program = (
            f'import sys; sys.path.insert(0, {str(TOOLS)!r})\n'
            'from crashfs_tools.common.trace_read import read_trace\n'
            'from crashfs_tools.disks.filesystems import KNOWN\n'
            'from crashfs_tools.disks.pool import DiskPool\n'
            f'trace = read_trace(open({str(CONFIG)!r}).read())\n'
            f'crashes = DiskPool([KNOWN["ext4"]], trace, {self.path("")!r})\n'
            'crashes.disks(2, lambda done, of: print(done, flush=True))\n'
        )
        child = subprocess.Popen([sys.executable, '-c', program], stdout=subprocess.PIPE)
        assert child.stdout is not None
        child.stdout.readline()
        workers = Path(f'/proc/{child.pid}/task/{child.pid}/children').read_text().split()
        self.assertEqual(len(workers), 2)
        child.send_signal(signal.SIGKILL)
        child.wait()
        child.stdout.close()
        self.wait_until(
            lambda: not any(os.path.exists(f'/proc/{worker}') for worker in workers), 'workers end'
        )
        self.assertEqual(mounted_below(self.path('')), [])
        self.wait_until(lambda: self.path('') not in loops(), 'the loop devices are free')


def loops() -> str:
    return subprocess.run(['losetup', '-a'], stdout=subprocess.PIPE, check=True).stdout.decode()


@needs_disks
class Copies(InFolder):
    def test_a_copy_has_the_same_bytes_and_holes(self) -> None:
        with open(self.path('a'), 'wb') as file:
            file.truncate(1 << 24)
            file.seek(1 << 20)
            file.write(b'x' * 5000)
        images.copy_image(self.path('a'), self.path('b'))
        self.assertEqual(Path(self.path('a')).read_bytes(), Path(self.path('b')).read_bytes())
        self.assertLess(os.stat(self.path('b')).st_blocks * 512, 1 << 20)

    def test_a_copy_ends_where_its_source_ends(self) -> None:
        """An image may become shorter after its holes were read."""
        source, target = Path(self.path('a')), Path(self.path('b'))
        source.write_bytes(b'abc')
        with source.open('rb') as read_file, target.open('wb') as written_file, time_limit(20):
            images.copy_range(read_file.fileno(), written_file.fileno(), 1, 10)
        self.assertEqual(target.read_bytes(), b'\0bc')

    def test_a_program_that_fails_is_named_with_its_first_line(self) -> None:
        with self.assertRaisesRegex(Refused, '--disks: sh: no'):
            images.run_program(['sh', '-c', 'echo no; echo yes; exit 4'])


if __name__ == '__main__':
    unittest.main()
