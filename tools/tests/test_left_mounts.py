"""A mount that COMMAND leaves: what is behind it stays, and the mount goes."""

import os
import shutil
import subprocess
import tempfile

from crashfs_tools.common.mount_table import MountTable

from .support import FAKE, PYTHON_FOLDER, needed
from .test_check_command import InStore


RIGHTS = '"owner":"u","group":"u","mode"'
# So many start lines that its trees are kept from state to state.
LARGE = (
    f'{{"trace":3,"profile":"blocks","block":4096,{RIGHTS}:"755"}}\n'
    + ''.join(
        f'{{"start":"file","path":"/f{number}",{RIGHTS}:"644","text":"x"}}\n'
        for number in range(40)
    )
    + f'{{"op":"creat","path":"/g",{RIGHTS}:"644"}}\n{{"op":"say","text":"made"}}\n'
)


# Fails if a mount is there that another state left.
REFUSES_OTHERS = 'grep -q " ${PWD%/*}/" /proc/self/mountinfo && exit 1; '


def mounts_work() -> bool:
    """Whether this user may mount a directory at another."""
    folder = tempfile.mkdtemp()
    try:
        made = subprocess.run(
            ['mount', '--bind', folder, folder], check=False, stderr=subprocess.DEVNULL
        )
        if made.returncode == 0:
            subprocess.run(['umount', folder], check=True)
        return made.returncode == 0
    except OSError:
        return False
    finally:
        os.rmdir(folder)


needs_mounts = needed(mounts_work(), 'no directory may be mounted')


@needs_mounts
class LeftMounts(InStore):
    def setUp(self):
        super().setUp()
        os.makedirs(self.path('victim', 'sub'))
        self.write('victim/data', 'precious')
        self.write('victim/sub/more', 'precious')
        self.addCleanup(self.unmount_all)

    def unmount_all(self):
        table = MountTable()
        self.assertEqual(table.unmount(table.points_below(self.folder)), [])

    def leave_mounts(self, trace, *words, where='m', path=None, begin=''):
        script = f'{begin}mkdir -p {where} && mount --bind {self.path("victim")} {where}'
        return self.run_tool(
            'crashfs-check', '--crashfs', FAKE, *words, trace, '--', 'sh', '-c', script, path=path
        )

    def assert_victim_whole(self):
        self.assertEqual(sorted(os.listdir(self.path('victim'))), ['data', 'sub'])
        self.assertEqual(os.listdir(self.path('victim', 'sub')), ['more'])

    def traces(self):
        """One of a small tree, which is laid out again for each state, and one of a large one."""
        return [self.good, self.write('large.trace', LARGE)]

    def test_what_is_behind_a_mount_stays_and_the_mount_goes(self):
        for trace in self.traces():
            for where in ('"with a blank/m"', '"$PWD"'):
                with self.subTest(trace=trace, where=where):
                    ran = self.leave_mounts(
                        trace, '--prefixes', '--jobs', '1', where=where, begin=REFUSES_OTHERS
                    )
                    self.assertEqual((ran.returncode, ran.stderr), (0, ''), ran.stdout)
                    self.assert_victim_whole()
                    self.assertEqual(MountTable().points_below(self.folder), {})
                    self.assert_nothing_left()

    def test_a_state_that_is_shown_leaves_no_mount(self):
        ran = self.leave_mounts(self.good, '--state', '1')
        self.assertEqual(ran.returncode, 0, ran.stderr)
        self.assert_victim_whole()
        self.assertEqual(MountTable().points_below(self.folder), {})

    def test_a_mount_that_stays_is_named_and_the_state_has_no_answer(self):
        os.mkdir(self.path('bin'))
        for name in ('umount', 'fusermount', 'fusermount3'):
            self.write(f'bin/{name}', '#!/bin/sh\nexit 1\n', 0o755)
        search = f"{self.path('bin')}:{PYTHON_FOLDER}:{os.environ['PATH']}"
        for trace in self.traces():
            for where in ('m', '"$PWD"'):
                with self.subTest(trace=trace, where=where):
                    ran = self.leave_mounts(
                        trace, '--shard', '1/9', '--prefixes', where=where, path=search
                    )
                    self.assertEqual(ran.returncode, 3, ran.stdout)
                    self.assertIn('a mount that it left can not be unmounted: ', ran.stdout)
                    self.assertNotIn('none fails\n', ran.stdout)
                    self.assert_victim_whole()
                    (left,) = os.listdir(self.temporary)
                    self.assertIn(f'/{left} could not be removed\n', ran.stderr)
                    self.unmount_all()
                    shutil.rmtree(self.path('tmp', left))
