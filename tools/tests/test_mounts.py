"""crashfs-check --serve, with a `mount` and an `umount` in the place of the system's: these write
down what they are asked. Where a test wants it, they lay a state's tree out in the mount point, and
take it away again."""

import argparse
import os
import re
import signal
import unittest

from crashfs_tools.checker.address import Address
from crashfs_tools.checker.command_line import parse_address

from .support import FAKE, PATIENCE, PYTHON_FOLDER
from .test_check_command import InStore

MOUNT = """\
#!/bin/sh
echo "mount $*" >> {log}
"""
TREE = """\
name=${{4##*aname=}}
{fake} tar --trace {trace} --holes --state "${{name%%/*}}" | tar -x -C "$6"
"""
UMOUNT = """\
#!/bin/sh
echo "umount $*" >> {log}
for place; do :; done
exec find "$place" -mindepth 1 -delete
"""
NO_MOUNT = """\
#!/bin/sh
echo "mount: $6: unknown filesystem type '9p'." >&2
echo "       dmesg(1) may have more information." >&2
exit 32
"""
NEEDS = " (--serve needs root, the kernel's 9p, and a server with --client linux --ready --again)\n"


class InMounts(InStore):
    def setUp(self):
        super().setUp()
        os.mkdir(self.path('bin'))
        self.log = self.path('mounts.log')
        self.write('bin/mount', MOUNT.format(log=self.log), 0o755)
        self.write('bin/umount', UMOUNT.format(log=self.log), 0o755)
        self.search = f"{self.path('bin')}:{PYTHON_FOLDER}:{os.environ['PATH']}"

    def check(self, *words, command=None):
        return self.run_tool(
            'crashfs-check',
            '--crashfs',
            FAKE,
            '--serve',
            '127.0.0.1:5640',
            *words,
            '--',
            *(command or ['./recover.sh']),
            path=self.search,
        )

    def mount_trees(self):
        tree = TREE.format(fake=FAKE, trace=self.bad)
        self.write('bin/mount', self.read('bin/mount') + tree, 0o755)

    def logged(self, command):
        """The last words of the lines that one of the two commands wrote."""
        lines = self.read('mounts.log').splitlines()
        return [line.split()[-1] for line in lines if line.startswith(command + ' ')]


class Mounts(InMounts):
    def test_the_report_is_that_of_a_check_without_mounts(self):
        self.mount_trees()
        mounted = self.check(self.bad)
        # A server has the prefixes and holes of its own plan, so that no advice is tried.
        plain = InStore.check(self, '--quick', self.bad)
        self.assertEqual(
            (mounted.returncode, mounted.stdout, mounted.stderr),
            (1, re.sub(' *tried: .*\n', '', plain.stdout), ''),
        )
        self.assert_nothing_left()

    def test_each_state_is_mounted_once_and_unmounted(self):
        self.check(self.bad, command=['true'])
        mounted, unmounted = self.logged('mount'), self.logged('umount')
        self.assertEqual(len(mounted), 16)
        self.assertEqual(sorted(mounted), sorted(unmounted))
        self.assertEqual(len(set(mounted)), 16)

    def test_a_mount_has_the_user_and_a_run_that_no_other_check_has(self):
        runs = set()
        for options, uname in [((), 'kv'), (('--uname', 'bob'), 'bob')]:
            self.check('--prefixes', *options, self.bad, command=['true'])
            line = self.read('mounts.log').splitlines()[0]
            os.unlink(self.log)
            self.assertRegex(
                line,
                'mount -t 9p -o trans=tcp,port=5640,version=9p2000,'
                f'uname={uname},aname=[0-9]+/check-[0-9a-f]{{16}},dfltuid={os.getuid()},'
                f'dfltgid={os.getgid()},cache=mmap 127.0.0.1 /.*/mounts/[0-9]+$',
            )
            runs.add(line.partition('check-')[2].partition(',')[0])
        self.assertEqual(len(runs), 2)

    def test_a_host_s_name_becomes_an_address(self):
        self.check('--prefixes', '--serve', 'localhost:7', self.bad, command=['true'])
        self.assertIn(' 127.0.0.1 /', self.read('mounts.log'))

    def test_one_state_is_tried_on_a_mount_and_left_as_files(self):
        self.mount_trees()
        ran = self.check('--state', '20', self.bad)
        self.assertEqual((ran.returncode, ran.stderr), (1, ''))
        self.assertIn('state 20, hole 8 11, says 1: bad: lost: a=2 was told\n', ran.stdout)
        self.assertEqual(len(self.logged('mount')), 1)
        self.assertEqual(self.logged('mount'), self.logged('umount'))
        (folder,) = os.listdir(self.temporary)
        self.assertEqual(
            sorted(os.listdir(os.path.join(self.temporary, folder, '20'))), ['log', 'table', 'tmp']
        )

    def test_what_is_in_use_is_unmounted_lazily(self):
        umount = self.read('bin/umount').replace('\nexec', '\ntest $1 = -l || exit 32\nexec')
        self.write('bin/umount', umount, 0o755)
        ran = self.check('--prefixes', '--jobs', '1', self.good, command=['true'])
        self.assertEqual((ran.returncode, ran.stderr), (0, ''))
        words = [line.split()[1:-1] for line in self.read('mounts.log').splitlines()]
        self.assertEqual([one for one in words if len(one) < 2][:4], [[], ['-l'], [], ['-l']])
        self.assert_nothing_left()

    def test_a_mount_that_fails_ends_the_check(self):
        self.write('bin/mount', NO_MOUNT, 0o755)
        ran = self.check(self.bad)
        self.assertEqual((ran.returncode, ran.stdout), (2, ''))
        self.assertRegex(
            ran.stderr,
            r"^crashfs-check: no mount of \d+/check-[0-9a-f]{16} from "
            r"127\.0\.0\.1:5640: unknown filesystem type '9p' \(",
        )
        self.assertTrue(ran.stderr.endswith(NEEDS), ran.stderr)
        self.assertEqual(ran.stderr.count('\n'), 1)
        self.assert_nothing_left()

    def test_bad_input_is_reported_in_one_line(self):
        for told, *words in [
            ('--serve a..b: ', '--serve', 'a..b:5640', self.good),
            ('--uname a,b: no mount can', '--uname', 'a,b', self.good),
        ]:
            ran = self.check(*words)
            self.assertEqual((ran.returncode, ran.stdout), (2, ''))
            self.assertTrue(ran.stderr.startswith(f'crashfs-check: {told}'), ran.stderr)
            self.assertEqual(ran.stderr.count('\n'), 1)
        ran = self.run_tool('crashfs-check', '--uname', 'ann', self.good, '--', 'true')
        self.assertIn('--uname goes with --serve', ran.stderr)

    def test_an_address_is_a_host_and_a_port(self):
        self.assertEqual(parse_address('[::1]:5640'), Address('::1', 5640))
        self.assertEqual(Address('::1', 5640).ip_address(), '::1')
        for text in ('x', ':1', 'x:', 'x:0', 'x:65536', 'x:port'):
            with self.assertRaises(argparse.ArgumentTypeError, msg=text):
                parse_address(text)


class Stops(InMounts):
    def begin(self):
        child = self.start(
            'crashfs-check',
            '--crashfs',
            FAKE,
            '--serve',
            '127.0.0.1:5640',
            '--jobs',
            '2',
            self.bad,
            '--',
            'sh',
            '-c',
            f'echo > {self.path("begun")}; sleep {self.long}',
            path=self.search,
        )
        self.wait_until(lambda: os.path.exists(self.path('begun')), 'a command has begun')
        return child

    def assert_unmounted(self):
        self.assertLessEqual(set(self.logged('mount')), set(self.logged('umount')))
        self.assertTrue(self.logged('mount'))
        self.assert_ended()

    def test_a_stop_leaves_no_mount(self):
        child = self.begin()
        child.send_signal(signal.SIGINT)
        out, err = child.communicate(timeout=PATIENCE)
        self.assertEqual(child.returncode, 130)
        self.assertIn(': nothing was tried (stopped by SIGINT)\n', out)
        self.assertEqual(err, 'crashfs-check: stopped by SIGINT\n')
        self.assert_unmounted()
        self.assert_nothing_left()

    def test_a_kill_leaves_no_mount(self):
        child = self.begin()
        child.kill()
        child.communicate(timeout=PATIENCE)
        self.wait_until(lambda: os.listdir(self.temporary) == [], 'nothing left')
        self.assert_unmounted()


if __name__ == '__main__':
    unittest.main()
