"""What a session does that no trace says: each thing is reported, or only noted."""

import unittest
from typing import List, Tuple
from unittest import mock

from crashfs_tools.common.trace import Header, StartSymlink
from crashfs_tools.recorder.recording import Recording, TraceSettings

from .support import recording_of
from .translated_calls import FILE, IN_DIRECTORY, OPEN_F, TWO_FILES

# (what is reported, the start tree, the log)
TROUBLES: List[Tuple[str, List[str], List[str]]] = [
    (
        '/jail: chroot: paths of that process mean other files from here on',
        [],
        ['1 chroot("/jail") = 0'],
    ),
    (
        'standard output: tee: its bytes are not in the log',
        [],
        ['1 write(1<pipe:[7]>, "a\n", 2) = 2', '1 tee(5<pipe:[8]>, 1<pipe:[7]>, 9, 0) = 9'],
    ),
    (
        '/f: fallocate with FALLOC_FL_INSERT_RANGE; its later bytes are not recorded',
        FILE,
        [OPEN_F, '1 fallocate(3</d/f>, FALLOC_FL_INSERT_RANGE, 0, 4096) = 0'],
    ),
    (
        '/: a process whose parent is not in the log',
        [],
        ['1 chdir("/d") = 0', '3 clone(child_stack=NULL, flags=SIGCHLD) = 3'],
    ),
    *[
        ('/: syncfs by a file outside the directory is left out', [], [f'1 syncfs({shown}) = 0'])
        for shown in ('3</etc/x>', '3<pipe:[7]>')
    ],
    (
        '/f: splice: its bytes come from a file that is not followed; its later bytes',
        FILE,
        [OPEN_F, '1 splice(2<pipe:[6]>, NULL, 3</d/f>, NULL, 9, 0) = 9'],
    ),
    ('/: io_submit: what is done by it is not in the log', [], ['1 io_submit(0x7f, 1, [{}]) = 1']),
    (
        '/f: a file of O_TMPFILE that was synced before it had this name',
        [],
        [
            '1 openat(AT_FDCWD</d>, ".", O_RDWR|O_TMPFILE, 0644) = 3</d/#7>(deleted)',
            '1 write(3</d/#7>(deleted), "ab", 2) = 2',
            '1 fsync(3</d/#7>(deleted)) = 0',
            '1 linkat(3</d/#7>(deleted), "", AT_FDCWD</d>, "f", AT_EMPTY_PATH) = 0',
        ],
    ),
    *[
        (
            '/f: a file of O_TMPFILE that was synced before it had this name',
            [],
            [
                '1 openat(AT_FDCWD</d>, ".", O_RDWR|O_TMPFILE, 0644) = 3</d/#7>(deleted)',
                '1 write(3</d/#7>(deleted), "ab", 2) = 2',
                sync,
                '1 linkat(3</d/#7>(deleted), "", AT_FDCWD</d>, "f", AT_EMPTY_PATH) = 0',
            ],
        )
        for sync in ('1 sync() = 0', '1 syncfs(3</d/#7>(deleted)) = 0')
    ],
    (
        '/s: fdatasync of a directory whose mode or owner was changed',
        IN_DIRECTORY,
        [
            '1 openat(AT_FDCWD</d>, "s", O_RDONLY|O_DIRECTORY) = 4</d/s>',
            '1 fchmod(4</d/s>, 0700) = 0',
            '1 fdatasync(4</d/s>) = 0',
        ],
    ),
    (
        '/f: RENAME_WHITEOUT left a device',
        FILE,
        ['1 renameat2(AT_FDCWD</d>, "f", AT_FDCWD</d>, "g", RENAME_WHITEOUT) = 0'],
    ),
    (
        '/f: two calls changed it at once',
        FILE,
        [
            '1 openat(AT_FDCWD</d>, "f", O_WRONLY|O_APPEND) = 3</d/f>',
            '1 clone(child_stack=NULL, flags=SIGCHLD) = 2',
            '1 write(3</d/f>, "a", 1 <unfinished ...>',
            '2 write(3</d/f>, "b", 1) = 1',
            '1 <... write resumed>) = 1',
        ],
    ),
    (
        '/f: two calls changed it at once',
        FILE,
        [
            OPEN_F,
            '1 clone(child_stack=NULL, flags=CLONE_VM|CLONE_FILES|CLONE_THREAD) = 2',
            '1 write(3</d/f>, "aa", 2 <unfinished ...>',
            '2 write(3</d/f>, "b", 1) = 1',
            '1 <... write resumed>) = 2',
        ],
    ),
    (
        '/f: two calls changed it at once',
        FILE,
        [
            OPEN_F,
            '1 clone(child_stack=NULL, flags=SIGCHLD) = 2',
            '1 pwrite64(3</d/f>, "aa", 2, 1 <unfinished ...>',
            '2 pwrite64(3</d/f>, "b", 1, 2) = 1',
            '1 <... pwrite64 resumed>) = 2',
        ],
    ),
    (
        '/f: pwrite64 was cut by the end of its thread',
        FILE,
        [OPEN_F, '1 pwrite64(3</d/f>, "aa", 2, 1 <unfinished ...>) = ?'],
    ),
    (
        'standard output: splice: its bytes come from a file that is not followed',
        FILE,
        ['1 splice(3<pipe:[4]>, NULL, 1<pipe:[7]>, NULL, 4, 0) = 4'],
    ),
    *[
        (f'{where}: {line.partition("(")[0]} was cut by the end of its thread', FILE, ['1 ' + line])
        for where, line in (
            ('/f', 'rename("f", "b") = ?'),
            ('/b', 'rename("/etc/a", "b" <unfinished ...>) = ?'),
            ('/f', 'renameat2(AT_FDCWD</d>, "f", AT_FDCWD</d>, "b", 0) = ?'),
            ('/s/b', 'mkdirat(5</d/s>, "b", 0755) = ?'),
            ('/l', 'symlink("f", "l") = ?'),
            ('/l', 'symlinkat("f", AT_FDCWD</d>, "l") = ?'),
            ('/f', 'truncate("f", 1) = ?'),
            ('/n', 'openat(AT_FDCWD</d>, "n", O_WRONLY|O_CREAT, 0666) = ?'),
            ('/n', 'openat2(5</d>, "n", {flags=O_RDWR|O_CREAT, mode=0600}, 24) = ?'),
            ('/f', 'open("f", O_WRONLY|O_TRUNC <unfinished ...>) = ?'),
            ('/f', 'creat("f", 0666) = ?'),
            ('/f', 'fchownat(5</d/f>, "", 1, 1, AT_EMPTY_PATH) = ?'),
            ('/f', 'copy_file_range(5</etc/a>, NULL, 6</d/f>, NULL, 9, 0) = ?'),
        )
    ],
    ('/f: renamed to from outside the directory', FILE, ['1 rename("/etc/a", "f") = 0']),
    (
        '/f: exchanged with /g',
        TWO_FILES,
        ['1 renameat2(AT_FDCWD</d>, "f", AT_FDCWD</d>, "g", RENAME_EXCHANGE) = 0'],
    ),
    *[
        (
            '/f: renamed to from outside the directory, or from an ignored name',
            FILE,
            [f'1 renameat2(AT_FDCWD</d>, "{one}", AT_FDCWD</d>, "{other}", RENAME_EXCHANGE) = 0'],
        )
        for one, other in (('f', '/etc/a'), ('/etc/a', 'f'))
    ],
    (
        '/f: fchmod by a descriptor that was opened by something',
        FILE,
        ['1 fchmod(7</d/f>, 0600) = 0'],
    ),
    (
        '/f: write by a descriptor that was opened by something',
        FILE,
        ['1 write(7</d/f>, "x", 1) = 1'],
    ),
    (
        '/f: mapped for writing',
        FILE,
        [OPEN_F, '1 mmap(NULL, 5, PROT_READ|PROT_WRITE, MAP_SHARED, 3</d/f>, 0) = 0x7000'],
    ),
    (
        '/f: fallocate with FALLOC_FL_COLLAPSE_RANGE; its later',
        FILE,
        [OPEN_F, '1 fallocate(3</d/f>, FALLOC_FL_COLLAPSE_RANGE, 0, 4096) = 0'],
    ),
    (
        '/f: ftruncate is left out: a file of more than 16777216 bytes',
        FILE,
        [OPEN_F, '1 ftruncate(3</d/f>, 99999999999) = 0'],
    ),
    (
        '/f: ioctl BTRFS_IOC_CLONE or FICLONE: its bytes are not in the log; its later',
        TWO_FILES,
        [OPEN_F, '1 ioctl(3</d/f>, BTRFS_IOC_CLONE or FICLONE, 4</d/g>) = 0'],
    ),
    ('/: io_uring_setup: what is done by it', [], ['1 io_uring_setup(8, {}) = 3']),
    (
        '/s: a socket was bound',
        [],
        ['1 bind(3<socket:[5]>, {sa_family=AF_UNIX, sun_path="s"}, 4) = 0'],
    ),
    (
        '/a: opened, and it was made by something',
        [],
        ['1 openat(AT_FDCWD</d>, "a", O_RDONLY) = 3</d/a>'],
    ),
    (
        '/l: a symbolic link whose target is not in the log was made',
        [],
        ['1 symlink("abc"..., "l") = 0'],
    ),
    (
        '/f: writev: its bytes are not in the log; its later',
        FILE,
        [OPEN_F, '1 writev(3</d/f>, [{iov_base="a", iov_len=1}, ...], 40) = 40'],
    ),
    (
        '/f: a file of O_TMPFILE whose bytes are not in the log',
        [],
        [
            '1 openat(AT_FDCWD</d>, ".", O_RDWR|O_TMPFILE, 0644) = 3</d/#7>(deleted)',
            '1 sendfile(3</d/#7>(deleted), 4</etc/a>, NULL, 5) = 5',
            '1 linkat(3</d/#7>(deleted), "", AT_FDCWD</d>, "f", AT_EMPTY_PATH) = 0',
        ],
    ),
    (
        '/f: ftruncate is left out: a file of more than 16777216 bytes',
        FILE,
        [
            OPEN_F,
            '1 ftruncate(3</d/f>, 1099511627776000) = 0',
            '1 fallocate(3</d/f>, FALLOC_FL_KEEP_SIZE|FALLOC_FL_PUNCH_HOLE, 0, 99999999999999) = 0',
        ],
    ),
]


# What traces of version 3 don't say, with what they leave out.
OLD_TROUBLES = [
    (
        '/s: a directory was renamed to /t: no trace can say it; what is done below it is left out',
        IN_DIRECTORY,
        [
            '1 rename("s", "t") = 0',
            '1 openat(AT_FDCWD</d>, "t/f", O_WRONLY) = 3</d/t/f>',
            '1 write(3</d/t/f>, "hi", 2) = 2',
            '1 openat(AT_FDCWD</d>, "t/new", O_WRONLY|O_CREAT, 0666) = 4</d/t/new>',
        ],
    ),
    ('/l: a symbolic link was made', [], ['1 symlink("a", "l") = 0']),
    (
        '/l: the start tree leaves out a symbolic link',
        [StartSymlink('/l', 'u', 'u', 'a')],
        ['1 mkdir("l", 0777) = -1 EEXIST (File exists)'],
    ),
    (
        '/f: ftruncate is left out: a file of more than 16777216 bytes',
        FILE,
        [OPEN_F, '1 ftruncate(3</d/f>, 16777217) = 0', '1 write(3</d/f>, "x", 1) = 1'],
    ),
]
# What is only noted.
NOTES: List[Tuple[str, List[str], List[str]]] = [
    (
        '/f: sync_file_range: it promises nothing of a crash',
        FILE,
        [OPEN_F, '1 sync_file_range2(3</d/f>, SYNC_FILE_RANGE_WRITE, 0, 0) = 0'],
    ),
    ('/f: it gets the mode bits 4000, beyond 777', FILE, ['1 chmod("f", 04644) = 0']),
    ('/s: it gets the mode bits 1000, beyond 777', [], ['1 mkdir("s", 03777) = 0']),
    ('/f: it gets the mode bits 2000, beyond 777', [], ['1 mknod("f", S_IFREG|02644) = 0']),
    (
        '/f: it gets the mode bits 6000, beyond 777',
        [],
        ['1 openat(AT_FDCWD</d>, "f", O_WRONLY|O_CREAT, 06755) = 3</d/f>'],
    ),
    (
        '/f: sync_file_range: it promises nothing of a crash, and is left out (after line 2, '
        '2 times)',
        FILE,
        [OPEN_F, *2 * ['1 sync_file_range(3</d/f>, 0, 0, SYNC_FILE_RANGE_WRITE) = 0']],
    ),
    ('/f: its extended attributes change', FILE, ['1 setxattr("f", "user.a", "1", 1, 0) = 0']),
    ('/f: its extended attributes change', FILE, [OPEN_F, '1 fremovexattr(3</d/f>, "user.a") = 0']),
]


class Troubles(unittest.TestCase):
    def test_a_trace_that_begins_again_has_no_lines_of_earlier_troubles(self):
        header = Header('u', 'u', 0o755)
        recording = Recording(header, TraceSettings())
        recording.current_call = mock.Mock()
        recording.report('a device was made', '/f')
        told = '/f: a device was made'
        self.assertEqual(list(map(str, recording.troubles.values())), [f'{told} (after line 1)'])
        recording.begin_trace(header)
        self.assertEqual(list(map(str, recording.troubles.values())), [told])

    def test_what_no_trace_can_say_is_reported_with_its_place(self):
        for are_notes, rows in [(False, TROUBLES), (True, NOTES)]:
            for wanted, start, log in rows:
                with self.subTest(wanted):
                    told = list(recording_of(log, start).troubles.values())
                    self.assertEqual(len(told), 1, told)
                    self.assertTrue(str(told[0]).startswith(wanted), str(told[0]))
                    self.assertEqual(told[0].is_note, are_notes)

    def test_what_version_3_can_not_say_is_left_out_and_reported(self):
        for wanted, start, log in OLD_TROUBLES:
            with self.subTest(wanted):
                recording = recording_of(log, start, version=3)
                told = list(recording.troubles.values())
                self.assertEqual(len(told), 1, told)
                self.assertTrue(str(told[0]).startswith(wanted), str(told[0]))
                self.assertEqual((recording.trace.version, recording.trace.operations), (3, []))

    def test_what_an_exchange_takes_out_of_the_directory_is_not_followed_any_more(self):
        open_f = '1 openat(AT_FDCWD</d>, "s/f", O_WRONLY) = 3</d/s/f>'
        change = '1 pwrite64(3</etc/s/f>, "y", 1, 0) = 1'
        for words in ('"s", AT_FDCWD</d>, "/etc/s"', '"/etc/s", AT_FDCWD</d>, "s"'):
            exchange = f'1 renameat2(AT_FDCWD</d>, {words}, RENAME_EXCHANGE) = 0'
            recording = recording_of([open_f, exchange, change], IN_DIRECTORY)
            self.assertEqual([one.where for one in recording.troubles.values()], ['/s'])
            self.assertEqual(recording.trace.operations, [])

    def test_an_exchange_of_a_name_with_itself_changes_nothing(self):
        for name in ('s', 's/f'):
            words = f'AT_FDCWD</d>, "{name}", AT_FDCWD</d>, "{name}"'
            exchange = f'1 renameat2({words}, RENAME_EXCHANGE) = 0'
            change = '1 truncate("/d/s/f", 0) = 0'
            recording = recording_of([exchange, change], IN_DIRECTORY)
            self.assertEqual(list(recording.troubles.values()), [])
            self.assertEqual(len(recording.trace.operations), 1)

    def test_a_cut_open_that_changes_nothing_is_not_reported(self):
        for line in (
            'openat(AT_FDCWD</d>, "f", O_WRONLY|O_CREAT, 0666) = ?',
            'openat(AT_FDCWD</d>, "f", O_RDONLY) = ?',
            'openat(AT_FDCWD</d>, "n", O_RDONLY) = ?',
            'openat(AT_FDCWD</d>, "n", O_WRONLY|O_TRUNC) = ?',
            'openat(AT_FDCWD</d>, ".", O_RDWR|O_TMPFILE, 0600) = ?',
            'openat(AT_FDCWD</d>, "/etc/n", O_WRONLY|O_CREAT, 0666) = ?',
        ):
            with self.subTest(line):
                self.assertEqual(list(recording_of(['1 ' + line], FILE).troubles.values()), [])

    def test_a_cut_open_of_a_link_names_the_file(self):
        link = StartSymlink('/l', 'u', 'u', 'f')
        for flags, wanted in (('', ['/f']), ('|O_NOFOLLOW', [])):
            line = f'1 openat(AT_FDCWD</d>, "l", O_WRONLY|O_TRUNC{flags}) = ?'
            recording = recording_of([line], [*FILE, link])
            self.assertEqual([one.where for one in recording.troubles.values()], wanted)

    def test_a_cut_change_by_a_link_names_what_the_call_would_change(self):
        for call, wanted in (
            ('chmod("l", 0600', '/f'),
            ('fchmodat(AT_FDCWD</d>, "l", 0600', '/f'),
            ('truncate64("l", 0', '/f'),
            ('chown32("l", 54321, -1', '/f'),
            ('lchown("l", 54321, -1', '/l'),
            ('fchownat(AT_FDCWD</d>, "l", 54321, -1, 0', '/f'),
            ('fchownat(AT_FDCWD</d>, "l", 54321, -1, AT_SYMLINK_NOFOLLOW', '/l'),
            ('unlink("l"', '/l'),
        ):
            with self.subTest(call):
                recording = recording_of(
                    [f'1 {call} <unfinished ...>) = ?'], [*FILE, StartSymlink('/l', 'u', 'u', 'f')]
                )
                self.assertEqual([one.where for one in recording.troubles.values()], [wanted])

    def test_an_open_whose_path_strace_cut_is_reported_if_it_may_change_a_file(self):
        for line, wanted in (
            ('openat(AT_FDCWD</d>, "f"..., O_RDWR|O_TRUNC) = 3', ['/']),
            ('creat(0x7fff0000, 0666) = 3', ['/']),
            ('openat(AT_FDCWD</d>, "f"..., O_RDWR) = 3', []),
            ('openat(AT_FDCWD</d>, "/etc/n", O_RDWR|O_CREAT, 0666) = 3', []),
            ('openat(AT_FDCWD</d>, "f"..., O_RDWR|O_CREAT, 0666) = 3</d/f>', []),
        ):
            with self.subTest(line):
                recording = recording_of(['1 ' + line], FILE)
                self.assertEqual([one.where for one in recording.troubles.values()], wanted)

    def test_both_names_of_a_cut_rename_may_differ_at_the_end(self):
        recording = recording_of(['1 rename("f", "b") = ?'], FILE)
        self.assertEqual(recording.differing_paths, {'/b'})


if __name__ == '__main__':
    unittest.main()
