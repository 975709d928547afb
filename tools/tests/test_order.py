"""Where calls of several threads stand."""

import unittest
from typing import List, Optional, Set, Tuple

from crashfs_tools.common.trace import Start
from crashfs_tools.recorder.arguments import NO_DESCRIPTOR
from crashfs_tools.recorder.call_order import changed_paths, paths_in_arguments
from crashfs_tools.recorder.strace_log import Call

from .support import as_strace, operations_of

START = [Start('/f', 'u', 'u', 0o644, b'hello'), Start('/g', 'u', 'u', 0o644, b'')]
OPENS = [
    '1 openat(AT_FDCWD</d>, "f", O_RDWR) = 3</d/f>',
    '1 openat(AT_FDCWD</d>, "g", O_RDWR) = 4</d/g>',
    '1 clone(child_stack=0x7f, flags=CLONE_VM|CLONE_FS|CLONE_FILES|CLONE_THREAD) = 2',
]

# An access control list that gives the owner read and write, and nobody else anything.
LIST = '\2\0\0\0' + ''.join(
    f'{tag}\0{rights}' + 5 * '\0' for tag, rights in ('\1\6', '\4\0', ' \0')
)

# The file /f gets another name, by which it is open as 5.
LINK = ['1 link("/d/f", "/d/h") = 0', '1 openat(AT_FDCWD</d>, "h", O_RDWR) = 5</d/h>']

# (what is shown, the log behind the opens, the operations)
CASES = [
    *[
        (
            f'an access control list that is set while the sync runs is not covered: {call}',
            [
                f'2 {call}, "system.posix_acl_access", "{LIST}", 28, 0 <unfinished ...>',
                '1 fsync(3</d/f> <unfinished ...>',
                f'2 <... {call.partition("(")[0]} resumed>) = 0',
                '1 <... fsync resumed>) = 0',
            ],
            ['fsync /f', 'chmod /f 600'],
        )
        for call in ('fsetxattr(3</d/f>', 'setxattr("/d/f"')
    ],
    (
        'a change of another file that began before the sync had ended stands before it',
        [
            '1 fsync(3</d/f> <unfinished ...>',
            '2 pwrite64(4</d/g>, "a", 1, 0 <unfinished ...>',
            '1 <... fsync resumed>) = 0',
            '2 <... pwrite64 resumed>) = 1',
        ],
        ['write /g 0 a', 'fsync /f'],
    ),
    (
        'a change of the same file while the sync runs is not covered',
        [
            '1 fsync(3</d/f> <unfinished ...>',
            '2 pwrite64(3</d/f>, "a", 1, 0) = 1',
            '1 <... fsync resumed>) = 0',
        ],
        ['fsync /f', 'write /f 0 a'],
    ),
    (
        'a change that was under way when the sync began is not covered',
        [
            '2 pwrite64(3</d/f>, "a", 1, 0 <unfinished ...>',
            '1 fsync(3</d/f>) = 0',
            '2 <... pwrite64 resumed>) = 1',
        ],
        ['fsync /f', 'write /f 0 a'],
    ),
    (
        'a change that had ended is covered',
        [
            '2 pwrite64(3</d/f>, "a", 1, 0) = 1',
            '1 fsync(3</d/f> <unfinished ...>',
            '2 pwrite64(4</d/g>, "b", 1, 0) = 1',
            '1 <... fsync resumed>) = 0',
        ],
        ['write /f 0 a', 'write /g 0 b', 'fsync /f'],
    ),
    (
        'what is told while a sync runs didn\'t wait for it',
        [
            '2 write(1<pipe:[7]>, "done\n", 5 <unfinished ...>',
            '1 sync( <unfinished ...>',
            '1 <... sync resumed>) = 0',
            '2 <... write resumed>) = 5',
        ],
        ['say done', 'sync'],
    ),
    (
        'a mode that is set while the file is synced is not covered',
        [
            '1 fsync(3</d/f> <unfinished ...>',
            '2 fchmod(3</d/f>, 0600) = 0',
            '2 fchmodat(AT_FDCWD</d>, "g", 0600) = 0',
            '1 <... fsync resumed>) = 0',
        ],
        ['fsync /f', 'chmod /f 600', 'chmod /g 600'],
    ),
    (
        'a change by another name of the file while the sync runs is not covered',
        [
            *LINK,
            '1 fsync(3</d/f> <unfinished ...>',
            '2 pwrite64(5</d/h>, "a", 1, 0) = 1',
            '1 <... fsync resumed>) = 0',
        ],
        ['link /f /h', 'fsync /f', 'write /f 0 a'],
    ),
    (
        'a change by another name that was under way when the sync began is not covered',
        [
            *LINK,
            '2 pwrite64(5</d/h>, "a", 1, 0 <unfinished ...>',
            '1 pwrite64(3</d/f>, "b", 1, 1) = 1',
            '1 fsync(3</d/f>) = 0',
            '2 <... pwrite64 resumed>) = 1',
        ],
        ['link /f /h', 'write /f 1 b', 'fsync /f', 'write /f 0 a'],
    ),
    (
        'a change by another name that ends before the sync comes after it all the same',
        [
            *LINK,
            '1 fdatasync(3</d/f> <unfinished ...>',
            '2 pwrite64(5</d/h>, "a", 1, 0 <unfinished ...>',
            '2 <... pwrite64 resumed>) = 1',
            '2 pwrite64(4</d/g>, "b", 1, 0) = 1',
            '1 <... fdatasync resumed>) = 0',
        ],
        ['link /f /h', 'fdatasync /f', 'write /f 0 a', 'write /g 0 b'],
    ),
    (
        'a name that the file has no more, or not yet, is that of another file',
        [
            *LINK,
            '1 rename("/d/g", "/d/h") = 0',
            '1 fsync(3</d/f> <unfinished ...>',
            '2 pwrite64(4</d/h>, "a", 1, 0 <unfinished ...>',
            '1 <... fsync resumed>) = 0',
            '2 <... pwrite64 resumed>) = 1',
            '1 unlink("/d/h") = 0',
            '1 link("/d/f", "/d/h") = 0',
        ],
        ['link /f /h', 'rename /g /h', 'write /h 0 a', 'fsync /f', 'unlink /h', 'link /f /h'],
    ),
    (
        'a change on two lines that had ended before the sync began is covered',
        [
            '2 pwrite64(3</d/f>, "a", 1, 0 <unfinished ...>',
            '1 pwrite64(4</d/g>, "b", 1, 0) = 1',
            '2 <... pwrite64 resumed>) = 1',
            '1 fsync(3</d/f>) = 0',
        ],
        ['write /f 0 a', 'write /g 0 b', 'fsync /f'],
    ),
    (
        'a change on two lines that began after the sync had ended is placed where it begins',
        [
            '1 fsync(3</d/f>) = 0',
            '2 pwrite64(3</d/f>, "a", 1, 0 <unfinished ...>',
            '1 pwrite64(4</d/g>, "b", 1, 0) = 1',
            '2 <... pwrite64 resumed>) = 1',
        ],
        ['fsync /f', 'write /f 0 a', 'write /g 0 b'],
    ),
    *[
        (
            f'a change of a file while everything is synced is not covered: {sync}',
            [
                f'1 {sync} <unfinished ...>',
                '2 pwrite64(3</d/f>, "a", 1, 0) = 1',
                f'1 <... {sync.partition("(")[0]} resumed>) = 0',
            ],
            ['sync', 'write /f 0 a'],
        )
        for sync in ('sync(', 'syncfs(4</d/g>')
    ],
    (
        'a change of an unknown path while a file is synced is not covered',
        [
            '1 fsync(4</d/g> <unfinished ...>',
            '2 unlink("f") = 0',
            '1 <... fsync resumed>) = 0',
        ],
        ['fsync /g', 'unlink /f'],
    ),
    *[
        (
            f'a change of other paths while a file is synced is placed before the sync: {change}',
            [
                '1 fsync(4</d/g> <unfinished ...>',
                f'2 {change} = 0',
                '1 <... fsync resumed>) = 0',
            ],
            [operation, 'fsync /g'],
        )
        for change, operation in (
            ('rename("/d/f", "/d/h")', 'rename /f /h'),
            ('mkdirat(AT_FDCWD</d>, "s", 0755)', 'mkdir /s'),
            (f'setxattr("/d/f", "system.posix_acl_access", "{LIST}", 28, 0)', 'chmod /f 600'),
        )
    ],
    *[
        (
            f'a descriptor whose close began may be that of another file: {call}',
            [
                f'1 {call} <unfinished ...>',
                '2 openat(AT_FDCWD</d>, "g", O_RDWR) = 3</d/g>',
                f'1 <... {call.partition("(")[0]} resumed>) = 0',
                '2 pwrite64(3</d/g>, "a", 1, 0) = 1',
            ],
            ['write /g 0 a'],
        )
        for call in ('close(3</d/f>', 'close_range(3, 3, 0')
    ],
    (
        'an open and a read of a file while it is synced do not move the sync',
        [
            '1 fsync(3</d/f> <unfinished ...>',
            '2 openat(AT_FDCWD</d>, "f", O_RDONLY) = 5</d/f>',
            '2 read(5</d/f>, 0x7ffc, 1) = 1',
            '2 pwrite64(4</d/g>, "a", 1, 0) = 1',
            '1 <... fsync resumed>) = 0',
        ],
        ['write /g 0 a', 'fsync /f'],
    ),
    (
        'an entry that comes while its directory is synced is not covered',
        [
            '1 openat(AT_FDCWD</d>, ".", O_RDONLY) = 5</d>',
            '1 fsync(5</d> <unfinished ...>',
            '2 rename("/d/f", "/d/h") = 0',
            '1 <... fsync resumed>) = 0',
        ],
        ['fsync /', 'rename /f /h'],
    ),
]


# (the arguments of a call, the paths in them)
PATHS: List[Tuple[List[str], Optional[Set[str]]]] = [
    ([], set()),
    (['0755'], set()),
    (['"/d/a"'], {'/d/a', '/d'}),
    (['"/a"'], {'/a', '/'}),
    (['"a"', '0755'], None),
    (['"/d/a"...'], None),
    (['0x7ffc', '"/d/a"'], {'/d/a', '/d'}),
    (['AT_FDCWD</d>', '"a"'], {'/d/a', '/d'}),
    (['AT_FDCWD', '"a"'], None),
    (['3</d/s>', '"../a/./b/"'], {'/d/a/b', '/d/a'}),
    (['3</d/s>', '"/e/a"'], {'/e/a', '/e'}),
    (['3</d/s>', '"a"', '4</d/t>', '"b"'], {'/d/s/a', '/d/s', '/d/t/b', '/d/t'}),
    (['"/d/a"', '"b"'], None),
]
# (a call that changes something, the paths of the files whose syncs cover that)
CHANGED_PATHS: List[Tuple[str, List[str], Optional[Set[str]]]] = [
    ('write', ['3</d/f>', '"a"', '1'], {'/d/f'}),
    ('write', ['3<pipe:[7]>', '"a"', '1'], set()),
    ('copy_file_range', ['3</d/f>', 'NULL', '4</d/g>', 'NULL', '9', '0'], {'/d/g'}),
    ('tee', ['3</d/f>', '4</d/g>', '9', '0'], {'/d/g'}),
    ('setxattr', ['"/d/f"', '"user.a"', '"1"', '1', '0'], {'/d/f', '/d'}),
    ('rename', ['"/d/f"', '"/d/s/g"'], {'/d/f', '/d', '/d/s/g', '/d/s'}),
    ('rename', ['"f"', '"/d/s/g"'], None),
]


class Paths(unittest.TestCase):
    def test_paths_in_arguments_come_with_their_directories(self):
        for words, wanted in PATHS:
            with self.subTest(words):
                self.assertEqual(paths_in_arguments(list(map(as_strace, words))), wanted)

    def test_changed_paths_are_those_that_a_sync_covers(self):
        for name, words, wanted in CHANGED_PATHS:
            with self.subTest(name, words=words):
                call = Call(7, name, list(map(as_strace, words)), 0, NO_DESCRIPTOR, 1, 1)
                self.assertEqual(changed_paths(call), wanted)


class Order(unittest.TestCase):
    def test_a_sync_covers_what_had_ended_before_it_began(self):
        for shown, log, wanted in CASES:
            with self.subTest(shown):
                self.assertEqual(operations_of(OPENS + log, START), wanted)


if __name__ == '__main__':
    unittest.main()
