"""What a scan of a directory has for a trace, and what it leaves out."""

import os
import socket
import stat
import unittest
from typing import Collection, Optional
from unittest import mock

from crashfs_tools.common import limits
from crashfs_tools.common.trace import Start, StartSymlink
from crashfs_tools.recorder.directory import (
    Scan,
    group_name,
    name_of_omitted_kind,
    scan_directory,
    user_name,
)

from .support import InFolder

NO_USER = 99_999_999_999


class Scans(InFolder):
    def setUp(self) -> None:
        super().setUp()
        os.umask(0o022)
        os.mkdir(self.path('d'), 0o755)

    def scan(self, version: Optional[int] = None, ignored: Collection[str] = ()) -> Scan:
        return scan_directory(self.path('d'), lambda path: path in ignored, version)

    def test_each_entry_comes_after_its_directory_in_the_order_of_names(self) -> None:
        os.makedirs(self.path('d', 'b', 'c'))
        self.write('d/b.x', '1')
        self.write('d/b/c/y', '22', 0o600)
        os.symlink('b/none', self.path('d', 'a'))
        user, group = user_name(os.geteuid()), group_name(os.getegid())
        found = self.scan()
        self.assertEqual(
            found.entries,
            [
                StartSymlink('/a', user, group, 'b/none'),
                Start('/b', user, group, 0o755, None),
                Start('/b/c', user, group, 0o755, None),
                Start('/b/c/y', user, group, 0o600, b'22'),
                Start('/b.x', user, group, 0o644, b'1'),
            ],
        )
        self.assertEqual((found.header.owner, found.header.mode), (user, 0o755))
        self.assertEqual((found.omissions, found.notes, found.links), ([], [], {}))

    def test_an_ignored_directory_is_left_out_with_all_that_is_in_it(self) -> None:
        os.mkdir(self.path('d', 'b'))
        self.write('d/b/c', '1')
        self.write('d/e', '1')
        paths = [entry.path for entry in self.scan(ignored=['/b']).entries]
        self.assertEqual(paths, ['/e'])

    def test_what_no_trace_can_have_is_an_omission(self) -> None:
        os.mkfifo(self.path('d', 'a'))
        with socket.socket(socket.AF_UNIX) as bound:
            bound.bind(self.path('d', 'b'))
        os.symlink(b'\xff', self.path('d', 'c'))
        self.write('d/e', '333')
        os.symlink('e', self.path('d', 'f'))
        kinds = [('/a', 'a named pipe'), ('/b', 'a socket')]
        with mock.patch.object(limits, 'FILE_BYTES', 2):
            found = self.scan(3)
        links = [(f'/{name}', 'a symbolic link') for name in 'cf']
        large = ('/e', 'a file of more than 2 bytes')
        self.assertEqual(found.omissions, [*kinds, links[0], large, links[1]])
        self.assertEqual(found.entries, [])
        for version in (4, None):
            found = self.scan(version)
            no_name = ('/c', 'a symbolic link to a name that is not UTF-8')
            self.assertEqual(found.omissions, [*kinds, no_name])
            self.assertEqual([entry.path for entry in found.entries], ['/e', '/f'])
        for kind in (stat.S_IFCHR, stat.S_IFBLK):
            self.assertEqual(name_of_omitted_kind(kind | 0o644), 'a device')

    def test_a_directory_whose_name_no_trace_can_have_is_left_out_with_all_in_it(self) -> None:
        os.makedirs(os.path.join(os.fsencode(self.path('d')), b'\xff', b'a'))
        found = self.scan()
        self.assertEqual(found.entries, [])
        self.assertEqual([path for path, _ in found.omissions], ['/\udcff'])

    def test_names_of_a_file_are_links_to_the_first_and_others_are_noted(self) -> None:
        for name in 'abc':
            self.write(f'd/{name}', name)
        os.link(self.path('d', 'a'), self.path('d', 'a2'))
        os.link(self.path('d', 'a'), self.path('d', 'a3'))
        os.link(self.path('d', 'b'), self.path('b2'))
        os.link(self.path('d', 'c'), self.path('d', 'ignored'))
        found = self.scan(ignored=['/ignored'])
        self.assertEqual(found.links, {'/a2': '/a', '/a3': '/a'})
        note = 'a name outside the directory'
        self.assertEqual(found.notes, [('/b', note), ('/c', note)])

    def test_mode_bits_and_attributes_that_no_trace_has_are_kept_by_path(self) -> None:
        os.mkdir(self.path('d', 's'))
        os.chmod(self.path('d', 's'), 0o3711)
        os.setxattr(self.write('d/a', ''), 'user.x', b'1')
        found = self.scan()
        self.assertEqual(found.extra_mode_bits, {'/s': 0o3000})
        self.assertEqual(found.attributes, {'/a': {'user.x': b'1'}})
        modes = {line.path: line.mode for line in found.entries if isinstance(line, Start)}
        self.assertEqual(modes, {'/a': 0o644, '/s': 0o711})

    def test_users_without_a_name_are_named_by_their_numbers(self) -> None:
        self.assertEqual((user_name(0), group_name(0)), ('root', 'root'))
        self.assertEqual(user_name(NO_USER), f'u{NO_USER}')
        self.assertEqual(group_name(NO_USER), f'g{NO_USER}')


if __name__ == '__main__':
    unittest.main()
