"""The files that a process has mapped, the calls that map them, and the files' copies."""

from __future__ import annotations

import os
import unittest
from unittest import mock

from crashfs_tools.recorder import stopped_processes
from crashfs_tools.recorder.mapped_files import (
    MAPPED,
    NO_THREAD,
    FileCopies,
    FileCopy,
    MappedFiles,
)

from .support import InFolder, as_strace


class InodesMapped(unittest.TestCase):
    def test_a_process_that_hides_its_maps_is_not_one_that_has_none(self) -> None:
        """Root may read the maps of each process, so the refusal is a stand-in's."""
        self.assertTrue(stopped_processes.read_mapped_inodes(os.getpid()))
        with mock.patch('builtins.open', side_effect=PermissionError):
            self.assertIsNone(stopped_processes.read_mapped_inodes(os.getpid()))
        with mock.patch('builtins.open', side_effect=FileNotFoundError):
            self.assertEqual(stopped_processes.read_mapped_inodes(os.getpid()), set())


class Mappings(unittest.TestCase):
    def test_mappings_of_32_bit_programs_are_known(self) -> None:
        line = '7 mmap2(NULL, 4096, PROT_READ|PROT_WRITE, MAP_SHARED, 3</d/f>, 0) = 0xf7000000'
        for name in ('mmap', 'mmap2'):
            self.assertTrue(MAPPED.match(as_strace(line.replace('mmap2', name))))


class Copies(InFolder):
    """The files that lines of the log map, and their copies."""

    def setUp(self) -> None:
        super().setUp()
        os.mkdir(self.path('d'))
        self.mapped = MappedFiles(self.path('d'), lambda path: path == '/ignored')
        self.copies = self.mapped.file_copies

    def map_file(self, line_number: int, *names: str, call: str = 'MAP_SHARED, 999') -> None:
        line = f'{os.getpid()} mmap(NULL, 9, PROT_READ, {call}<{self.path(*names)}>, 0) = 0x7'
        self.mapped.open_mapped_file(as_strace(line), line_number)

    def test_a_file_is_opened_once_by_whatever_name_it_is_mapped(self) -> None:
        os.link(self.write('d/a', 'a'), self.path('d', 'link'))
        self.write('d/b', 'b')
        for line_number, name in ((3, 'a'), (5, 'b'), (7, 'link'), (8, 'a')):
            self.map_file(line_number, 'd', name)
        self.assertEqual(self.copies.numbers_by_line, {3: 0, 5: 1, 7: 0, 8: 0})
        self.assertEqual(len(self.mapped.descriptors), 2)
        self.mapped.make_last_copy(9)
        self.assertEqual(self.copies.copies, [FileCopy(9, NO_THREAD, True, {0: b'a', 1: b'b'})])
        for descriptor in self.mapped.descriptors:
            with self.assertRaises(OSError):
                os.fstat(descriptor)

    def test_files_elsewhere_ignored_and_private_ones_are_not_opened(self) -> None:
        for names in (('d', 'ignored'), ('other',), ('d2',)):
            self.write('/'.join(names), '1')
            self.map_file(1, *names)
        self.write('d/a', '1')
        self.map_file(1, 'd', 'a', call='MAP_PRIVATE, 999')
        self.mapped.open_mapped_file('7 munmap(0x7000, 4096) = 0', 1)
        self.assertEqual((self.mapped.descriptors, self.copies), ([], FileCopies()))

    def test_a_file_is_opened_by_its_descriptor_if_its_path_has_none(self) -> None:
        path = self.write('d/a', 'a')
        with open(path, encoding='ascii') as file:
            os.unlink(path)
            self.map_file(1, 'd', 'a', call=f'MAP_SHARED, {file.fileno()}')
        self.map_file(2, 'd', 'a')
        self.mapped.make_last_copy(3)
        self.assertEqual(self.copies.copies[0].bytes_by_number, {0: b'a'})
        self.assertEqual(self.copies.unopened_paths, ['/a'])

    def test_a_copy_has_only_the_files_that_changed_and_says_which_are_shared(self) -> None:
        for line_number, name in enumerate('ab'):
            self.write(f'd/{name}', name)
            self.map_file(line_number, 'd', name)
        inode = str(os.stat(self.path('d', 'b')).st_ino)
        for inodes, changed, shared in (
            ({inode, '0'}, 'ab', {1}),
            ({inode}, '', set()),
            ({inode}, 'a', set()),
            (None, 'b', {1}),
            (None, 'ab', {0, 1}),
            (set(), 'ab', set()),
        ):
            for name in changed:
                with open(self.path('d', name), 'a', encoding='ascii') as file:
                    file.write('+')
            with mock.patch.object(stopped_processes, 'read_mapped_inodes', return_value=inodes):
                self.mapped.copy_changed_files(4, 7, is_alone=True, other_threads=[8])
            with self.subTest(changed, inodes=inodes):
                copy = self.copies.copies[-1]
                self.assertEqual(sorted(copy.bytes_by_number), ['ab'.index(one) for one in changed])
                self.assertEqual(copy.shared_numbers, shared)
                self.assertEqual(copy.has_one_writer(1), 1 not in shared)
        self.mapped.make_last_copy(5)


if __name__ == '__main__':
    unittest.main()
