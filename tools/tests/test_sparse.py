"""Files of which only what isn't zero is kept, and how bytes are written to a file."""

import os
import random
import tempfile
import unittest
from unittest import mock

from crashfs_tools.common.file_bytes import write_at
from crashfs_tools.common.sparse import GAP_BYTES, PAGE_BYTES, SparseBytes


def change(chance: random.Random, sparse: SparseBytes, whole: bytearray) -> None:
    """Makes the same change to both."""
    at = chance.randrange(3 * PAGE_BYTES)
    count = chance.choice([0, 1, 40, PAGE_BYTES, 2 * PAGE_BYTES])
    kind = chance.randrange(4)
    if kind == 0:
        sparse.resize(at)
        whole[:] = whole[:at].ljust(at, b'\0')
    elif kind == 1:
        sparse.clear(at, at + count)
        end = min(at + count, len(whole))
        whole[at:end] = bytes(max(0, end - at))
    else:
        data = bytes(count) if kind == 2 else chance.randbytes(count)
        sparse.write(at, data)
        end = max(len(whole), at + count)
        whole[:] = whole.ljust(end, b'\0')
        whole[at : at + count] = data


class Sparse(unittest.TestCase):
    def test_it_has_the_bytes_that_were_written(self):
        for seed in range(60):
            chance, sparse, whole = random.Random(seed), SparseBytes(), bytearray()
            for _ in range(40):
                change(chance, sparse, whole)
                at = chance.randrange(4 * PAGE_BYTES)
                self.assertEqual(sparse.read(at, 5000), whole[at : at + 5000])
                self.assertEqual(sparse[3:-1], whole[3:-1])
                self.assertEqual((bytes(sparse), len(sparse)), (whole, len(whole)))
                self.assertEqual(sparse, whole)
                self.assertEqual(SparseBytes(len(sparse), sparse.parts()), whole)
                self.assertEqual(sparse.copy(), SparseBytes.copy_of(whole))

    def test_files_that_differ_are_not_equal(self):
        one, other = SparseBytes(PAGE_BYTES), SparseBytes(PAGE_BYTES, [(7, b'x')])
        self.assertNotEqual(one, other)
        self.assertNotEqual(one, SparseBytes(PAGE_BYTES + 1))
        self.assertNotEqual(other, bytes(PAGE_BYTES))

    def test_parts_have_no_long_run_of_zeros(self):
        gap = bytes(GAP_BYTES)
        sparse = SparseBytes.copy_of(b'\0\0a\0\0b' + gap + b'c' + gap[1:] + b'd\0')
        self.assertEqual(sparse.parts(), [(2, b'a\0\0b'), (6 + GAP_BYTES, b'c' + gap[1:] + b'd')])

    def test_long_texts_are_parts(self):
        text = b'So long a text is a part: "it" takes half the room.\n'
        sparse = SparseBytes.copy_of(b'\1\2' + text + b'\3' + text[:9] + b'\xff' + text)
        self.assertEqual(
            sparse.parts(),
            [(0, b'\1\2'), (2, text), (54, b'\3' + text[:9] + b'\xff'), (65, text)],
        )

    def test_a_gibibyte_of_zeros_takes_no_memory(self):
        sparse = SparseBytes(1 << 30)
        sparse.write(1 << 29, b'x')
        sparse.clear(0, 1 << 30)
        sparse.resize(1 << 20)
        sparse.resize(1 << 30)
        self.assertEqual((sparse.parts(), len(sparse.pages)), ([], 0))

    def test_what_was_cut_off_is_zero_when_the_file_grows_again(self):
        sparse = SparseBytes.copy_of(b'x' * 100)
        sparse.resize(10)
        sparse.resize(100)
        self.assertEqual(bytes(sparse), b'x' * 10 + bytes(90))


class Files(unittest.TestCase):
    def test_all_bytes_are_written_if_the_system_takes_two_at_once(self):
        write = os.pwrite
        with tempfile.TemporaryFile() as file, mock.patch(
            'os.pwrite', side_effect=lambda fd, data, offset: write(fd, data[:2], offset)
        ):
            file.write(b'old bytes')
            file.flush()
            write_at(file.fileno(), 3, b'seven b')
            self.assertEqual(os.pread(file.fileno(), 100, 0), b'oldseven b')


if __name__ == '__main__':
    unittest.main()
