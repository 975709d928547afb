"""Reads archives as `crashfs tar` writes them, and refuses what is none."""

import io
import tarfile
import unittest

from crashfs_tools.common.archive import (
    ArchiveFault,
    members_by_state,
    parse_extended_fields,
    read_members,
)
from crashfs_tools.common.entry import Entry

LONG = 'n' * 255
TREE = [
    ('', Entry('u', 'g', 0o755, None)),
    ('d', Entry('u', 'g', 0o700, None)),
    ('d/empty', Entry('u', 'g', 0, b'')),
    ('d/ä "o"\n', Entry('ü', 'g' * 40, 0o644, bytes(range(256)) * 3)),
    ('/'.join([LONG] * 3), Entry('u', 'g', 0o644, b'long')),
    ('/'.join(['m' * 60] * 3), Entry('u', 'g', 0o644, 512 * b'x')),
    ('d/l', Entry('u', 'g', 0o777, None, '../a/./b')),
    ('d/m', Entry('u', 'g', 0o777, None, '/ä' * 200)),
]
# What has no extended header.
SHORT = TREE[:3] + TREE[5:7]
# A sparse file: its list of pieces, then from a whole block on the pieces.
SPARSE = {
    'GNU.sparse.major': '1',
    'GNU.sparse.minor': '0',
    'GNU.sparse.name': 'd/big',
    'GNU.sparse.realsize': '1073741824',
}
PIECES = b'2\n8192\n3\n1073741820\n4\n'.ljust(512, b'\0') + b'abcwxyz'


def sparse_archive(fields, data: bytes) -> bytes:
    out = io.BytesIO()
    with tarfile.open(fileobj=out, mode='w', format=tarfile.PAX_FORMAT) as archive:
        info = tarfile.TarInfo('GNUSparseFile.0/big')
        info.pax_headers, info.size, info.mode = fields, len(data), 0o600
        info.uname = info.gname = 'u'
        archive.addfile(info, io.BytesIO(data))
    return out.getvalue()


def archive_of(tree, form=tarfile.PAX_FORMAT) -> bytes:
    out = io.BytesIO()
    with tarfile.open(fileobj=out, mode='w', format=form) as archive:
        for path, one in tree:
            info = tarfile.TarInfo(path or '.')
            info.type = tarfile.DIRTYPE if one.data is None else tarfile.REGTYPE
            if one.link is not None:
                info.type, info.linkname = tarfile.SYMTYPE, one.link
            info.mode, info.uname, info.gname = one.mode, one.owner, one.group
            info.size = len(one.data or b'')
            archive.addfile(info, io.BytesIO(one.data or b''))
    return out.getvalue()


def read(data: bytes):
    return list(read_members(io.BytesIO(data)))


class Archives(unittest.TestCase):
    def test_entries_are_read_with_all_that_they_have(self):
        self.assertEqual(read(archive_of(TREE)), TREE)
        self.assertEqual(read(archive_of(SHORT, tarfile.USTAR_FORMAT)), SHORT)

    def test_each_state_has_the_paths_of_its_own_tree(self):
        folder, file = Entry('u', 'g', 0o755, None), Entry('u', 'g', 0o644, b'f')
        members = [('0', folder), ('0/f', file), ('12', folder), ('12/d', folder), ('12/d/f', file)]
        found = [(number, list(entries)) for number, entries in members_by_state(members)]
        trees = [('', folder), ('f', file)], [('', folder), ('d', folder), ('d/f', file)]
        self.assertEqual(found, [(0, trees[0]), (12, trees[1])])

    def test_an_archive_without_its_end_is_refused(self):
        data = archive_of(TREE[:1])
        self.assertEqual(read(data[:1024]), TREE[:1])
        for size in (0, 100, 512, 1023):
            with self.assertRaisesRegex(ArchiveFault, 'ends early'):
                read(data[:size])

    def test_what_is_no_archive_is_refused(self):
        header = bytearray(archive_of(TREE[2:3])[:512])
        for place, byte, why in [(0, b'D', 'another sum'), (156, b'2', 'another sum')]:
            changed = bytearray(header)
            changed[place : place + 1] = byte
            with self.assertRaisesRegex(ArchiveFault, why):
                read(bytes(changed) + bytes(1024))
        for path in ('../up', 'd/../up', 'd//f', '/top', './d'):
            with self.assertRaisesRegex(ArchiveFault, 'an entry of the path'):
                read(archive_of([(path, Entry('u', 'g', 0o644, b''))]))

    def test_a_sparse_file_has_its_pieces_and_zeros(self):
        ((path, entry),) = read(sparse_archive(SPARSE, PIECES))
        self.assertEqual((path, entry.mode, len(entry.data)), ('d/big', 0o600, 1 << 30))
        self.assertEqual(entry.data.parts(), [(8192, b'abc'), (1073741820, b'wxyz')])
        ((_, empty),) = read(sparse_archive(SPARSE, b'0\n'.ljust(512, b'\0')))
        self.assertEqual((len(empty.data), empty.data.parts()), (1 << 30, []))

    def test_a_sparse_file_whose_list_is_wrong_is_refused(self):
        for data in (PIECES[:-1], PIECES + b'x', b'', b'1\n', b'2\n1\n1\n', b'x\n', b'-1\n'):
            with self.assertRaisesRegex(ArchiveFault, 'sparse', msg=data):
                read(sparse_archive(SPARSE, data))
        shorter = {**SPARSE, 'GNU.sparse.realsize': '1073741823'}
        with self.assertRaisesRegex(ArchiveFault, 'a piece of a sparse file ends past its length'):
            read(sparse_archive(shorter, PIECES))
        for length in ('-1', str(1 << 63)):
            wrong_length = {**SPARSE, 'GNU.sparse.realsize': length}
            with self.assertRaisesRegex(ArchiveFault, 'sparse'):
                read(sparse_archive(wrong_length, b'0\n'.ljust(512, b'\0')))
        without_size = {name: text for name, text in SPARSE.items() if 'size' not in name}
        with self.assertRaisesRegex(ArchiveFault, 'sparse'):
            read(sparse_archive(without_size, PIECES))

    def test_an_extended_header_with_a_wrong_length_is_refused(self):
        self.assertEqual(parse_extended_fields(b'6 a=b\n'), {'a': 'b'})
        for length in (b'0', b'7', b'x', b'', b'-6', b'6' * 5_000):
            with self.assertRaisesRegex(ArchiveFault, 'an extended header is cut', msg=length):
                parse_extended_fields(length + b' a=b\n')

    def test_other_kinds_of_entries_are_refused(self):
        out = io.BytesIO()
        with tarfile.open(fileobj=out, mode='w') as archive:
            info = tarfile.TarInfo('link')
            info.type, info.linkname = tarfile.LNKTYPE, 'target'
            archive.addfile(info)
        with self.assertRaisesRegex(ArchiveFault, 'unknown type'):
            read(out.getvalue())


if __name__ == '__main__':
    unittest.main()
