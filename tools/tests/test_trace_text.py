"""What is read of a trace's text, line by line, and traces that differ in some lines."""

from __future__ import annotations

import unittest

from crashfs_tools.common.limits import FILE_BYTES
from crashfs_tools.common.trace import Creat, Say
from crashfs_tools.common.trace_fields import (
    TraceError,
    header_fields,
    parse_lines,
    root_owner,
    trace_version,
)
from crashfs_tools.common.trace_read import read_trace_with_numbers
from crashfs_tools.common.trace_lines import (
    TraceLine,
    details_text,
    is_large_trace,
    parse_trace_text,
    with_syncs,
    without_says,
)

HEADER = '{"trace":3,"profile":"blocks","block":4096,"owner":"ann","group":"g","mode":"755"}'
CREAT = '{"op":"creat","path":"/a","owner":"u","group":"u","mode":"644"}'
SAY = '{"op":"say","text":"' + 'x' * 50 + '"}'
# Empty lines and blanks are between them, as people write them.
TEXT = f'\n{HEADER}\n \t\n{CREAT}\r\n{SAY}\n\n'


class Lines(unittest.TestCase):
    def test_lines_keep_their_numbers(self) -> None:
        numbers = [number for number, _ in parse_lines(TEXT.split('\n'))]
        self.assertEqual(numbers, [2, 4, 5])

    def test_a_line_that_is_no_json_is_named(self) -> None:
        with self.assertRaisesRegex(TraceError, r'^line 2 is no line of a trace \(Expecting'):
            list(parse_lines(['{}', 'x']))
        with self.assertRaisesRegex(TraceError, r'^line 1 is no line of a trace \(maximum'):
            list(parse_lines(['[' * 200_000]))

    def test_operations_are_in_words_and_acknowledged_texts_are_whole(self) -> None:
        read = parse_trace_text(TEXT)
        self.assertEqual(
            {number: line.text for number, line in read.operations.items()},
            {4: 'creat /a', 5: f'say "{40 * "x"}.."'},
        )
        self.assertEqual(read.acknowledged, ['x' * 50])

    def test_the_details_of_each_operation(self) -> None:
        rights = {'owner': 'ann', 'group': 'g', 'mode': '600'}
        for fields, details in (
            ({'op': 'say', 'text': 'x' * 40}, 'x' * 40),
            ({'op': 'say', 'text': 'x' * 41}, 'x' * 40 + '..'),
            ({'op': 'write', 'offset': 1_000, 'text': '\N{EURO SIGN}'}, '3 bytes at 1,000'),
            ({'op': 'write', 'offset': 0, 'bytes': '6162'}, '2 bytes at 0'),
            ({'op': 'symlink', 'target': '/t', **rights}, 'target /t'),
            ({'op': 'truncate', 'length': 2_000}, '2,000 bytes'),
            ({'op': 'fsync_range', 'offset': 0, 'length': FILE_BYTES}, 'all bytes'),
            (
                {'op': 'fsync_range', 'offset': 1, 'length': FILE_BYTES},
                f'{FILE_BYTES:,} bytes at 1',
            ),
            ({'op': 'chmod', 'mode': '600'}, '600'),
            ({'op': 'chown', 'owner': 'ann', 'group': 'g'}, 'ann g'),
            ({'op': 'creat', **rights}, ''),
        ):
            self.assertEqual(details_text(fields), details)

    def test_the_owner_of_the_root_is_that_of_the_header(self) -> None:
        self.assertEqual(root_owner(TEXT.split('\n')), 'ann')

    def test_only_the_header_is_read_for_the_version(self) -> None:
        for text, version in (
            (TEXT + 'no JSON', 3),
            ('{"trace":77}', 77),
            ('{"trace":"3"}', 0),
            ('{"op":"sync"}', 0),
            ('[]', 0),
            ('no JSON', 0),
            (' \n', 0),
        ):
            self.assertEqual(trace_version(text), version, text)
        with self.assertRaises(StopIteration):
            header_fields([' \t', ''])

    def test_each_operation_has_the_number_of_its_line(self) -> None:
        trace, numbers = read_trace_with_numbers(TEXT)
        self.assertEqual(trace.operations, [Creat('/a', 'u', 'u', 0o644), Say('x' * 50)])
        self.assertEqual(numbers, [4, 5])


class Paths(unittest.TestCase):
    def test_a_line_may_change_what_is_at_or_below_its_path_or_at_its_target(self) -> None:
        rename, same = TraceLine(1, 'rename', '/d', '/e'), TraceLine(1, 'rename', '/d', '/d')
        unlink, rmdir = TraceLine(1, 'unlink', '/d'), TraceLine(1, 'rmdir', '/d')
        for line, path, may_change in (
            (rename, '/d', True),
            (rename, '/d/f', True),
            (rename, '/dd', False),
            (rename, '/', False),
            (rename, '/e', True),
            (rename, '/e/f', False),
            (same, '/d', False),
            (same, '/d/f', False),
            (unlink, '/d', True),
            (unlink, '/e', False),
            (rmdir, '/d', True),
            (TraceLine(1, 'link', '/d', '/e'), '/e', False),
            (TraceLine(1, 'write', '/d'), '/d', False),
        ):
            self.assertEqual(line.may_change_path(path), may_change, (line.text, path))

    def test_lines_are_apart_if_no_path_is_at_or_above_one_of_the_other(self) -> None:
        creat, rename = TraceLine(1, 'creat', '/d'), TraceLine(1, 'rename', '/a', '/b/c')
        for line, other, are_apart in (
            (creat, TraceLine(2, 'write', '/d'), False),
            (creat, TraceLine(2, 'write', '/d/f'), False),
            (creat, TraceLine(2, 'write', '/dd'), True),
            (creat, TraceLine(2, 'fsync', '/'), False),
            (creat, rename, True),
            (TraceLine(2, 'fsync', '/b'), rename, False),
            (TraceLine(2, 'fsync', '/'), rename, False),
            (TraceLine(2, 'sync'), rename, True),
        ):
            self.assertEqual(line.is_apart_from(other), are_apart, (line.text, other.text))
            self.assertEqual(other.is_apart_from(line), are_apart, (other.text, line.text))

    def test_the_path_whose_fsync_makes_a_line_durable(self) -> None:
        for line, path in (
            (TraceLine(1, 'write', '/d/f'), '/d/f'),
            (TraceLine(1, 'chmod', '/d'), '/d'),
            (TraceLine(1, 'unlink', '/d/f'), '/d'),
            (TraceLine(1, 'rename', '/d/f', '/e/f'), '/e'),
            (TraceLine(1, 'link', '/d/f', '/f'), '/'),
            (TraceLine(1, 'fsync', '/d/f'), None),
            (TraceLine(1, 'say', details='a'), None),
        ):
            self.assertEqual(line.path_to_fsync, path, line.text)


class Edits(unittest.TestCase):
    def test_acknowledged_lines_are_left_out_and_all_others_stay(self) -> None:
        self.assertEqual(without_says(TEXT), f'\n{HEADER}\n \t\n{CREAT}\r\n\n')
        self.assertEqual(without_says(HEADER + '\n'), HEADER + '\n')

    def test_a_sync_follows_its_line(self) -> None:
        sync = '{"op": "fsync", "path": "/\N{LATIN SMALL LETTER E WITH ACUTE}"}'
        added = with_syncs(TEXT, [(4, '/\N{LATIN SMALL LETTER E WITH ACUTE}')])
        self.assertEqual(added, TEXT.replace('\r\n', f'\r\n{sync}\n'))


class Much(unittest.TestCase):
    def test_start_lines_and_bytes_count(self) -> None:
        start = '{"start":"dir","path":"/d","owner":"u","group":"u","mode":"755"}'
        grown = '{"op":"truncate","path":"/f","length":900}'
        for lines, expected in (
            ([HEADER, start], False),
            ([HEADER, start, start], True),
            ([HEADER, '', CREAT], False),
            ([HEADER, grown], False),
            ([HEADER, grown, grown], True),
            ([HEADER, '{"op":"say","text":"' + 'x' * 1000 + '"}'], True),
            ([HEADER, '{"op":"say","text":"' + '\N{EURO SIGN}' * 300 + '"}'], True),
        ):
            self.assertEqual(is_large_trace(lines, 2, 1_000), expected, lines)


if __name__ == '__main__':
    unittest.main()
