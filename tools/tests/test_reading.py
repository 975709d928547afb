"""The second reading: rows of version 3, and the faults of lines."""

import sys
import unittest
from pathlib import Path
from unittest import mock

from crashfs_tools.reading import ReadingFault, make_plan, parse_trace
from crashfs_tools.reading.listing import plain_listing
from crashfs_tools.reading.order import Order
from crashfs_tools.reading.picking import different_places
from crashfs_tools.reading.plan import file_sets, read_picks
from crashfs_tools.reading.trees import Trees

from .random_traces import RandomTrace
from .test_beside_program import NEEDS_LOST

ROWS = Path(__file__).with_name('data') / 'version-3'
ROOT = '"owner":"cat","group":"staff","mode":"775"'
HEADERS = {
    1: f'{{"trace":1,{ROOT}}}\n',
    2: f'{{"trace":2,"profile":"blocks",{ROOT}}}\n',
    3: f'{{"trace":3,"profile":"blocks","block":4096,{ROOT}}}\n',
}
RIGHTS = '"owner":"ann","group":"staff","mode":"644"'
CREAT = f'{{"op":"creat","path":"%s",{RIGHTS}}}\n'
A, B = CREAT % '/a', CREAT % '/b'


def row(name):
    return (ROWS / name).read_text(encoding='utf-8')


def listed(text, picks=(), **options):
    return ''.join(
        plain_listing(make_plan(parse_trace(text.encode()), has_holes=True, picks=picks), **options)
    )


def files_family(text):
    """The places of each set of --files, each set once."""
    reading = parse_trace(text.encode())
    return list(different_places(file_sets(Order(reading), Trees(reading))))


def fault_of(text):
    try:
        parse_trace(text.encode('utf-8', 'surrogateescape'))
    except ReadingFault as fault:
        return str(fault).replace('trace line ', '')
    return None


class Rows(unittest.TestCase):
    def test_the_rows_of_version_3_are_listed_byte_for_byte(self):
        for path in sorted(ROWS.glob('*.trace')):
            with self.subTest(path.name):
                self.assertEqual(listed(row(path.name)), row(f'{path.stem}.list'))

    def test_as_version_1_a_session_has_states_that_lack_a_say_and_keep_what_follows(self):
        text = row('row43.trace').replace('"text":"hi"', '"bytes":"6869"')
        text = text.replace(',"note":"main (kv.py:85)"', '').replace(
            '"trace":3,"profile":"blocks","block":4096', '"trace":1'
        )
        self.assertEqual(len(make_plan(parse_trace(text.encode()), has_holes=True).states), 25)
        plan = make_plan(parse_trace(text.encode()), has_holes=True)
        lacking = [
            one.text
            for one in plan.states
            for say in (3, 6)
            if not one.place_set >> say & 1 and one.place_set >> (say + 1)
        ]
        self.assertEqual(len(set(lacking)), 4)

    def test_an_end_of_a_range_that_cuts_a_write_covers_nothing_of_it(self):
        text = row('row45.trace').replace('"length":3', '"length":2')
        self.assertIn(' hole 4 6 ', listed(text))
        self.assertNotIn(' hole 4 6 ', listed(row('row45.trace')))

    def test_picks_that_a_rule_of_version_3_forbids(self):
        for name, pick in [('row43.trace', [0, 1, 2, 4]), ('row46.trace', [3])]:
            with self.assertRaisesRegex(ReadingFault, '^pick 0 not allowed$'):
                listed(row(name), [pick])

    def test_two_paths_of_a_file_are_two_files_of_a_state(self):
        def contents(name, number):
            plan = make_plan(parse_trace(row(name).encode()), has_holes=True)
            tree = plan.trees.tree(plan.states[number].place_set)
            return {path: item.content for path, item in tree.items() if path != '/'}

        self.assertEqual(contents('row46.trace', 4), {'/t': b'm', '/m': b'm'})
        self.assertEqual(contents('row46.trace', 15), {})
        self.assertEqual(contents('row47.trace', 1), {'/f': b'y', '/g': b'y'})
        self.assertEqual(contents('row47.trace', 3), {'/g': b'x'})
        self.assertEqual(contents('row44.trace', 6), {'/f': b'x' + bytes(511) + b'cd'})

    def test_a_block_is_as_large_as_the_header_has_it(self):
        text = row('row44.trace').replace('"block":512', '"block":4096')
        self.assertIn('op 1 write_block 0 0 510 4\n', listed(text))

    def test_a_change_is_listed_with_the_oldest_path_that_its_file_has(self):
        text = listed(row('row46.trace'), has_lines=True)
        self.assertIn('op 3 link_dir_entry /m 0 line 4\n', text)
        self.assertIn('op 6 write_block 0 0 1 1 line 7 /m\n', text)
        renamed = row('row46.trace').replace(
            '{"op":"unlink","path":"/t"}', '{"op":"rename","from":"/t","to":"/z"}'
        )
        self.assertIn(' line 7 /z\n', listed(renamed, has_lines=True))
        text = listed(row('row47.trace'), has_lines=True)
        self.assertIn('op 0 write_block 0 0 0 1 line 4 /f\n', text)

    def test_renamed_directories_may_be_nested_deeper_than_python_calls(self):
        below = '/d' * 60
        count = sys.getrecursionlimit() // 60 + 1
        folder = f'{{"start":"dir","path":"%s",{RIGHTS}}}\n'
        lines = [f'{{"trace":4,"profile":"ordered","block":4096,{ROOT}}}\n']
        for number in range(count):
            lines += [folder % f'/{number}{"/d" * depth}' for depth in range(61)]
        lines.append(f'{{"start":"file","path":"/0{below}/f",{RIGHTS},"bytes":""}}\n')
        lines.append(f'{{"start":"link","path":"/f","from":"/0{below}/f"}}\n')
        rename = '{"op":"rename","from":"/%d","to":"/%d%s/%d"}\n'
        lines += [rename % (number - 1, number, below, number - 1) for number in range(1, count)]
        lines.append('{"op":"write","path":"/f","offset":0,"text":"x"}\n')
        write = parse_trace(''.join(lines).encode()).operations[-1]
        parents = ''.join(f'/{number}{below}' for number in reversed(range(count)))
        self.assertEqual(write.path, f'{parents}/f')

    def test_a_path_that_ends_in_a_blank_is_listed_whole(self):
        write = '{"op":"write","path":"/a ","offset":0,"text":"x"}\n'
        lines = listed(HEADERS[3] + CREAT % '/a ' + write, has_lines=True).split('\n')
        self.assertEqual(
            lines[:3],
            [
                'op 0 create_dir_entry /a  file line 2',
                'op 1 change_file_size 0 1 line 3 /a ',
                'op 2 write_block 0 0 0 1 line 3 /a ',
            ],
        )

    def test_a_sync_of_a_range_takes_away_what_it_covers_from_the_files_family(self):
        sets = files_family(row('row45.trace'))
        self.assertIn([0, 1, 3, 4, 5], sets)
        self.assertNotIn([0, 5], sets)

    def test_a_set_of_the_files_family_is_given_once(self):
        """The second write is synced and needs the first, so that both prefixes leave the same."""
        self.assertEqual(files_family(NEEDS_LOST), [[0], [0, 1, 3]])

    def test_a_sync_after_a_prefix_has_not_ended_in_it(self):
        text = HEADERS[3] + A + '{"op":"write","path":"/a","offset":0,"text":"row"}\n' + B
        text += '{"op":"fsync","path":"/a"}\n{"op":"say","text":"row"}\n'
        self.assertEqual(files_family(text), [[0], [0, 3]])


def contents_of(tree):
    return [(path, item.kind, item.rights, item.content) for path, item in sorted(tree.items())]


class Digests(unittest.TestCase):
    def test_states_have_the_same_digest_just_if_their_trees_are_equal(self):
        write = '{"op":"write","path":"/a","offset":%d,"text":"aaaa"}\n'
        hidden = HEADERS[3] + A + write % 0 + write % 4
        # Two files of the same bytes: of several blocks each, of which one shrinks on the way.
        alike = (
            HEADERS[3]
            + A
            + B
            + ''.join(
                f'{{"op":"write","path":"/{name}","offset":0,"text":"{"x" * 5000}"}}\n'
                for name in 'ab'
            )
            + (
                '{"op":"truncate","path":"/b","length":100}\n'
                '{"op":"truncate","path":"/b","length":5000}\n'
                '{"op":"write","path":"/b","offset":100,"text":"'
                + 'x' * 4900
                + '"}\n{"op":"sync"}\n'
                '{"op":"rename","from":"/b","to":"/a"}\n'
            )
        )
        for text in [hidden, alike, *(RandomTrace(3, seed).text() for seed in range(60))]:
            try:
                plan = make_plan(parse_trace(text.encode()), has_holes=True)
            except ReadingFault:
                continue
            trees = [
                (
                    plan.trees.digest(state.place_set),
                    contents_of(plan.trees.tree(state.place_set)),
                )
                for state in plan.states
            ]
            first = {}
            for digest, tree in trees:
                self.assertEqual(first.setdefault(digest, tree), tree)
            self.assertEqual(len(first), len({repr(tree) for _, tree in trees}))


class Faults(unittest.TestCase):
    def test_the_first_fault_of_a_line_counts(self):
        directory = '{"op":"mkdir","path":"/d",%s}\n' % RIGHTS
        for version, lines, wanted in [
            (3, A + B + '{"op":"link","from":"/a","to":"/b"}', '4: Exists'),
            (3, '{"op":"link","from":"/d","to":"/e"}', '2: Missing'),
            (3, directory + '{"op":"link","from":"/d","to":"/e"}', '3: NotFile'),
            (3, A + '{"op":"link","from":"/a","to":"/d/e"}', '3: NoParent'),
            (3, A + '{"op":"link","from":"/a","to":"/a/b"}', '3: NotDir'),
            (3, A + '{"op":"link","from":"/","to":"/b"}', '3: BadName'),
            (3, A + '{"start":"link","from":"/a","path":"/b"}', '3: Syntax'),
            (3, '{"start":"link","from":"/a","path":"/b"}', '2: Missing'),
            (3, directory + '{"op":"fsync_range","path":"/d","offset":0,"length":0}', '3: NotFile'),
            (3, A + '{"op":"fsync_range","path":"/","offset":0,"length":0}', '3: BadName'),
            (3, A + '{"op":"fsync_range","path":"/a","offset":0}', '3: Syntax'),
            (3, '{"op":"sync","note":1}', '2: Syntax'),
            (3, '{"op":"synk","note":1}', '2: UnknownOp'),
            (3, A + '{"op":"write","path":"/a","offset":0,"bytes":"","text":""}', '3: Syntax'),
            (3, A + '{"op":"write","path":"/a","offset":0,"text":1}', '3: Syntax'),
            (3, A + '{"op":"unlink","path":"/a","text":"a"}', '3: Syntax'),
            (2, '{"op":"link"}', '2: UnknownOp'),
            (2, '{"start":"link"}', '2: UnknownOp'),
            (2, '{"op":"sync","note":""}', '2: Syntax'),
            (1, '{"op":"chmod"}', '2: UnknownOp'),
        ]:
            with self.subTest(lines):
                self.assertEqual(fault_of(HEADERS[version] + lines), wanted)

    def test_headers(self):
        third = HEADERS[3]
        for text, wanted in [
            (third, None),
            (third.replace('4096', '512'), None),
            (third.replace('{', '{"note":"a",'), None),
            (third.replace('{', '{"note":1,'), '1: Syntax'),
            (third.replace('4096', '8192'), '1: Syntax'),
            (third.replace('4096', '4096.0'), '1: Syntax'),
            (third.replace('4096', '"4096"'), '1: Syntax'),
            (third.replace('"block":4096,', ''), '1: Syntax'),
            (third.replace('"trace":3', '"trace":4'), None),
            (third.replace('"trace":3', '"trace":5'), '1: Syntax'),
            (third.replace('blocks', 'journal'), '1: Syntax'),
            (third.replace('"trace":3', '"trace":4').replace('blocks', 'journal'), None),
            (third.replace('"trace":3', '"trace":2'), '1: Syntax'),
            (third.replace('cat', ''), '1: BadName'),
            (third + third, '2: Syntax'),
            ('', '1: Syntax'),
            ('\n \r\n', '1: Syntax'),
            ('\udcff', 'trace: NotText'),
            ('\ufeff' + third, '1: Syntax'),
        ]:
            with self.subTest(text):
                self.assertEqual(fault_of(text), wanted)

    def test_a_rename_onto_a_path_of_the_same_file_is_no_micro_operation(self):
        text = (
            HEADERS[3]
            + A
            + B
            + ('{"op":"link","from":"/a","to":"/c"}\n' '{"op":"rename","from":"/a","to":"/c"}\n')
        )
        self.assertEqual(len(parse_trace(text.encode()).operations), 3)

    def test_json_is_read_as_strictly_as_the_program_reads_it(self):
        say = HEADERS[1] + '{"op":"say","text":%s}'
        for text, wanted in [
            ('"a"', None),
            ('"\\ud83d\\ude00"', None),
            ('"\\ud83d"', '2: Syntax'),
            ('"\t"', '2: Syntax'),
            ('NaN', '2: Syntax'),
            ('"a","text":"b"', None),
        ]:
            with self.subTest(text):
                self.assertEqual(fault_of(say % text), wanted)
        odd = HEADERS[1] + '{"op":"x","y":%s}'
        for value in ('[' * 126 + ']' * 126, '"' + '[' * 200 + '"', '1.5'):
            self.assertEqual(fault_of(odd % value), '2: UnknownOp', value)
        for levels in (127, 500, 900, 5_000):
            self.assertEqual(fault_of(odd % ('[' * levels + ']' * levels)), '2: Syntax', levels)
            objects = '{"z":' * levels + '0' + '}' * levels
            self.assertEqual(fault_of(odd % objects), '2: Syntax', levels)
        self.assertEqual(fault_of(odd % '1e400'), '2: Syntax')
        write = HEADERS[1] + A + '{"op":"truncate","path":"/a","length":%s}'
        for number, wanted in [
            ('7', None),
            ('-0', '3: Syntax'),
            ('7.0', '3: Syntax'),
            ('true', '3: Syntax'),
            ('18446744073709551615', '3: TooLarge'),
            ('18446744073709551616', '3: Syntax'),
        ]:
            self.assertEqual(fault_of(write % number), wanted, number)

    def test_a_plan_and_a_trace_may_be_too_large(self):
        says = HEADERS[1] + '{"op":"say","text":""}\n' * 1025
        self.assertEqual(fault_of(says), 'too many micro-operations')
        many = HEADERS[1] + A + '{"op":"write","path":"/a","offset":0,"bytes":"00"}\n'
        self.assertEqual(len(make_plan(parse_trace(many.encode()), has_holes=True).states), 7)
        wide = HEADERS[1] + ''.join(CREAT % f'/{number}' for number in range(200))
        with self.assertRaisesRegex(ReadingFault, '^plan too large$'):
            make_plan(parse_trace(wide.encode()), has_holes=True)

    def test_a_rename_into_another_directory_is_a_record_in_version_4(self):
        fourth = HEADERS[3].replace('"trace":3', '"trace":4')
        directory = '{"op":"mkdir","path":"/d",%s}\n' % RIGHTS
        rename = '{"op":"rename","from":"/a","to":"%s"}\n'
        link = '{"op":"link","from":"/a","to":"/d/a"}\n'
        for text, most, wanted in [
            (HEADERS[3] + A + B, 3, None),
            (HEADERS[3] + A + B, 2, '3: TooLarge'),
            (fourth + A + directory + rename % '/d/a', 4, None),
            (fourth + A + directory + rename % '/d/a', 3, '4: TooLarge'),
            (fourth + A + directory + rename % '/d/a' + B, 4, '5: TooLarge'),
            (fourth + A + directory + rename % '/b', 3, None),
            (HEADERS[3] + A + directory + rename % '/d/a', 3, None),
            # This rename does nothing: both paths are of one file.
            (fourth + A + directory + link + rename % '/d/a', 4, None),
        ]:
            with mock.patch('crashfs_tools.reading.names.RECORDS', most):
                self.assertEqual(fault_of(text), wanted, text)

    def test_a_plan_has_16_384_states_at_most(self):
        reading = parse_trace(HEADERS[3].encode())
        plan = make_plan(reading, picks=[()] * 16_383)
        self.assertEqual(len(plan.states), 16_384)
        for add in (
            lambda: plan.add_pick([]),
            # That these picks aren't allowed is seen later.
            lambda: make_plan(reading, picks=[(9,)] * 16_384),
        ):
            with self.assertRaisesRegex(ReadingFault, '^plan too large$'):
                add()
        self.assertEqual(len(plan.states), 16_384)

    def test_picks_are_arrays_of_places(self):
        self.assertEqual(read_picks(b'[0,1]\r\n\n[]\n'), [[0, 1], []])
        for line in (b' ', b'[1.0]', b'[-1]', b'{}', b'[4294967296]', b'\xff'):
            with self.assertRaisesRegex(ReadingFault, '^picks line 2: Syntax$'):
                read_picks(b'[]\n' + line)


if __name__ == '__main__':
    unittest.main()
