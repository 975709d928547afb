"""Traces: written and read back, and the tree that they tell, against the examples."""

import subprocess
import unittest

from crashfs_tools.common import limits
from crashfs_tools.common.entry import Entry
from crashfs_tools.common.program import Crashfs
from crashfs_tools.common.trace import (
    Chmod,
    Chown,
    Creat,
    Fdatasync,
    FsyncRange,
    Header,
    Link,
    Mkdir,
    Rename,
    Rmdir,
    Start,
    StartLink,
    Trace,
    Truncate,
    Unlink,
    Write,
)
from crashfs_tools.common.trace_fields import TraceError
from crashfs_tools.common.trace_read import read_trace, tree_at_end
from crashfs_tools.common.trace_lines import parse_trace_text
from crashfs_tools.common.tree import Tree
from crashfs_tools.recorder.comparison import (
    entries_by_program,
    entries_by_replay,
    lines_on_differences,
)
from crashfs_tools.recorder.directory import Scan

from .support import EXAMPLES, FAKE, InFolder

EXAMPLE_TRACES = [path.name for path in sorted(EXAMPLES.glob('*.trace'))]
HEADER_2 = '{"trace":2,"profile":"blocks","owner":"cat","group":"staff","mode":"775"}\n'
# A file that gets its mode and its owner before it is renamed into place.
RIGHTS = (
    HEADER_2
    + """\
{"op":"creat","path":"/a","owner":"ann","group":"staff","mode":"644"}
{"op":"chmod","path":"/a","mode":"600"}
{"op":"chown","path":"/a","owner":"bob","group":"staff"}
{"op":"rename","from":"/a","to":"/b"}
"""
)
# The states of it, and of it with a sync of the file before the rename, by the definition alone.
RIGHTS_LIST = """\
op 0 create_dir_entry /a file
op 1 set_attr file 0 600 ann staff
op 2 set_attr file 0 600 bob staff
op 3 move_dir_entry /a /b
state 0 prefix 0 says 0
state 1 prefix 1 says 0
state 2 prefix 2 says 0
state 3 prefix 3 says 0
state 4 prefix 4 says 0
state 5 hole 0 2 says 0
state 6 hole 0 3 says 0
state 7 hole 1 4 says 0
state 8 hole 2 4 says 0
"""
HEADER_3 = HEADER_2.replace('2', '3', 1).replace('"owner"', '"block":4096,"owner"', 1)
# All that version 3 has and version 2 has not.
LINKED = (
    HEADER_3
    + """\
{"start":"dir","path":"/d","owner":"ann","group":"staff","mode":"755"}
{"start":"file","path":"/d/f","owner":"ann","group":"staff","mode":"644","text":"x"}
{"start":"link","path":"/g","from":"/d/f"}
{"op":"write","path":"/g","offset":0,"text":"é \\"\\n"}
{"op":"write","path":"/g","offset":4094,"bytes":"610000"}
{"op":"fsync_range","path":"/d/f","offset":0,"length":3}
{"op":"say","text":"1","note":"main.c:7"}
{"op":"link","from":"/g","to":"/h"}
{"op":"unlink","path":"/g"}
{"op":"rename","from":"/h","to":"/d/f"}
"""
)
HEADER_4 = HEADER_3.replace('3', '4', 1)
# A start file of a length with one byte at an offset.
START_OF_PARTS = (
    '{"start":"file","path":"/f","owner":"a","group":"a","mode":"644","length":%s,'
    '"parts":[{"at":%s,"text":"x"}]}'
)
# All that version 4 has and version 3 has not.
MOVED = (
    (
        HEADER_4.replace('blocks', 'journal')
        + """\
{"start":"dir","path":"/d","owner":"ann","group":"staff","mode":"755"}
{"start":"file","path":"/d/f",RIGHTS,"length":64000000,"parts":PARTS}
{"start":"file","path":"/d/g",RIGHTS,"length":1073741824,"parts":[]}
{"start":"symlink","path":"/d/l","owner":"ann","group":"staff","target":"../é"}
{"op":"symlink","path":"/m","owner":"ann","group":"staff","target":"d"}
{"op":"fdatasync","path":"/d/f"}
{"op":"rename","from":"/d","to":"/e"}
{"op":"write","path":"/e/g","offset":1073741823,"text":"z"}
"""
    )
    .replace('RIGHTS', '"owner":"ann","group":"staff","mode":"644"')
    .replace('PARTS', '[{"at":0,"text":"x"},{"at":63999991,"bytes":"ff"}]')
)
TWO_FILES = """\
{"op":"creat","path":"/a","owner":"ann","group":"staff","mode":"644"}
{"op":"creat","path":"/b","owner":"ann","group":"staff","mode":"644"}
"""


def example(name: str) -> str:
    return (EXAMPLES / name).read_text(encoding='utf-8')


class Traces(unittest.TestCase):
    def test_a_trace_is_written_as_it_was_read(self):
        for name in EXAMPLE_TRACES:
            lines = [line for line in example(name).split('\n') if line]
            self.assertEqual(list(read_trace(example(name)).lines()), lines)
        for text in (RIGHTS, LINKED, MOVED):
            self.assertEqual('\n'.join(read_trace(text).lines()) + '\n', text)

    def test_two_paths_of_a_file_are_one_file(self):
        tree = tree_at_end(LINKED.split('\n'))
        self.assertEqual(sorted(tree.entries), ['/', '/d', '/d/f', '/h'])
        self.assertEqual(tree.entries['/d/f'].data, b'\xc3\xa9 "\n'.ljust(4094, b'\0') + b'a\0\0')
        self.assertIs(tree.entries['/d/f'], tree.entries['/h'])
        # A size and a block, a size and two blocks, a say, a link, an unlink, and no rename.
        self.assertEqual((tree.micro_operations, tree.records), (8, 5))
        small = tree_at_end(LINKED.replace('4096', '512').split('\n'))
        self.assertEqual(small.micro_operations, 8)

    def test_files_with_holes_and_symbolic_links_are_below_a_renamed_directory(self):
        tree = tree_at_end(MOVED.split('\n'))
        self.assertEqual(sorted(tree.entries), ['/', '/e', '/e/f', '/e/g', '/e/l', '/m'])
        data = tree.entries['/e/f'].data
        self.assertEqual(
            (len(data), data[:2], data[63999990:]), (64_000_000, b'x\0', b'\0\xff' + bytes(8))
        )
        self.assertEqual(tree.entries['/e/g'].data[-2:], b'\0z')
        self.assertEqual(tree.entries['/e/l'], Entry('ann', 'staff', 0o777, None, '../é'))
        self.assertEqual([entry.is_directory for entry in tree.entries.values()].count(True), 2)

    def test_versions_before_4_have_a_sync_of_all_bytes_for_an_fdatasync(self):
        trace = Trace(Header('u', 'u', 0o755), [], [Fdatasync('/a')], version=3)
        sync = '{"op":"fsync_range","path":"/a","offset":0,"length":16777216}'
        self.assertEqual(list(trace.lines())[1:], [sync])

    def test_bytes_are_a_text_where_people_can_read_them(self):
        for data, shown in [
            (b'a b\n', '"text":"a b\\n"'),
            (b'', '"bytes":""'),
            (b'\xff', '"bytes":"ff"'),
            (b'a\0', '"bytes":"6100"'),
            ('\u00e4'.encode(), '"text":"\u00e4"'),
            (b'a\r', '"bytes":"610d"'),
        ]:
            trace = Trace(Header('u', 'u', 0o755), operations=[Write('/f', 0, data)], version=3)
            self.assertIn(shown, list(trace.lines())[1])
            trace.version = 2
            self.assertIn(f'"bytes":"{data.hex()}"', list(trace.lines())[1])

    def test_a_sync_of_all_bytes_is_shown_as_such(self):
        line = '{"op":"fsync_range","path":"/a","offset":%d,"length":%d}'
        for offset, length, shown in [
            (0, limits.FILE_BYTES, 'fsync_range /a, all bytes'),
            (1, limits.FILE_BYTES, 'fsync_range /a, 16,777,216 bytes at 1'),
            (0, 4096, 'fsync_range /a, 4,096 bytes at 0'),
        ]:
            (found,) = parse_trace_text(line % (offset, length)).operations.values()
            self.assertEqual(found.text, shown)

    def test_what_is_no_trace_is_refused_with_its_line(self):
        header = '{"trace":1,"owner":"u","group":"u","mode":"755"}\n'
        for text, told in [
            ('', 'it has no header'),
            (header + '\n{"op":"chown","path":"/a"}', 'line 3 '),
            (header + '{"op":"write","path":"/a","offset":0,"bytes":"4"}', 'line 2 '),
            (header.replace('1', '3', 1), 'line 1 '),
            (header.replace('1', '4', 1), 'line 1 '),
            (HEADER_3.replace('4096', '8192'), 'line 1 '),
            (HEADER_2 + '{"op":"link","from":"/a","to":"/b"}', 'line 2 '),
            (HEADER_2 + '{"op":"write","path":"/a","offset":0,"text":"4"}', 'line 2 '),
            (header + '{"op":"chmod","path":"/","mode":"700"}', 'line 2 '),
            (header.replace('1,', '1,"profile":"blocks",'), 'line 1 '),
            (header.replace('1', '2', 1), 'line 1 '),
            (HEADER_2.replace('blocks', 'some'), 'line 1 '),
            ('[]', 'line 1 '),
            (HEADER_4 + START_OF_PARTS % ('1e999', '0'), 'line 2 '),
            (HEADER_4 + START_OF_PARTS % ('5', 'Infinity'), 'line 2 '),
        ]:
            with self.subTest(text), self.assertRaises(TraceError) as caught:
                read_trace(text)
            self.assertTrue(str(caught.exception).startswith(told), caught.exception)

    def test_a_replay_refuses_what_the_tree_has_not(self):
        text = LINKED + '{"op":"unlink","path":"/nothing"}\n'
        with self.assertRaisesRegex(ValueError, f'^line {text.count(chr(10))}: '):
            tree_at_end(text.split('\n'))
        with self.assertRaises(TraceError):
            tree_at_end([])

    def test_the_micro_operations_are_as_many_as_the_program_lists(self):
        listed = example('store.list').count('op ')
        self.assertEqual(tree_at_end(example('store.trace').split('\n')).micro_operations, listed)

    def test_the_last_state_is_that_of_the_last_prefix(self):
        for name in EXAMPLE_TRACES:
            path = str(EXAMPLES / name)
            self.assertEqual(
                entries_by_replay(example(name).split('\n')),
                entries_by_program(Crashfs(FAKE), path),
            )

    def test_modes_and_owners_are_counted_where_they_change(self):
        again = RIGHTS + '{"op":"chmod","path":"/b","mode":"600"}\n'
        tree = tree_at_end(again.split('\n'))
        self.assertEqual(tree.micro_operations, 4)
        entry = tree.entries['/b']
        self.assertEqual((entry.owner, entry.group, entry.mode), ('bob', 'staff', 0o600))

    def test_an_operation_that_the_program_would_refuse_is_a_fault(self):
        tree = Tree('u', 'u', 0o755)
        tree.add_start(Start('/d', 'u', 'u', 0o755, None))
        tree.add_start(Start('/d/f', 'u', 'u', 0o644, b''))
        tree.add_start(StartLink('/d/g', '/d/f'))
        deep = '/d' * (limits.PATH_NAMES + 1)
        for operation, told in [
            (Creat('/d/f', 'u', 'u', 0), 'there already'),
            (Creat('/x/f', 'u', 'u', 0), 'no directory'),
            (Mkdir('/d/f/g', 'u', 'u', 0), 'no directory'),
            (Creat('/d/' + 'n' * 256, 'u', 'u', 0), 'more than 255 bytes'),
            (Creat('/d/\udcff', 'u', 'u', 0), 'not UTF-8'),
            (Chmod('/x', 0), 'not there'),
            (Chown('/x', 'u', 'u'), 'not there'),
            (Link('/x', '/y'), 'not there'),
            (Link('/d', '/y'), 'is a directory'),
            (Link('/d/f', '/x/y'), 'no directory'),
            (Link('/d/f', '/d/f'), 'there already'),
            (FsyncRange('/d', 0, 1), 'is a directory'),
            (Unlink('/d'), 'is a directory'),
            (Unlink('/x'), 'not there'),
            (Rmdir('/d'), 'has entries'),
            (Rename('/d', '/e'), 'is a directory'),
            (Rename('/d/f', '/d'), 'is a directory'),
            (Write('/d/f', limits.FILE_BYTES, b'x'), 'more than 16777216 bytes'),
            (Truncate('/d/f', limits.FILE_BYTES + 1), 'more than 16777216 bytes'),
        ]:
            with self.subTest(operation):
                self.assertIn(told, tree.fault(operation) or 'no fault')
        self.assertIsNone(tree.fault(Write('/d/f', limits.FILE_BYTES - 1, b'x')))
        self.assertEqual(tree.creation_fault(deep), f'{deep[:-2]} is no directory of the trace')

    def test_the_root_is_never_removed_renamed_or_replaced(self):
        for version, operation in [
            (1, Rmdir('/')),
            (3, Rename('/', '/a')),
            (4, Rmdir('/')),
            (4, Rename('/', '/')),
            (4, Rename('/', '/a')),
            (4, Rename('/d', '/')),
        ]:
            for is_empty in (True, False):
                tree = Tree('u', 'u', 0o755, version=version)
                if not is_empty:
                    tree.add_start(Start('/d', 'u', 'u', 0o755, None))
                with self.subTest(version=version, operation=operation, is_empty=is_empty):
                    self.assertIsNotNone(tree.fault(operation))
        for root in ('{"op":"rmdir","path":"/"}', '{"op":"rename","from":"/","to":"/a"}'):
            with self.assertRaisesRegex(ValueError, '^line 2: / is the root$'):
                tree_at_end([MOVED.split('\n', maxsplit=1)[0], root])

    def test_differences_are_reported_but_for_paths_that_are_reported_already(self):
        def scan(*entries: Start) -> Scan:
            return Scan(Header('u', 'u', 0o755), list(entries))

        last = entries_by_replay(example('store.trace').split('\n'))
        self.assertEqual(sorted(last), ['/log', '/table'])
        log = Start('/log', 'kv', 'kv', 0o640, b'')
        table = Start('/table', 'kv', 'kv', 0o640, b'a=2\n')
        self.assertEqual(lines_on_differences(scan(log, table), last, []), [])
        self.assertEqual(len(lines_on_differences(scan(log), last, [])), 1)
        self.assertEqual(
            len(lines_on_differences(scan(log, table, Start('/x', 'u', 'u', 0, b'')), last, [])), 1
        )
        other = Start('/table', 'u', 'kv', 0o600, b'a=3\n')
        self.assertEqual(len(lines_on_differences(scan(log, other), last, [])), 3)
        self.assertEqual(lines_on_differences(scan(log, other), last, ['/table']), [])


class Fake(InFolder):
    def listed(self, text, *options):
        trace = self.write('a.trace', text)
        ran = subprocess.run(
            [FAKE, 'list', '--trace', trace, *options],
            stdout=subprocess.PIPE,
            text=True,
            check=True,
        )
        return ran.stdout

    def test_the_fake_lists_modes_and_owners_as_they_are_defined(self):
        self.assertEqual(self.listed(RIGHTS, '--holes'), RIGHTS_LIST)
        synced = RIGHTS.replace('{"op":"rename"', '{"op":"fsync","path":"/a"}\n{"op":"rename"')
        wanted = ''.join(RIGHTS_LIST.splitlines(True)[:-2])
        self.assertEqual(self.listed(synced, '--holes'), wanted)

    def test_the_fake_s_trees_have_the_modes_and_owners_of_their_sets(self):
        trace = self.write('a.trace', RIGHTS)
        for state, wanted in [
            (4, {'b': ('bob', 0o600)}),
            (6, {}),
            (7, {'b': ('ann', 0o644)}),
            (8, {'b': ('ann', 0o600)}),
        ]:
            words = ['--trace', trace, '--holes', '--state', str(state)]
            with self.subTest(state), Crashfs(FAKE).open_archive(words) as members:
                found = {path: (one.owner, one.mode) for path, one in members if path}
                self.assertEqual(found, wanted)

    def test_ordered_takes_states_away(self):
        self.assertTrue(
            self.listed(HEADER_2 + TWO_FILES, '--holes').endswith('state 3 hole 0 2 says 0\n')
        )
        ordered = HEADER_2.replace('blocks', 'ordered') + TWO_FILES
        self.assertTrue(self.listed(ordered, '--holes').endswith('state 2 prefix 2 says 0\n'))

    def test_the_fake_lists_the_examples_as_the_program_does(self):
        for listed in sorted(EXAMPLES.glob('*.list')):
            with self.subTest(listed.name):
                trace = example(listed.stem + '.trace')
                self.assertEqual(self.listed(trace, '--holes'), example(listed.name))


if __name__ == '__main__':
    unittest.main()
