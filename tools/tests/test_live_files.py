"""The files below the directory: which of them a path or a descriptor of a call means."""

import unittest
from typing import List, Optional, Tuple
from unittest import mock

from crashfs_tools.common import limits
from crashfs_tools.common.trace import Header, Start, StartSymlink
from crashfs_tools.recorder.arguments import NO_DESCRIPTOR
from crashfs_tools.recorder.directory import Scan
from crashfs_tools.recorder.live_files import LiveFiles, StartConditions
from crashfs_tools.recorder.processes import OpenFile, PathContext, Process, open_file_of_path
from crashfs_tools.recorder.recording import Recording, TraceSettings
from crashfs_tools.recorder.start_tree import files_at_start
from crashfs_tools.recorder.strace_log import Call

from .support import as_strace, short

START = [
    Start('/f', 'u', 'u', 0o644, b'12345678'),
    Start('/g', 'u', 'u', 0o644, b'1'),
    Start('/h', 'u', 'u', 0o644, b'12345678'),
    StartSymlink('/l', 'u', 'u', 'f'),
    Start('/s', 'u', 'u', 0o755, None),
    StartSymlink('/s/ignored', 'u', 'u', 'f'),
]
OUTSIDE = {'/out': '/d/s', '/d/ignored': 's', '/d/f': 'never'}


def new_files() -> LiveFiles:
    """The files of /d: those of START, with /h as another name of /f. Each `ignored` is ignored."""
    header = Header('u', 'u', 0o755)
    return files_at_start(
        Recording(header, TraceSettings()),
        StartConditions('/d', 0o022, 'u', 'u', OUTSIDE.get),
        Scan(header, START, links={'/h': '/f'}),
        lambda path: path.endswith('ignored'),
    )


def call(name: str, *words: str) -> Call:
    return Call(7, name, [as_strace(word) for word in words], 0, NO_DESCRIPTOR, 3, 3)


class Paths(unittest.TestCase):
    def setUp(self) -> None:
        self.files = new_files()

    def test_links_outside_and_ignored_ones_are_read_on_the_disk(self) -> None:
        for path, wanted in (('/l', 'f'), ('/f', None), ('/ignored', 's'), ('/none', None)):
            self.assertEqual(self.files.read_link(path), wanted, path)

    def test_a_path_in_the_tree_is_below_the_directory_and_not_ignored(self) -> None:
        for path, left, followed in (
            ('/d', '/', '/'),
            ('/d/l', '/l', '/f'),
            ('/d/l/', '/f', '/f'),
            ('/d/s/none', '/s/none', '/s/none'),
            ('/d/ignored', None, '/s'),
            ('/d/ignored/a', '/s/a', '/s/a'),
            ('/out/a', '/s/a', '/s/a'),
            ('/out', None, '/s'),
            ('/dd', None, None),
        ):
            with self.subTest(path):
                self.assertEqual(self.files.resolve_path(path), left)
                self.assertEqual(self.files.resolve_path(path, follow_last_link=True), followed)

    def test_paths_of_one_file_are_its_names_and_links_to_it(self) -> None:
        for path, other, wanted in (
            ('/d/f', '/d/h', True),
            ('/d/l', '/d/h', True),
            ('/d/h', '/d/l', True),
            ('/d/f', '/d/g', False),
            ('/d/none', '/d/none', False),
            ('/etc/x', '/etc/x', False),
        ):
            self.assertIs(self.files.are_of_same_file(path, other), wanted, (path, other))

    def test_an_argument_begins_at_the_working_directory_or_at_a_descriptor(self) -> None:
        process = self.files.first_process()
        self.assertEqual(process.path_context.directory, '/d')
        process.path_context.directory = '/d/s'
        for word, here, there in (
            ('"a"', '/s/a', '/a'),
            ('"../l"', '/l', None),
            ('"/d/l"', '/l', '/l'),
            ('"a"...', None, None),
        ):
            with self.subTest(word):
                chmod = call('chmod', word)
                self.assertEqual(self.files.path_argument(process, chmod, 0), here)
                chmod = call('fchmodat', '5</d>', word)
                self.assertEqual(self.files.path_argument_at(process, chmod, 0), there)

    def test_a_link_at_the_end_of_an_argument_is_followed_unless_the_call_says_no(self) -> None:
        process = self.files.first_process()
        nodes = self.files.tree.nodes
        chmod, chmod_at = call('chmod', '"l"'), call('fchmodat', 'AT_FDCWD</d>', '"l"')
        for follow_last_link, path in ((True, '/f'), (False, '/l')):
            for node in (
                self.files.node_argument(process, chmod, follow_last_link=follow_last_link),
                self.files.node_argument_at(process, chmod_at, follow_last_link=follow_last_link),
            ):
                self.assertIs(node, nodes[path])
            found = self.files.resolve_argument(
                '/d', as_strace('"l"'), follow_last_link=follow_last_link
            )
            self.assertEqual(found, path)
        self.assertEqual(self.files.path_argument(process, chmod, 0), '/l')
        self.assertEqual(self.files.path_argument_at(process, chmod_at, 0), '/l')

    def open_files(self) -> Tuple[Process, Process]:
        """Two processes, 7 and 8, which both have /f open as 5; standard input of 7 is /g."""
        nodes = self.files.tree.nodes
        first, second = self.files.first_process(), self.files.first_process()
        first.descriptors.files.update({0: OpenFile(nodes['/g']), 5: OpenFile(nodes['/f'])})
        second.descriptors.files[5] = OpenFile(nodes['/f'])
        self.files.processes.update({7: first, 8: second})
        return first, second

    def test_a_working_directory_moves_with_it_and_with_those_above_it(self) -> None:
        for directory, moved in (
            ('/d/a', '/d/x'),
            ('/d/a/b', '/d/x/b'),
            ('/d/ab', '/d/ab'),
            ('/d', '/d'),
        ):
            context = PathContext(directory, 0o22)
            context.update_directory({'/d/a': '/d/x'})
            self.assertEqual(context.directory, moved)

    def test_a_path_may_mean_a_descriptor(self) -> None:
        first, second = self.open_files()
        for path, process, number in (
            ('/dev/stdin', first, 0),
            ('/dev/stdout', first, 1),
            ('/dev/stderr', first, 2),
            ('/dev/fd/5', first, 5),
            ('/proc/self/fd/5', first, 5),
            ('/proc/thread-self/fd/5', first, 5),
            ('/proc/8/fd/5', second, 5),
            ('/proc/8/task/9/fd/5', second, 5),
        ):
            with self.subTest(path):
                word = as_strace(f'"{path}"')
                file = open_file_of_path(word, first, self.files.processes)
                self.assertIs(file, process.descriptors.files[number])
        for path in ('/dev/fd/6', '/proc/9/fd/5', '/d/f', 'dev/fd/5', '/dev/fd/5/x'):
            word = as_strace(f'"{path}"')
            self.assertIsNone(open_file_of_path(word, first, self.files.processes), path)
        self.assertIsNone(open_file_of_path('0x7ffc', first, self.files.processes))

    def test_an_empty_path_means_the_file_of_the_descriptor_before_it(self) -> None:
        first, _ = self.open_files()
        nodes = self.files.tree.nodes
        for descriptor, word, node in (
            ('5</d/f>', '""', nodes['/f']),
            ('5</d/f>', '"/d/g"', nodes['/g']),
            ('AT_FDCWD</d>', '""', nodes['/']),
            ('1<pipe:[9]>', '""', None),
        ):
            chmod = call('fchmodat', descriptor, word)
            found = self.files.node_argument_at(first, chmod, follow_last_link=False)
            self.assertIs(found, node, (descriptor, word))

    def test_a_descriptor_that_nothing_opened_is_reported_unless_it_is_unlinked(self) -> None:
        process, _ = self.open_files()
        for word, wanted in (
            ('5</d/f>', []),
            ('6</d/f>', ['/f']),
            ('6</d/f>(deleted)', []),
            ('6</etc/x>', []),
            ('6<pipe:[7]>', []),
            ('6</d/ignored>', []),
        ):
            with self.subTest(word):
                self.files.recording.troubles.clear()
                file = self.files.open_file_or_report(process, call('fsync', word))
                self.assertIs(file, process.descriptors.files.get(int(word[0])))
                troubles = self.files.recording.troubles.values()
                self.assertEqual([trouble.where for trouble in troubles], wanted)

    def test_a_pipe_that_was_standard_output_is_it_for_other_processes_too(self) -> None:
        first, second = self.open_files()
        streams = self.files.recording.streams
        write = call('write', '6<pipe:[9]>')
        self.assertIsNone(self.files.find_output_stream(second, write))
        for descriptor, number in (('2<pipe:[9]>', 2), ('1<pipe:[9]>', 1)):
            stream = self.files.find_output_stream(first, call('write', descriptor))
            self.assertIs(stream, streams.inherited_streams[number])
        self.assertIs(self.files.find_output_stream(second, write), streams.inherited_streams[1])
        self.assertIsNone(self.files.find_output_stream(first, call('write', '5</d/f>')))
        splice = call('splice', '5</d/f>', 'NULL', '1<pipe:[9]>')
        self.assertIs(self.files.find_output_stream(first, splice, 2), streams.inherited_streams[1])


class Changes(unittest.TestCase):
    def setUp(self) -> None:
        self.files = new_files()

    def operations(self) -> List[str]:
        return [short(one) for one in self.files.recording.trace.operations]

    def test_a_large_range_of_zeros_is_written_only_where_there_are_bytes(self) -> None:
        for end, wanted in (
            (6, ['write /f 4 \0\0']),
            (9, ['write /f 4 \0\0\0\0\0']),
            (8193, ['write /f 4 \0\0\0\0', 'truncate /f 8193']),
        ):
            with self.subTest(end), mock.patch.object(limits, 'FILE_BYTES', 100):
                self.files = new_files()
                node = self.files.tree.nodes['/f']
                self.files.zero_by_call(node, 4, end)
                self.assertEqual(self.operations(), wanted)

    def test_zeros_of_a_file_whose_bytes_are_not_followed_only_make_it_longer(self) -> None:
        node = self.files.tree.nodes['/f']
        node.drop_bytes()
        for end, size in ((4, 8), (9, 9)):
            self.files.zero_by_call(node, 0, end)
            self.assertEqual((node.size, self.operations()), (size, []))

    def test_a_sync_at_the_end_of_a_write_is_added_when_the_write_has_ended(self) -> None:
        files, node = self.files, self.files.tree.nodes['/f']
        for begin, end in ((3, 9), (4, 6), (5, 5)):
            files.recording.current_call = Call(7, 'write', [], 1, NO_DESCRIPTOR, begin, end)
            files.sync_range_after_write(node, begin, 1)
        self.assertEqual(self.operations(), ['fsyncrange /f 5 1'])
        for line, current, wanted in (
            (6, 5, []),
            (7, 4, ['fsyncrange /f 4 1']),
            (None, 3, ['fsyncrange /f 4 1', 'fsyncrange /f 3 1']),
        ):
            files.add_ended_syncs(line)
            self.assertEqual(self.operations()[1:], wanted)
            self.assertEqual(self.begin_of_current_call(), current)

    def begin_of_current_call(self) -> Optional[int]:
        call = self.files.recording.current_call
        return None if call is None else call.begin


if __name__ == '__main__':
    unittest.main()
