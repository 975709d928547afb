"""The comparison of the directory with the trace's last state: entries, links and attributes."""

import os
import unittest
from dataclasses import replace
from typing import Collection, Dict, List
from unittest import mock

from crashfs_tools.common.entry import Entry
from crashfs_tools.common.trace import (
    BLOCKS,
    Creat,
    Header,
    Link,
    Mkdir,
    Operation,
    Start,
    StartSymlink,
    Trace,
    Write,
)
from crashfs_tools.common.tree import Tree
from crashfs_tools.recorder.comparison import (
    entries_by_program,
    entries_by_replay,
    entry_differences,
    lines_on_changed_attributes,
    lines_on_differences,
    lines_on_links,
    lines_on_new_notes,
    lines_on_new_omissions,
)
from crashfs_tools.recorder.directory import Scan, scan_directory

from .support import InFolder

HEADER = Header('u', 'u', 0o755)


def tree_of(*operations: Operation) -> Tree:
    tree = Tree('u', 'u', 0o755, 4096, 3, BLOCKS)
    for operation in operations:
        tree.apply(operation)
    return tree


FILE, DIRECTORY = Entry('u', 'g', 0o644, b'1'), Entry('u', 'g', 0o755, None)
LINK = Entry('u', 'g', 0o777, None, 'a')


class Entries(unittest.TestCase):
    def test_each_difference_of_two_entries_is_a_sentence(self) -> None:
        at_end = ' at the end, and '
        for changed, entry, wanted in (
            (FILE, FILE, []),
            (DIRECTORY, DIRECTORY, []),
            (LINK, LINK, []),
            (FILE, DIRECTORY, [f'it is a file{at_end}a directory in the trace']),
            (LINK, FILE, [f'it is a symbolic link{at_end}a file in the trace']),
            (
                replace(LINK, link='b'),
                LINK,
                [f'it is a symbolic link to b{at_end}one to a in the trace'],
            ),
            (
                replace(FILE, data=b'2'),
                FILE,
                ['its bytes at the end are not those that the trace gives it'],
            ),
            (replace(FILE, data=bytearray(b'1')), FILE, []),
            (
                replace(FILE, mode=0o4),
                FILE,
                [f'its mode is 004{at_end}644 in the trace'],
            ),
            (replace(FILE, owner='v'), FILE, [f'its owner is v:g{at_end}u:g in the trace']),
            (
                Entry('u', 'h', 0, b''),
                FILE,
                [
                    'its bytes at the end are not those that the trace gives it',
                    f'its mode is 000{at_end}644 in the trace',
                    f'its owner is u:h{at_end}u:g in the trace',
                ],
            ),
        ):
            with self.subTest(changed):
                self.assertEqual(entry_differences(changed, entry), wanted)

    def differences(self, reported_paths: Collection[str] = ()) -> List[str]:
        """Those of a directory that has /both, /l, /new and /s/new from a trace's last state."""
        last_state = {
            '/both': Entry('u', 'u', 0o644, b'1'),
            '/gone': FILE,
            '/l': Entry('u', 'u', 0o777, None, 'a'),
            '/s': Entry('u', 'u', 0o755, None),
        }
        now = Scan(
            HEADER,
            [
                Start('/both', 'u', 'u', 0o600, b'1'),
                StartSymlink('/l', 'u', 'u', 'a'),
                Start('/new', 'u', 'u', 0o644, b''),
                Start('/s', 'u', 'u', 0o755, None),
                Start('/s/new', 'u', 'u', 0o644, b''),
            ],
        )
        return lines_on_differences(now, last_state, reported_paths)

    def test_each_path_that_differs_has_a_line_unless_it_is_reported(self) -> None:
        lines = [
            '/both: its mode is 600 at the end, and 644 in the trace',
            '/gone: the trace has it, and at the end it is not there',
            '/new: it is there at the end, and the trace has it not',
            '/s/new: it is there at the end, and the trace has it not',
        ]
        self.assertEqual(self.differences(), lines)
        self.assertEqual(self.differences(['/both', '/s', '/ne']), lines[1:3])
        self.assertEqual(self.differences(['/']), lines)

    def test_what_only_the_end_has_and_no_trace_can_have_is_reported(self) -> None:
        start = Scan(HEADER, omissions=[('/a', 'a device'), ('/b', 'a device')])
        now = Scan(
            HEADER,
            omissions=[
                ('/a', 'a device'),
                ('/b', 'a socket'),
                ('/c/d', 'a socket'),
                ('/e', 'a device'),
            ],
        )
        self.assertEqual(
            lines_on_new_omissions(start, now, ['/c']),
            [
                '/b: at the end it is a socket, which no trace has',
                '/e: at the end it is a device, which no trace has',
            ],
        )

    def test_the_last_state_has_no_root_whoever_computes_it(self) -> None:
        trace = Trace(HEADER)
        trace.operations += [Creat('/a', 'u', 'u', 0o644), Write('/a', 0, b'1')]
        wanted = {'/a': Entry('u', 'u', 0o644, b'1')}
        self.assertEqual(entries_by_replay(line + '\n' for line in trace.lines()), wanted)
        program = mock.Mock()
        program.count_states.return_value = 3
        self.assertIs(entries_by_program(program, 't'), program.tree_of_state.return_value)
        program.count_states.assert_called_once_with('t', with_holes=False)
        program.tree_of_state.assert_called_once_with('t', 2)


class Links(InFolder):
    def test_the_first_path_of_a_file_is_that_of_a_scan(self) -> None:
        os.makedirs(self.path('d', 'a'))
        os.link(self.write('d/a/x', 'x'), self.path('d', 'a.txt'))
        now = scan_directory(self.path('d'), lambda path: False)
        self.assertEqual(now.links, {'/a.txt': '/a/x'})
        made = [Mkdir('/a', 'u', 'u', 0o755), Creat('/a/x', 'u', 'u', 0o644)]
        tree = tree_of(*made, Link('/a/x', '/a.txt'))
        self.assertEqual(lines_on_links(now, tree, []), [])
        self.assertEqual(
            lines_on_links(now, tree_of(*made, Creat('/a.txt', 'u', 'u', 0o644)), []),
            ['/a.txt: it is a link to /a/x at the end, and not so in the trace'],
        )

    def test_a_difference_names_the_other_path_of_the_file(self) -> None:
        paths = ('/a', '/b', '/c')
        now = Scan(HEADER, [Start(path, 'u', 'u', 0o644, b'') for path in paths])
        made = [Creat(path, 'u', 'u', 0o644) for path in paths[:2]]
        tree = tree_of(*made, Link('/a', '/c'))
        for links, what in (({'/c': '/b'}, 'a link to /b'), ({}, 'no link to /a')):
            now.links = links
            self.assertEqual(
                lines_on_links(now, tree, []),
                [f'/c: it is {what} at the end, and not so in the trace'],
            )


class Attributes(unittest.TestCase):
    def test_only_the_very_path_that_is_known_is_left_out(self) -> None:
        changed: Dict[str, Dict[str, bytes]] = {path: {'user.a': b'1'} for path in ('/a', '/a:b')}
        now = Scan(
            HEADER,
            notes=[('/a:b', 'another name')],
            extra_mode_bits={path: 0o4000 for path in changed},
            attributes=changed,
        )
        wanted = [
            '/a: its extended attributes differ, which no trace has',
            '/a:b: its extended attributes differ, which no trace has',
            '/a:b: it has another name at the end',
        ]
        for path in changed:
            start = Scan(HEADER)
            self.assertEqual(
                lines_on_changed_attributes(start, now, {path})
                + lines_on_new_notes(start, now, {path}),
                [
                    f'not in the trace: {line}'
                    for line in wanted
                    if not line.startswith(f'{path}: ')
                ],
            )


if __name__ == '__main__':
    unittest.main()
