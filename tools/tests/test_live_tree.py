"""The files of the live tree: changes whose order the log doesn't have, names, and lengths."""

import unittest
from typing import List, Optional, Tuple
from unittest import mock

from crashfs_tools.common import limits
from crashfs_tools.recorder.live_tree import END, Change, LiveTree, Node

SHARED, OTHER = object(), object()


def change(
    thread: int,
    lines: Tuple[int, int],
    offsets: Tuple[int, int],
    source: Optional[object] = None,
    *,
    is_past_end: bool = False,
) -> Change:
    return Change(
        thread=thread,
        first_line=lines[0],
        last_line=lines[1],
        start=offsets[0],
        end=offsets[1],
        offset_source=source,
        is_past_end=is_past_end,
    )


# (what is shown, the changes of a file, whether each is unordered with one before it)
CHANGES: List[Tuple[str, List[Change], List[bool]]] = [
    (
        'changes of bytes that overlap, one after the other',
        [change(1, (1, 2), (0, 4)), change(2, (3, 4), (0, 4))],
        [False, False],
    ),
    (
        'changes of bytes that overlap, at once',
        [change(1, (1, 3), (0, 4)), change(2, (2, 4), (3, 9))],
        [False, True],
    ),
    (
        'changes of bytes that overlap, the later one first',
        [change(1, (2, 4), (3, 9)), change(2, (1, 3), (0, 4))],
        [False, True],
    ),
    (
        'changes of bytes side by side, at once',
        [change(1, (1, 3), (4, 9)), change(2, (2, 4), (0, 4)), change(3, (2, 4), (9, 12))],
        [False, False, False],
    ),
    (
        'changes of one call',
        [change(1, (1, 3), (0, 4)), change(1, (1, 3), (0, 4))],
        [False, False],
    ),
    (
        'a change that began before one that was over when another began',
        [change(1, (1, 6), (0, 4)), change(2, (2, 3), (8, 9)), change(3, (4, 5), (0, 9))],
        [False, False, True],
    ),
    (
        'a write at the end while another moves it',
        [
            change(1, (1, 3), (8, 9), END, is_past_end=True),
            change(2, (2, 4), (20, 24), is_past_end=True),
        ],
        [False, True],
    ),
    (
        'a write that moves the end while another is at it',
        [
            change(1, (1, 3), (20, 24), is_past_end=True),
            change(2, (2, 4), (8, 9), END, is_past_end=True),
        ],
        [False, True],
    ),
    (
        'a write at the end while another changes what was there',
        [change(1, (1, 3), (8, 9), END, is_past_end=True), change(2, (2, 4), (0, 4))],
        [False, False],
    ),
    (
        'a change of what was there while another writes at the end',
        [change(1, (1, 3), (0, 4)), change(2, (2, 4), (8, 9), END, is_past_end=True)],
        [False, False],
    ),
    (
        'writes past the end at offsets of their own',
        [
            change(1, (1, 3), (8, 9), is_past_end=True),
            change(2, (2, 4), (20, 24), is_past_end=True),
        ],
        [False, False],
    ),
    (
        'writes that move one offset',
        [change(1, (1, 3), (0, 4), SHARED), change(2, (2, 4), (4, 8), SHARED)],
        [False, True],
    ),
    (
        'writes that move two offsets',
        [change(1, (1, 3), (0, 4), SHARED), change(2, (2, 4), (4, 8), OTHER)],
        [False, False],
    ),
]


class Changes(unittest.TestCase):
    def test_changes_at_once_are_unordered_if_their_order_decides_the_bytes(self) -> None:
        for shown, changes, are_unordered in CHANGES:
            with self.subTest(shown):
                node = Node.file(0o644)
                self.assertEqual([node.add_change(one) for one in changes], are_unordered)

    def test_changes_one_after_the_other_are_in_order_whichever_is_asked(self) -> None:
        first, second = change(1, (1, 2), (0, 4)), change(2, (3, 4), (0, 4))
        self.assertFalse(first.is_unordered_with(second))
        self.assertFalse(second.is_unordered_with(first))

    def test_only_changes_that_a_later_one_may_overlap_are_kept(self) -> None:
        node = Node.file(0o644)
        for number in range(1, 10):
            node.add_change(change(1, (number, number), (0, 4)))
        self.assertEqual(len(node.recent_changes), 1)


class Names(unittest.TestCase):
    def setUp(self) -> None:
        self.tree = LiveTree(Node(is_directory=True, mode=0o755))
        for path in ('/s', '/s/t', '/s.t', '/s/t/f'):
            node = Node(is_directory=path != '/s/t/f', mode=0o755, traced_paths={path})
            self.tree.add_name(path, node)

    def test_a_directory_moves_with_all_that_is_below_it(self) -> None:
        nodes = dict(self.tree.nodes)
        self.assertEqual(self.tree.paths_below('/s'), ['/s/t', '/s/t/f'])
        self.tree.move_node('/s', '/u')
        self.assertEqual(
            self.tree.nodes,
            {
                '/': nodes['/'],
                '/s.t': nodes['/s.t'],
                '/u': nodes['/s'],
                '/u/t': nodes['/s/t'],
                '/u/t/f': nodes['/s/t/f'],
            },
        )
        for path, node in self.tree.nodes.items():
            self.assertEqual((node.names, node.name), ({path}, path))

    def test_only_paths_that_the_trace_has_move_in_it(self) -> None:
        self.tree.nodes['/s/t'].traced_paths = {'/other'}
        self.tree.move_node('/s', '/u')
        self.tree.move_traced_paths('/s', '/u')
        traced_paths = {path: node.traced_paths for path, node in self.tree.nodes.items()}
        self.assertEqual(
            traced_paths,
            {'/': set(), '/s.t': {'/s.t'}, '/u': {'/u'}, '/u/t': {'/other'}, '/u/t/f': {'/u/t/f'}},
        )

    def test_a_report_names_a_file_by_its_first_name(self) -> None:
        node = Node.unknown()
        self.assertEqual((node.name, node.traced_path), ('(a file without a name)', None))
        for path in ('/b', '/a'):
            self.tree.add_name(path, node)
        self.assertEqual(node.name, '/a')
        self.assertIs(self.tree.remove_name('/a'), node)
        self.assertEqual((node.name, self.tree.node_at('/a')), ('/b', None))


class Lengths(unittest.TestCase):
    def test_bytes_beyond_what_any_trace_may_have_are_not_followed_any_more(self) -> None:
        with mock.patch.object(limits, 'LARGE_FILE_BYTES', 8):
            node = Node.file(0o644, b'12345678')
            node.resize(9)
            self.assertIsNone(node.data)
            node.write(2, b'abc')
            self.assertEqual(node.size, 9)
            node.resize(2)
        self.assertEqual((node.data, node.size), (None, 2))

    def test_a_file_that_was_cut_has_zeros_if_it_gets_longer_again(self) -> None:
        node = Node.file(0o644, b'1234')
        node.resize(1)
        node.resize(3)
        assert node.data is not None
        self.assertEqual((bytes(node.data[0:9]), node.size), (b'1\0\0', 3))

    def test_a_write_past_the_end_has_zeros_before_it(self) -> None:
        node = Node.file(0o644, b'12')
        node.write(4, b'ab')
        assert node.data is not None
        self.assertEqual((bytes(node.data[0:6]), node.size), (b'12\0\0ab', 6))


if __name__ == '__main__':
    unittest.main()
