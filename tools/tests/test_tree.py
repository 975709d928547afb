"""The tree under a trace's operations: the paths of a file, and the tree as start lines."""

from __future__ import annotations

import unittest

from crashfs_tools.common.entry import Entry
from crashfs_tools.common.trace import (
    Chown,
    Creat,
    Fsync,
    Header,
    Link,
    Mkdir,
    Operation,
    Rename,
    Start,
    StartLink,
    StartSymlink,
    Truncate,
    Unlink,
    Write,
)
from crashfs_tools.common.tree import Tree, start_lines


def small_tree() -> Tree:
    """A tree with a file of two paths, one of one path, and a directory."""
    tree = Tree('r', 'g', 0o755)
    tree.add_start(Start('/a', 'u', 'g', 0o644, b'one'))
    tree.add_start(StartLink('/b', '/a'))
    for operation in (Mkdir('/d', 'u', 'g', 0o700), Creat('/d/f', 'u', 'g', 0o600)):
        tree.apply(operation)
    return tree


class Links(unittest.TestCase):
    def test_a_write_shows_at_each_path_of_its_file_and_at_no_other(self) -> None:
        tree = small_tree()
        start = Start('/c', 'u', 'g', 0o644, b'one')
        tree.add_start(start)
        tree.apply(Write('/b', 3, b'more'))
        shown = {path: entry.data for path, entry in tree.entries.items()}
        self.assertEqual((shown['/a'], shown['/b'], shown['/c']), (b'onemore', b'onemore', b'one'))
        self.assertEqual(start.data, b'one')

    def test_a_rename_onto_a_path_of_the_same_file_does_nothing(self) -> None:
        tree = small_tree()
        before = tree.micro_operations
        tree.apply(Rename('/a', '/b'))
        self.assertEqual((tree.micro_operations, '/a' in tree.entries), (before, True))
        tree.apply(Rename('/d/f', '/b'))
        self.assertEqual((tree.micro_operations, '/d/f' in tree.entries), (before + 1, False))
        self.assertNotEqual(tree.files['/a'], tree.files['/b'])

    def test_each_path_has_a_number_and_a_path_that_is_gone_has_none(self) -> None:
        tree = small_tree()
        tree.apply(Link('/d/f', '/d/g'))
        tree.apply(Unlink('/d/f'))
        tree.apply(Creat('/d/f', 'u', 'g', 0o600))
        self.assertEqual(set(tree.files), set(tree.entries))
        self.assertEqual(len(set(tree.files.values())), len(tree.files) - 1)


def tree_4(profile: str) -> Tree:
    """A tree of version 4 with two directories, a file in each and a symbolic link."""
    tree = Tree('r', 'g', 0o755, 512, 4, profile)
    for path in ('/d', '/e'):
        tree.add_start(Start(path, 'u', 'g', 0o755, None))
    tree.add_start(Start('/d/f', 'u', 'g', 0o644, b'x' * 5000))
    tree.add_start(StartSymlink('/e/l', 'u', 'g', 'f'))
    return tree


class Version4(unittest.TestCase):
    def steps(self, *operations: Operation, profile: str = 'blocks') -> int:
        tree = tree_4(profile)
        for operation in operations:
            self.assertIsNone(tree.fault(operation))
            tree.apply(operation)
        return tree.micro_operations

    def test_some_operations_are_several_micro_operations(self) -> None:
        for operation, steps in [
            (Write('/d/f', 5000, b'y' * 4000), 2 + 9),
            (Write('/d/f', 5000, b'y' * 3192), 1 + 7),
            (Truncate('/d/f', 1), 8 + 1),
            (Truncate('/d/f', 4500), 2 + 1),
            (Truncate('/d/f', 4096), 1),
            (Truncate('/d/f', 6000), 1),
            (Rename('/d/f', '/e/f'), 2),
            (Rename('/e/l', '/d/f'), 2),
            (Rename('/d/f', '/d/g'), 1),
            (Rename('/d', '/e/d'), 1),
            (Rename('/d', '/d'), 0),
        ]:
            self.assertEqual(self.steps(operation), steps, type(operation))
        self.assertEqual(self.steps(Rename('/d/f', '/e/f'), profile='journal'), 1)
        tree = tree_4('blocks')
        tree.version = 3
        tree.apply(Truncate('/d/f', 1))
        self.assertEqual((tree.micro_operations, tree.micro_operations_of_version_4), (1, 8))

    def test_renames_before_the_version_changes_are_records_of_it(self) -> None:
        tree = tree_4('blocks')
        tree.version = 3
        for operation in (Rename('/d/f', '/e/f'), Rename('/e/f', '/e/g'), Link('/e/g', '/d/f')):
            tree.apply(operation)
        self.assertEqual(tree.records, 6)
        tree.version = 4
        self.assertEqual(tree.records, 7)
        self.assertEqual(sorted(set(tree.files.values())), [0, 1, 2, 3, 4])

    def test_what_a_trace_cant_have(self) -> None:
        for operation, fault in [
            (Rename('/d', '/d/x'), '/d/x is below /d'),
            (Rename('/d', '/e/l'), '/e/l is no directory of the trace'),
            (Rename('/d', '/e'), '/e has entries'),
            (Rename('/e/l', '/d'), '/d is a directory'),
            (Write('/e/l', 0, b'x'), '/e/l is a symbolic link'),
            (Fsync('/e/l'), '/e/l is a symbolic link'),
            (Creat('/e/l/x', 'u', 'g', 0o600), '/e/l is no directory of the trace'),
            (Truncate('/d/f', 1 << 30), None),
            (Truncate('/d/f', (1 << 30) + 1), 'a file of more than 1073741824 bytes'),
            (Unlink('/e/l'), None),
            (Chown('/e/l', 'a', 'b'), None),
        ]:
            self.assertEqual(tree_4('blocks').fault(operation), fault, operation)
        tree = tree_4('blocks')
        tree.version = 3
        self.assertEqual(tree.fault(Rename('/d', '/x')), '/d is a directory')


class Lines(unittest.TestCase):
    def test_the_first_path_of_a_file_has_its_line_and_the_others_are_links(self) -> None:
        tree = small_tree()
        tree.apply(Link('/d/f', '/d-'))
        header, lines = start_lines(tree.entries, tree.files)
        self.assertEqual(header, Header('r', 'g', 0o755))
        self.assertEqual(
            lines,
            [
                Start('/a', 'u', 'g', 0o644, b'one'),
                StartLink('/b', '/a'),
                Start('/d', 'u', 'g', 0o700, None),
                Start('/d/f', 'u', 'g', 0o600, b''),
                StartLink('/d-', '/d/f'),
            ],
        )

    def test_files_that_are_equal_but_not_the_same_are_no_links(self) -> None:
        entry = Entry('u', 'g', 0o644, b'same')
        entries = {'/': Entry('u', 'g', 0o755, None), '/a': entry, '/b': entry}
        _, lines = start_lines(entries, {'/': 0, '/a': 1, '/b': 2})
        self.assertEqual([type(line) for line in lines], [Start, Start])


if __name__ == '__main__':
    unittest.main()
