"""`crashfs tar --changes`: the start tree and the changes of a state are the state's tree."""

import shutil
import subprocess
import unittest
from io import BytesIO
from typing import List

from crashfs_tools.checker.findings.read_trees import entries_of
from crashfs_tools.checker.states.changes import Changes, read_changes
from crashfs_tools.common.archive import ArchiveFault, read_members
from crashfs_tools.common.entry import Entries, Entry
from crashfs_tools.reading import make_plan, parse_trace
from crashfs_tools.recorder.directory import scan_directory

from .support import EXAMPLES, FAKE, InFolder, needed
from .test_tar import BUILT, EXAMPLE_TRACES

HEADER = '{"trace":1,"owner":"u","group":"u","mode":"755"}\n'
RIGHTS = '"owner":"u","group":"u","mode":"644"'
# A file becomes a directory, a directory a file, a whole directory goes, and a file is written,
# put back as it was, and given another mode.
ODD = (
    HEADER
    + f"""\
{{"start":"file","path":"/a",{RIGHTS},"bytes":"61"}}
{{"start":"dir","path":"/d",{RIGHTS.replace('644', '755')}}}
{{"start":"file","path":"/d/b",{RIGHTS},"bytes":"62"}}
{{"start":"file","path":"/d.b",{RIGHTS},"bytes":"63"}}
{{"op":"unlink","path":"/a"}}
{{"op":"mkdir","path":"/a",{RIGHTS.replace('644', '755')}}}
{{"op":"unlink","path":"/d/b"}}
{{"op":"rmdir","path":"/d"}}
{{"op":"creat","path":"/d",{RIGHTS}}}
{{"op":"write","path":"/d.b","offset":0,"bytes":"64"}}
{{"op":"write","path":"/d.b","offset":0,"bytes":"63"}}
"""
)


class Trees:
    """The trees of the states with holes, by the second reading."""

    def __init__(self, text: str) -> None:
        self.plan = make_plan(parse_trace(text.encode()), has_holes=True)

    def __len__(self) -> int:
        return len(self.plan.states)

    def tree(self, number: int) -> Entries:
        tree = self.plan.trees.tree(self.plan.states[number].place_set)
        return {path[1:]: entry for path, entry in entries_of(tree).items()}


class OfTheSecondReading(InFolder):
    """With the second reading in the program's place."""

    program = FAKE
    step = 40

    def archive(self, trace: str, states: str) -> bytes:
        words = [self.program, 'tar', '--trace', trace, '--holes', '--changes', '--states', states]
        return subprocess.run(words, stdout=subprocess.PIPE, check=True).stdout

    def changes(self, trace: str, states: str) -> List[Changes]:
        return list(read_changes(read_members(BytesIO(self.archive(trace, states)))))

    def assert_changes(self, trace: str, text: str, step: int = 1) -> None:
        trees = Trees(text)
        start = trees.tree(0)
        for first in range(0, len(trees), 50 * step):
            last = min(first + 49, len(trees) - 1)
            found = self.changes(trace, f'{first}-{last}')
            self.assertEqual([one.number for one in found], list(range(first, last + 1)))
            for one in found:
                tree = trees.tree(one.number)
                self.assertEqual(one.apply_to(start), tree, one.number)
                # no more than that
                self.assertEqual({path for path in start if path not in tree}, set(one.missing))
                self.assertEqual(
                    {path for path in tree if start.get(path) != tree[path]}, set(one.entries)
                )

    def test_each_state_of_the_examples(self) -> None:
        for path in EXAMPLE_TRACES:
            with self.subTest(path.name):
                step = self.step if path.parent.name == 'sqlite' else 1
                self.assert_changes(str(path), path.read_text(encoding='utf-8'), step)

    def test_kinds_that_change_and_bytes_that_come_back(self) -> None:
        self.assert_changes(self.write('odd.trace', ODD), ODD)

    def test_an_archive_without_its_lists_is_refused(self) -> None:
        whole = self.write('odd.trace', ODD)
        words = [self.program, 'tar', '--trace', whole, '--holes', '--states', '3']
        data = subprocess.run(words, stdout=subprocess.PIPE, check=True).stdout
        with self.assertRaisesRegex(ArchiveFault, 'before a list of what is missing'):
            list(read_changes(read_members(BytesIO(data))))

    def test_names_that_are_no_numbers_are_refused(self) -> None:
        entry = Entry('u', 'u', 0o644, b'')
        for names in (['x.missing'], ['.missing'], ['1.missing', 'x/a']):
            with self.assertRaisesRegex(ArchiveFault, ' is no number of a state$'):
                list(read_changes((name, entry) for name in names))

    def test_a_state_without_changes_has_an_empty_list(self) -> None:
        self.assertEqual(self.changes(str(EXAMPLES / 'store.trace'), '0'), [Changes(0, [], {})])

    def test_a_copy_of_the_start_tree_becomes_the_state(self) -> None:
        """By the commands that crashfs.md has: what is missing is removed, the rest laid out."""
        trace = self.write('odd.trace', ODD)
        trees = Trees(ODD)
        for number in range(0, len(trees), self.step // 8):
            with open(self.path('whole.tar'), 'wb') as out:
                subprocess.run(
                    [self.program, 'tar', '--trace', trace, '--holes', '--states', '0'],
                    stdout=out,
                    check=True,
                )
            with open(self.path('changes.tar'), 'wb') as out:
                out.write(self.archive(trace, str(number)))
            script = (
                f'tar -x --no-same-owner -f whole.tar && mv 0 {number}x && mv {number}x {number}\n'
                f'tar -x -f changes.tar {number}.missing\n'
                f'(cd {number} && xargs -0 rm -rf -- < ../{number}.missing)\n'
                f'tar -x -p --no-same-owner -f changes.tar\n'
            )
            subprocess.run(['sh', '-e', '-c', script], cwd=self.folder, check=True)
            found = {
                one.path: (one.mode, one.data)
                for one in scan_directory(self.path(str(number)), lambda path: False).entries
            }
            wanted = {
                '/' + path: (entry.mode, entry.data)
                for path, entry in trees.tree(number).items()
                if path
            }
            self.assertEqual(found, wanted, f'{number} of {len(trees)}')
            shutil.rmtree(self.path(str(number)))


@needed(BUILT is not None, 'crashfs is not built')
class OfTheProgram(OfTheSecondReading):
    """With the program that is built."""

    program = BUILT
    step = 8


if __name__ == '__main__':
    unittest.main()
