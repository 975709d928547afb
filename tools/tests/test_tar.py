"""What `crashfs tar` writes, as a real tar reads it, against a second reading of the states."""

import os
import re
import shutil
import subprocess
import tarfile
import unittest
from typing import List, Tuple

from crashfs_tools.common import limits
from crashfs_tools.common.program import Crashfs
from crashfs_tools.reading import make_plan, parse_trace
from crashfs_tools.recorder.directory import scan_directory

from .support import EXAMPLE_TRACES, EXAMPLES, FAKE, InFolder, needed

# As `tar -tv` prints an entry: its kind, mode, owner, group, size, time and name.
ENTRY = re.compile(r'([d-])([rwx-]{9}) (\S+)/(\S+) +(\d+) 1970-01-01 00:00:00 (.*)')
LONG = 'n' * limits.NAME_BYTES
HEADER = '{"trace":1,"owner":"cat","group":"staff","mode":"775"}\n'
RIGHTS = '"owner":"ann","group":"staff","mode":"640"'


def directory(path):
    return f'{{"start":"dir","path":"{path}",{RIGHTS}}}\n'


def file(path, data=''):
    return f'{{"start":"file","path":"{path}",{RIGHTS},"bytes":"{data}"}}\n'


# A file under the longest path, whose every name is as long as a name may be.
DEEP = HEADER + ''.join(directory(('/' + LONG) * count) for count in range(1, limits.PATH_NAMES))
DEEP += file(('/' + LONG) * limits.PATH_NAMES, '6465657021')
# Names that are as long as a name may be in 64 directories, UTF-8, nothing, and the largest file.
WIDE = HEADER + ''.join(
    directory(f'/{place:02d}{LONG[2:]}') + file(f'/{place:02d}{LONG[2:]}/{LONG}', f'{place:02x}')
    for place in range(64)
)
WIDE += directory('/ä ö') + file('/\U0001f600') + file('/empty')
WIDE += f'''\
{{"op":"creat","path":"/large",{RIGHTS}}}
{{"op":"truncate","path":"/large","length":{limits.FILE_BYTES}}}
{{"op":"write","path":"/large","offset":{limits.FILE_BYTES - 1},"bytes":"21"}}
'''


# Files with bytes in several places, one of zeros, and one that is too small for pieces.
SPARSE = '{"trace":4,"profile":"blocks","block":512,"owner":"c","group":"s","mode":"775"}\n'
SPARSE_FILES: List[Tuple[str, int, List[Tuple[int, str]]]] = [
    ('a', 400_000, [(0, 'first'), (200_000, 'middle'), (399_999, '!')]),
    ('b', 300_001, []),
    ('c', 65_535, []),
    ('d', 600_000, [(8_192 * 3, 'x' * 9000)]),
]
for name, length, pieces in SPARSE_FILES:
    parts = ','.join(f'{{"at":{at},"text":"{text}"}}' for at, text in pieces)
    SPARSE += f'{{"start":"file","path":"/{name}",{RIGHTS},"length":{length},"parts":[{parts}]}}\n'
LONG_SPARSE = SPARSE.partition('\n')[0] + '\n'
LONG_SPARSE += f'{{"start":"file","path":"/{LONG}",{RIGHTS},"length":70000,"parts":[]}}\n'
SPARSE += """\
{"op":"write","path":"/b","offset":4095,"text":"ab"}
{"op":"truncate","path":"/d","length":600001}
{"op":"write","path":"/c","offset":65535,"text":"!"}
"""


def built_program():
    """The program that is built here or on PATH, where it has the command `tar`."""
    program = Crashfs.find(None)
    return program.path if program is not None else None


BUILT = built_program()
needs_tar = needed(shutil.which('tar') is not None, 'tar is not there')
needs_built = needed(BUILT is not None, 'crashfs is not built')


class Wanted:
    """The states of a trace, by the second reading."""

    def __init__(self, text):
        self.plan = make_plan(parse_trace(text.encode()), has_holes=True)

    def __len__(self):
        return len(self.plan.states)

    def entries(self, number):
        """(kind, mode, owner, group, bytes) by path, the root's among them."""
        tree = self.plan.trees.tree(self.plan.states[number].place_set)
        return {
            path: (
                {'dir': 'd', 'file': '-', 'symlink': 'l'}[item.kind],
                int(item.rights[2], 8),
                *item.rights[:2],
                item.content or b'',
            )
            for path, item in tree.items()
        }


def read_bytes(folder, name):
    with open(os.path.join(folder, name), 'rb') as file:
        return file.read()


@needs_tar
class Archives(InFolder):
    """With the second reading in the program's place: so they show that they test something."""

    program = FAKE

    def listed(self, words):
        """What tar lists of the archive, and the bytes of all its files one after the other."""
        archive = self.path('archive')
        with open(archive, 'wb') as out:
            subprocess.run([self.program, 'tar', *words], stdout=out, check=True)
        listed = self.tar('-tv', '--full-time', '--quoting-style=literal', '-f', archive)
        return listed.decode('utf-8').splitlines(), self.tar('-xO', '-f', archive)

    @staticmethod
    def tar(*words):
        ran = subprocess.run(
            ['tar', *words],
            stdout=subprocess.PIPE,
            stderr=subprocess.PIPE,
            check=True,
            env={**os.environ, 'TZ': 'UTC', 'LC_ALL': 'C.UTF-8'},
        )
        assert ran.stderr == b'', ran.stderr
        return ran.stdout

    def entries(self, words):
        """(kind, mode, owner, group, bytes) of each member by its name, in the archive's order."""
        lines, data = self.listed(words)
        found, at = {}, 0
        for line in lines:
            kind, mode, owner, group, size, name = ENTRY.fullmatch(line).groups()
            bits = int(''.join('0' if one == '-' else '1' for one in mode), 2)
            found[name] = kind, bits, owner, group, data[at : at + int(size)]
            at += int(size)
        self.assertEqual((len(found), at), (len(lines), len(data)))
        return found

    def test_large_files_of_zeros_are_written_in_pieces(self):
        """As tar unpacks them: the bytes are those of the archive without pieces."""
        self.skip_without_version_4()
        trace = self.write('sparse.trace', SPARSE)
        sizes = []
        for state in ('0', '1', '2', '3'):
            both = []
            for words in ([], ['--sparse']):
                with open(self.path('archive'), 'wb') as out:
                    words = ['tar', '--trace', trace, '--state', state, *words]
                    subprocess.run([self.program, *words], stdout=out, check=True)
                sizes.append(os.path.getsize(self.path('archive')))
                place = self.path(f'{state}{len(both)}')
                os.mkdir(place)
                self.tar('-x', '-C', place, '-f', self.path('archive'))
                both.append({name: read_bytes(place, name) for name in ('a', 'b', 'c', 'd')})
            self.assertEqual(both[0], both[1], state)
        self.assertLess(sizes[1], 120_000)
        self.assertGreater(sizes[0], 1_000_000)

    def skip_without_version_4(self):
        if not Crashfs(self.program).can_read_version(4):
            self.skipTest('the program reads no trace of version 4')

    def test_a_file_in_pieces_has_its_long_name_for_python_too(self):
        self.skip_without_version_4()
        trace = self.write('long.trace', LONG_SPARSE)
        with open(self.path('archive'), 'wb') as out:
            words = ['tar', '--trace', trace, '--state', '0', '--sparse']
            subprocess.run([self.program, *words], stdout=out, check=True)
        with tarfile.open(self.path('archive')) as archive:
            self.assertEqual(archive.getnames(), ['.', LONG])
        self.assertEqual(self.tar('-tf', self.path('archive')).decode(), f'./\n{LONG}\n')

    def assert_states(self, trace, text, step=1):
        """Each state, or each so many, is as the second reading has it, alone and in a range."""
        wanted = Wanted(text)
        words = ['--trace', trace, '--holes']
        for number in range(0, len(wanted), 7 * step):
            found = self.entries([*words, '--state', str(number)])
            self.assertEqual(below(found, ''), below(wanted.entries(number), '/'), number)
        for first in range(0, len(wanted), 50 * step):
            last = min(first + 49, len(wanted) - 1)
            found = self.entries([*words, '--states', f'{first}-{last}'])
            for number in range(first, last + 1):
                self.assertEqual(below(found, f'{number}/'), below(wanted.entries(number), '/'))
            self.assertEqual(set(map(top_of, found)), set(range(first, last + 1)))

    def test_each_state_of_the_examples(self):
        for path in EXAMPLE_TRACES:
            with self.subTest(path.name):
                step = 40 if self.program == FAKE and path.parent.name == 'sqlite' else 1
                self.assert_states(str(path), path.read_text(encoding='utf-8'), step)

    def test_a_list_of_states_is_in_its_order(self):
        trace = str(EXAMPLES / 'store.trace')
        found = self.entries(['--trace', trace, '--holes', '--states', '9,3-4,18'])
        tops = [top_of(name) for name in found]
        self.assertEqual(list(dict.fromkeys(tops)), [9, 3, 4, 18])
        text = (EXAMPLES / 'store.trace').read_text(encoding='utf-8')
        self.assertEqual(below(found, '18/'), below(Wanted(text).entries(18), '/'))

    def test_the_longest_path(self):
        self.assert_states(self.write('deep.trace', DEEP), DEEP)

    def test_long_names_utf_8_nothing_and_the_largest_file(self):
        self.assert_states(self.write('wide.trace', WIDE), WIDE)

    def test_what_tar_lays_out_is_the_state(self):
        if os.geteuid() != 0:
            self.skipTest('only root reads what the modes forbid')
        trace = self.write('wide.trace', WIDE)
        wanted = Wanted(WIDE)
        last = len(wanted.plan.reading.operations)
        os.mkdir(self.path('out'))
        with open(self.path('archive'), 'wb') as out:
            subprocess.run(
                [self.program, 'tar', '--trace', trace, '--state', str(last)],
                stdout=out,
                check=True,
            )
        self.tar('-x', '-p', '--no-same-owner', '-f', self.path('archive'), '-C', self.path('out'))
        found = {
            one.path: (one.mode, one.data or b'')
            for one in scan_directory(self.path('out'), lambda path: False).entries
        }
        self.assertEqual(
            found,
            {
                path: (mode, data)
                for path, (_, mode, _, _, data) in wanted.entries(last).items()
                if path != '/'
            },
        )


@needs_built
class OfTheProgram(Archives):
    """With the program that is built."""

    program = BUILT


def below(entries, top):
    """The entries below a name, by their paths from there; the top itself is not among them."""
    found = {
        name[len(top) :].rstrip('/'): entry
        for name, entry in entries.items()
        if name.startswith(top)
    }
    return {name: entry for name, entry in found.items() if name not in ('', '.')}


def top_of(name):
    return int(name.partition('/')[0])


if __name__ == '__main__':
    unittest.main()
