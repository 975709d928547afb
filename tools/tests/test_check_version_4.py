"""crashfs-check on traces of version 4: symbolic links, renamed directories and large files."""

import os
import unittest

from crashfs_tools.checker.findings.swaps import has_replaced_bytes
from crashfs_tools.checker.findings.tree_diff import difference_lines
from crashfs_tools.checker.states.steps import Session
from crashfs_tools.common.entry import Entry
from crashfs_tools.common.program import Crashfs
from crashfs_tools.common.sparse import SparseBytes, first_difference
from crashfs_tools.reading import parse_trace
from crashfs_tools.reading.order import Order

from .support import FAKE, InFolder, needs_strace

RIGHTS = '"owner":"root","group":"root"'
HEADER = f'{{"trace":4,"profile":"blocks","block":4096,{RIGHTS},"mode":"755"}}'
# The switch of a `current` link, a directory that gets its name when it is whole, and a large file.
STORE = f"""\
{HEADER}
{{"start":"dir","path":"/one",{RIGHTS},"mode":"755"}}
{{"start":"file","path":"/one/f",{RIGHTS},"mode":"644","text":"first"}}
{{"start":"symlink","path":"/current",{RIGHTS},"target":"one"}}
{{"start":"file","path":"/big",{RIGHTS},"mode":"644","length":300000000,\
"parts":[{{"at":7,"text":"x"}}]}}
{{"op":"mkdir","path":"/tmp",{RIGHTS},"mode":"755"}}
{{"op":"creat","path":"/tmp/f",{RIGHTS},"mode":"644"}}
{{"op":"write","path":"/tmp/f","offset":0,"text":"second"}}
{{"op":"fdatasync","path":"/tmp/f"}}
{{"op":"fsync","path":"/tmp"}}
{{"op":"rename","from":"/tmp","to":"/two"}}
{{"op":"symlink","path":"/new",{RIGHTS},"target":"two"}}
{{"op":"rename","from":"/new","to":"/current"}}
{{"op":"write","path":"/big","offset":299999999,"text":"yz"}}
{{"op":"say","text":"switched"}}
{{"op":"fsync","path":"/"}}
{{"op":"say","text":"safe"}}
"""
OLD_STORE = f"""\
{HEADER.replace('4', '3', 1)}
{{"start":"file","path":"/f",{RIGHTS},"mode":"644","text":"first"}}
{{"op":"write","path":"/f","offset":0,"text":"FIRST"}}
"""
# What COMMAND asks for: a version that is whole.
LOOK = 'cat current/f > seen 2>&1 || { echo "gone: no current version"; exit 1; }'
LISTED = 'find . -printf "%P %y %m %s %l\\n" | sort > LOG/$CRASHFS_STATE; grep -c . big > /dev/null'


class Checks(InFolder):
    def check(self, *words: str):
        trace = self.write('store.trace', STORE)
        options, script = words[:-1], words[-1]
        ran = self.run_tool(
            'crashfs-check', '--unproved', *options, trace, '--', 'sh', '-c', script
        )
        self.assert_nothing_left()
        return ran

    def test_a_link_that_is_switched_before_its_target_is_durable(self):
        ran = self.check(LOOK)
        self.assertEqual(ran.returncode, 1, ran.stderr)
        self.assertIn('(rename /tmp to /two) was not durable when line 13', ran.stdout)
        self.assertIn('(rename /new to /current) was:\n', ran.stdout)
        self.assertIn('the directory / ', ran.stdout)
        self.assertIn('are left, and no other fails', ran.stdout)

    def listing(self, name: str, *options: str):
        log = self.path(name)
        os.mkdir(log)
        ran = self.check(*options, LISTED.replace('LOG', log))
        self.assertEqual((ran.returncode, ran.stderr), (0, ''), ran.stdout)
        return {one: self.read(os.path.join(name, one)) for one in os.listdir(log)}

    def test_states_have_their_links_and_large_files(self):
        found = self.listing('log', '--prefixes')
        self.assertIn('big f 644 300000000 \n', found['0'])
        self.assertIn('current l 777 3 one\n', found['0'])
        whole = found[max(found, key=int)]
        self.assertIn('big f 644 300000001 \n', whole)
        self.assertIn('current l 777 3 two\n', whole)
        self.assertIn('two/f f 644 6 \n', whole)
        self.assertNotIn('tmp', whole)

    def test_a_program_is_asked_for_large_files_in_pieces_if_it_has_them(self):
        trace = self.write('t', STORE.replace('300000000', '1000000').replace('299999999', '9'))
        for refused, kind in (('--none', SparseBytes), ('--help', bytes)):
            script = f'#!/bin/sh\ntest "$2" = {refused} && exit 2\n{FAKE} "$@"\n'
            path = self.write('program', script, 0o755)
            program = Crashfs(path).program_for_version(4)
            data = program.tree_of_state(trace, 0)['/big'].data
            self.assertIs(type(data), kind)
            self.assertEqual(data, SparseBytes(1_000_000, [(7, b'x')]))
            self.assertFalse(Crashfs(path).program_for_version(3).has_sparse)

    def test_a_session_in_windows_has_the_same_prefixes(self):
        whole, cut = self.listing('whole', '--prefixes'), self.listing(
            'cut', '--prefixes', '--window', '5'
        )
        self.assertEqual(set(whole.values()), set(cut.values()))

    def test_a_state_is_left_with_its_links(self):
        ran = self.check('--state', '0', 'true')
        left = ran.stdout.partition('laid out in ')[2].partition('. To try')[0]
        self.assertEqual(os.readlink(os.path.join(left, 'current')), 'one')
        self.assertEqual(os.stat(os.path.join(left, 'big')).st_size, 300_000_000)

    def assert_nothing_left(self):
        names = [one for one in os.listdir(self.temporary) if not one.startswith('crashfs-state')]
        self.assertEqual(names, [])

    @needs_strace
    def test_a_recovery_that_switches_a_link_is_recorded(self):
        ran = self.check(
            *('--prefixes', '--nested', '2'),
            'ln -s one again && mv -T again current && mv two was; test -e current/f',
        )
        self.assertIn('2 recoveries: ', ran.stdout)
        self.assertNotIn('not tried', ran.stdout)

    @needs_strace
    def test_a_recovery_may_need_version_4_where_the_session_does_not(self):
        """The program reads no version 4."""
        trace = self.write('store.trace', OLD_STORE)
        program = self.write(
            'program',
            '#!/bin/sh\nfor word; do case "$word" in *.trace) file=$word;; esac; done\n'
            'if grep -q \'"trace":4\' "$file" /dev/null\n'
            'then printf "crashfs: trace line 1: Syntax\\ncrashfs: no version 4\\n" >&2; exit 1\n'
            f'fi\nexec {FAKE} "$@"\n',
            0o755,
        )
        ran = self.run_tool(
            *('crashfs-check', '--crashfs', program, '--nested', '2', trace, '--'),
            *('sh', '-c', 'test ! -L l && ln -s f l && mv l m; rm -f m; true'),
        )
        self.assertEqual((ran.returncode, ran.stderr), (0, ''), ran.stdout)
        self.assertNotIn('not tried', ran.stdout)
        self.assertIn(
            '  2 recoveries: 6 different states of a second crash, none fails\n'
            '  unproved: the Python implementation computed the states of 2 of these\n',
            ran.stdout,
        )
        self.assertEqual(ran.stdout.count('unproved'), 1)
        ran = self.run_tool('crashfs-check', '--crashfs', program, 'store.trace', '--', 'true')
        self.assertNotIn('unproved', ran.stdout)
        self.write('store.trace', STORE)
        ran = self.run_tool(
            *('crashfs-check', '--crashfs', program, '--prefixes', 'store.trace', '--', 'true')
        )
        self.assertIn(
            'unproved: the Python implementation computed these states, as crashfs ', ran.stdout
        )


class Differences(unittest.TestCase):
    def test_links_and_kinds_differ(self):
        link, other = (Entry('u', 'g', 0o777, None, target) for target in ('a', 'b'))
        file, folder = Entry('u', 'g', 0o644, b'x'), Entry('u', 'g', 0o755, None)
        for one, good, line in (
            (link, other, '/p is a symbolic link to a, in the good state a symbolic link to b'),
            (link, file, '/p is a symbolic link to a, in the good state a file'),
            (folder, link, '/p is a directory, in the good state a symbolic link to a'),
        ):
            self.assertEqual(list(difference_lines({'/p': one}, {'/p': good})), [line])
        self.assertEqual(
            list(difference_lines({'/p': link}, {})),
            ['/p (a symbolic link to a) is only in the failing state'],
        )

    def test_large_files_differ_where_they_begin_to(self):
        zeros = SparseBytes(1 << 30)
        for one, other, place in (
            (zeros, SparseBytes(1 << 30, [(1 << 29, b'abc')]), 1 << 29),
            (SparseBytes(1 << 30, [(5000, b'x')]), zeros, 5000),
            (zeros, SparseBytes((1 << 30) - 5), (1 << 30) - 5),
            (b'abcd', SparseBytes.copy_of(b'abxd'), 2),
            (b'abc', b'abcd', 3),
            (bytes(9000), bytes(8999) + b'x', 8999),
        ):
            self.assertEqual(first_difference(one, other), place)

    def test_bytes_that_others_replace_were_no_zeros(self):
        old = SparseBytes(1 << 30, [(1 << 29, b'ab')])
        for at, data, expected in (
            (0, b'x', False),
            ((1 << 29) + 2, b'x', False),
            ((1 << 29) + 1, b'x', True),
            ((1 << 29) + 1, b'b', False),
            (1 << 29, b'\0', True),
        ):
            new = old.copy()
            new.write(at, data)
            self.assertEqual(has_replaced_bytes(old, new), expected, at)


class Pieces(unittest.TestCase):
    def test_a_long_write_has_as_many_micro_operations_in_pieces(self):
        for version in (3, 4):
            for size in (0, 100, 4_096, 5_000):
                lines = [
                    HEADER.replace('4', str(version), 1),
                    f'{{"start":"file","path":"/f",{RIGHTS},"mode":"644","text":"{"s" * size}"}}',
                    f'{{"op":"write","path":"/f","offset":{size},"text":"{"x" * 700_000}"}}',
                ]
                text = ''.join(f'{line}\n' for line in lines)
                session = Session('it', text)
                whole = Order(parse_trace(text.encode())).count
                self.assertGreater(len(session.steps), 2)
                self.assertEqual(session.places[-1], whole, (version, size))


if __name__ == '__main__':
    unittest.main()
