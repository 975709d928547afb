"""What the tools do with what the program `crashfs` writes."""

import os
import sys
import threading
import unittest
from types import SimpleNamespace
from unittest import mock

from crashfs_tools.checker.states.layout import read_trees
from crashfs_tools.common.forked_reading import ForkedReading
from crashfs_tools.common.program import (
    BUILT,
    Crashfs,
    ProgramFault,
    ProgramOutput,
    program_of_tools,
)
from crashfs_tools.common.signals import time_limit

from .support import EXAMPLES, PATIENCE, InFolder

# An archive whose first block of zeros ends one of the pieces in which tarfile reads, and whose
# last piece comes late.
LATE = """\
import io, sys, tarfile, time
out = io.BytesIO()
with tarfile.open(fileobj=out, mode='w', format=tarfile.USTAR_FORMAT) as archive:
    member = tarfile.TarInfo('a')
    member.size = 18 * 512
    archive.addfile(member, io.BytesIO(18 * 512 * b'a'))
whole = out.getvalue()
assert len(whole) == 20480
sys.stdout.buffer.write(whole[:10240])
sys.stdout.buffer.flush()
time.sleep(0.3)
sys.stdout.buffer.write(whole[10240:])
"""

# An archive of a state, and of a directory that has another name than a state.
OTHER = """\
import sys, tarfile
with tarfile.open(fileobj=sys.stdout.buffer, mode='w|', format=tarfile.USTAR_FORMAT) as archive:
    for name in ('0', {name!r}):
        member = tarfile.TarInfo(name)
        member.type = tarfile.DIRTYPE
        archive.addfile(member)
"""


class Archives(InFolder):
    def test_an_archive_is_read_to_its_end(self):
        program = self.write('crashfs', f'#!{sys.executable} -S\n{LATE}', 0o755)
        tree = Crashfs(program).tree_of_state('a.trace', 0)
        self.assertEqual(list(tree), ['/a'])

    def test_an_entry_that_is_in_no_state_is_a_fault_of_the_program(self):
        request = SimpleNamespace(options=[], number_offset=0)
        planned = SimpleNamespace(requests=lambda wanted: [request])
        for name in ('x', '-1', '1_0'):
            program = Crashfs(
                self.write('crashfs', f'#!{sys.executable} -S\n{OTHER.format(name=name)}', 0o755)
            )
            for trees in (
                program.trees([]),
                read_trees(program, planned, {0, 10}, {}, lambda number, tree: list(tree)),
            ):
                self.assertEqual(next(trees)[0], 0)
                with self.assertRaisesRegex(ProgramFault, f"'{name}' is no number of a state"):
                    next(trees)


class SecondReading(InFolder):
    def test_a_fault_that_fills_its_pipe_is_read(self):
        name = 'n' * (1 << 17)
        rights = '"owner":"u","group":"g","mode":"644"'
        line = f'{{"op":"creat","path":"/{name}",{rights}}}'
        trace = self.write('long.trace', f'{{"trace":1,{rights}}}\n{line}\n')
        with time_limit(60), self.assertRaises(ProgramFault) as raised:
            Crashfs.second_reading().output_of(['list', '--trace', trace])
        self.assertEqual(raised.exception.status, 1)
        self.assertTrue(raised.exception.text.endswith(f': the path "/{name}"'))

    def test_all_that_is_printed_on_both_outputs_comes_back(self):
        lines = ''.join(f'{{"op":"say","text":"{number}"}}\n' for number in range(1_000))
        header = '{"trace":1,"owner":"u","group":"g","mode":"755"}\n'
        trace = self.write('says.trace', header + lines)
        listed = Crashfs.second_reading().output_of(['list', '--trace', trace, '--json'])
        self.assertEqual(listed.count('\n'), 1_000 + 1_001)


class Outputs(unittest.TestCase):
    def test_errors_of_several_pieces_are_read_to_their_end(self):
        output_pipe, output = os.pipe()
        error_pipe, errors = os.pipe()
        for pipe in (output_pipe, error_pipe):
            self.addCleanup(os.close, pipe)
        os.write(errors, b'abc')
        os.close(errors)
        os.close(output)
        read_output = ProgramOutput(output_pipe, error_pipe)
        with mock.patch('crashfs_tools.common.program.PIECE_BYTES', 2):
            self.assertEqual(read_output.readall(), b'')
        self.assertEqual(read_output.error_text, b'abc')


class Faults(unittest.TestCase):
    def test_only_a_line_feed_ends_a_line_of_a_fault(self):
        for letter in '\x0b\x0c\x1c\x1d\x1e\x85\u2028\u2029\r':
            line = f'crashfs: a.trace:2: /a{letter}b is not there'
            text = f'crashfs: trace line 2: Missing\n{line}\n'
            with self.subTest(letter=letter):
                self.assertEqual(str(ProgramFault(1, text.encode())), line)
                self.assertEqual(str(ProgramFault(2, f'{line}\nUsage: ..\n'.encode())), line)

    def test_a_fault_without_a_text_says_how_the_program_ended(self):
        self.assertEqual(str(ProgramFault(3, b' \n')), 'crashfs ended with status 3')


class Places(InFolder):
    def test_an_installed_program_is_found_beside_its_library(self):
        library = self.path('usr', 'lib', 'crashfs')
        os.makedirs(library)
        os.makedirs(self.path('usr', 'bin'))
        self.assertIsNone(program_of_tools(library))
        program = self.write('usr/bin/crashfs', '#!/bin/sh\n', 0o644)
        self.assertIsNone(program_of_tools(library))
        os.chmod(program, 0o755)
        self.assertEqual(program_of_tools(library), program)

    def test_that_of_another_folder_is_not_taken(self):
        self.write('crashfs', '#!/bin/sh\n', 0o755)
        os.makedirs(self.path('bin'))
        self.write('bin/crashfs', '#!/bin/sh\n', 0o755)
        built = BUILT if os.access(BUILT, os.X_OK) else None
        for library in (
            self.path('clone', 'tools'),
            self.path('lib', 'tools'),
            self.path('src', 'crashfs'),
        ):
            self.assertEqual(program_of_tools(library), built)


class Left(unittest.TestCase):
    """The second reading runs in a fork, and what it printed is read no longer."""

    def test_it_ends_once_nobody_reads(self) -> None:
        trace = str(EXAMPLES / 'sqlite' / 'full.trace')
        child = ForkedReading(['tar', '--trace', trace, '--states', '0-80'])
        self.addCleanup(child.kill)
        child.stdout.close()
        child.stderr.close()
        has_ended = threading.Thread(target=child.wait, daemon=True)
        has_ended.start()
        has_ended.join(PATIENCE)
        self.assertFalse(has_ended.is_alive())


if __name__ == '__main__':
    unittest.main()
