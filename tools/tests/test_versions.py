"""The version of a trace that crashfs-record writes, and what only version 4 has."""

import os
import shutil
import sys
import unittest
from typing import Optional

from crashfs_tools.common.entry import Entry
from crashfs_tools.common.trace import Truncate
from crashfs_tools.recorder.comparison import entry_differences

from .support import FAKE, TOOLS, needs_strace, recording_of
from .test_record_command import InRecordings
from .translated_calls import FILE, IN_DIRECTORY, OPEN_F

# What a session does, and why its trace has version 4.
NEEDS = [
    ('/l is a symbolic link', 'ln -s nothing l'),
    ('/s is a directory that was renamed', 'mkdir s; mv s t'),
    ('/old has more than 16,777,216 bytes', 'truncate -s 17M old'),
    (
        '/f has more than 16,777,216 bytes',
        'echo x | dd of=f bs=1 seek=16777216 count=1 2> /dev/null',
    ),
]
# What it does in place of that, and needs no version 4.
OLD = 'ln old new; mkdir s; mv new s; truncate -s 16M old; python3 -c "%s"' % (
    "import os; f = os.open('old', os.O_RDWR); os.pwrite(f, b'x', 3); os.fdatasync(f)"
)


def version_of(lines, start) -> Optional[int]:
    return recording_of(lines, start).trace.version


@needs_strace
class Versions(InRecordings):
    def header(self) -> str:
        return self.read('out.trace').partition('\n')[0]

    def test_version_3_is_written_if_it_has_all_that_happens(self):
        ran = self.record(OLD)
        self.assertEqual(ran.returncode, 0, ran.stderr)
        self.assertNotIn('version', ran.stderr)
        self.assertTrue(self.header().startswith('{"trace":3,'))
        self.assertEqual(
            self.operations()[-1], '{"op":"fsync_range","path":"/old","offset":0,"length":16777216}'
        )

    def test_version_4_is_written_if_something_needs_it_and_a_line_says_what(self):
        for why, script in NEEDS:
            with self.subTest(why):
                ran = self.record(script)
                self.assertEqual(ran.returncode, 0, ran.stderr)
                self.assertIn(f'the trace has version 4 ({why}): ', ran.stderr)
                self.assertIn('its last state equals the directory', ran.stderr)
                self.assertTrue(self.header().startswith('{"trace":4,'))
                self.assert_nothing_left()
                shutil.rmtree(self.path('d'))
                os.mkdir(self.path('d'))
                self.write('d/old', '1\n')

    def test_what_is_there_at_the_start_may_need_version_4(self):
        os.symlink('old', self.path('d', 'l'))
        ran = self.record('echo 2 >> l')
        self.assertEqual(ran.returncode, 0, ran.stderr)
        self.assertIn('(/l is a symbolic link)', ran.stderr)
        lines = self.read('out.trace').splitlines()
        self.assertIn('{"start":"symlink","path":"/l",', lines[1])
        self.assertEqual(lines[3], '{"op":"write","path":"/old","offset":2,"text":"2\\n"}')

    def test_a_large_file_of_the_start_is_written_without_its_zeros(self):
        with open(self.path('d', 'big'), 'wb') as file:
            file.truncate(1 << 30)
            file.seek(1 << 29)
            file.write(b'middle' + bytes(100_000) + b'end')
        ran = self.record('printf new | dd of=big bs=1 conv=notrunc 2> /dev/null')
        self.assertEqual(ran.returncode, 0, ran.stderr)
        self.assertEqual(
            self.read('out.trace').splitlines()[1].partition('"length"')[2],
            ':1073741824,"parts":[{"at":536870912,"text":"middle"},'
            '{"at":536970918,"text":"end"}]}',
        )
        self.assertIn('(/big has more than 16,777,216 bytes)', ran.stderr)

    def test_a_file_of_the_start_is_in_parts_if_that_is_shorter(self):
        dense = bytes(range(1, 256)) * 5
        for name, data in (('zeros', b'\1\2' + bytes(5_000) + b'\3'), ('dense', dense)):
            with open(self.path('d', name), 'wb') as file:
                file.write(data)
        self.write('d/text', 'all of it can be read\n' * 100)
        for version, zeros in (
            ('3', f'"bytes":"0102{"00" * 5_000}03"}}'),
            ('4', '"length":5003,"parts":[{"at":0,"bytes":"0102"},{"at":5002,"bytes":"03"}]}'),
        ):
            self.assertEqual(self.record('true', '--trace-version', version).returncode, 0)
            lines = self.read('out.trace').splitlines()
            self.assertTrue(lines[4].endswith('"mode":"644",' + zeros), lines[4])
            self.assertTrue(lines[1].endswith(f'"bytes":"{dense.hex()}"}}'), lines[1])
            self.assertIn('"text":"all of it', lines[3])

    def test_a_trace_that_begins_late_needs_what_is_there_then(self):
        late = 'ln -s a l; mkdir s; mv s t; rm l; echo begun; echo 2 > old'
        ran = self.record_aloud(late, '--begin-after', 'begun')
        self.assertEqual(ran.returncode, 0, ran.stderr)
        self.assertTrue(self.header().startswith('{"trace":3,'), self.header())
        self.assertIn('its last state equals the directory', ran.stderr)
        ran = self.record_aloud('ln -s a l; echo begun; echo 2 > old', '--begin-after', 'begun')
        self.assertTrue(self.header().startswith('{"trace":4,'), self.header())

    def test_the_version_that_is_asked_for_is_written(self):
        for why, script in NEEDS:
            with self.subTest(why):
                ran = self.record(script, '--trace-version', '3')
                self.assertEqual(ran.returncode, 3, ran.stderr)
                self.assertTrue(self.header().startswith('{"trace":3,'))
                self.assertNotIn('version 4', ran.stderr)
                shutil.rmtree(self.path('d'))
                os.mkdir(self.path('d'))
                self.write('d/old', '1\n')
        ran = self.record(OLD, '--trace-version', '4')
        self.assertEqual(ran.returncode, 0, ran.stderr)
        self.assertNotIn('version 4', ran.stderr)
        self.assertEqual(self.operations()[-1], '{"op":"fdatasync","path":"/old"}')

    def test_the_program_is_asked_for_large_files_in_pieces(self):
        log = self.path('log')
        lines = f'#!/bin/sh\necho "$1 $2" >> {log}\nexec {FAKE} "$@"\n'
        program = self.write('program', lines, 0o755)
        for script, wanted in (('truncate -s 17M new', 'tar --sparse'), ('rm new', 'tar --trace')):
            self.write('log', '')
            ran = self.record(script, '--crashfs', program)
            self.assertIn('its last state equals the directory (by crashfs tar)', ran.stderr)
            self.assertIn(f'{wanted}\n', self.read('log'))
            self.write('d/new', '')

    def test_the_profile_journal_needs_version_4(self):
        ran = self.record('echo 2 > new', '--profile', 'journal')
        self.assertEqual(ran.returncode, 0, ran.stderr)
        self.assertTrue(self.header().startswith('{"trace":4,"profile":"journal",'))
        ran = self.record('echo 2 > new', '--profile', 'journal', '--trace-version', '3')
        self.assertEqual(ran.returncode, 2)
        self.assertIn('--profile journal needs --trace-version 4 or auto', ran.stderr)

    def test_a_log_from_elsewhere_may_need_version_4(self):
        shutil.copytree(self.path('d'), self.path('before'))
        self.record('mkdir s; ln -s s l; echo 2 > l/f; mv s t', '--keep-log', 'log')
        whole = self.read('out.trace')
        top = self.path('d')
        ran = self.run_tool(
            *('crashfs-record', '--no-say', '--from-log', 'log', '--log-dir', top),
            *('before', 'out.trace'),
        )
        self.assertEqual((ran.returncode, self.read('out.trace')), (0, whole), ran.stderr)

    def test_random_sessions_end_as_their_directories(self):
        program = str(TOOLS / 'tests' / 'random_session.py')
        for seed in (1, 2, 3, 4):
            with self.subTest(seed):
                shutil.rmtree(self.path('d'))
                os.makedirs(self.path('d', 's'))
                self.write('d/a', 'old')
                ran = self.run_tool(
                    *('crashfs-record', 'd', 'out.trace', '--', sys.executable, program),
                    *(str(seed), '4'),
                )
                self.assertEqual(ran.returncode, 0, ran.stderr)
                self.assertTrue(self.header().startswith('{"trace":4,'))


class Ends(unittest.TestCase):
    def test_kinds_and_targets_that_differ_at_the_end_are_reported(self):
        link, other = (Entry('u', 'u', 0o777, None, target) for target in 'ab')
        folder = Entry('u', 'u', 0o777, None)
        for real, traced, told in (
            (link, link, []),
            (link, other, ['it is a symbolic link to a at the end, and one to b in the trace']),
            (link, folder, ['it is a symbolic link at the end, and a directory in the trace']),
        ):
            self.assertEqual(entry_differences(real, traced), told)


class Needs(unittest.TestCase):
    def test_what_is_refused_or_ignored_needs_no_version_4(self):
        for lines, start in (
            (['1 symlink("a", "f") = -1 EEXIST (File exists)'], FILE),
            (['1 symlink("a", "/etc/f") = 0'], FILE),
            (['1 rename("s/f", "s/g") = 0'], IN_DIRECTORY),
            ([OPEN_F, '1 ftruncate(3</d/f>, 16777216) = 0'], FILE),
            ([OPEN_F, '1 ftruncate(3</d/f>, 1073741825) = 0'], FILE),
        ):
            with self.subTest(lines):
                self.assertEqual(version_of(lines, start), 3)

    def test_what_the_trace_lacks_needs_no_version_4(self):
        name = 'n' * 256
        for line in (f'symlink("a", "{name}") = 0', f'rename("s", "{name}") = 0'):
            recording = recording_of(['1 ' + line], IN_DIRECTORY)
            self.assertTrue(list(recording.troubles.values()), line)
            found = recording.trace.version, recording.tree.version, recording.version_reason
            self.assertEqual(found, (3, 3, ''), line)
        self.assertFalse(recording.add_operation(Truncate('/none', 1 << 25)))
        self.assertEqual(recording.trace.version, 3)
        # What is in the trace by then keeps its version, and the reason.
        self.assertTrue(recording.add_operation(Truncate('/s/f', 1 << 25)))
        self.assertFalse(recording.add_operation(Truncate('/none', 1 << 25)))
        self.assertEqual(recording.trace.version, 4)
        self.assertIn('/s/f has more than', recording.version_reason)

    def test_the_first_thing_that_needs_version_4_is_named(self):
        lines = ['1 symlink("a", "l") = 0', '1 rename("s", "t") = 0']
        recording = recording_of(lines, IN_DIRECTORY)
        self.assertEqual(recording.version_reason, '/l is a symbolic link')
        self.assertEqual((recording.trace.version, recording.tree.version), (4, 4))


if __name__ == '__main__':
    unittest.main()
