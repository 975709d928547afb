"""What calls mean: logs of a few lines, and the operations that they become."""

import unittest
from unittest import mock

from crashfs_tools.common.trace import Start
from crashfs_tools.recorder.live_files import StartConditions
from crashfs_tools.recorder.recording import is_private
from crashfs_tools.recorder.strace_log import read_log
from crashfs_tools.recorder.translate import forks_by_result

from . import support
from .support import needs_version_3, operations_of, recording_of, short
from .translated_calls import CASES, FILE, IN_DIRECTORY, OPEN_F, TWO_FILES
from .translated_forks import FORKS
from .translated_syncs import SYNCS


class Calls(unittest.TestCase):
    @needs_version_3
    def test_calls_become_the_operations_that_they_are(self):
        for shown, start, log, wanted in CASES + FORKS + SYNCS:
            with self.subTest(shown):
                recording = recording_of(log, start)
                self.assertEqual([short(one) for one in recording.trace.operations], wanted)
                self.assertEqual(list(map(str, list(recording.troubles.values()))), [])

    def test_lines_of_standard_output_are_reported_whole_and_in_their_place(self):
        log = [
            OPEN_F,
            '1 write(1<pipe:[7]>, "one\n\ntw", 7) = 7',
            '1 pwrite64(3</d/f>, "J", 1, 0) = 1',
            '1 write(1<pipe:[7]>, "o", 1) = 1',
        ]
        self.assertEqual(operations_of(log, FILE), ['say one', 'say ', 'write /f 0 J', 'say two'])

    def test_ignored_files_are_left_out(self):
        log = [
            '1 openat(AT_FDCWD</d>, "a.tmp", O_WRONLY|O_CREAT, 0666) = 3</d/a.tmp>',
            '1 write(3</d/a.tmp>, "hi", 2) = 2',
        ]
        recording = recording_of(log, [], lambda path: path.endswith('.tmp'))
        self.assertEqual((recording.trace.operations, list(recording.troubles.values())), ([], []))

    @needs_version_3
    def test_the_sync_of_a_write_counts_from_its_end(self):
        log = [
            '1 openat(AT_FDCWD</d>, "f", O_RDWR|O_DSYNC) = 3</d/f>',
            '1 clone(child_stack=0x7f, flags=CLONE_VM|CLONE_FILES|CLONE_THREAD) = 2',
            '1 write(3</d/f>, "J", 1 <unfinished ...>',
            '2 write(1<pipe:[7]>, "early\n", 6) = 6',
            '1 <... write resumed>) = 1',
            '2 write(1<pipe:[7]>, "late\n", 5) = 5',
        ]
        recording = recording_of(log, FILE, note=lambda call: call.name + str(call.begin))
        self.assertEqual(
            [short(one) for one in recording.trace.operations],
            ['write /f 0 J', 'say early', 'fsyncrange /f 0 1', 'say late'],
        )
        self.assertEqual(
            list(recording.trace.notes.values()), ['write3', 'write4', 'write3', 'write6']
        )

    def test_modes_are_cut_by_the_umask_that_counts_then(self):
        log = [
            '1 umask(027) = 022',
            '1 openat(AT_FDCWD</d>, "a", O_WRONLY|O_CREAT, 0666) = 3</d/a>',
        ]
        self.assertEqual(recording_of(log).trace.operations[0].mode, 0o640)

    def test_a_file_that_openat2_makes_without_a_mode_has_none(self):
        for mode, wanted in ((', mode=0640', 0o640), ('', 0)):
            how = f'{{flags=O_WRONLY|O_CREAT{mode}}}'
            log = [f'1 openat2(AT_FDCWD</d>, "a", {how}, 24) = 3</d/a>']
            self.assertEqual(recording_of(log).trace.operations[0].mode, wanted)

    def test_a_number_that_no_user_can_have_is_a_name(self):
        log = ['1 chown("f", 99999999999, 99999999999) = 0']
        self.assertEqual(operations_of(log, FILE), ['chown /f u99999999999 g99999999999'])

    def test_only_lchown_changes_the_owner_of_a_symbolic_link_itself(self):
        calls = ['1 lchown("l", 54321, -1) = 0', '1 chown("l", 54322, -1) = 0']
        operations = operations_of(['1 symlink("f", "l") = 0', *calls], FILE)
        self.assertEqual(operations[1:], ['chown /l u54321 u', 'chown /f u54322 u'])

    def test_an_empty_access_control_list_changes_no_mode(self):
        for call in ('setxattr("/d/f"', 'fsetxattr(3</d/f>'):
            log = [OPEN_F, f'1 {call}, "system.posix_acl_access", "\2\0\0\0", 4, 0) = 0']
            with self.subTest(call):
                recording = recording_of(log, FILE)
                self.assertEqual(recording.trace.operations, [])
                self.assertEqual(list(recording.troubles.values()), [])

    def test_a_trace_is_private_if_a_file_is_not_for_everybody_at_any_time(self):
        for log, wanted in (
            (['1 openat(AT_FDCWD</d>, "a", O_CREAT, 0644) = 3</d/a>'], False),
            (['1 openat(AT_FDCWD</d>, "a", O_CREAT, 0640) = 3</d/a>'], True),
            (['1 chmod("f", 0604) = 0', '1 chmod("f", 0644) = 0'], True),
            (['1 mkdir("a", 0711) = 0'], True),
        ):
            recording = recording_of(log, FILE)
            self.assertEqual(is_private(recording.trace), wanted)
            self.assertEqual(recording.trace.notes, {})

    def test_a_newest_version_that_no_option_asks_for_has_a_reason(self):
        link = ['1 symlink("f", "l") = 0']
        for version, log, wanted in (
            (3, [], ''),
            (4, [], ''),
            (4, link, ''),
            (None, [], ''),
            (None, link, '/l is a symbolic link'),
        ):
            recording = recording_of(log, FILE, version=version)
            self.assertEqual(recording.version_reason, wanted)
            self.assertEqual(len(recording.trace.operations), len(log))

    def test_only_a_fork_that_succeeded_makes_a_process(self):
        lines = ['fork() = 2', 'write(1</d/f>, "ab", 2) = 2', 'fork() = -1 EAGAIN', 'vfork() = 2']
        calls = read_log([f'1 {line}' for line in lines]).calls
        self.assertEqual(forks_by_result(calls), {2: [calls[0], calls[3]]})


class OutsideTheTrace(unittest.TestCase):
    """What no trace has is followed nevertheless, as later calls may be on it."""

    def test_names_that_no_trace_has_are_followed_without_it(self):
        name = 'n' * 256
        made = '1 openat(AT_FDCWD</d>, ".", O_RDWR|O_TMPFILE, 0644) = 3</d/#7>(deleted)'
        named = f'1 linkat(3</d/#7>(deleted), "", AT_FDCWD</d>, "{name}", AT_EMPTY_PATH) = 0'
        left_out = 'is left out: a name of more than 255 bytes'
        for log, wanted in (
            (
                [f'1 link("f", "{name}") = 0', f'1 unlink("{name}") = 0'],
                [f'link {left_out}', 'a hard link was made, and removed again'],
            ),
            (
                [f'1 mknod("{name}", S_IFREG|0644) = 0', f'1 unlink("{name}") = 0'],
                [f'mknod {left_out}'],
            ),
            (
                [f'1 mkdir("{name}", 0755) = 0', f'1 rename("{name}", "s") = 0'],
                [
                    f'mkdir {left_out}',
                    'a directory was renamed to /s: no trace can say it; what is done below it is '
                    'left out',
                ],
            ),
            (
                [f'1 mkdir("{name}", 0755) = 0', f'1 mknod("{name}/p", S_IFIFO|0644) = 0'],
                [f'mkdir {left_out}'],
            ),
            (
                [made, '1 write(3</d/#7>(deleted), 0x7ffc, 2) = 2', named],
                [f'linkat {left_out}'],
            ),
        ):
            recording = recording_of(log, FILE)
            self.assertEqual([one.what for one in recording.troubles.values()], wanted)
            self.assertEqual(recording.trace.operations, [])

    def test_a_replaced_file_that_keeps_a_name_which_no_trace_has_is_reported(self):
        log = [f'1 link("f", "{"n" * 256}") = 0', '1 rename("g", "f") = 0']
        recording = recording_of(log, TWO_FILES)
        self.assertEqual(
            [one.what for one in recording.troubles.values()][1:],
            ['a file was replaced that has another name by a link'],
        )
        self.assertEqual([short(one) for one in recording.trace.operations], ['rename /g /f'])

    def test_files_that_are_exchanged_have_each_other_s_name(self):
        log = [
            '1 renameat2(AT_FDCWD</d>, "f", AT_FDCWD</d>, "g", RENAME_EXCHANGE) = 0',
            '1 link("g", "h") = 0',
            '1 truncate("g", 0) = 0',
        ]
        recording = recording_of(log, TWO_FILES)
        self.assertEqual(recording.trace.operations, [])
        self.assertEqual([one.where for one in recording.troubles.values()], ['/f'])

    def test_a_rename_that_no_trace_has_leaves_the_version(self):
        recording = recording_of([f'1 rename("s", "{"n" * 256}") = 0'], IN_DIRECTORY)
        self.assertNotEqual(recording.troubles, {})
        self.assertEqual((recording.trace.version, recording.version_reason), (3, ''))

    def test_what_came_from_outside_is_followed_without_its_bytes(self):
        for source in ('"/etc/x"', '"x"...'):
            log = [f'1 rename({source}, "g") = 0', '1 rename("g", "h") = 0']
            troubles = recording_of(log, FILE).troubles.values()
            self.assertEqual([one.where for one in troubles], ['/g', '/h'])
            self.assertIn('a file that is not in the trace', str([*troubles][1]))

    def test_a_file_that_is_exchanged_with_a_directory_is_followed_by_no_name(self):
        for words in ('"f", AT_FDCWD</d>, "s"', '"s", AT_FDCWD</d>, "f"'):
            log = [
                f'1 renameat2(AT_FDCWD</d>, {words}, RENAME_EXCHANGE) = 0',
                '1 truncate("f", 0) = 0',
                '1 truncate("s", 0) = 0',
            ]
            recording = recording_of(log, FILE + IN_DIRECTORY)
            self.assertEqual(recording.trace.operations, [])
            self.assertEqual(len(recording.troubles), 1)
            reported = {one.where for one in recording.troubles.values()}
            self.assertEqual(reported | recording.differing_paths, {'/f', '/s'})


class WorkingDirectories(unittest.TestCase):
    """A process stays in its working directory when that is renamed or removed."""

    def assert_operations(self, log, wanted, start=(), ignored=None):
        recording = recording_of(log, start, ignored)
        self.assertEqual([short(one) for one in recording.trace.operations], wanted)
        return [str(one) for one in recording.troubles.values()]

    def test_a_directory_that_is_renamed_away_takes_its_processes_along(self):
        for rename, paths_back in (
            ('rename("/d/o", "/out/p")', ('/d/o', '../../d/o')),
            ('renameat2(AT_FDCWD</d/o>, "../o", AT_FDCWD</d/o>, "../../out/p", 0)', ('../../d/o',)),
            ('rename("../o", "../p.tmp")', ('../o',)),
        ):
            for path_back in paths_back:
                log = [
                    '1 mkdir("o", 0755) = 0',
                    '1 chdir("o") = 0',
                    f'1 {rename} = 0',
                    '1 mkdir("/d/o", 0755) = 0',
                    '1 mkdir("sub", 0755) = 0',
                    '1 rmdir("sub") = 0',
                    f'1 rmdir("{path_back}") = 0',
                ]
                with self.subTest(rename, back=path_back):
                    wanted = ['mkdir /o', 'rmdir /o', 'mkdir /o', 'rmdir /o']
                    troubles = self.assert_operations(
                        log, wanted, [], lambda path: path.endswith('.tmp')
                    )
                    self.assertEqual(troubles, [])

    def test_a_process_below_a_directory_that_is_renamed_away_goes_along(self):
        start = [Start('/o', 'u', 'u', 0o755, None), Start('/o/p', 'u', 'u', 0o755, None)]
        log = [
            '1 chdir("o/p") = 0',
            '1 rename("/d/o", "/out/o") = 0',
            '1 mkdir("../../x", 0755) = 0',
            '1 mkdir("/d/y", 0755) = 0',
        ]
        self.assertEqual(
            self.assert_operations(log, ['mkdir /y'], start),
            ['/o: a directory with entries was renamed out of the directory (after line 3)'],
        )

    def test_a_directory_outside_that_is_renamed_takes_its_processes_along(self):
        for rename in (
            'rename("/out/b/c", "/out/a")',
            'renameat(AT_FDCWD</out/b/c>, "../../b", AT_FDCWD</out/b/c>, "../../../a")',
            'renameat2(AT_FDCWD</d>, "/out/b/c", AT_FDCWD</d>, "/out/a", RENAME_EXCHANGE)',
        ):
            log = [
                '1 chdir("/out/b/c") = 0',
                f'1 {rename} = 0',
                '1 mkdir("../../d/x", 0755) = 0',
                '1 chdir("../../d") = 0',
                '1 rename("/d", "/e") = 0',
                '1 mkdir("y", 0755) = 0',
            ]
            with self.subTest(rename):
                self.assertEqual(
                    self.assert_operations(log, ['mkdir /x', 'mkdir /y']),
                    ['/: the directory itself was renamed, or replaced (after line 2)'],
                )

    def test_what_is_done_in_the_directory_is_followed_if_one_around_it_is_renamed(self):
        conditions = StartConditions('/p/d', 0o022, 'u', 'u')
        log = ['1 rename("/p", "/q") = 0', '1 mkdir("x", 0755) = 0']
        with mock.patch.object(support, 'StartConditions', return_value=conditions):
            self.assertEqual(self.assert_operations(log, ['mkdir /x']), [])

    def test_exchanged_directories_take_their_processes_along(self):
        start = [Start(path, 'u', 'u', 0o755, None) for path in ('/a', '/b', '/b/c')]
        for first, second, wanted in (
            ('/d/a', '/d/b/c', ['mkdir /b/x', 'mkdir /x']),
            ('/d/b/c', '/d/a', ['mkdir /x', 'mkdir /b/x']),
            ('/d/a', '/out/c', ['mkdir /x']),
            ('/out/c', '/d/b/c', ['mkdir /b/x']),
        ):
            log = [
                f'1 chdir("{first}") = 0',
                '1 clone(child_stack=NULL, flags=SIGCHLD) = 2',
                f'2 chdir("{second}") = 0',
                f'1 renameat2(AT_FDCWD</d>, "{first}", AT_FDCWD</d>, "{second}", RENAME_EXCHANGE)'
                ' = 0',
                '1 mkdir("../x", 0755) = 0',
                '2 mkdir("../x", 0755) = 0',
            ]
            with self.subTest(first, second=second):
                self.assertNotEqual(self.assert_operations(log, wanted, start), [])

    def test_a_process_in_a_removed_directory_is_not_in_the_one_made_at_its_path(self):
        here = 'AT_FDCWD</d/o (deleted)>'
        for removal, wanted in (
            (['rmdir("../o")'], ['rmdir /o']),
            (['unlinkat(3</d/o>, "../o", AT_REMOVEDIR)'], ['rmdir /o']),
            (
                ['rename("/d/e", "/d/o")', 'rename("../o", "../e")'],
                ['rename /e /o', 'rename /o /e'],
            ),
        ):
            for change in (
                'chmod(".", 0700) = 0',
                f'fchmodat({here}, ".", 0700) = 0',
                'fchmodat(3</d/o>(deleted), ".", 0700) = 0',
                f'openat({here}, ".", O_RDONLY|O_DIRECTORY) = 4</d/o>(deleted)',
                'openat(3</d/o>(deleted), ".", O_RDONLY|O_DIRECTORY) = 4</d/o>(deleted)',
                'chmod(".", 0700 <unfinished ...>) = ?',
            ):
                log = [
                    'openat(AT_FDCWD</d>, "o", O_RDONLY|O_DIRECTORY) = 3</d/o>',
                    'fchdir(3</d/o>) = 0',
                    *(f'{call} = 0' for call in removal),
                    'mkdir("/d/o", 0755) = 0',
                    change,
                    'fchdir(3</d/o>(deleted)) = 0',
                    change,
                    'mkdir("../x", 0755) = 0',
                    f'renameat({here}, "../x", 3</d/o>(deleted), "../y") = 0',
                    'chdir("..") = 0',
                    'chmod("o", 0711) = 0',
                ]
                start = [Start(path, 'u', 'u', 0o755, None) for path in ('/e', '/o')]
                with self.subTest(removal, change=change):
                    end = ['mkdir /o', 'mkdir /x', 'rename /x /y', 'chmod /o 711']
                    self.assertEqual(
                        self.assert_operations([f'1 {line}' for line in log], wanted + end, start),
                        [],
                    )

    def test_a_process_below_removed_directories_is_in_none_made_at_their_paths(self):
        start = [Start('/o', 'u', 'u', 0o755, None), Start('/o/p', 'u', 'u', 0o755, None)]
        log = [
            '1 chdir("o/p") = 0',
            '1 clone(child_stack=NULL, flags=SIGCHLD) = 2',
            '1 rmdir("../p") = 0',
            '1 rmdir("../../o") = 0',
            '1 mkdir("/d/o", 0755) = 0',
            '1 mkdir("/d/o/p", 0755) = 0',
            '2 chmod("..", 0700) = 0',
            '2 chmod(".", 0700) = 0',
            '2 mkdir("../../x", 0755) = 0',
        ]
        wanted = ['rmdir /o/p', 'rmdir /o', 'mkdir /o', 'mkdir /o/p', 'mkdir /x']
        self.assertEqual(self.assert_operations(log, wanted, start), [])


if __name__ == '__main__':
    unittest.main()
