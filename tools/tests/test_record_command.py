"""crashfs-record as its users run it, with strace."""

import json
import os
import shutil
import sys
import threading
import unittest

from .support import FAKE, PATIENCE, TOOLS, InFolder, needs_strace, needs_version_3


class InRecordings(InFolder):
    def setUp(self):
        super().setUp()
        os.umask(0o022)
        os.mkdir(self.path('d'))
        with open(self.path('d', 'old'), 'w', encoding='utf-8') as file:
            file.write('1\n')

    def record(self, script, *options):
        """A script that mostly prints nothing."""
        return self.record_aloud(script, '--no-say', *options)

    def record_aloud(self, script, *options):
        return self.run_tool('crashfs-record', *options, 'd', 'out.trace', '--', 'sh', '-c', script)

    def start_recording(self, script):
        """A recording that runs beside the test."""
        return self.start('crashfs-record', '--no-say', 'd', 'out.trace', '--', 'sh', '-c', script)

    def operations(self):
        lines = self.read('out.trace').splitlines()
        return [line for line in lines if line.startswith('{"op"')]

    def pid_of(self, name, child):
        self.wait_until(
            lambda: os.path.exists(self.path(name)) and self.read(name).strip() != '',
            'COMMAND has started',
            child,
        )
        return int(self.read(name))

    def make_other(self):
        """A file that is whole as soon as it is there: COMMAND may remove it at once."""
        other = self.write('other', 'made by the test, which strace does not follow')
        os.rename(other, self.path('d', 'other'))

    def assert_gone(self, pid):
        self.wait_until(lambda: not os.path.exists(f'/proc/{pid}'), 'COMMAND has ended')


@needs_strace
class Records(InRecordings):
    def test_a_session_of_a_shell_is_whole(self):
        ran = self.record('echo 2 > new; echo stored; mv new old; mkdir s; sync; echo 3 >> old')
        self.assertEqual((ran.returncode, ran.stdout), (0, 'stored\n'), ran.stderr)
        self.assertIn('its last state equals the directory', ran.stderr)
        names = [line.split('"')[3] for line in self.operations()]
        self.assertEqual(names, ['creat', 'write', 'say', 'rename', 'mkdir', 'sync', 'write'])
        self.assert_nothing_left()

    @needs_version_3
    def test_random_sessions_end_as_their_directories(self):
        program = str(TOOLS / 'tests' / 'random_session.py')
        for seed in (1, 2, 3):
            with self.subTest(seed):
                shutil.rmtree(self.path('d'))
                os.makedirs(self.path('d', 's'))
                self.write('d/a', 'old')
                ran = self.run_tool(
                    'crashfs-record', 'd', 'out.trace', '--', sys.executable, program, str(seed)
                )
                self.assertEqual(ran.returncode, 0, ran.stderr)
                self.assertGreater(len(self.operations()), 40)

    def test_names_of_every_kind_go_through(self):
        ran = self.record(
            """printf x > "$(printf 'a\nstate 9 b')"; echo x > 'q"\\ '; rm 'q"\\ '""",
            '--crashfs',
            FAKE,
        )
        self.assertIn('(by crashfs tar)', ran.stderr)
        self.assertEqual(ran.returncode, 0, ran.stderr)
        self.assertIn('{"op":"creat","path":"/a\\nstate 9 b",', self.read('out.trace'))
        self.assertIn('{"op":"unlink","path":"/q\\"\\\\ "}', self.operations())

    def test_the_program_computes_the_last_state_where_it_can(self):
        ran = self.record('echo 2 > new; rm old', '--crashfs', FAKE)
        self.assertIn('(by crashfs tar)', ran.stderr)
        self.assertEqual(ran.returncode, 0, ran.stderr)

    def test_where_no_loss_could_be_seen_it_is_reported(self):
        for script, told in [
            ('echo 2 > new', 'no line was acknowledged: no loss can be seen; --no-say'),
            (
                'echo 2 > new; echo no >&2',
                'no line was acknowledged, and 1 line on standard error: no loss can be seen '
                '(--say-fd 2 takes these)',
            ),
            ('printf "1\n2\n"; echo 2 > new', 'all 2 acknowledged lines came in one write'),
        ]:
            with self.subTest(script):
                ran = self.record_aloud(script)
                self.assertEqual(ran.returncode, 3)
                self.assertIn('crashfs-record: ' + told, ran.stderr)
                self.assertEqual(self.record(script).returncode, 0)
        ran = self.record_aloud('echo 2 > new; echo no >&2', '--say-fd', '2')
        self.assertEqual(ran.returncode, 0, ran.stderr)
        self.assertIn('1 acknowledged line (standard error)', ran.stderr)

    @needs_version_3
    def test_the_last_line_counts_what_there_is(self):
        ran = self.record_aloud('echo 2 > new; echo one; rm old; echo two')
        self.assertIn(
            '1 start line, 5 operations, 6 micro-operations, '
            '2 acknowledged lines (standard output); its last state equals the '
            'directory',
            ran.stderr,
        )

    def test_what_is_only_noted_has_status_4(self):
        ran = self.record('mkdir s; chmod 2755 s')
        self.assertEqual(ran.returncode, 4, ran.stderr)
        self.assertIn('/s: it gets the mode bits 2000, beyond 777', ran.stderr)
        self.assertEqual(self.record('echo 2 > s/new').returncode, 4)
        self.assertEqual(self.record('mkfifo pipe').returncode, 3)

    @needs_version_3
    def test_a_trace_begins_after_a_line(self):
        script = 'echo 2 > old; ln old new; echo up; echo 3 > s; echo one; rm s; echo two'
        for line in ('up', 'u*', '1'):
            ran = self.record_aloud('rm -f new s; ' + script, '--begin-after', line)
            self.assertEqual(ran.returncode, 0, ran.stderr)
            self.assertIn('what was not yet synced then counts as durable', ran.stderr)
            self.assertIn('"text":"2\\n"}', self.read('out.trace').splitlines()[1])
            self.assertEqual(
                self.read('out.trace').splitlines()[2],
                '{"start":"link","path":"/old","from":"/new"}',
            )
            names = [one.split('"')[3] for one in self.operations()]
            self.assertEqual(names, ['creat', 'write', 'say', 'unlink', 'say'])
        ran = self.record_aloud('rm -f new s; ' + script, '--begin-after', 'down')
        self.assertEqual(ran.returncode, 3)
        self.assertIn('no acknowledged line is down', ran.stderr)

    def test_the_trace_may_be_standard_output_or_what_is_no_plain_file(self):
        self.write('-', 'no trace')
        ran = self.run_tool(
            'crashfs-record', '--no-say', 'd', '-', '--', 'sh', '-c', 'echo 2 > new'
        )
        self.assertEqual(ran.returncode, 0, ran.stderr)
        self.assertEqual(len(ran.stdout.splitlines()), 4)
        self.assertIn(' 3 micro-operations, 0 acknowledged lines; ', ran.stderr)
        os.mkfifo(self.path('pipe'))
        reader = threading.Thread(target=lambda: seen.append(self.read('pipe')))
        seen = []
        reader.start()
        ran = self.run_tool('crashfs-record', '--no-say', 'd', 'pipe', '--', 'sh', '-c', 'rm new')
        reader.join()
        self.assertIn('{"op":"unlink","path":"/new"}', seen[0])

    def test_a_link_to_the_trace_stays_a_link(self):
        os.symlink('real.trace', self.path('out.trace'))
        self.assertEqual(self.record('echo 2 > new').returncode, 0)
        self.assertTrue(os.path.islink(self.path('out.trace')))
        self.assertEqual(len(self.read('real.trace').splitlines()), 4)

    def test_what_no_trace_says_is_reported_and_the_rest_is_written(self):
        ran = self.record('mkfifo pipe; chmod 600 old; echo 2 > new; exit 4')
        self.assertEqual(ran.returncode, 3)
        for told in ['/pipe: a device or a named pipe was made', 'COMMAND ended with status 4']:
            self.assertIn(told, ran.stderr)
        self.assertEqual(len(self.operations()), 3)

    @needs_version_3
    def test_modes_profiles_and_blocks(self):
        ran = self.record('umask 077; echo 2 > new; chmod 640 new; chmod 700 .; mv new old')
        self.assertEqual(ran.returncode, 0, ran.stderr)
        start = '{"trace":3,"profile":"blocks","block":4096,'
        self.assertTrue(self.read('out.trace').startswith(start))
        self.assertIn('{"op":"chmod","path":"/new","mode":"640"}', self.operations())
        self.assertIn('{"op":"chmod","path":"/","mode":"700"}', self.operations())
        ran = self.record('echo 3 > old', '--profile', 'ordered', '--block', '512')
        start = '{"trace":3,"profile":"ordered","block":512,'
        self.assertTrue(self.read('out.trace').startswith(start), ran.stderr)

    def test_a_start_tree_leaves_out_what_no_trace_says(self):
        os.mkfifo(self.path('d', 'pipe'))
        ran = self.record('echo 2 >> old')
        self.assertEqual(ran.returncode, 3)
        self.assertIn('/pipe: the start tree leaves out a named pipe', ran.stderr)
        self.assertEqual(len(self.operations()), 1)

    def test_ignored_files_are_nowhere(self):
        ran = self.record(
            'mkdir -p s/log; echo 2 > s/log/a; echo 3 > b',
            '--ignore',
            'lo*/',
            '--ignore',
            's/',
            '--ignore',
            '!/b',
        )
        self.assertEqual((ran.returncode, len(self.operations())), (0, 2), ran.stderr)

    def test_a_list_of_what_is_recorded_keeps_the_syncs_of_the_directory(self):
        script = 'echo 1 > data; echo 2 > other; sync data .'
        ran = self.record(script, '--ignore', '*', '--ignore', '!data')
        self.assertEqual(ran.returncode, 0, ran.stderr)
        lines = map(json.loads, self.operations())
        found = [(line['op'], line['path']) for line in lines if line['op'] != 'say']
        synced = [path for operation, path in found if operation.startswith('fsync')]
        self.assertEqual(synced, ['/data', '/'])
        self.assertEqual({path for _, path in found}, {'/data', '/'})

    def test_a_difference_at_the_end_is_reported(self):
        child = self.start_recording('echo $$ > ../pid; until test -e other; do sleep 0.05; done')
        self.pid_of('pid', child)
        self.make_other()
        _, err = child.communicate(timeout=PATIENCE)
        self.assertEqual(child.returncode, 3)
        self.assertIn('/other: it is there at the end, and the trace has it not', err)

    def test_what_a_scan_sees_and_no_trace_says_is_reported(self):
        self.write('d/one', '1')
        self.write('d/two', '1')
        child = self.start_recording(
            'echo $$ > ../pid; until test -e other; do sleep 0.05; done; rm other'
        )
        self.pid_of('pid', child)
        os.unlink(self.path('d', 'two'))
        os.link(self.path('d', 'one'), self.path('d', 'two'))
        os.mkfifo(self.path('d', 'pipe'))
        os.setxattr(self.path('d', 'old'), 'user.a', b'1')
        self.make_other()
        _, err = child.communicate(timeout=PATIENCE)
        self.assertEqual(child.returncode, 3)
        for told in [
            '/two: it is a link to /one at the end, and not so in the trace',
            '/pipe: at the end it is a named pipe, which no trace has',
            '/old: its extended attributes differ, which no trace has',
        ]:
            self.assertIn(told, err)

    def test_a_program_that_refuses_the_trace_compares_nothing(self):
        self.write('tmp/crashfs', '#!/bin/sh\necho "trace line 1: Syntax" >&2; exit 1\n', 0o755)
        ran = self.record('echo 2 > new', '--crashfs', self.path('tmp', 'crashfs'))
        self.assertEqual(ran.returncode, 0, ran.stderr)
        self.assertIn("its last state equals the directory (by the recorder's replay)", ran.stderr)

    def test_a_log_is_converted_as_it_was_recorded(self):
        before = self.read('d/old')
        ran = self.record('echo 2 > new; mv new old', '--keep-log', self.path('log'))
        self.assertEqual(ran.returncode, 0, ran.stderr)
        recorded = self.read('out.trace')
        os.mkdir(self.path('copy'))
        self.write('copy/old', before)
        ran = self.run_tool(
            'crashfs-record',
            '--no-say',
            '--from-log',
            'log',
            '--log-dir',
            self.path('d'),
            'copy',
            'second.trace',
        )
        self.assertEqual(ran.returncode, 0, ran.stderr)
        self.assertEqual(self.read('second.trace'), recorded)

    def test_a_log_of_another_directory_is_refused(self):
        ran = self.record('echo 2 > $PWD/new; echo told', '--keep-log', self.path('log'))
        self.assertEqual(ran.returncode, 0, ran.stderr)
        os.mkdir(self.path('copy'))
        ran = self.run_tool('crashfs-record', '--from-log', 'log', 'copy', 'second.trace')
        self.assertEqual(ran.returncode, 1)
        self.assertRegex(ran.stderr, 'log changes nothing below .*/copy: --log-dir is the path')
        self.assertFalse(os.path.exists(self.path('second.trace')))

    def test_an_argument_that_is_not_in_the_directory_is_named(self):
        self.write('save.py', 'raise SystemExit(1)')
        self.write('d/here.py', 'raise SystemExit(1)')
        ran = self.run_tool(
            'crashfs-record', '--no-say', 'd', 'out.trace', '--', sys.executable, 'save.py'
        )
        self.assertEqual(ran.returncode, 3)
        self.assertIn(
            f'save.py is a relative path, but COMMAND runs in {self.path("d")}: use '
            f'{self.path("save.py")}\n',
            ran.stderr,
        )
        self.assertIn('its last state equals the directory (by', ran.stderr)
        ran = self.run_tool(
            'crashfs-record', '--no-say', 'd', 'out.trace', '--', sys.executable, 'here.py'
        )
        self.assertNotIn('a relative path', ran.stderr)

    def test_a_command_that_cannot_be_started_is_reported(self):
        odd = self.write('odd', 'true\n', 0o755)
        ran = self.run_tool('crashfs-record', 'd', 'out.trace', '--', odd)
        self.assertEqual(ran.returncode, 1)
        self.assertIn(f'crashfs-record: {odd} could not be started', ran.stderr)
        self.assertFalse(os.path.exists(self.path('out.trace')))

    def test_a_log_of_other_options_is_reported(self):
        os.system(f'cd {self.path("d")} && strace -f -y -o ../log sh -c "echo 2 > new"')
        ran = self.run_tool('crashfs-record', '--from-log', 'log', 'd', 'out.trace')
        self.assertEqual((ran.returncode, ran.stdout), (1, ''))
        self.assertRegex(
            ran.stderr,
            '^crashfs-record: the log is not as strace -f -y -xx writes '
            'it(, in line [0-9]+)?\n$',
        )

    def test_a_standard_output_that_takes_nothing_is_reported(self):
        ran = self.run_tool(
            'crashfs-record', 'd', 'out.trace', '--', 'echo', 'stored', output='/dev/full'
        )
        self.assertEqual(ran.returncode, 1)
        self.assertEqual(
            ran.stderr,
            'crashfs-record: standard output: No space left on device; ' 'no trace is written\n',
        )

    def test_what_has_no_room_is_not_there(self):
        words = ['d', 'out.trace', '--', 'sh', '-c', 'for i in 1 2 3 4 5; do echo $i > f$i; done']
        ran = self.run_tool('crashfs-record', *words, file_bytes=300)
        self.assertEqual(ran.returncode, 1)
        reason = 'out.trace: File too large; no trace is written'
        self.assertEqual(ran.stderr, f'crashfs-record: {reason}\n')
        self.assertEqual(sorted(os.listdir(self.folder)), ['d', 'tmp'])
        self.assert_nothing_left()
        ran = self.run_tool('crashfs-record', '--keep-log', 'log', *words, file_bytes=3000)
        self.assertEqual(ran.returncode, 3, ran.stderr)
        self.assertIn('not in the trace: log: its log is cut: File too large\n', ran.stderr)
        self.assertIn('its last state equals the directory', ran.stderr)
        self.assertEqual(len(self.operations()), 10)


if __name__ == '__main__':
    unittest.main()
