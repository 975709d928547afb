"""Which lines count as acknowledged, by whatever way they come."""

import unittest
from typing import List, Sequence

from crashfs_tools.common.trace import Say, Start
from crashfs_tools.recorder.options import read_options
from crashfs_tools.recorder.output_streams import AcknowledgingDescriptors, OutputStreams, SayEach
from crashfs_tools.recorder.strace_run import strace_command
from crashfs_tools.recorder.recording import Recording

from .support import recording_of, short

FILE = [Start('/f', 'u', 'u', 0o644, b'one\ntwo\n')]
OPEN_F = '1 openat(AT_FDCWD</d>, "f", O_RDONLY) = 3</d/f>'


def output_of(log: List[str], acknowledged: Sequence[str] = ('1',)) -> Recording:
    """What a log becomes whose standard output is pipe 7."""
    return recording_of(log, FILE, acknowledged=acknowledged, output='pipe:[7]')


def lines_of(log: List[str], acknowledged: Sequence[str] = ('1',)) -> List[str]:
    operations = output_of(log, acknowledged).trace.operations
    return [one.text for one in operations if isinstance(one, Say)]


class Lines(unittest.TestCase):
    def test_every_way_to_the_pipe_is_standard_output(self):
        for log in [
            [
                '1 openat(AT_FDCWD</d>, "/dev/stdout", O_WRONLY) = 3<pipe:[7]>',
                '1 write(3<pipe:[7]>, "one\ntwo\n", 8) = 8',
            ],
            [
                '1 openat(AT_FDCWD</d>, "/proc/self/fd/1", O_WRONLY) = 3<pipe:[7]>',
                '1 writev(3<pipe:[7]>, [{iov_base="one\ntwo\n", iov_len=8}], 1) = 8',
            ],
            [
                '1 dup(1<pipe:[7]>) = 5<pipe:[7]>',
                '1 close(1<pipe:[7]>) = 0',
                '1 write(5<pipe:[7]>, "one\ntwo\n", 8) = 8',
            ],
            [OPEN_F, '1 sendfile(1<pipe:[7]>, 3</d/f>, NULL, 99) = 8'],
            [OPEN_F, '1 splice(3</d/f>, NULL, 1<pipe:[7]>, NULL, 99, 0) = 8'],
            ['1 vmsplice(1<pipe:[7]>, [{iov_base="one\ntwo\n", iov_len=8}], 1, SPLICE_F_GIFT) = 8'],
            ['2 write(9<pipe:[7]>, "one\ntwo\n", 8) = 8'],
        ]:
            with self.subTest(log[-1]):
                self.assertEqual(lines_of(log), ['one', 'two'])

    def test_a_write_of_no_bytes_acknowledges_nothing(self):
        nothing, said = '1 write(1<pipe:[7]>, "", 0) = 0', '1 write(1<pipe:[7]>, "one\n", 4) = 4'
        self.assertEqual(lines_of([nothing, said, nothing]), ['one'])
        change, rest = '1 mkdir("a", 0777) = 0', '1 write(1<pipe:[7]>, "\n", 1) = 1'
        part = '1 write(1<pipe:[7]>, "one", 3) = 3'
        recording = output_of([nothing, change, part, nothing, change.replace('a', 'b'), rest])
        self.assertEqual(recording.streams.inherited_streams[1].most_gaps, 1)

    def test_only_changes_between_the_parts_of_a_line_are_gaps(self):
        change, part = '1 mkdir("a", 0777) = 0', '1 write(1<pipe:[7]>, "on", 2) = 2'
        recording = output_of([change, part, part, '1 write(1<pipe:[7]>, "\n", 1) = 1'])
        self.assertEqual(recording.streams.inherited_streams[1].most_gaps, 0)
        line = [part, change, '1 write(1<pipe:[7]>, "e\n", 2) = 2']
        recording = output_of([*line, *(call.replace('a', 'b') for call in line)])
        self.assertEqual(recording.streams.inherited_streams[1].most_gaps, 1)

    def test_a_write_that_is_an_acknowledgement_is_noted_only_if_it_is_changed(self):
        recording = output_of([f'1 write(1<pipe:[7]>, "{"o" * 1025}\n", 1026) = 1026'])
        self.assertEqual([one.is_note for one in recording.troubles.values()], [False])
        accepted = '1 accept4(3<socket:[1]>, NULL, NULL, 0) = 4<socket:[8]>'
        for text, wanted in (('on', 0), ('o' * 1025, 1)):
            sent = f'1 sendto(4<socket:[8]>, "{text}", {len(text)}, 0, NULL, 0) = {len(text)}'
            recording = output_of([accepted, sent], ['socket'])
            self.assertEqual([one.text for one in recording.trace.operations], [text[:1024]])
            self.assertEqual(len(recording.troubles), wanted)

    def test_what_is_sent_and_not_in_the_log_is_reported_if_it_acknowledges_something(self):
        for stream, wanted in (('2<socket:[9]>', []), ('6<socket:[9]>', ['descriptor 6'])):
            log = [f'1 sendto({stream}, "no"..., 4, 0, NULL, 0) = 4']
            troubles = output_of(log, ['6']).troubles.values()
            self.assertEqual([one.where for one in troubles], wanted)

    def test_the_standard_descriptors_and_sockets_are_not_nonstandard(self):
        descriptors = AcknowledgingDescriptors((0, 1, 21, 2, 3), has_connections=True)
        self.assertEqual(descriptors.nonstandard_numbers, [21, 3])

    def test_values_of_say_fd_are_numbers_and_connections(self):
        for words, wanted in (
            ('', ((1,), False)),
            ('--say-fd socket', ((), True)),
            ('--say-fd 03 --say-fd socket --say-fd 1', ((3, 1), True)),
        ):
            options = read_options([*words.split(), 'd', 'out.trace', '--', 'true'])
            self.assertEqual(options.acknowledging_descriptors, wanted)

    def test_say_each_counts_for_descriptors_and_for_connections(self):
        connections = AcknowledgingDescriptors((), has_connections=True)
        for say_each, of_descriptor, of_connection in (
            (None, SayEach.LINE, SayEach.WRITE),
            (SayEach.LINE, SayEach.LINE, SayEach.LINE),
            (SayEach.WRITE, SayEach.WRITE, SayEach.WRITE),
        ):
            streams = OutputStreams(connections, say_each)
            self.assertIs(streams.new_stream(1).say_each, of_descriptor)
            streams.add_connection('socket:[8]')
            self.assertIs(streams.streams_by_text['socket:[8]'].say_each, of_connection)

    def test_calls_on_sockets_are_traced_if_one_may_acknowledge(self):
        for words, are_traced in (
            ('', False),
            ('--say-fd 2', False),
            ('--say-fd 3', True),
            ('--say-fd socket', True),
        ):
            options = read_options([*words.split(), 'd', 'out.trace', '--', 'true'])
            command = strace_command('strace', 'log', options)
            self.assertEqual('?sendto' in ','.join(command).split(','), are_traced, words)

    def test_a_file_at_a_descriptor_of_say_fd_stays_a_file(self):
        log = [
            '1 openat(AT_FDCWD</d>, "f", O_RDWR) = 6</d/f>',
            '1 dup(6</d/f>) = 7</d/f>',
            '1 write(7</d/f>, "J", 1) = 1',
        ]
        recording = output_of(log, ['6'])
        self.assertEqual([short(one) for one in recording.trace.operations], ['write /f 0 J'])

    def test_a_last_line_without_a_line_feed_is_held_if_files_change_after_it(self):
        change, part = '1 mkdir("a", 0777) = 0', '1 write(1<pipe:[7]>, "on", 2) = 2'
        for log, wanted in (([part, change], True), ([change, part], False)):
            recording = output_of(log)
            self.assertEqual(recording.streams.inherited_streams[1].is_held, wanted)

    def test_a_stream_that_exec_closes_is_none_any_more(self):
        log = [
            '1 write(1<pipe:[7]>, "one\n", 4) = 4',
            '1 openat(AT_FDCWD</d>, "/proc/self/fd/1", O_WRONLY%s) = 5<pipe:[7]>',
            '1 execve("/bin/x", ["x"], 0x7ffc /* 3 vars */) = 0',
            '1 write(5</etc/x>, "two\n", 4) = 4',
        ]
        for flag, wanted in (('|O_CLOEXEC', ['one']), ('', ['one', 'two'])):
            lines = [line.replace('%s', flag) for line in log]
            self.assertEqual(lines_of(lines), wanted)

    def test_the_pipe_of_a_log_from_elsewhere_is_known_by_its_first_use(self):
        log = [
            '1 write(1<pipe:[9]>, "one\n", 4) = 4',
            '1 openat(AT_FDCWD</d>, "/dev/stdout", O_WRONLY) = 3<pipe:[9]>',
            '1 write(3<pipe:[9]>, "two\n", 4) = 4',
            '1 write(4<pipe:[8]>, "three\n", 6) = 6',
        ]
        self.assertEqual(lines_of(log), ['one', 'two'])

    def test_standard_error_is_counted_and_not_acknowledged(self):
        recording = output_of(['1 write(2</dev/tty>, "one\ntw", 6) = 6'])
        self.assertEqual(recording.trace.operations, [])
        self.assertEqual(recording.streams.inherited_streams[2].text_count, 2)
        self.assertEqual(
            lines_of(
                ['1 write(2</dev/tty>, "one\n", 4) = 4', '1 write(1<pipe:[7]>, "no\n", 3) = 3'],
                ['2'],
            ),
            ['one'],
        )

    def test_a_duplicate_of_standard_error_acknowledges_something_only_if_it_is_named(self):
        log = ['1 dup(2</dev/tty>) = 5</dev/tty>', '1 write(5</dev/tty>, "one\n", 4) = 4']
        self.assertEqual((lines_of(log), lines_of(log, ['5'])), ([], ['one']))

    def test_two_descriptors_of_a_device_are_two_streams_and_of_a_pipe_one(self):
        for shown, wanted in (('/dev/pts/0', ['two', 'one']), ('pipe:[8]', ['ontwo', 'e'])):
            calls = ['close(5)', 'close(6)']
            texts = ((5, 'on'), (6, 'two\n'), (5, 'e\n'))
            calls += [f'write({number}<{shown}>, "{text}", 9)' for number, text in texts]
            sizes = (0, 0, *(len(text) for _, text in texts))
            log = [f'1 {call} = {size}' for call, size in zip(calls, sizes)]
            self.assertEqual(lines_of(log, ['5', '6']), wanted)

    def test_lines_of_another_descriptor(self):
        log = [
            '1 write(6<pipe:[8]>, "one\r\n", 5) = 5',
            '1 sendto(6<socket:[9]>, "two\n", 4, 0, NULL, 0) = 4',
            '1 write(1<pipe:[7]>, "no\n", 3) = 3',
        ]
        self.assertEqual(lines_of(log, ['6']), ['one', 'two'])
        self.assertEqual(lines_of(log, ['1', '6']), ['one', 'two', 'no'])

    def test_lines_of_each_connection_that_is_accepted(self):
        log = [
            '1 accept4(3<socket:[1]>, NULL, NULL, SOCK_CLOEXEC) = 4<socket:[8]>',
            '1 accept(3<socket:[1]>, NULL, NULL) = 5<socket:[9]>',
            '1 sendto(4<socket:[8]>, "on", 2, 0, NULL, 0) = 2',
            '1 sendmsg(5<socket:[9]>, {msg_iov=[{iov_base="two\n", iov_len=4}]}, 0) = 4',
            '1 write(4<socket:[8]>, "e\n", 2) = 2',
            '1 sendmmsg(5<socket:[9]>, [{msg_hdr={msg_iov=[{iov_base="three\nno", iov_len=8}]}, '
            'msg_len=6}], 1, 0) = 1',
            '1 write(6<socket:[2]>, "no\n", 3) = 3',
        ]
        self.assertEqual(lines_of(log, ['socket']), ['two', 'one', 'three'])
        self.assertEqual(lines_of(log), [])


if __name__ == '__main__':
    unittest.main()
