"""strace's log as it is read, and what is kept of it."""

import os
import sys
import tempfile
import threading
import time
import unittest
from unittest import mock

from crashfs_tools.common.trace import Header
from crashfs_tools.recorder import arguments
from crashfs_tools.recorder.arguments import LogError
from crashfs_tools.recorder.directory import Scan
from crashfs_tools.recorder.log_filter import LogFilter
from crashfs_tools.recorder.log_stream import FEW_BYTES, GATHER_SECONDS, PipeLines
from crashfs_tools.recorder.live_files import StartConditions
from crashfs_tools.recorder.start_tree import files_at_start
from crashfs_tools.recorder.recording import Recording, TraceSettings
from crashfs_tools.recorder.strace_log import SUPERSEDE, read_log
from crashfs_tools.recorder.translate import Translator

from .support import PATIENCE, as_strace, numbers

LARGE = 'ab' * 40_000


def new_files():
    header = Header('u', 'u', 0o755)
    recording = Recording(header, TraceSettings())
    return files_at_start(
        recording, StartConditions('/d', 0o022, 'u', 'u'), Scan(header), lambda path: False
    )


def written(word, name='pwrite64'):
    """The second word of a call that writes, as it is kept."""
    return read_log([f'7 {name}(3</d/f>, {word}, 5, 0) = 5\n']).calls[0].argument(1)


def write_slowly(descriptor, count):
    """Writes lines to a pipe, each by a call of its own, and closes it."""
    for number in range(count):
        os.write(descriptor, b'%d\n' % number)
        time.sleep(0.0002)
    os.close(descriptor)


class Words(unittest.TestCase):
    def test_arguments_end_at_commas_outside_of_texts_and_brackets(self):
        for text, words in (
            (
                '3</d>, "a,b)", [{x="(", y=1}, 2], A|B',
                ['3</d>', '"a,b)"', '[{x="(", y=1}, 2]', 'A|B'],
            ),
            ('"a"..., 9', ['"a"...', '9']),
            ('"a, 9', ['"a, 9']),
            ('', ['']),
        ):
            self.assertEqual(arguments.split_arguments(text), words)

    def test_only_texts_by_numbers_are_read(self):
        self.assertEqual(arguments.parse_escapes('\\x61\\x00\\xff'), b'a\0\xff')
        self.assertEqual(arguments.parse_escapes(''), b'')
        for text in ('\\x6', '\\x61\\x', '61', 'abcd', '/x61', '\\y61', '\\x6g', '\\x6é'):
            with self.assertRaises(LogError, msg=text):
                arguments.parse_escapes(text)

    def test_what_is_written_is_kept_in_the_room_that_it_needs(self):
        piece = numbers(LARGE)
        for name in ('write', 'pwrite64'):
            word = written(f'"{piece}"', name)
            self.assertEqual(arguments.parse_bytes(word), LARGE.encode())
            self.assertLess(sys.getsizeof(word), len(LARGE) + 200)
        vector = written(
            f'[{{iov_base="{piece}", iov_len=80000}}, {{iov_base="{numbers("z")}"}}]', 'writev'
        )
        self.assertEqual(arguments.parse_vector(vector), LARGE.encode() + b'z')
        self.assertLess(sys.getsizeof(vector), len(LARGE) + 200)

    def test_what_has_no_bytes_in_the_log_stays_as_it_is(self):
        for word in ('0x7ffd', '"\\x61"...', '[{iov_base="\\x61"..., iov_len=9}]', '"\\x6"'):
            self.assertEqual(written(word), word)
        self.assertEqual(arguments.parse_bytes(written('""')), b'')

    def test_a_text_that_is_not_by_numbers_is_reported(self):
        log = read_log(['7 write(1<pipe:[7]>, "abc", 3) = 3\n'])
        with self.assertRaises(LogError):
            Translator(new_files(), log).translate_log()

    def test_the_trace_has_what_the_log_had(self):
        file = f'3<{numbers("/d/f")}>'
        log = read_log(
            [
                f'7 openat(AT_FDCWD<{numbers("/d")}>, "{numbers("f")}", O_RDWR|O_CREAT, '
                f'0666) = {file}\n',
                f'7 pwrite64({file}, "{numbers(LARGE)}", 80000, 0) = 80000\n',
            ]
        )
        files = new_files()
        Translator(files, log).translate_log()
        self.assertEqual(files.recording.trace.operations[1].data, LARGE.encode())
        self.assertEqual([len(call.arguments) for call in log.calls], [4, 0])


class Needless(unittest.TestCase):
    """Calls on files elsewhere, which aren't read."""

    def read(self, lines, numbers=(), top=b'/d'):
        """The names of the calls that are read."""
        log = read_log(map(as_strace, lines), LogFilter(top, numbers))
        return [call.name for call in log.calls]

    def test_calls_on_files_elsewhere_are_not_read(self):
        elsewhere = [
            '7 read(0x5, 0x7ffc, 0x2) = 0x2',
            '7 lseek(5</etc/x>, 0, SEEK_SET) = 0',
            '7 write(5</etc/x>, "a", 1) = 1',
            '7 write(5</etc/x>, "/d/f", 4) = 4',
            '7 pwrite64(5</etc/x>, "a", 1 <unfinished ...>',
            '7 <... pwrite64 resumed>, 0) = 1',
            '7 fsync(5</etc/x>) = 0',
            '7 close(5</etc/x>) = 0',
            '7 mmap(NULL, 9, PROT_READ, MAP_PRIVATE, 5</etc/x>, 0) = 0x7f00',
            '7 mprotect(0x7f00, 4096, PROT_READ) = 0',
        ]
        self.assertEqual(self.read(elsewhere), [])
        here = ['7 openat(AT_FDCWD</d>, "f", O_RDWR) = 5</d/f>']
        self.assertEqual(self.read(here + elsewhere[:1]), ['openat', 'read'])
        mapped = ['7 mmap(NULL, 9, PROT_READ, MAP_SHARED, 4</d/f>, 0) = 0x7f00']
        self.assertEqual(self.read(mapped + elsewhere[-1:]), ['mmap', 'mprotect'])

    def test_a_write_by_a_descriptor_without_a_path_may_have_the_directory_s_path(self):
        self.assertEqual(self.read(['7 write(9, "/d/f", 4) = 4']), [])
        self.assertEqual(self.read(['7 write(9</x>, "a", 1) = 1'], top=b'/'), ['write'])

    def test_standard_streams_and_what_is_no_descriptor_are_read(self):
        self.assertEqual(self.read(['7 read(0x0, 0x7ffc, 0x2) = 0x2']), ['read'])
        self.assertEqual(self.read(['7 close(-1) = -1 EBADF (Bad file descriptor)']), ['close'])

    def test_a_number_may_have_zeros_before_it(self):
        self.assertEqual(self.read(['7 fcntl(09, F_DUPFD, 9) = 9', '7 close(08) = 0']), [])
        self.assertEqual(self.read(['7 dup(02) = 9', '7 close(09) = 0']), ['dup', 'close'])

    def test_a_file_that_is_made_elsewhere_is_not_read(self):
        for made in (
            '7 openat(AT_FDCWD</dev/shm/x>, "f", O_RDWR) = 5</dev/shm/x/f>',
            '7 open("/dev/null", O_RDWR) = 5</dev/null>',
            '7 openat(AT_FDCWD</store>, "../x", O_RDWR) = 5</x>',
        ):
            lines = [made, '7 read(0x5, 0x7ffc, 0x2) = 0x2']
            self.assertEqual(self.read(lines, top=b'/store'), [lines[0][2:].partition('(')[0]])

    def test_descriptors_that_may_count_are_read(self):
        read = '7 read(0x9, 0x7ffc, 0x2) = 0x2'
        for line in [
            '7 dup2(1<pipe:[7]>, 9) = 9<pipe:[7]>',
            '7 fcntl(2</etc/x>, F_DUPFD, 9) = 9</etc/x>',
            '7 openat(AT_FDCWD</>, "/proc/self/fd/1", O_WRONLY) = 9</etc/x>',
            '7 open("/dev/stdout", O_WRONLY) = 9</etc/x>',
            '7 openat(AT_FDCWD</>, "/dev/fd/1", O_WRONLY) = 9</etc/x>',
            '7 dup(5</d/f>) = 9',
        ]:
            self.assertEqual(len(self.read([line, read])), 2, line)
        self.assertEqual(self.read([read], [9]), ['read'])
        self.assertEqual(self.read(['7 write(9<pipe:[3]>, "a", 1) = 1']), ['write'])
        self.assertEqual(self.read(['7 write(9</d/f>, "a", 1) = 1']), ['write'])
        self.assertEqual(self.read(['7 ioctl(9</x>, FICLONE, 8</d/f>) = 0']), ['ioctl'])
        self.assertEqual(self.read(['7 dup2(5</etc/x>, 9) = 9</etc/x>', read]), ['dup2'])

    def test_the_frames_of_a_call_that_is_not_read_are_not_another_s(self):
        frames = [' > /opt/store(put+0x24) [0x119d]']
        lines = ['7 openat(AT_FDCWD</d>, "f", O_RDWR) = 5</d/f>', '7 fsync(6</etc/x>) = 0']
        (call,) = read_log(map(as_strace, lines + frames), LogFilter(b'/d')).calls
        self.assertEqual(call.frames, [])

    def test_the_frames_of_an_interrupted_call_that_is_not_read_are_not_another_s(self):
        lines = [
            '7 read(9</etc/x> <unfinished ...>',
            '8 write(4</d/f>, "a", 1) = 1',
            ' > /opt/store(put+0x24) [0x119d]',
            '7 <... read resumed>, 0x7ffc, 0x2) = 0x2',
            ' > /opt/store(load+0x17) [0x121c]',
        ]
        (call,) = read_log(map(as_strace, lines), LogFilter(b'/d')).calls
        self.assertEqual(call.frames, ['/opt/store(put+0x24) [0x119d]'])


class Lines(unittest.TestCase):
    def test_lines_come_whole_however_they_are_cut(self):
        text = b'a\n\n' + b'b' * 9 + b'\nc\nd'
        for size in range(1, len(text) + 1):
            lines = PipeLines(-1)
            for at in range(0, len(text), size):
                lines.add_bytes(text[at : at + size])
            lines.add_bytes(b'')
            self.assertEqual(list(lines.ready_lines), ['a\n', '\n', 'b' * 9 + '\n', 'c\n', 'd'])
            self.assertTrue(lines.has_ended)

    def test_lines_that_gather_come_in_few_reads(self):
        reading, writing = os.pipe()
        lines = PipeLines(reading, may_gather=True)
        writer = threading.Thread(target=write_slowly, args=(writing, 400))
        writer.start()
        with mock.patch('os.read', side_effect=os.read) as reads:
            found = list(iter(lines.next_line, ''))
        writer.join()
        os.close(reading)
        self.assertEqual(found, [f'{number}\n' for number in range(400)])
        self.assertLess(reads.call_count, 200)

    def test_only_a_reader_that_may_gather_waits_for_more_after_few_bytes(self):
        many = b'a' * (FEW_BYTES - 1) + b'\n'
        for may_gather, piece, waits in (
            (True, b'a\n', 1),
            (True, many[1:], 1),
            (True, many, 0),
            (True, b'', 0),
            (False, b'a\n', 0),
        ):
            lines = PipeLines(-1, may_gather=may_gather)
            with mock.patch('crashfs_tools.recorder.log_stream.poll_for_input'):
                with mock.patch('os.read', return_value=piece), mock.patch('time.sleep') as sleep:
                    self.assertEqual(lines.next_line(), piece.decode())
            self.assertEqual(sleep.call_args_list, waits * [mock.call(GATHER_SECONDS)])

    def test_a_pipe_that_ends_after_a_line_has_no_more(self):
        lines = PipeLines(-1)
        lines.add_bytes(b'a\n')
        lines.add_bytes(b'')
        self.assertEqual(list(lines.ready_lines), ['a\n'])

    def test_a_named_pipe_has_not_ended_before_its_first_writer(self):
        folder = tempfile.TemporaryDirectory()
        self.addCleanup(folder.cleanup)
        path = os.path.join(folder.name, 'log')
        os.mkfifo(path)
        reading = os.open(path, os.O_RDONLY | os.O_NONBLOCK)
        self.addCleanup(os.close, reading)
        lines = PipeLines(reading)
        self.assertIsNone(lines.next_line(0.01))
        self.assertFalse(lines.has_ended)
        with open(path, 'wb') as writing:
            writing.write(b'a\n')
        self.assertEqual(lines.next_line(PATIENCE), 'a\n')
        self.assertEqual(lines.next_line(PATIENCE), '')
        self.assertTrue(lines.has_ended)

    def test_a_call_that_is_cut_in_two_is_one(self):
        log = read_log(
            [
                '7 read(0x3 <unfinished ...>\n',
                '8 close(4) = 0\n',
                '7 <... read resumed>, 0x7ffc, 0x2) = 0x2\n',
            ]
        )
        self.assertEqual(
            [(call.thread, call.name, call.arguments, call.begin, call.end) for call in log.calls],
            [(8, 'close', ['4'], 2, 2), (7, 'read', ['0x3', '0x7ffc', '0x2'], 1, 3)],
        )

    def test_an_exec_by_another_thread_than_the_first_is_an_event(self):
        execs = '8 execve("/bin/sh", ["sh"], 0x7ffc /* 3 vars */ '
        for begun in (execs + '<pid changed to 7 ...>', execs + '<unfinished ...>'):
            lines = [
                '7 close(5) = 0',
                begun,
                '7 +++ superseded by execve in pid 8 +++',
                '7 <... execve resumed>)             = 9',
                '7 close(4) = 0',
            ]
            log = read_log(map(as_strace, lines))
            self.assertEqual(
                [(call.thread, call.name, call.result, call.end) for call in log.calls],
                [(7, 'close', 0, 1), (7, SUPERSEDE, 8, 3), (7, 'close', 0, 5)],
            )
            self.assertIsNone(log.cut_line)

    def test_a_call_that_another_thread_s_exec_cuts_is_not_the_exec(self):
        lines = [
            '7 write(4</d/f>, "a", 1 <unfinished ...>',
            '8 execve("/bin/sh", ["sh"], 0x7ffc /* 3 vars */ <pid changed to 7 ...>',
            '7 +++ superseded by execve in pid 8 +++',
            '7 <... execve resumed>)             = 9',
        ]
        _, write = read_log(map(as_strace, lines)).calls
        self.assertEqual((write.name, write.is_cut, write.begin, write.end), ('write', True, 1, 4))

    def test_a_call_that_a_signal_interrupted_did_nothing_and_is_not_cut(self):
        for tail, is_interrupted in (
            ('ERESTARTSYS (To be restarted if SA_RESTART is set)', True),
            ('ERESTARTNOINTR (To be restarted)', True),
            ('', False),
        ):
            with self.subTest(tail):
                write = read_log([as_strace(f'7 write(4</d/f>, "a", 1) = ? {tail}'.rstrip())])
                call = write.calls[0]
                self.assertEqual(call.result, -1)
                self.assertEqual(call.is_interrupted, is_interrupted)
                self.assertEqual(call.is_cut, not is_interrupted)

    def test_a_line_that_only_begins_a_call_is_reported(self):
        self.assertEqual(read_log(['7 close(5) = 0\n', '7 close(4']).cut_line, 2)


if __name__ == '__main__':
    unittest.main()
