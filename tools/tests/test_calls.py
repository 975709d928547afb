"""Each system call that the recorder follows, made by a program under strace: its operations."""

import os
import re
import subprocess
import unittest
from typing import Dict, List, Set, Tuple

from crashfs_tools.common.trace import Creat, Mkdir, Operation
from crashfs_tools.recorder.directory import scan_directory
from crashfs_tools.recorder.live_files import StartConditions
from crashfs_tools.recorder.start_tree import files_at_start
from crashfs_tools.recorder.log_filter import LogFilter
from crashfs_tools.recorder.recording import Recording, TraceSettings
from crashfs_tools.recorder.strace_log import read_log
from crashfs_tools.recorder.translate import HANDLERS, Translator

from .called_operations import ELSEWHERE, OPERATIONS, REPORTED
from .support import TOOLS, InFolder, needs_strace, needs_version_3, short
from .test_odd import needs_compiler

PROGRAM = TOOLS / 'tests' / 'data' / 'calls' / 'calls.c'
# Calls of 32-bit programs, and those that the table of logs has: clones need a file system that
# has them, and fchmodat2 a newer kernel.
IN_LOGS = {
    *('_llseek', 'ftruncate64', 'truncate64', 'sendfile64', 'mmap2', 'fcntl64', 'chown32'),
    *('lchown32', 'fchown32', 'sync_file_range2', 'ioctl', 'fchmodat2'),
}
# Calls that only root may make.
OF_ROOT = {'chown_', 'chown_symlink', 'chroot_'}


def recording_of_log(path: str, top: str) -> Recording:
    """What a kept log becomes; the directory is empty at the start."""
    start = scan_directory(top, lambda _: True)
    recording = Recording(start.header, TraceSettings())
    files = files_at_start(recording, StartConditions(top, 0o022, 'u', 'u'), start, lambda _: False)
    with open(path, encoding='ascii') as lines:
        log = read_log(lines, LogFilter(os.fsencode(top)))
    Translator(files, log).translate_log()
    return recording


def text_of(operation: Operation, case: str) -> str:
    text = short(operation).replace('root', 'u')
    if isinstance(operation, (Creat, Mkdir)):
        text += f' {operation.mode:03o}'
    return text.replace(f'/{case}/', '').replace(f'/{case}', '.')


def cases_of(recording: Recording) -> Dict[str, List[str]]:
    """The operations by their case, which the last line of each names."""
    found, newest = {}, []
    for operation in recording.trace.operations:
        case = getattr(operation, 'text', '')
        if case.rpartition(' ')[2] in OPERATIONS:
            name = case.rpartition(' ')[2]
            found[case] = [text_of(one, name) for one in newest[1:]]
            newest = []
        else:
            newest.append(operation)
    return found


def reported_in(recording: Recording) -> Tuple[Dict[str, List[str]], Set[str]]:
    """What is reported of each case's files, with how many times, and what is reported beside."""
    found: Dict[str, List[str]] = {}
    elsewhere = set()
    for trouble in recording.troubles.values():
        match = re.match('/([^/]+)/(.*)', trouble.where)
        if match:
            times = f' {len(trouble.lines)}' if len(trouble.lines) > 1 else ''
            found.setdefault(match[1], []).append(f'{match[2]}: {trouble.what}{times}')
        else:
            elsewhere.add(f'{trouble.where}: {trouble.what}')
    return found, elsewhere


@needs_strace
@needs_version_3
@needs_compiler
class Calls(InFolder):
    def test_each_call_has_its_operations(self):
        subprocess.run(['cc', '-w', '-o', self.path('calls'), str(PROGRAM)], check=True)
        os.mkdir(self.path('d'))
        ran = self.run_tool(
            'crashfs-record', '--keep-log', 'log', 'd', 'out.trace', '--', self.path('calls')
        )
        self.assertEqual(ran.returncode, 3, ran.stderr)
        recording = recording_of_log(self.path('log'), self.path('d'))
        cases, (reported, elsewhere) = cases_of(recording), reported_in(recording)
        skipped = {case.partition(' ')[2] for case in cases if case.startswith('skip ')}
        if os.geteuid() == 0:
            skipped -= OF_ROOT
        self.assertEqual({case.rpartition(' ')[2] for case in cases}, OPERATIONS.keys())
        for case, wanted in OPERATIONS.items():
            with self.subTest(case):
                if case not in skipped:
                    self.assertEqual(cases[case], wanted)
                    self.assertEqual(reported.get(case, []), REPORTED.get(case, []))
        self.assertLessEqual(elsewhere, ELSEWHERE)
        if not skipped:
            self.assertEqual(elsewhere, ELSEWHERE)
        with open(self.path('log'), encoding='ascii') as lines:
            made = {call.name for call in read_log(lines).calls}
        self.assertEqual(set(HANDLERS) - made, IN_LOGS)
        self.assertEqual(skipped & {'open_', 'write_', 'fsync_', 'rename_', 'msync_'}, set())


if __name__ == '__main__':
    unittest.main()
