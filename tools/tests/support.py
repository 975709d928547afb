"""What the tests share: logs written as people would, temporary folders, the two commands."""

from __future__ import annotations

import atexit
import itertools
import json
import os
import re
import shutil
import subprocess
import sys
import tempfile
import time
import unittest
from functools import lru_cache
from pathlib import Path
from typing import Any, Callable, Dict, List, Optional, Sequence

from crashfs_tools.common.trace import WRITTEN_VERSION, Creat, Header, Mkdir, Start
from crashfs_tools.recorder.directory import Scan
from crashfs_tools.recorder.log_filter import LogFilter
from crashfs_tools.recorder.mapped_files import FileCopies
from crashfs_tools.recorder.live_files import StartConditions
from crashfs_tools.recorder.output_streams import AcknowledgingDescriptors
from crashfs_tools.recorder.start_tree import files_at_start
from crashfs_tools.recorder.recording import Recording, TraceSettings
from crashfs_tools.recorder.strace_log import Call, read_log
from crashfs_tools.recorder.translate import Translator

TOOLS = Path(__file__).resolve().parents[1]
EXAMPLES = TOOLS.parent / 'examples'
# Those of real stores have version 4 and thousands of states: test_results looks at them.
EXAMPLE_TRACES = sorted(
    path for path in EXAMPLES.glob('**/*.trace') if path.parent.parent.name != 'stores'
)
FAKE = str(TOOLS / 'crashfs_tools' / 'reading' / '__main__.py')
# First on PATH, so that scripts are run by the Python that runs the tests.
PYTHON_FOLDER = os.path.dirname(sys.executable)
# How long a test, or a check of one, waits for what has to come: so long only where a machine is
# overloaded.
PATIENCE = 600
PROGRESS = re.compile(
    r'crashfs-check: (?:micro-operations [\d,]+ to [\d,]+: )?' r'[\d,]+ of [\d,]+ tried, .* left\n'
)
QUOTED = re.compile(r'"([^"]*)"|<(/[^>]*|\w+:\[\d+\])>')


def numbers(text: str) -> str:
    return ''.join(f'\\x{byte:02x}' for byte in text.encode())


def as_strace(line: str) -> str:
    """A line with its texts as -xx prints them."""
    return QUOTED.sub(
        lambda match: f'"{numbers(match[1])}"' if match[2] is None else f'<{numbers(match[2])}>',
        line,
    )


def recording_of(
    lines: List[str],
    start: Optional[List[Start]] = None,
    ignored=None,
    note: Optional[Callable[[Call], str]] = None,
    acknowledged: Sequence[str] = ('1',),
    copies: Optional[FileCopies] = None,
    output: Optional[str] = None,
    version: Optional[int] = None,
) -> Recording:
    """What a log becomes, for the directory /d with the umask 022 and the user u."""
    scan = Scan(Header('u', 'u', 0o755), list(start or []))
    numbers = [int(number) for number in acknowledged if number.isdigit()]
    descriptors = AcknowledgingDescriptors(tuple(numbers), 'socket' in acknowledged)
    recording = Recording(scan.header, TraceSettings(descriptors, version=version))
    recording.streams.add_text_of_output(output)
    conditions = StartConditions('/d', 0o022, 'u', 'u')
    is_ignored, has_copies = ignored or (lambda path: False), copies is not None
    files = files_at_start(recording, conditions, scan, is_ignored, has_copies=has_copies)
    needed = LogFilter(b'/d', numbers) if copies is None else None
    log = read_log(map(as_strace, lines), needed)
    for call in log.calls if note else []:
        call.note = note(call)
    Translator(files, log, copies).translate_log()
    return recording


def operations_of(lines: List[str], start: Optional[List[Start]] = None) -> List[str]:
    """The operations of a log as short texts: `creat /a`, `write /a 0 hi`, `chmod /a 600`."""
    return [short(operation) for operation in recording_of(lines, start).trace.operations]


def short(operation) -> str:
    hidden = ('owner', 'group', 'mode') if isinstance(operation, (Creat, Mkdir)) else ()
    parts = [shown(name, value) for name, value in vars(operation).items() if name not in hidden]
    return ' '.join([type(operation).__name__.lower(), *parts])


def shown(name, value) -> str:
    if name == 'mode':
        return f'{value:03o}'
    return value.decode() if isinstance(value, bytes) else str(value)


class InFolder(unittest.TestCase):
    """Tests with a folder of their own; nothing else may be left in the place of such folders."""

    def setUp(self) -> None:
        self.folder = tempfile.mkdtemp(prefix='tools-test-')
        self.addCleanup(shutil.rmtree, self.folder, True)
        self.temporary = self.path('tmp')
        os.mkdir(self.temporary)

    def path(self, *names: str) -> str:
        return os.path.join(self.folder, *names)

    def write(self, name: str, text: str, mode: int = 0o644) -> str:
        path = self.path(name)
        with open(path, 'w', encoding='utf-8') as file:
            file.write(text)
        os.chmod(path, mode)
        return path

    def read(self, name: str) -> str:
        with open(self.path(name), encoding='utf-8') as file:
            return file.read()

    def start(
        self,
        command: str,
        *words: str,
        path: Optional[str] = None,
        file_bytes: Optional[int] = None,
        output: Any = subprocess.PIPE,
        ignored: str = '',
    ) -> subprocess.Popen:
        """Starts one of the two commands, with the test's folder for what it lays down; with
        file_bytes no file may become larger, as on a disk that is full; a signal may be ignored."""
        # The standard library is all that is needed, and starts faster without `site`.
        line = [sys.executable, '-S', str(TOOLS / command), *patient(command, words)]
        if file_bytes is not None:
            line = ['prlimit', f'--fsize={file_bytes}', *line]
        if ignored:
            line = ['sh', '-c', f'trap "" {ignored}; exec "$@"', 'sh', *line]
        else:  # The tests may themselves run under `nohup`.
            line = ['env', '--default-signal=HUP', *line]
        return subprocess.Popen(
            line,
            cwd=self.folder,
            stdout=output,
            stderr=subprocess.PIPE,
            text=True,
            stdin=subprocess.DEVNULL,
            env={**os.environ, **self.environment(path)},
        )

    def environment(self, path: Optional[str]) -> Dict[str, str]:
        return {
            'TMPDIR': self.temporary,
            'LC_ALL': 'C',
            'PATH': path or f"{PYTHON_FOLDER}:{os.environ['PATH']}",
        }

    def run_tool(
        self,
        command: str,
        *words: str,
        path: Optional[str] = None,
        file_bytes: Optional[int] = None,
        output: Optional[str] = None,
    ) -> subprocess.CompletedProcess:
        if file_bytes is None and output is None:
            return forked(command, words, self.folder, self.environment(path))
        with open(output or os.devnull, 'w', encoding='utf-8') as file:
            child = self.start(
                command,
                *words,
                path=path,
                file_bytes=file_bytes,
                output=file if output else subprocess.PIPE,
            )
        out, err = child.communicate(timeout=PATIENCE)
        return subprocess.CompletedProcess(words, child.returncode, out, PROGRESS.sub('', err))

    def wait_until(
        self, holds: Callable[[], bool], what: str, child: Optional[subprocess.Popen] = None
    ) -> None:
        """Waits, but not for what a process was to do that has ended."""
        deadline = time.monotonic() + PATIENCE
        while not holds():
            if child is not None and child.poll() is not None and not holds():
                self.fail(
                    f'ended with status {child.returncode}, and not: {what}: '
                    f'{child.communicate()[1]}'
                )
            self.assertLess(time.monotonic(), deadline, f'in {PATIENCE} seconds not: {what}')
            time.sleep(0.02)

    def assert_nothing_left(self) -> None:
        self.assertEqual(os.listdir(self.temporary), [])


def patient(command: str, words: Sequence[str]) -> Sequence[str]:
    """The words, by which a check ends no COMMAND that is only slow."""
    if command != 'crashfs-check' or '--' not in words or '--timeout' in words:
        return words
    return ['--timeout', str(PATIENCE), *words]


def forked(
    command: str, words: Sequence[str], folder: str, environment: Dict[str, str]
) -> subprocess.CompletedProcess:
    """Runs one of the two commands to its end, by a forker that each process of tests has."""
    asked = {
        'command': command,
        'words': patient(command, words),
        'folder': folder,
        'environment': environment,
        'seconds': PATIENCE,
    }
    print(json.dumps(asked), file=forker().stdin, flush=True)
    told = json.loads(forker().stdout.readline())
    # On a machine with other work a check may take so long that it shows how far it is.
    err = PROGRESS.sub('', told['err'])
    return subprocess.CompletedProcess(words, told['status'], told['out'], err)


@lru_cache(maxsize=None)
def forker() -> Any:
    started = subprocess.Popen(
        [sys.executable, '-S', '-m', 'tests.forker'],
        cwd=TOOLS,
        text=True,
        env={**os.environ, 'LC_ALL': 'C'},
        stdin=subprocess.PIPE,
        stdout=subprocess.PIPE,
    )
    atexit.register(started.communicate)
    return started


def long_time() -> str:
    """Seconds for a `sleep` that is found by them: no other test, and no other run, has these."""
    return f'300.{os.getpid():08}{next(_times):04}'


_times = itertools.count(1)


def strace_works() -> bool:
    """Whether strace is there, and may trace."""
    if shutil.which('strace') is None:
        return False
    return (
        subprocess.run(
            ['strace', '-o', os.devnull, 'true'],
            check=False,
            stdout=subprocess.DEVNULL,
            stderr=subprocess.DEVNULL,
        ).returncode
        == 0
    )


def needed(there: bool, what: str) -> Callable[[Any], Any]:
    """Skips tests that need what isn't there. A line says so once: unittest alone counts them."""
    if not there:
        print(f'{what}: the tests that need it are skipped', file=sys.stderr, flush=True)
    return unittest.skipUnless(there, what)


# What the tests of the recorder say of its traces is said in lines of version 3.
needs_version_3 = needed(WRITTEN_VERSION == 3, 'traces are written in an older version than 3')
needs_strace = needed(strace_works(), 'strace is not there, or may not trace')
needs_sqlite = needed(shutil.which('sqlite3') is not None, 'sqlite3 is not there')
