"""Which files COMMAND opens outside a state's directory: its program, libraries and scripts."""

from __future__ import annotations

import hashlib
import json
import os
import re
import shutil
import tempfile
from functools import partial
from typing import Callable, Dict, Iterable, Iterator, List, Set, Tuple

from crashfs_tools.common.command import Refused, version_text

from .cache import read_cache_file, write_cache_file
from .runner import NO_ANSWER, Outcome

# A call that opens a file or starts a program, as strace shows it: the path, and before it the
# directory that a relative path begins in.
DIRECTORY = r'(?:(?:AT_FDCWD|\d+)(?:<((?:[^<>\\]|\\.)*)>)?, )?'
OPENED = re.compile(rf'(?:open|openat|openat2|execve|execveat)\({DIRECTORY}"((?:[^"\\]|\\.)+)"')
# The flags after the path; strace prints first whether a file is read or written.
ONLY_WRITES = re.compile(r', (?:\{flags=)?O_WRONLY\b')
CALLS = 'trace=open,openat,openat2,execve,execveat'
# What strace prints when a process, with this number, has ended by itself.
EXITED = re.compile(r'(\d+) +\+\+\+ exited with \d+ \+\+\+')
# What the kernel shows in these directories differs from run to run.
LEFT_OUT = ('/proc/', '/sys/')

# So many interpreters follow one another at most, and so much of a first line counts.
MOST_INTERPRETERS, LINE_BYTES = 4, 256
# A file is read so much at a time: COMMAND may open large ones.
PIECE_BYTES = 1 << 20
# The compiled form of a module of Python, by whose source it is known.
COMPILED = re.compile(r'(.*)/__pycache__/([^/.]+)\.[^/]*pyc$')

# Runs words in the place of COMMAND in a state, by its number; returns the outcome, and the path of
# the state's directory.
RunInState = Callable[[List[str], int], Tuple[Outcome, str]]


def command_name(folder: str, words: List[str], states: List[int], run_in_state: RunInState) -> str:
    """A name for a command: equal for equal words that open equal files, under the same version of
    these tools, in whatever environment. The list of the opened files is kept in the folder. If
    there is none, or a listed file has changed, the command runs under strace in the states of some
    numbers. Exceptions as in opened_files(); OSError if the list can't be written."""
    list_path = os.path.join(folder, f'command-{digest_of_text(json.dumps(words))}.json')
    digests: Dict[str, str] = read_cache_file(list_path)
    if not digests or any(digest_of_file(name) != digest for name, digest in digests.items()):
        opened = {name for state in states for name in opened_files(words, state, run_in_state)}
        digests = {name: digest_of_file(name) for name in sorted(opened)}
        write_cache_file(list_path, digests)
    return digest_of_text(json.dumps([version_text(''), words, sorted(digests.items())]))


def opened_files(words: List[str], state: int, run_in_state: RunInState) -> Set[str]:
    """The paths of the files that a command opens in the state of a number, or looks for and
    doesn't find. Files of the state itself, of /proc and of /sys, directories and devices are left
    out. Refused if strace isn't installed or shows no file, or if the command was killed: what it
    would have opened later isn't known. What run_in_state() raises passes."""
    strace = shutil.which('strace')
    if strace is None:
        raise Refused('--cache needs strace, which shows the files that COMMAND opens')
    with tempfile.NamedTemporaryFile('r', encoding='utf-8', errors='surrogateescape') as log:
        line = [strace, '-f', '-q', '-y', '-e', CALLS, '-o', log.name, '--', *words]
        outcome, directory = run_in_state(line, state)
        lines = list(log)
    if outcome.result == NO_ANSWER and not has_exited(lines):
        raise Refused(f'--cache: COMMAND gave no answer under strace: {outcome.cause}')
    paths = set(opened_paths(lines))
    if not paths:
        raise Refused('--cache: strace shows no file that COMMAND opens; may it trace here?')
    excluded = (f'{os.path.realpath(directory)}/', *LEFT_OUT)
    files = {path for path in paths if os.path.isfile(path) or not os.path.exists(path)}
    files |= {program for path in files for program in interpreters(path)}
    return {path for path in files if not os.path.realpath(path).startswith(excluded)}


def has_exited(lines: List[str]) -> bool:
    """Whether the first process in the lines of a log of strace exited by itself; False for an
    empty log. The log may go on after that, with processes that the first one left."""
    exited = {match[1] for match in map(EXITED.match, lines) if match}
    return bool(lines) and lines[0].split(' ', 1)[0] in exited


def opened_paths(lines: Iterable[str]) -> Iterator[str]:
    """The absolute paths of the files that a log of strace shows as opened or looked for; some come
    several times. Links aren't followed: they may lead to another file later. Files that are only
    written are left out, and so are relative paths if the log lacks their directory, as for open
    and execve. A compiled module of Python counts as its source, if that is there."""
    for line in lines:
        match = OPENED.search(line)
        if match is None or ONLY_WRITES.match(line, match.end()):
            continue
        path = os.path.join(unescape(match[1] or ''), unescape(match[2]))
        if os.path.isabs(path):
            compiled = COMPILED.match(path)
            source = f'{compiled[1]}/{compiled[2]}.py' if compiled else path
            yield source if os.path.exists(source) else path


def interpreters(script: str) -> Iterator[str]:
    """The paths of a script's interpreters: the program that its first line names, the one that the
    first line of that program names, and so on, at most MOST_INTERPRETERS. strace doesn't show that
    the system opens them. Ends at a relative path, and at a file that is no script or can't be
    read. Waits for a writer if the file is a pipe."""
    for _ in range(MOST_INTERPRETERS):
        try:
            with open(script, 'rb') as file:
                words = file.readline(LINE_BYTES).split()
        except OSError:
            return
        if not words or not words[0].startswith(b'#!'):
            return
        script = os.fsdecode(words[0][2:] or b''.join(words[1:2]))
        if not os.path.isabs(script) or '\0' in script:
            return
        yield script


def unescape(escaped: str) -> str:
    """The path that strace shows as a text in which quotes, backslashes and all but printable
    ASCII are escapes of C, such as `\\303`. ValueError for other escapes than those of bytes."""
    return os.fsdecode(os.fsencode(escaped).decode('unicode_escape').encode('latin-1'))


def digest_of_file(path: str) -> str:
    """The digest of a file's bytes; an empty text if it isn't there or can't be read."""
    digest = hashlib.sha256()
    try:
        with open(path, 'rb') as file:
            for piece in iter(partial(file.read, PIECE_BYTES), b''):
                digest.update(piece)
    except OSError:
        return ''
    return digest.hexdigest()


def digest_of_text(text: str) -> str:
    """The first 40 digits of a text's digest, which are 160 bits: short enough for a file's
    name."""
    return hashlib.sha256(text.encode('utf-8', 'surrogateescape')).hexdigest()[:40]
