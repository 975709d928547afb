"""Finds the functions of COMMAND that made a call: by strace -k, and by a hook in Python."""

from __future__ import annotations

import os
import re
import shutil
from itertools import chain, islice
from typing import Dict, Iterator, List, NamedTuple, Optional

from . import arguments
from .source_lines import Address, Frame
from .strace_log import SUPERSEDE, Call

HOOK = os.path.join(os.path.dirname(os.path.realpath(__file__)), 'python_hook')
# What the hook, which has its own copy of this, calls `access` with, before the line.
PREFIX = '/proc/crashfs-frame/'
# The calls by which the hook shows a line; they are traced in addition to those that are followed.
MARKING_CALLS = ('access', 'faccessat', 'faccessat2')
# A frame: the program's file, the function with an offset in it, and the offset in the file.
FRAME = re.compile(r'^(/[^(]*)\((.*)\) \[(0x[0-9a-f]+)\]$')
OFFSET = re.compile(r'\+0x[0-9a-f]+$')
SYSTEM = re.compile(r'/(?:libc|libpthread|ld-linux[^/]*|libm|libdl|libstdc\+\+|libgcc_s)[.-][^/]*$')
# The functions that call `main`.
STARTING_FUNCTIONS = ('_start', '__libc_start_main', '__libc_start_call_main')
# Functions of the libraries and runtimes of C++, Rust and Go: a Go package without a dot in the
# first name is of Go itself, unless it is `main`.
RUNTIME = re.compile(
    r'(?:[\w:<>*& ]+ )?(?:std|__gnu_cxx|core|alloc)::|<(?:[^<>]|<[^<>]*>)* as (?:std|core|alloc)::|'
    r'<(?:std|core|alloc)::|__rust_|rust_begin|'
    r'(?:runtime|syscall|os|io|bufio|fmt|net|sync|log|time|internal|encoding|reflect|testing)'
    r'(?:/[\w/]+)?\.|(?:internal|runtime)/'
)
LIBRARY_SOURCE = re.compile(
    r'^/rustc/|/rustlib/src/|/include/c\+\+/|/library/(?:std|core|alloc)/|/go(?:-[\d.]+)?/src/'
    r'(?:runtime|syscall|os|io|bufio|fmt|net|sync|log|time|internal)/|crtstuff\.c'
)
# How many bytes of a script's first line may name its interpreter.
FIRST_LINE_BYTES = 200
# How many functions a note has at most.
MOST_FUNCTIONS = 3


def environment_with_hook(environment: Dict[str, str]) -> Dict[str, str]:
    """A copy of an environment in which each Python program loads the hook as it starts, unless it
    has the option -S, -I or -E."""
    paths = [HOOK, *filter(None, [environment.get('PYTHONPATH')])]
    return {**environment, 'PYTHONPATH': os.pathsep.join(paths)}


def is_python_program(path: str) -> bool:
    """Whether a program is Python, or a script for it, so that it needs only the hook: by its name,
    or its first line. False if the file can't be read."""
    try:
        with open(path, 'rb') as file:
            first_line = file.readline(FIRST_LINE_BYTES)
    except OSError:
        return False
    has_name = os.path.basename(path).startswith(('python', 'pypy'))
    return has_name or first_line.startswith(b'#!') and b'python' in first_line


def addresses_of_calls(calls: List[Call]) -> List[Address]:
    """The addresses of the program_frames() of these calls."""
    return [frame.address for call in calls for frame in program_frames(call.frames)]


def note_calls(calls: List[Call], source_lines: Dict[Address, List[Frame]]) -> None:
    """Sets each call's note: the source lines that the hook showed last in its thread, since the
    last exec, or else its stack_text() with these source lines. The calls must be in the log's
    order. LogError as in parse_mark()."""
    marks: Dict[int, str] = {}
    for call in calls:
        if is_exec(call):
            marks.pop(call.thread, None)
        mark = parse_mark(call)
        if mark is not None:
            marks[call.thread] = mark
        note = marks.get(call.thread) or stack_text(program_frames(call.frames), source_lines)
        # Bytes that aren't UTF-8 become `?`.
        call.note = note.encode('utf-8', 'replace').decode()


def is_exec(call: Call) -> bool:
    """Whether a call is an exec that succeeded. So is the event SUPERSEDE, if another thread than
    the process's first called exec: its `thread` is the number that it has from then on."""
    return call.name == SUPERSEDE or call.name in ('execve', 'execveat') and call.result == 0


def parse_mark(call: Call) -> Optional[str]:
    """The source lines that the hook shows by one of MARKING_CALLS, also by one that failed; None
    for any other call. LogError if the call's path isn't as strace writes it."""
    if call.name not in MARKING_CALLS:
        return None
    path = arguments.parse_path(call.argument(0 if call.name == 'access' else 1))
    if path is None or not path.startswith(PREFIX):
        return None
    return path[len(PREFIX) :]


class ShownFrame(NamedTuple):
    """A frame as strace shows it: its function, which may be empty, and its address."""

    function: str
    address: Address


def program_frames(lines: List[str]) -> List[ShownFrame]:
    """The frames in a call's lines of strace -k, in their order: the innermost first. Those in
    system libraries are left out, and lines that name no file."""
    shown_frames = []
    for line in lines:
        match = FRAME.match(line)
        if match and not SYSTEM.search(match[1]):
            function = OFFSET.sub('', match[2])
            shown_frames.append(ShownFrame(function, (match[1], int(match[3], 16))))
    return shown_frames


def stack_text(frames: List[ShownFrame], source_lines: Dict[Address, List[Frame]]) -> str:
    """The note of a call with these frames: its innermost functions of the program itself,
    MOST_FUNCTIONS at most. source_lines has the frames at each address of which a source line is
    known. Empty if no function is of the program."""
    texts = chain.from_iterable(
        source_texts(source_lines[frame.address])
        if frame.address in source_lines
        else address_texts(frame)
        for frame in frames
    )
    return ' < '.join(islice(texts, MOST_FUNCTIONS))


def source_texts(frames: List[Frame]) -> Iterator[str]:
    """Yields, for each of the frames at an address whose function is of the program itself, its
    source line and its function, as `kv.c:85 put`."""
    for frame in frames:
        if is_program_function(frame.function) and not LIBRARY_SOURCE.search(frame.source_line):
            yield f'{os.path.basename(frame.source_line)} {frame.function}'


def address_texts(frame: ShownFrame) -> Iterator[str]:
    """Yields, for a frame without a known source line, its function with the program's file, as
    `put (kv)`, or the file and the offset if the function has no name. Nothing if the function
    isn't of the program itself."""
    path, offset = frame.address
    name = os.path.basename(path)
    if is_program_function(frame.function):
        yield f'{frame.function} ({name})' if frame.function else f'{name}+{offset:#x}'


def is_program_function(function: str) -> bool:
    """Whether a function is of the program itself, and not of its language's library or runtime.
    True for a function without a name."""
    return function not in STARTING_FUNCTIONS and not RUNTIME.match(function)


def addr2line_hint() -> str:
    """A hint, after a blank and in brackets, that there is no addr2line; empty if there is one."""
    return ' (addr2line is not there)' if shutil.which('addr2line') is None else ''
