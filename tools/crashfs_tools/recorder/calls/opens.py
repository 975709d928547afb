"""Calls that open, close and duplicate. Each `on_NAME` translates a call NAME that has returned;
descriptors of files elsewhere aren't followed. LogError if an argument isn't as strace writes
it."""

from __future__ import annotations

import re
from typing import Iterable, Iterator, Optional

from crashfs_tools.recorder import arguments
from crashfs_tools.recorder.arguments import parse_integer
from crashfs_tools.recorder.call_order import OPENS
from crashfs_tools.recorder.directory import PERMISSIONS
from crashfs_tools.recorder.live_tree import Node
from crashfs_tools.recorder.processes import OpenFile, Process, open_file_of_path
from crashfs_tools.recorder.live_files import UNKNOWN, LiveFiles
from crashfs_tools.recorder.strace_log import Call

CREAT_FLAGS = 'O_WRONLY|O_CREAT|O_TRUNC'
# The flags of an open that no directory can be opened with.
FILE_FLAGS = re.compile('O_WRONLY|O_RDWR|O_CREAT')


def on_open(files: LiveFiles, process: Process, call: Call) -> None:
    """Opens a path, which may be relative to the working directory, as open_path() does."""
    base, word, flags = process.path_context.directory, call.argument(0), call.argument(1)
    open_path(files, process, call, base, word, flags=flags, mode_word=call.argument(2))


def on_openat(files: LiveFiles, process: Process, call: Call) -> None:
    """Opens a path that may be relative to a directory's descriptor, as open_path() does."""
    base, word, flags = process.directory_of(call.descriptor()), call.argument(1), call.argument(2)
    open_path(files, process, call, base, word, flags=flags, mode_word=call.argument(3))


def on_openat2(files: LiveFiles, process: Process, call: Call) -> None:
    """Opens a path as on_openat() does. Flags and mode are fields of one argument, `how`: the flags
    are looked for in all its text. If it has no mode, the mode is 0."""
    base, word, how = process.directory_of(call.descriptor()), call.argument(1), call.argument(2)
    match = re.search(r'mode=(0[0-7]*)', how)
    mode_word = match[1] if match else '0'
    open_path(files, process, call, base, word, flags=how, mode_word=mode_word)


def on_creat(files: LiveFiles, process: Process, call: Call) -> None:
    """Opens a path as on_open() does, with CREAT_FLAGS: makes the file, or truncates it."""
    base, word, mode_word = process.path_context.directory, call.argument(0), call.argument(1)
    open_path(files, process, call, base, word, flags=CREAT_FLAGS, mode_word=mode_word)


def may_follow_last_link(flags: str) -> bool:
    """Whether an open with these flags follows a symbolic link at its path's end. False with
    O_NOFOLLOW or O_EXCL."""
    return 'O_NOFOLLOW' not in flags and 'O_EXCL' not in flags


def opened_files(files: LiveFiles, calls: Iterable[Call]) -> Iterator[str]:
    """Yields the paths below the directory, also ignored ones, of the files that calls opened for
    writing, or made by an open, as strace shows them."""
    for call in calls:
        path = files.resolver.path_below(call.result_descriptor.path)
        if path is not None and has_file_flags(call):
            yield path


def has_file_flags(call: Call) -> bool:
    """Whether a call is an open that can't have opened a directory."""
    if call.name not in OPENS:
        return False
    return call.name == 'creat' or FILE_FLAGS.search(' '.join(call.arguments[1:])) is not None


def open_path(
    files: LiveFiles,
    process: Process,
    call: Call,
    base: str,
    word: str,
    *,
    flags: str,
    mode_word: str,
) -> None:
    """Sets the open file of the descriptor that an open returned. If the path in its argument
    `word` means an open file or stream, as /dev/stdout does, that is opened again. Else it is the
    file at opened_path(), which open_node() makes or truncates; if that is None, the descriptor
    isn't followed. A relative path begins at the directory with the absolute path `base`."""
    file = open_file_of_path(word, process, files.processes)
    if file is not None:
        file = reopen_file(files, file, flags)
    else:
        path = opened_path(files, call, base, word, flags)
        node = open_node(files, process, path, flags, mode_word)
        file = None if node is None else OpenFile.opened_with(node, flags)
    process.descriptors.set_file(call.result, file, is_closed_by_exec='O_CLOEXEC' in flags)


def opened_path(files: LiveFiles, call: Call, base: str, word: str, flags: str) -> Optional[str]:
    """The path in the tree of the file that an open has opened: the path that strace shows for the
    descriptor, or None if it shows another text, as for a pipe. If it shows nothing, or the file is
    unlinked, the path in the argument `word` counts, as LiveFiles.resolve_argument() returns it. A
    path there that strace cut is reported if the open may make or truncate a file."""
    shown = call.result_descriptor
    if shown.text is not None and not shown.is_deleted:
        return files.resolve_path(shown.path) if shown.path else None
    if arguments.parse_path(word) is None and ('O_CREAT' in flags or 'O_TRUNC' in flags):
        files.recording.report(f'{call.name} of a path that strace cut', '/')
    follow_last_link = may_follow_last_link(flags)
    return files.resolve_argument(base, word, follow_last_link=follow_last_link)


def reopen_file(files: LiveFiles, file: OpenFile, flags: str) -> OpenFile:
    """Opens a file or stream again by a path that means a descriptor of it, and returns the new
    open file. O_TRUNC truncates a file, even if it has no name any more."""
    if file.node is None:
        return OpenFile(None, stream=file.stream)
    if 'O_TRUNC' in flags and file.node.size:
        files.set_length(file.node, 0)
    return OpenFile.opened_with(file.node, flags)


def open_node(
    files: LiveFiles, process: Process, path: Optional[str], flags: str, mode_word: str
) -> Optional[Node]:
    """Makes or truncates the file at a path as the flags say, and returns its node; with O_TMPFILE
    that of a new file without a name. Mode bits beyond 777 are only noted, of O_TMPFILE not at all.
    None if the path is None, or if nothing is known there, which is reported unless O_PATH is
    set."""
    if path is None:
        return None
    if 'O_PATH' in flags:
        return files.tree.node_at(path)
    bits = process.path_context.mode_of_new_node(mode_word or '0')
    if 'O_TMPFILE' in flags:
        return new_temporary_file(files, bits)
    node = files.tree.node_at(path)
    if node is None and 'O_CREAT' in flags:
        return files.add_new_file(path, bits)
    if node is None:
        files.recording.report(f'opened, and it was made {UNKNOWN}', path)
    elif 'O_TRUNC' in flags and not node.is_directory and node.size:
        files.set_length(node, 0)
    return node


def new_temporary_file(files: LiveFiles, mode: int) -> Node:
    """A new file of O_TMPFILE, without a name, which is among the temporary_files from now on.
    Bits of the mode beyond 777 are left out."""
    node = Node.file(mode & PERMISSIONS)
    node.is_temporary = True
    files.temporary_files.add(node)
    return node


def on_close(files: LiveFiles, process: Process, call: Call) -> None:
    """Closes the descriptor in the first argument. Nothing if it isn't followed."""
    process.descriptors.close(call.descriptor().number)


def on_close_range(files: LiveFiles, process: Process, call: Call) -> None:
    """Closes the followed descriptors in a range, both ends included; with CLOEXEC the next exec
    closes them. With UNSHARE the process first gets a table of its own, a copy."""
    descriptors = process.descriptors
    if 'UNSHARE' in call.argument(2):
        descriptors = process.descriptors = descriptors.copy()
    first, last = parse_integer(call.argument(0)), parse_integer(call.argument(1))
    for number in [number for number in descriptors.files if first <= number <= last]:
        if 'CLOEXEC' in call.argument(2):
            descriptors.closed_by_exec.add(number)
        else:
            descriptors.close(number)


def duplicate_descriptor(
    files: LiveFiles, process: Process, call: Call, *, is_closed_by_exec: bool
) -> None:
    """Makes the call's result a descriptor of the same open file or stream as its first argument.
    An unknown first argument that --say-fd names is followed from now on; any other isn't, and
    neither is the result. A stream of which --say-fd names the result acknowledges something.
    Nothing if the two numbers are equal."""
    old, streams = call.descriptor(), files.recording.streams
    if old.number == call.result:
        return
    file = process.open_file(old)
    if file is None and streams.is_named_nonstandard(old.number):
        file = OpenFile(None, stream=streams.find_or_make_stream(old.number, old.text))
        process.descriptors.files[old.number] = file
    if file is not None and file.stream is not None and streams.is_named_nonstandard(call.result):
        file.stream.is_acknowledged = True
    process.descriptors.set_file(call.result, file, is_closed_by_exec=is_closed_by_exec)


def on_dup(files: LiveFiles, process: Process, call: Call) -> None:
    """Duplicates a descriptor. Only dup3 has flags: O_CLOEXEC means that an exec closes the
    duplicate."""
    is_closed_by_exec = 'O_CLOEXEC' in call.argument(2)
    duplicate_descriptor(files, process, call, is_closed_by_exec=is_closed_by_exec)


def on_fcntl(files: LiveFiles, process: Process, call: Call) -> None:
    """Duplicates a descriptor, or sets whether an exec closes it, or whether its writes append, as
    the command says. Any other command changes nothing here."""
    number, command = call.descriptor().number, call.argument(1)
    if command.startswith('F_DUPFD'):
        duplicate_descriptor(files, process, call, is_closed_by_exec='CLOEXEC' in command)
    elif command == 'F_SETFD' and 'FD_CLOEXEC' in call.argument(2):
        process.descriptors.closed_by_exec.add(number)
    elif command == 'F_SETFD':
        process.descriptors.closed_by_exec.discard(number)
    elif command == 'F_SETFL' and number in process.descriptors.files:
        process.descriptors.files[number].is_appending = 'O_APPEND' in call.argument(2)


HANDLERS = {
    'open': on_open,
    'openat': on_openat,
    'openat2': on_openat2,
    'creat': on_creat,
    'close': on_close,
    'close_range': on_close_range,
    'dup': on_dup,
    'dup2': on_dup,
    'dup3': on_dup,
    'fcntl': on_fcntl,
    'fcntl64': on_fcntl,
}
