"""Calls that change what a process has: fork, exec, chdir, umask. Each `on_NAME` translates a call
NAME that has returned; LogError if an argument isn't as strace writes it."""

from __future__ import annotations

import os.path
from copy import copy

from crashfs_tools.recorder import arguments
from crashfs_tools.recorder.processes import Descriptors, Process
from crashfs_tools.recorder.live_files import LiveFiles
from crashfs_tools.recorder.mappings import Memory
from crashfs_tools.recorder.strace_log import FORKS, Call


def on_clone(files: LiveFiles, process: Process, call: Call) -> None:
    """Adds the process or thread that a fork made, unless it is known already, as it made a call
    before the fork returned."""
    if call.result > 0 and call.result not in files.processes:
        files.processes[call.result] = process.forked_child(call)


def on_execve(files: LiveFiles, process: Process, call: Call) -> None:
    """Starts another program in a process: closes the descriptors that an exec closes, and unmaps
    all files. From then on the process shares nothing with other threads."""
    files_by_number, closed = process.descriptors.files, process.descriptors.closed_by_exec
    process.descriptors = Descriptors(
        {number: file for number, file in files_by_number.items() if number not in closed}
    )
    process.path_context = copy(process.path_context)
    process.memory = Memory()


def on_chdir(files: LiveFiles, process: Process, call: Call) -> None:
    """Sets the working directory by a path, for all threads that share it. A path through too many
    symbolic links is taken as it is written. If strace cut the path, the old directory stays."""
    path = arguments.parse_path(call.argument(0))
    if path is not None:
        context = process.path_context
        full_path = os.path.join(context.directory, path)
        resolved = files.resolver.resolve(full_path, follow_last_link=True)
        context.directory = resolved or os.path.normpath(full_path)


def on_fchdir(files: LiveFiles, process: Process, call: Call) -> None:
    """Makes a descriptor's directory the working directory, for all threads that share it. If
    strace shows no path of the descriptor, the old directory stays."""
    process.path_context.directory = process.directory_of(call.descriptor())


def on_umask(files: LiveFiles, process: Process, call: Call) -> None:
    """Sets the umask, for all threads that share it."""
    process.path_context.umask = arguments.parse_digits(call.argument(0), 8)


def on_chroot(files: LiveFiles, process: Process, call: Call) -> None:
    """Reports that the paths of a process mean other files from here on; they are followed as
    before. The report has the path of the call's argument, or `/` if strace cut that."""
    path = arguments.parse_path(call.argument(0)) or '/'
    files.recording.report('chroot: paths of that process mean other files from here on', path)


HANDLERS = {
    **dict.fromkeys(FORKS, on_clone),
    'execve': on_execve,
    'execveat': on_execve,
    'chdir': on_chdir,
    'fchdir': on_fchdir,
    'umask': on_umask,
    'chroot': on_chroot,
}
