"""Calls that make and remove names. Each `on_NAME` translates a call NAME that has returned;
LogError if an argument isn't as strace writes it. A path that is None is outside the directory,
ignored, or was cut by strace: it isn't followed."""

from __future__ import annotations

import re
import stat
from typing import Optional

from crashfs_tools.common.entry import parent_of
from crashfs_tools.common.trace import Link, Rmdir, Unlink
from crashfs_tools.recorder import arguments
from crashfs_tools.recorder.directory import PERMISSIONS, target_fault
from crashfs_tools.recorder.live_tree import Node
from crashfs_tools.recorder.live_files import LiveFiles
from crashfs_tools.recorder.processes import Process, move_working_directories
from crashfs_tools.recorder.resolving import removed_path
from crashfs_tools.recorder.strace_log import Call

# The bits of a mode that mkdir ignores.
SET_ID = stat.S_ISUID | stat.S_ISGID
# The path in a socket's address. An abstract name has an `@` before the quotation mark.
SOCKET_PATH = re.compile(r'sun_path=("[^}]*)')


def on_unlink(files: LiveFiles, process: Process, call: Call) -> None:
    """Removes a name of a file or symbolic link, as remove_name() does."""
    remove_name(files, files.path_argument(process, call, 0))


def on_rmdir(files: LiveFiles, process: Process, call: Call) -> None:
    """Removes a directory, as remove_directory() does."""
    remove_directory(files, files.full_path(process.path_context.directory, call.argument(0)))


def on_unlinkat(files: LiveFiles, process: Process, call: Call) -> None:
    """Removes a name of a file, or, with AT_REMOVEDIR, a directory, by a path that is relative to a
    directory."""
    full_path = files.full_path(process.directory_of(call.descriptor(0)), call.argument(1))
    if 'AT_REMOVEDIR' in call.argument(2):
        remove_directory(files, full_path)
    else:
        remove_name(files, files.path_in_tree(full_path))


def remove_name(files: LiveFiles, path: Optional[str]) -> None:
    """Removes a name of a file, in the trace too if that has it. If the file keeps only names that
    the trace lacks, the trace renames it to the first of them. If the trace has the file by other
    names only, that is reported. Nothing if the path is None, or if nothing is known there."""
    if path is None or path not in files.tree.nodes:
        return
    node = files.tree.remove_name(path)
    if path not in node.traced_paths:
        if node.names and node.traced_paths:
            files.recording.report('a hard link was made, and removed again', path)
        return
    node.traced_paths.discard(path)
    if node.names and not node.traced_paths:
        files.rename_in_trace(node, path, node.name)
    else:
        files.recording.add_operation(Unlink(path))


def remove_directory(files: LiveFiles, full_path: Optional[str]) -> None:
    """Removes an empty directory by its absolute path, as remove_directory_name() does, and gives
    the processes that are in it removed_path() as their working directory: also if it is outside
    the recorded directory. Nothing if the path is None."""
    if full_path is not None:
        new_paths = {full_path: removed_path(full_path)}
        move_working_directories(files.processes.values(), new_paths)
        remove_directory_name(files, files.path_in_tree(full_path))


def remove_directory_name(files: LiveFiles, path: Optional[str]) -> None:
    """Removes an empty directory from the live tree, and from the trace if that has it. If it is
    the recorded directory itself, that is only reported. Nothing if the path is None, or if nothing
    is known there."""
    if path is None or path not in files.tree.nodes:
        return
    if path == '/':
        files.recording.report('the directory itself was removed', path)
        return
    node = files.tree.remove_name(path)
    if path in node.traced_paths:
        files.recording.add_operation(Rmdir(path))
        node.traced_paths.discard(path)


def on_mkdir(files: LiveFiles, process: Process, call: Call) -> None:
    """Makes a directory, as make_directory() does."""
    make_directory(files, process, files.path_argument(process, call, 0), call.argument(1))


def on_mkdirat(files: LiveFiles, process: Process, call: Call) -> None:
    """Makes a directory at a path that is relative to another one."""
    make_directory(files, process, files.path_argument_at(process, call, 0), call.argument(2))


def make_directory(files: LiveFiles, process: Process, path: Optional[str], mode_word: str) -> None:
    """Makes a directory with the mode in an argument, without the bits of the umask and of SET_ID;
    the sticky bit is only noted. Nothing if the path is None."""
    if path is not None:
        bits = process.path_context.mode_of_new_node(mode_word) & ~SET_ID
        node = Node(is_directory=True, mode=bits & PERMISSIONS)
        files.add_new_node(path, node)
        files.recording.note_extra_bits(node.traced_path, bits)


def on_link(files: LiveFiles, process: Process, call: Call) -> None:
    """Gives a file another name, as add_link() does. A symbolic link at the end of the old path
    isn't followed: it gets the name itself."""
    node = files.node_argument(process, call, follow_last_link=False)
    add_link(files, node, files.path_argument(process, call, 1))


def on_linkat(files: LiveFiles, process: Process, call: Call) -> None:
    """Gives a file another name, by paths that are relative to directories. With AT_SYMLINK_FOLLOW
    a symbolic link at the end of the old path is followed. An empty old path means the
    descriptor's own file."""
    follow_last_link = 'AT_SYMLINK_FOLLOW' in call.argument(4)
    node = files.node_argument_at(process, call, follow_last_link=follow_last_link)
    add_link(files, node, files.path_argument_at(process, call, 2))


def add_link(files: LiveFiles, node: Optional[Node], target: Optional[str]) -> None:
    """Gives a file another name, in the trace too if that has the file; one of O_TMPFILE may get
    its first name. If the file isn't known (None), that is reported, and the live tree gets a new
    file whose bytes aren't known. Nothing if the target is None."""
    if target is None:
        return
    if node is None:
        files.recording.report(
            'a link to a file without a name, or from outside the directory', target
        )
        files.tree.add_name(target, Node.unknown())
    elif node.is_temporary and not node.names:
        name_temporary_file(files, node, target)
    else:
        files.tree.add_name(target, node)
        source = node.traced_path
        if source is not None and files.recording.add_operation(Link(source, target)):
            node.traced_paths.add(target)


def name_temporary_file(files: LiveFiles, node: Node, path: str) -> None:
    """Gives a file of O_TMPFILE its first name, as add_new_node() does. If the trace gets it, then
    with all its bytes; if these aren't followed any more, that is reported. If the file was synced
    before, that is reported in any case, and a trace that has the file gets the sync then."""
    files.add_new_node(path, node)
    is_traced = path in node.traced_paths
    if is_traced and node.data is None:
        files.recording.report('a file of O_TMPFILE whose bytes are not in the log', path)
    elif is_traced and node.data:
        files.write_bytes(node, 0, bytes(node.data))
    if node.was_synced:
        files.recording.report(
            'a file of O_TMPFILE that was synced before it had this name: the trace '
            'has the sync after the name',
            path,
        )
        files.sync_file(node)


def on_symlink(files: LiveFiles, process: Process, call: Call) -> None:
    """Makes a symbolic link, whose target is the first argument."""
    make_symbolic_link(files, files.path_argument(process, call, 1), call.argument(0))


def on_symlinkat(files: LiveFiles, process: Process, call: Call) -> None:
    """Makes a symbolic link, whose target is the first argument, at a path that is relative to a
    directory."""
    make_symbolic_link(files, files.path_argument_at(process, call, 1), call.argument(0))


def make_symbolic_link(files: LiveFiles, path: Optional[str], target_word: str) -> None:
    """Makes a symbolic link with the target in an argument. If no trace may have the target, or
    strace cut it, that is reported, as add_untraceable_node() does, and the link isn't followed.
    Nothing if the path is None."""
    target = arguments.parse_path(target_word)
    if target is None:
        what = 'a symbolic link whose target is not in the log was made'
        add_untraceable_node(files, path, what)
    elif target_fault(target):
        add_untraceable_node(files, path, f'{target_fault(target)} was made')
    elif path is not None:
        files.add_new_node(path, Node.symbolic_link(target))


def on_mknod(files: LiveFiles, process: Process, call: Call) -> None:
    """Makes a plain file, or reports another kind of node, as make_file() does."""
    make_file(files, process, files.path_argument(process, call, 0), call.argument(1))


def on_mknodat(files: LiveFiles, process: Process, call: Call) -> None:
    """Makes a plain file at a path that is relative to a directory, or reports another kind of
    node."""
    make_file(files, process, files.path_argument_at(process, call, 0), call.argument(2))


def make_file(files: LiveFiles, process: Process, path: Optional[str], mode_word: str) -> None:
    """Makes a plain file with the mode in an argument, without the bits of the umask. If that mode
    is of a device, a pipe or a socket, it is reported, and isn't followed. Nothing if the path is
    None."""
    if path is None:
        return
    if 'S_IFREG' in mode_word or not mode_word.startswith('S_IF'):
        bits = process.path_context.mode_of_new_node(mode_word.rpartition('|')[2])
        files.add_new_file(path, bits)
    else:
        add_untraceable_node(files, path, 'a device or a named pipe was made')


def on_bind(files: LiveFiles, process: Process, call: Call) -> None:
    """Reports a socket that is bound to a path, as add_untraceable_node() does. Nothing if it is
    bound to an abstract name, or to an address of another kind."""
    match = SOCKET_PATH.search(call.argument(1))
    if match:
        path = files.resolve_argument(process.path_context.directory, match[1])
        add_untraceable_node(files, path, 'a socket was bound')


def add_untraceable_node(files: LiveFiles, path: Optional[str], what: str) -> None:
    """Adds to the live tree, as a file that isn't known, something that no trace can have. If the
    trace has its directory, `what` is reported. Nothing if the path is None."""
    if path is None:
        return
    parent = files.tree.node_at(parent_of(path))
    if parent is not None and parent.traced_path is not None:
        files.recording.report(what, path)
    files.tree.add_name(path, Node.unknown())


HANDLERS = {
    'unlink': on_unlink,
    'unlinkat': on_unlinkat,
    'rmdir': on_rmdir,
    'mkdir': on_mkdir,
    'mkdirat': on_mkdirat,
    'link': on_link,
    'linkat': on_linkat,
    'symlink': on_symlink,
    'symlinkat': on_symlinkat,
    'mknod': on_mknod,
    'mknodat': on_mknodat,
    'bind': on_bind,
}
