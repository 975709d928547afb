"""Calls that rename files and directories, or exchange them. Each `on_NAME` translates a call NAME
that has returned; LogError if an argument isn't as strace writes it. A path that is None is outside
the directory, ignored, or was cut by strace: it isn't followed."""

from __future__ import annotations

from typing import Dict, Optional

from crashfs_tools.common.trace import Rename
from crashfs_tools.recorder.calls.names import remove_directory_name, remove_name
from crashfs_tools.recorder.live_files import LiveFiles
from crashfs_tools.recorder.live_tree import Node
from crashfs_tools.recorder.processes import Process, move_working_directories
from crashfs_tools.recorder.resolving import removed_path
from crashfs_tools.recorder.strace_log import Call


def on_rename(files: LiveFiles, process: Process, call: Call) -> None:
    """Renames a file or directory by two paths, as rename_path() does."""
    base = process.path_context.directory
    source = files.full_path(base, call.argument(0))
    target = files.full_path(base, call.argument(1))
    rename_path(files, source, target, flags='')


def on_renameat(files: LiveFiles, process: Process, call: Call) -> None:
    """Renames a file or directory by paths that are relative to directories, as rename_path() does.
    Only renameat2 has flags."""
    source = files.full_path(process.directory_of(call.descriptor(0)), call.argument(1))
    target = files.full_path(process.directory_of(call.descriptor(2)), call.argument(3))
    rename_path(files, source, target, flags=call.argument(4))


def rename_path(
    files: LiveFiles, full_source: Optional[str], full_target: Optional[str], *, flags: str
) -> None:
    """Renames a file or directory by absolute paths, or exchanges two, as the flags say, and gives
    the processes in them their new working directories. A rename of the recorded directory itself,
    or onto it, is only reported; so is a device that RENAME_WHITEOUT leaves. If both paths are
    outside the directory, ignored, or None, nothing else changes, and if the recorded directory is
    below one of them, the processes in it stay where they are."""
    source, target = files.path_in_tree(full_source), files.path_in_tree(full_target)
    if '/' in (source, target):
        files.recording.report('the directory itself was renamed, or replaced', '/')
        return
    new_paths = paths_after_rename(full_source, full_target, flags)
    # The calls in the recorded directory are followed at its old path.
    if not any(f'{files.conditions.top}/'.startswith(f'{path}/') for path in new_paths):
        move_working_directories(files.processes.values(), new_paths)
    if source is None and target is None:
        return
    if source is not None and 'RENAME_WHITEOUT' in flags:
        files.recording.report('RENAME_WHITEOUT left a device', source)
    if 'RENAME_EXCHANGE' in flags:
        exchange_paths(files, source, target)
    else:
        move_path(files, source, target)


def paths_after_rename(source: Optional[str], target: Optional[str], flags: str) -> Dict[str, str]:
    """The new paths, by the old ones, of the directories that were at two absolute paths before a
    rename. The one at the target has its removed_path(), if the rename isn't an exchange, and if
    the paths differ. Empty if a path isn't known (None)."""
    if source is None or target is None:
        return {}
    target_after = source if 'RENAME_EXCHANGE' in flags else removed_path(target)
    # If the paths are equal, the last value counts.
    return {target: target_after, source: target}


def exchange_paths(files: LiveFiles, source: Optional[str], target: Optional[str]) -> None:
    """Exchanges what is at two paths of the tree, as exchange_names() does. If one path is None, or
    nothing is known at the source, the other path gets a file, as add_from_outside() adds it."""
    if source is None or files.tree.node_at(source) is None:
        add_from_outside(files, target)
    elif target is None:
        add_from_outside(files, source)
    else:
        exchange_names(files, source, target)


def move_path(files: LiveFiles, source: Optional[str], target: Optional[str]) -> None:
    """Moves what is at one path of the tree to another; if the target is None, it is removed. If
    the source is None, or nothing is known there, the target gets a file, as add_from_outside()
    adds it. Nothing happens if both paths are names of one file."""
    node = files.tree.node_at(source)
    if source is None or node is None:
        add_from_outside(files, target)
    elif target is None:
        move_outside(files, source, node)
    elif files.tree.node_at(target) is not node:
        rename_node(files, source, target, node)


def add_from_outside(files: LiveFiles, target: Optional[str]) -> None:
    """Adds a file whose bytes aren't known, since it was renamed from outside or from an ignored
    path, and reports that. What is at the target, and below it, is replaced in the live tree; the
    trace keeps it. Nothing if the target is None."""
    if target is None:
        return
    files.recording.report('renamed to from outside the directory, or from an ignored name', target)
    if target in files.tree.nodes:
        forget_tree(files, target)
    files.tree.add_name(target, Node.unknown())


def move_outside(files: LiveFiles, source: str, node: Node) -> None:
    """Removes a file or directory that was renamed to a path outside, or to an ignored one. A
    directory with entries is reported: it isn't followed any more, but the trace keeps it. The
    processes that are in it must have their new working directory already."""
    if node.is_directory and files.tree.paths_below(source):
        files.recording.report('a directory with entries was renamed out of the directory', source)
        forget_tree(files, source)
    elif node.is_directory:
        remove_directory_name(files, source)
    else:
        remove_name(files, source)


def forget_tree(files: LiveFiles, path: str) -> None:
    """Removes what is at a path, which must be known, and below it, from the live tree only. The
    trace keeps it, but not as a traced path of its node: it isn't followed any more."""
    for forgotten_path in [path] + files.tree.paths_below(path):
        files.tree.remove_name(forgotten_path).traced_paths.discard(forgotten_path)


def exchange_names(files: LiveFiles, source: str, target: str) -> None:
    """Exchanges what is at two paths; nothing if they are one. No trace has that: it is reported,
    and what the trace has at the paths may differ at the end. In the live tree two files get each
    other's name. A directory is forgotten, and a file that is exchanged with it keeps its name."""
    if source == target:
        return
    files.recording.report(f'exchanged with {target}, which no trace can say', source)
    files.recording.differing_paths.add(target)
    for path in (source, target):
        stop_tracing_path(files, path)
    if source in files.tree.nodes and target in files.tree.nodes:
        source_node, target_node = files.tree.remove_name(source), files.tree.remove_name(target)
        files.tree.add_name(target, source_node)
        files.tree.add_name(source, target_node)


def stop_tracing_path(files: LiveFiles, path: str) -> None:
    """Removes a path from the traced paths of the file that is there, or forgets the directory that
    is there, as forget_tree() does. Nothing if nothing is known there."""
    node = files.tree.node_at(path)
    if node is not None and node.is_directory:
        forget_tree(files, path)
    elif node is not None:
        node.traced_paths.discard(path)


def rename_node(files: LiveFiles, source: str, target: str, node: Node) -> None:
    """Renames a file or directory within the recorded directory, in the trace too if that has it. A
    file or directory at the target is replaced. If the trace has no name of a file that is renamed,
    that is reported."""
    if target in files.tree.nodes:
        remove_replaced_name(files, files.tree.remove_name(target), target)
    files.tree.move_node(source, target)
    if node.is_directory:
        rename_directory_in_trace(files, node, source, target)
    elif source in node.traced_paths:
        files.rename_in_trace(node, source, target)
    elif not node.traced_paths:
        files.recording.report('renamed to from a file that is not in the trace', target)


def remove_replaced_name(files: LiveFiles, node: Node, path: str) -> None:
    """Removes a path, to which another node is renamed, from the traced paths of the node that was
    there; the live tree must have removed its name already. If it keeps only names that the trace
    lacks, that is reported."""
    if path in node.traced_paths:
        node.traced_paths.discard(path)
        if node.names and not node.traced_paths:
            files.recording.report('a file was replaced that has another name by a link', path)


def rename_directory_in_trace(files: LiveFiles, node: Node, source: str, target: str) -> None:
    """Renames a directory in the trace; the live tree must have moved it already. If the trace
    lacks the directory, or can't rename it, that is reported, and what is done below it is left out
    from then on."""
    if source in node.traced_paths and files.recording.may_have_newest_version:
        if files.recording.add_operation(Rename(source, target)):
            files.tree.move_traced_paths(source, target)
            return
    files.recording.report(
        f'a directory was renamed to {target}: no trace can say it; what is done '
        'below it is left out',
        source,
    )
    files.recording.differing_paths.add(target)
    for path in [target] + files.tree.paths_below(target):
        files.tree.nodes[path].traced_paths.discard(source + path[len(target) :])


HANDLERS = {
    'rename': on_rename,
    'renameat': on_renameat,
    'renameat2': on_renameat,
}
