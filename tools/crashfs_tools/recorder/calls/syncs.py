"""Calls that sync, and that map files. Each `on_NAME` translates a call NAME that has returned; one
on a file that isn't followed changes nothing, but LiveFiles.open_file_or_report() may report it.
LogError if an argument isn't as strace writes it."""

from __future__ import annotations

from typing import Optional

from crashfs_tools.common.sparse import round_up_to_pages
from crashfs_tools.common.trace import Sync
from crashfs_tools.recorder.arguments import parse_integer
from crashfs_tools.recorder.live_tree import Node
from crashfs_tools.recorder.mappings import Mapping
from crashfs_tools.recorder.processes import Process, node_of
from crashfs_tools.recorder.live_files import LiveFiles
from crashfs_tools.recorder.strace_log import Call

NOT_FOLLOWED = (
    'mapped for writing: what is stored through the mapping is left out (--mapped follows it)'
)


def on_fsync(files: LiveFiles, process: Process, call: Call) -> None:
    """Syncs an open file or directory, with its mode and owner: LiveFiles.sync_file()."""
    node = node_of(files.open_file_or_report(process, call))
    if node is not None:
        files.sync_file(node)


def on_fdatasync(files: LiveFiles, process: Process, call: Call) -> None:
    """Syncs the bytes and the size of an open file. An open directory is synced as by fsync; if its
    mode or owner was changed since its last sync, that is reported."""
    node = node_of(files.open_file_or_report(process, call))
    if node is not None:
        files.sync_data(node)


def on_sync(files: LiveFiles, process: Process, call: Call) -> None:
    """Syncs all files and directories."""
    sync_all(files)


def on_syncfs(files: LiveFiles, process: Process, call: Call) -> None:
    """Syncs all files and directories, if the path that strace shows for the descriptor is in the
    directory and not ignored. Any other syncfs is left out, which is reported."""
    path = call.descriptor().path
    if path is not None and files.resolve_path(path) is not None:
        sync_all(files)
    else:
        files.recording.report('syncfs by a file outside the directory is left out', '/')


def sync_all(files: LiveFiles) -> None:
    """Adds a sync of everything. Sets was_synced of all nodes, since a file of O_TMPFILE may get
    its name later, and clears their has_new_rights, as LiveFiles.sync_file() does for one."""
    for node in {*files.temporary_files, *files.tree.nodes.values()}:
        node.was_synced, node.has_new_rights = True, False
    files.recording.add_operation(Sync())


def on_sync_file_range(files: LiveFiles, process: Process, call: Call) -> None:
    """Notes a sync_file_range, if the trace has the file. The trace gets no sync, as the call
    promises nothing about a crash."""
    node = node_of(files.open_file_or_report(process, call))
    if node is not None and node.traced_path is not None:
        what = 'sync_file_range: it promises nothing of a crash, and is left out'
        files.recording.report_note(what, node.traced_path)


def on_mmap(files: LiveFiles, process: Process, call: Call) -> None:
    """Unmaps what was mapped at the addresses of a new mapping, and adds the new one if it is
    shared and of a followed file: a private one changes no file. A shared one for writing is
    reported, unless copies show what is stored through it."""
    length = round_up_to_pages(parse_integer(call.argument(1)))
    process.memory.unmap(call.result, length)
    node = node_to_map(process, call)
    if node is None or 'MAP_SHARED' not in call.argument(3):
        return
    offset = parse_integer(call.argument(5, '0'))
    process.memory.map(Mapping(call.result, length, node, offset))
    if 'PROT_WRITE' in call.argument(2):
        report_mapped(files, process, call.result, length)


def node_to_map(process: Process, call: Call) -> Optional[Node]:
    """The file that an mmap maps; None if it isn't followed, and for memory without a file."""
    return node_of(process.open_file(call.descriptor(4)))


def on_munmap(files: LiveFiles, process: Process, call: Call) -> None:
    """Unmaps the whole pages of a range of addresses."""
    process.memory.unmap(parse_integer(call.argument(0)), parse_integer(call.argument(1)))


def on_mremap(files: LiveFiles, process: Process, call: Call) -> None:
    """Moves a mapping, or gives it another length, as Memory.move() does. With MREMAP_DONTUNMAP the
    old addresses stay mapped."""
    old_address, old_length, length = [parse_integer(call.argument(index)) for index in range(3)]
    keep_old = 'DONTUNMAP' in call.argument(3)
    process.memory.move(old_address, old_length, call.result, length, keep_old=keep_old)


def on_mprotect(files: LiveFiles, process: Process, call: Call) -> None:
    """Reports the files that are mapped in a range of addresses, if it becomes writable."""
    if 'PROT_WRITE' in call.argument(2):
        report_mapped(
            files, process, parse_integer(call.argument(0)), parse_integer(call.argument(1))
        )


def report_mapped(files: LiveFiles, process: Process, address: int, length: int) -> None:
    """Reports each file of the trace that is mapped in a range of addresses, to which the process
    may store from now on. Nothing if copies show what is stored there."""
    if files.has_copies:
        return
    for part in process.memory.parts_in(address, length):
        if part.node.traced_path is not None:
            files.recording.report(NOT_FOLLOWED, part.node.traced_path)


def on_msync(files: LiveFiles, process: Process, call: Call) -> None:
    """Syncs the bytes of files that are mapped in a range of addresses, in whole pages. Nothing
    without MS_SYNC, as nothing is waited for then."""
    if 'MS_SYNC' not in call.argument(2):
        return
    length = round_up_to_pages(parse_integer(call.argument(1)))
    for part in process.memory.parts_in(parse_integer(call.argument(0)), length):
        files.sync_range(part.node, part.offset, part.length)


HANDLERS = {
    'fsync': on_fsync,
    'fdatasync': on_fdatasync,
    'sync': on_sync,
    'syncfs': on_syncfs,
    'sync_file_range': on_sync_file_range,
    'sync_file_range2': on_sync_file_range,
    'mmap': on_mmap,
    'mmap2': on_mmap,
    'munmap': on_munmap,
    'mremap': on_mremap,
    'mprotect': on_mprotect,
    'msync': on_msync,
}
