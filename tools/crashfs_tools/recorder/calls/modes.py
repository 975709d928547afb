"""Calls that change modes and owners. Each `on_NAME` translates a call NAME that has returned; one
on a file that isn't followed changes nothing, but LiveFiles.open_file_or_report() may report it.
LogError if an argument isn't as strace writes it."""

from __future__ import annotations

import stat
from typing import Dict, Optional

from crashfs_tools.common.trace import Chmod, Chown
from crashfs_tools.recorder import acl, arguments
from crashfs_tools.recorder.arguments import parse_digits, parse_integer
from crashfs_tools.recorder.directory import PERMISSIONS, group_name, user_name
from crashfs_tools.recorder.live_tree import Node
from crashfs_tools.recorder.processes import Process, node_of
from crashfs_tools.recorder.live_files import LiveFiles
from crashfs_tools.recorder.strace_log import Call

# The numbers of an owner or group that mean the old one: -1, and -1 of 32 bits without a sign.
UNCHANGED = (-1, 2**32 - 1)


def first_argument_node(files: LiveFiles, process: Process, call: Call) -> Optional[Node]:
    """The file or directory of a call's first argument: of a descriptor, if the call's name begins
    with `f`, or at a path; a name that begins with `l`, as lchown, means a symbolic link itself.
    None if it isn't followed, which may be reported as in LiveFiles.open_file_or_report()."""
    if call.name.startswith('f'):
        return node_of(files.open_file_or_report(process, call))
    follow_last_link = not call.name.startswith('l')
    return files.node_argument(process, call, follow_last_link=follow_last_link)


def on_chmod(files: LiveFiles, process: Process, call: Call) -> None:
    """Sets the mode of the file or directory of the first argument: a path, or, for fchmod, a
    descriptor."""
    node = first_argument_node(files, process, call)
    set_mode(files, node, parse_digits(call.argument(1), 8))


def on_fchmodat(files: LiveFiles, process: Process, call: Call) -> None:
    """Sets the mode of the file at a path that is relative to a directory."""
    node = files.node_argument_at(process, call, follow_last_link=True)
    set_mode(files, node, parse_digits(call.argument(2), 8))


def set_mode(files: LiveFiles, node: Optional[Node], mode: int) -> None:
    """Gives a file or directory a mode. If it has another one in the trace, a chmod is added, and
    has_new_rights of the node is set. Bits beyond 777 are only noted. Nothing if the node is None,
    as it isn't followed."""
    if node is None:
        return
    node.mode = mode & PERMISSIONS
    path = path_in_trace(node)
    if path is None:
        return
    # Some programs also pass the bits of the file's kind, which the kernel ignores.
    files.recording.note_extra_bits(path, stat.S_IMODE(mode))
    if node.mode != files.recording.tree.entries[path].mode:
        node.has_new_rights = files.recording.add_operation(Chmod(path, node.mode))


def on_chown(files: LiveFiles, process: Process, call: Call) -> None:
    """Sets the owner and group of the file or directory of the first argument: a path, or, for
    fchown, a descriptor. For lchown a symbolic link at the path's end isn't followed."""
    node = first_argument_node(files, process, call)
    set_owner(files, node, parse_integer(call.argument(1)), parse_integer(call.argument(2)))


def on_fchownat(files: LiveFiles, process: Process, call: Call) -> None:
    """Sets the owner and group of the file at a path that is relative to a directory. With
    AT_SYMLINK_NOFOLLOW a symbolic link at its end isn't followed. An empty path means the
    descriptor's own file."""
    follow_last_link = 'AT_SYMLINK_NOFOLLOW' not in call.argument(4)
    node = files.node_argument_at(process, call, follow_last_link=follow_last_link)
    set_owner(files, node, parse_integer(call.argument(2)), parse_integer(call.argument(3)))


def set_owner(files: LiveFiles, node: Optional[Node], owner_number: int, group_number: int) -> None:
    """Gives a file or directory in the trace the owner and group with these numbers, by their names
    on this system. A number of UNCHANGED keeps the old owner, or the old group. If one of them is
    new, a chown is added, and has_new_rights of the node is set. Nothing if the node is None, or
    the trace doesn't have it."""
    path = path_in_trace(node)
    if node is None or path is None:
        return
    entry = files.recording.tree.entries[path]
    owner, group = entry.owner, entry.group
    if owner_number not in UNCHANGED:
        owner = user_name(owner_number)
    if group_number not in UNCHANGED:
        group = group_name(group_number)
    if (owner, group) != (entry.owner, entry.group):
        node.has_new_rights = files.recording.add_operation(Chown(path, owner, group))


def path_in_trace(node: Optional[Node]) -> Optional[str]:
    """The first path at which the trace has a file or directory. None if the node has no name any
    more, if the trace doesn't have it, or if it is None."""
    return node.traced_path if node is not None and node.names else None


def on_attribute(files: LiveFiles, process: Process, call: Call) -> None:
    """Notes a change of the extended attributes of a file in the trace. If an access control list
    is set, its rights become the file's mode, and a list that has only a mode isn't noted; nor is
    an empty list, which leaves the mode as it is."""
    node = first_argument_node(files, process, call)
    path = path_in_trace(node)
    if path is None:
        return
    rights = rights_of_list(call)
    if rights:
        set_mode(files, node, acl.mode_of_rights(rights))
    if rights is None or not acl.has_only_mode(rights):
        files.recording.report_note('its extended attributes change, which no trace has', path)


def rights_of_list(call: Call) -> Optional[Dict[int, int]]:
    """The rights of the access control list that a call sets, by the tags of its entries. None if
    it sets another attribute, removes one, or sets what parse_rights() doesn't take for a list."""
    is_set = call.name.endswith('setxattr')
    if not is_set or arguments.parse_path(call.argument(1)) != acl.NAME:
        return None
    return acl.parse_rights(arguments.parse_bytes(call.argument(2)) or b'')


HANDLERS = {
    'chmod': on_chmod,
    'fchmod': on_chmod,
    'fchmodat': on_fchmodat,
    'fchmodat2': on_fchmodat,
    'chown': on_chown,
    'lchown': on_chown,
    'fchown': on_chown,
    'fchownat': on_fchownat,
    'chown32': on_chown,
    'lchown32': on_chown,
    'fchown32': on_chown,
    **{
        f'{kind}{name}': on_attribute
        for kind in ('', 'l', 'f')
        for name in ('setxattr', 'removexattr')
    },
}
