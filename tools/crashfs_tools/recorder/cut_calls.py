"""Reports changes that were cut by the end of their threads: the log doesn't show whether they were
done."""

from __future__ import annotations

from typing import List, Optional

from . import arguments, call_order
from .calls.opens import CREAT_FLAGS, may_follow_last_link
from .live_files import LiveFiles
from .processes import Process
from .strace_log import UNFINISHED, Call

# Calls, other than opens, that follow a symbolic link at the end of their path.
FOLLOWING_CALLS = (
    *('chmod', 'fchmodat', 'fchmodat2', 'chown', 'chown32', 'fchownat'),
    *('truncate', 'truncate64'),
)


def may_be_change(call: Call) -> bool:
    """Whether a cut call may have changed more than extended attributes, by its name: an open may
    make or truncate a file."""
    changes = call_order.CHANGES - call_order.ATTRIBUTE_CHANGES
    return call.name in changes or call.name in call_order.OPENS


def report_cut_change(files: LiveFiles, process: Process, call: Call) -> None:
    """Reports a cut call for which may_be_change() is True, if it has cut_targets(). The report
    names the first target; what is at the others may differ at the end."""
    targets = cut_targets(files, process, call)
    if targets:
        files.recording.report(
            f'{call.name} was cut by the end of its thread: whether it was '
            'done is not in the log',
            targets[0],
        )
        files.recording.differing_paths.update(targets[1:])


def cut_targets(files: LiveFiles, process: Process, call: Call) -> List[str]:
    """The paths in the directory, or the name of the stream, that a call would change; for an open,
    the paths of files that it would make or truncate."""
    if call.name in call_order.DESCRIPTOR_CHANGES:
        return targets_by_descriptor(files, process, call)
    targets = targets_by_path(files, process, call)
    if call.name in call_order.OPENS:
        return [path for path in targets if would_open_change(files, call, path)]
    return targets


def would_open_change(files: LiveFiles, call: Call, path: str) -> bool:
    """Whether an open of this path would make a file, as nothing is there, or truncate the one that
    is there, which isn't empty."""
    flags = CREAT_FLAGS if call.name == 'creat' else ' '.join(call.arguments[1:])
    node = files.tree.node_at(path)
    if node is None:
        return 'O_CREAT' in flags
    return 'O_TRUNC' in flags and node.size > 0


def targets_by_descriptor(files: LiveFiles, process: Process, call: Call) -> List[str]:
    """The name of the stream, or the path of the file, that a call of DESCRIPTOR_CHANGES would
    change, as a list of one. Empty if the file is outside the directory or ignored, or if strace
    shows no path of the descriptor."""
    index = call_order.target_index(call)
    stream = files.find_output_stream(process, call, index)
    if stream is not None:
        return [stream.name]
    shown_path = call.descriptor(index).path
    path = files.resolve_path(shown_path) if shown_path else None
    return [] if path is None else [path]


def targets_by_path(files: LiveFiles, process: Process, call: Call) -> List[str]:
    """The paths that a call would change, by its arguments that are paths; without those outside
    the directory, ignored ones, and those that strace cut. A relative path begins at the directory
    of the descriptor before it, or else at the working directory. Of a link only the new path is
    changed."""
    follow_last_link = is_last_link_followed(call)
    base = process.path_context.directory
    paths: List[Optional[str]] = []
    for argument in call.arguments:
        word = argument.removesuffix(UNFINISHED).rstrip()
        shown = arguments.parse_descriptor(word)
        if word.startswith('"'):
            paths.append(files.resolve_argument(base, word, follow_last_link=follow_last_link))
        elif shown != arguments.NO_DESCRIPTOR:
            base = process.directory_of(shown)
    if call.name.startswith(('link', 'symlink')):
        paths = paths[-1:]
    return [path for path in paths if path is not None]


def is_last_link_followed(call: Call) -> bool:
    """Whether a call follows a symbolic link at the end of its path."""
    words = ' '.join(call.arguments)
    if call.name in call_order.OPENS:
        return may_follow_last_link(words)
    return call.name in FOLLOWING_CALLS and 'AT_SYMLINK_NOFOLLOW' not in words
