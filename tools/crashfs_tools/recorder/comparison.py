"""Compares the directory at the end with the trace's last state: a difference is an error of the
recording."""

from __future__ import annotations

from typing import Collection, Dict, Iterable, List

from crashfs_tools.common.entry import Entries, Entry, ancestors_and_path
from crashfs_tools.common.program import Crashfs
from crashfs_tools.common.trace import StartSymlink
from crashfs_tools.common.trace_read import tree_at_end
from crashfs_tools.common.tree import Tree, symlink_entry

from .directory import Scan, ScannedEntry


def entries_by_replay(lines: Iterable[str]) -> Entries:
    """The entries at a trace's end, without the root, by the recorder's own replay of its lines,
    which may end in line feeds. TraceError, ValueError or KeyError for a trace that `crashfs` would
    refuse, as in tree_at_end(); any error that the lines raise."""
    tree = tree_at_end(lines)
    del tree.entries['/']
    return tree.entries


def entries_by_program(program: Crashfs, trace_path: str) -> Entries:
    """The entries at a trace's end, without the root, by `crashfs tar`: they are those of the last
    prefix. ProgramFault if the program refuses the trace or can't be started; OSError as in
    Crashfs.start()."""
    number = program.count_states(trace_path, with_holes=False) - 1
    return program.tree_of_state(trace_path, number)


def lines_on_differences(
    directory: Scan, last_state: Entries, reported_paths: Collection[str]
) -> List[str]:
    """A line for each difference between a scanned directory and the trace's last state, sorted by
    path, except at and below the reported paths. The directory itself, hard links and extended
    attributes aren't compared."""
    scanned_entries = {entry.path: entry for entry in directory.entries}
    lines = []
    for path in sorted(scanned_entries.keys() | last_state.keys()):
        if is_at_or_below(path, reported_paths):
            continue
        if path not in last_state:
            lines.append(f'{path}: it is there at the end, and the trace has it not')
        elif path not in scanned_entries:
            lines.append(f'{path}: the trace has it, and at the end it is not there')
        else:
            differences = entry_differences(tree_entry(scanned_entries[path]), last_state[path])
            lines += [f'{path}: {difference}' for difference in differences]
    return lines


def tree_entry(entry: ScannedEntry) -> Entry:
    """A scanned entry as an entry of a tree. Both share their bytes, which must not be changed."""
    if isinstance(entry, StartSymlink):
        return symlink_entry(entry)
    return Entry(entry.owner, entry.group, entry.mode, entry.data)


def is_at_or_below(path: str, others: Collection[str]) -> bool:
    """Whether a path is one of some others, or below one of them. The root counts only for the path
    `/` itself."""
    return any(directory in others for directory in ancestors_and_path(path))


def entry_differences(at_end: Entry, traced: Entry) -> List[str]:
    """A sentence for each difference between an entry at the end and the one in the trace; empty if
    there is none. If their kinds differ, or the targets of symbolic links, nothing else is
    compared."""
    if at_end.kind != traced.kind:
        return [f'it is {at_end.kind} at the end, and {traced.kind} in the trace']
    if at_end.link != traced.link:
        text_at_end = f'it is a symbolic link to {at_end.link} at the end'
        return [f'{text_at_end}, and one to {traced.link} in the trace']
    differences = []
    if at_end.data != traced.data:
        differences.append('its bytes at the end are not those that the trace gives it')
    if at_end.mode != traced.mode:
        differences.append(
            f'its mode is {at_end.mode:03o} at the end, and {traced.mode:03o} in the trace'
        )
    if (at_end.owner, at_end.group) != (traced.owner, traced.group):
        differences.append(
            f'its owner is {at_end.owner}:{at_end.group} at the end, and '
            f'{traced.owner}:{traced.group} in the trace'
        )
    return differences


def lines_on_links(directory: Scan, last_tree: Tree, reported_paths: Collection[str]) -> List[str]:
    """A line for each path at which a scanned directory and the trace's last tree both have
    something, if they differ in whether it is a hard link, or to which path; sorted by path. There
    is no line on the reported paths and what is below them."""
    traced_first_paths = first_paths_of_files(last_tree)
    lines = []
    for path in sorted(traced_first_paths.keys() & {entry.path for entry in directory.entries}):
        first_path, traced_first_path = directory.links.get(path, path), traced_first_paths[path]
        if first_path != traced_first_path and not is_at_or_below(path, reported_paths):
            is_link = first_path != path
            kind = f'a link to {first_path}' if is_link else f'no link to {traced_first_path}'
            lines.append(f'{path}: it is {kind} at the end, and not so in the trace')
    return lines


def first_paths_of_files(tree: Tree) -> Dict[str, str]:
    """For each path of a tree the first, in the order of a scan, of all paths of its file: the path
    itself if the file has no earlier one."""
    first_paths: Dict[int, str] = {}
    for path in sorted(tree.files, key=lambda path: path.split('/')):
        first_paths.setdefault(tree.files[path], path)
    return {path: first_paths[number] for path, number in tree.files.items()}


def lines_on_changed_attributes(
    at_start: Scan, at_end: Scan, known_paths: Collection[str]
) -> List[str]:
    """A line for each path, sorted, whose extended attributes aren't the same in two scans; a path
    that a scan lacks has none there. There is no line on the known paths, but there are lines on
    what is below them."""
    return [
        f'not in the trace: {path}: its extended attributes differ, which no trace has'
        for path in sorted(at_start.attributes.keys() | at_end.attributes.keys())
        if at_start.attributes.get(path) != at_end.attributes.get(path) and path not in known_paths
    ]


def lines_on_new_notes(at_start: Scan, at_end: Scan, known_paths: Collection[str]) -> List[str]:
    """A line for each note that only the scan at the end has. There is no line on the known paths,
    but there are lines on what is below them."""
    return [
        f'not in the trace: {path}: it has {note} at the end'
        for path, note in at_end.notes
        if (path, note) not in at_start.notes and path not in known_paths
    ]


def lines_on_new_omissions(
    at_start: Scan, at_end: Scan, reported_paths: Collection[str]
) -> List[str]:
    """A line for each omission, such as a device, that only the scan at the end has. There is no
    line on the reported paths and what is below them."""
    return [
        f'{path}: at the end it is {reason}, which no trace has'
        for path, reason in at_end.omissions
        if (path, reason) not in at_start.omissions and not is_at_or_below(path, reported_paths)
    ]
