"""Adds what the directory has at the start to the live tree and to the trace's start tree."""

from __future__ import annotations

from typing import List

from crashfs_tools.common import limits
from crashfs_tools.common.trace import StartLine, StartLink

from .directory import IsIgnored, Scan, ScannedEntry
from .live_files import LiveFiles, StartConditions
from .live_tree import LiveTree, Node, new_node
from .recording import Recording


def files_at_start(
    recording: Recording,
    conditions: StartConditions,
    scan: Scan,
    is_ignored: IsIgnored,
    *,
    has_copies: bool = False,
) -> LiveFiles:
    """The files at the start of a session, from a scan. Adds the scan to the recording's start tree
    too, which must be empty, and reports what that leaves out."""
    root = Node(is_directory=True, mode=scan.header.mode, traced_paths={'/'})
    tree = LiveTree(root)
    files = LiveFiles(recording, conditions, is_ignored, tree, has_copies=has_copies)
    # The root is a record too.
    for entry in scan.entries[: limits.RECORDS - 1]:
        source = scan.links.get(entry.path)
        if source is None:
            add_start_node(recording, tree, new_node(entry), entry)
        else:
            add_start_node(recording, tree, tree.nodes[source], StartLink(entry.path, source))
    add_excess_entries(recording, tree, scan.entries[limits.RECORDS - 1 :])
    add_omissions(recording, tree, scan)
    report_notes(recording, scan)
    return files


def add_start_node(recording: Recording, tree: LiveTree, node: Node, line: StartLine) -> None:
    """Adds a node to the live tree, at the path of a start line, and this line to the trace. A
    symbolic link that the trace's version can't have is only in the live tree, and reported."""
    tree.add_name(line.path, node)
    if recording.add_start_line(line):
        node.traced_paths.add(line.path)
    else:
        recording.report('the start tree leaves out a symbolic link', line.path)


def add_excess_entries(recording: Recording, tree: LiveTree, entries: List[ScannedEntry]) -> None:
    """Adds to the live tree, as files whose bytes aren't known, the entries beyond the number that
    a trace may have. Their paths are added to the recording's differing_paths, and their number is
    reported, unless it is 0."""
    if entries:
        recording.report(
            f'the start tree leaves out {len(entries):,} of its files and directories: '
            f'a trace has {limits.RECORDS - 1:,} at most',
            '/',
        )
    for entry in entries:
        recording.differing_paths.add(entry.path)
        tree.add_name(entry.path, Node.unknown())


def add_omissions(recording: Recording, tree: LiveTree, scan: Scan) -> None:
    """Adds a scan's omissions to the live tree, as files whose bytes aren't known, and reports
    them."""
    for path, reason in scan.omissions:
        recording.report(f'the start tree leaves out {reason}', path)
        tree.add_name(path, Node.unknown())


def report_notes(recording: Recording, scan: Scan) -> None:
    """Reports, as notes, mode bits beyond 777, and then the notes of a scan."""
    bits_as_notes = [
        (path, f'its mode bits {bits:o}, beyond 777') for path, bits in scan.extra_mode_bits.items()
    ]
    notes = [(path, f'that it has {note}') for path, note in scan.notes]
    for path, omission in bits_as_notes + notes:
        recording.report_note(f'the start tree leaves out {omission}', path)
