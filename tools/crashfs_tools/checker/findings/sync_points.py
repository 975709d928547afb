"""Where syncs belong: as few as keep all lost lines before the lines that were kept."""

from __future__ import annotations

from typing import Dict, Iterable, NamedTuple, Optional, Tuple

from crashfs_tools.common.trace_lines import SYNCS, TraceLine

# Pairs of the numbers of lines: first the one that was lost, then the one that was kept.
LinePairs = Iterable[Tuple[int, int]]


class Interval(NamedTuple):
    """Where a sync of the path is needed: after the line `begin` or a later line, and before the
    line `end`, by their numbers. Intervals are sorted by their ends."""

    end: int
    begin: int
    path: str


def sync_points(pairs: LinePairs, lines: Dict[int, TraceLine]) -> Dict[int, str]:
    """The paths to sync, each by the number of the line after which the sync comes: as few syncs as
    serve all pairs. A sync serves a pair of its path if it comes between the two lines, and before
    the path names something else. Pairs whose lost line isn't in `lines`, or is made durable by no
    sync, are left out."""
    points: Dict[int, str] = {}
    intervals = (sync_interval(*pair, lines) for pair in pairs)
    unserved = sorted(interval for interval in intervals if interval is not None)
    while unserved:
        path, end = unserved[0].path, unserved[0].end
        served = [
            interval for interval in unserved if interval.path == path and interval.begin < end
        ]
        points[max(interval.begin for interval in served)] = path
        unserved = [interval for interval in unserved if interval not in served]
    return points


def sync_interval(
    lost_number: int, kept_number: int, lines: Dict[int, TraceLine]
) -> Optional[Interval]:
    """The interval between a lost line and a later kept one, in which a sync makes the lost line
    durable. It ends earlier if the path to sync may name something else from a line between them
    on. None if the lost line isn't in `lines`, or is made durable by no sync."""
    path = lines[lost_number].path_to_fsync if lost_number in lines else None
    if path is None:
        return None
    change = first_path_change(path, range(lost_number + 1, kept_number), lines)
    return Interval(change.number if change else kept_number, lost_number, path)


def first_path_change(
    path: str, numbers: range, lines: Dict[int, TraceLine]
) -> Optional[TraceLine]:
    """The first of the lines with these numbers after which a path may no longer name what it named
    before; None if there is none. Numbers that `lines` doesn't have are skipped."""
    operations = (lines[number] for number in numbers if number in lines)
    return next((line for line in operations if line.may_change_path(path)), None)


def is_synced(path: str, lines: Dict[int, TraceLine]) -> bool:
    """Whether one of the trace's lines syncs a path, or everything at once."""
    return any(
        line.word in SYNCS and (line.path == path or line.word == 'sync') for line in lines.values()
    )


def never_synced_directory(syncs: Dict[int, str], lines: Dict[int, TraceLine]) -> str:
    """The path of the directory that all advised syncs are of, if the session never syncs that
    directory. `syncs` has the path of each, by the number of the line before it. An empty text if
    the session syncs the directory, if the syncs are of several paths, if one comes after a change
    of its own path, as of a file, or if there are none."""
    paths = set(syncs.values())
    if len(paths) != 1:
        return ''
    (path,) = paths
    is_directory = all(lines[number].path != path for number in syncs if number in lines)
    return path if is_directory and not is_synced(path, lines) else ''
