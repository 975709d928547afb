"""Which must-fail edits the gate tries: `python3 -m gating.turns COMMIT FOLDER`, in tools/.

To try an edit, the prover proves its crate once more, so all edits take longer than all proofs.
The gate therefore tries those of a third of the crates: which third, the commit's name decides. The
others are moved to a folder, so that `rt ci` doesn't find them, and back when it has ended. The
last line that is printed says how many are tried. `.ci/run --all-edits` moves none."""

from __future__ import annotations

import argparse
import errno
import os
import shutil
import sys
from pathlib import Path
from typing import Dict, List, Optional

CRATES = Path(__file__).resolve().parent.parent.parent / 'crates'
# How many groups the crates are in. The name of a commit is random, so each group has its turn.
GROUPS = 3
# An edit takes about as long as the proof of so many lines.
LINES_PER_EDIT = 100
# The name of a crate's folder of edits.
EDITS = 'must-fail'


def count_edits(crate: Path) -> int:
    """How many must-fail edits a crate has; 0 if it has no folder of them."""
    return sum(1 for _ in (crate / EDITS).glob('*.edit'))


def edits_cost(crate: Path) -> int:
    """How long the edits of a crate take, as a number of lines that are proved in that time: all of
    the crate once more, and LINES_PER_EDIT for each edit. OSError if a file can't be read."""
    lines = sum(path.read_bytes().count(b'\n') for path in (crate / 'src').rglob('*.rt'))
    return lines + LINES_PER_EDIT * count_edits(crate)


def group_crates(costs: Dict[str, int]) -> List[List[str]]:
    """The names of the crates in GROUPS lists that cost about the same, each list sorted. The same
    costs give the same lists."""
    groups: List[List[str]] = [[] for _ in range(GROUPS)]
    for name in sorted(costs, key=lambda name: (-costs[name], name)):
        cheapest = min(groups, key=lambda group: sum(costs[member] for member in group))
        cheapest.append(name)
    return [sorted(group) for group in groups]


def group_in_turn(commit: str) -> int:
    """The number of the group whose edits are tried at the commit, which is named in hexadecimal
    digits. ValueError if it isn't."""
    return int(commit, 16) % GROUPS


def move_others_aside(commit: str, folder: Path, crates: Path = CRATES) -> str:
    """Moves the edits of the crates whose turn it isn't into `folder`, which is made if it isn't
    there, those of each crate into a new folder of its name. Returns a line that counts the edits
    and crates that stay. ValueError as group_in_turn(), OSError as edits_cost(): then nothing is
    moved. OSError if something can't be moved: then the edits of some crates are moved."""
    costs = {path.parent.name: edits_cost(path.parent) for path in crates.glob(f'*/{EDITS}')}
    edit_count = sum(count_edits(crates / name) for name in costs)
    names_in_turn = group_crates(costs)[group_in_turn(commit)]
    tried_count = sum(count_edits(crates / name) for name in names_in_turn)
    for name in sorted(set(costs) - set(names_in_turn)):
        (folder / name).mkdir(parents=True)
        shutil.move(str(crates / name / EDITS), str(folder / name / EDITS))
    counted_crates = f'{len(names_in_turn)} of {len(costs)} crates'
    return f'edits: {tried_count} of {edit_count}, those of {counted_crates}'


def move_back(folder: Path, crates: Path = CRATES) -> None:
    """Moves the edits that move_others_aside() moved into `folder` back to their crates; the empty
    folders in `folder` stay. Nothing happens if there are no edits. OSError if something can't be
    moved, also if a crate has a folder of edits again: then the edits of some crates are moved."""
    for aside in sorted(folder.glob(f'*/{EDITS}')):
        edits = crates / aside.parent.name / EDITS
        if edits.exists():
            # shutil.move() would put one folder into the other.
            raise FileExistsError(errno.EEXIST, os.strerror(errno.EEXIST), str(edits))
        shutil.move(str(aside), str(edits))


def main(words: Optional[List[str]] = None) -> int:
    """Moves edits as the words ask; None means the words of the command line. Returns 0. A wrong
    word and --help end the program (SystemExit). Errors as move_others_aside() or move_back()."""
    parser = argparse.ArgumentParser(prog='gating.turns', description=__doc__)
    parser.add_argument('commit', nargs='?', help='whose name decides; without it, all go back')
    parser.add_argument('folder', type=Path, help='where the others are meanwhile')
    options = parser.parse_args(words)
    if options.commit is None:
        move_back(options.folder)
    else:
        print(move_others_aside(options.commit, options.folder), flush=True)
    return 0


if __name__ == '__main__':
    sys.exit(main())
