"""What crates.txt says of the crates: which crates each of them uses."""

from __future__ import annotations

from pathlib import Path
from typing import Dict, List, Set

from crashfs_tools.common.command import Refused

TOP = Path(__file__).resolve().parents[2]
PROGRAM = 'crashfs'


def uses_by_crate(crates_text: str) -> Dict[str, List[str]]:
    """What each crate uses, by the text of crates.txt: crates of this repository and of the kit.
    Comments, from `#` on, and further words before a colon are left out; of two lines for a crate
    the last one counts. Refused if a line that isn't blank has no colon, or no crate before it."""
    uses: Dict[str, List[str]] = {}
    for number, line in enumerate(crates_text.splitlines(), start=1):
        crate_line = line.partition('#')[0].strip()
        if not crate_line:
            continue
        first_words, colon, used_crates = crate_line.partition(':')
        if not colon:
            raise Refused(f'crates.txt: line {number} has no colon')
        if not first_words:
            raise Refused(f'crates.txt: line {number} has no crate before its colon')
        uses[first_words.split()[0]] = used_crates.split()
    return uses


def read_uses(top: Path) -> Dict[str, List[str]]:
    """What each crate uses, by crates.txt of the repository at `top` as it is now. Refused as in
    uses_by_crate(), if the file can't be read or isn't UTF-8, and if a crate that has a line has no
    folder in crates/."""
    try:
        uses = uses_by_crate((top / 'crates.txt').read_text('utf-8'))
    except OSError as error:
        raise Refused(f'crates.txt: {error.strerror}') from error
    except UnicodeDecodeError as error:
        raise Refused('crates.txt: it is not UTF-8') from error
    missing_crates = [name for name in uses if not (top / 'crates' / name).is_dir()]
    if missing_crates:
        raise Refused(f'crates.txt: crates that are not there: {", ".join(missing_crates)}')
    return uses


def crates_below(uses: Dict[str, List[str]], name: str) -> Set[str]:
    """The crates that a crate uses, directly or not. The crate itself is among them only if it is
    in a cycle. A crate that is no key of `uses`, such as one of the kit, uses none."""
    crates: Set[str] = set()
    remaining_crates = [name]
    while remaining_crates:
        new_crates = set(uses.get(remaining_crates.pop(), ())) - crates
        crates |= new_crates
        remaining_crates.extend(new_crates)
    return crates


def library_uses() -> Dict[str, List[str]]:
    """What each library of the program uses, directly: crates of this repository. The libraries are
    the crates of this repository that the program uses, directly or not, in no particular order.
    Empty if crates.txt has no line for the program. Refused as in read_uses(), and if one of the
    libraries uses itself, directly or not."""
    uses = read_uses(TOP)
    own_uses = {
        name: [crate for crate in used_crates if crate in uses]
        for name, used_crates in uses.items()
    }
    libraries = crates_below(own_uses, PROGRAM)
    in_cycle = [name for name in sorted(libraries) if name in crates_below(own_uses, name)]
    if in_cycle:
        raise Refused(f'crates.txt: crates that use themselves: {", ".join(in_cycle)}')
    return {name: own_uses[name] for name in libraries}
