"""The trees of crash states as lines: by an archive, and by what a run of the state replies.

A line has the number, the path, how often it was changed, owner, group, mode, atime, mtime and who
changed it last; and `d` for a directory, `l` and the target for a symbolic link, or the length and
the bytes as runs: `5: 1h 1e 2l 1o`, with a dot for a zero.
"""

from __future__ import annotations

import io
import re
import tarfile
from typing import Dict, Iterator, List, NamedTuple, Optional

from .case_runs import Runner
from .wire_replies import Bytes, frame
from .wire_words import message_of

# The bytes that a read gets in a session of the largest messages.
READ_BYTES = 65_536 - 11
ERROR, READ, STAT = 107, 117, 125
RUN = re.compile(rb'(.)\1*', re.DOTALL)


class File(NamedTuple):
    """A file, a directory if it has no bytes, or a symbolic link, whose bytes are its target."""

    owner: str
    group: str
    mode: int
    data: Optional[bytes]
    is_link: bool = False


def runs_of(data: bytes) -> str:
    """The bytes as runs of one byte, with a dot for a zero."""
    letters = ((len(run[0]), run[1].decode('latin-1')) for run in RUN.finditer(data))
    return ''.join(f' {count}{"." if ord(letter) == 0 else letter}' for count, letter in letters)


def content_of(file: File) -> str:
    if file.data is None:
        return 'd'
    if file.is_link:
        return f'l {file.data.decode()}'
    return f'{len(file.data)}:{runs_of(file.data)}'


def names_in(path: str) -> List[bytes]:
    """The order of paths: name by name, each by its bytes."""
    return [name.encode() for name in path.split('/') if name]


def archived(runner: Runner, words: List[str], given: Dict[str, bytes]) -> Dict[str, File]:
    """The files of a state by their paths, as `tar` writes them."""
    ran = runner.run(['tar', *words], given)
    assert ran.status == 0, ran.err
    with tarfile.open(fileobj=io.BytesIO(ran.out)) as archive:
        return {
            '/' + info.name.strip('./'): file_of(archive, info) for info in archive.getmembers()
        }


def file_of(archive: tarfile.TarFile, info: tarfile.TarInfo) -> File:
    data: Optional[bytes] = info.linkname.encode()
    if not info.issym():
        content = archive.extractfile(info)
        data = None if content is None else content.read()
    return File(info.uname, info.gname, info.mode, data, info.issym())


def lines_of(tree: Dict[str, File]) -> List[str]:
    """A line for each path, with its number as in a fresh run."""
    return [
        f'{number} {path} 0 {tree[path].owner} {tree[path].group} {tree[path].mode:03o} 0 0 '
        f'{tree[path].owner} {content_of(tree[path])}'
        for number, path in enumerate(sorted(tree, key=names_in))
    ]


class Visit:
    """A script in which each file of a tree is walked to, opened and read by its owner. All owners
    are members of all groups, so that they may search the directories."""

    def __init__(self, tree: Dict[str, File], state: int) -> None:
        self.tree = tree
        owners = sorted({file.owner for file in tree.values()} - {'none'}) or ['ann']
        self.roots = {owner: fid for fid, owner in enumerate(owners)}
        everybody = {*owners, *(file.group for file in tree.values())}
        self.users = ''.join(f'1:{name}::{",".join(owners)}\n' for name in sorted(everybody))
        self.messages = [
            'version 65536 9P2000',
            *(f'attach {fid} {owner} {state}/x' for owner, fid in self.roots.items()),
        ]
        self.visits = {
            path: self.visit(path, file, len(owners) + place)
            for place, (path, file) in enumerate(tree.items())
        }

    def visit(self, path: str, file: File, fid: int) -> range:
        """Asks for all of a file; the places of what it asks."""
        begin = len(self.messages)
        root = self.roots.get(file.owner, 0)
        self.messages += [f'walk {root} {fid} {path[1:]}', f'stat {fid}']
        if file.data is not None and file.owner in self.roots:
            self.messages.append(f'open {fid} 0')
            self.messages += [
                f'read {fid} {offset} {READ_BYTES}'
                for offset in range(0, len(file.data) + 1, READ_BYTES)
            ]
        return range(begin, len(self.messages))

    def script(self) -> List[str]:
        return [f'0 7 {message_of(words).hex()}' for words in self.messages]

    def line(self, path: str, replies: List[bytes]) -> str:
        """The line of a path, by the replies."""
        data: Optional[bytes] = b'' if self.tree[path].data is not None else None
        for kind, _, body in map(frame, replies):
            if kind == STAT:
                body.take(2)
                stat = shown_stat(body, path)
            elif kind == READ and data is not None:
                data += body.take(body.number(4))
            assert kind != ERROR, body.left
        if data is not None and self.tree[path].owner not in self.roots:
            data = self.tree[path].data
        return f'{stat} {content_of(self.tree[path]._replace(data=data))}'


def shown_stat(body: Bytes, path: str) -> str:
    """The fields of a stat in the order of a line."""
    body.take(2 + 2 + 4 + 1)
    version, number, mode = body.number(4), body.number(8), body.number(4)
    atime, mtime, _ = body.number(4), body.number(4), body.number(8)
    name, owner, group, changer = (body.text() for _ in range(4))
    assert name == (path.rpartition('/')[2] or '/')
    return (
        f'{number} {path} {version} {owner} {group} {mode & 0o777:03o} {atime} {mtime} '
        f'{changer}'
    )


def served_lines(
    runner: Runner, tree: Dict[str, File], state: int, words: List[str], given: Dict[str, bytes]
) -> Iterator[str]:
    """The lines of a state's paths, in their order, as a run of it replies."""
    visit = Visit(tree, state)
    ran = runner.run(
        ['script', *words],
        {**given, 'users': visit.users.encode()},
        '\n'.join(visit.script()).encode(),
    )
    assert ran.status == 0, ran.err
    replies = [bytes.fromhex(line[2:]) for line in ran.text().splitlines()]
    for path in sorted(tree, key=names_in):
        places = visit.visits[path]
        yield visit.line(path, replies[places.start : places.stop])
