"""Random traces of a version, for two readings to be compared by.

    python3 -m tests.random_traces VERSION SEED
"""

from __future__ import annotations

import json
import random
import sys
from typing import Any, Dict, List

from crashfs_tools.reading import ReadingFault, parse_trace

PATHS = ['/a', '/b', '/c', '/d', '/d/a', '/d/b', '/e', '/e/x', '/é "\\']
# Version 4 has more directories, and paths below them.
MORE_PATHS = ['/d/e', '/d/e/a', '/e/d', '/e/d/a', '/a', '/b', '/e/a', '/d', '/e']
RIGHTS = [('ann', 'staff', '644'), ('bob', 'staff', '600'), ('cat', 'ann', '755')]
WORDS = {
    1: [
        'creat',
        'creat',
        'mkdir',
        'unlink',
        'rmdir',
        'rename',
        'rename',
        'write',
        'write',
        'write',
        'truncate',
        'fsync',
        'fsync',
        'sync',
        'say',
        'say',
    ],
    2: ['chmod', 'chown'],
    3: ['link', 'link', 'link', 'fsync_range', 'fsync_range', 'fsync_range'],
    4: ['rename'] * 5 + ['mkdir', 'mkdir', 'symlink', 'symlink', 'fdatasync', 'fdatasync'],
}
# How often the last line may be one that doesn't fit.
FAULTY = 0.1
# How often an operation of version 4 is followed by the removal of a directory.
EMPTYING = 0.1


class RandomTrace:
    """Grows line by line: a line that has a fault is left out."""

    def __init__(self, version: int, seed: int) -> None:
        self.version = version
        self.random = random.Random(f'{version} {seed}')
        self.lines: List[str] = [self.header()]
        self.words = sum((words for since, words in WORDS.items() if since <= version), [])
        self.paths = PATHS + (MORE_PATHS if version > 3 else [])

    def text(self) -> str:
        starts, operations = (5, (6, 30)) if self.version < 4 else (20, (20, 70))
        for _ in range(self.random.randrange(starts)):
            self.add(self.start())
        for _ in range(self.random.randrange(*operations)):
            self.add(self.operation())
            if self.version > 3 and self.random.random() < EMPTYING:
                self.remove_directory()
        if self.random.random() < FAULTY:
            self.lines.append(as_line(self.operation()))
        return '\n'.join(self.lines) + '\n'

    def add(self, fields: Dict[str, Any]) -> None:
        line = as_line(fields)
        try:
            parse_trace('\n'.join([*self.lines, line]).encode())
        except ReadingFault:
            return
        self.lines.append(line)

    def remove_directory(self) -> None:
        """Empties a directory, and removes it or puts another in its place."""
        directory = self.pick('/d', '/e', '/d/e', '/e/d')
        for path in reversed(self.paths):
            if path.startswith(f'{directory}/'):
                self.add({'op': self.pick('unlink', 'rmdir'), 'path': path})
        self.add({'op': 'rmdir', 'path': directory})
        self.add({'op': 'rename', 'from': self.pick(*self.paths), 'to': directory})

    def pick(self, *choices: Any) -> Any:
        return self.random.choice(choices)

    def rights(self) -> Dict[str, str]:
        return dict(zip(('owner', 'group', 'mode'), self.pick(*RIGHTS)))

    def header(self) -> str:
        fields: Dict[str, Any] = {'trace': self.version, **self.rights()}
        if self.version > 1:
            more = ['journal', 'blocks'] if self.version > 3 else []
            fields['profile'] = self.pick('blocks', 'blocks', 'ordered', *more)
        if self.version > 2:
            fields['block'] = self.pick(512, 1024, 2048, 4096)
        return as_line(fields)

    def start(self) -> Dict[str, Any]:
        kinds = ['dir', 'file', 'file', *(['link'] if self.version > 2 else [])]
        kind = self.pick(*kinds, *(['symlink', 'dir', 'dir'] if self.version > 3 else []))
        fields = {'start': kind, 'path': self.pick(*self.paths)}
        if kind == 'link':
            return {**fields, 'from': self.pick(*self.paths)}
        if kind == 'symlink':
            return {**fields, **self.target()}
        if kind == 'file' and self.version > 3 and self.pick(True, False):
            return {**fields, **self.rights(), **self.parts()}
        return {**fields, **self.rights(), **(self.data() if kind == 'file' else {})}

    def target(self) -> Dict[str, str]:
        """What a symbolic link is made with."""
        rights = self.rights()
        del rights['mode']
        return {**rights, 'target': self.pick('a', 'd/b', '../é', '/nowhere')}

    def parts(self) -> Dict[str, Any]:
        """A start file by its length and its parts."""
        length = self.pick(0, 1, 5000, 70_000, 300_000)
        parts: List[Dict[str, Any]] = []
        end = 0
        for _ in range(self.random.randrange(3)):
            at = end + self.pick(0, 1, 4096, self.random.randrange(40_000))
            data = self.random.randbytes(self.pick(1, 3, 700)) + b'\0' * self.pick(0, 9)
            end = at + len(data)
            if end <= length:
                parts.append({'at': at, 'bytes': data.hex()})
        return {'length': length, 'parts': parts}

    def data(self) -> Dict[str, str]:
        size = self.pick(0, 1, 3, 600, 5000)
        if self.version > 2 and self.pick(True, False):
            return {'text': self.pick('', 'row\n', 'é' * size)}
        return {'bytes': self.random.randbytes(size).hex()}

    def place(self) -> int:
        return self.pick(0, 1, 511, 512, 1024, 4095, 4096, self.random.randrange(9000))

    def operation(self) -> Dict[str, Any]:
        word = self.random.choice(self.words)
        fields: Dict[str, Any] = {'op': word}
        if word in ('rename', 'link'):
            fields.update({'from': self.pick(*self.paths), 'to': self.pick(*self.paths)})
        elif word not in ('sync', 'say'):
            fields['path'] = self.pick(*self.paths, *(['/', '/'] if word == 'fsync' else []))
        if word in ('creat', 'mkdir'):
            fields.update(self.rights())
        elif word == 'symlink':
            fields.update(self.target())
        elif word in ('chmod', 'chown'):
            keys = ('mode',) if word == 'chmod' else ('owner', 'group')
            fields.update({key: value for key, value in self.rights().items() if key in keys})
        elif word in ('write', 'fsync_range'):
            fields['offset'] = self.place()
        if word == 'write':
            fields.update(self.data())
        elif word in ('truncate', 'fsync_range'):
            fields['length'] = self.pick(0, 1, self.place(), 2**64 - 1 if 'range' in word else 7)
        elif word == 'say':
            fields['text'] = self.pick('stored', '')
        if self.version > 2 and self.random.random() < 0.2:
            fields['note'] = 'main (kv.py:85)'
        return fields


def as_line(fields: Dict[str, Any]) -> str:
    return json.dumps(fields, ensure_ascii=False, separators=(',', ':'))


if __name__ == '__main__':
    print(RandomTrace(int(sys.argv[1]), int(sys.argv[2])).text(), end='')
