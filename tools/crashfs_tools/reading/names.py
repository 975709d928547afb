"""The names that a trace's lines give and take away, and the faults of lines that don't fit."""

from __future__ import annotations

from typing import Dict, List, NamedTuple, Optional, Tuple

from .faults import LineFault
from .lines import Line, bytes_of

# The most bytes of a file up to version 3, and from version 4 on.
FILE_BYTES, LARGE_FILE_BYTES = 16_777_216, 1_073_741_824
# The most names of a path, records (see NameTree) of a trace, and bytes of an acknowledged line.
PATH_NAMES, RECORDS, SAY_BYTES = 64, 65_536, 1_024
# The words of lines that add a path, and so a record.
RECORD_WORDS = ('creat', 'mkdir', 'dir', 'file', 'link', 'symlink')
DIRECTORY, FILE, SYMLINK = 'dir', 'file', 'symlink'
KIND_TEXTS = {DIRECTORY: 'a directory', FILE: 'a file', SYMLINK: 'a symbolic link'}
ROOT = 0


class Inode(NamedTuple):
    """A directory, or a file or symbolic link, by its kind and number. Files and symbolic links are
    counted together, directories apart."""

    kind: str
    number: int


def is_file(node: Inode, file_number: int) -> bool:
    """Whether an inode is the file or symbolic link with this number."""
    return node.kind != DIRECTORY and node.number == file_number


# A directory's number and a name in it.
Entry = Tuple[int, str]


def parent_path(path: str) -> str:
    """The path of the directory that has a path's last name; the root's is the root itself."""
    return path.rpartition('/')[0] or '/'


class NameTree:
    """The tree after the lines read so far: what each directory holds, and where each directory and
    file is. In versions 1 to 3 a directory's number is that of its path: one that is made again has
    the old number. Methods that change the tree rely on refuse_unfit_line(): call it first."""

    def __init__(self, version: int) -> None:
        """A tree that has only the root, for a trace of this version."""
        self.version = version
        # What each directory holds, by its number.
        self.children: Dict[int, Dict[str, Inode]] = {ROOT: {}}
        # The entry of each directory but the root, by its number, also of one that is gone.
        self.directory_entries: Dict[int, Entry] = {}
        # The entries of each file or symbolic link, by its number, the oldest first.
        self.file_entries: List[List[Entry]] = []
        # Up to version 3 the number of the directory that was first made at an entry.
        self.directory_numbers: Dict[Entry, int] = {}
        # The size of each file or symbolic link, by its number.
        self.sizes: List[int] = []
        # How many files, directories and paths were made so far; the root is one. In version 4 a
        # rename into another directory makes one more.
        self.records = 1

    # Where things are

    def inode_at(self, path: str) -> Optional[Inode]:
        """What is at a path; None if nothing is. A file or a symbolic link has nothing below it:
        links aren't followed."""
        node: Optional[Inode] = Inode(DIRECTORY, ROOT)
        for name in path.split('/')[1:] if path != '/' else []:
            if node is None or node.kind != DIRECTORY:
                return None
            node = self.children[node.number].get(name)
        return node

    def entry_at(self, path: str) -> Entry:
        """The entry of a path other than the root, at which something may be or not. AssertionError
        if its parent directory isn't there."""
        directory = self.inode_at(parent_path(path))
        assert directory is not None and directory.kind == DIRECTORY
        return directory.number, path.rpartition('/')[2]

    def path_of_entry(self, entry: Entry) -> str:
        """The path that an entry has in the tree as it is now, whether it holds something or not.
        Its directory must be there."""
        directory, path = entry[0], f'/{entry[1]}'
        while directory != ROOT:
            directory, name = self.directory_entries[directory]
            path = f'/{name}{path}'
        return path

    # What lines do

    def add_file(self, path: str, size: int, kind: str) -> Inode:
        """Adds a file or symbolic link (`kind`) of this size at a free path, and returns its inode,
        with the next number."""
        self.sizes.append(size)
        self.file_entries.append([])
        node = Inode(kind, len(self.sizes) - 1)
        self.add_path(path, node)
        return node

    def add_directory(self, path: str) -> Inode:
        """Adds an empty directory at a free path, and returns its inode, with the next number. Up
        to version 3 a directory that is made again at an entry gets its old number again."""
        entry = self.entry_at(path)
        number = len(self.directory_entries) + 1
        if self.version < 4:
            number = self.directory_numbers.setdefault(entry, number)
        node = Inode(DIRECTORY, number)
        self.children[number] = {}
        self.directory_entries[number] = entry
        self.add_path(path, node)
        return node

    def add_path(self, path: str, node: Inode) -> None:
        """Gives a file or directory a free path. This is counted in `records`, also after the path
        is gone."""
        self.records += 1
        entry = self.entry_at(path)
        self.children[entry[0]][entry[1]] = node
        if node.kind != DIRECTORY:
            self.file_entries[node.number].append(entry)

    def add_link(self, old_path: str, new_path: str) -> Inode:
        """Gives the file at a path one more path, which must be free, and returns the file's inode.
        LineFault as require_inode()."""
        node = self.require_inode(old_path)
        self.add_path(new_path, node)
        return node

    def remove_path(self, path: str) -> Inode:
        """Removes the entry of a path, at which something must be, and returns what it held. A
        directory must be empty."""
        entry = self.entry_at(path)
        node = self.children[entry[0]].pop(entry[1])
        if node.kind != DIRECTORY:
            self.file_entries[node.number].remove(entry)
        return node

    def move(self, old_path: str, new_path: str) -> None:
        """Moves what is at a path to another path, which must not be one of the same file. What is
        there is replaced; a directory there must be empty. In the order of a file's paths by age,
        the new path takes the old one's place."""
        if self.is_counted_move(old_path, new_path):
            self.records += 1
        source, target = self.entry_at(old_path), self.entry_at(new_path)
        if self.inode_at(new_path) is not None:
            self.remove_path(new_path)
        node = self.children[source[0]].pop(source[1])
        self.children[target[0]][target[1]] = node
        if node.kind == DIRECTORY:
            self.directory_entries[node.number] = target
        else:
            entries = self.file_entries[node.number]
            entries[entries.index(source)] = target

    # What a line needs

    def refuse_unfit_line(self, line: Line) -> None:
        """LineFault with the first fault of a line in the tree as it is: a path is missing, taken
        or of another kind, or a limit is passed. The tree isn't changed. A header always fits."""
        if line.key == 'trace':
            return
        if line.word == 'link':
            self.require_kind(line.fields['from'], (FILE,))
            self.require_free(line.fields['path' if line.key == 'start' else 'to'])
        elif line.word in RECORD_WORDS:
            self.require_free(line.fields['path'])
        elif line.word == 'rename':
            self.refuse_rename(line.fields['from'], line.fields['to'])
        elif line.word == 'rmdir':
            self.refuse_rmdir(line.fields['path'])
        elif line.word in ('fsync', 'chmod'):
            self.require_kind(line.fields['path'], (DIRECTORY, FILE))
        elif line.word == 'chown':
            self.require_inode(line.fields['path'])
        elif line.word == 'unlink':
            self.require_kind(line.fields['path'], (FILE, SYMLINK))
        elif line.word in ('write', 'truncate', 'fdatasync', 'fsync_range'):
            self.require_kind(line.fields['path'], (FILE,))
        self.refuse_too_large(line)

    def require_inode(self, path: str) -> Inode:
        """What is at a path; LineFault (Missing) if nothing is."""
        node = self.inode_at(path)
        if node is None:
            raise LineFault('Missing', f'{path} is not there')
        return node

    def require_kind(self, path: str, kinds: Tuple[str, ...]) -> None:
        """LineFault unless something of one of these kinds is at a path: Missing if nothing is,
        NotFile for another kind."""
        node = self.require_inode(path)
        if node.kind not in kinds:
            raise LineFault('NotFile', f'{path} is {KIND_TEXTS[node.kind]}')

    def require_parent(self, path: str) -> None:
        """LineFault unless a path's parent directory is there: NoParent if nothing is, NotDir for a
        file or symbolic link."""
        directory = self.inode_at(parent_path(path))
        if directory is None:
            raise LineFault('NoParent', f'{parent_path(path)} is not there')
        if directory.kind != DIRECTORY:
            raise LineFault('NotDir', f'{parent_path(path)} is {KIND_TEXTS[directory.kind]}')

    def require_free(self, path: str) -> None:
        """LineFault unless something can be made at a path: as require_parent(), or Exists if
        something is there already."""
        self.require_parent(path)
        if self.inode_at(path) is not None:
            raise LineFault('Exists', f'{path} is there already')

    def refuse_rename(self, old_path: str, new_path: str) -> None:
        """LineFault with the first fault of a rename, if it has one: Missing, NotFile, NoParent,
        NotDir, BadName or NotEmpty. Up to version 3 no directory can be renamed. A rename between
        two paths of one file, or onto the same path, has no fault."""
        node = self.require_inode(old_path)
        if node.kind == DIRECTORY and self.version < 4:
            raise LineFault('NotFile', f'{old_path} is a directory')
        self.require_parent(new_path)
        replaced = self.inode_at(new_path)
        if node.kind == DIRECTORY and new_path.startswith(old_path + '/'):
            raise LineFault('BadName', f'{new_path} is below {old_path}')
        if replaced is None or replaced == node:
            return
        if node.kind == DIRECTORY:
            self.refuse_rmdir(new_path)
        elif replaced.kind == DIRECTORY:
            raise LineFault('NotFile', f'{new_path} is a directory')

    def refuse_rmdir(self, path: str) -> None:
        """LineFault unless an empty directory is at a path: Missing if nothing is, NotDir for
        another kind, NotEmpty."""
        node = self.require_inode(path)
        if node.kind != DIRECTORY:
            raise LineFault('NotDir', f'{path} is {KIND_TEXTS[node.kind]}')
        if self.children[node.number]:
            raise LineFault('NotEmpty', f'{path} has entries')

    def refuse_too_large(self, line: Line) -> None:
        """LineFault (TooLarge) if a path of a line has too many names, or a say too many bytes, or
        if the line makes a record too many or a file that is too large. What else a line needs must
        be checked before."""
        if any(path.count('/') > PATH_NAMES for path in line.paths()):
            raise LineFault('TooLarge', f'a path of more than {PATH_NAMES} names')
        if self.records >= RECORDS and self.adds_record(line):
            raise LineFault('TooLarge', f'more than {RECORDS} files and directories')
        if line.word == 'say' and len(line.fields['text'].encode('utf-8')) > SAY_BYTES:
            raise LineFault('TooLarge', f'a say of more than {SAY_BYTES} bytes')
        most_bytes = LARGE_FILE_BYTES if self.version >= 4 else FILE_BYTES
        if end_offset(line) > most_bytes:
            raise LineFault('TooLarge', f'a file of more than {most_bytes} bytes')

    def adds_record(self, line: Line) -> bool:
        """Whether a line makes one more record."""
        if line.word == 'rename':
            return self.is_counted_move(line.fields['from'], line.fields['to'])
        return line.word in RECORD_WORDS

    def is_counted_move(self, old_path: str, new_path: str) -> bool:
        """Whether a rename makes one more record: in version 4, if it moves something into another
        directory. Between two paths of one file it moves nothing."""
        is_same_directory = parent_path(old_path) == parent_path(new_path)
        is_same_file = self.inode_at(old_path) == self.inode_at(new_path)
        return self.version >= 4 and not is_same_directory and not is_same_file


def end_offset(line: Line) -> int:
    """The offset at which the bytes of a write, a truncate or a start file end. 0 for other lines,
    and for a write of no bytes, whatever its offset."""
    if line.word == 'truncate':
        return int(line.fields['length'])
    if line.word == 'file':
        return line.file_length
    if line.word != 'write':
        return 0
    size = len(bytes_of(line.fields))
    return int(line.fields['offset']) + size if size else 0
