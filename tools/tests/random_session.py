"""A program that does random things to its directory, for the recorder to follow.

    python3 random_session.py SEED [VERSION]

With version 4 it also does what only traces of this version have.
"""

import os
import random
import sys

NAMES = ['a', 'b', 'c', 's/a', 's/b', 't/a', 'u v', 'ä"\\', 's/n\tx']
FOLDERS = ['s', 't', 'd', 's/d', 't/d']
TARGETS = ['s', 't', '../t', 'a', 's/a', './d/', '.', 'l', '/nowhere/x', 'b/..', 'ä']
CREATES = [os.O_CREAT, os.O_CREAT | os.O_EXCL, 0, os.O_CREAT | os.O_TRUNC]


def attempt(call, *arguments, **named):
    try:
        return call(*arguments, **named)
    except OSError:
        return None


class Session:
    """Each method is one thing to do; what fails did nothing."""

    def __init__(self, seed):
        self.random = random.Random(seed)
        self.files = [os.open('a', os.O_RDWR)]
        self.top = os.open('.', os.O_RDONLY)

    def name(self):
        return self.random.choice(NAMES)

    def file(self):
        return self.random.choice(self.files)

    def data(self):
        return self.random.randbytes(self.random.choice([1, 10, 5000]))

    def mkdir(self):
        attempt(os.mkdir, self.random.choice('st'), self.random.choice([0o755, 0o700]))

    def rmdir(self):
        attempt(os.rmdir, self.random.choice('st'))

    def open(self):
        access = self.random.choice([os.O_RDWR, os.O_WRONLY])
        how = self.random.choice([0, os.O_APPEND, os.O_DSYNC])
        flags = access | how | self.random.choice(CREATES)
        file = attempt(os.open, self.name(), flags, self.random.choice([0o644, 0o600]))
        self.files += [] if file is None else [file]

    def close(self):
        if len(self.files) > 1:
            os.close(self.files.pop(self.random.randrange(len(self.files))))

    def write(self):
        attempt(os.write, self.file(), self.data())

    def write_at(self):
        attempt(os.pwrite, self.file(), self.data(), self.random.randrange(9000))

    def cut(self):
        attempt(os.ftruncate, self.file(), self.random.randrange(9000))

    def rename(self):
        attempt(os.rename, self.name(), self.name())

    def unlink(self):
        attempt(os.unlink, self.name())

    def rename_by_link(self):
        old, new = self.name(), self.name()
        if not os.path.exists(new) and os.path.exists(old):
            attempt(os.link, old, new)
            if os.path.exists(new):
                os.unlink(old)

    def duplicate(self):
        self.files.append(os.dup(self.file()))

    def seek(self):
        attempt(os.lseek, self.file(), self.random.randrange(100), self.random.choice([0, 1, 2]))

    def sync(self):
        attempt(os.fsync, self.file())

    def copy(self):
        attempt(os.copy_file_range, self.files[0], self.files[-1], 100)

    def child(self):
        if os.fork() == 0:
            attempt(os.write, self.files[0], b'child')
            attempt(os.read, self.files[-1], 7)
            os._exit(0)
        os.wait()

    def symlink(self):
        name = self.random.choice([*FOLDERS, *NAMES, 'l', 'm'])
        attempt(os.symlink, self.random.choice(TARGETS), name)

    def unlink_any(self):
        attempt(os.unlink, self.random.choice([*FOLDERS, 'l', 'm']))

    def rename_any(self):
        names = [*FOLDERS, 'l', 'm', 'a']
        attempt(os.rename, self.random.choice(names), self.random.choice(names))

    def mkdir_any(self):
        attempt(os.mkdir, self.random.choice([*FOLDERS, 'l/e', 'm/../e']))

    def by_path(self):
        name = self.random.choice([*NAMES, 'l', 'l/a', 'm/b'])
        attempt(os.truncate, name, self.random.randrange(9000))
        attempt(os.chmod, name, self.random.choice([0o600, 0o640]))
        # So it is linkat with AT_SYMLINK_FOLLOW.
        attempt(os.link, name, self.random.choice(NAMES), src_dir_fd=self.top)

    def change_directory(self):
        attempt(os.chdir, self.random.choice([*FOLDERS, 'l']))
        self.random.choice([self.open, self.rename, self.mkdir_any, self.rename_any])()
        self.rename_any()
        os.fchdir(self.top)

    def write_far(self):
        attempt(os.pwrite, self.file(), self.data(), self.random.randrange(30_000_000))

    def cut_far(self):
        attempt(os.ftruncate, self.file(), self.random.randrange(30_000_000))

    def sync_data(self):
        attempt(os.fdatasync, self.file())

    def run_new(self, steps):
        """What traces of version 4 have, besides."""
        new = [self.symlink, self.rename_any, self.mkdir_any, self.by_path, self.change_directory]
        new += [self.unlink_any, self.write_far, self.cut_far, self.sync_data]
        for _ in range(steps):
            self.random.choice([*new, self.open, self.write, self.unlink, self.rename])()

    def run(self, steps):
        todo = [
            self.mkdir,
            self.rmdir,
            self.open,
            self.open,
            self.close,
            self.write,
            self.write,
            self.write_at,
            self.cut,
            self.rename,
            self.unlink,
            self.rename_by_link,
            self.duplicate,
            self.seek,
            self.sync,
            self.copy,
            self.child,
        ]
        for step in range(steps):
            self.random.choice(todo)()
            if step % 20 == 0:
                print('told', step, flush=True)


if __name__ == '__main__':
    session = Session(int(sys.argv[1]))
    session.run(150)
    if sys.argv[2:] == ['4']:
        session.run_new(150)
