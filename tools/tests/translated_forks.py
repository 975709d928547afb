"""Forks and execs as strace writes them, and the operations of the processes that they make."""

from .translated_calls import FILE, OPEN_F

FORKS = [
    (
        'a child has its parent\'s files, but for what exec closes',
        FILE,
        [
            '1 openat(AT_FDCWD</d>, "f", O_RDWR|O_CLOEXEC) = 3</d/f>',
            '1 openat(AT_FDCWD</d>, "f", O_RDWR) = 4</d/f>',
            '1 clone(child_stack=NULL, flags=CLONE_CHILD_SETTID|SIGCHLD <unfinished ...>',
            '2 execve("/bin/x", ["x"], 0x7ffc /* 3 vars */) = 0',
            '2 write(4</d/f>, "a", 1) = 1',
            '1 <... clone resumed>, child_tidptr=0x7f) = 2',
            '1 write(4</d/f>, "b", 1) = 1',
        ],
        ['write /f 0 a', 'write /f 1 b'],
    ),
    (
        'an exec by another thread than the first closes and keeps what any exec does',
        FILE,
        [
            '1 openat(AT_FDCWD</d>, "f", O_RDWR|O_CLOEXEC) = 8</d/f>',
            '1 openat(AT_FDCWD</d>, "f", O_RDWR) = 3</d/f>',
            '1 clone(child_stack=0x7f, flags=CLONE_VM|CLONE_FS|CLONE_FILES|CLONE_THREAD) = 2',
            '2 execve("/bin/x", ["x"], 0x7ffc /* 3 vars */ <pid changed to 1 ...>',
            '1 +++ superseded by execve in pid 2 +++',
            '1 <... execve resumed>) = 9',
            '1 write(8</etc/x>, "a", 1) = 1',
            '1 write(3</d/f>, "J", 1) = 1',
        ],
        ['write /f 0 J'],
    ),
    *[
        (
            f'memory that a child of {fork.partition("(")[0]} shares with its parent, or not',
            FILE,
            [
                OPEN_F,
                '1 mmap(NULL, 4096, PROT_READ, MAP_SHARED, 3</d/f>, 0) = 0x7f0000001000',
                f'1 {fork} = 2',
                '2 munmap(0x7f0000001000, 4096) = 0',
                '1 msync(0x7f0000001000, 4096, MS_SYNC) = 0',
            ],
            wanted,
        )
        for fork, wanted in (
            ('vfork()', []),
            ('clone(child_stack=0x7f, flags=CLONE_VM)', []),
            ('fork()', ['fsyncrange /f 0 4096']),
        )
    ],
    (
        'an exec ends what a process shares with others: descriptors and working directory',
        FILE,
        [
            OPEN_F,
            '1 clone(child_stack=0x7f, flags=CLONE_FS|CLONE_FILES|SIGCHLD) = 2',
            '2 execve("/bin/x", ["x"], 0x7ffc /* 3 vars */) = 0',
            '2 close(3</d/f>) = 0',
            '2 chdir("/") = 0',
            '1 write(3</d/f>, "x", 1) = 1',
            '1 unlink("f") = 0',
        ],
        ['write /f 0 x', 'unlink /f'],
    ),
    *[
        (
            f'a child of {name} has what its parent had then',
            FILE,
            [
                OPEN_F,
                f'1 {name}(child_stack=NULL, flags=SIGCHLD) = 2',
                '1 close(3</d/f>) = 0',
                '2 write(3</d/f>, "x", 1) = 1',
            ],
            ['write /f 0 x'],
        )
        for name in ('clone', 'clone3', 'fork', 'vfork')
    ],
    (
        'a table of descriptors that is shared, and no more',
        FILE,
        [
            OPEN_F,
            '1 clone(child_stack=0x7f, flags=CLONE_VM|CLONE_FILES) = 2',
            '2 close_range(3, 3, CLOSE_RANGE_UNSHARE) = 0',
            '1 write(3</d/f>, "x", 1) = 1',
        ],
        ['write /f 0 x'],
    ),
]
