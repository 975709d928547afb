"""What a release takes from git, the toolchain and the linker. The tests make these programs. And
which files it writes."""

from __future__ import annotations

import io
import os
import stat
import subprocess
import unittest
from contextlib import redirect_stderr, redirect_stdout
from pathlib import Path
from typing import Any, List, Optional, Tuple
from unittest import mock

from crashfs_tools.common.command import Refused
from releasing import command, programs
from releasing.archives import write_below, write_control_files
from releasing.layout import Item
from releasing.linking import KNOWN_WARNING, LinkFault, kit_folder, link_statically
from releasing.statements import BUILT, GIVEN, NOT_RUN, Provenance

from .support import InFolder

GCC = """#!/bin/sh
echo "$*" > {0}/words
echo "ld: in function f:"
echo "ld: warning: {1} is f"
echo "ld: warning: a new one"
exit {2}
"""
MADE = Provenance(version='0.9', commit='c1', kit='kit-1', seconds=1_700_000_000)


class WithPrograms(InFolder):
    def setUp(self) -> None:
        super().setUp()
        path = mock.patch.dict(os.environ, PATH=f'{self.path("home/bin")}:/usr/bin:/bin')
        path.start()
        self.addCleanup(path.stop)

    def program(self, name: str, text: str) -> None:
        os.makedirs(self.path('home', 'bin'), exist_ok=True)
        self.write(f'home/bin/{name}', text, 0o755)


class Linking(WithPrograms):
    def test_the_kit_is_where_the_page_is_or_else_where_rt_is(self) -> None:
        with mock.patch.dict(os.environ, PATH=self.folder):
            with self.assertRaisesRegex(LinkFault, 'rt: not found'):
                kit_folder()
        os.mkdir(self.path('kit'))
        page = self.write('kit/START.md', 'page')
        for printed, folder in ((f'{page}\nmore', 'kit'), ('/no/page', 'home'), ('', 'home')):
            self.program('rt', f'#!/bin/sh\ntest "$1" = doc && echo "{printed}"\nexit 1\n')
            self.assertEqual(kit_folder(), Path(self.path(folder)), printed)
        os.makedirs(self.path('other/bin'))
        os.rename(self.path('home/bin/rt'), self.path('other/bin/rt'))
        os.symlink('../../other/bin/rt', self.path('home/bin/rt'))
        self.assertEqual(kit_folder(), Path(os.path.realpath(self.path('other'))))

    def test_new_warnings_are_printed_and_a_failure_is_a_fault(self) -> None:
        self.program('rt', '#!/bin/sh\n')
        for status in (0, 3):
            self.program('gcc', GCC.format(self.folder, KNOWN_WARNING, status))
            with redirect_stdout(io.StringIO()) as printed:
                if status:
                    with self.assertRaisesRegex(LinkFault, '^gcc: status 3\n(.*\n)*.*a new one'):
                        link_statically(Path('a.o'), Path('program'))
                else:
                    link_statically(Path('a.o'), Path('program'))
            self.assertEqual(printed.getvalue(), '' if status else 'ld: warning: a new one\n')
        words = self.read('words')
        self.assertRegex(
            words, '-static -s -Wl,--build-id=none -o program a.o .*/home/c/libos_c.a '
        )

    def test_the_linker_has_its_version(self) -> None:
        self.program('gcc', '#!/bin/sh\ntest "$1" = -dumpfullversion && echo 12.2.0\n')
        self.assertEqual(programs.linker_version(), 'gcc 12.2.0')

    def test_a_program_that_fails_is_an_error_whatever_it_printed(self) -> None:
        self.program('git', '#!/bin/sh\necho c1\nexit 128\n')
        with self.assertRaises(subprocess.CalledProcessError):
            programs.output_of('git', 'rev-parse', 'HEAD')
        for printed, first_line in (('kit 1\nlogic', 'kit 1'), (' ', None)):
            self.program('rt', f'#!/bin/sh\ntest "$1" = version && echo "{printed}"\n')
            if first_line:
                self.assertEqual(programs.kit_version(), first_line)
            else:
                with self.assertRaisesRegex(ValueError, '^rt version printed nothing$'):
                    programs.kit_version()


class Tree(InFolder):
    def git(self, *words: str) -> str:
        date = '1700000000 +0000'
        identity = {'EMAIL': 'a@b.example', 'GIT_AUTHOR_NAME': 'a', 'GIT_COMMITTER_NAME': 'a'}
        done = subprocess.run(
            ['git', *words],
            cwd=self.folder,
            env={**os.environ, **identity, 'GIT_COMMITTER_DATE': date},
            stdout=subprocess.PIPE,
            text=True,
            check=True,
        )
        return done.stdout.strip()

    def test_a_tree_is_named_by_its_commit_and_by_its_changes(self) -> None:
        self.git('init', '-q')
        self.write('b.md', 'b')
        self.write('a.md', 'a')
        self.write('a.txt', 'a')
        self.git('add', '.')
        self.git('commit', '-q', '-m', 'all')
        with mock.patch.object(programs, 'TOP', Path(self.folder)):
            commit = self.git('rev-parse', 'HEAD')
            self.write('new', 'untracked')
            self.assertEqual(programs.commit_of_tree(), commit)
            self.assertEqual(programs.seconds_of_commit(), 1_700_000_000)
            self.assertEqual(programs.tracked_files('*.md'), ['a.md', 'b.md'])
            self.assertEqual(programs.tracked_files('*.html'), [])
            self.write('a.md', 'changed')
            self.assertEqual(programs.commit_of_tree(), f'{commit}-dirty')


# What the programs of a release print.
PROGRAMS = dict(
    commit_of_tree=lambda: 'c1',
    kit_version=lambda: 'kit-1',
    seconds_of_commit=lambda: 5,
    linker_version=lambda: 'gcc 1',
)


class Origin(InFolder):
    def test_the_time_is_that_of_the_commit_unless_it_is_given(self) -> None:
        log = Path(self.write('log', 'last lines'))
        with mock.patch.multiple(
            command,
            **PROGRAMS,
            counts_of_passed_gate=lambda *words: ' '.join(words),
        ), mock.patch.dict(os.environ):
            os.environ.pop('SOURCE_DATE_EPOCH', None)
            made = command.read_provenance(None, BUILT)
            os.environ['SOURCE_DATE_EPOCH'] = '7'
            given = command.read_provenance(log, GIVEN)
        self.assertEqual((made.seconds, made.gate, made.object_origin), (5, NOT_RUN, BUILT))
        self.assertEqual((made.commit, made.kit, made.linker), ('c1', 'kit-1', 'gcc 1'))
        self.assertEqual((given.seconds, given.object_origin), (7, GIVEN))
        self.assertEqual(given.gate, 'last lines c1 kit-1')

    def test_the_checksums_are_those_of_the_other_four_files(self) -> None:
        object_file, folder = Path(self.write('a.o', 'object')), Path(self.path('new', 'dist'))
        with mock.patch.multiple(
            command,
            link_program=lambda _: b'program',
            release_items=lambda *_: {},
            write_tarball=lambda path, *_: path.write_text('tarball'),
            write_package=lambda path, *_: path.write_text('package'),
        ):
            command.write_release(MADE, object_file, folder)
            command.write_release(MADE, object_file, folder)
        lines = (folder / 'SHA256SUMS').read_text().splitlines()
        listed = [line.split()[1] for line in lines]
        self.assertEqual(len(listed), 4)
        self.assertEqual({path.name for path in folder.iterdir()}, {*listed, 'SHA256SUMS'})
        self.assertIn('crashfs-0.9-linux-x86_64.tar.gz', listed)
        self.assertIn('commit: c1\n', (folder / 'ATTESTATION').read_text())

    def test_a_log_of_the_gate_may_have_any_bytes(self) -> None:
        log = Path(self.path('log'))
        log.write_bytes(b'ok \xff')
        with mock.patch.multiple(
            command,
            **PROGRAMS,
            counts_of_passed_gate=lambda text, *_: text,
        ):
            self.assertEqual(
                command.read_provenance(log, BUILT).gate, 'ok \N{REPLACEMENT CHARACTER}'
            )


class Main(InFolder):
    def main(self, *words: str, fault: Optional[Exception] = None) -> Tuple[int, List[Any], str]:
        """The status of release, what it ran and called, and what it printed as an error. With a
        fault the writing of the release raises it."""
        calls: List[Any] = []

        def write(*arguments: Any) -> None:
            calls.append(arguments)
            if fault is not None:
                raise fault

        with mock.patch.multiple(
            command, read_provenance=lambda *arguments: arguments, write_release=write
        ), mock.patch.object(command.subprocess, 'run') as run, redirect_stderr(
            io.StringIO()
        ) as errors:
            run.side_effect = lambda words, **options: calls.append((words, options))
            status = command.main(list(words))
        return status, calls, errors.getvalue()

    def test_the_program_is_built_unless_its_object_file_is_given(self) -> None:
        build = ([programs.TOP / 'tools' / 'build'], {'check': True})
        written = ((None, BUILT), command.OBJECT_FILE, programs.TOP / 'dist')
        self.assertEqual(self.main(), (0, [build, written], ''))
        written = ((Path('log'), GIVEN), Path('a.o'), Path('d'))
        words = ('--gate', 'log', '--objects', 'a.o', '--into', 'd')
        self.assertEqual(self.main(*words), (0, [written], ''))

    def test_each_fault_is_a_line_and_status_1(self) -> None:
        for fault in (
            LinkFault('gcc: status 3'),
            Refused('crates.txt: line 2 has no colon'),
            ValueError('the gate failed'),
            FileNotFoundError(2, 'No such file or directory', 'a.o'),
            subprocess.CalledProcessError(1, 'dpkg-deb'),
        ):
            status, _, errors = self.main('--objects', 'a.o', fault=fault)
            self.assertEqual((status, errors), (1, f'release: {fault}\n'))


class Written(InFolder):
    def test_items_have_their_modes_and_one_time(self) -> None:
        items = {
            'bin/crashfs': Item(b'program', is_program=True),
            'bin/link': Item(target='../no/such'),
            'share/README.md': Item(b'read'),
        }
        write_below(Path(self.folder), items, 1_000)
        for name, item in items.items():
            found = os.lstat(self.path(name))
            modes = (stat.S_IMODE(found.st_mode), stat.S_ISLNK(found.st_mode), found.st_mtime)
            self.assertEqual(modes, (item.mode, item.is_link, 1_000), name)
        self.assertEqual(os.readlink(self.path('bin/link')), '../no/such')
        self.assertEqual(self.read('share/README.md'), 'read')

    def test_of_the_control_files_only_scripts_may_be_executed(self) -> None:
        folder = Path(self.path('DEBIAN'))
        write_control_files(folder, 'control text', 'checksums')
        modes = {path.name: path.stat().st_mode & 0o777 for path in folder.iterdir()}
        scripts = {'postinst': 0o755, 'prerm': 0o755}
        self.assertEqual(modes, {'control': 0o644, 'md5sums': 0o644, **scripts})
        self.assertEqual((folder / 'md5sums').read_text(), 'checksums')


if __name__ == '__main__':
    unittest.main()
