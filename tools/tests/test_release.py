"""What a release says of itself, what it holds, and its archives."""

from __future__ import annotations

import hashlib
import io
import json
import os
import posixpath
import re
import shutil
import subprocess
import sys
import tarfile
import unittest
from contextlib import redirect_stderr
from functools import lru_cache
from pathlib import Path
from typing import Dict, Set
from unittest import mock

from building.crates import crates_below, library_uses, read_uses, uses_by_crate
from crashfs_tools import VERSION
from releasing import programs
from releasing.archives import control_text, with_debian_files, write_package, write_tarball
from releasing.command import main, make_parser
from releasing.layout import Item, Items, release_items
from releasing.programs import TOP, kit_version
from releasing.statements import (
    BUILT,
    GIVEN,
    NOT_RUN,
    Provenance,
    attestation_text,
    built_module,
    checksum_lines,
    spdx_document,
)

from .support import InFolder, needed

SECONDS = 1_700_000_000
MADE = Provenance(
    '1.2.3',
    'c0ffee',
    'kit-1 logic ab',
    SECONDS,
    '9 passed, 0 failed',
    GIVEN,
    'gcc 12.2.0',
    'glibc 2.36',
)
PROGRAM = b'\x7fELF program'
LINK = re.compile(r'\]\(([^)#\s]+)(?:#[^)]*)?\)')

needs_git = needed((TOP / '.git').exists(), 'this is no clone')
needs_dpkg = needed(shutil.which('dpkg-deb') is not None, 'dpkg-deb is not there')


def tracked_modes(folder: str) -> Dict[str, int]:
    """The files below a folder of tools/ as git has them, each with its mode."""
    said = subprocess.run(
        ['git', 'ls-files', '-s', '-z', '--', folder],
        cwd=TOP / 'tools',
        check=True,
        capture_output=True,
        text=True,
    ).stdout
    rows = (row.split('\t') for row in said.split('\0') if row)
    return {path: int(row.split()[0], 8) & 0o777 for row, path in rows}


def packages_of(text: str) -> Dict[str, str]:
    return {it['name']: it['versionInfo'] for it in json.loads(text)['packages']}


class Statements(InFolder):
    def test_the_help_names_the_gate_whose_log_is_accepted(self) -> None:
        words = ' '.join(make_parser().format_help().split())
        self.assertIn('The log of the gate must be of `.ci/run --all-edits`', words)
        self.assertIn('what .ci/run --all-edits printed', words)

    def test_the_attestation_has_the_checksums_of_what_was_linked(self) -> None:
        text = attestation_text(MADE, b'object', PROGRAM)
        fields = dict(line.split(': ', 1) for line in text.splitlines())
        self.assertEqual(
            fields,
            {
                'version': '1.2.3',
                'commit': 'c0ffee',
                'kit': 'kit-1 logic ab',
                'gate': '9 passed, 0 failed',
                'object': GIVEN,
                'object-sha256': hashlib.sha256(b'object').hexdigest(),
                'linked': 'statically, outside the kit, by gcc 12.2.0 with glibc 2.36',
                'program-sha256': hashlib.sha256(PROGRAM).hexdigest(),
            },
        )
        plain = Provenance('1', 'c', 'k', SECONDS)
        self.assertEqual((plain.gate, plain.object_origin), (NOT_RUN, BUILT))

    def test_the_checksums_are_checked_by_sha256sum(self) -> None:
        paths = [Path(self.write(name, name)) for name in ('b', 'a')]
        self.write('sums', checksum_lines(paths))
        ran = subprocess.run(
            ['sha256sum', '--check', '--strict', 'sums'],
            cwd=self.folder,
            capture_output=True,
            text=True,
            check=True,
        )
        self.assertEqual(ran.stdout, 'a: OK\nb: OK\n')

    def test_the_tools_of_a_release_print_its_commit_and_its_kit(self) -> None:
        shutil.copytree(
            TOP / 'tools' / 'crashfs_tools',
            self.path('crashfs_tools'),
            ignore=shutil.ignore_patterns('__pycache__'),
        )
        self.write('crashfs_tools/built.py', built_module(MADE))
        for command in ('crashfs-check', 'crashfs-record'):
            shutil.copy2(TOP / 'tools' / command, self.path(command))
            ran = subprocess.run(
                [sys.executable, '-S', command, '--version'],
                cwd=self.folder,
                capture_output=True,
                text=True,
                check=True,
            )
            self.assertRegex(
                ran.stdout, rf'^{command} [\d.]+ \(commit c0ffee, kit kit-1 logic ab\)\n$'
            )


class Installed(InFolder):
    def test_installed_tools_name_no_file_that_only_a_clone_has(self) -> None:
        ignored = shutil.ignore_patterns('__pycache__')
        shutil.copytree(TOP / 'tools' / 'crashfs_tools', self.path('crashfs_tools'), ignore=ignored)
        shutil.copy2(TOP / 'tools' / 'crashfs-check', self.path('crashfs-check'))
        config = TOP / 'examples' / 'config'
        for command, named in ((TOP / 'tools' / 'crashfs-check', True), ('crashfs-check', False)):
            words = ['--unproved', config / 'config.trace', '--', config / 'check.sh']
            ran = subprocess.run(
                [sys.executable, '-S', command, *words],
                cwd=self.folder,
                capture_output=True,
                text=True,
                check=False,
            )
            first = ran.stdout.splitlines()[0]
            self.assertTrue(first.startswith('unproved: '), first)
            self.assertEqual('tools/build' in first, named, first)


class Linked(unittest.TestCase):
    def test_the_list_has_each_library_of_the_program_and_no_other(self) -> None:
        found = packages_of(spdx_document(MADE, read_uses(TOP)))
        own = set(library_uses()) - {'crashfs'}
        of_kit = {'rattle-standard-library', 'glibc', 'libgcc'}
        self.assertTrue(own < set(found))
        for name, version in found.items():
            if name in own or name == 'crashfs':
                self.assertEqual(version, '1.2.3', name)
            elif name not in of_kit:
                self.assertEqual(version, 'kit-1 logic ab', name)
                self.assertFalse(name.startswith('cs_'), name)
        self.assertEqual((found['glibc'], found['libgcc']), ('2.36', '12.2.0'))
        self.assertLessEqual({'clap', 'serde_json', 'hex'}, set(found))
        self.assertEqual([name for name in found if 'test' in name or 'bench' in name], [])

    def test_the_libraries_of_libraries_are_linked(self) -> None:
        crates = 'low: k # a comment\nmid: low\n# none: low\nprogram: mid l\n' 'tests: program t\n'
        uses = uses_by_crate(crates)
        self.assertEqual(uses['low'], ['k'])
        self.assertEqual(crates_below(uses, 'program'), {'mid', 'low', 'k', 'l'})

    def test_each_is_related_to_the_program(self) -> None:
        document = json.loads(spdx_document(MADE, {'crashfs': ['a'], 'a': ['b_c']}))
        names = {it['SPDXID'] for it in document['packages']}
        self.assertLessEqual({'SPDXRef-a', 'SPDXRef-b-c', 'SPDXRef-crashfs'}, names)
        linked = {
            it['relatedSpdxElement']
            for it in document['relationships']
            if it['relationshipType'] == 'STATIC_LINK'
        }
        self.assertEqual(linked, names - {'SPDXRef-crashfs'})
        self.assertEqual(document['creationInfo']['created'], '2023-11-14T22:13:20Z')


@lru_cache(maxsize=1)
def released() -> Items:
    """The files of a release of a made-up program."""
    return release_items(PROGRAM, b'built')


@needs_git
class Layout(unittest.TestCase):
    def setUp(self) -> None:
        self.items = released()

    def test_each_file_of_the_tools_is_there_with_its_mode(self) -> None:
        modes = {
            **tracked_modes('crashfs_tools'),
            **tracked_modes('crashfs-campaign'),
            **tracked_modes('crashfs-check'),
            **tracked_modes('crashfs-record'),
            'crashfs_tools/built.py': 0o644,
        }
        below = 'lib/crashfs/'
        found = {
            path[len(below) :]: item.mode
            for path, item in self.items.items()
            if path.startswith(below)
        }
        self.assertEqual(found, modes)
        self.assertGreater(len(modes), 50)
        for path, item in self.items.items():
            if path.startswith(below) and not path.endswith('built.py'):
                source = TOP / 'tools' / path[len(below) :]
                self.assertEqual(item.content, source.read_bytes(), path)

    def test_the_program_is_there_and_no_test_is(self) -> None:
        self.assertEqual(self.items['bin/crashfs'], Item(PROGRAM, is_program=True))
        self.assertEqual(
            [path for path in self.items if re.search(r'\btests?\b|(?<!py)test_', path)], []
        )

    def test_links_lead_to_programs(self) -> None:
        links = {
            path: posixpath.normpath(posixpath.join(posixpath.dirname(path), item.target))
            for path, item in self.items.items()
            if item.is_link
        }
        commands = ('campaign', 'check', 'record')
        self.assertEqual(set(links), {f'bin/crashfs-{name}' for name in commands})
        for target in links.values():
            self.assertEqual(self.items[target].mode, 0o755)

    def test_what_a_page_names_is_there(self) -> None:
        pages = [path for path in self.items if path.endswith('.md')]
        self.assertGreater(len(pages), 12)
        missing: Set[str] = set()
        for page in pages:
            for target in LINK.findall(self.items[page].content.decode()):
                path = posixpath.normpath(posixpath.join(posixpath.dirname(page), target))
                if '://' not in target and not any(
                    it == path or it.startswith(f'{path}/') for it in self.items
                ):
                    missing.add(f'{page}: {target}')
        self.assertEqual(sorted(missing), [])

    def test_manuals_and_completions_have_their_places(self) -> None:
        commands = ('crashfs', 'crashfs-campaign', 'crashfs-check', 'crashfs-record')
        wanted = {f'share/man/man1/{name}.1.gz' for name in commands}
        wanted |= {'share/man/man5/crashfs-trace.5.gz'}
        wanted |= {f'share/bash-completion/completions/{name}' for name in commands}
        wanted |= {f'share/zsh/vendor-completions/_{name}' for name in commands}
        wanted |= {f'share/fish/vendor_completions.d/{name}.fish' for name in commands}
        shared = {
            path
            for path in self.items
            if path.startswith('share/') and not path.startswith('share/doc/')
        }
        self.assertEqual(shared, wanted)
        self.assertEqual(list(self.items), sorted(self.items))
        # The time in the header of gzip.
        self.assertEqual(self.items['share/man/man1/crashfs.1.gz'].content[4:8], bytes(4))


class Names(unittest.TestCase):
    def test_files_of_a_release_are_named_by_the_version(self) -> None:
        page = (TOP / 'docs' / 'CONTRIBUTING.md').read_text('utf-8')
        for name in (f'crashfs_{VERSION}_amd64.deb', f'crashfs-{VERSION}-linux-x86_64.tar.gz'):
            self.assertIn(name, page)
        image = (TOP / 'Dockerfile').read_text('utf-8')
        self.assertIn(f'\nARG VERSION={VERSION}\n', image)
        self.assertIn('\nCOPY dist/crashfs-${VERSION}-linux-x86_64.tar.gz ', image)

    def test_the_program_names_the_kit_of_the_readme(self) -> None:
        source = (TOP / 'crates' / 'cs_command_line' / 'src' / 'version.rt').read_text('utf-8')
        kit = re.search(r'VERSION: &str = "([\d.]+) \(kit ([\w -]+)\)"', source)
        assert kit is not None
        self.assertEqual(kit[1], VERSION)
        readme = ' '.join((TOP / 'README.md').read_text('utf-8').split())
        self.assertEqual(set(re.findall(r'rattle-kit-\w+ logic \w+', readme)), {kit[2]})

    @needed(shutil.which('rt') is not None, 'rt is not there')
    def test_the_readme_names_the_kit_that_proves_it_here(self) -> None:
        readme = ' '.join((TOP / 'README.md').read_text('utf-8').split())
        self.assertIn(f'`{kit_version()}`', readme)

    def test_a_toolchain_without_a_version_is_reported_in_a_line(self) -> None:
        with mock.patch.object(programs, 'output_of', return_value=''), redirect_stderr(
            io.StringIO()
        ) as errors:
            self.assertEqual(main([]), 1)
        self.assertEqual(errors.getvalue(), 'release: rt version printed nothing\n')

    def test_the_action_uses_its_inputs(self) -> None:
        text = (TOP / 'action.yml').read_text('utf-8')
        inputs, steps = text.split('\nruns:\n')
        named = re.findall(r'^  ([a-z]+):$', inputs, re.M)
        self.assertEqual(set(re.findall(r'\$\{\{ inputs\.(\w+) \}\}', steps)), set(named))


class Archives(InFolder):
    items: Items = {
        'bin/crashfs': Item(PROGRAM, is_program=True),
        'bin/crashfs-check': Item(target='../lib/crashfs/crashfs-check'),
        'lib/crashfs/crashfs-check': Item(b'#!/bin/sh\n', is_program=True),
        'share/doc/crashfs/README.md': Item(b'read\n'),
    }

    def test_the_tarball_has_each_file_below_one_folder(self) -> None:
        path = Path(self.path('crashfs-1-linux-x86_64.tar.gz'))
        write_tarball(path, self.items, SECONDS)
        # The header of gzip has a time too.
        self.assertEqual(path.read_bytes()[4:8], SECONDS.to_bytes(4, 'little'))
        with tarfile.open(path) as archive:
            members = {it.name: it for it in archive}
            content = archive.extractfile('crashfs-1-linux-x86_64/bin/crashfs')
            assert content is not None
            self.assertEqual(content.read(), PROGRAM)
        names = [f'crashfs-1-linux-x86_64/{name}' for name in self.items]
        self.assertLessEqual(set(names), set(members))
        modes = [item.mode for item in self.items.values()]
        self.assertEqual(modes, [0o755, 0o777, 0o755, 0o644])
        for name, item in zip(names, self.items.values()):
            member = members[name]
            self.assertEqual((member.issym(), member.isreg()), (item.is_link, not item.is_link))
            self.assertEqual((member.linkname, member.mode), (item.target, item.mode))
        for member in members.values():
            self.assertEqual((member.uid, member.gid, member.mtime), (0, 0, SECONDS))
            self.assertEqual((member.uname, member.gname), ('root', 'root'))
            is_folder = member.name not in names
            self.assertEqual(
                (member.isdir(), is_folder and member.mode != 0o755), (is_folder, False)
            )
        order = list(members)
        self.assertTrue(
            all(order.index(posixpath.dirname(name)) < order.index(name) for name in order[1:])
        )

    def write_both(self, name: str) -> Dict[str, bytes]:
        """Both archives, as made in another folder with another umask."""
        folder = Path(self.path(name))
        folder.mkdir()
        paths = [folder / 'crashfs-1-linux-x86_64.tar.gz', folder / 'crashfs_1_amd64.deb']
        write_tarball(paths[0], self.items, SECONDS)
        write_package(paths[1], '1', self.items, SECONDS)
        return {path.name: path.read_bytes() for path in paths}

    @needs_dpkg
    def test_two_runs_give_the_same_bytes(self) -> None:
        first = self.write_both('first')
        before = os.umask(0o077)
        try:
            self.assertEqual(self.write_both('second'), first)
        finally:
            os.umask(before)
        self.assert_nothing_left()

    @needs_dpkg
    def test_the_package_has_its_fields_and_its_files(self) -> None:
        path = Path(self.path('crashfs_1_amd64.deb'))
        write_package(path, '1', self.items, SECONDS)
        fields = subprocess.run(
            ['dpkg-deb', '--field', str(path)], check=True, capture_output=True, text=True
        ).stdout
        self.assertIn('Depends: python3 (>= 3.9)\nRecommends: strace (>= 5.18)\n', fields)
        subprocess.run(['dpkg-deb', '--raw-extract', str(path), self.path('root')], check=True)
        found = {
            str(it.relative_to(self.path('root', 'usr')))
            for it in Path(self.path('root', 'usr')).rglob('*')
            if not it.is_dir()
        }
        self.assertEqual(found, set(with_debian_files(self.items, '1', SECONDS)))
        subprocess.run(
            ['md5sum', '--quiet', '--check', 'DEBIAN/md5sums'], cwd=self.path('root'), check=True
        )
        self.assertEqual(len(self.read('root/DEBIAN/md5sums').splitlines()), len(found) - 1)

    def test_the_installed_size_counts_whole_units(self) -> None:
        for sizes, units in (((), 0), ((1,), 1), ((1024,), 1), ((1025, 1), 3)):
            items = {str(at): Item(b'x' * size) for at, size in enumerate(sizes)}
            self.assertIn(f'\nInstalled-Size: {units}\n', control_text('1', items))

    def test_the_package_says_that_there_is_no_licence(self) -> None:
        items = with_debian_files(self.items, '1', SECONDS)
        text = items['share/doc/crashfs/copyright'].content.decode()
        self.assertEqual(items['share/doc/crashfs/changelog.gz'].content[4:8], bytes(4))
        self.assertIn('\nCopyright: 2023 the Bavrikste maintainers\nLicense: none-given\n', text)


if __name__ == '__main__':
    unittest.main()
