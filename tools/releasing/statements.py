"""What a release says of itself: checksums, what is linked, and how it was made."""

from __future__ import annotations

import hashlib
import json
from dataclasses import dataclass
from datetime import datetime, timezone
from pathlib import Path
from typing import Dict, List

from building.crates import crates_below

NOT_RUN = 'the gate was not run'
BUILT = 'as tools/build left it, which builds only what is proved'
GIVEN = 'given by --objects; nothing here says that it was proved'


@dataclass(frozen=True)
class Provenance:
    """The origin of a release: its version, its commit and kit, its time in seconds since 1970, the
    counts of its gate, where its object file is from, and the linker and the C library with their
    versions."""

    version: str
    commit: str
    kit: str
    seconds: int
    gate: str = NOT_RUN
    object_origin: str = BUILT
    linker: str = ''
    c_library: str = ''

    @property
    def time(self) -> str:
        """The time of the release, as SPDX writes it: UTC, to the second."""
        moment = datetime.fromtimestamp(self.seconds, timezone.utc)
        return moment.strftime('%Y-%m-%dT%H:%M:%SZ')


def sha256_of(content: bytes) -> str:
    """The SHA-256 of the bytes of a file, in hexadecimal digits."""
    return hashlib.sha256(content).hexdigest()


def checksum_lines(paths: List[Path]) -> str:
    """The lines that `sha256sum --check` reads, sorted by path, for files that are all in one
    folder: sha256sum must be run there. OSError if a file can't be read."""
    return ''.join(f'{sha256_of(path.read_bytes())}  {path.name}\n' for path in sorted(paths))


def built_module(provenance: Provenance) -> str:
    """The text of the module `built`, which only a release has: from it `--version` of the tools
    takes the commit and the kit."""
    return (
        '"""Of what this release was made."""\n\n'
        f'COMMIT = {provenance.commit!r}\nKIT = {provenance.kit!r}\n'
    )


def attestation_text(provenance: Provenance, object_bytes: bytes, program_bytes: bytes) -> str:
    """The text of ATTESTATION: of which commit and kit the release is, what the gate counted, and
    the checksums of the bytes of the object file and of the program. Each line is a name and its
    value."""
    return (
        f'version: {provenance.version}\ncommit: {provenance.commit}\nkit: {provenance.kit}\n'
        f'gate: {provenance.gate}\n'
        f'object: {provenance.object_origin}\n'
        f'object-sha256: {sha256_of(object_bytes)}\n'
        f'linked: statically, outside the kit, by {provenance.linker} with {provenance.c_library}\n'
        f'program-sha256: {sha256_of(program_bytes)}\n'
    )


def spdx_package(name: str, version: str) -> Dict[str, object]:
    """A package of an SPDX document: what is linked, by name and version. The package's identifier
    has a hyphen for each `_` of the name. Its files aren't listed, and nothing is asserted of its
    licence."""
    return {
        'SPDXID': f'SPDXRef-{name.replace("_", "-")}',
        'name': name,
        'versionInfo': version,
        'downloadLocation': 'NOASSERTION',
        'filesAnalyzed': False,
        'licenseConcluded': 'NOASSERTION',
        'licenseDeclared': 'NOASSERTION',
        'copyrightText': 'NOASSERTION',
    }


def spdx_relationship(source: object, kind: str, target: object) -> Dict[str, object]:
    """An SPDX relationship of a kind, from the identifier `source` to the identifier `target`."""
    return {'spdxElementId': source, 'relationshipType': kind, 'relatedSpdxElement': target}


def linked_versions(provenance: Provenance, uses: Dict[str, List[str]]) -> Dict[str, str]:
    """The version of each library that is linked into the program, by name: of the crates below
    the program, the toolchain's library, the C library and libgcc. `uses` has what each crate of
    this repository uses: other crates are the kit's."""
    versions = {
        name: provenance.version if name in uses else provenance.kit
        for name in sorted(crates_below(uses, 'crashfs'))
    }
    versions['rattle-standard-library'] = provenance.kit
    library_name, _, library_version = provenance.c_library.partition(' ')
    versions[library_name] = library_version
    versions['libgcc'] = provenance.linker.partition(' ')[2]
    return versions


def spdx_document(provenance: Provenance, uses: Dict[str, List[str]]) -> str:
    """The program and the linked_versions() as an SPDX 2.3 document (JSON). The same arguments give
    the same text."""
    packages = [
        spdx_package(name, version) for name, version in linked_versions(provenance, uses).items()
    ]
    relationships = [spdx_relationship('SPDXRef-DOCUMENT', 'DESCRIBES', 'SPDXRef-crashfs')]
    relationships += [
        spdx_relationship('SPDXRef-crashfs', 'STATIC_LINK', package['SPDXID'])
        for package in packages
    ]
    document = {
        'spdxVersion': 'SPDX-2.3',
        'dataLicense': 'CC0-1.0',
        'SPDXID': 'SPDXRef-DOCUMENT',
        'name': f'crashfs-{provenance.version}',
        'documentNamespace': f'urn:crashfs:{provenance.version}:{provenance.commit}',
        'creationInfo': {'created': provenance.time, 'creators': ['Tool: tools/release']},
        'packages': [spdx_package('crashfs', provenance.version), *packages],
        'relationships': relationships,
    }
    return json.dumps(document, indent=1) + '\n'
