#!/usr/bin/env python3
"""Builds `out/crate-symq`: the Rust crate's own module `symbols`, with the query lines of `symq`.

    python3 evidence/crate/build.py FOLDER [--crates DIRECTORY]

FOLDER is `deno_graph` 0.111.1 as cargo unpacks it, `src/symbols/` in it. Its six files are used unchanged, and only with
the checksums below; `mod.rs` gets two additional lines, which export two of the crate's types that are otherwise unnameable.
The crate isn't stored in the repository: all outputs are in `out/`, which git ignores. DIRECTORY has the sources of the crates that
the stand-ins need, as Debian installs them; nothing is fetched.
"""
import argparse
import hashlib
import os
import shutil
import subprocess
import sys

HERE = os.path.dirname(os.path.abspath(__file__))
OUT = os.path.join(HERE, 'out')
PARTS = ('Cargo.toml', 'graph', 'program', 'stand_ins')
DEBIAN = '/usr/share/cargo/registry'
PACKAGES = {'indexmap-1.9': 'librust-indexmap-dev', 'serde_json-1': 'librust-serde-json-dev',
            'unicode-ident-1': 'librust-unicode-ident-dev'}

# the files of `src/symbols/`, each with its SHA-256
CHECKSUMS = {
    'analyzer.rs': 'aee8784b4e8ebbcd47831ecad93afed61f30259a5cd6333e7129cfa81a60e6b8',
    'collections.rs': '9051d598296cb0d90482409b184b88083380d90e35968c22b8f0af584951372d',
    'cross_module.rs': 'b28ffd020956851aad23a8cbb1fdd31e536a4f0961879e2fe919b5a9fba92d79',
    'dep_analyzer.rs': '2f86bc066774f90f6c0d992fe4159e90ff5c63f0391b29277e64abe4e8e42cd6',
    'mod.rs': 'e327d7d9b0f4b079718571ef2c206a9a42fb56eab441a254f5db6fc289d659d8',
    'swc_helpers.rs': '32d3863d8c7a5a286bb7b4f55bffd396fa19bf98bae897f7ed74d25e9aa7d9a6',
}
EXPORTS = '''
pub use self::cross_module::DefinitionUnresolved;
pub use self::cross_module::DefinitionUnresolvedKind;
'''
CONFIG = '''[source.crates-io]
replace-with = "local"

[source.local]
directory = "%s"

[net]
offline = true
'''


class Refused(Exception):
    """The reason why nothing is built, as a line."""


def read_checked(folder: str) -> 'dict[str, bytes]':
    """Returns the six files, after checking their checksums."""
    found = {}
    for name, wanted in CHECKSUMS.items():
        path = os.path.join(folder, 'src', 'symbols', name)
        try:
            with open(path, 'rb') as file:
                found[name] = file.read()
        except OSError as fault:
            raise Refused('%s: %s; FOLDER is deno_graph 0.111.1 as cargo unpacks it' % (path, fault.strerror))
        checksum = hashlib.sha256(found[name]).hexdigest()
        if checksum != wanted:
            raise Refused('%s has the SHA-256 %s, and that of deno_graph 0.111.1 is %s' % (path, checksum, wanted))
    return found


def check_tools(crates: str) -> None:
    if not shutil.which('cargo'):
        raise Refused('cargo is needed, of Rust 1.85 or later')
    names = os.listdir(crates) if os.path.isdir(crates) else []
    for crate, package in PACKAGES.items():
        if not any(name.startswith(crate) for name in names):
            raise Refused('%s has no %s: apt-get install %s' % (crates, crate, ' '.join(PACKAGES.values())))


def lay(files: 'dict[str, bytes]', crates: str) -> str:
    """Makes the directory in which cargo builds: our parts, the crate's files, and the paths of other crates."""
    top = os.path.join(OUT, 'build')
    for part in PARTS + ('symbols', 'Cargo.lock'):
        path = os.path.join(top, part)
        shutil.rmtree(path) if os.path.isdir(path) else os.path.exists(path) and os.remove(path)
    os.makedirs(os.path.join(top, 'symbols'))
    os.makedirs(os.path.join(top, '.cargo'), exist_ok=True)
    for part in PARTS:
        source = os.path.join(HERE, part)
        (shutil.copytree if os.path.isdir(source) else shutil.copy)(source, os.path.join(top, part))
    for name, data in files.items():
        with open(os.path.join(top, 'symbols', name), 'wb') as file:
            file.write(data + (EXPORTS.encode() if name == 'mod.rs' else b''))
    with open(os.path.join(top, '.cargo', 'config.toml'), 'w', encoding='utf-8') as file:
        file.write(CONFIG % os.path.abspath(crates))
    return top


def main() -> int:
    p = argparse.ArgumentParser(description=__doc__, formatter_class=argparse.RawDescriptionHelpFormatter)
    p.add_argument('folder')
    p.add_argument('--crates', default=DEBIAN, metavar='DIRECTORY', help='%s unless said' % DEBIAN)
    a = p.parse_args()
    try:
        files = read_checked(a.folder)
        check_tools(a.crates)
    except Refused as why:
        print('crate: %s' % why, file=sys.stderr)
        return 1
    top = lay(files, a.crates)
    if subprocess.run(['cargo', 'build', '--release', '--quiet', '--target-dir', 'target'], cwd=top).returncode:
        return 1
    shutil.copy(os.path.join(top, 'target', 'release', 'crate-symq'), OUT)
    print(os.path.relpath(os.path.join(OUT, 'crate-symq')))
    return 0


if __name__ == '__main__':
    sys.exit(main())
