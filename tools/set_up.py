#!/usr/bin/env python3
"""Installs commands that are run: `python3 tools/set_up.py node tsc`.

A missing command is installed from Debian's package, if this is root and has apt-get; otherwise a line says what to install.
"""
import fcntl
import os
import re
import shutil
import subprocess
import sys
import tempfile

PACKAGES = {'node': 'nodejs', 'tsc': 'node-typescript', 'dot': 'graphviz', 'cc': 'build-essential', 'ar': 'build-essential', 'cargo': 'cargo',
            'valgrind': 'valgrind'}


DEBIAN_KEYS = '/usr/share/keyrings/debian-archive-keyring.gpg'

# nothing that is run here may wait for an answer of people
ASKS_NOTHING = {'stdin': subprocess.DEVNULL, 'env': {**os.environ, 'DEBIAN_FRONTEND': 'noninteractive'}}


def quiet(words, **how):
    return subprocess.run(words, stdout=subprocess.PIPE, stderr=subprocess.STDOUT, text=True, **{**ASKS_NOTHING, **how})


def may_install():
    return os.geteuid() == 0 and shutil.which('apt-get') is not None


def install(packages):
    """Installs packages of Debian, one call of this program at a time. If that fails, it updates the lists of packages and tries once more."""
    print(f'installing {", ".join(packages)}', file=sys.stderr)
    words = ['apt-get', 'install', '-y', '--no-install-recommends', *packages]
    with open(os.path.join(tempfile.gettempdir(), 'deno_symbols.set_up'), 'w', encoding='utf-8') as lock:
        fcntl.flock(lock, fcntl.LOCK_EX)
        if quiet(words).returncode != 0:
            updated = quiet(['apt-get', 'update'])
            done = quiet(words)
            if done.returncode != 0:
                # a package that isn't found may only lack in lists that weren't updated, as beside another apt-get
                sys.exit((updated.stdout[-1000:] if updated.returncode != 0 else '') + done.stdout[-2000:])


def ensure(commands):
    """Installs commands, or ends with a line that says which packages they need."""
    lacking = [it for it in commands if shutil.which(it) is None]
    if lacking and not may_install():
        sys.exit(f'the commands {", ".join(lacking)} are needed: install {", ".join(PACKAGES[it] for it in lacking)}')
    if lacking:
        install([PACKAGES[it] for it in lacking])


def ensure_directories(packages):
    """Installs directories: pairs of a directory and the package that has it."""
    lacking = sorted({package for directory, package in packages if not os.path.isdir(directory)})
    if lacking and not may_install():
        sys.exit(f'packages of Debian are needed: install {", ".join(lacking)}')
    if lacking:
        install(lacking)


def newest_suite(package, folder):
    """Unpacks a package of Debian's newest suite under the directory, without installing anything. Returns whether it was available."""
    if not may_install():
        return False
    shown = quiet(['apt-get', 'indextargets', '--format', '$(REPO_URI)', 'Created-By: Packages', 'Component: main']).stdout
    places = sorted({line for line in shown.splitlines() if re.fullmatch(r'\S+/debian/?', line)})
    if not places:
        return False
    with tempfile.TemporaryDirectory(prefix='newest-') as made:
        lists, cache, sources = (os.path.join(made, it) for it in ('lists', 'cache', 'sources.list'))
        for it in (lists, cache):
            os.makedirs(os.path.join(it, 'partial'))
        with open(sources, 'w', encoding='utf-8') as file:
            key = '[signed-by=%s] ' % DEBIAN_KEYS if os.path.exists(DEBIAN_KEYS) else ''
            file.write('deb %s%s unstable main\n' % (key, places[0]))
        how = ['-o', 'Dir::Etc::SourceList=' + sources, '-o', 'Dir::Etc::SourceParts=-', '-o', 'Dir::State::Lists=' + lists, '-o', 'Dir::Cache=' + cache,
               '-o', 'APT::Sandbox::User=root']
        quiet(['apt-get', *how, 'update'])
        quiet(['apt-get', *how, 'download', package], cwd=made)
        files = [it for it in os.listdir(made) if it.endswith('.deb')]
        return bool(files) and quiet(['dpkg', '-x', os.path.join(made, files[0]), folder]).returncode == 0


if __name__ == '__main__':
    ensure(sys.argv[1:])
