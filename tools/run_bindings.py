#!/usr/bin/env python3
"""Tests the proved library from C, Python and Rust: compares the header with the exports, and runs all stored cases of symq through each.

    python3 tools/run_bindings.py                       crates/symq_c/out/libsymq_c.a, which `make lib` builds
    python3 tools/run_bindings.py ARCHIVE               the library at this path
    python3 tools/run_bindings.py --libraries FOLDER    proves and builds it, over the built libraries in this directory, and stores it for `make lib`

The library is packed into a directory of its own. `symq.h` has to declare the exports of the crate, with the types of the arguments, and a
session with those of its fields; `bindings/c/example.c` is compiled with every warning as an error and answers the cases, by one call and by
a session, each with keys and without; so do the tests in Python and in Rust, which is built without and with its feature.
`tests/library/refusing.c` is a host whose allocator fails call after call, and `tests/library/deep.c` one that calls about long chains in a thread
with a small stack. The last line is 'N passed, M failed'.
"""
import argparse
import glob
import json
import os
import re
import shutil
import subprocess
import sys
import tempfile
from concurrent.futures import ThreadPoolExecutor

import run_deep
from kept import keep, sum_of
from pack_library import ARCHIVE, HEADER, TOP, kit_folder, pack
from run_cases import SORTS, TESTS, all_cases, run_program
from run_refusing import OF_MEMORY
from runner import Limits, report, run
from set_up import ensure, install, may_install
from wrong.crates import Crate, libraries_of
from wrong.rooms import words_of

SOURCES = os.path.join(TOP, 'crates', 'symq_c', 'src')
BINDINGS = os.path.join(TOP, 'bindings')
# the length of the chains
LINKS = 100_000
WARNINGS = ['-std=c99', '-Wall', '-Wextra', '-Wpedantic', '-Werror', '-O1']
# the C types of an export's types
TYPES = {'Global': [], '&[u8]': ['const uint8_t *', 'size_t'], '&mut [u8]': ['uint8_t *', 'size_t'],
         '&mut usize': ['size_t *'], 'u64': ['uint64_t'], '&mut Session': ['struct symq_session *'], 'u8': ['uint8_t'], '': ['void'],
         'bool': ['bool'], '*mut u8': ['void *']}

# where Debian's packages put crates, and the packages of those that the binding takes
REGISTRY, CRATES = '/usr/share/cargo/registry', {'serde_json': 'librust-serde-json-dev', 'serde_derive': 'librust-serde-derive-dev'}
FROM_DEBIAN = ['--offline', '--config', 'source.crates-io.replace-with="debian"', '--config', 'source.debian.directory="%s"' % REGISTRY]


def ensure_crates():
    lacking = [package for crate, package in CRATES.items() if not glob.glob(os.path.join(REGISTRY, crate + '-[0-9]*'))]
    if lacking and not may_install():
        sys.exit('crates are needed: install ' + ', '.join(lacking))
    if lacking:
        install(lacking)


def read(path):
    with open(path, encoding='utf-8') as file:
        return file.read()


def exports():
    """Returns the exports of the crate, and the struct of a session: for each name its C types, the result's first."""
    texts = ''.join(read(os.path.join(SOURCES, file)) for file in sorted(os.listdir(SOURCES)))
    found = {'struct symq_session': laid_out('Session', texts)}
    for name, given, result in re.findall(r'#\[unsafe\(no_mangle\)\]\s*pub extern "C" fn (\w+)\(([^)]*)\)(?: -> (\w+))?', texts):
        types = [it.split(':')[1].strip() for it in given.split(',') if it.strip()]
        found[name] = TYPES[result] + [c for it in types for c in TYPES[it]]
    return found


def laid_out(name, texts):
    """Returns the C types of the fields of a struct that C sees, with nested structs expanded."""
    fields = re.search(r'#\[repr\(C\)\]\n(?:#\[.*\n)*pub struct %s \{(.*?)\n\}' % name, texts, re.S)[1]
    found = []
    for kind in re.findall(r'^    (?:pub )?\w+: (.*),$', fields, re.M):
        found += TYPES[kind] if kind in TYPES else laid_out(kind, texts)
    return found


def declared():
    """Returns the same from the header."""
    text = re.sub(r'/\*.*?\*/', '', read(HEADER), flags=re.S)
    found = {}
    for name, fields in re.findall(r'^struct (\w+) \{(.*?)^\};', text, re.M | re.S):
        found['struct ' + name] = [it.strip() for it in re.findall(r'^\s*(.*?)\w+;$', fields, re.M)]
    for result, name, given in re.findall(r'^(\w+) (\w+)\(([^)]*)\);', text, re.M):
        types = [re.fullmatch(r'\s*(.*?)\w+\s*', it, re.S)[1].strip() for it in given.split(',')]
        found[name] = [result] + [re.sub(r'\s+', ' ', it) for it in types]
    return found


def differences():
    """Returns what is wrong with the header, export by export."""
    ours, theirs = exports(), declared()
    names = sorted({*ours, *theirs})
    return {'symq.h: ' + it: '' if ours.get(it) == theirs.get(it) else 'exported %s, declared %s' % (ours.get(it), theirs.get(it)) for it in names}


def compiled(folder, source, name):
    """Compiles a program in C with the packed library. Its own definitions replace those of the library."""
    path = os.path.join(folder, name)
    subprocess.run(['cc', *WARNINGS, '-o', path, source, '-I', folder, os.path.join(folder, 'libsymq.a')], check=True)
    return path


def through_c(folder):
    """Runs the stored cases of symq by the example in C, by one call and by a session."""
    example = compiled(folder, os.path.join(BINDINGS, 'c', 'example.c'), 'example')
    cases = [it for it in all_cases()[0] if it.program == 'symq' and it.words in (None, ['--strict', 'graph.json']) and it.graph is not None]
    cases += [it._replace(name=it.name + ', by a session', words=['--session', *(it.words or ['graph.json'])]) for it in cases]
    cases += [it._replace(name=it.name + ', with keys', words=['--keyed', *(it.words or ['graph.json'])]) for it in cases]
    with ThreadPoolExecutor(os.cpu_count()) as pool:
        found = pool.map(lambda it: run_program(example, it), cases)
    return {'C: ' + case.name: text for case, text in zip(cases, found)}


def module_text(graph):
    """Returns the text of a graph's first module with its resolutions; if there is none, that of another module."""
    try:
        value = json.loads(graph)
        module = value['modules'][0]
        rows = [it for it in value.get('resolutions', []) if it[0] == module['specifier']]
    except (ValueError, LookupError):
        module, rows = {'specifier': 'put', 'kind': 'external'}, []
    return json.dumps({'modules': [module], 'resolutions': rows})


def refused(folder):
    """Runs hosts whose allocator fails call after call, over small stored cases."""
    host, found = compiled(folder, os.path.join(TESTS, 'library', 'refusing.c'), 'refusing'), {}
    for name in OF_MEMORY:
        case = SORTS['cases']('cases', name)[0]
        if case.words is None and case.graph is not None:
            at = os.path.join(TESTS, 'cases', name)
            queries = os.path.join(at, 'queries')
            words = [os.path.join(at, 'graph.json'), queries if os.path.exists(queries) else os.devnull, os.path.join(folder, 'module.json')]
            with open(words[2], 'w', encoding='utf-8') as file:
                file.write(module_text(case.graph))
            got = run(host, words, None, Limits(seconds=None), stderr=None)
            found['refusing: ' + name] = got.output.decode() if got.status or int(got.output) < 2 else ''
    return found


def in_small_threads(folder):
    """Calls the library about long chains in a thread with a small stack."""
    host = compiled(folder, os.path.join(TESTS, 'library', 'deep.c'), 'deep')
    return {'deep: ' + name: text for name, text in run_deep.rows(run_deep.by_host(host), run_deep.shapes(LINKS))}


def through_python(folder):
    """Runs the tests of the package in Python. Returns what failed, test by test, or why none ran."""
    words = [sys.executable, '-m', 'unittest', 'discover', '-v', os.path.join(BINDINGS, 'python', 'tests')]
    run = subprocess.run(words, env={**os.environ, 'SYMQ_LIBRARY': os.path.join(folder, 'libsymq.so')},
                         stdout=subprocess.DEVNULL, stderr=subprocess.PIPE, text=True)
    found = {'Python: ' + name: '' for name in re.findall(r'^(test_\w+) .*\n?.*\.\.\. ok$', run.stderr, re.M)}
    return found if run.returncode == 0 and found else {**found, 'Python': run.stderr[-3000:]}


def through_rust(folder):
    """Runs the tests of the crate in Rust, without its feature and with it, on a copy beside the cases. Debian's packages stand in for the registry."""
    made = os.path.join(folder, 'rust', 'bindings', 'rust')
    shutil.copytree(os.path.join(BINDINGS, 'rust'), made, ignore=shutil.ignore_patterns('target', 'Cargo.lock'))
    os.symlink(TESTS, os.path.join(folder, 'rust', 'tests'))
    found = {}
    for features in ([], ['--features', 'json']):
        run = subprocess.run(['cargo', 'test', *FROM_DEBIAN, *features], cwd=made, text=True,
                             env={**os.environ, 'SYMQ_LIB_DIR': folder, 'RUSTFLAGS': '-D warnings'}, stdout=subprocess.PIPE, stderr=subprocess.PIPE)
        names = re.findall(r'^test (.+) \.\.\. ok$', run.stdout, re.M)
        found.update({' '.join(['Rust', *features]) + ': ' + it: '' for it in names})
        if run.returncode or not names:
            found[' '.join(['Rust', *features])] = (run.stdout + run.stderr)[-3000:]
    return found


def built(path, libraries):
    """Returns the static library, proved and built at the path over the built libraries of a directory."""
    crate, kit, made_from = Crate(TOP, 'symq_c', libraries_of(TOP)), kit_folder(), sum_of('symq_c')
    program, _, *words = words_of(crate, kit, libraries)
    words = [it for it in words if it != '--allow-holes']
    toolchain = ['--toolchain', os.path.join(kit, 'toolchain'), '--backend', 'llvm', '--crate-type', 'staticlib']
    run = subprocess.run([program, 'build', *words, *toolchain, '-o', path], cwd=crate.folder, stdin=subprocess.DEVNULL,
                         stdout=subprocess.PIPE, stderr=subprocess.STDOUT, text=True, errors='replace')
    if run.returncode:
        sys.exit(run.stdout[-3000:])
    keep('symq_c', path, made_from)
    return path


def arguments(words):
    parser = argparse.ArgumentParser(description='The proved library from C, Python and Rust.')
    parser.add_argument('--libraries', metavar='FOLDER', type=os.path.abspath, help='where the built libraries are')
    parser.add_argument('archive', nargs='?', metavar='ARCHIVE', type=os.path.abspath, default=ARCHIVE)
    return parser.parse_args(words)


def main(words):
    args = arguments(words)
    ensure(['cc', 'cargo'])
    ensure_crates()
    with tempfile.TemporaryDirectory(prefix='symq-') as folder:
        pack(folder, built(os.path.join(folder, 'libsymq_c.a'), args.libraries) if args.libraries else args.archive)
        found = differences()
        for part in (through_c, refused, in_small_threads, through_python, through_rust):
            found.update(part(folder))
    return report(sorted(found.items()))


if __name__ == '__main__':
    sys.exit(main(sys.argv[1:]))
