#!/usr/bin/env python3
"""Packs the library for C, Rust and Python: `python3 tools/pack_library.py FOLDER [ARCHIVE]`.

ARCHIVE is the library that `rt lib` builds from the crate `symq_c`, crates/symq_c/out/libsymq_c.a. FOLDER gets `libsymq.a`, which has with it the
kit's three functions for memory, `libsymq.so` of the same, and `symq.h`.
"""
import os
import shutil
import subprocess
import sys

from set_up import ensure

TOP = os.path.dirname(os.path.dirname(os.path.abspath(__file__)))
ARCHIVE = os.path.join(TOP, 'crates', 'symq_c', 'out', 'libsymq_c.a')
HEADER = os.path.join(TOP, 'bindings', 'c', 'symq.h')


def kit_folder():
    """Returns the directory of the Rattle kit, which has the command `rt`."""
    return os.path.dirname(os.path.dirname(os.path.realpath(shutil.which('rt') or sys.exit('the Rattle kit is needed: its command rt was not found'))))


def pack(folder, archive=ARCHIVE):
    """Puts the library into a directory."""
    if not os.path.exists(archive):
        sys.exit('%s is not there: `make lib` builds it' % archive)
    ensure(['cc', 'ar'])
    os.makedirs(folder, exist_ok=True)
    static, shared = os.path.join(folder, 'libsymq.a'), os.path.join(folder, 'libsymq.so')
    for path in (static, shared):
        if os.path.exists(path):
            os.remove(path)
    parts = [archive, os.path.join(kit_folder(), 'c', 'liblibc_c.a')]
    script = ['create ' + static, *('addlib ' + it for it in parts), 'save', 'end', '']
    subprocess.run(['ar', '-M'], input='\n'.join(script), text=True, check=True)
    whole = ['-Wl,--whole-archive', static, '-Wl,--no-whole-archive']
    subprocess.run(['cc', '-shared', '-Wl,-soname,libsymq.so', '-o', shared, *whole], check=True)
    shutil.copy(HEADER, folder)


if __name__ == '__main__':
    pack(*sys.argv[1:])
