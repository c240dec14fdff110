"""Stores proved and built results in out/ at the top, each with a hash of its inputs; and finds the programs of the kit."""
import functools
import importlib.machinery
import importlib.util
import os
import shutil
import sys

from wrong.crates import TOP, kit, read, write

KEPT = os.path.join(TOP, 'out')


@functools.lru_cache(maxsize=None)
def rt():
    """Returns the kit's command rt: how its full check proves and builds a crate, and what it needs for that."""
    loader = importlib.machinery.SourceFileLoader('rt', os.path.join(kit(), 'bin', 'rt'))
    made = importlib.util.module_from_spec(importlib.util.spec_from_loader('rt', loader))
    loader.exec_module(made)
    # as `rt ci` does: each crate is proved from nothing, over the contracts of the crates below
    made.rtlib.Crate = made.Crate
    made.Crate.cuts_libraries, made.Crate.allowed = True, made.handles_of(TOP)
    return made


def crate_of(name):
    """Returns a crate with its dependencies, as rt reads them."""
    return rt().Crate(os.path.join(TOP, 'crates', name), TOP, {})


def sum_of(name):
    """Returns the hash of a crate's inputs: the kit, its sources and proofs, and those of the crates below."""
    return crate_of(name).stamp()


def keep(name, path, made_from):
    """Stores the build of a crate with the hash of its inputs, unless the sources have changed since."""
    if made_from == sum_of(name) and os.path.isfile(path):
        os.makedirs(KEPT, exist_ok=True)
        shutil.copy(path, os.path.join(KEPT, name))
        write(os.path.join(KEPT, name + '.sum'), made_from)


def kept(name, made_from):
    """Returns the path of a crate's stored build for this hash; None if there is none."""
    path = os.path.join(KEPT, name)
    is_same = os.path.isfile(path) and os.path.isfile(path + '.sum') and read(path + '.sum') == made_from
    return path if is_same else None
