#!/usr/bin/env python3
"""Wraps another program with a fault. The arguments are the fault's name, and the other program with its own arguments."""
import json
import re
import subprocess
import sys

PAIR = re.compile(rb'"unresolved":\[(\[[^][]*\]),(\[[^][]*\])\]')


def unresolved_reversed(line: bytes, _) -> bytes:
    """Two unresolved statements, in the other order."""
    return PAIR.sub(rb'"unresolved":[\2,\1]', line)


def with_shared(change):
    """A fault in the answers with shared names, if there are any."""
    def changed(line: bytes, _) -> bytes:
        if not line.startswith(b'{"exports":') or b'"shared":[{' not in line:
            return line
        value = json.loads(line)
        change(value)
        return json.dumps(value, ensure_ascii=False, separators=(',', ':')).encode()
    return changed


def drop_shared(value) -> None:
    names = {it['name'] for it in value['shared']}
    value['exports'] = [it for it in value['exports'] if it['name'] not in names]


def first_two(value) -> None:
    for it in value['shared']:
        del it['owners'][2:]


def one_chain(value) -> None:
    for it in value['shared']:
        for owner in it['owners']:
            owner['chain'] = it['owners'][0]['chain']


def default_found(line: bytes, by_denos_rules: bytes) -> bytes:
    """The answers of Deno's rules, except for exports."""
    return line if line.startswith(b'{"exports":') else by_denos_rules


FAULTS = {'unresolved_reversed': unresolved_reversed, 'shared_names_dropped': with_shared(drop_shared),
          'two_owners_only': with_shared(first_two), 'one_chain_for_all_owners': with_shared(one_chain),
          'default_found_by_strict_rules': default_found}


def main(name, *words) -> int:
    asked = sys.stdin.buffer.read()
    without = [word for word in words if word != '--strict'] if name == 'default_found_by_strict_rules' else words
    done, other = (subprocess.run(it, input=asked, stdout=subprocess.PIPE, stderr=subprocess.PIPE) for it in (words, without))
    for line, by_denos_rules in zip(done.stdout.split(b'\n')[:-1], other.stdout.split(b'\n')):
        sys.stdout.buffer.write(FAULTS[name](line, by_denos_rules) + b'\n')
    sys.stderr.buffer.write(done.stderr)
    return done.returncode


if __name__ == '__main__':
    sys.exit(main(*sys.argv[1:]))
