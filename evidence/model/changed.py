#!/usr/bin/env python3
"""Checks a program on pairs of random graphs that differ in one module, resolution or redirect: where an answer differs, the inputs
of its query have what differs.

    python3 evidence/model/changed.py crates/symq/out/symq --seeds 0..20000

PROGRAM is one word of the shell. Each query of a seed is answered on both graphs, and its inputs on the first. What a module is
changed to is at random: nothing, another one of any graph, itself with another types dependency, or a new one where none was; a
resolution or redirect is removed, added or led elsewhere. A pair counts only if the program accepts both graphs. The last lines say
how many of the answers with what differs among their inputs were the same in both graphs, and `N passed, M failed`, by pairs. As a
control, some answer has to differ without what differs among its inputs, if each list is read without its last specifier.
"""
import argparse
import json
import random
import sys
import time
from collections import Counter

from differ.running import STRICT, Program
from differ.words import command_of, seeds_of
from graphs.cases import case_of_seed
from graphs.texts import compact
from rules.stack import with_big_stack

LISTS = ('modules', 'resolutions', 'redirects')
LINES = 24


def change_module(rng, value, others) -> 'tuple[str, tuple]':
    """Changes one module, and returns what was done to it."""
    modules = value['modules']
    named = sorted({it['specifier'] for it in modules} | {it[-1] for it in value['resolutions'] + value['redirects']} | {'absent'})
    specifier = rng.choice(named)
    at = next((place for place, it in enumerate(modules) if it['specifier'] == specifier), None)
    if at is None:
        modules.append(dict(rng.choice(others), specifier=specifier))
        return 'module added', ('module', specifier)
    how = rng.choice(['removed', 'replaced', 'replaced', 'retyped'])
    if how == 'removed':
        del modules[at]
    elif how == 'replaced':
        modules[at] = dict(rng.choice(others + modules), specifier=specifier)
    else:
        modules[at] = dict(modules[at], types=rng.choice(named))
    return 'module ' + how, ('module', specifier)


def change_row(rng, value, form) -> 'tuple[str, tuple]':
    """Changes one resolution or redirect, and returns what was done to it."""
    rows, names = value[form], [it['specifier'] for it in value['modules']] + ['absent']
    what = form[:-1]
    if rows and rng.random() < 0.8:
        at = rng.randrange(len(rows))
        row, how = rows[at], rng.choice(['removed', 'led elsewhere'])
        rows[at:at + 1] = [] if how == 'removed' else [[*row[:-1], rng.choice(names)]]
    elif form == 'redirects':
        row, how = [rng.choice(names + ['new']), rng.choice(names)], 'added'
        rows.append(row)
    else:
        texts = [it[1] for it in value['resolutions']] or ['./a']
        row, how = [rng.choice(names), rng.choice(texts), rng.choice(names)], 'added'
        rows.append(row)
    return '%s %s' % (what, how), ('module' if form == 'resolutions' else 'redirect', row[0])


def changed(rng, value, others) -> 'tuple[dict, str, tuple]':
    """Returns a graph that differs in one place, what was done there, and which module or redirect it is of."""
    there = {**value, **{it: list(value.get(it) or []) for it in LISTS}}
    form = rng.choice(['modules', 'modules', 'resolutions', 'redirects'])
    how, place = change_module(rng, there, others) if form == 'modules' else change_row(rng, there, form)
    return there, how, place


def rests_on(inputs, place, redirects) -> bool:
    """Returns whether these inputs have what differs: the specifier of a redirect; or the module, also where it is absent."""
    kind, specifier = place
    if kind == 'redirect':
        return any(it['specifier'] == specifier for it in inputs)
    return any(specifier in (it.get('module'), redirects.get(it['specifier'], it['specifier'])) for it in inputs)


def pair_of_seed(seed):
    """Returns the graphs of a seed, its lines, what differs, and whether it is asked by strict rules."""
    case, rng = case_of_seed(seed, True), random.Random('changed %d' % seed)
    others = case_of_seed(seed + 1, True).value['modules'] or [{'kind': 'external'}]
    asked = [it for it in case.lines if not it.replace(b' ', b'').startswith(b'["inputs"')]
    return case.value, changed(rng, case.value, others), rng.sample(asked, min(LINES, len(asked))), case.strict


def answers_of(program, value, lines, strict) -> 'list[str] | None':
    """Returns the answers on a graph; None if the program doesn't accept it."""
    done = program.run(compact(value), lines, strict)
    return done.output.decode().split('\n')[:-1] if done.status == 0 else None


def compare(program, seed, counts) -> bool:
    """Compares the answers on the graphs of a seed. Returns whether each that differs has what differs among its inputs."""
    value, (there, how, place), lines, strict = pair_of_seed(seed)
    inputs = [b'["inputs",%s]' % it for it in lines]
    here, other = answers_of(program, value, lines + inputs, strict), answers_of(program, there, lines, strict)
    if here is None or other is None:
        counts['refused'] += 1
        return True
    counts['pairs'] += 1
    counts[how] += 1
    fine, redirects = True, dict(value.get('redirects') or [])
    for line, before, after, told in zip(lines, here, other, here[len(lines):]):
        listed = json.loads(told).get('inputs')
        if listed is None:
            continue
        rests = rests_on(listed, place, redirects)
        counts['answers'] += 1
        counts['rest'] += rests
        counts['differ'] += before != after
        counts['same'] += rests and before == after
        counts['short'] += before != after and not rests_on(listed[:-1], place, redirects)
        if before != after and not rests:
            fine = False
            print('seed %d, %s, %r: %s differs without it: %s' % (seed, how, place, line.decode(errors='replace'), told), flush=True)
    return fine


def main() -> int:
    p = argparse.ArgumentParser(description=__doc__, formatter_class=argparse.RawDescriptionHelpFormatter)
    p.add_argument('program', type=command_of)
    p.add_argument('--seeds', type=seeds_of, default='0..1000', metavar='A..B')
    p.add_argument('--seconds', type=float, help='stop after so long')
    a = p.parse_args()
    program, counts, failed, began = Program(a.program), Counter(), 0, time.time()
    for seed in a.seeds:
        if a.seconds and time.time() - began > a.seconds:
            break
        failed += not compare(program, seed, counts)
    program.close()
    ways = sorted(it for it in counts if it.split(' ')[0] in ('module', 'resolution', 'redirect'))
    print('%d pairs (%s), %d not accepted' % (counts['pairs'], ', '.join('%s %d' % (it, counts[it]) for it in ways), counts['refused']))
    print('%d answers: %d rest on what differs, %d differ, %d (%.1f %%) rest on it and are the same' % (
        counts['answers'], counts['rest'], counts['differ'], counts['same'], 100 * counts['same'] / max(1, counts['rest'])))
    print('without the last specifier of each list %d would differ without what differs among them' % counts['short'])
    vacuous = not counts['short']
    print('%d passed, %d failed' % (counts['pairs'] - failed, failed + vacuous))
    return 1 if failed or vacuous else 0


if __name__ == '__main__':
    sys.exit(with_big_stack(main))
