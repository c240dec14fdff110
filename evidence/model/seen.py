#!/usr/bin/env python3
"""Checks on random graphs that an answer rests on what its query looks up, and that nothing looked up can be left out.

    python3 evidence/model/seen.py --seeds 0..300

What a query looks up is written here a second time, from crates/symbols_answers/specs, and compared with its inputs. All else in the
graph is changed at random: modules are removed, added, or given other content, resolutions and redirects likewise. The model has to
give the same answer by both rules. Then each way of looking up is left out in turn, and some answer has to differ. The last line is
`N passed, M failed`: one for what is defined, and one for each way.
"""
import argparse
import random
import sys
from collections import Counter

from differ.words import seeds_of
from graphs.cases import case_of_seed
from rules.answers import answer_line
from rules.checker import check_graph
from rules.faults import BadQuery, GraphFault
from rules.inputs import looked_up
from rules.queries import read_query
from rules.raw_graph import graph_of_value
from rules.root import Root
from rules.stack import with_big_stack

ON_EXPORTS, ON_DEFINITIONS = ('exports', 'names'), ('paths', 'definitions', 'leaves', 'resolve')
WAYS = ('types dependencies', 'export *', 'imports', 'the import type of a reference', 'resolutions')


def followed(graph, query, module, out) -> 'set[str]':
    """Returns the specifiers in a module that a query follows, without one of the ways."""
    found = set()
    if module.has_symbols() and query.form in ON_EXPORTS + ON_DEFINITIONS:
        table = graph.table(module)
        if out != 'export *':
            found.update(specifier for specifier, _ in table.stars)
        if out != 'imports' and query.form in ON_DEFINITIONS:
            found.update(it.source for symbol in table.symbols for it in symbol.declarations if it.kind == 'file')
    if query.form == 'resolve' and query.asked[0][0] == 'import' and out != 'the import type of a reference':
        if graph.stands_for(query.specifier) is module:
            found.add(query.asked[0][1])
    return found


def seen(graph, query, out=None) -> 'tuple[set, set]':
    """Returns the specifiers that a query looks up, and the resolutions: each a referrer and a specifier in it."""
    requested, resolutions, left = set(), set(), [query.specifier]
    while left:
        specifier = left.pop()
        module = None if specifier in requested else graph.stands_for(specifier)
        requested.add(specifier)
        for text in () if module is None else followed(graph, query, module, out):
            resolutions.update([(module.specifier, text)] if out != 'resolutions' else [])
            target = graph.resolve_dependency(text, module.specifier)
            left += [] if target is None else [target]
    specifiers, left = set(requested), list(requested) if out != 'types dependencies' else []
    while left:
        module = graph.get(left.pop())
        if module is not None and module.types is not None and module.types not in specifiers:
            specifiers.add(module.types)
            left.append(module.types)
    return specifiers, resolutions


def changed(rng, value, graph, specifiers, resolutions, others) -> dict:
    """Returns another graph with the same there."""
    found = {it.specifier for it in map(graph.get, specifiers) if it is not None}
    ends = {graph.redirects.get(it, it) for it in specifiers}
    modules = [it for it in value['modules'] if it['specifier'] in found]
    for it in value['modules']:
        if it['specifier'] not in found and rng.random() < 0.7:
            modules.append(dict(rng.choice(others), specifier=it['specifier']))
    names = {it['specifier'] for it in modules}
    modules += [it for it in others[:3] if it['specifier'] not in names | ends and rng.random() < 0.5]
    rng.shuffle(modules)
    names = [it['specifier'] for it in modules] or ['a']
    rows = [it for it in value.get('resolutions') or [] if (it[0], it[1]) in resolutions]
    loose = {(it[0], it[1]) for it in value.get('resolutions') or []} - resolutions
    texts = sorted({text for _, text in loose | resolutions})
    loose |= {(name, text) for name in names for text in texts if rng.random() < 0.2} - resolutions
    rows += [[referrer, text, rng.choice(names)] for referrer, text in sorted(loose) if rng.random() < 0.7]
    redirects = [it for it in value.get('redirects') or [] if it[0] in specifiers or rng.random() < 0.5]
    return {'modules': modules, 'redirects': redirects, 'resolutions': rows}


def differences(seeds, out=None) -> Counter:
    """Counts answers, and those that differ in a graph that is changed where the query doesn't look."""
    counts = Counter()
    for seed in seeds:
        case, others = case_of_seed(seed, True), case_of_seed(seed + 1, True).value
        rng = random.Random('seen %d' % seed)
        graph = check_graph(graph_of_value(case.value))
        for line in rng.sample(case.lines, min(12, len(case.lines))):
            try:
                query = read_query(line)
                looks_up = seen(graph, query, out)
                there = changed(rng, case.value, graph, *looks_up, others['modules'])
                other = check_graph(graph_of_value(there))
            except (BadQuery, GraphFault):
                continue
            counts['differ'] += out is None and set(looked_up(Root(graph), query)) != looks_up[0]
            for strict in (False, True):
                counts['answers'] += 1
                counts['differ'] += answer_line(Root(graph, strict=strict), line) != answer_line(Root(other, strict=strict), line)
    return counts


def main() -> int:
    p = argparse.ArgumentParser(description=__doc__, formatter_class=argparse.RawDescriptionHelpFormatter)
    p.add_argument('--seeds', type=seeds_of, default='0..300', metavar='A..B')
    a, passed = p.parse_args(), 0
    for out in (None, *WAYS):
        counts = differences(a.seeds, out)
        passed += bool(counts['answers']) and bool(counts['differ']) == (out is not None)
        print('%s: %d answers, %d differ' % ('without ' + out if out else 'as defined', counts['answers'], counts['differ']), flush=True)
    print('%d passed, %d failed' % (passed, 1 + len(WAYS) - passed))
    return 1 if passed != 1 + len(WAYS) else 0


if __name__ == '__main__':
    sys.exit(with_big_stack(main))
