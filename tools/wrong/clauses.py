"""The clauses that relate runs to contracts: those that fix how a run of `symq` ends, and those that edits name."""
import hashlib
import os
import re

from .crates import TOP, Crate, libraries_below, libraries_of, read

# the clauses that fix how a run of symq ends: the rules and the graph or the reason why there is none, the text of an answer, the whole
# output, the reason why serving fails, and the status and the line of an error
FIXING = (
    'symq_reader::read_graph',
    *('symq_core::keyed_graph %s' % it for it in ('faultless', 'refused', 'modules', 'redirects', 'resolutions')),
    *('symq_core::read_args_with %s' % it for it in ('started', 'fails')),
    'symq_core::answer text',
    *('symq_core::serve_with %s' % it for it in ('served', 'fails', 'counted')),
    'symq_core::ExitError::status',
    'symq_core::ExitError::line',
)

# their texts are signed by a person: a line for each, the hash of its text and its name
SIGNED = 'tools/wrong/signed_clauses'


def named_by(shown):
    """Returns what an edit names after 'shown': a case or a test, and after 'by' a clause that fixes the observed result, if there is one."""
    name, _, clause = shown.partition(' by ')
    return name, clause


def up_to_its_brace(text):
    """Returns a text that begins after a brace, up to the brace that closes it."""
    depth = 1
    for place, character in enumerate(text):
        depth += {'{': 1, '}': -1}.get(character, 0)
        if not depth:
            return text[:place]
    return text


def clause_texts(own, path, name, is_public):
    """Returns what a function of a crate, with a path of this end, ensures by a clause of this name, or by the only one, without a name: one text for
    each."""
    named = [(it, own.texts[it.file].split('\n')) for it in own.functions if list(it.path[-len(path) :]) == path]
    heads = ['\n'.join(lines[it.first : it.last + 1]) for it, lines in named if not is_public or it.trait or lines[it.first].lstrip().startswith('pub fn ')]
    clause = re.compile(r'^ *ensures %s\{' % (re.escape(name) + ' ' if name else ''), re.M)
    return [up_to_its_brace(head[found.end() :]) for head in heads for found in [clause.search(head)] if found]


def ensures(own, path, name, is_public):
    """Returns whether a function of a crate, with a path of this end, ensures a clause of this name, or the only one, without a name."""
    return bool(clause_texts(own, path, name, is_public))


def has_law(own, path, name):
    """Returns whether a public type of a crate has a law of this name."""
    types = re.findall(r'^pub struct %s\b[^;\n]*\{\n.*?^}' % re.escape(path[-1]), '\n'.join(own.texts.values()), re.M | re.S)
    law = re.compile(r'^ *(?:pub )?ghost %s: \{' % re.escape(name), re.M)
    return any(map(law.search, types))


def words_of_clause(clause):
    """Returns the crate, the path and the name of a clause: 'symbols_root::RootSymbol::new grown', or without a name if it is the only one."""
    owner, _, name = clause.partition(' ')
    crate, *path = owner.split('::')
    return crate, path, name


def has_clause(crate, clause):
    """Returns whether the crate, or one above it, has a public function that ensures a clause, or a public type with a law of its name."""
    other, path, name = words_of_clause(clause)
    if other not in crate.libraries or not path or crate.name not in [other, *libraries_below(other, crate.libraries)]:
        return False
    own = Crate(crate.top, other, crate.libraries)
    return ensures(own, path, name, True) or has_law(own, path, name)


def sum_of_texts(texts):
    """Returns the hash of a clause's texts, regardless of line breaks; None if there is no text."""
    return hashlib.sha256('\n'.join(' '.join(it.split()) for it in texts).encode()).hexdigest()[:16] if texts else ''


def sums_of_fixing(top):
    """Returns the hash of the text of each clause that fixes how a run ends; None for a missing one."""
    libraries, words = libraries_of(top), [(it, *words_of_clause(it)) for it in FIXING]
    crates = {name: Crate(top, name, libraries) for name in {it[1] for it in words} if name in libraries}
    return {it: sum_of_texts(clause_texts(crates[crate], path, name, False) if crate in crates else []) for it, crate, path, name in words}


def signed_sums(top):
    """Returns the hashes that a person signed, by the names of the clauses."""
    path = os.path.join(top, SIGNED)
    lines = read(path).split('\n') if os.path.exists(path) else []
    return {name: number for number, _, name in (it.partition(' ') for it in lines if it and not it.startswith('#'))}


def unsigned_clauses(top=TOP):
    """Returns the clauses that fix how a run ends whose text isn't the signed one, each with its hash, which is None for a missing clause."""
    signed = signed_sums(top)
    return {it: number for it, number in sums_of_fixing(top).items() if not number or signed.get(it) != number}


def missing_clauses(top):
    """Returns the clauses that fix how a run ends which don't have the signed text."""
    return list(unsigned_clauses(top))
