"""The case of a seed: a graph's text, lines, and the rules."""
import random
from typing import NamedTuple

from graphs import dependent, identifiers, mixed, stars, webs
from graphs.broken import break_field, break_form, break_graph, break_tree
from graphs.queries import BAD_LINES, query_lines
from graphs.texts import FIXED_TEXTS, broken_text, graph_text


class Case(NamedTuple):
    """A case. `value` is the JSON value of the graph's text, or None if it may have none. `strict` says that the lines are answered by strict rules."""
    what: str
    graph: bytes
    lines: 'list[bytes]'
    value: 'dict | None'
    strict: bool = False

    def by(self, strict: bool) -> 'Case':
        """Returns the same case, by these rules."""
        return self._replace(strict=strict)


ACCEPTED = {'mixed': mixed.graph_value, 'dependent': dependent.graph_value, 'stars': stars.graph_value,
            'webs': webs.graph_value, 'identifiers': identifiers.graph_value}
BROKEN = ['tree'] * 3 + ['graph', 'form', 'field', 'bytes', 'fixed']
# the families of cases, in turn by the seed, by Deno's rules and by strict ones, where names may be shared
FAMILIES = {False: ['mixed'] * 8 + ['dependent'] * 2 + ['stars'] * 2 + BROKEN,
            True: ['mixed'] * 8 + ['dependent'] + ['webs'] * 2 + ['stars'] + BROKEN}
ACCEPTED_FAMILIES = {False: ['mixed'] * 7 + ['dependent'] + ['stars'] * 2,
                     True: ['mixed'] * 6 + ['webs'] * 3 + ['stars']}


def broken(rng, family, value) -> None:
    """Breaks an accepted graph."""
    if family == 'tree':
        for _ in range(rng.choice([1, 1, 1, 2, 3])):
            break_tree(rng, value)
        if rng.random() < 0.1:
            break_graph(rng, value)
    elif family == 'graph':
        for _ in range(rng.choice([1, 1, 2])):
            break_graph(rng, value)
        if rng.random() < 0.3:
            break_tree(rng, value)
    elif family == 'form':
        for _ in range(rng.choice([1, 1, 1, 2])):
            break_form(rng, value)
    elif family == 'field':
        break_field(rng, value)


def family_of_seed(seed: int, accepted_only=False, strict=None) -> 'tuple[str, bool]':
    """Returns the family of a seed, and whether it is queried by strict rules: three in ten of each family are, unless it is given."""
    by_rules = ACCEPTED_FAMILIES if accepted_only else FAMILIES
    turn, place = divmod(seed, len(by_rules[False]))
    strict = (place + turn) % 10 < 3 if strict is None else strict
    return by_rules[strict][place], strict


def value_of_seed(seed: int) -> 'tuple[dict, bool]':
    """Returns for accepted cases the graph alone, and whether it is queried by strict rules."""
    family, strict = family_of_seed(seed, accepted_only=True)
    return ACCEPTED[family](random.Random(seed)), strict


def case_of_seed(seed: int, accepted_only=False, strict=None) -> Case:
    """Returns the case of a seed, by the rules of its turn or the given ones."""
    family, strict = family_of_seed(seed, accepted_only, strict)
    return _case(random.Random(seed), family, seed // len(FAMILIES[strict])).by(strict)


def mutated_case(seed: int) -> Case:
    """Returns an accepted graph, with its text changed at one to three positions."""
    rng = random.Random('mutated %d' % seed)
    text = graph_text(rng, ACCEPTED[rng.choice(sorted(ACCEPTED))](rng))
    for _ in range(rng.choice([1, 1, 2, 3])):
        text = broken_text(rng, text)
    return Case('mutated', text, [b'["exports","a"]', b'["names","a"]'], None)


def _case(rng, family, turn) -> Case:
    if family == 'fixed' and turn % 3:
        return Case(family, FIXED_TEXTS[(turn - turn // 3) % len(FIXED_TEXTS)], list(BAD_LINES), None)
    if family == 'fixed':
        family = 'identifiers'
    value = ACCEPTED.get(family, mixed.graph_value)(rng)
    if family in ACCEPTED:
        return Case(family, graph_text(rng, value), query_lines(rng, value), value)
    lines = query_lines(rng, value, 20) if family == 'tree' else [b'["exports","a"]'] if rng.random() < 0.5 else []
    broken(rng, family, value)
    text = graph_text(rng, value)
    if family != 'bytes':
        return Case(family, text, lines, value)
    for _ in range(rng.choice([1, 1, 2])):
        text = broken_text(rng, text)
    return Case(family, text, lines, None)
