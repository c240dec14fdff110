"""Compares the kinds of the directory converter. It has a table of its own, which isn't written."""
import re

MARKED = re.compile(r"^  (\w+): ((?:'[^']*'\s*\+?\s*)+),$", re.M)


def table_in(text, name):
    """Returns a table of the converter: texts by names."""
    found = re.search(r'^export const %s = \{\n(.*?)^\};$' % name, text, re.M | re.S)
    rows = MARKED.findall(found[1]) if found else []
    return {key: ''.join(re.findall(r"'([^']*)'", value)) for key, value in rows}


def kinds_there(found, name):
    """Returns the kinds of a category, as the converter has them."""
    kinds = set()
    for part in found.get(name, name).split(', '):
        kinds |= kinds_there(found, part[1:]) if part.startswith('+') else {part}
    return kinds


def kinds_here(table, name):
    text = {kind.name: kind.text for kind in table.kinds()}
    return {text[it] for it in table.of_category(name)}


def differences(want, found):
    """Yields where two tables differ, as lines."""
    for name in [*want, *(it for it in found if it not in want)]:
        if want.get(name) != found.get(name):
            yield '%s: there %s, in the table %s' % (name, found.get(name), want.get(name))


def of_fields(table, text):
    """Returns where the fields differ."""
    want = {}
    for kind in table.kinds():
        fields = ['%s%s %s' % (it.key, it.sort.mark, it.category or it.sort.word) for it in kind.fields]
        want[kind.text] = ', '.join(fields)
    return list(differences(want, table_in(text, 'FIELDS')))


def of_categories(table, text):
    """Returns where the kinds of categories differ, except for categories that are defined by exclusion."""
    found = table_in(text, 'CATEGORIES')
    names = [it for it in table.categories if not (it in table.sets and table.sets[it].none_of)]
    want = {it: sorted(kinds_here(table, it)) for it in names}
    return list(differences(want, {it: sorted(kinds_there(found, it)) for it in names}))
