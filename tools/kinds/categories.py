"""Generates sets and categories: which kinds they have, in the code and in contracts."""
from .lines import code, contracts, sentence, space_all, uses
from .tree import DECLARED, SPECS, contract_names, enum_uses


def comment_of(table, category):
    return category.comment or sentence(table.sets[category.name].comment)


def enum_lines(table):
    """Returns the enum of categories."""
    lines = []
    for it in table.categories.values():
        lines += ['/// ' + comment_of(table, it), it.name + ',']
    return ['/// Which kinds may stand at a place.', '#[derive(Clone, Copy, Debug, PartialEq, Eq)]', 'pub enum Category {', *space_all(4, lines), '}']


def one_of(subject, names):
    """Returns `matches!` of a subject with some names of kinds."""
    return 'matches!(%s, %s)' % (subject, ' | '.join('KindName::' + it for it in names))


def test_body(table, one):
    """Returns the test for the kinds of a set."""
    asked = ['self.%s()' % table.sets[it].test() for it in one.all_of] + ['!self.%s()' % table.sets[it].test() for it in one.none_of]
    sign, names = (' && !', one.but) if one.but else (' || ', one.kinds)
    head = ' || '.join(asked)
    return head + (sign if head else '') + one_of('self', names) if names else head


def test_lines(table, one):
    """Returns the method that tests for the kinds of a set."""
    clause = 'ensures { result ≡ %s self }' % one.test()
    return ['    fn %s(self) -> bool' % one.test(), '        ' + clause, '    {', '        ' + test_body(table, one), '    }']


def tests_lines(table):
    """Returns the methods that test for the kinds of sets."""
    lines = []
    for one in table.sets.values():
        lines += ['', *test_lines(table, one)]
    return ['impl KindName {', *lines[1:], '}']


def allows_lines(table):
    """Returns the method that says whether a category allows a kind."""
    arms = []
    for it in table.categories.values():
        tells = one_of('name', it.kinds) if it.kinds else 'name.%s()' % table.sets[it.name].test()
        arms.append('            Category::%s => %s,' % (it.name, tells))
    return ['impl Category {', '    /// Returns whether a kind may stand there.', '    pub fn allows(self, name: KindName) -> bool',
            '        ensures { result ≡ category_allows_kind self name }', '    {', '        match self {', *arms, '        }', '    }', '}']


def categories_file(table):
    """Returns the file with the enum of categories, and the tests for their kinds."""
    names = ', '.join(['category_allows_kind', *(it.test() for it in table.sets.values())])
    ghosts = ['ghost use Rattle.std.specs.Prelude.{◌≡◌};', 'ghost use %sKinds.{%s};' % (SPECS, names)]
    doc = 'Categories: which kinds may stand at a place.'
    return code(doc, ghosts, ['use crate::tree::names::KindName;'], enum_lines(table), tests_lines(table), allows_lines(table))


def contract_test_lines(table, one):
    """Returns the function of contracts that tests for the kinds of a set."""
    name = one.test()
    rows = ['%s Name.%s = true' % (name, it) for it in one.kinds] + ['%s Name.%s = false' % (name, it) for it in one.but]
    asked = ['%s k' % table.sets[it].test() for it in one.all_of] + ['not (%s k)' % table.sets[it].test() for it in one.none_of]
    last = '%s k = %s' % (name, ' || '.join(asked)) if asked else '%s _ = false' % name
    return ['-- ' + one.comment, 'abbrev pub %s : KindName → Bool' % name, *rows, last]


def contract_allows_lines(table):
    """Returns the function of contracts that says whether a field allows a kind."""
    rows = []
    for it in table.categories.values():
        rows += ['category_allows_kind Category.%s Name.%s = true' % (it.name, kind) for kind in it.kinds]
        last = '%s _ = false' % it.name if it.kinds else '%s k = %s k' % (it.name, table.sets[it.name].test())
        rows.append('category_allows_kind Category.' + last)
    return ['-- whether a kind may stand at a place of the category', 'abbrev pub category_allows_kind : Category → KindName → Bool', *rows]


def contract_kinds_file(table):
    """Returns the functions of contracts that name kinds, and that test for the kinds of sets and categories."""
    brought = uses('Rattle.std.specs.Prelude.{Bool, true, false, ◌||◌, not}', DECLARED + 'names.KindName.{KindName}',
                   DECLARED + 'names.KindName.TheVariants as Name')
    brought += enum_uses(table, DECLARED + 'categories.Category.{Category}')
    sets = [contract_test_lines(table, one) for one in table.sets.values()]
    doc = 'The names of the kinds, and the categories: which kinds may stand at a place.'
    return contracts(doc, brought, *contract_names(table), *sets, contract_allows_lines(table))
