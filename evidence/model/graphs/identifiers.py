"""A function and assignments to its properties, whose names are identifiers or barely none."""
from graphs.numbering import module_of
from graphs.vocabulary import IDENTIFIERS, ident, property_of
from rules.identifiers import may_continue

RANGES = [(0x80, 0x3000), (0xA000, 0xD7FF), (0xE000, 0x20000), (0x20000, 0x110000), (0, 0x80)]


def _character(rng) -> str:
    """Returns a character, often next to one that an identifier may have and the other may not."""
    code = rng.choice([rng.randrange(*ends) for ends in RANGES])
    if rng.random() < 0.4:
        for code in range(code, min(code + 5000, 0x10FFFF)):
            if not 0xD7FE < code < 0xE000 and may_continue(chr(code)) != may_continue(chr(code + 1)):
                break
        code += rng.choice([0, 1])
    return chr(0x100 if 0xD800 <= code < 0xE000 else code)


def graph_value(rng) -> dict:
    names = IDENTIFIERS + [rng.choice(['%s', 'a%s', 'a%s', '%sa']) % _character(rng) for _ in range(60)]
    function = {'kind': 'FnDecl', 'ident': ident('f'), 'function': {'kind': 'Function'}}
    statements = [{'kind': 'ExportDecl', 'decl': function}]
    for name in names:
        computed = {'kind': 'Computed', 'expr': {'kind': 'Str', 'value': name}}
        key = rng.choice([{'kind': 'IdentName', 'name': name}, computed])
        statements.append(property_of(ident('f'), key))
    return {'modules': [module_of('m', *statements, rng=rng)]}
