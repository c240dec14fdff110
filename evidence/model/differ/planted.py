"""Faults that are planted, one at a time: into a copy of the model, or around a program (`wrapper.py`)."""
import os
import shutil
import sys
from typing import NamedTuple

HERE = os.path.dirname(os.path.abspath(__file__))
MODEL = os.path.dirname(HERE)


# the rules by which a fault may show, as in cases
DENO, STRICT, BOTH = (False,), (True,), (False, True)


class Fault(NamedTuple):
    """A fault: a file of the model, a piece of its text, and its replacement. It may show with the random graphs of `families`, and by `rules`.
    `readings` says whether the readings of the definitions detect it, too: they don't cover the others."""
    name: str
    families: str
    readings: bool
    file: str
    old: str
    new: str
    rules: tuple = BOTH


FAULTS = [
    Fault('default_passed_up', 'stars webs', True, 'rules/exports.py',
          "if name != 'default' or module is start:", 'if True:'),
    Fault('later_overwrites_earlier', 'stars webs', True, 'rules/exports.py', '{name: found[0] for', '{name: found[-1] for'),
    Fault('redirects_are_ignored', 'mixed', False, 'rules/graph.py',
          'self.by_specifier.get(self.redirects.get(specifier, specifier))', 'self.by_specifier.get(specifier)'),
    Fault('export_moves_to_end', 'mixed stars webs', True, 'rules/builder.py',
          'holder.exports[name] = self.new(', 'holder.exports.pop(name, None)\n            holder.exports[name] = self.new('),
    Fault('first_declaration_only', 'mixed', True, 'rules/paths.py',
          'enumerate(symbol.declarations)', 'enumerate(symbol.declarations[:1])'),
    Fault('visited_set_lives_on', 'mixed', True, 'rules/paths.py', 'outer, self.met = self.met, set()', 'outer = self.met'),
    Fault('first_candidate_only', 'mixed stars webs', True, 'rules/paths.py',
          'for text in target.stars if', 'for text in target.stars[:1] if'),
    Fault('as_expression_visited', 'mixed dependent', False, 'rules/kinds.py',
          "('TsAsExpr', 'expr: EXPR, ty: TYPE', 'ty:T')", "('TsAsExpr', 'expr: EXPR, ty: TYPE', 'expr, ty:T')"),
    Fault('member_of_a_class_by_its_name', 'mixed dependent', False, 'rules/symbols.py', "'.prototype.'", "'.'"),
    Fault('shared_child_is_accepted', 'tree', False, 'rules/checker.py', 'if taken[child]:', 'if False:'),
    Fault('negative_zero_is_a_number', 'mixed', False, 'rules/json_text.py',
          "if digits[0] != '-' and", "if digits in ('-0', '0') or"),
    Fault('default_not_found_by_denos_rules', 'mixed stars', True, 'rules/root.py',
          "name != 'default' or not self.strict", "name != 'default'", DENO),
    Fault('default_found_by_strict_rules', 'mixed stars webs', True, 'rules/root.py',
          "name != 'default' or not self.strict", 'True', STRICT),
    Fault('shortest_chain_for_the_least', 'stars webs', True, 'rules/exports.py',
          """top = stack[-1]
        if place == len(module.stars):
            stack.pop()""",
          """top = stack[0]
        if place == len(module.stars):
            stack.pop(0)"""),
    Fault('shared_names_dropped', 'stars webs', True, 'rules/exports.py',
          'Exports(resolved,', 'Exports({name: it for name, it in resolved.items() if name not in shared},', STRICT),
    Fault('one_exporter_is_enough', 'stars webs', True, 'rules/exports.py', 'and len(found) > 1}', '}', STRICT),
    Fault('two_owners_only', 'stars webs', True, 'rules/exports.py',
          'shared = {name: found for', 'shared = {name: found[:2] for', STRICT),
    Fault('four_owners_only', 'stars webs', True, 'rules/exports.py',
          'shared = {name: found for', 'shared = {name: found[:4] for', STRICT),
    Fault('owners_by_their_names', 'stars webs', True, 'rules/exports.py', 'shared = {name: found for',
          'shared = {name: sorted(found, key=lambda it: it.module.specifier) for', STRICT),
    Fault('owners_by_their_numbers', 'stars webs', True, 'rules/exports.py', 'shared = {name: found for',
          'shared = {name: sorted(found, key=lambda it: it.module.number) for', STRICT),
    Fault('one_chain_for_all_owners', 'stars webs', True, 'rules/exports.py', 'shared = {name: found for',
          'shared = {name: [Export(found[0].chain, it.module, it.symbol) for it in found] for', STRICT),
    Fault('shortest_chains_of_owners', 'stars webs', True, 'rules/exports.py', 'shared = {name: found for',
          """short, waiting = {start.number: None}, [start]
    for module in waiting:
        for text in module.stars:
            target = root.dependency(text, module)
            if target is not None and target.number not in short:
                short[target.number] = (short[module.number], module, text)
                waiting.append(target)
    shared = {name: [Export(short[it.module.number], it.module, it.symbol) for it in found] for""", STRICT),
    Fault('own_name_is_shared', 'stars webs', True, 'rules/exports.py', 'and name not in start.own_exports() and', 'and', STRICT),
    Fault('default_is_shared', 'stars webs', True, 'rules/exports.py',
          """            if name != 'default' or module is start:
                owners.setdefault(name, []).append(Export(chain, module, number))
    resolved = {name: found[0] for name, found in owners.items()}""",
          """            owners.setdefault(name, []).append(Export(chain, module, number))
    resolved = {name: found[0] for name, found in owners.items() if name != 'default' or name in start.own_exports()}""",
          STRICT),
]

# faults around a program: the families of random graphs in which each may show, and the rules for it
WRAPPED = {'unresolved_reversed': ('mixed stars', DENO), 'shared_names_dropped': ('stars webs', STRICT),
           'two_owners_only': ('stars webs', STRICT), 'one_chain_for_all_owners': ('stars webs', STRICT),
           'default_found_by_strict_rules': ('mixed stars webs', STRICT)}


def plant(fault: Fault, folder: str) -> str:
    """Copies the model into a directory and plants the fault. Returns the path of the copy."""
    top = os.path.join(folder, fault.name)
    shutil.copytree(MODEL, top, ignore=shutil.ignore_patterns('__pycache__'))
    path = os.path.join(top, fault.file)
    with open(path, encoding='utf-8') as file:
        text = file.read()
    if text.count(fault.old) != 1:
        raise ValueError('%s: %s has the piece %d times' % (fault.name, fault.file, text.count(fault.old)))
    with open(path, 'w', encoding='utf-8') as file:
        file.write(text.replace(fault.old, fault.new))
    return top


def wrapped(name: str, program: 'list[str]') -> 'list[str]':
    """Returns the command of a program with a fault around it."""
    return [sys.executable, os.path.join(HERE, 'wrapper.py'), name, *program]
