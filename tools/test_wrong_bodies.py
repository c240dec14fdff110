#!/usr/bin/env python3
"""Tests of wrong_bodies.py on a small crate of its own: that it accepts mutants that are refused, or shown wrong, and nothing else.

    python3 tools/test_wrong_bodies.py [--record]
    python3 tools/test_wrong_bodies.py --turn N    without those by checks and runs that passed with these programs and this kit, but for every
                                                   twelfth N

A line a test that fails; the last line is 'N passed, M failed'. --record writes the hash of what the tests by checks and runs depend on, if all pass.
"""
import argparse
import glob
import os
import shutil
import sys
import tempfile
from dataclasses import replace

import run_cases
from tested import told
from wrong import clauses, record, shown
from wrong.crates import TOP, Crate, Edit, Function, kit, libraries_of, read, write
from wrong.mutants import FILE
from wrong.outcomes import run_named, try_crate
from wrong.rooms import TO_NO_GOAL, Lanes, Room, with_answer_to_no_goal, words_of
from wrong.trying import tried_all
from wrong.verdicts import judged

HERE = os.path.dirname(os.path.abspath(__file__))
PASSED = os.path.join(HERE, 'wrong', 'tests_passed')

SOURCE = '''//! A small crate.
#![tactic(auto)]

ghost use Rattle.std.specs.Prelude.{ℕ, ◌+◌, ◌≡◌, ◌≤◌, IfErr};
ghost use Rattle.std.specs.Bool.{Decides};
ghost use Rattle.small.specs.Small.{double, IsRefusal};

/// The next number.
pub fn next(x: u8) -> u8
    requires { x ≤ 9 }
    ensures { result ≡ x + 1 }
{
    x + 1
}

/// The number after the next.
pub fn second(x: u8) -> u8
    requires { x ≤ 8 }
    ensures { result ≡ x + 2 }
{
    next(next(x))
}

/// Nothing.
pub struct Unit;

/// A number below ten.
pub struct Digit {
    value: u8,
    ghost few: { value ≤ 9 },
}

/// A number as a digit.
pub fn as_digit(x: u8) -> Digit
    requires { x ≤ 9 }
{
    Digit { value: x }
}

/// The number, for this crate alone.
fn hidden(x: u8) -> u8
    ensures { result ≡ x }
{
    x
}

/// At most the number.
#[cycle(down)]
pub fn below(x: u8) -> u8
    ensures { result ≤ x }
{
    if x == 0 {
        0
    } else {
        far_below(x - 1)
    }
}

/// At most the number, by turns.
#[cycle(down)]
pub fn far_below(y: u8) -> u8
    ensures { result ≤ y }
{
    if y == 0 {
        0
    } else {
        below(y - 1)
    }
}

/// Why a number is refused.
#[derive(Drop)]
pub enum Fault {
    /// It is 0.
    Zero,
    /// For no reason.
    Broken,
}

/// A number that isn't 0.
pub fn positive(x: u8) -> Result<u8, Fault>
    ensures refused { IfErr result (IsRefusal x) }
{
    if x == 0 {
        return Err(Fault::Zero);
    }
    Ok(x)
}

/// The same, passed on.
pub fn passed_on(x: u8) -> Result<u8, Fault>
    ensures refused { IfErr result (IsRefusal x) }
{
    let y = match positive(x) {
        Ok(y) => y,
        Err(fault) => return Err(fault),
    };
    Ok(y)
}

/// Twice the number, by a proof that no tactic finds.
pub fn doubled(x: u8) -> u8
    requires { x ≤ 9 }
    ensures { result ≡ double x }
{
    x + x
}

/// What has parts.
pub trait Parted {
    ghost parts: { Self → ℕ };

    /// How many parts it has.
    fn count(&self) -> u8
        ensures { result ≡ parts self.now };
}

impl Parted for (Digit, Digit) {
    ghost parts = { λ _. 2 };

    fn count(&self) -> u8 {
        let two = 2;
        two
    }
}

/// A number that is compared.
#[derive(Clone, Copy, PartialEq, Eq)]
pub struct Mark {
    value: u8,
}

impl Mark {
    /// Whether these are the same.
    pub fn is_same(self, other: Mark) -> bool
        ensures same { Decides result (self.value ≡ other.value) }
        ensures equal { result ≡ ⟦<Mark as PartialEq>⟧.eq self other }
    {
        self == other
    }
}

/// Says nothing of its result.
pub fn any(x: u8) -> u8 {
    x
}
'''

SPECS = '''use Rattle.std.specs.Prelude.{ℕ, zero, suc, ◌+◌, ◌≡◌}
use Rattle.small.specs.declared.Fault.{Fault}
use Rattle.small.specs.declared.Fault.TheVariants as fault

-- Twice a number, by steps.
unfoldable pub double : ℕ → ℕ
double zero = zero
double (suc n) = 2 + double n

-- Whether a number is refused so.
abbrev pub IsRefusal : ℕ → Fault → Type 0
IsRefusal x fault.Zero = x ≡ 0
IsRefusal x fault.Broken = Unit {0}
'''

TESTS = '''//! Tests of the small crate.
#![tactic(auto)]

ghost use Rattle.std.specs.Prelude.{◌≡◌};

/// The number.
pub fn own(x: u8) -> u8
    ensures { result ≡ x }
{
    x
}

#[cfg(test)]
mod numbers;
'''

NUMBERS = '''//! Tests of numbers.

use small::{doubled, next};
use std::test::Fail;

#[test]
fn doubles(rt: HostRuntime) -> Result<(), Fail> {
    assert_eq!(rt; doubled(2), 4);
    Ok(())
}

#[test]
fn counts(rt: HostRuntime) -> Result<(), Fail> {
    assert_eq!(rt; next(2), 3);
    Ok(())
}

#[test]
fn miscounts(rt: HostRuntime) -> Result<(), Fail> {
    assert_eq!(rt; next(2), 4);
    Ok(())
}
'''

# what the cycle's proof says by itself: that the calls end, and one goal
MEASURES = '''use Rattle.small.proofs.+down.Given as goal

abbrev pub decreases-below : goal.decreases-below
decreases-below l = l.x

abbrev pub decreases-far_below : goal.decreases-far_below
decreases-far_below l = l.y
'''
ANSWERS = '''use Rattle.std.proofs.Common.{arith}
use Rattle.small.proofs.+down.Goals as goal

pub below-returns-else-x-eq0 : goal.below-returns-else-x-eq0
below-returns-else-x-eq0 t c = let lower = c.far_below.ensures in omega arith
'''
DOUBLED = '''use Rattle.small.proofs.Doubling.{double-sum}
use Rattle.small.proofs.doubled.Goals as goal

pub returns : goal.returns
returns c = double-sum c.args.x
'''
DOUBLING = '''use Rattle.std.proofs.Common.{ℕ, zero, suc, ◌+◌, ◌≡◌, refl, ap, arith}
use Rattle.small.specs.Small.{double}

pub double-sum : (n : ℕ) → n + n ≡ double n
unfolding double
double-sum zero = refl
double-sum (suc n) = let before = double-sum n in omega (arith, before)
'''
PASSED_ON = '''use Rattle.small.proofs.passed_on.Goals as goal

pub returns-in-Err : goal.returns-in-Err
returns-in-Err c = c.in-Err.ensures
'''

FILES = {
    'src/lib.rt': SOURCE,
    'specs/Small.antt': SPECS,
    'specs/Lib.antt': 'pub mod Small\n',
    'proofs/Lib.antt': 'mod Doubling\n',
    'proofs/Doubling.antt': DOUBLING,
    'proofs/+down/Invariants.antt': MEASURES,
    'proofs/+down/Answers.antt': ANSWERS,
    'proofs/doubled/Answers.antt': DOUBLED,
    'proofs/passed_on/Answers.antt': PASSED_ON,
}

# the outcomes that are recorded
RECORDED = ('refused', 'named')
# a name, what is changed into what, the expected outcome of the edit, and what it names to show it wrong
EDITS = [
    ('one_more', [('    x + 1', '    x + 2')], 'refused', ''),
    ('the_same_number', [('    x + 1', '    x')], 'refused', ''),
    ('turned_round', [('    x + 1', '    1 + x')], 'let through', ''),
    ('once_alone', [('next(next(x))', 'next(x)')], 'refused', ''),
    ('in_two_steps', [('next(next(x))', 'next(y)'), ('next(y)', 'let y = x; next(y)')], 'refused', ''),
    ('a_name_that_is_not_there', [('next(next(x))', 'next(next(y))')], 'not reached', ''),
    ('of_a_function_without_a_promise', [('pub fn any(x: u8) -> u8 {', 'pub fn any(x: u8) -> u8 { let x = 0;')], 'let through', ''),
    ('against_a_law_of_its_type', [('Digit { value: x }', 'Digit { value: 10 }')], 'refused', ''),
    ('of_an_impl_for_a_tuple', [('let two = 2', 'let two = 3')], 'refused', ''),
    ('a_sum_in_the_cycle', [('below(y - 1)', 'below(y - 1) + 0')], 'let through', ''),
    ('more_by_turns', [('below(y - 1)', 'below(y - 1) + 2')], 'refused', ''),
    ('more_in_the_cycle', [('far_below(x - 1)', 'far_below(x - 1) + 2')], 'refused', ''),
    ('without_an_end', [('far_below(x - 1)', 'far_below(x)')], 'refused', ''),
    ('another_text', [('next(next(z))', 'next(z)')], 'not reached', ''),
    ('a_text_that_stands_twice', [('requires', 'ensures')], 'not reached', ''),
    ('two_functions', [('    x + 1', '    x + 2'), ('next(next(x))', 'next(x)')], 'not reached', ''),
    ('no_function', [('#![tactic(auto)]', '')], 'not reached', ''),
    # these two meet the contract, but the answer by hand doesn't fit their change
    ('another_fault_that_is_allowed', [('return Err(fault)', 'return Err(Fault::Broken)')], 'let through', ''),
    ('another_fault_by_a_name', [('Err(fault) => return Err(fault)', 'Err(_) => return Err(Fault::Broken)')], 'let through', ''),
    # nothing shows this one wrong
    ('a_fault_that_is_not_allowed', [('return Err(fault)', 'return Err(Fault::Zero)')], 'proof broken', ''),
    # right, but nothing proves it
    ('twice_in_other_words', [('    x + x', '    2 * x')], 'proof broken', ''),
    ('twice_and_one', [('    x + x', '    x + x + 1')], 'named', 'small_tests/numbers::doubles by small::doubled'),
    ('twice_and_two', [('    x + x', '    x + x + 2')], 'named', ''),
    ('twice_and_three', [('    x + x', '    x + x + 3')], 'named', 'small_tests/numbers::counts by small::doubled'),
    ('twice_and_four', [('    x + x', '    x + x + 4')], 'named', 'small_tests/numbers::miscounts by small::doubled'),
    ('twice_and_five', [('    x + x', '    x + x + 5')], 'named', 'small_tests/numbers::absent by small::doubled'),
    ('twice_and_six', [('    x + x', '    x + x + 6')], 'named', 'small_tests/numbers::doubles by small::doubled kept'),
    ('twice_of_a_name_that_is_not_there', [('    x + x', '    y + x')], 'not reached', 'small_tests/numbers::doubles by small::doubled'),
    ('twice_by_another_head', [('pub fn doubled(x: u8) -> u8', 'pub fn doubled(mut x: u8) -> u8'), ('    x + x', '    x += x; x + 1')], 'named', 'small_tests/numbers::doubles by small::doubled'),
    ('marks_are_all_equal', [('self == other', 'self.value == other.value')], 'refused', ''),
    ('marks_are_equal_by_hand', [('self == other', 'self.value == other.value')], 'let through', ''),
    ('marks_are_hashed_by_hand', [], 'not reached', ''),
    ('next_and_five', [('    x + 1', '    x + 5')], 'refused', 'small_tests/numbers::counts by small::next'),
]
# what else is in edits: the function, and an impl by hand in place of a derived one
BESIDES = {
    'marks_are_all_equal': 'in: Mark::is_same\nimpl: impl PartialEq for Mark { ghost use Rattle.std.specs.Prelude.{true}; ghost use Rattle.std.proofs.Common.{refl}; ghost eq = { λ _ _. true }; ghost laws = { record { symm = λ x y. refl; trans = λ x y z h k. refl } }; fn eq(&self, _other: &Mark) -> bool { true } }\n',
    'marks_are_equal_by_hand': 'in: Mark::is_same\nimpl: impl PartialEq for Mark { ghost use Rattle.std.specs.Prelude.{nat_eq}; ghost use Rattle.std.specs.Ordering.{on}; ghost use Rattle.std.proofs.Common.{rules}; ghost use Rattle.std.specs.Cmp.Rules.{comparing}; ghost eq = { on (λ m. m.value) nat_eq }; ghost laws = { Prim.search (comparing, rules) }; fn eq(&self, other: &Mark) -> bool { self.value == other.value } }\n',
    'marks_are_hashed_by_hand': 'in: Mark::is_same\nimpl: impl Hash for Mark { }\n',
}
# what edits name that can be made, after what shows one wrong is found
SHOWN = {name: shown for name, *_, shown in EDITS if shown} | {'twice_and_two': 'small_tests/numbers::doubles'}
# the results of the runs that edits name: empty if a test shows the edit wrong
RUNS = {
    'twice_and_one': '',
    # what shows it wrong is found, but not by which clause
    'twice_and_two': 'it names no clause that fixes what small_tests/numbers::doubles looks at',
    'twice_and_three': 'numbers::counts does not fail with it',
    'twice_and_four': 'numbers::miscounts does not hold without an edit',
    'twice_and_five': 'numbers::absent does not hold without an edit',
    'twice_and_six': 'there is no clause small::doubled kept',
    'twice_of_a_name_that_is_not_there': 'no build with it runs',
    'twice_by_another_head': 'it changes more than the lines of a body',
    'next_and_five': '',
}


def lay(folder, source):
    """Makes a repository with the small crate, its tests and its edits."""
    write(os.path.join(folder, 'crates.txt'), 'small:\nsmall_tests: small\n')
    write(os.path.join(folder, 'HANDLES'), 'Handles allowed: none.\n')
    write(os.path.join(folder, 'crates', 'small_tests', 'src', 'lib.rt'), TESTS)
    write(os.path.join(folder, 'crates', 'small_tests', 'src', 'numbers.rt'), NUMBERS)
    crate = os.path.join(folder, 'crates', 'small')
    for path, text in FILES.items():
        write(os.path.join(crate, path), text)
    write(os.path.join(crate, 'src', 'lib.rt'), source)
    sections = []
    for name, pairs, _, shown in EDITS:
        lines = ['mutant: ' + name, 'file: src/lib.rt', *BESIDES.get(name, '').splitlines()]
        lines += [it for old, new in pairs for it in ('old: ' + old, 'new: ' + new)]
        sections.append('\n'.join([*lines, *(['shown: ' + shown] if shown else []), '']))
    write(os.path.join(crate, FILE), '\n'.join(sections))
    return Crate(folder, 'small', libraries_of(folder))


def outcome_of(crate, names, with_base=False, is_record=False):
    """Returns the outcomes of edits of the small crate."""
    return try_crate(crate, names, words_of(crate, kit(), None), Lanes(), None, with_base, is_record)


def tried(crate, names, with_base=False, is_record=False):
    """Returns the outcomes of edits of the small crate, what is wrong without an edit, and how many weren't due."""
    outcome = outcome_of(crate, names or crate.names(), with_base, is_record)
    return {name: it.how for name, it in outcome.verdicts.items()}, outcome.wrong, outcome.left


def tests_of_outcomes(folder):
    """Tests each outcome, with a check without edits, and what is recorded then."""
    crate = lay(folder, SOURCE)
    found, wrong, left = tried(crate, [], True, True)
    yield 'nothing is wrong without an edit', (wrong, left), ([], 0)
    yield 'each edit has one verdict', sorted(found), sorted(name for name, *_ in EDITS)
    for name, _, how, _ in EDITS:
        yield name, found.get(name), how
    yield 'what shows an edit wrong is found, and written into it', crate.edit('twice_and_two').shown, 'small_tests/numbers::doubles'
    yield 'and into no other', {it.name: it.shown for it in crate.edits(crate.names())[0] if it.shown}, SHOWN
    yield 'what passes is recorded, and nothing else', sorted(record.recorded(crate)), sorted(name for name, _, how, _ in EDITS if how in RECORDED)


def tests_of_runs(folder):
    """Tests runs with and without edits, if the tests hold without them. An edit that doesn't compile is separated from the others of its build."""
    crate = Crate(folder, 'small', libraries_of(folder))
    named = [it.name for it in crate.edits(crate.names())[0] if it.shown]
    yield 'each edit that names something has an outcome', named, sorted(RUNS)
    left, few = 'twice_of_a_name_that_is_not_there', ['twice_and_one', 'twice_of_a_name_that_is_not_there']
    for names in ([it for it in crate.names() if it != left], few):
        runs = run_named([(crate, names)], Lanes())
        found = {edit.name: why for edit, why in zip(runs.edits, runs.whys)}
        wanted = {name: why for name, why in RUNS.items() if name in names}
        yield 'each edit that names something is run', sorted(found), sorted(wanted)
        for name, why in wanted.items():
            yield 'the run of ' + name, found.get(name, 'no run')[: len(why) or None], why
        wrong = sum(bool(it) for it in wanted.values())
        yield 'runs are counted', (runs.passed_count(), runs.failures()), (len(wanted) - wrong, wrong)
    named = ('small::doubled', 'small::positive refused', 'small::Digit few', 'small_tests::own')
    others = ('small::positive', 'small::positive kept', 'small::any', 'small::hidden', 'small::Digit many', 'small::Unit few', 'small_tests::doubled', 'big::doubled')
    yield 'a clause has to be there', [it for it in named + others if clauses.has_clause(crate, it)], list(named)
    above = Crate(folder, 'small_tests', libraries_of(folder))
    yield 'a crate above has no clause for one below', [it for it in named if clauses.has_clause(above, it)], ['small_tests::own']
    yield 'what fixes a run has to be there', (clauses.missing_clauses(TOP), clauses.missing_clauses(folder)), ([], list(clauses.FIXING))
    yield 'an edit that changes nothing is none that a test fails with', shown.all_that_show(crate, unchanged(crate, 'twice_and_one'), Lanes()), []


def tests_of_cases():
    """Tests what a case says about an edit, by how it ends with it: contracts leave open when an allocation fails."""
    case = run_cases.Case('cases/a', 'symq', None, None, b'', run_cases.Outcome(0, b'1\n', b''))
    other, refused = case.want._replace(output=b'2\n'), run_cases.Outcome(7, b'', b'symq: out of memory\n')
    fault, deep = (case.want._replace(status='fault', error=b'checked: fault kind=%s in=a' % kind) for kind in (b'panic', b'stack'))
    yield 'another answer shows an edit wrong', shown.why_not_case(case, True, other), ''
    yield 'so does a place that is never reached', shown.why_not_case(case, True, fault), ''
    yield 'the answer that is wanted does not', shown.why_not_case(case, True, case.want), 'cases/a does not fail with it'
    yield 'nor does a run without an outcome', shown.why_not_case(case, True, None), 'cases/a does not fail with it'
    yield 'nor does want of memory', shown.why_not_case(case, True, refused), 'cases/a ends with it in a way that says nothing of contracts'
    yield 'nor does the end of the stack', shown.why_not_case(case, True, deep), 'cases/a ends with it in a way that says nothing of contracts'
    yield 'nor a case that fails in any way', shown.why_not_case(case, False, other), 'cases/a does not hold without an edit'
    yield from tests_of_what_is_fixed()


# what an edit of a file may name, and the output on it, in this repository
NAMED = (
    ('symq_core', 'src/lines.rt', 'tests/cases/empty_line', ''),
    ('symq_core', 'src/streams.rt', 'tests/cases/empty_line', 'it names no clause that fixes what tests/cases/empty_line looks at'),
    ('symq_core', 'src/arguments.rt', 'tests/cases/empty_line', 'it names no clause that fixes what tests/cases/empty_line looks at'),
    ('symbols_table', 'src/builder/table.rt', 'tests/tables/overloads', 'it names no clause that fixes what tests/tables/overloads looks at'),
    ('symbols_table', 'src/builder/table.rt', 'tests/tables/overloads by symbols_table::analyze table', ''),
    ('symbols_table', 'src/builder/table.rt', 'tests/tables/absent by symbols_table::analyze table', 'there is no tests/tables/absent'),
    ('symbols_table', 'src/builder/table.rt', 'tests/tables/overloads by symbols_nodes::SymbolNodeRef::source', 'there is no clause symbols_nodes::SymbolNodeRef::source'),
)


def tests_of_what_is_fixed():
    """Tests that contracts fix how a run of symq ends, and no other run, and nothing of the contents of files and streams."""
    edits = [(number, Edit(crate, 'an_edit', Function(file, 0, 0, ('f',), '', ''), (), shown_by)) for number, (crate, file, shown_by, _) in enumerate(NAMED)]
    bad = shown.sorted_out(TOP, edits)[1]
    for number, (crate, file, shown_by, why) in enumerate(NAMED):
        yield 'an edit of %s/%s that names %s' % (crate, file, shown_by), bad.get(number, ''), why


def tests_of_what_is_signed(folder):
    """Tests that a clause that fixes how a run ends has the text that a person signed, with whichever line breaks."""
    for name in ('crates.txt', clauses.SIGNED, *('crates/%s/src' % it for it in {clauses.words_of_clause(it)[0] for it in clauses.FIXING})):
        copy = shutil.copytree if os.path.isdir(os.path.join(TOP, name)) else shutil.copy
        os.makedirs(os.path.dirname(os.path.join(folder, name)) or folder, exist_ok=True)
        copy(os.path.join(TOP, name), os.path.join(folder, name))
    stop = os.path.join(folder, 'crates/symq_core/src/exit_error.rt')
    text, clause = read(stop), 'ensures { result ≡ exit_error_status self.now }'
    yield 'the clause stands there', text.count(clause), 1
    for name, other, want in (
        ('signed clauses have no fault', clause, []),
        ('nor has one whose lines are broken otherwise', 'ensures { result\n            ≡ exit_error_status self.now }', []),
        ('a clause that says nothing is none', 'ensures { Unit {0} }', ['symq_core::ExitError::status']),
        ('nor is one that is left out', '', ['symq_core::ExitError::status']),
    ):
        write(stop, text.replace(clause, other))
        yield name, clauses.missing_clauses(folder), want


def unchanged(crate, name):
    """Returns the edit without its change."""
    edit = crate.edit(name)
    own = crate.texts[edit.function.file].split('\n')[edit.function.first : edit.function.last + 1]
    return replace(edit, lines=tuple(own))


def tests_of_the_record(folder):
    """Tests what is due, given the record of the test before."""
    crate = Crate(folder, 'small', libraries_of(folder))
    edits, _ = crate.edits(crate.names())
    passed = {name for name, _, how, _ in EDITS if how in RECORDED}
    never = {it.name for it in edits} - passed
    turns = [{it.name for it in record.due(crate, edits, turn)} for turn in range(record.TURNS)]
    yield 'an edit that is not recorded is due in each turn', [never - it for it in turns], [set()] * record.TURNS
    yield 'each edit is due within the turns', set().union(*turns), {it.name for it in edits}
    by_run = [[it.name for it in record.due(crate, [replace(it, shown='tests/cases/a') for it in edits], turn)] for turn in range(record.TURNS)]
    yield 'what a run refuses is due in no turn', by_run, [[]] * record.TURNS
    by_clause = [{it.name for it in record.due(crate, [replace(it, shown='tests/tables/a by small::next') for it in edits], turn)} for turn in range(record.TURNS)]
    yield 'what names a clause is due in turn', by_clause, turns
    by_table = [{it.name for it in record.due(crate, [replace(it, shown='tests/tables/a') for it in edits], turn)} for turn in range(record.TURNS)]
    yield 'what names a run that fixes nothing is due in turn', by_table, turns
    yield 'in one turn alone, where it is recorded', sorted(it for turn in turns for it in turn - never), sorted(passed)
    yield 'a turn comes again', {it.name for it in record.due(crate, edits, record.TURNS)}, turns[0]
    yield 'a crate is due as a whole', [it - never for it in turns if it - never], [passed]
    path = record.path_of(crate)
    with open(path, encoding='utf-8') as f:
        lines = f.read()
    write(path, lines.replace('one_more ', 'one_more 0'))
    yield 'a record that is false is found by its sum', ['one_more' in {it.name for it in record.due(crate, edits, turn)} for turn in range(record.TURNS)], [True] * record.TURNS
    write(path, lines)
    yield 'a contract that changes makes all due', changed_sums(folder, 'ensures { result ≡ x + 2 }', 'ensures { result ≡ 2 + x }', passed), passed
    yield 'a line that is broken makes none due', changed_sums(folder, 'ensures { result ≡ x + 2 }', 'ensures {\n        result ≡ x\n        + 2 }', passed), set()
    of_doubled = {name for name in passed if name.startswith('twice_')}
    yield 'a body that changes makes no edit of another function due', changed_sums(folder, '    x + x\n', '    x + x + 0\n', passed), of_doubled
    yield from tests_of_kits(crate, edits, passed)


def tests_of_turns():
    """Tests that each crate of the repository that has edits has one turn, and that no turn has much more to check than another."""
    libraries = libraries_of(TOP)
    turns = [record.crates_in_turn(TOP, libraries, turn) for turn in range(record.TURNS)]
    counts = {it: record.checked_count(TOP, it) for it in libraries}
    yield 'each crate with edits has one turn', sorted(it for turn in turns for it in turn), sorted(it for it in counts if counts[it])
    sums = [sum(counts[it] for it in turn) for turn in turns]
    yield 'turns are alike', max(sums) <= max(2 * min(sums), max(counts.values())), True


def tests_of_breaks():
    """Tests that line breaks don't change a hash where they aren't read."""
    places = {'in a source': ('src/a.rt', 'a\n    b', 'a b'), 'behind a comment': ('src/a.rt', 'a // c\n    b', 'a // c b')}
    places |= {'in a text': ('src/a.rt', '"a\n    b"', '"a b"'), 'in a proof': ('proofs/a.antt', 'a\n    b', 'a b')}
    places['beside a quote'] = ('src/a.rt', '\'"\' a\n    b "\\""', '\'"\' a b "\\""')
    same = {name for name, (path, one, other) in places.items() if record.without_breaks(path, one) == record.without_breaks(path, other)}
    yield 'a break counts behind a comment, in a text and in a proof, and nowhere else', same, {'in a source', 'beside a quote'}


# a file with public functions for crates above, and the names that those can't use
FACE = """use std::fmt;

/// Own.
#[tactic(auto)]
fn own(x: u32) -> u32
    ensures { result ≡ x }
{
    x
}

pub(crate) fn of_the_crate() {}

pub struct Seen {
    own_field: u32,
}

impl Seen {
    fn own_call(&self) -> u32 {
        1
    }

    pub fn call(&self) -> u32 {
        2
    }
}

impl fmt::Display for Seen {
    fn fmt(&self) -> u32 {
        3
    }
}

pub trait Tells {
    fn tell(&self) -> u32;
}

pub fn open() {}
"""


def face_with(folder, old, new):
    """Returns the hash of what crates above can read of a crate whose source has another text."""
    write(os.path.join(folder, 'crates', 'seen', 'src', 'lib.rt'), FACE.replace(old, new))
    return record.face_of(Crate(folder, 'seen', {'seen': []}))


def tests_of_faces(folder):
    """Tests that private functions of a crate below don't change a hash, and that everything else does."""
    seen = record.without_own_functions('src/a.rt', FACE)
    words = ('fn own(', 'Own.', 'tactic', 'result', 'of_the_crate', 'own_field', 'own_call', 'fn call', 'fn fmt', 'fn tell', 'fn open', '}\n\npub trait')
    yield 'what crates above can read', [it for it in words if it in seen], ['own_field', 'fn call', 'fn fmt', 'fn tell', 'fn open', '}\n\npub trait']
    changes = {'a contract of its own': ('result ≡ x', 'x ≡ result'), 'a call of its own': ('fn own_call(&self)', 'fn own_call(self)')}
    changes |= {'a public body': ('        2\n', '        3\n'), 'a public call': ('fn call(&self)', 'fn call(self)'), 'a type': ('own_field: u32', 'own_field: u8')}
    changes |= {'of a trait': ('fn tell(&self)', 'fn tell(self)'), 'of an impl of one': ('fn fmt(&self)', 'fn fmt(self)')}
    whole = face_with(folder, '', '')
    same = {name for name, change in changes.items() if face_with(folder, *change) == whole}
    yield 'what may change unseen', same, {'a contract of its own', 'a call of its own', 'a public body'}


def tests_of_kits(crate, edits, passed):
    """Tests that an edit recorded with one kit is due with another, and stays recorded for its own as long as it fits."""
    path, own = record.path_of(crate), record.recorded(crate)
    with open(path, encoding='utf-8') as f:
        lines = f.read()
    sums = record.sums_of(crate, edits, 'another kit')
    write(path, 'kit: another kit\none_more %s\nthe_same_number 0\n' % sums['one_more'])
    yield 'what another kit recorded is due by this one', record.fitting(crate, edits), set()
    record.record(crate, {'once_alone': ''})
    yield 'what fits stays for the other kit', sorted(record.recorded(crate, 'another kit')), ['one_more']
    yield 'and this kit has its own', record.recorded(crate), {'once_alone': own['once_alone']}
    write(path, lines)


def changed_sums(folder, old, new, names):
    """Returns the edits of these names whose hashes differ from the recorded ones if the source has another text."""
    source = os.path.join(folder, 'crates', 'small', 'src', 'lib.rt')
    write(source, SOURCE.replace(old, new))
    crate = Crate(folder, 'small', libraries_of(folder))
    found, bad = crate.edits(sorted(names))
    sums, known = record.sums_of(crate, found), record.recorded(crate)
    write(source, SOURCE)
    return {it.name for it in found if sums[it.name] != known[it.name]} | set(bad)


def tests_of_contracts(folder):
    """Tests that a called function counts by its contract, and that a failed proof without an edit is reported."""
    crate = lay(folder, SOURCE.replace('    x + 1', '    x + 3'))
    yield 'what is called counts by its contract', tried(crate, ['once_alone'])[:2], ({'once_alone': 'refused'}, [])
    crate = lay(folder, SOURCE.replace('next(next(x))', 'next(next(x)) + 1'))
    found, wrong, _ = tried(crate, ['in_two_steps'], True)
    yield 'a function that is not proved without its edit', (found, len(wrong)), ({}, 1)


def tests_of_whole_checks(folder):
    """Tests that a check that isn't whole offers no answers, refuses what a whole one refuses, and reports no function as proved."""
    crate = lay(folder, SOURCE)
    edits, _ = crate.edits(['one_more', 'against_a_law_of_its_type', 'of_a_function_without_a_promise'])
    room = Room(crate, words_of(crate, kit(), None), os.path.join(folder, 'room'), Lanes())
    wanted = {False: ['refused', 'refused', 'undecided'], True: ['refused', 'refused', 'let through']}
    for is_whole, how in wanted.items():
        said = room.check(edits, [it.function for it in edits], (), is_whole)
        yield 'how edits end by a check, whole or not', (is_whole, [judged(crate, said, it).how for it in edits]), (is_whole, how)
        yield 'answers are offered by whole checks alone', 'check again: each hole' in said, is_whole
        yield 'an answer to no goal is not told as refused', ': error: `%s`' % TO_NO_GOAL in said, False
    checks = room.checks
    yield 'what none says is tried by a whole check', [it.how for it in tried_all(room, edits).values()], wanted[True]
    yield 'and by one alone', room.checks - checks, 2


def tests_of_answers_to_no_goal(folder):
    """Tests that an answer to no goal goes after those of the function, or of its cycle of calls, and nowhere if the proof is written as a whole."""
    crate = lay(folder, SOURCE)
    by_name = {it.name(): it for it in crate.functions}
    files = {**crate.other_files(), 'proofs/second/Proof.antt': ''}
    found = {name: with_answer_to_no_goal(crate.name, by_name[name], files) for name in ('next', 'second', 'doubled', 'below', 'far_below')}
    own = '\npub to-no-goal : goal.to-no-goal\nto-no-goal c = ?\n'
    yield 'a function without answers', found['next'], ('proofs/next/Answers.antt', 'use Rattle.small.proofs.next.Goals as goal\n' + own)
    yield 'a proof written as a whole', found['second'], None
    yield 'answers by hand stay', found['doubled'], ('proofs/doubled/Answers.antt', DOUBLED + own)
    yield 'a cycle has one', (found['below'], found['far_below']), (('proofs/+down/Answers.antt', ANSWERS + own),) * 2


def tests_of_what_names_nothing(folder):
    """Tests that an edit that breaks a proof by hand fails if it names nothing that shows it wrong, even if a test would fail with it."""
    crate = lay(folder, SOURCE)
    outcome = outcome_of(crate, ['twice_and_two', 'twice_and_one'])
    yield 'an edit that names nothing fails', (outcome.named(), outcome.failures()), (['twice_and_one'], 1)
    told_failed = [line.split(': ')[0] for line in outcome.lines() if ': FAILED: proof broken: it names no case and no test' in line]
    yield 'that it names nothing is told', told_failed, ['small/twice_and_two']
    yield 'where nothing is looked for, none is written into it', crate.edit('twice_and_two').shown, ''


# the output of `rt try --test` on a test that holds, two that fail, one that ended by a fault and one that ran out of time
SAID = '''tests: 5
test numbers::adds ... ok
test numbers::counts ... FAILED
    assertion `left == right` failed
    src/lib.rt:30:9: the test was killed by signal 6 (SIGABRT)
test numbers::halves ... FAILED
    Error: "the half"
    the test failed: its result gives status 1
    the test exited with status 101
test numbers::sinks ... FAILED
    the test was killed by signal 11 (SIGSEGV)
test numbers::waits ... FAILED
    checked: no-answer: the program did not end within the time limit
    run=no-answer
test result: FAILED. 1 passed; 4 failed; 0 ignored; 0 filtered out
'''


def tests_by_checks():
    """Yields each test that takes checks and runs of the small crate: its name, with what was found and what is expected."""
    with tempfile.TemporaryDirectory() as folder:
        yield from tests_of_outcomes(folder)
        yield from tests_of_runs(folder)
        yield from tests_of_the_record(folder)
    for own in (tests_of_contracts, tests_of_what_names_nothing, tests_of_whole_checks):
        with tempfile.TemporaryDirectory() as folder:
            yield from own(folder)


def other_tests():
    """Yields the others, in the same way."""
    for own in (tests_of_answers_to_no_goal, tests_of_faces, tests_of_what_is_signed):
        with tempfile.TemporaryDirectory() as folder:
            yield from own(folder)
    yield from tests_of_turns()
    yield from tests_of_breaks()
    yield from tests_of_cases()
    wanted = {'numbers::adds': False, 'numbers::counts': True, 'numbers::halves': True}
    yield 'a test that a fault ended, or that ran out of its time, tells nothing', shown.told_of_tests(SAID), wanted


def sum_of_inputs():
    """Returns the hash of what the tests by checks and runs depend on: the kit, and the programs that they run."""
    own = [os.path.join(HERE, it) for it in ('run_cases.py', 'runner.py', 'tested.py', 'test_wrong_bodies.py')]
    return record.digest([record.kit_here(), *(read(it) for it in sorted(glob.glob(os.path.join(HERE, 'wrong', '*.py'))) + own)])


def have_passed():
    """Returns whether the tests by checks and runs passed with the present inputs."""
    return os.path.isfile(PASSED) and read(PASSED).strip() == sum_of_inputs()


def main(words):
    parser = argparse.ArgumentParser(description='Tests wrong_bodies.py.')
    parser.add_argument('--turn', type=int, help='leave out what passed with these programs and this kit, but for every twelfth number')
    parser.add_argument('--record', action='store_true', help='write that all passed')
    args = parser.parse_args(words)
    is_left_out = args.turn is not None and args.turn % record.TURNS != 0 and have_passed()
    status = told(it for own in ((other_tests,) if is_left_out else (other_tests, tests_by_checks)) for it in own())
    if args.record and not is_left_out and status == 0:
        write(PASSED, sum_of_inputs() + '\n')
    return status


if __name__ == '__main__':
    sys.exit(main(sys.argv[1:]))
