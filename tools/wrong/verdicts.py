"""Reads the verdict on an edit from a check: a clause refuses it, or only the proof by hand is broken, or the edit survives."""
import re
from dataclasses import dataclass

from .rooms import proof_folder

# goals of the proof and not of a clause: the invariant of a loop, and that it ends
OF_LOOPS = re.compile(r'invariant of the loop|invariant that rattle tried|the loop ends|the iterator can go on')
FALSE = re.compile(r'values at which this goal is false')
# a proof by hand names a goal, or a fact, that doesn't exist
GONE = re.compile(r'has no field|is not in scope|has no `|was not admitted|is no name')
# what decides how many paths there are through a body
WAYS = re.compile(r'\b(?:if|else|match|while|for|loop|return|break|continue)\b|=>|\?|&&|\|\|')


@dataclass(frozen=True)
class Verdict:
    """The outcome of an edit, the first line of the reason, and the goals whose answers by hand don't fit the change."""

    how: str
    why: str
    misfits: frozenset = frozenset()


@dataclass(frozen=True)
class Goal:
    """A goal that a check leaves open (`is_answered` is false), or a wrong answer by hand to one."""

    name: str
    line: str
    is_answered: bool

    def is_of_clause(self):
        return not OF_LOOPS.search(self.line)

    def is_false(self):
        return not self.is_answered and bool(FALSE.search(self.line))


def reached_prover(said):
    return bool(re.search(r'^only=\d+ ', said, re.M))


def first_error(said):
    lines = [it for it in said.split('\n') if re.search(r'\berror\b', it)] or said.strip().split('\n')[-1:]
    return lines[0].strip()


def is_of(name, crate, function):
    """Returns whether the function's name, as a check prints it, is that of the function or of a closure in it."""
    place = len(function.path) - (2 if function.path[-2:-1] and function.path[-2][:1].isupper() else 1)
    closure = (crate, *function.path[:place], 'fn', *function.path[place:])
    return name == '::'.join((crate, *function.path)) or name.startswith('::'.join(closure) + '::')


def statuses(said):
    """Returns the name of each function with its status in the check."""
    return re.findall(r'^fn (\S+): (.*)', said, re.M)


def is_at_goal(message, function):
    """Returns whether a message is about a goal of the function: in a cycle a goal's name begins with that of its function."""
    goal = r'(?:\(|: error: )`(?:{0}-|(?:decreases|invariant)-{0}[-`])'.format(re.escape(function.path[-1]))
    return not function.cycle or bool(re.search(goal, message.split('\n')[0]))


def goals_of(said, crate, function):
    """Returns the goals of the function, and of its closures, that the check leaves open, and the answers by hand that don't fit."""
    found, notes = [], []
    own = re.compile(r'(?:\./)?(?:%s)[+\w]+\.antt:' % '|'.join(map(re.escape, proof_folder(function))))
    # a message goes on in indented lines
    for text in re.split(r'\n(?!\s)', said):
        line = text.split('\n')[0]
        status = re.match(r'fn (\S+): (.*)', line)
        is_open = line.startswith('note: src/') and ('it is not proved that' in line or 'found no proof (' in line)
        if is_open and is_at_goal(line, function):
            notes.append(Goal((re.search(r'\(`([^`]+)`\)', line) or ['', ''])[1], line, False))
        elif own.match(line) and ': error: ' in line and is_at_goal(line, function):
            found.append(Goal((re.search(r': error: `([^`]+)`', line) or ['', ''])[1], line, True))
        if status:
            found += notes if is_of(status[1], crate, function) else []
            notes = []
    return found


def is_proved(said, crate, function):
    """Returns whether the function, and each closure in it, has a proof, given the contracts of the called functions."""
    own = [it for it in statuses(said) if is_of(it[0], crate, function)]
    names = [name for name, _ in own]
    whole = re.compile(r'proved|no holes|depends on a hole')
    return '::'.join((crate, *function.path)) in names and all(whole.match(status) for _, status in own)


def answered_by_hand(crate, function):
    """Returns the names of the function's goals to which its proof by hand has an answer."""
    files = crate.other_files()
    texts = [files[it + 'Answers.antt'] for it in proof_folder(function) if it + 'Answers.antt' in files]
    names = [name for text in texts for name in re.findall(r'^pub (\S+) : goal\.', text, re.M)]
    return {it for it in names if not function.cycle or re.match(r'(?:\w+-)?%s(?:-|$)' % re.escape(function.path[-1]), it)}


def clause_of(goal, function):
    """Returns the subject of a goal: the ensured clause in which it ends; for any other goal the goal itself, without its number."""
    ensured = re.match(r'(?:%s-)?returns(?:$|-)(?:.*?-?clause-(\w+))?' % re.escape(function.path[-1]), goal)
    return 'ensures ' + (ensured[1] or '') if ensured else re.sub(r'-\d+$', '', goal)


def ways(lines):
    return WAYS.findall('\n'.join(lines))


def refusing(crate, edit, goals, dropped):
    """Returns the goals that refuse the edit: of a clause, open, and not for lack of a proof by hand. So the prover gives values at which the goal is
    false, or proves that clause of the function by itself without the edit. Or it proves that very goal so, if the edit leaves the paths through
    the body, and with them the goals, unchanged."""
    by_hand = answered_by_hand(crate, edit.function)
    clauses = {clause_of(it, edit.function) for it in by_hand}
    function = edit.function
    has_goals = ways(edit.lines) == ways(crate.texts[function.file].split('\n')[function.first : function.last + 1])
    has_goals = has_goals and not any(it.is_answered and GONE.search(it.line) for it in goals) and not dropped
    found = []
    for goal in goals:
        if goal.is_of_clause() and not goal.is_answered:
            is_own = clause_of(goal.name, function) not in clauses or has_goals and goal.name not in by_hand
            found += [goal] if goal.is_false() or is_own else []
    return found


def judged(crate, said, edit, dropped=frozenset()):
    """Returns the verdict on an edit by a check of it, in which the answers by hand to some goals were left out. If others don't fit, it is 'proof
    broken' for the moment, and names them."""
    goals = goals_of(said, crate.name, edit.function)
    refused = refusing(crate, edit, goals, dropped)
    is_loop_broken = any(it.is_answered and 'Invariants.antt:' in it.line for it in goals)
    if refused and not is_loop_broken:
        return Verdict('refused', refused[0].line)
    if is_proved(said, crate.name, edit.function):
        return Verdict('let through', 'the function is proved with it' + (', without answers by hand that are no fit' if dropped else ''))
    misfits = frozenset(it.name for it in goals if it.is_answered) - dropped
    if goals:
        return Verdict('proof broken', goals[0].line, misfits)
    own = ['%s: %s' % it for it in statuses(said) if is_of(it[0], crate.name, edit.function)]
    return Verdict('undecided', '; '.join(own) or 'the check says nothing of the function')
