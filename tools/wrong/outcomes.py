"""Determines the outcomes of the requested edits of a crate: by checks, and by runs of what edits name."""
from dataclasses import dataclass

from . import record, shown
from .trying import try_edits
from .verdicts import Verdict

# the outcomes of a check that may pass, each with its last word in the record, and its report; the second passes if what the
# edit names shows it wrong
PASSES = {'refused': '', 'named': 'broken'}
TOLD = {'named': 'proof broken, names a run'}


@dataclass
class Outcome:
    """The outcomes of a crate's edits by checks: a verdict each by its name, what is wrong with the crate itself, the number of checks, and how many
    edits weren't due."""

    crate: object
    verdicts: dict
    wrong: list
    checks: int
    left: int

    def passed(self):
        """Returns the edits that passed by their check alone."""
        return [name for name, it in self.verdicts.items() if it.how == 'refused']

    def named(self):
        return [name for name, it in self.verdicts.items() if it.how == 'named']

    def passed_count(self):
        return len(self.passed())

    def failures(self):
        return sum(it.how not in PASSES for it in self.verdicts.values()) + len(self.wrong)

    def lines(self):
        for name, verdict in sorted(self.verdicts.items()):
            failed = '' if verdict.how in PASSES else 'FAILED: '
            yield '%s/%s: %s%s: %s' % (self.crate.name, name, failed, TOLD.get(verdict.how, verdict.how), verdict.why[:300])
        for line in self.wrong:
            yield '%s: FAILED: %s' % (self.crate.name, line[:300])

    def count(self, seconds):
        words = (self.crate.name, len(self.passed()), len(self.verdicts), len(self.named()), self.left, self.checks, seconds)
        return '%s: %d of %d edits refused, %d name a run, %d more by the record or a run, by %d checks in %d s' % words


def told_broken(crate, edit, verdict, lanes, may_name):
    """Returns the verdict on an edit that broke a proof by hand: whether it names what shows it wrong. If it doesn't and that is wanted, a case or
    test is looked for, and written into it."""
    named = edit.shown or may_name and shown.name_what_shows(crate, edit, lanes)
    if named:
        return Verdict('named', '%s (%s)' % (named, verdict.why))
    why = 'no case and no test fails with it' if may_name else 'it names no case and no test that shows it wrong'
    return Verdict('proof broken', '%s (%s)' % (why, verdict.why))


def try_crate(crate, names, words, lanes, turn=None, with_base=False, is_record=False):
    """Tries edits of a crate by checks with these arguments: those that are due in a turn, or all. First it checks the crate without them, and writes
    the record, if that is wanted."""
    edits, bad = crate.edits(names)
    chosen = edits if turn is None else record.due(crate, edits, turn)
    verdicts, wrong, checks = try_edits(crate, chosen, words, lanes, with_base)
    for edit in chosen:
        if edit.name in verdicts and verdicts[edit.name].how == 'proof broken':
            verdicts[edit.name] = told_broken(crate, edit, verdicts[edit.name], lanes, is_record)
    verdicts.update({name: Verdict('not reached', why) for name, why in bad.items()})
    if is_record:
        record.record(crate, {name: PASSES.get(it.how) for name, it in verdicts.items()})
    return Outcome(crate, verdicts, wrong, checks, len(edits) - len(chosen))


@dataclass
class Runs:
    """The results of edits that name a case or a test, by name: why that doesn't show the edit wrong, or None if it does."""

    edits: list
    whys: list

    def failures(self):
        return sum(bool(it) for it in self.whys)

    def passed_count(self):
        return len(self.whys) - self.failures()

    def lines(self):
        for edit, why in zip(self.edits, self.whys):
            yield '%s/%s: %s' % (edit.crate, edit.name, 'FAILED: ' + why if why else 'shown wrong: ' + edit.shown)


def run_named(crates, lanes):
    """Runs what edits name. `crates` has crates, each with names of edits; those that name nothing are left out."""
    asked = [it for crate, names in crates for it in crate.edits(names)[0] if it.shown]
    top = crates[0][0].top if crates else None
    return Runs(asked, shown.not_shown(top, asked, lanes) if asked else [])
