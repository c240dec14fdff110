"""Tries many edits in one check: a check proves function by function, from the contracts of the called functions."""
import tempfile
from concurrent.futures import ThreadPoolExecutor

from .rooms import Room
from .verdicts import Verdict, first_error, goals_of, is_proved, judged, reached_prover

# how often a check leaves out answers by hand that don't fit: without some, others may show
ROUNDS = 3


def share_a_check(edit, other):
    """Whether a check may have both edits: of different functions, and without an impl by hand, or with impls of one trait for different types. What
    a function says of one trait doesn't rest on the impls of another, which could be wrong."""
    (trait, of_type), (other_trait, other_type) = edit.derived(), other.derived()
    return edit.function.path != other.function.path and trait == other_trait and (not trait or of_type != other_type)


def batches_of(edits):
    """Puts the edits into batches, each of edits that may share a check; first those without an impl by hand."""
    batches = []
    for edit in sorted(edits, key=lambda it: it.derived()[0]):
        batch = next((it for it in batches if all(share_a_check(edit, other) for other in it)), None)
        if batch is None:
            batches.append(batch := [])
        batch.append(edit)
    return batches


def mates_of(batch, first):
    """Returns edits of an earlier batch for the functions that share a cycle of calls with one of this batch, and have no edit in it. A check has
    cached their results, and goals of the others only use their contracts."""
    cycles = {it.function.cycle_key() for it in batch if it.function.cycle}
    own = {it.function.path for it in batch}
    return [it for it in first if it.function.cycle_key() in cycles and it.function.path not in own]


def tried(room, batch, first=(), is_whole=False):
    """Returns the verdict on each edit of a batch, which is halved if it doesn't compile. Only by whole checks does an edit survive."""
    mates = mates_of(batch, first)
    said = room.check([*batch, *mates], [it.function for it in batch], (), is_whole)
    if reached_prover(said):
        found = {it: judged(room.crate, said, it) for it in batch}
        return {**found, **without_misfits(room, found, mates, is_whole)}
    if len(batch) == 1:
        return {batch[0]: Verdict('not reached', first_error(said))}
    half = len(batch) // 2
    return {**tried(room, batch[:half], first, is_whole), **tried(room, batch[half:], first, is_whole)}


def without_misfits(room, found, mates, is_whole):
    """Returns the verdicts on those edits of a batch whose change doesn't fit answers by hand, by checks without these answers. A goal that the
    prover closes without them, or shows to be false, is reported as such."""
    dropped, left, verdicts = set(), {it: verdict for it, verdict in found.items() if verdict.misfits}, {}
    for _ in range(ROUNDS):
        if not left:
            break
        dropped |= {(edit.function, goal) for edit, verdict in left.items() for goal in verdict.misfits}
        said = room.check([*left, *mates_of(left, [*found, *mates])], [it.function for it in left], dropped, is_whole)
        own = {it: frozenset(goal for function, goal in dropped if function == it.function) for it in left}
        again = {it: judged(room.crate, said, it, own[it]) for it in left} if reached_prover(said) else {}
        verdicts.update(again)
        left = {it: verdict for it, verdict in again.items() if verdict.misfits}
    return verdicts


def tried_all(room, edits):
    """Returns the verdict on each edit: the first batch alone, since the others begin with its caches, and the others side by side, each in a room of
    its own. An edit of which no goal stays open or has an unfitting answer is tried once more, alone, by whole checks. These decide whether the
    function is proved with it."""
    first, *batches = batches_of(edits)
    found = tried(room, first)
    rooms = [room.beside('batch-%d' % n) for n in range(len(batches))]
    with ThreadPoolExecutor(max(1, len(batches))) as pool:
        for verdicts in pool.map(lambda *it: tried(*it, first), rooms, batches):
            found.update(verdicts)
    room.checks += sum(it.checks for it in rooms)
    for edit, verdict in found.items():
        if verdict.how == 'undecided':
            found[edit] = tried(room, [edit], is_whole=True)[edit]
    return found


def proved_without(room, functions):
    """Returns what is wrong with the functions without an edit: nothing, in a proved crate."""
    said = room.check([], functions, is_whole=True)
    if not reached_prover(said):
        return ['the crate without edits: ' + first_error(said)]
    wrong = [it for it in functions if not is_proved(said, room.crate.name, it)]
    whys = [(it.name(), goals_of(said, room.crate.name, it)) for it in wrong]
    return ['%s is not proved without an edit: %s' % (name, goals[0].line if goals else '?') for name, goals in whys]


def try_edits(crate, edits, words, lanes, with_base=False):
    """Tries edits of a crate by checks with these arguments. Returns the verdict on each by its name, what is wrong without an edit, and the number
    of checks."""
    if not edits:
        return {}, [], 0
    with tempfile.TemporaryDirectory(prefix='wrong-bodies-') as folder:
        room = Room(crate, words, folder, lanes)
        functions = list({it.function.path: it.function for it in edits}.values())
        wrong = proved_without(room, functions) if with_base else []
        verdicts = {} if wrong else {edit.name: it for edit, it in tried_all(room, edits).items()}
    return verdicts, wrong, room.checks
