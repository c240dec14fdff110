"""The record: which edits ended well, each with a hash of all inputs of its verdict, and which are due."""
import hashlib
import os
import re

from .clauses import named_by
from .crates import Crate, functions_of, kit, libraries_below, read, write
from .rooms import OF_FUNCTIONS, Room

# the edits whose hashes fit are tried in so many turns
TURNS = 12
# a character literal, so that a quote in it opens no string
QUOTED = re.compile(r"""'"'|\\.""")


def digest(of):
    return hashlib.sha256(repr(of).encode()).hexdigest()


def without_breaks(path, text):
    """Returns the text of a source without its line breaks, which a check doesn't read; after a comment a break is read, and stays. A source with
    strings over more than one line stays as it is."""
    lines = [it.strip() for it in text.split('\n')]
    quotes = [QUOTED.sub('', it).count('"') for it in lines if not it.startswith('//')]
    if not path.endswith('.rt') or 'r"' in text or 'r#' in text or any(it % 2 for it in quotes):
        return text
    return ''.join(it + ('\n' if '//' in it else ' ') for it in lines if it)


def read_of(laid):
    """Returns what a check reads of the files of a crate, in their order."""
    return sorted((path, without_breaks(path, text)) for path, text in laid.items())


def is_of_the_crate(lines, function):
    """Returns whether none but its own crate can call the function of a file with these lines."""
    if function.trait or lines[function.first].lstrip().startswith('pub '):
        return False
    # whoever sees a trait can call its functions
    around = next((it for it in reversed(lines[: function.first]) if it.strip() and it[0] not in ' })'), '')
    return not lines[function.first].startswith(' ') or around.startswith('impl')


def without_own_functions(file, text):
    """Returns the text of a file of src/ without the functions that none but its crate can call."""
    lines = text.split('\n')
    for function in reversed([it for it in functions_of(file, text, {}) if is_of_the_crate(lines, it)]):
        first = function.first
        while first and re.match(r' *(#\[|///)', lines[first - 1]):
            first -= 1
        del lines[first : function.last + 1]
    return '\n'.join(lines)


def face_of(crate):
    """Returns the hash of what a crate above can read of the crate: its text without bodies and private functions, its definitions and its lemmas."""
    laid = {path: text for path, text in Room(crate, [], '', None).laid([], []).items() if not path.endswith(OF_FUNCTIONS)}
    return digest(read_of({path: without_own_functions(path, text) if path.endswith('.rt') else text for path, text in laid.items()}))


def tool_texts():
    """Returns the texts of the programs that make and judge a check of an edit."""
    folder = os.path.dirname(os.path.abspath(__file__))
    return [read(os.path.join(folder, it)) for it in ('crates.py', 'rooms.py', 'trying.py', 'verdicts.py')]


def kit_here():
    """Returns the line that identifies this kit."""
    return read(os.path.join(kit(), 'KIT-ID')).strip()


def sums_of(crate, edits, kit_line=None):
    """Returns the hash of the inputs of a check of each edit alone, by the edit's name, for a kit, this one if none is named. Inputs are the kit,
    these programs, the readable part of the libraries below, and the laid out crate, all regardless of line breaks."""
    libraries = [Crate(crate.top, it, crate.libraries) for it in libraries_below(crate.name, crate.libraries)]
    basis = digest([kit_line or kit_here(), tool_texts(), [face_of(it) for it in libraries]])
    room = Room(crate, [], '', None)

    def sum_of(edit):
        laid = room.laid([edit], [edit.function])
        return digest([basis, read_of(laid)])[:16]

    return {it.name: sum_of(it) for it in edits}


def path_of(crate):
    return os.path.join(crate.folder, 'wrong', 'refused')


def lines_by_kit(crate):
    """Returns the lines of the file wrong/refused, below the kit's line above them: each a name and a hash, and 'broken' after it if only a proof by
    hand broke."""
    found, own = {}, {}
    for line in read(path_of(crate)).splitlines() if os.path.isfile(path_of(crate)) else []:
        key, _, value = line.partition(': ')
        if key == 'kit':
            own = found.setdefault(value, {})
        else:
            own[line.split()[0]] = line
    return found


def recorded(crate, kit_line=None):
    """Returns the hashes of the edits that ended well with a kit, this one if none is named, by their names."""
    lines = lines_by_kit(crate).get(kit_line or kit_here(), {})
    return {name: line.split()[1] for name, line in lines.items()}


def fitting(crate, edits, kit_line=None):
    """Returns the names of the edits whose recorded hash is the present one."""
    known = recorded(crate, kit_line)
    sums = sums_of(crate, edits, kit_line) if known else {}
    return {it.name for it in edits if it.name in known and known[it.name] == sums[it.name]}


def record(crate, ended):
    """Writes the hashes of the edits that ended well with this kit, each with a last word. It keeps fitting ones of edits that weren't tried, and of
    other kits."""
    edits, _ = crate.edits(crate.names())
    sums, lines = sums_of(crate, edits), lines_by_kit(crate)
    kept = {line: {name: own[name] for name in fitting(crate, edits, line)} for line, own in lines.items()}
    own = {name: line for name, line in kept.get(kit_here(), {}).items() if name not in ended}
    own.update({name: ('%s %s %s' % (name, sums[name], word)).strip() for name, word in ended.items() if word is not None})
    kept[kit_here()] = own
    texts = ['kit: %s\n%s' % (line, ''.join(it + '\n' for _, it in sorted(own.items()))) for line, own in sorted(kept.items()) if own]
    write(path_of(crate), ''.join(texts))


def names_run_alone(shown):
    """Returns whether what shows an edit wrong is a case of symq and no clause: that case refuses it in each full check (`shown.py`)."""
    name, clause = named_by(shown)
    return name.startswith(('tests/cases/', 'tests/forms/')) and not clause


def checked_count(top, name):
    """Returns how many edits of a crate a check tries in their turn."""
    return sum(not names_run_alone(it.named['shown']) for it in Crate(top, name, {name: []}).mutants().values())


def crates_in_turn(top, names, turn):
    """Returns the crates whose turn it is: whole ones, since a check of one edit takes almost as long as that of many in the same crate. The crate
    with most edits comes first, and each goes into the turn that has fewest so far."""
    counts, turns = {it: checked_count(top, it) for it in names}, [[] for _ in range(TURNS)]
    for name in sorted((it for it in counts if counts[it]), key=lambda it: (-counts[it], it)):
        min(turns, key=lambda it: sum(counts[other] for other in it)).append(name)
    return turns[turn % TURNS]


def due(crate, edits, turn):
    """Returns the edits to try in a turn by a check: those whose hash isn't recorded, and all of some crates, other ones in each turn. Edits that a
    run refuses in each full check are left out."""
    tried = [it for it in edits if not names_run_alone(it.shown)]
    if crate.name in crates_in_turn(crate.top, crate.libraries, turn):
        return tried
    fits = fitting(crate, tried)
    return [it for it in tried if it.name not in fits]
